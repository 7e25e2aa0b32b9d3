"""Wrong modules: module.py with one text of breaks.txt replaced by another, each held to the list, which has to find it.

Prints each that the list doesn't find, then how many there are and how many are found. With -v also the line that finds each."""
import os
import re
import signal
import sys
import types

from conformance import LIST, calls_of, differences

HERE = os.path.dirname(os.path.abspath(__file__))
SECONDS = 60  # a module that doesn't come to an end is found by this


def source():
    with open(os.path.join(HERE, 'module.py')) as f:
        return f.read()


def broken(text, function, old, new):
    """The module with a text of one function replaced; the text has to stand there once."""
    start = re.search(r'^def %s\(' % function, text, re.M).start()
    end = text.find('\ndef ', start + 1)
    own = text[start:end] if end > 0 else text[start:]
    if own.count(old) != 1:
        raise ValueError('%s has not once: %s' % (function, old))
    return text[:start] + own.replace(old, new) + text[start + len(own):]


def breaks(text):
    """Name and module; in breaks.txt three lines: the name, - FUNCTION: TEXT, + TEXT."""
    with open(os.path.join(HERE, 'breaks.txt')) as f:
        lines = [line.rstrip('\n') for line in f if line.strip() and line[0] != '#']
    for name, old, new in zip(lines[0::3], lines[1::3], lines[2::3]):
        if not (old.startswith('- ') and new.startswith('+ ')):
            raise ValueError(name + ': no - and + line')
        function, _, old = old[2:].partition(': ')
        yield name, broken(text, function, old, new[2:])


def module_of(text):
    m = types.ModuleType('broken')
    exec(compile(text, 'module.py', 'exec'), m.__dict__)
    return m


def too_long(signum, frame):
    raise TimeoutError


def found_by(text, calls):
    """The first line of the list that a module answers otherwise, or none."""
    signal.alarm(SECONDS)
    try:
        return next(differences(module_of(text), calls), None)
    except (TimeoutError, SyntaxError, NameError) as e:
        return (0, '', '', type(e).__name__)
    finally:
        signal.alarm(0)


def main():
    signal.signal(signal.SIGALRM, too_long)
    calls, _ = calls_of(LIST)
    text = source()
    if found_by(text, calls):
        print('module.py itself differs from the list')
        return 1
    names, caught = set(), 0
    for name, wrong in breaks(text):
        found = found_by(wrong, calls)
        if name in names or found and not found[0]:
            print('%s: twice, or no module: %s' % (name, found))
            return 1
        names.add(name)
        if found is None:
            print('not found: %s' % name)
            continue
        caught += 1
        if '-v' in sys.argv:
            print('%s: line %d, %s: %s' % (name, found[0], found[1], found[3]))
    print('%d wrong modules, the list finds %d' % (len(names), caught))
    return 0 if names and caught == len(names) else 1


if __name__ == '__main__':
    sys.exit(main())
