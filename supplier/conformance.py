"""Reads docs/conformance.txt, or the file that HOPSICKLE_LIST names, and holds a module to it. The list's first lines say what
its lines mean."""
import importlib
import os
import sys

LIST = os.environ.get('HOPSICKLE_LIST') or os.path.join(os.path.dirname(os.path.abspath(__file__)), '..', 'docs', 'conformance.txt')
STORE = object()  # stands for the store of the case
ACCEPTED, REFUSED = 'accepted', 'refused'


def octets_of(word):
    return b'' if word == '-' else bytes.fromhex(word)


def decimal(word):
    return int(word, 10)


def hexadecimal(word):
    return int(word, 16)


# how the words after a first word are read: of a description, of an ASDU, and of all else that is given
FRAME_FIELDS = dict(destination=octets_of, source=octets_of, ethertype=hexadecimal, appid=hexadecimal, security=octets_of)
ASDU_FIELDS = dict(svID=octets_of, datSet=octets_of, smpCnt=decimal, confRev=decimal, refrTm=octets_of, smpSynch=decimal,
                   smpRate=decimal, smpMod=decimal, gmIdentity=octets_of)
NUMBERS = dict(channels=decimal, buffer=decimal, length=decimal, octets=octets_of)
LISTS = dict(counts=decimal, qualities=decimal, values=hexadecimal, scales=hexadecimal, room=decimal)
FLAT = ('flat', 'number')


class Case:
    """What is given up to a line of a case."""

    def __init__(self, name):
        self.name = name
        self.frame = dict(destination=bytes(6), source=bytes(6), vlan=None, ethertype=0, appid=0, simulation=False, security=None)
        self.asdus = []
        self.given = dict(channels=0, buffer=1518, length=0, octets=b'', counts=[], qualities=[], values=[], scales=[], room=[192, 192])

    def take(self, word, words):
        """Takes a line that gives something; false where it is none."""
        if word == 'asdu':
            self.asdus.append(dict(svID=b'', datSet=None, smpCnt=0, confRev=0, refrTm=None, smpSynch=0, smpRate=None, smpMod=None, gmIdentity=None))
        elif word == 'vlan':
            self.frame[word] = (hexadecimal(words[0]), hexadecimal(words[1]))
        elif word == 'simulation' and words == ['on']:
            self.frame[word] = True
        elif word in LISTS:
            self.given[word] = [LISTS[word](w) for w in words]
        elif word in FRAME_FIELDS:
            self.frame[word], = map(FRAME_FIELDS[word], words)
        elif word in ASDU_FIELDS:
            self.asdus[-1][word], = map(ASDU_FIELDS[word], words)
        elif word in NUMBERS:
            self.given[word], = map(NUMBERS[word], words)
        else:
            return False
        return True

    def description(self):
        return dict(self.frame, asdus=[dict(a) for a in self.asdus])


def call_of(c, word, words):
    """The arguments of a call and what it has to answer where it accepts, for a line without its answer."""
    g, d = c.given, c.description()
    read = (d, g['length'], g['counts'], g['qualities'])
    if word == 'write':
        return (g['channels'], words[0], d, g['counts'], g['qualities'], g['buffer']), g['octets']
    if word == 'write_values':
        return (g['scales'], words[0], d, g['values'], g['qualities'], g['buffer']), g['octets']
    if word == 'size':
        return (g['channels'], words[0], d), None
    if word in ('read', 'read_checked'):
        return (g['channels'], g['octets'], g['room']), read
    if word == 'read_strict':
        return (g['channels'], words[0], g['octets'], g['room']), read
    if word == 'read_granted':
        return (g['channels'], hexadecimal(words[0]), g['octets'], g['room']), read
    if word == 'decode':
        return (g['channels'], g['octets'], decimal(words[0]), g['room']), (d, g['counts'], g['qualities'])
    if word == 'header':
        return (g['octets'],), tuple(d[k] for k in ('destination', 'source', 'vlan', 'ethertype', 'appid')) + (g['length'], None)
    if word == 'values_of':
        return (g['scales'], decimal(words[0]), g['counts'], g['room']), g['values']
    if word == 'count_of':
        return (hexadecimal(words[0]), hexadecimal(words[1])), None
    if word == 'sets_add':
        return (STORE, decimal(words[0]), g['scales']), None
    if word == 'read_by_sets':
        return (STORE, g['octets'], g['room']), (g['scales'],) + read
    if word in ('tag_length', 'unsigned_integer'):
        return (hexadecimal(words[0]), decimal(words[1]), g['buffer']), g['octets']
    if word == 'octet_string':
        return (hexadecimal(words[0]), octets_of(words[1]), g['buffer']), g['octets']
    raise ValueError('unknown word ' + word)


def answered(c, word, words):
    """A call's arguments, and its answer: accepted with what is handed back, or refused with number and place."""
    if word == 'is_smv':
        return (c.given['octets'],), (ACCEPTED, dict(yes=True, no=False)[words[0]])
    if word == 'is_good':
        return (hexadecimal(words[0]),), (ACCEPTED, dict(yes=True, no=False)[words[1]])
    if word == 'nanoseconds':
        return (decimal(words[0]),), (ACCEPTED, decimal(words[1]))
    if word == 'value_of':
        return (decimal(words[0]), hexadecimal(words[1])), (ACCEPTED, hexadecimal(words[2]))
    if REFUSED in words:
        at = words.index(REFUSED)
        number, place = words[at + 1:]
        return call_of(c, word, words[:at])[0], (REFUSED, (decimal(number), decimal(place)))
    at = words.index(ACCEPTED)
    arguments, found = call_of(c, word, words[:at])
    numbers = [decimal(w) for w in words[at + 1:]]
    if word == 'header':
        found, numbers = found[:-1] + tuple(numbers), []
    if len(numbers) != (1 if found is None else 0):
        raise ValueError('another answer than ' + word + ' has')
    return arguments, (ACCEPTED, numbers[0] if found is None else found)


def lines_of(path):
    with open(path) as f:
        for number, line in enumerate(f, 1):
            words = line.rstrip('\n').split(' ')
            if words[0] and words[0][0] != '#':
                yield number, words[0], words[1:]


def calls_of(path):
    """Every call of the list: line, case, function, arguments, answer. Cases of the flat form are left out."""
    calls, case, left_out = [], None, set()
    for number, word, words in lines_of(path):
        if word == 'case':
            case = Case(' '.join(words))
        elif word in FLAT:
            left_out.add(case)
        elif not case.take(word, words):
            calls.append((number, case, word) + answered(case, word, words))
    return [c for c in calls if c[1] not in left_out], left_out


def answer_of(module, function, arguments):
    """What a module answers; an error of its own is an answer too, and a wrong one."""
    try:
        return (ACCEPTED, getattr(module, function)(*arguments))
    except module.Refused as r:
        return (REFUSED, tuple(r.args))
    except Exception as e:  # a module that fails has not answered
        return (type(e).__name__, str(e))


def differences(module, calls):
    """Each call that a module answers otherwise, as line, case and what it answers."""
    case, store = None, None
    for number, c, function, arguments, answer in calls:
        if c is not case:
            case, store = c, []
        got = answer_of(module, function, [store if a is STORE else a for a in arguments])
        if got != answer:
            yield number, c.name, function, got


def main():
    """Argument: the module's name, module or library."""
    module = importlib.import_module(sys.argv[1] if len(sys.argv) > 1 else 'module')
    calls, left_out = calls_of(LIST)
    has = [c for c in calls if hasattr(module, c[2])]
    found = list(differences(module, has))
    for number, name, function, got in found[:20]:
        print('line %d, %s: %s answered %s' % (number, name, function, got))
    print('%s: %d answers of %d cases, %d differ; left out: %d answers of calls that it has not, %d cases of the flat form'
          % (module.__name__, len(has), len({c[1] for c in has}), len(found), len(calls) - len(has), len(left_out)))
    return 1 if found or not has else 0


if __name__ == '__main__':
    sys.exit(main())
