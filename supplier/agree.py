"""Generated calls, answered by module.py and by the static library: every answer has to be the same.

Arguments: how many calls (5000), and the seed (1). Prints how many there were of each call, accepted and refused by number."""
import collections
import random
import sys

import library
import module
from conformance import ACCEPTED, answer_of

FORMS = ('shortest', 'fixed')
EDGES = (0, 1, 127, 128, 255, 256, 32767, 32768, 65535)
FLOATS = (0, 0x80000000, 0x3F000000, 0x3F800000, 0xBF800000, 0x4F000000, 0xCF000000, 0x4F000001, 0x7F800000, 0xFF800000, 0x7FC00000,
          1, 0x7F7FFFFF, 0x38D1B717, 0x3A83126F, 0x4B7FFFFF, 0x3DCCCCCD)
TAGS = (0, 0x30, 0x60, 0x7F, 0x80, 0x81, 0x82, 0x83, 0x84, 0x85, 0x86, 0x87, 0x88, 0x89, 0xA2, 0xFF)


class Generator:
    def __init__(self, seed):
        self.r = random.Random(seed)

    def one_in(self, n):
        return self.r.randrange(n) == 0

    def octets(self, n):
        return bytes(self.r.randrange(256) for _ in range(n))

    def optional(self, value):
        return value if self.one_in(2) else None

    def number(self, bits):
        n = self.r.choice(EDGES) if self.one_in(2) else self.r.randrange(1 << self.r.randrange(1, bits + 1))
        return n if self.one_in(60) else n % (1 << bits)

    def text(self, limit):
        if self.one_in(12):
            return self.octets(self.r.choice((limit - 1, limit, limit + 1, limit + 2)))
        return self.octets(self.r.randrange(12))

    def asdu(self, few):
        """Of few, confRev is one of three numbers, so that several ASDUs often have the same."""
        conf_rev = self.r.choice((1, 1, 1, 2, 3)) if few else self.number(32) % (1 << 32)
        return dict(svID=self.text(module.TEXT), datSet=self.optional(self.text(module.TEXT)), smpCnt=self.number(16), confRev=conf_rev,
                    refrTm=self.optional(self.octets(8)), smpSynch=self.number(8), smpRate=self.optional(self.number(16)),
                    smpMod=self.optional(self.number(16)), gmIdentity=self.optional(self.octets(8)))

    def description(self, few=False):
        vlan = self.optional((0x88A8 if self.one_in(20) else 0x8100, self.number(16)))
        asdus = self.r.choice((1, 1, 1, 2, 2, 3, 8)) if not self.one_in(20) else self.r.choice((0, 9))
        return dict(destination=self.octets(6), source=self.octets(6), vlan=vlan, ethertype=0x88B8 if self.one_in(30) else 0x88BA,
                    appid=self.number(16), simulation=self.one_in(2), security=self.optional(self.text(module.SECURITY)),
                    asdus=[self.asdu(few) for _ in range(asdus)])

    def channels(self):
        return self.r.choice((0, 1, 1, 2, 3, 8)) if not self.one_in(12) else self.r.choice((23, 24, 25))

    def count(self):
        return self.r.randrange(-1 << 31, 1 << 31) if self.one_in(2) else self.r.randrange(-1000, 1000)

    def quality(self):
        return self.r.randrange(module.QUALITY) if not self.one_in(200) else self.r.choice((module.QUALITY, (1 << 32) - 1))

    def f32(self):
        if self.one_in(3):
            return self.r.choice(FLOATS)
        return self.r.randrange(1 << 32) if self.one_in(3) else self.r.randrange(0x35000000, 0x4F800000)

    def elements(self, n, element):
        """As many elements as are needed, or one less or more."""
        return [element() for _ in range(max(0, n + self.r.choice((0, 0, 0, 0, 0, 0, 1, -1))))]

    def changed(self, frame):
        """A frame with some octets changed, taken out or put in."""
        s = bytearray(frame)
        for _ in range(self.r.choice((0, 1, 1, 1, 2, 3))):
            at = self.r.randrange(len(s) + 1)
            what = self.r.randrange(8)
            if what < 3 and at < len(s):
                s[at] = self.r.choice(TAGS)
            elif what < 5 and at < len(s):
                s[at] = (s[at] + self.r.choice((-1, 1, 8, 128))) % 256
            elif what == 5 and at < len(s):
                del s[at]
            elif what == 6:
                s[at:at] = self.octets(1)
            elif self.one_in(2):
                del s[at:]
        return bytes(s)

    def longer_lengths(self, frame):
        """A frame whose PDU has a length in more octets than it needs."""
        at = 26 if frame[12:14] == b'\x81\x00' else 22
        if at + 1 < len(frame) and frame[at + 1] < 128:
            return frame[:at + 1] + self.r.choice((b'\x81', b'\x82\x00', b'\x83\x00\x00')) + frame[at + 1:]
        return frame

    def frame(self, few=False):
        """Octets to read, and a number of channels."""
        n = self.r.choice((0, 1, 1, 2, 3))
        d = self.description(few)
        m = len(d['asdus']) * n
        try:
            s = module.write(n, self.r.choice(FORMS), d, [self.count() for _ in range(m)], [self.r.randrange(module.QUALITY) for _ in range(m)], module.LARGEST)
        except module.Refused:
            s = self.octets(self.r.randrange(80))
        if self.one_in(8):
            s = self.longer_lengths(s)
        s = self.changed(s) if not self.one_in(4) else s
        return s, n if not self.one_in(10) else self.channels()

    def room(self):
        return (192, 192) if not self.one_in(6) else (self.r.randrange(8), self.r.randrange(8))

    def writing(self):
        d, n, form = self.description(), self.channels(), self.r.choice(FORMS)
        m = len(d['asdus']) * n
        buffer = module.LARGEST if not self.one_in(8) else self.r.randrange(200)
        qualities = self.elements(m, self.quality)
        yield 'size', (n, form, d)
        yield 'write', (n, form, d, self.elements(m, self.count), qualities, buffer)
        yield 'write_values', ([self.f32() for _ in range(n)], form, d, self.elements(m, self.f32), qualities, buffer)
        ones = [self.r.choice((0x3F800000, 0x3A83126F)) for _ in range(n)]
        yield 'write_values', (ones, form, d, [self.r.randrange(0x40000000, 0x47000000) for _ in range(m)], qualities, buffer)

    def reading(self):
        s, n = self.frame()
        room = self.room()
        yield 'read', (n, s, room)
        yield 'read_checked', (n, s, room)
        for form in FORMS:
            yield 'read_strict', (n, form, s, room)
        yield 'read_granted', (n, self.r.randrange(1 << self.r.choice((2, 4, 32))), s, room)
        start = self.r.choice((22, 26, 0, len(s), self.r.randrange(60), self.r.randrange(1 << 64)))
        yield 'decode', (n, s, start, room)
        yield 'header', (s[:self.r.randrange(30)],)
        yield 'is_smv', (s[:self.r.randrange(30)],)

    def scaling(self):
        n, asdus = self.channels(), self.r.randrange(4)
        yield 'values_of', ([self.f32() for _ in range(n)], asdus, self.elements(n * asdus, self.count), (self.r.choice((192, n * asdus, 3)), 0))


def compare(tally, function, own, other):
    """Counts a call and says whether the two answers are the same; own and other are the arguments."""
    a, b = answer_of(module, function, own), answer_of(library, function, other)
    tally[function, a[0] if a[0] == ACCEPTED else 'refused %d' % a[1][0]] += 1
    if a == b:
        return True
    print('%s%r\n  module:  %r\n  library: %r' % (function, tuple(own), a, b))
    return False


def by_sets(g, tally):
    """Additions to a store, and a frame read by it."""
    own, other = [], []
    same = True
    rev = 0
    for _ in range(g.r.choice((1, 2, 3, 34))):
        rev += g.r.choice((1, 1, 1, 0, -1))
        scales = [g.f32() for _ in range(g.r.choice((0, 1, 1, 2, 25)))]
        same &= compare(tally, 'sets_add', (own, max(rev, 0), scales), (other, max(rev, 0), scales))
    for _ in range(3):
        s, _ = g.frame(few=True)
        room = g.room()
        same &= compare(tally, 'read_by_sets', (own, s, room), (other, s, room))
    return same


def main():
    most = int(sys.argv[1]) if len(sys.argv) > 1 else 5000
    g = Generator(int(sys.argv[2]) if len(sys.argv) > 2 else 1)
    tally = collections.Counter()
    differ = 0
    while sum(tally.values()) < most:
        for part in (g.writing, g.reading, g.reading, g.scaling):
            for function, arguments in part():
                differ += not compare(tally, function, arguments, arguments)
        differ += not by_sets(g, tally)
    for function in dict.fromkeys(f for f, _ in tally):
        print('%s: %s' % (function, ', '.join('%s %d' % (a, n) for (f, a), n in sorted(tally.items()) if f == function)))
    print('%d calls, module and library answer %d otherwise' % (sum(tally.values()), differ))
    return 1 if differ else 0


if __name__ == '__main__':
    sys.exit(main())
