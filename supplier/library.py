"""The static library's calls with the interface of module.py, by ctypes. The library is made shared by supplier/run."""
import ctypes
import os
from ctypes import POINTER, byref, c_bool, c_float, c_int32, c_size_t, c_uint16, c_uint32, c_uint8, cast

from module import ASDUS, CHANNELS, SECURITY, SETS, TEXT

ROOT = os.path.join(os.path.dirname(os.path.abspath(__file__)), '..')
SHARED = os.path.join(ROOT, 'target', 'libhopsickle.so')
CALLS = ctypes.CDLL(SHARED)
CALLS.hopsickle_is_smv.restype = c_bool
for name in ('header', 'read', 'read_checked', 'read_granted', 'read_strict', 'decode', 'read_by_sets', 'sets_add', 'values',
             'write', 'write_values', 'size'):
    getattr(CALLS, 'hopsickle_' + name).restype = c_size_t

# the places of the flat form (docs/DEFINITION.md, appendix A)
HEAD_NUMBERS, ASDU_NUMBERS = 10, 12
HEAD_OCTETS, ASDU_OCTETS = 12 + SECURITY, 2 * TEXT + 16
SET_NUMBERS, SET_SCALES = 1 + 2 * SETS, CHANNELS * SETS


class Refused(Exception):
    """A refusal: its number and its place."""


def array(kind, elements):
    """An array and the number of its elements, as two arguments; one more element stands behind it, which nothing may change."""
    return (kind * (len(elements) + 1))(*elements), c_size_t(len(elements))


def floats(bits):
    a, n = array(c_uint32, bits)
    return cast(a, POINTER(c_float)), n


def checked(number, beside):
    if number:
        raise Refused(number, beside.value)
    return beside.value


def optional(numbers, mark, value):
    """Puts a mark, and the number behind it where the field is there."""
    numbers[mark] = int(value is not None)
    if isinstance(value, int):
        numbers[mark + 1] = value


def flat(d):
    """The two arrays of a description."""
    asdus = d['asdus']
    numbers = [0] * (HEAD_NUMBERS + ASDU_NUMBERS * len(asdus))
    octets = bytearray(HEAD_OCTETS + ASDU_OCTETS * len(asdus))

    def put(at, content, most):
        octets[at:at + min(len(content), most)] = content[:most]

    numbers[0:7] = [int(d['vlan'] is not None), *(d['vlan'] or (0, 0)), d['ethertype'], d['appid'], 0, int(d['simulation'])]
    numbers[7:10] = [int(d['security'] is not None), len(d['security'] or b''), len(asdus)]
    put(0, d['destination'], 6)
    put(6, d['source'], 6)
    put(12, d['security'] or b'', SECURITY)
    for i, a in enumerate(asdus):
        n, o = HEAD_NUMBERS + ASDU_NUMBERS * i, HEAD_OCTETS + ASDU_OCTETS * i
        numbers[n] = len(a['svID'])
        numbers[n + 1:n + 3] = [int(a['datSet'] is not None), len(a['datSet'] or b'')]
        numbers[n + 3], numbers[n + 4], numbers[n + 6] = a['smpCnt'], a['confRev'], a['smpSynch']
        numbers[n + 5], numbers[n + 11] = int(a['refrTm'] is not None), int(a['gmIdentity'] is not None)
        optional(numbers, n + 7, a['smpRate'])
        optional(numbers, n + 9, a['smpMod'])
        put(o, a['svID'], TEXT)
        put(o + TEXT, a['datSet'] or b'', TEXT)
        put(o + 2 * TEXT, a['refrTm'] or b'', 8)
        put(o + 2 * TEXT + 8, a['gmIdentity'] or b'', 8)
    return array(c_uint32, numbers) + array(c_uint8, bytes(octets))


def described(numbers, octets):
    """The description that two arrays stand for."""
    def given(mark, value):
        return value if mark else None

    d = dict(destination=octets[0:6], source=octets[6:12], vlan=given(numbers[0], (numbers[1], numbers[2])), ethertype=numbers[3],
             appid=numbers[4], simulation=bool(numbers[6]), security=given(numbers[7], octets[12:12 + numbers[8]]), asdus=[])
    for i in range(numbers[9]):
        n, o = numbers[HEAD_NUMBERS + ASDU_NUMBERS * i:], octets[HEAD_OCTETS + ASDU_OCTETS * i:]
        d['asdus'].append(dict(svID=o[:n[0]], datSet=given(n[1], o[TEXT:TEXT + n[2]]), smpCnt=n[3], confRev=n[4],
                               refrTm=given(n[5], o[2 * TEXT:2 * TEXT + 8]), smpSynch=n[6], smpRate=given(n[7], n[8]),
                               smpMod=given(n[9], n[10]), gmIdentity=given(n[11], o[2 * TEXT + 8:2 * TEXT + 16])))
    return d


def reading(call, octets, before, room, samples):
    """A reading: the arguments between the octets and the arrays; samples says how many of an ASDU are handed back."""
    numbers = array(c_uint32, [7] * (HEAD_NUMBERS + ASDU_NUMBERS * ASDUS))
    own = array(c_uint8, [7] * (HEAD_OCTETS + ASDU_OCTETS * ASDUS))
    counts, qualities = array(c_int32, [7] * room[0]), array(c_uint32, [7] * room[1])
    place = c_size_t(7)
    checked(call(*array(c_uint8, octets), *before, *numbers, *own, *counts, *qualities, byref(place)), place)
    k = list(numbers[0])
    m = k[9] * samples()
    return described(k, bytes(own[0])), k[5], list(counts[0][:m]), list(qualities[0][:m])


def read(channels, octets, room):
    return reading(CALLS.hopsickle_read, octets, (c_size_t(channels),), room, lambda: channels)


def read_checked(channels, octets, room):
    return reading(CALLS.hopsickle_read_checked, octets, (c_size_t(channels),), room, lambda: channels)


def read_strict(channels, form, octets, room):
    return reading(CALLS.hopsickle_read_strict, octets, (c_size_t(channels), c_bool(form == 'fixed')), room, lambda: channels)


def read_granted(channels, mask, octets, room):
    shown = bin(mask % (1 << channels)).count('1')
    return reading(CALLS.hopsickle_read_granted, octets, (c_size_t(channels), c_uint32(mask)), room, lambda: shown)


def decode(channels, octets, start, room):
    d, _, counts, qualities = reading(CALLS.hopsickle_decode, octets, (c_size_t(start), c_size_t(channels)), room, lambda: channels)
    return d, counts, qualities


def header(octets):
    numbers, own, place = array(c_uint32, [7] * 6), array(c_uint8, [7] * 12), c_size_t(7)
    at = checked(CALLS.hopsickle_header(*array(c_uint8, octets), *numbers, *own, byref(place)), place)
    k, o = numbers[0], bytes(own[0])
    return o[0:6], o[6:12], (k[1], k[2]) if k[0] else None, k[3], k[4], k[5], at


def is_smv(octets):
    return CALLS.hopsickle_is_smv(*array(c_uint8, octets))


def written(call, arguments, buffer):
    frame, size = array(c_uint8, [7] * buffer), c_size_t(7)
    return bytes(frame[0][:checked(call(*arguments, *frame, byref(size)), size)])


def write(channels, form, d, counts, qualities, buffer):
    return written(CALLS.hopsickle_write, (*flat(d), c_size_t(channels), c_bool(form == 'fixed'), *array(c_int32, counts),
                                           *array(c_uint32, qualities)), buffer)


def write_values(scales, form, d, values, qualities, buffer):
    return written(CALLS.hopsickle_write_values, (*flat(d), *floats(scales), c_bool(form == 'fixed'), *floats(values),
                                                  *array(c_uint32, qualities)), buffer)


def size(channels, form, d):
    beside = c_size_t(7)
    return checked(CALLS.hopsickle_size(*flat(d), c_size_t(channels), c_bool(form == 'fixed'), byref(beside)), beside)


def bits_of(x):
    """The bits of an f32, 7fc00000 for every NaN."""
    return 0x7FC00000 if x & 0x7FFFFFFF > 0x7F800000 else x


def values_of(scales, no_asdu, counts, room):
    values, n = array(c_uint32, [7] * room[0])
    beside = c_size_t(7)
    m = checked(CALLS.hopsickle_values(*floats(scales), c_uint16(no_asdu), *array(c_int32, counts), cast(values, POINTER(c_float)), n,
                                       byref(beside)), beside)
    return [bits_of(x) for x in values[:m]]


def arrays_of(store):
    """The two arrays of a store, which a list keeps as its only element."""
    if not store:
        store.append(((c_uint32 * SET_NUMBERS)(), (c_uint32 * SET_SCALES)()))
    return store[0]


def sets_add(store, conf_rev, scales):
    sets, factors = arrays_of(store)
    held = c_size_t(7)
    return checked(CALLS.hopsickle_sets_add(sets, cast(factors, POINTER(c_float)), c_uint32(conf_rev), *floats(scales), byref(held)), held)


def read_by_sets(store, octets, room):
    sets, factors = arrays_of(store)
    channels, scales = c_size_t(7), (c_uint32 * CHANNELS)()
    before = (sets, cast(factors, POINTER(c_float)), byref(channels), cast(scales, POINTER(c_float)))
    found = reading(CALLS.hopsickle_read_by_sets, octets, before, room, lambda: channels.value)
    return (list(scales[:channels.value]),) + found
