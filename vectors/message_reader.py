"""A reader of message bodies: what each says, by its type; the head of messages.py has the form of an answer.

Written from Adobe's "RTMP 1.0" (sections 5.4 and 7.1), Adobe's "Action Message Format - AMF 0" and document 01, "Bodies": lengths are exact;
type 17 passes over one leading 0; the AMF0 markers are 00, 01, 02, 03, 05, 06, 08 and 0a and no other; texts are UTF-8 (RFC 3629); an empty name
stands only before 09; of equal names the later holds, and then its kind is judged; a value at the top has depth 1, and depth 9 is malformed.
Whole fields are held within 32 bits, and a frame rate is the nearest single, a tie to the even one.
"""
import struct

from amf0_reader import DEPTH, Bad, uint, utf8

# ---- AMF0: a value is (kind, what it holds); `value` gives it and the place after it


def properties(s, at, depth):
    found = []
    while True:
        name, at = utf8(s, at)
        if name == b'':
            if uint(s, at, 1)[0] != 0x09:
                raise Bad
            return found, at + 1
        v, at = value(s, at, depth)
        found.append((name, v))


def value(s, at, depth=1):
    if depth > DEPTH:
        raise Bad
    m, at = uint(s, at, 1)
    if m == 0x00:
        n, at = uint(s, at, 8)
        return ('number', n), at
    if m == 0x01:
        b, at = uint(s, at, 1)
        return ('boolean', b != 0), at
    if m == 0x02:
        t, at = utf8(s, at)
        return ('text', (at - len(t), len(t), t)), at
    if m == 0x03:
        ps, at = properties(s, at, depth + 1)
        return ('object', ps), at
    if m == 0x05 or m == 0x06:
        return ('empty', None), at
    if m == 0x08:
        at = uint(s, at, 4)[1]
        ps, at = properties(s, at, depth + 1)
        return ('object', ps), at
    if m == 0x0a:
        n, at = uint(s, at, 4)
        for _ in range(n):
            at = value(s, at, depth + 1)[1]
        return ('array', None), at
    raise Bad


def values(s, at):
    vs = []
    while at < len(s):
        v, at = value(s, at)
        vs.append(v)
    return vs


def last(ps, name):
    found = ('absent', None)
    for n, v in ps:
        if n == name:
            found = v
    return found


# ---- numbers


def held(bits):
    x = struct.unpack('>d', bits.to_bytes(8, 'big'))[0]
    if x != x or x <= 0:
        return 0
    return 4294967295 if x >= 4294967295 else int(x)


def single(bits):
    """The pattern of the nearest single: the double is m * 2 ** e, and its single a whole number of units of 2 ** u."""
    sign, field, digits = bits >> 63 << 31, bits >> 52 & 0x7ff, bits & (1 << 52) - 1
    if field == 0x7ff:
        return 0x7fc00000 if digits else sign | 0x7f800000
    m, e = (digits, -1074) if field == 0 else (digits | 1 << 52, field - 1075)
    if m == 0:
        return sign
    u = max(m.bit_length() + e - 24, -149)
    if e >= u:
        q = m << (e - u)
    else:
        q, r = divmod(m, 1 << (u - e))
        half = 1 << (u - e - 1)
        if r > half or (r == half and q % 2 == 1):
            q += 1
    if q == 1 << 24:
        q, u = q >> 1, u + 1
    if q < 1 << 23:
        return sign | q
    if u > 104:
        return sign | 0x7f800000
    return sign | (u + 150) << 23 | q - (1 << 23)


# ---- bodies

FIELDS = [b'width', b'height', b'videocodecid', b'framerate', b'videodatarate', b'audiocodecid', b'audiodatarate', b'audiosamplerate',
          b'audiochannels', b'stereo', b'encoder']
LIMITS = ['hard', 'soft', 'dynamic']
EVENTS = {0: 'begin', 1: 'eof', 2: 'dry', 4: 'recorded', 6: 'ping', 7: 'pong'}
NAMES = {b'_result': 'result', b'_error': 'error', b'onStatus': 'onstatus'}
CODES = {b'NetStream.Play.Start': 'play', b'NetStream.Publish.Start': 'publish'}


def exactly(s, n):
    if len(s) != n:
        raise Bad
    return s


def word(s):
    return int.from_bytes(exactly(s, 4), 'big')


def event(s):
    e, at = uint(s, 0, 2)
    if e in EVENTS:
        return '%s %d' % (EVENTS[e], word(s[at:]))
    if e == 3:
        exactly(s, 10)
        return 'buffer %d %d' % (word(s[2:6]), word(s[6:10]))
    raise Bad


def bandwidth(s):
    exactly(s, 5)
    if s[4] > 2:
        raise Bad
    return 'bandwidth %d %s' % (word(s[:4]), LIMITS[s[4]])


def code(v):
    kind, what = last(v[1], b'code')
    if kind != 'text':
        return 'invalid'
    return CODES.get(what[2], 'other %d %d' % what[:2])


def command(s, at):
    (kind, name), at = value(s, at)
    if kind != 'text':
        raise Bad
    (kind, number), at = value(s, at)
    if kind != 'number':
        raise Bad
    place = at
    at = value(s, at)[1]
    vs = values(s, at)
    word = NAMES.get(name[2], 'other')
    if not vs:
        first = 'absent'
    elif vs[0][0] == 'number':
        first = 'number %016x' % vs[0][1]
    elif vs[0][0] == 'object':
        first = 'object'
        if word == 'onstatus':
            first += ' ' + code(vs[0])
    else:
        first = 'other'
    return 'command %s %d %d %016x %d %d %s' % (word, name[0], name[1], number, place, at, first)


def field(name, v):
    kind, what = v
    if name == b'framerate':
        return '%08x' % single(what) if kind == 'number' else '-'
    if name == b'stereo':
        return '%d' % what if kind == 'boolean' else '-'
    if name == b'encoder':
        return '%d,%d' % what[:2] if kind == 'text' else '-'
    return '%d' % held(what) if kind == 'number' else '-'


def data(s):
    vs = values(s, 0)
    if len(vs) >= 2 and vs[0][0] == 'text' and vs[0][1][2] == b'onMetaData' and vs[1][0] == 'object':
        place = value(s, 0)[1]
        return 'metadata %d %s' % (place, ' '.join(field(n, last(vs[1][1], n)) for n in FIELDS))
    return 'data'


def answer(t, s):
    try:
        if t in (1, 2, 3, 5):
            return '%s %d' % ({1: 'chunk', 2: 'abort', 3: 'ack', 5: 'window'}[t], word(s))
        if t == 4:
            return event(s)
        if t == 6:
            return bandwidth(s)
        if t in (8, 9):
            return 'audio' if t == 8 else 'video'
        if t in (15, 18):
            return data(s)
        if t == 20:
            return command(s, 0)
        if t == 17:
            return command(s, 1 if s[:1] == b'\0' else 0)
        return 'unknown'
    except Bad:
        return 'malformed'
