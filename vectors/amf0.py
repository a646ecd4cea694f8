#!/usr/bin/env python3
"""Writes amf0.txt beside this script: bodies of AMF0 values and what a reader has to answer of each, which amf0_reader.py works out.

Each line has six fields with tabs between them:
  the body in hexadecimal, `-` for none
  how many values stand to its end, or `bad`
  the place after the first value, or `bad`
  the kind of the first value by its front alone: `number BITS`, `boolean 0` or `1`, `text START LEN`, `object`, `null`, `undefined`, `array`, `bad`
  where the value of its last property `code` starts: `at PLACE`, `absent`, `bad`. Of a value that is no object: `absent`, by its marker alone
  where the text lies that this property holds: `START LEN`, `absent`
"""
import os
import random
import struct

from amf0_reader import line

# ---- writing

END = b'\x00\x00\x09'
NULL, UNDEFINED = b'\x05', b'\x06'


def number(x):
    return b'\x00' + struct.pack('>d', x)


def boolean(b):
    return bytes([1, b])


def name(t):
    return struct.pack('>H', len(t)) + t


def text(t):
    return b'\x02' + name(t)


def props(*pairs):
    return b''.join(name(n) + v for n, v in pairs) + END


def obj(*pairs):
    return b'\x03' + props(*pairs)


def ecma(*pairs, said=None):
    return b'\x08' + struct.pack('>I', len(pairs) if said is None else said) + props(*pairs)


def strict(*values, said=None):
    return b'\x0a' + struct.pack('>I', len(values) if said is None else said) + b''.join(values)


def nested(wrap, times, inner):
    for i in range(times):
        inner = wrap[i % len(wrap)](inner)
    return inner


IN_OBJECT = lambda v: obj((b'a', v))
IN_ECMA = lambda v: ecma((b'a', v))
IN_STRICT = lambda v: strict(v)
IN_CODE = lambda v: obj((b'x', NULL), (b'code', v))

# ---- cases

CONNECT = text(b'connect') + number(1.0) + obj(
    (b'app', text(b'live')), (b'flashVer', text(b'WIN 23,0,0,207')), (b'objectEncoding', number(0.0)), (b'tcUrl', text(b'rtmp://localhost/live')))
RESULT = text(b'_result') + number(1.0) + obj((b'fmsVer', text(b'FMS/3,0,1,123')), (b'capabilities', number(31.0))) + obj(
    (b'level', text(b'status')), (b'code', text(b'NetConnection.Connect.Success')), (b'description', text(b'Connection succeeded.')),
    (b'data', ecma((b'version', text(b'3,0,1,123')))))
INFO = obj((b'level', text(b'status')), (b'code', text(b'NetStream.Publish.Start')), (b'description', text('läuft'.encode())))
STATUS = text(b'onStatus') + number(0.0) + NULL + INFO
CREATED = text(b'_result') + number(4.0) + NULL + number(1.9)
METADATA = ecma(
    (b'width', number(1920.0)), (b'height', number(1080.0)), (b'framerate', number(29.97)), (b'stereo', boolean(1)), (b'encoder', text(b'obs')),
    (b'code', text(b'x')), said=2)
MIXED = strict(NULL, obj((b'code', strict(boolean(0), UNDEFINED))), ecma((b'k', text(b'')))) + boolean(7) + UNDEFINED

NOT_UTF8 = [
    b'\xff', b'\x80', b'a\xc3', b'\xc0\x80', b'\xc1\xbf', b'\xe0\x80\x80', b'\xe0\x9f\xbf', b'\xed\xa0\x80', b'\xed\xbf\xbf', b'\xf0\x80\x80\x80', b'\xf0\x8f\xbf\xbf',
    b'\xf4\x90\x80\x80', b'\xf5\x80\x80\x80', b'\xe2\x82', b'\xf0\x9f\x98', b'\xc3(', b'ok\xfe']
GOOD_UTF8 = [
    b'\x00', b'\x7f', b'\xc2\x80', b'\xdf\xbf', b'\xe0\xa0\x80', b'\xec\xbf\xbf', b'\xed\x9f\xbf', b'\xee\x80\x80', b'\xef\xbf\xbf', b'\xf0\x90\x80\x80',
    b'\xf3\xbf\xbf\xbf', b'\xf4\x8f\xbf\xbf', 'größer €😀'.encode()]


def markers():
    yield b''
    for m in range(256):
        b = bytes([m])
        yield b
        yield b + b'\x00\x01a\x05\x00\x00\x09'
        if m < 0x12:
            yield b + b'\x00\x00\x09'
            yield b + b'\x00\x00\x00\x02\x05\x05'
            yield b + b'\x00\x00\x00\x00\x00\x04code\x02\x00\x01x\x00\x00\x09'
            yield NULL + b
            yield obj((b'code', b))
            yield strict(b)
            yield obj((b'code', text(b'y'))) + b


def layouts():
    for x in (0.0, -0.0, 1.0, -3.0, 0.9, 4294967296.0, 29.97, float('inf'), 5e-324):
        yield number(x)
    yield b'\x00\x7f\xf8' + bytes(6)
    yield b'\x00\xff\xff\xff\xff\xff\xff\xff\xff'
    for b in (0, 1, 2, 127, 128, 255):
        yield boolean(b)
    for t in GOOD_UTF8 + NOT_UTF8:
        yield text(t)
        yield obj((b'code', text(t)))
        yield obj((b'code', text(t))) + NULL
    yield from (obj(), ecma(), strict(), NULL, UNDEFINED, INFO, METADATA, MIXED)
    yield obj((b'x', number(1.0)), (b'y', number(2.0)))
    yield ecma((b'0', text(b'a')), (b'1', text(b'b')))
    yield strict(number(1.0), text(b'two'), boolean(1), NULL, UNDEFINED, obj(), ecma(), strict())


def depths():
    inners = (NULL, UNDEFINED, boolean(1), number(2.0), text(b'in'), obj(), ecma(), strict(), obj((b'b', NULL)))
    wraps = ((IN_OBJECT,), (IN_ECMA,), (IN_STRICT,), (IN_OBJECT, IN_STRICT, IN_ECMA), (IN_CODE,))
    for wrap in wraps:
        for times in (5, 6, 7, 8):
            for inner in inners:
                yield nested(wrap, times, inner)
    # too deep after a sibling, before one, and where the property is asked for
    for times in (6, 7, 8):
        deep = nested((IN_STRICT,), times, NULL)
        yield obj((b'code', text(b'ok')), (b'z', deep))
        yield obj((b'z', deep), (b'code', text(b'ok')))
        yield NULL + deep
        yield deep + NULL
        yield strict(NULL, deep)


def names():
    t, u = text(b'first'), text(b'second one')
    for wrap in (obj, ecma):
        yield wrap((b'code', t), (b'code', NULL))
        yield wrap((b'code', NULL), (b'code', t))
        yield wrap((b'code', t), (b'code', u))
        yield wrap((b'code', t), (b'x', u), (b'code', u), (b'y', NULL))
        yield wrap((b'x', NULL), (b'code', t), (b'x', NULL), (b'code', NULL), (b'x', NULL))
        yield wrap((b'x', NULL), (b'code', NULL), (b'x', u), (b'code', t), (b'x', NULL))
        yield wrap((b'code', t), (b'code', t), (b'code', t))
        for v in (NULL, UNDEFINED, number(1.0), boolean(1), text(b''), obj((b'code', t)), ecma((b'code', t)), strict(t)):
            yield wrap((b'code', v))
            yield wrap((b'code', v), (b'level', t))
            yield wrap((b'level', t), (b'code', v))
        for n in (b'c', b'cod', b'codes', b'codec', b'Code', b'code\x00', b' code', b'edoc', 'cöde'.encode(), b'codecode'):
            yield wrap((n, t))
            yield wrap((n, t), (b'code', u))
            yield wrap((b'code', u), (n, t))
        for n in NOT_UTF8:
            yield wrap((n, t))
            yield wrap((b'code', t), (n, NULL))
            yield wrap((n, NULL), (b'code', t))
        # nested properties of that name don't count
        yield wrap((b'x', obj((b'code', t))))
        yield wrap((b'code', t), (b'x', wrap((b'code', NULL))))
        # an empty name in the middle, and 09 in odd places
        head = wrap((b'code', t))[:-3]
        for tail in (
            b'\x00\x00\x05\x00\x00\x09', b'\x00\x00\x02\x00\x01x\x00\x00\x09', b'\x00\x00', b'\x00', b'', b'\x00\x00\x09\x09', b'\x00\x01x\x09', b'\x00\x01x\x09\x00\x00\x09',
            b'\x09', b'\x00\x09', b'\x00\x00\x00\x09', b'\x00\x00\x0a', b'\x00\x00\x09\x00\x00\x09', b'\x00\x01\x09\x05\x00\x00\x09', b'\x00\x02\x00\x00\x05\x00\x00\x09'):
            yield head + tail
    for s in (b'\x09', b'\x00\x00\x09', b'\x03\x09', b'\x03\x00\x09', b'\x0a\x00\x00\x00\x01\x09', NULL + b'\x09', b'\x03\x00\x00\x09\x09', b'\x08\x00\x00\x09', b'\x08\x00\x00\x00\x00\x09'):
        yield s
    yield text(b'code') + obj((b'code', t))
    yield strict(obj((b'code', t)))
    yield NULL + obj((b'code', t))


def counts():
    pairs = ((b'a', NULL), (b'code', text(b'c')), (b'b', NULL))
    for n in (0, 1, 2, 3, 4, 255, 65536, 4294967295):
        yield ecma(*pairs, said=n)
        yield ecma(said=n)
        yield strict(NULL, text(b'c'), NULL, said=n)
        yield strict(said=n)
        yield strict(obj(*pairs), said=n)
        yield NULL + strict(NULL, said=n)
        yield obj((b'code', strict(NULL, said=n)))
        yield strict(*[strict(said=n)] * 3)


def lengths():
    for n in (0, 1, 2, 127, 128, 254, 255, 256, 257):
        t = b'x' * n
        yield text(t)
        yield text(t) + NULL
        yield text(t)[:-1]
        yield obj((b'code', text(t)))
        yield obj((t, NULL), (b'code', text(b'c')))
        yield b'\x02' + struct.pack('>H', n + 1) + t
    long = b'y' * 65535
    yield text(long)
    yield text(long)[:-1]
    yield text(long) + NULL
    yield obj((long, NULL), (b'code', text(b'c')))
    yield obj((b'code', text(long)))
    yield obj((b'code', text(long[:-1] + b'\xc3')))


GOOD = (CONNECT, RESULT, STATUS, CREATED, METADATA, MIXED, INFO)


def cut():
    for s in GOOD:
        for n in range(len(s)):
            yield s[:n]
    for s in (nested((IN_OBJECT, IN_STRICT, IN_ECMA), 7, NULL), nested((IN_CODE,), 7, text(b'in'))):
        for n in range(len(s)):
            yield s[:n]


def rows():
    values = (NULL, UNDEFINED, boolean(1), number(5.0), text(b'r'), obj((b'code', text(b'o'))), ecma((b'code', NULL)), strict(NULL, NULL))
    yield from GOOD
    for a in values:
        for b in values:
            yield a + b
    for n in (3, 4, 7, 20):
        yield b''.join(values[i % len(values)] for i in range(n))
        yield NULL * n
    for s in GOOD:
        for junk in (b'\x00', b'\x04', b'\x07', b'\x09', b'\x0b', b'\x0c\x00\x00\x00\x00', b'\xff', b'\x02\x00\x05abc', b'\x03', b'\x01'):
            yield s + junk


def tree(r, depth):
    """A random value of at most that many levels."""
    k = r.randrange(11 if depth > 1 else 6)
    if k == 0:
        return struct.pack('>BQ', 0, r.getrandbits(64))
    if k == 1:
        return boolean(r.choice((0, 1, r.randrange(256))))
    if k in (2, 3):
        return text(some_text(r, 12))
    if k == 4:
        return NULL
    if k == 5:
        return UNDEFINED
    n = r.choice((0, 1, 1, 2, 3))
    if k in (6, 7, 8):
        return obj(*[(some_name(r), tree(r, depth - 1)) for _ in range(n)])
    if k == 9:
        return ecma(*[(some_name(r), tree(r, depth - 1)) for _ in range(n)], said=r.choice((n, 0, r.getrandbits(32))))
    return strict(*[tree(r, depth - 1) for _ in range(n)])


def some_text(r, most):
    return ''.join(r.choice('abcdefgh .é€😀') for _ in range(r.randrange(most))).encode()


def some_name(r):
    return r.choice((b'code', b'code', b'level', b'cod', b'codes', some_text(r, 6) or b'n'))


def random_bodies():
    r = random.Random(20260101)
    good = []
    while len(good) < 200:
        s = b''.join(tree(r, r.choice((2, 3, 4, 8, 9))) for _ in range(r.choice((1, 1, 1, 2, 3))))
        if len(s) <= 400:
            good.append(s)
    yield from good
    for i in range(300):
        s = bytearray(r.choice(good) if i % 2 else r.choice(GOOD))
        for _ in range(r.choice((1, 1, 2, 4))):
            at = r.randrange(len(s) + 1)
            how = r.randrange(4)
            if how == 0 and at < len(s):
                s[at] = r.choice((0, 1, 2, 3, 5, 6, 8, 9, 10, 255, r.randrange(256)))
            elif how == 1 and at < len(s):
                del s[at:at + r.choice((1, 2, 5))]
            elif how == 2:
                s[at:at] = bytes(r.choice((0, 1, 2, 3, 5, 8, 9, 10, r.randrange(256))) for _ in range(r.choice((1, 2, 3))))
            elif at < len(s):
                s[at] ^= 1 << r.randrange(8)
        yield bytes(s)


def main():
    seen, out = set(), []
    for group in (markers, layouts, depths, names, counts, lengths, rows, cut, random_bodies):
        for s in group():
            if s not in seen:
                seen.add(s)
                out.append(line(s))
    with open(os.path.join(os.path.dirname(os.path.abspath(__file__)), 'amf0.txt'), 'w') as f:
        f.write('\n'.join(out) + '\n')


if __name__ == '__main__':
    main()
