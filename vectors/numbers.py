#!/usr/bin/env python3
"""Writes numbers.txt beside this file: double patterns, and what is expected of each.

A line has four tab-parted fields: the double's pattern (16 hexadecimal digits), the number that it is held as (decimal), the
pattern of the nearest single (8 digits), and the pattern of the double that equals that single (16 digits).

Everything is worked out from whole numbers and from nothing but the formats' definition: a pattern's size is a count of the
format's smallest number, patterns rise with their sizes, and the nearest single is found by search among all singles. Where
Python's own conversions apply, they must agree.
"""
import os
import random
import struct

INF64, INF32 = 0x7FF << 52, 0xFF << 23
SIGN64, SIGN32 = 1 << 63, 1 << 31
NAN64, NAN32 = 0x7FF8 << 48, 0x7FC0 << 16
MOST = (1 << 32) - 1


def size(pattern, digits):
    """How many of the format's smallest numbers the pattern, its sign left out, stands for; at infinity's, where the next would be."""
    field, rest = pattern >> digits, pattern & ((1 << digits) - 1)
    return rest if field == 0 else ((1 << digits) + rest) << (field - 1)


def size64(pattern):
    return size(pattern, 52)


def size32(pattern):
    """In the same unit as size64, the smallest double: the smallest single is 2 ** 925 of them."""
    return size(pattern, 23) << 925


def last_at_most(amount, size_of, top):
    """The largest pattern up to top whose size is at most amount."""
    low, high = 0, top
    while low < high:
        middle = (low + high + 1) // 2
        if size_of(middle) <= amount:
            low = middle
        else:
            high = middle - 1
    return low


def held(bits):
    if bits & SIGN64 or bits > INF64:
        return 0
    return MOST if bits == INF64 else min(size64(bits) >> 1074, MOST)


def narrow(bits):
    sign, bits = (SIGN32 if bits & SIGN64 else 0), bits & ~SIGN64
    if bits > INF64:
        return NAN32
    if bits == INF64:
        return sign | INF32
    amount = size64(bits)
    below = last_at_most(amount, size32, INF32)
    if below == INF32:
        return sign | INF32
    down, up = amount - size32(below), size32(below + 1) - amount
    if up < down or (up == down and below % 2 == 1):
        below += 1
    return sign | below


def double_of(amount):
    """The pattern of the double of that size; there must be one."""
    bits = last_at_most(amount, size64, INF64 - 1)
    assert size64(bits) == amount
    return bits


def widen(pattern):
    sign, pattern = (SIGN64 if pattern & SIGN32 else 0), pattern & ~SIGN32
    if pattern > INF32:
        return NAN64
    return sign | (INF64 if pattern == INF32 else double_of(size32(pattern)))


def agrees(bits):
    """Python's conversions say the same, where they have a say."""
    x = struct.unpack('>d', struct.pack('>Q', bits))[0]
    if x != x:
        assert (held(bits), narrow(bits)) == (0, NAN32)
        return
    if abs(x) != float('inf'):
        assert held(bits) == max(0, min(int(x), MOST)), hex(bits)
    try:
        single = struct.pack('>f', x)
    except OverflowError:
        assert narrow(bits) & ~SIGN32 == INF32, hex(bits)
        return
    assert struct.unpack('>I', single)[0] == narrow(bits), hex(bits)
    again = struct.pack('>d', struct.unpack('>f', single)[0])
    assert struct.unpack('>Q', again)[0] == widen(narrow(bits)), hex(bits)


def around(bits, by=1):
    return range(max(0, bits - by), min(bits + by, INF64) + 1)


def of_float(x):
    return struct.unpack('>Q', struct.pack('>d', x))[0]


def positive():
    """Patterns without a sign; each is taken with one too."""
    # zero, the subnormal doubles, the smallest normal one, the largest one and infinity
    yield from (0, 1, 2, 3, 0x0008000000000000, 0x000FFFFFFFFFFFFE, 0x000FFFFFFFFFFFFF, 0x0010000000000000, 0x0010000000000001)
    yield from around(INF64 - 1, 2)
    # NaNs, quiet and signalling, and some whose digits all lie below those that a single has
    yield from (INF64 + 1, INF64 + (1 << 28), INF64 + (1 << 29), INF64 + (1 << 51) - 1, NAN64 - 1, NAN64, NAN64 + 1, SIGN64 - 1)
    # singles, and the ties between one and the next, with their neighbours: after even and odd ones, below and at the smallest
    # normal one, at a carry into the field, and at the largest, after which comes infinity
    for p in (0, 1, 2, 3, 4, 5, 0x3FFFFE, 0x3FFFFF, 0x400000, 0x7FFFFD, 0x7FFFFE, 0x7FFFFF, 0x800000, 0x800001, 0xFFFFFE, 0xFFFFFF,
              0x1000000, 0x1000001, 0x33800000, 0x3F7FFFFE, 0x3F7FFFFF, 0x3F800000, 0x3F800001, 0x3F800002, 0x3FFFFFFF, 0x40490FDB,
              0x41EFC28E, 0x41EFC28F, 0x4B7FFFFF, 0x4B800000, 0x4F7FFFFF, 0x4F800000, 0x7EFFFFFF, 0x7F000000, 0x7F7FFFFD, 0x7F7FFFFE, 0x7F7FFFFF):
        yield from around(double_of(size32(p)))
        yield from around(double_of((size32(p) + size32(p + 1)) // 2))
    # half of the smallest single, and past the largest
    yield from around(0x3690000000000000, 2)
    yield from around(0x47EFFFFFF0000000, 2)
    yield from (0x47F0000000000000, 0x47F0000000000001, 0x4800000000000000)
    # whole numbers and halves, and the doubles beside them
    for n in (1, 2, 3, 128, 1000, 1 << 24, 1 << 31, 1 << 32, 1 << 33, 1 << 52, 1 << 53, 1 << 63, 1 << 64, 1 << 127, 1 << 128):
        for x in (n - 2, n - 1, n - 0.5, n, n + 0.5, n + 1, n + 2):
            if x >= 0:
                yield from around(of_float(float(x)))
    # fractions
    for x in (1.9, 0.9999999999999999, 0.1, 0.25, 0.75, 1.1, 2.5, 7.999999999999999, 23.976, 29.97, 59.94, 44100.7, 4294967294.9999995,
              4294967295.0000005, 4294967295.9999995, 4294967296.000001, 1e-45, 1.1754943508222875e-38, 3.4028235677973366e38, 1e39, 1e300):
        yield of_float(x)


def patterns():
    for bits in positive():
        yield bits
        yield bits | SIGN64
    # every exponent field, with the digits of 1.9 and alternating signs
    for field in range(0x800):
        yield field % 2 << 63 | field << 52 | 0xE666666666666
    rng = random.Random(1)
    for _ in range(300):
        yield rng.getrandbits(64)
    # fields from less than half of the smallest single to more than the largest
    for _ in range(300):
        yield rng.getrandbits(1) << 63 | rng.randrange(870, 1154) << 52 | rng.getrandbits(52)
    # numbers from 1 to 2 ** 33
    for _ in range(300):
        yield rng.randrange(1023, 1056) << 52 | rng.getrandbits(52)


def main():
    here = os.path.dirname(os.path.abspath(__file__))
    seen = dict.fromkeys(patterns())
    with open(os.path.join(here, 'numbers.txt'), 'w', encoding='ascii', newline='\n') as out:
        for bits in seen:
            agrees(bits)
            single = narrow(bits)
            out.write('%016x\t%d\t%08x\t%016x\n' % (bits, held(bits), single, widen(single)))
    print(len(seen), 'lines')


if __name__ == '__main__':
    main()
