#!/usr/bin/env python3
"""Writes utf8.txt beside this script: byte sequences, each with whether it is UTF-8.

A line is the bytes in lower-case hexadecimal (`-` for none), a tab, and 1 or 0. The judge is Python's own strict decoder,
`bytes.decode('utf-8')`, which accepts what the table of RFC 3629 section 4 accepts and is no part of what is tested. The
table below only chooses which sequences are worth a line. Needs nothing but the standard library, and writes the same
lines at every run.
"""
import os
import random

TAIL = (0x80, 0xbf)
ROWS = [
    [(0x00, 0x7f)],
    [(0xc2, 0xdf), TAIL],
    [(0xe0, 0xe0), (0xa0, 0xbf), TAIL],
    [(0xe1, 0xec), TAIL, TAIL],
    [(0xed, 0xed), (0x80, 0x9f), TAIL],
    [(0xee, 0xef), TAIL, TAIL],
    [(0xf0, 0xf0), (0x90, 0xbf), TAIL, TAIL],
    [(0xf1, 0xf3), TAIL, TAIL, TAIL],
    [(0xf4, 0xf4), (0x80, 0x8f), TAIL, TAIL],
]


def at_the_edges():
    """Each position of each row just outside and just inside its range, the others all at their low or their high end."""
    for row in ROWS:
        for at, (lo, hi) in enumerate(row):
            for x in (lo - 1, lo, hi, hi + 1):
                for end in (0, 1):
                    if 0 <= x <= 0xff:
                        yield bytes(x if i == at else r[end] for i, r in enumerate(row))


def in_place(s):
    """A sequence alone, cut short at every length, before an ASCII byte and after one."""
    yield s
    for n in range(len(s)):
        yield s[:n]
    yield s + b'a'
    yield b'a' + s


def every_lead():
    """Every byte alone, and every byte that is not ASCII with one to three tails, all 80 or all BF."""
    for x in range(0x100):
        yield bytes([x])
    for x in range(0x80, 0x100):
        for tail in TAIL:
            for n in (1, 2, 3):
                yield bytes([x] + [tail] * n)


def in_bytes(point, size):
    """A number spread over `size` bytes as UTF-8 spreads it, whether or not so many bytes are right for it."""
    mark = {2: 0xc0, 3: 0xe0, 4: 0xf0, 5: 0xf8, 6: 0xfc}[size]
    tails = [0x80 | point >> 6 * i & 0x3f for i in range(size - 1)]
    return bytes([mark | point >> 6 * (size - 1)] + tails[::-1])


def known_faults():
    """Overlong forms, surrogates, what is above 10FFFF, and F5 to FF, with their nearest good neighbours."""
    for size, most in ((2, 0x7f), (3, 0x7ff), (4, 0xffff), (5, 0x1fffff), (6, 0x3ffffff)):
        for point in (0x00, 0x2f, 0x7f, 0x80, 0x7ff, 0x800, 0xffff, 0x10000, 0x10ffff, 0x1fffff, 0x3ffffff):
            if point <= most:
                yield in_bytes(point, size)
    for point in (0xd7ff, 0xd800, 0xdb7f, 0xdb80, 0xdbff, 0xdc00, 0xdf80, 0xdfff, 0xe000):
        yield chr(point).encode('utf-8', 'surrogatepass')
    for high in (0xd800, 0xdbff):
        for low in (0xdc00, 0xdfff):
            yield (chr(high) + chr(low)).encode('utf-8', 'surrogatepass')
    for point in (0x10ffff, 0x110000, 0x13ffff, 0x140000, 0x1fffff):
        yield in_bytes(point, 4)
    for lead, size in ((0xf5, 4), (0xf7, 4), (0xf8, 5), (0xfb, 5), (0xfc, 6), (0xfd, 6), (0xfe, 7), (0xff, 8)):
        for tail in TAIL:
            yield bytes([lead] + [tail] * (size - 1))


# section 7; section 3's overlong NUL and surrogate pair; section 10's texts with and without an overlong dot
RFC_3629 = """
41 e2 89 a2 ce 91 2e
ed 95 9c ea b5 ad ec 96 b4
e6 97 a5 e6 9c ac e8 aa 9e
ef bb bf f0 a3 8e b4
c0 80
ed a1 8c ed be b4
2f 2e 2e 2f
2f c0 ae 2e 2f
"""


def texts(rng):
    """Longer texts of characters of every length: whole, with one byte put in the place of another, left out, or doubled."""
    spans = ((0x20, 0x7e), (0x80, 0x7ff), (0x800, 0xd7ff), (0xe000, 0xffff), (0x10000, 0x10ffff))
    for _ in range(60):
        count = rng.randrange(5, 25)
        s = ''.join(chr(rng.randint(*rng.choice(spans))) for _ in range(count)).encode('utf-8')
        at = rng.randrange(len(s))
        yield s
        yield s[:at] + bytes([rng.randrange(0x100)]) + s[at + 1:]
        yield s[:at] + bytes([s[at] ^ 1 << rng.randrange(8)]) + s[at + 1:]
        yield s[:at] + s[at + 1:]
        yield s[:at + 1] + s[at:]


def is_utf8(s):
    try:
        s.decode('utf-8', 'strict')
    except UnicodeDecodeError:
        return False
    return True


def sequences():
    yield b''
    for s in at_the_edges():
        yield from in_place(s)
    yield from every_lead()
    for s in known_faults():
        yield from in_place(s)
    for line in RFC_3629.split('\n'):
        yield from in_place(bytes.fromhex(line))
    yield from texts(random.Random(3629))


def main():
    path = os.path.join(os.path.dirname(os.path.abspath(__file__)), 'utf8.txt')
    with open(path, 'w', encoding='ascii', newline='\n') as out:
        for s in dict.fromkeys(sequences()):
            out.write('%s\t%d\n' % (s.hex() or '-', is_utf8(s)))


main()
