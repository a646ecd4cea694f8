#!/usr/bin/env python3
"""Writes octets.txt beside this file: big-endian reads and writes at the ends of a slice, and parts compared.

A line has a letter, the bytes given and what is expected. Everything is worked out with Python's own int.from_bytes, int.to_bytes and slices.
  r: 8 bytes of place, then the slice; expected: the numbers of 2, 3, 4 and 8 bytes at that place, or `short`
  s: 8 bytes of start, 8 of length, a byte with the length of a name, the slice, the name; expected: the part, and whether it is the name
  w: the output's length, the width of a number and its place, then the number; expected: the place after it, and the output of ee bytes
     as it was left. Width 0: what follows is a body, written from byte 0; expected: its length or `no space`, and the output
"""
import os

FAR = (1 << 64) - 1
lines = []


def say(letter, given, expected):
    lines.append((letter, given.hex(), expected))


def reads():
    for n in range(0, 12):
        s = bytes((17 * i + 200) % 256 for i in range(n))
        for at in list(range(0, n + 3)) + [FAR, FAR - 7, 1 << 32]:
            found = []
            for w in (2, 3, 4, 8):
                found.append(s[at:at + w].hex() if at + w <= n else 'short')
            say('r', at.to_bytes(8, 'big') + s, '\t'.join(found))
    for s in (b'\xff' * 8, b'\x00' * 8, b'\x80' + b'\x00' * 7, b'\x00' * 7 + b'\x01'):
        say('r', bytes(8) + s, '\t'.join(s[:w].hex() for w in (2, 3, 4, 8)))


def parts():
    names = [b'', b'_result', b'_error', b'onStatus', b'_resul', b'_results', b'_Result', b'\x00', b'_result\x00']
    for name in names:
        for s in (b'', b'_result', b'xx_resultyy', b'onStatus', b'_error_result', b'\x00\x00'):
            for start in (0, 1, 2, 6, len(s), len(s) + 1, FAR):
                for n in (0, 1, 6, 7, 8, len(name), FAR):
                    p = s[start:start + n]
                    say('s', start.to_bytes(8, 'big') + n.to_bytes(8, 'big') + bytes([len(name)]) + s + name, p.hex() + '\t' + str(int(p == name)))


def writes():
    for x in (0, 1, 0x0102030405060708, FAR, 0x8000000000000000, 0x00ff00ff00ff00ff):
        for n in (0, 1, 2, 3, 4, 7, 8, 9, 16):
            for w in (1, 2, 3, 4, 8):
                for at in sorted({0, 1, max(0, n - w), max(0, n - w + 1), n}):
                    out = bytearray(b'\xee' * n)
                    after = at
                    if at + w <= n:
                        out[at:at + w] = (x % (1 << 8 * w)).to_bytes(w, 'big')
                        after = at + w
                    say('w', bytes([n, w, at]) + x.to_bytes(8, 'big'), '%d\t%s' % (after, out.hex()))
    for n in (0, 1, 5, 63, 64):
        for k in sorted({0, 1, n - 1, n, n + 1} - {-1}):
            body = bytes((i + 1) % 256 for i in range(k))
            out = b'\xee' * n
            say('w', bytes([n, 0, 0]) + body, '%s\t%s' % (k if k <= n else 'no space', (body + out[k:] if k <= n else out).hex()))


reads()
parts()
writes()
seen = set()
with open(os.path.join(os.path.dirname(os.path.abspath(__file__)), 'octets.txt'), 'w') as f:
    for l in lines:
        if l[:2] not in seen:
            seen.add(l[:2])
            f.write('\t'.join(l) + '\n')
