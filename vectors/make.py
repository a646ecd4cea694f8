#!/usr/bin/env python3
"""Writes the input and the expected output of the program `cases`: crates/cases/stdin and crates/cases/stdout.

Each list is made by the script of its name beside this one, which says how; docs/TESTING.md says what each letter of the input means.
"""
import os
import struct
import subprocess
import sys

here = os.path.dirname(os.path.abspath(__file__))
given, expected = [], []


def rows(name):
    subprocess.run([sys.executable, os.path.join(here, name + '.py')], check=True)
    path = os.path.join(here, name + '.txt')
    with open(path, encoding='ascii') as f:
        found = [line.rstrip('\n').split('\t') for line in f]
    os.remove(path)
    return found


def case(letter, fields, answer):
    given.append('\t'.join([letter] + fields))
    expected.append('\t'.join(answer))


for pattern, held, single, widened in rows('numbers'):
    again = struct.pack('>d', float(int(held))).hex()
    case('n', [pattern], [held, again, single, widened, widened])

# singles by their patterns, NaNs of every kind among them, which no double narrows to
singles = [0, 1, 2, 0x007fffff, 0x00800000, 0x3f800000, 0x41efc28f, 0x7f7fffff, 0x7f800000, 0x7f800001, 0x7fbfffff, 0x7fc00000, 0x7fffffff]
for p in singles + [p | 0x80000000 for p in singles]:
    nan = (p & 0x7fffffff) > 0x7f800000
    wide = '7ff8000000000000' if nan else struct.pack('>d', struct.unpack('>f', p.to_bytes(4, 'big'))[0]).hex()
    case('f', ['%08x' % p], [wide])

for text, good in rows('utf8'):
    case('u', [text.replace('-', '')], [good])

for letter, *fields in rows('octets'):
    case(letter, fields[:1], fields[1:])

for body, count, end, kind, found, text in rows('amf0'):
    body = body.replace('-', '')
    part = '' if text == 'absent' else body[2 * int(text.split()[0]):2 * (int(text.split()[0]) + int(text.split()[1]))]
    case('a', [body], [count, end, kind, found, text, part])

# all 65,536 events of type 4, with as many more bytes: how many are well formed
for more, good in (('', '0'), ('00', '0'), ('00000001', '6'), ('0000000100', '0'), ('0000000100000002', '1'), ('000000010000000200', '0')):
    case('e', [more], [good])

for kind, body, answer in rows('messages'):
    case('m', [kind + body.replace('-', '')], [answer])


def number(n):
    return '%08x' % int(n)


def text(t):
    return t.replace('.', '')


def length(t):
    return '%02x' % (len(t) // 2)


def fields(values):
    """Eleven flags; nine numbers of 4 bytes, the fourth a single's pattern; stereo; the encoder."""
    flags = ''.join('00' if v == '-' else '01' for v in values)
    numbers = ''.join('00000000' if v == '-' else v if i == 3 else number(v) for i, v in enumerate(values[:9]))
    return flags + numbers + ('01' if values[9] == '1' else '00') + ('' if values[10] == '-' else text(values[10]))


def sent(which, a):
    if which == 'connect':
        app, flash, url = text(a[1]), text(a[2]), '' if a[3] == '-' else text(a[3])
        return '01' + number(a[0]) + length(app) + length(flash) + ('00' if a[3] == '-' else '01') + app + flash + url
    if which == 'play':
        return '04' + number(a[0]) + number(a[1]) + text(a[2])
    if which == 'publish':
        return '05' + {'live': '00', 'record': '01', 'append': '02'}[a[1]] + text(a[0])
    if which == 'metadata':
        return '0a' + fields(a)
    if which == 'sizes':
        return '09' + number(a[0]) + number(a[1])
    return {'createstream': '02', 'delete': '03', 'ping': '06', 'pong': '07', 'ack': '08'}[which] + number(a[0])


for which, *arguments, body in rows('bodies'):
    case('b', [sent(which, arguments)], [body])

for name, lines in (('stdin', given), ('stdout', expected)):
    with open(os.path.join(here, '..', 'crates', 'cases', name), 'w', encoding='ascii', newline='\n') as f:
        f.write('\n'.join(lines) + '\n')
print('%d cases' % len(given))
