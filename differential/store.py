#!/usr/bin/env python3
"""Writes crates/recorded/stdin, generated scripts, and crates/recorded/stdout, the Rust's answers to them, so that the gate has them where no Rust is.

  store.py [--scripts N] [--seeds N] [--reference COMMAND]

The answers are what the reference writes, byte for byte but for events 7 and 8: of these the Rust keeps object and arguments as values, and `recorded`
tells their bytes. They are taken from the script's own message, once the values that coding.py reads there are the Rust's. Our programs have no part in it.

Of the scripts of the seeds 1 to N that are not longer than MOST, those are taken first that show most which no other shows: a line by its verb, or its
type and command, at a stage, with its results; then the next seeds. What must be among them stands in MUST, and there is no file without it.
"""
import argparse
import collections
import os
import shlex
import sys

import coding
import compare
import generate
from limits import Steer

ROOT = compare.ROOT
MOST = 3500
MUST = (['refused %d' % n for n in (1, 2, 4, 5, 6, 7, 8)] + ['event %d' % n for n in range(12)] + ['stage %d' % n for n in range(6)]
        + ['out %d' % n for n in (1, 3, 4, 5, 8, 9, 18, 20)] + ['malformed %d' % n for n in (1, 2, 3, 4, 5, 6, 15, 17, 18, 20)]
        + ['reply late', 'reply doubled', 'reply as a fraction', 'reply unknown', 'grant at a running stage', 'window at or below pending',
           'count that reaches the window', 'window 0', 'eight open', 'stop that sends', 'stop that comes to nothing', 'body empty', 'chunk size 2147483647',
           'chunk size 2147483648'])


def kind(result):
    """A result without its values."""
    fields = result.split('\t')
    return ' '.join(fields[1:3]) if fields[1] in ('out', 'event', 'unhandled', 'refused') else fields[1]


def asked(line):
    """The line's verb; of a message its type and, of a command that reads, the name where it is one of the three."""
    verb, *fields = line.split(b'\t')[1:]
    if verb != b'msg':
        return verb.decode()
    type_id, body = int(fields[0]), bytes.fromhex(fields[3].decode())
    try:
        name = coding.read_command(type_id, body)[0] if type_id in (17, 20) else b''
    except coding.Malformed:
        name = b''
    return 'msg %d %s' % (type_id, name.decode() if name in (b'_result', b'_error', b'onStatus') else '')


def marks(line, results, before):
    """What of MUST the line shows; `before` is the Steer as it stood before it."""
    found = [kind(r) for r in results] + ['stage ' + results[0][0]]
    verb, *fields = line.split(b'\t')[1:]
    if len(before.open) == 8:
        found.append('eight open')
    if verb == b'bytes' and 'out 3' in found:
        found.append('count that reaches the window')
    if verb.startswith(b'stop'):
        found.append('stop that sends' if 'out 20' in found else 'stop that comes to nothing')
    if verb == b'msg':
        found += message_marks(int(fields[0]), bytes.fromhex(fields[3].decode()), found, before)
    return found


def message_marks(type_id, body, kinds, before):
    if 'refused 8' in kinds:
        return ['malformed %d' % type_id]
    if not body:
        return ['body empty']
    size = int.from_bytes(body, 'big')
    if type_id == 1:
        return ['chunk size %d' % size]
    if type_id == 5:
        return ['window at or below pending'] * (0 < before.pending and size <= before.pending) + ['window 0'] * (size == 0)
    if type_id not in (17, 20):
        return []
    name, pattern, _ = coding.read_command(type_id, body)
    return reply_marks(pattern, kinds, before) if name in (b'_result', b'_error') else []


def reply_marks(pattern, kinds, before):
    n = coding.held(pattern)
    if n not in before.open:
        return ['reply doubled' if n in before.closed else 'reply unknown']
    found = ['reply as a fraction'] if coding.bits(float(n)) != pattern else []
    if before.open[n] == 'connect' and before.stage and 'event 0' in kinds:
        found.append('reply late')
    if before.open[n] != 'connect' and before.stage > 1 and 'out 20' in kinds:
        found.append('grant at a running stage')
    return found


class Script:
    """A script of a seed, with the Rust's answers."""

    def __init__(self, lines, answers):
        self.lines, self.answers, self.marks, self.shows = lines, answers, collections.Counter(), set()
        steer = Steer()
        for line, results in zip(lines, answers):
            self.marks.update(marks(line, results[:-1], steer))
            self.shows.add((asked(line), steer.stage, tuple(map(kind, results))))
            steer.line(line)
        self.shows |= set(self.marks)
        self.size = sum(map(len, lines))


def scripts(command, seeds):
    made = [lines for lines in map(generate.script, range(1, seeds + 1)) if sum(map(len, lines)) <= MOST]
    found, said = compare.results(command, [line for lines in made for line in lines])
    if said:
        sys.exit('the reference can\'t read a line: ' + said)
    at = 0
    for lines in made:
        answers = [found[at + i + 1] for i in range(len(lines))]
        at += len(lines)
        yield Script(lines, answers)


def chosen(given, count):
    """First those that show something new, the most for their length first; then the next of the list."""
    rest, found, shown = list(given), [], set()
    while len(found) < count and rest:
        best = max(rest, key=lambda s: len(s.shows - shown) / s.size)
        if not best.shows - shown:
            break
        rest.remove(best)
        found.append(best)
        shown |= best.shows
    return found + rest[:count - len(found)]


def told(line, result):
    """The answer as it is stored."""
    fields = result.split('\t')
    if fields[1] != 'event' or fields[2] not in ('7', '8'):
        return result
    type_id, body = int(line.split(b'\t')[2]), bytes.fromhex(line.split(b'\t')[5].decode())
    reader = coding.Reader(body)
    reader.at = 1 if type_id == 17 and body[:1] == b'\0' else 0
    reader.value(1), reader.value(1)
    start = reader.at
    thing = reader.value(1)
    args = body[reader.at:]
    if [coding.canonical(thing), coding.canonical(('array', coding.values(args)))] != fields[-2:]:
        sys.exit('not the Rust\'s values: %s, %s' % (line, result))
    return '\t'.join(fields[:-2] + [body[start:reader.at].hex(), args.hex()])


def write(name, lines):
    with open(os.path.join(ROOT, 'crates/recorded', name), 'w', encoding='latin-1', newline='') as file:
        file.write(''.join(line + '\n' for line in lines))


def main():
    parser = argparse.ArgumentParser()
    parser.add_argument('--scripts', type=int, default=320)
    parser.add_argument('--seeds', type=int, default=3000)
    parser.add_argument('--reference', default=os.path.join(ROOT, 'target/differential/reference'))
    args = parser.parse_args()
    found = chosen(scripts(shlex.split(args.reference), args.seeds), args.scripts)
    marked = sum((s.marks for s in found), collections.Counter())
    missing = [m for m in MUST if not marked[m]]
    if missing:
        sys.exit('not among the scripts: ' + ', '.join(missing))
    given = [line for s in found for line in s.lines]
    answers = [results for s in found for results in s.answers]
    stored = ['%d\t%s' % (i + 1, told(line, result)) for i, line in enumerate(given) for result in answers[i]]
    write('stdin', [line.decode('latin-1') for line in given])
    write('stdout', stored)
    print(', '.join('%s %d' % (m, marked[m]) for m in MUST))
    print('%d scripts, %d lines, %d answers' % (len(found), len(given), len(stored)))


if __name__ == '__main__':
    main()
