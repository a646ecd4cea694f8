#!/usr/bin/env python3
"""Runs our program `replay` and the reference on generated scripts and compares them line by line: every result with its values, the stage, the active
stream and the open requests.

  compare.py [--scripts N] [--seed S] [--ours COMMAND] [--reference COMMAND] [--cover]
  compare.py --differences     the inputs of differences.py, on which the two differ as docs/DIFFERENCES.md lists
  compare.py --file SCRIPT..   scripts from files

Many scripts run in one process of each program. A disagreement is shrunk to its fewest lines, within document 01's limits,
and printed; the run then goes on with the next scripts. The status is 1 if there was any.
"""
import argparse
import collections
import os
import shlex
import subprocess
import sys

import coding
import generate
import limits

HERE = os.path.dirname(os.path.abspath(__file__))
ROOT = os.path.dirname(HERE)
BATCH = 500


def results(command, lines):
    """By line number, the results of one process for all lines; and what it said on standard error."""
    given = b''.join(line + b'\n' for line in lines)
    done = subprocess.run(command, input=given, stdout=subprocess.PIPE, stderr=subprocess.PIPE)
    if done.returncode:
        sys.exit('%s ended with status %d: %s' % (command, done.returncode, done.stderr[-300:]))
    found = collections.defaultdict(list)
    for line in done.stdout.split(b'\n')[:-1]:
        at, rest = line.split(b'\t', 1)
        found[int(at)].append(rest.decode('latin-1'))
    return found, done.stderr.decode('latin-1')


def plain(result):
    """A result of either program in the form that is compared: of events 7 and 8 the Rust tells values, and we their bytes."""
    fields = result.split('\t')
    if fields[1] == 'event' and fields[2] in ('7', '8') and not fields[-1].startswith('['):
        fields[-2] = coding.canonical(coding.values(bytes.fromhex(fields[-2]))[0])
        fields[-1] = coding.canonical(('array', coding.values(bytes.fromhex(fields[-1]))))
    return '\t'.join(fields)


class Pair:
    """The two programs."""

    def __init__(self, ours, reference):
        self.ours, self.reference = ours, reference

    def run(self, lines):
        """For each line, ours and the reference's results."""
        sides = []
        for command in (self.ours, self.reference):
            found, said = results(command, lines)
            if said:
                sys.exit('%s can\'t read a line: %s' % (command, said[:300]))
            sides.append([list(map(plain, found[i + 1])) for i in range(len(lines))])
        return list(zip(*sides))

    def differs(self, lines):
        return any(a != b for a, b in self.run(lines))

    def shrink(self, lines):
        """The fewest lines that still differ: cut at the first difference, then leave out stretches, then single lines."""
        first = next(i for i, (a, b) in enumerate(self.run(lines)) if a != b)
        lines = lines[:first + 1]
        size = len(lines) // 2
        while size:
            at = 0
            while at < len(lines):
                fewer = lines[:at] + lines[at + size:]
                opened = [b'0\topen'] + fewer
                if fewer and limits.within(fewer) and self.differs(opened):
                    lines = fewer
                else:
                    at += size
            size //= 2
        return lines if lines[0].split(b'\t')[1] == b'open' else [b'0\topen'] + lines


def show(name, lines, pairs):
    print('== ' + name)
    for line, (ours, theirs) in zip(lines, pairs):
        print('  ' + line.decode('utf-8', 'replace'))
        for result in ours if ours == theirs else ():
            print('      both  ' + result)
        for who, side in (('ours', ours), ('Rust', theirs)):
            for result in side if ours != theirs else ():
                print('      %s  %s' % (who, result))
    sys.stdout.flush()


class Cover:
    """How often each result came at each stage, and each step from stage to stage."""

    def __init__(self):
        self.seen, self.steps, self.lines, self.open = collections.Counter(), collections.Counter(), 0, collections.Counter()

    def add(self, pairs):
        stage = '0'
        for _, theirs in pairs:
            self.lines += 1
            for result in theirs:
                fields = result.split('\t')
                kind = fields[1] + ' ' + fields[2] if len(fields) > 2 and fields[1] != 'open' else fields[1]
                if fields[1] == 'open':
                    self.open[0 if fields[3] == '-' else fields[3].count(',') + 1] += 1
                else:
                    self.seen[kind] += 1
            if theirs:
                self.steps[stage + '>' + theirs[-1][0]] += 1
                stage = theirs[-1][0]

    def print(self):
        for title, counter in (('results', self.seen), ('stages', self.steps), ('open requests', self.open)):
            print(title + ': ' + ', '.join('%s %d' % (k, v) for k, v in sorted(counter.items(), key=lambda x: str(x[0]))))


def compare(pair, scripts, cover):
    """Runs the scripts in batches; the number of disagreements."""
    bad = 0
    for at in range(0, len(scripts), BATCH):
        batch = scripts[at:at + BATCH]
        pairs, start = pair.run([line for _, lines in batch for line in lines]), 0
        for name, lines in batch:
            part = pairs[start:start + len(lines)]
            start += len(lines)
            cover.add(part)
            if any(a != b for a, b in part):
                bad += 1
                if bad <= 20:
                    fewest = pair.shrink(lines)
                    show(name, fewest, pair.run(fewest))
    return bad


def show_differences(pair):
    """Each input of the list gives what stands there on each side, and the two differ."""
    import differences
    bad = 0
    for name, ours, theirs, *expected in differences.LIST:
        for who, command, lines, wanted in zip(('ours', 'Rust'), (pair.ours, pair.reference), (ours, theirs), expected):
            if lines is None:
                print('   %s: %s can\'t be given the input' % (name, who))
                continue
            found = results(command, lines)[0]
            found = [plain(r) for i in sorted(found) for r in found[i] if '\topen\t' not in r]
            if found != wanted:
                bad += 1
                print('== %s, %s\n   expected %s\n   found    %s' % (name, who, wanted, found))
        if expected[0] == expected[1]:
            bad += 1
            print('== %s: no difference' % name)
    for name, why in differences.NOT_SHOWN.items():
        print('   %s: not shown, %s' % (name, why))
    print('%d inputs for listed differences, %d sides not as listed' % (len(differences.LIST), bad))
    return bad


def main():
    parser = argparse.ArgumentParser()
    parser.add_argument('--scripts', type=int, default=5000)
    parser.add_argument('--seed', type=int, default=1)
    parser.add_argument('--ours', default=os.path.join(ROOT, 'crates/replay/out/replay'))
    parser.add_argument('--reference', default=os.path.join(ROOT, 'target/differential/reference'))
    parser.add_argument('--cover', action='store_true')
    parser.add_argument('--differences', action='store_true')
    parser.add_argument('--file', nargs='*')
    args = parser.parse_args()
    pair, cover, bad, count = Pair(shlex.split(args.ours), shlex.split(args.reference)), Cover(), 0, 0
    if args.differences:
        sys.exit(1 if show_differences(pair) else 0)
    if args.file is not None:
        scripts = [(name, open(name, 'rb').read().split(b'\n')[:-1]) for name in args.file]
        bad, count = compare(pair, scripts, cover), len(scripts)
    else:
        for seed in range(args.seed, args.seed + args.scripts, BATCH):
            seeds = range(seed, min(seed + BATCH, args.seed + args.scripts))
            bad += compare(pair, [('seed %d' % s, generate.script(s)) for s in seeds], cover)
            count += len(seeds)
    if args.cover:
        cover.print()
    print('%d scripts, %d lines, %d disagreements' % (count, cover.lines, bad))
    sys.exit(1 if bad else 0)


if __name__ == '__main__':
    main()
