#!/usr/bin/env python3
"""Plants the faults of faults_list.py, one at a time, and shows that a stored run catches each.

  faults.py [--only WORDS..] [--table FILE] [--jobs N]
  faults.py --check      no compile: every old text stands exactly once where the list says, every must-fail edit that it names is there

The sources of `replay` are copied to a folder of their own outside the checkout, with contracts and proofs left out (unproved.py). Each fault is planted
there, the program is compiled and given both stored runs: crates/replay, whose answers are the model's, and crates/recorded, whose answers are the Rust's.
What is counted is the lines of a script whose results differ. The status is 1 if a fault is caught by neither or can't be compiled. --only takes the faults
whose name has one of the words; --table writes what came as a table; --jobs tries N faults at a time, each in some 15 s of one processor.
"""
import argparse
import collections
import os
import re
import resource
import subprocess
import sys
import tempfile
import time
from concurrent.futures import ThreadPoolExecutor

import faults_list
from unproved import PATIENCE, ROOT, compiled, lay_out, read, sources, write

PROGRAM, STORED = 'replay', ('replay', 'recorded')
SECONDS = 60  # of computing, for a run


# -- the list

def span(text, function):
    """Where the function of that name stands, from `fn` to its closing brace."""
    heads = list(re.finditer(r'^( *)(?:pub |pub\(crate\) )?fn %s[(<]' % re.escape(function), text, re.M))
    if len(heads) != 1:
        raise ValueError('%d functions %s' % (len(heads), function))
    return heads[0].start(), text.index('\n%s}\n' % heads[0].group(1), heads[0].end())


def planted(found, edits):
    """The files that the edits change. Each old text has to stand exactly once in its place."""
    changed = {}
    places = []
    for where, old, new in zip(edits[::3], edits[1::3], edits[2::3]):
        path, _, function = where.partition(':')
        if path not in found:
            raise ValueError('no file ' + path)
        start, end = span(found[path], function) if function else (0, len(found[path]))
        if found[path].count(old, start, end) != 1:
            raise ValueError('%s has the old text %d times: %r' % (where, found[path].count(old, start, end), old))
        if old == new:
            raise ValueError('%s: nothing is changed' % where)
        at = found[path].index(old, start, end)
        places.append((path, at, at + len(old), new))
    for path, at, end, new in sorted(places, reverse=True):
        text = changed.get(path, found[path])
        changed[path] = text[:at] + new + text[end:]
    return changed


def faults():
    return [(group, fault[0], fault[1:]) for group, those in faults_list.GROUPS for fault in those]


def check(found):
    """The number of entries that are not as they should be."""
    bad = 0
    for _, name, edits in faults():
        try:
            planted(found, edits)
        except ValueError as wrong:
            bad += 1
            print('%s: %s' % (name, wrong))
    names = [name for _, name, _ in faults()]
    for name in sorted({n for n in names if names.count(n) > 1}):
        bad += 1
        print('%s: the name stands twice' % name)
    for name, _, edit in faults_list.ONLY_PROVED:
        if not os.path.exists(os.path.join(ROOT, 'crates', edit)):
            bad += 1
            print('%s: no edit %s' % (name, edit))
    mains = {read(os.path.join(ROOT, 'crates', p, 'src/main.rt')).partition('\n')[2] for p in STORED}
    if len(mains) > 1:
        bad += 1
        print('the programs of the stored runs are not the same')
    print('%d faults and %d must-fail edits looked at, %d not as listed' % (len(names), len(faults_list.ONLY_PROVED), bad))
    return bad


# -- running

def limited():
    resource.setrlimit(resource.RLIMIT_CPU, (SECONDS, SECONDS))
    resource.setrlimit(resource.RLIMIT_FSIZE, (1 << 28, 1 << 28))
    resource.setrlimit(resource.RLIMIT_CORE, (0, 0))


def run(program, given):
    """What it writes, and how it ended where that is no good end."""
    with tempfile.TemporaryFile() as out:
        try:
            done = subprocess.run([program], input=given, stdout=out, stderr=subprocess.DEVNULL, timeout=PATIENCE, preexec_fn=limited)
            ended = 'ended with status %d' % done.returncode if done.returncode else ''
        except subprocess.TimeoutExpired:
            ended = 'no end'
        out.seek(0)
        return out.read(), ended


def by_line(written):
    found = collections.defaultdict(list)
    for result in written.split(b'\n')[:-1]:
        number, _, rest = result.partition(b'\t')
        found[int(number) if number.isdigit() else 0].append(rest)
    return found


def differing(ours, theirs):
    return sum(ours.get(n, []) != theirs.get(n, []) for n in ours.keys() | theirs.keys())


class Stored:
    """A stored run."""

    def __init__(self, crate):
        with open(os.path.join(ROOT, 'crates', crate, 'stdin'), 'rb') as given, open(os.path.join(ROOT, 'crates', crate, 'stdout'), 'rb') as wanted:
            self.given, self.wanted = given.read(), wanted.read()
        self.lines = by_line(self.wanted)

    def caught(self, program):
        """How many lines differ, and how the run ended if that is no good end."""
        written, ended = run(program, self.given)
        return max(differing(by_line(written), self.lines), int(written != self.wanted or ended != '')), ended


# -- the whole

def said(lines, ended):
    return '%d%s' % (lines, ' (%s)' % ended if ended else '')


def tried(found, changed, runs):
    """What the stored runs caught of the program with these files changed; or None, and why it can't be compiled."""
    with tempfile.TemporaryDirectory(prefix='fault-') as work:
        crates = os.path.join(work, 'crates')
        lay_out({**found, **changed}, crates)
        program, why = compiled(PROGRAM, crates, work)
        return program and [stored.caught(program) for stored in runs], why


def main():
    parser = argparse.ArgumentParser()
    parser.add_argument('--check', action='store_true')
    parser.add_argument('--only', nargs='+', default=[''])
    parser.add_argument('--table')
    parser.add_argument('--jobs', type=int, default=1)
    args = parser.parse_args()
    found = sources(PROGRAM)
    if check(found):
        sys.exit(1)
    if args.check:
        return
    runs = [Stored(crate) for crate in STORED]
    came, why = tried(found, {}, runs)
    if not came:
        sys.exit('the sources can\'t be compiled:\n' + why)
    for crate, (lines, _) in zip(STORED, came):
        if lines:
            sys.exit('without a fault %s is not as stored' % crate)
    rows, counts, start = [], collections.Counter(), time.time()
    print('lines that differ: ' + ', '.join('%s (of %d)' % (crate, stored.given.count(b'\n')) for crate, stored in zip(STORED, runs)))
    those = [fault for fault in faults() if any(word in fault[1] for word in args.only)]
    with ThreadPoolExecutor(args.jobs) as pool:
        for (group, name, edits), (came, why) in zip(those, pool.map(lambda fault: tried(found, planted(found, fault[2]), runs), those)):
            if not came:
                counts['not compiled'] += 1
                print('   NOT COMPILED  %s\n%s' % (name, why), flush=True)
                continue
            counts.update([crate for crate, (lines, _) in zip(STORED, came) if lines] or ['neither'])
            rows.append((group, name, ', '.join(sorted({w.partition(':')[0] for w in edits[::3]})), *[said(*c) for c in came]))
            print('%s%7s %7s  %s' % ('' if any(c[0] for c in came) else 'NOT CAUGHT ', *rows[-1][3:], name), flush=True)
    if args.table:
        lines = ['| fault | file | replay | recorded |', '|---|---|---|---|'] + ['| %s | `%s` | %s | %s |' % row[1:] for row in rows]
        write(os.path.abspath(args.table), '\n'.join(lines) + '\n')
    print('%d faults in %d seconds: %s, %d by neither, %d not compiled'
          % (len(rows) + counts['not compiled'], time.time() - start, ', '.join('%d caught by %s' % (counts[c], c) for c in STORED),
             counts['neither'], counts['not compiled']))
    print('%d more that only a proof catches are must-fail edits' % len(faults_list.ONLY_PROVED))
    sys.exit(1 if counts['neither'] or counts['not compiled'] else 0)


if __name__ == '__main__':
    main()
