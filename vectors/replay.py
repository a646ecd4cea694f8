#!/usr/bin/env python3
"""Writes crates/replay/stdin, scripts for the program `card` joined to one, and crates/replay/stdout, what `replay` has to answer: `card`'s lines with
the values of events, and after each line the active stream and the open requests. Also crates/card/stdin and stdout: document 01's whole case, and behind
it the scripts of some groups, with `card`'s own lines.

What is expected comes from a model of the whole session (replay_model.py) and of the program's lines (replay_card.py), written from document 01, its
readings, RTMP 1.0 and AMF0. In the scripts that are written by hand each line stands beside what document 01 says that it gives (replay_notation.py
says how), and the model must answer the same. After every line of every script the model's session is compared with document 01's latest-line rule
over the journal alone, and with its law on the sum of all acknowledgements. A comment before each script says which sentence it shows.

  replay_named.py      the whole case, the spindle cases, the mistakes near at hand, the readings 1 to 25
  replay_refusals.py   the table of turned-away calls and the sentences under it
  replay_work.py       "The session's work"
  replay_bodies.py     "Bodies", as far as `card` shows them
  replay_lines.py      the lines of `card`, readings 26 and 27
  replay_values.py     what `replay` tells beside them: values of events, the active stream, open requests
  replay_walks.py      random walks

Each starts with an `open` line, and the numbers of the lines run on. Scripts with lines that can't be read stand last but one, and last of all the one
that ends without a newline.
"""
import os

import replay_bodies
import replay_lines
import replay_named
import replay_refusals
import replay_values
import replay_walks
import replay_work
from messages import NULL, ecma, num, obj, text
from replay_card import Card
from replay_notation import REPLY, connect, error, msg, play, result, script, scripts, status

HERE = os.path.dirname(os.path.abspath(__file__))


def long_texts():
    # reading 13: what comes in runs to 65,535 bytes and passes: names, code, description, encoder
    t = text(b't' * 65535)
    script('long-texts', msg(20, t + num(1.0) + NULL), '0 event7', connect(), '0 out20', error(1.0, obj((b'description', t))), '0 event1', connect(),
           '0 out20', result(2.0, obj((b'n' * 65535, NULL))), REPLY,
           play(), '1 out20', result(3.0, num(5.0), t), '2 out4 out20#5', status(b'c' * 65535), '2 event9',
           msg(18, text(b'onMetaData') + ecma((b'encoder', t)), 5), '2 event4')


GROUPS = [('named', replay_named.make), ('refusals', replay_refusals.make), ('work', replay_work.make), ('bodies', replay_bodies.make),
          ('lines', replay_lines.readable), ('verbs', replay_lines.verbs), ('values', replay_values.make), ('long', long_texts),
          ('walks', replay_walks.make), ('unreadable', replay_lines.unreadable), ('last', replay_lines.last)]


CARD = ('named', 'verbs', 'values')


def joined(scripts):
    """Every script behind an `open` line, worked through as one input by a new program."""
    given = b''.join(b'0\topen\n' + lines for lines, _ in scripts)
    card, lines = Card(), given.split(b'\n')
    for line in lines[:-1] if given.endswith(b'\n') else lines:
        card.feed(line)
    found = ''.join(line + '\n' for line in card.written).encode()
    # the same answers as one by one, but for the numbers of the lines and what each opening writes
    parts, start = [], 0
    for lines, answers in scripts:
        parts.append(b'%d\t0\tnone\n%d\t0\topen\t-\t-\n' % (start + 1, start + 1))
        for answer in answers.splitlines(keepends=True):
            number, rest = answer.split(b'\t', 1)
            parts.append(b'%d\t%s' % (start + 1 + int(number), rest))
        start += 1 + lines.count(b'\n')
    assert b''.join(parts) == found
    return given, found


def card_lines(answers, passed):
    """What `card` writes of them: no values of events, no lines `open`; the numbers go on after the lines that have passed."""
    kept = []
    for line in answers.decode().splitlines():
        number, stage, word, *rest = line.split('\t')
        if word != 'open':
            kept.append('\t'.join([str(int(number) + passed), stage, word, *(rest[:1] if word == 'event' else rest)]))
    return ''.join(line + '\n' for line in kept).encode()


def lines_of(pair):
    given = pair[0]
    return given.count(b'\n') + (not given.endswith(b'\n'))


def write(path, data):
    with open(os.path.join(HERE, path), 'wb') as f:
        f.write(data)


def main():
    groups = {}
    for name, make in GROUPS:
        before = len(scripts)
        make()
        groups[name] = list(scripts.values())[before:]
        print('%4d scripts %6d lines  %s' % (len(groups[name]), sum(map(lines_of, groups[name])), name))
    given, answers = joined(scripts.values())
    write('../crates/replay/stdin', given)
    write('../crates/replay/stdout', answers)
    print('%d scripts; joined %d lines in, %d lines out, %d and %d bytes' % (len(scripts), lines_of((given, answers)), answers.count(b'\n'),
        len(given), len(answers)))
    given, answers = joined([pair for name in CARD for pair in groups[name]])
    write('../crates/card/stdin', replay_named.IN + given)
    write('../crates/card/stdout', replay_named.OUT + card_lines(answers, replay_named.IN.count(b'\n')))
    print('card: %d lines in' % lines_of((replay_named.IN + given, answers)))


if __name__ == '__main__':
    main()
