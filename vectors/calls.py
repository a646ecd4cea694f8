#!/usr/bin/env python3
"""Writes the input and the expected output of the program `calls`: crates/calls/stdin and crates/calls/stdout.

What is expected is worked out by calls_model.py, a model from document 01. calls_notation.py writes a case down, and calls_records.py has
the cases that go by what the record holds.

A line of input is a case: fields parted by tabs, worked through in turn on one record, which starts as a session with the default settings
at which nothing was asked. A field is a letter and bytes in hexadecimal, with points between the parts; numbers are big-endian.
  =NAME  the name of the case, as plain text; it is written out
Fields that set a part of the record by hand and write nothing; a TEXT is a stored length of 8 bytes, which may be any, and at most 255
bytes (zeros follow them in the record):
  f  flash version: TEXT
  u  tcUrl: 1 if it is configured, else 0; TEXT
  s  buffer length, window size, chunk size: 4 bytes each
  g  stage: 1 byte, 0 to 5; 1 if a stream is active, else 0; its number, 4 bytes
  n  next number: 8 bytes
  p  place: 1 byte, 0 to 7; kind: 0 free, 1 connect, 2 play, 3, 4, 5 publish live, record, append; number: 4 bytes; TEXT
  l  peer's chunk size: 4 bytes; 1 if a window is set, else 0; the window, 4 bytes; pending, 4 bytes; total, 8 bytes
Calls; all but opening start with the clock, 4 bytes, and the length of the lent output, 2 bytes, which is filled with ff before:
  O  opening with the record's settings; the record becomes what it hands back
  C  connect: app name                P  play: key
  U  publish: 0 live, 1 record, 2 append; key
  S  stop playback                    T  stop publishing                  I  ping
  V  picture: time, 4 bytes; 1 if it may be dropped, else 0; data         A  sound: the same
  M  metadata: eleven bytes, 1 where the field is there; nine numbers of 4 bytes, the fourth the pattern of a single; stereo; start and
     length of the encoder's place, 8 bytes each; the bytes that it lies in
  B  byte count: 4 bytes
Fields that show the record:
  v  stage, active stream (`-` for none), next number; the open requests in the order of their numbers, each with number, kind and text (which
     place a request takes is left open by document 01, and not shown); the peer's chunk size, window (`-` for none), pending, total
  w  flash version, buffer length, window size, chunk size, tcUrl (`-` where none is configured)
A stored text is shown in hexadecimal, `.` if it is empty, and `over N` if its length N is above 255.

A line of output has the name of the case and the results of its calls and shows in turn, parted by tabs. A call, but for opening, has two:
its outcome, and the bytes of the lent output. The outcome is `refused N`, for 2 with the stage behind it; `none`; `out` with type, time,
stream number, droppable, uncompressed, and start and length of the body in the output; or `pinged T` before the `out` of a ping, with the
time handed back.

Not among the cases is a picture of more than 16,777,215 bytes (refusal 9): a program here has a stack of 8 MiB.
"""
import os
import random

from bodies import FULL, SINGLES, TEXTS
from calls_model import (KINDS, PLAYING, PUBLISHING, SPENT, STAGES, U32, U64, Record, Text, c_bytes, c_connect, c_media, c_metadata, c_ping, c_play,
                         c_publish, c_stop_playback, c_stop_publishing)
from calls_notation import CALLS, REQUESTS, SOME, STREAMS, Case, expected, given, places
from calls_records import free_places, numbers, openings, orders, records


def calls_at_stages():
    """Every call at every stage, with no stream active, stream 0 and another: no space, a byte short, exactly enough; then space over."""
    for name, call in CALLS.items():
        for stage in STAGES:
            for active in STREAMS[:3]:
                r = Record(stage=stage, active=active, next=6, places=SOME, link=(128, 8, 3, 50))
                title = '%s at stage %d, stream %s' % (name, stage, '-' if active is None else active)
                case = Case(title, r)
                n = case.needs(call)
                for space in sorted({0, max(n - 1, 0)}) if n else []:
                    case.call(call, space).view()
                case.call(call, n).view().settings().end()
                if n and (active != 0 or name.startswith('stop')):
                    Case(title + ', space over', r).call(call, n + 3, U32).view().call(call).view().end()


GOOD_TEXTS = TEXTS + [b'a' * 254, b'\xc3\xa9' * 127, b'\xc3\xa9' * 127 + b'a', b'a' + b'\xc3\xa9' * 127, '😀'.encode() * 63 + b'abc',
                      b'\x00' * 255, b'\xed\x9f\xbf\xee\x80\x80', b'\xf4\x8f\xbf\xbf']
LONG_TEXTS = [b'a' * 256, b'a' * 257, b'\xc3\xa9' * 128, b'a' * 254 + b'\xc3\xa9', b'a' * 255 + b'\xff', b'\xff' * 256, b'a' * 511, b'a' * 512]
BROKEN_TEXTS = [b'\xff', b'\x80', b'\xc3', b'\xc0\x80', b'\xc1\xbf', b'\xe2\x82', b'\xe0\x9f\xbf', b'\xed\xa0\x80', b'\xf4\x90\x80\x80',
                b'\xf8\x88\x80\x80\x80', b'key\xfe', b'a\xc3(b', b'a' * 254 + b'\xc3', b'\xc3\xa9' * 127 + b'\xc3', b'\xbf' + b'a' * 254]


def shape(t):
    return '%d bytes %s' % (len(t), t.hex() if 0 < len(t) < 6 else '%s..%s' % (t[:4].hex(), t[-2:].hex()))


def texts():
    """Refusal 9: a caller's text of 255 bytes passes and 256 doesn't; bytes count and not characters; and what isn't UTF-8."""
    for name, (stage, call) in REQUESTS.items():
        every = name in ('connect', 'play', 'live')
        for text in GOOD_TEXTS if every else GOOD_TEXTS[3:5]:
            case = Case('%s, text of %s' % (name, shape(text)), Record(stage=stage, next=2))
            case.call(call(text)).view().end()
        for text in LONG_TEXTS + BROKEN_TEXTS if every else LONG_TEXTS[:1] + BROKEN_TEXTS[:1]:
            case = Case('%s, text of %s' % (name, shape(text)), Record(stage=stage, next=2))
            case.call(call(text), 40).view().call(call(b'')).view().end()
    far = b'k' * (65536 + 3)
    Case('connect, text of %d bytes' % len(far), Record()).call(c_connect(far), 200).view().end()
    # settings that go out with a connect
    for i, flash in enumerate(GOOD_TEXTS):
        for url in (None, (b'', b'rtmp://example.com/live', GOOD_TEXTS[3])[i % 3]):
            r = Record(flash=Text(flash), configured=url is not None, url=Text(url or b''))
            title = 'connect, flash version of %s, tcUrl %s' % (shape(flash), '-' if url is None else 'of ' + shape(url))
            Case(title, r).call(CALLS['connect']).view().settings().end()


def encoders():
    """The encoder's text is the caller's, and lies anywhere in the bytes that are lent with it."""
    r = Record(stage=PUBLISHING, active=5)
    for i, text in enumerate(GOOD_TEXTS + LONG_TEXTS + BROKEN_TEXTS):
        values = (FULL[:10], [None] * 10)[i % 2]
        case = Case('encoder of %s' % shape(text), r)
        case.call(c_metadata(values, (0, len(text)), text)).call(c_metadata(values, None, text)).view().end()
    long, mixed = b'a' * 300, b'\xff\xfeabc\xc3\xa9\xc3'
    for lent, spots in ((long, [(0, 255), (0, 256), (44, 256), (45, 255), (45, 256), (45, U64), (299, 5), (300, 1), (301, 0), (U64, U64), (0, 0)]),
                        (mixed, [(2, 3), (2, 5), (2, 4), (2, 6), (0, 1), (1, 1), (5, 2), (6, 1), (7, 1), (8, 1), (0, 0), (2, U64), (U64, 2)])):
        for spot in spots:
            Case('encoder at %d, %d of %d' % (*spot, len(lent)), r).call(c_metadata([None] * 10, spot, lent)).view().end()


def metadatas():
    """Which fields are there, and their numbers, a NaN rate of every kind among them; a byte short and exactly enough."""
    r = Record(stage=PUBLISHING, active=U32)
    for chosen in [[]] + [[i] for i in range(11)] + [[j for j in range(11) if j != i] for i in range(11)]:
        values = [v if i in chosen else None for i, v in enumerate(FULL[:10])]
        call = c_metadata(values, (0, 12) if 10 in chosen else None)
        case = Case('metadata with fields %s' % ' '.join(map(str, chosen)), r)
        n = case.needs(call, 9)
        case.call(call, n - 1, 9).call(call, n, 9).view().end()
    for p in SINGLES:
        Case('metadata with rate %08x' % p, r).call(c_metadata([None] * 3 + [p] + [None] * 6, None)).end()
    for n in (0, 1, 2 ** 31, U32):
        Case('metadata with numbers %d' % n, r).call(c_metadata([n] * 3 + [None] + [n] * 5 + [False], None)).end()


def media():
    """The caller's time and droppable flag go out, and not the clock."""
    for letter, word_ in (('V', 'picture'), ('A', 'sound')):
        for data in (b'', b'\x17', b'\x00' * 9, bytes(range(256)), b'\xff' * 300):
            for time, droppable, clock in ((0, False, 5), (U32, True, 0), (5, True, U32)):
                call = c_media(letter, data, time, droppable)
                case = Case('%s of %d bytes at %d' % (word_, len(data), time), Record(stage=PUBLISHING, active=U32))
                if data:
                    case.call(call, len(data) - 1, clock).view()
                case.call(call, len(data), clock).call(call, len(data) + 2, clock).view().end()


def counts():
    """No window, below it, reaching it, window 0, sums past 32 bits, a total that wraps; a byte short and exactly enough."""
    for window in (None, 0, 1, 4, 2500000, U32):
        for pending in (0, 3, U32) if window != 2500000 else (0, 2499999, U32):
            for count in (0, 1, 4, 2500000, U32):
                for total in (0, U64 - 3):
                    call = c_bytes(count)
                    title = 'window %s, pending %d, count %d, total %d' % ('-' if window is None else window, pending, count, total)
                    case = Case(title, Record(link=(128, window, pending, total)))
                    n = case.needs(call)
                    if n:
                        case.call(call, n - 1).view()
                    case.call(call, n, 7).view().call(call, 4).view().end()
    # many counts: the numbers of all acknowledgements plus pending equal the bytes counted since the first window
    rnd = random.Random(3)
    for i in range(30):
        window = rnd.choice([0, 1, 1000, 2 ** 31, U32, rnd.getrandbits(32)])
        case, counted, acknowledged = Case('counts in a row %d' % i, Record(stage=i % 6, link=(128, window, 0, rnd.getrandbits(64)))), 0, 0
        for _ in range(12):
            count = rnd.choice([0, 1, window // 3, window, U32, rnd.getrandbits(rnd.randrange(1, 33))]) & U32
            case.call(c_bytes(count), rnd.choice([4, 4, 4, 6]))
            counted += count
            if case.results[-2].startswith('out'):
                acknowledged += int(case.results[-1][:8], 16)
        assert (acknowledged + case.now.link[2] - counted) % 2 ** 32 == 0
        case.view().end()


def pings():
    """The clock goes out and is handed back."""
    for clock in (0, 1, 255, 2 ** 31, U32):
        case = Case('ping at %d' % clock, Record(stage=PLAYING, active=2, next=5, places=SOME))
        for space in (0, 5, 6, 9):
            case.call(c_ping(), space, clock)
        case.view().end()


def walks():
    """Random records and random calls."""
    rnd = random.Random(11)
    some = [b'', b'key', 'é'.encode(), b'k' * 255]

    def text():
        return rnd.choice(some) if rnd.random() < .93 else rnd.choice([b'k' * 256, b'\xff', b'\xc3'])

    def call():
        t = text()
        return rnd.choice([c_connect(t), c_play(t), c_publish(t, rnd.choice(KINDS[3:])), c_stop_playback(), c_stop_publishing(), c_ping(),
                           c_media(rnd.choice('VA'), t, rnd.getrandbits(32), rnd.random() < .5), c_bytes(rnd.choice([0, 1, 5, rnd.getrandbits(32)])),
                           c_metadata([v if rnd.random() < .5 else None for v in FULL[:10]], rnd.choice([None, (0, len(t))]), t)])

    for i in range(300):
        due = rnd.choice([9, 9, 9, U32, SPENT])
        taken = rnd.sample(range(1, 9), rnd.randrange(9))
        opened = [(k, rnd.choice(KINDS[1:]), n, rnd.choice(some)) for k, n in zip(rnd.sample(range(8), len(taken)), taken)]
        if opened and rnd.random() < .1:
            opened[0] = opened[0][:2] + (rnd.choice([0, due % 2 ** 32, opened[-1][2]]),) + opened[0][3:]
        r = Record(stage=rnd.choice(STAGES), active=rnd.choice(STREAMS), next=due, places=places(*opened),
                   link=(128, rnd.choice([None, 0, 7, U32]), rnd.choice([0, 6, U32]), rnd.getrandbits(64)))
        case = Case('walk %d' % i, r)
        for _ in range(rnd.randrange(1, 7)):
            c, clock = call(), rnd.getrandbits(32)
            case.call(c, max(0, case.needs(c, clock) + rnd.choice([-1, 0, 0, 1])), clock)
            if rnd.random() < .3:
                case.set(stage=rnd.choice(STAGES), active=rnd.choice(STREAMS))
        case.view().settings().end()


def main():
    for group in (calls_at_stages, texts, encoders, metadatas, media, records, orders, numbers, free_places, openings, counts, pings, walks):
        before = len(given)
        group()
        print('%5d %s' % (len(given) - before, group.__name__))
    names = [line.split('\t')[0] for line in expected]
    assert len(set(names)) == len(names)
    here = os.path.dirname(os.path.abspath(__file__))
    for name, lines in (('stdin', given), ('stdout', expected)):
        text = '\n'.join(lines) + '\n'
        assert len(text) < {'stdin': 2097152, 'stdout': 1048576}[name]
        with open(os.path.join(here, '..', 'crates', 'calls', name), 'w', encoding='ascii', newline='\n') as f:
            f.write(text)
    print('%d cases' % len(given))


if __name__ == '__main__':
    main()
