"""Cases of calls.py by what the record holds: records that refusal 13 meets and their nearest neighbours, refusals that hold at once, the numbers
that requests are given, open places, openings.
"""
import itertools

from bodies import FULL
from calls_model import (CHUNK, CONNECTED, DISCONNECTED, KINDS, PLAYING, PUBLISHING, SPENT, STAGES, U32, U64, Record, Text, c_connect, c_metadata, c_play,
                         c_publish)
from calls_notation import CALLS, REQUESTS, SOME, STREAMS, Case, eight, places


def bad_records():
    over, broken = Text(b'a' * 255, 256), Text(b'ab\xff')
    cut = Text('é'.encode(), 1)
    for name, t in (('256', over), ('far over', Text(b'a', U64)), ('over by 2 ^ 16', Text(b'abc', 65539)), ('over by 2 ^ 32', Text(b'a', SPENT + 1)),
                    ('broken', broken), ('cut', cut), ('broken at its end', Text(b'a' * 254 + b'\xc3')), ('broken after a zero', Text(b'\x00\x80'))):
        yield 'flash version ' + name, dict(flash=t)
        yield 'tcUrl ' + name, dict(configured=True, url=t)
        yield 'open text ' + name, dict(next=4, places=places((1, 'connect', 2, t), (3, 'play', 1, b'x')))
    for i in (0, 7):
        for word_, t in (('over', over), ('broken', broken)):
            yield 'text %s at place %d' % (word_, i), dict(next=9, places=places((3, 'live', 5, b'fine'), (i, 'record', 8, t)))
        yield 'number 0 at place %d' % i, dict(next=9, places=places((3, 'live', 5, b'fine'), (i, 'play', 0, b'k')))
        yield 'number due at place %d' % i, dict(next=9, places=places((3, 'live', 5, b'fine'), (i, 'play', 9, b'k')))
        yield 'number above at place %d' % i, dict(next=9, places=places((3, 'live', 5, b'fine'), (i, 'append', U32, b'k')))
    for chunk in (CHUNK + 1, U32):
        yield 'chunk size %d' % chunk, dict(sizes=(2000, 2500000, chunk))
    for n in (0, SPENT + 1, SPENT + 2, 2 ** 33, 2 ** 63, U64):
        yield 'next number %d' % n, dict(next=n)
    yield 'next number 0 with one open', dict(next=0, places=places((0, 'connect', 1, b'a')))
    yield 'next number 1 with 1 open', dict(next=1, places=places((4, 'connect', 1, b'a')))
    for i, j in ((0, 1), (0, 7), (6, 7), (2, 5)):
        yield 'one number at places %d and %d' % (i, j), dict(next=9, places=places((i, 'connect', 3, b'a'), (j, 'connect', 3, b'a')))
    yield 'one number under two kinds', dict(next=9, places=places((1, 'connect', 3, b'a'), (2, 'live', 3, b'b')))
    yield 'eight with one doubled', dict(next=9, places=eight()[:7] + [('play', 1, Text(b''))])
    yield 'spent with one doubled', dict(next=SPENT, places=places((0, 'play', U32, b'a'), (1, 'play', U32, b'a')))
    yield 'two faults', dict(next=0, flash=over, sizes=(0, 0, U32))


def good_records():
    junk = [Text(b'\xff' * 255, 255), Text(b'a', 256), Text(b'\xff', U64), Text(b'secret')]
    yield 'flash version of 255', dict(flash=Text(b'f' * 255))
    yield 'flash version empty', dict(flash=Text(b''))
    yield 'flash version with zeros', dict(flash=Text(b'ab', 5))
    yield 'flash version before broken bytes', dict(flash=Text(b'ab\xff\xfe', 2))
    yield 'tcUrl over and not configured', dict(url=Text(b'a', 256))
    yield 'tcUrl broken and not configured', dict(url=Text(b'\xff'))
    yield 'tcUrl empty and configured', dict(configured=True)
    yield 'tcUrl of 255', dict(configured=True, url=Text(b'u' * 255))
    yield 'chunk size 0', dict(sizes=(0, 0, 0))
    yield 'chunk size %d' % CHUNK, dict(sizes=(U32, U32, CHUNK))
    yield 'next number %d' % SPENT, dict(next=SPENT)
    yield 'next number %d' % U32, dict(next=U32)
    yield 'open number %d' % U32, dict(next=SPENT, places=places((3, 'connect', U32, b'last')))
    yield 'open number just below', dict(next=9, places=places((3, 'live', 8, b'fine'), (7, 'play', 1, b'k' * 255)))
    yield 'the same text twice', dict(next=9, places=places((0, 'connect', 3, b'a'), (1, 'connect', 4, b'a')))
    yield 'free places with anything', dict(places=places(free=[(i, junk[i % 4]) for i in range(8)]))
    yield 'free places beside open ones', dict(next=9, places=places((1, 'record', 8, b'x'), free=[(0, junk[1]), (2, junk[0]), (7, junk[2])]))
    yield 'eight open', dict(next=9, places=eight())
    yield 'seven open', dict(next=9, places=eight()[:4] + [('free', 0, junk[2])] + eight()[5:])
    for chunk in (0, CHUNK + 1, U32):
        yield "peer's chunk size %d" % chunk, dict(link=(chunk, None, U32, U64))


def records():
    """Every call on records that are no session, and on their nearest neighbours that are one, at every stage."""
    for i, (name, parts) in enumerate(bad_records()):
        case = Case('no session: ' + name, Record(**parts))
        assert not case.now.sound(), name
        for stage in STAGES:
            case.set(stage=stage, active=STREAMS[(stage + i) % 4])
            for call in CALLS.values():
                case.call(call, (0, 9, 34)[(i + stage) % 3])
        case.view().settings().end()
    for i, (name, parts) in enumerate(good_records()):
        for stage in STAGES:
            case = Case('session: %s, stage %d' % (name, stage), Record(stage=stage, active=STREAMS[(stage + i) % 4], **parts))
            assert case.now.sound(), name
            for call in CALLS.values():
                case.call(call)
            case.view().settings().end()


def orders():
    """Two and more refusals hold at once: every set of the conditions that a call has, on a session and on what is none."""
    for name in ('connect', 'play', 'live'):
        stage, call = REQUESTS[name]
        for wrong, text, spent, full, space, none in itertools.product([False, True], repeat=6):
            r = Record(stage=5 - stage if wrong else stage, active=3, next=SPENT if spent else 9, places=eight() if full else SOME)
            if none:
                r.sizes = (2000, 2500000, CHUNK + 1)
            c = call(b'\xff' if text else b'key')
            title = ''.join(' ' + w for w, on in zip(('stage', 'text', 'spent', 'eight', 'space', 'record'), (wrong, text, spent, full, space, none)) if on)
            Case('order of %s:%s' % (name, title), r).call(c, 0 if space else 90).view().end()
    for name in ('picture', 'sound', 'metadata'):
        for wrong, stream, text, space, none in itertools.product([False, True], repeat=5):
            r = Record(stage=PLAYING if wrong else PUBLISHING, active=None if stream else 4, next=0 if none else 2)
            c = CALLS[name] if not text else c_metadata(FULL[:10], (0, 256), b'e' * 256)
            if name == 'metadata' or not text:
                title = ''.join(' ' + w for w, on in zip(('stage', 'stream', 'text', 'space', 'record'), (wrong, stream, text, space, none)) if on)
                Case('order of %s:%s' % (name, title), r).call(c, 3 if space else 350 if name == 'metadata' else 9).view().end()


def numbers():
    """The numbers that requests are given, eight open and a ninth, and the last number."""
    for n in (1, 2, 255, 256, 65535, 65536, 2 ** 31 - 1, 2 ** 31, U32 - 1, U32, SPENT):
        for name, (stage, call) in REQUESTS.items():
            case = Case('%s given %d' % (name, n), Record(stage=stage, next=n))
            case.call(call(b'a')).view().call(call(b'b')).view().call(call(b'c'), 0).view().end()
    for name, (stage, call) in REQUESTS.items():
        case = Case('nine times %s' % name, Record()).open().set(stage=stage)
        for i in range(9):
            case.call(call(b'%d' % i))
        case.view().call(call(b'\xff'), 200).view().end()
    case = Case('nine of all kinds', Record()).open()
    for i in range(3):
        case.call(c_connect(b'app %d' % i))
    case.set(stage=CONNECTED)
    for kind in ('play', 'live', 'record', 'append', 'play'):
        case.call(REQUESTS[kind][1](kind.encode()))
    case.view().call(c_play(), 0).call(c_publish(), 200).set(stage=DISCONNECTED).call(c_connect(), 200).view().end()
    # the last number in the last place: then 11 and not 10
    case = Case('last number in the last place', Record(next=U32, places=eight()[:7] + [('free', 0, Text(b''))]))
    case.call(c_connect()).view().call(c_connect(), 200).call(c_connect(b'\xff'), 200).set(stage=CONNECTED).call(c_play(), 0).view().end()


def free_places():
    """Every set of open places: a request takes one that was free, whatever stood in it, and the others stay."""
    names = list(REQUESTS)
    for bits in range(256):
        stage, call = REQUESTS[names[bits % 5]]
        kinds = [KINDS[1 + (bits + i) % 5] for i in range(8)]
        opened = [(i, kinds[i], 1 + (5 * i + bits) % 8, b'%d' % i) for i in range(8) if bits >> i & 1]
        free = [(i, Text(b'\xffold' * (1 + i), 4 + 60 * i)) for i in range(8) if not bits >> i & 1]
        Case('open places %s' % format(bits, '08b')[::-1], Record(stage=stage, next=9, places=places(*opened, free=free))).call(call(b'new')).view().end()


def openings():
    """Opening looks at the texts, and then at the chunk size. It starts from nothing, whatever else the record held."""
    bad, good = [Text(b'f' * 255, 256), Text(b'f\xff'), Text(b'', U64)], [Text(b'f' * 255), Text(b'')]
    for f, flash in enumerate(good + bad):
        for u, (configured, url) in enumerate([(False, good[1]), (False, bad[0]), (False, bad[1]), (True, good[0]), (True, good[1]), (True, bad[0]), (True, bad[1])]):
            for chunk in (0 if u % 2 else CHUNK, CHUNK + 1, U32):
                r = Record(flash=flash, configured=configured, url=url, sizes=(f, u, chunk), stage=PUBLISHING, active=9, next=U32, places=eight(), link=(1, 2, 3, 4))
                Case('opening, flash version %d, tcUrl %d, chunk size %d' % (f, u, chunk), r).open().view().settings().call(CALLS['connect']).view().end()
    Case('opening with the default settings', Record()).open().view().settings().end()
