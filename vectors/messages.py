#!/usr/bin/env python3
"""Writes messages.txt beside this script: bodies by message type and what a reader has to answer of each, which message_reader.py works out.

Each line has three fields with tabs between them: the type in 2 hexadecimal digits, the body in hexadecimal (`-` for none), the answer:
  malformed   unknown   audio   video   data
  chunk N   abort N   ack N   window N   bandwidth N hard|soft|dynamic
  begin N   eof N   dry N   buffer N MS   recorded N   ping N   pong N
  command NAME START LEN NUMBER OBJECT ARGS FIRST, with NAME result, error, onstatus or other, the place and length of its bytes, the
    Number's pattern in 16 digits, the places of the object and of the arguments, and FIRST absent, `number PATTERN`, object or other. Of
    an onStatus with an object first its code follows: play, publish, `other START LEN` or invalid
  metadata PLACE and eleven fields in order, each `-` or its value: whole numbers, the rate as the single's 8 digits, stereo 0 or 1, the
    encoder as START,LEN
"""
import os
import random
import struct

from message_reader import FIELDS, answer


def be(n, x):
    return x.to_bytes(n, 'big')


def num(x):
    return b'\0' + (be(8, x) if isinstance(x, int) else struct.pack('>d', x))


def bool_(b):
    return bytes([1, b])


def text(t):
    return b'\x02' + be(2, len(t)) + t


def props(ps):
    return b''.join(be(2, len(n)) + n + v for n, v in ps) + b'\0\0\x09'


def obj(*ps):
    return b'\x03' + props(ps)


def ecma(*ps, n=0):
    return b'\x08' + be(4, n) + props(ps)


def strict(*vs):
    return b'\x0a' + be(4, len(vs)) + b''.join(vs)


NULL, UNDEFINED = b'\x05', b'\x06'
ONE = num(1.0)
OTHERS = [num(1.0), bool_(0), bool_(1), bool_(255), text(b''), text(b'x'), obj(), obj((b'a', NULL)), ecma(n=7), NULL, UNDEFINED, strict(),
          strict(NULL, ONE)]
BROKEN = [b'\x04', b'\x07', b'\x09', b'\x0b', b'\x0c', b'\x11', b'\xff', b'\x00', b'\x01', b'\x02', b'\x02\0', b'\x02\0\1', b'\x03', b'\x03\0\0',
          b'\x03\0\0\x05', b'\x03\0\0\x09\x09', b'\x08\0\0\0\0', b'\x0a\0\0\0\1', b'\x02\0\1\x80', b'\x02\0\2\xc0\x80', b'\x02\0\3\xed\xa0\x80',
          b'\x03\0\1\xff\x05\0\0\x09', b'\x0a\xff\xff\xff\xff\x05']


def nest(n, v, wrap):
    for _ in range(n):
        v = wrap(v)
    return v


def deep(n):
    return [nest(n, NULL, lambda v: strict(v)), nest(n, NULL, lambda v: obj((b'a', v))), nest(n, obj(), lambda v: ecma((b'a', v)))]


def cmd(name, number=1.0, thing=NULL, *args):
    return text(name) + num(number) + thing + b''.join(args)


PATTERNS = [0, 1, 0x000fffffffffffff, 0x0010000000000000, 0x3fefffffffffffff, 0x3ff0000000000000, 0x3ffe666666666666, 0x4000000000000000,
            0x403df851eb851eb8, 0x403df851e0000000, 0x41dfffffffc00000, 0x41efffffffe00000, 0x41efffffffffffff, 0x41f0000000000000,
            0x7fefffffffffffff, 0x7ff0000000000000, 0x7ff0000000000001, 0x7ff8000000000000, 0x7fffffffffffffff, 0x8000000000000000,
            0xbff0000000000000, 0xc008000000000000, 0xfff0000000000000, 0xfff8000000000000, 0xffffffffffffffff]
# doubles around singles: ties to even down and up, just beside them, the largest single, the smallest, subnormals
RATES = [0x3ff0000010000000, 0x3ff0000010000001, 0x3ff000000fffffff, 0x3ff0000030000000, 0x3ff000002fffffff, 0x3ff0000030000001,
         0x3fffffffe0000000, 0x3ffffffff0000000, 0x3fffffffefffffff, 0x47efffffe0000000, 0x47efffffefffffff, 0x47effffff0000000, 0x47f0000000000000,
         0x380fffffc0000000, 0x380fffffe0000000, 0x380fffffdfffffff, 0x380ffffffffffffe, 0x3810000000000000, 0x36a0000000000000, 0x3690000000000000,
         0x3690000000000001, 0x368fffffffffffff, 0x36b0000000000000, 0x36a8000000000000, 0x36b4000000000000, 0x36b8000000000000, 0x369fffffffffffff,
         0xb690000000000000, 0xb690000000000001, 0xb810000000000000, 0xc7effffff0000000, 0xc7efffffefffffff, 0x4039000000000000, 0x404dffffffffffff]


def meta(*ps, make=obj):
    return text(b'onMetaData') + make(*ps)


def good(name):
    if name == b'stereo':
        return bool_(1)
    return text(b'OBS') if name == b'encoder' else num(5.0)


FULL = meta((b'width', num(1920.0)), (b'height', num(1080.0)), (b'videocodecid', num(7.0)), (b'framerate', num(29.97)),
            (b'videodatarate', num(2500.0)), (b'audiocodecid', num(10.0)), (b'audiodatarate', num(160.5)), (b'audiosamplerate', num(48000.0)),
            (b'audiochannels', num(2.0)), (b'stereo', bool_(1)), (b'encoder', text(b'OBS 30')))
RESULT = cmd(b'_result', 1.0, obj((b'fmsVer', text(b'FMS/3,5')), (b'mode', num(1.0))), obj((b'code', text(b'Connect.Success')), (b'x', NULL)))
START = cmd(b'onStatus', 0.0, NULL, obj((b'level', text(b'status')), (b'code', text(b'NetStream.Play.Start'))))


def plain():
    for t in range(256):
        yield t, b''
        yield t, b'\0\0\0\x05'
    for t in (1, 2, 3, 5):
        for n in range(7):
            yield t, bytes(range(1, n + 1))
        for x in (0, 1, 128, 2147483647, 2147483648, 4294967295):
            yield t, be(4, x)
    for n in range(8):
        yield 6, bytes(range(n))
    for limit in range(256):
        if limit < 8 or limit % 31 == 0:
            yield 6, be(4, 5000000) + bytes([limit])
    for x in (0, 4294967295):
        yield 6, be(4, x) + b'\x01'
    for t in (8, 9):
        yield t, b'\0'
        yield t, bytes(range(200))


def events():
    for e in list(range(301)) + [301, 511, 512, 768, 1024, 1536, 1792, 0x3fff, 0x8000, 0x8003, 0xff00, 0xff03, 0xfffe, 0xffff]:
        yield 4, be(2, e) + be(4, 7)
        yield 4, be(2, e) + be(4, 1) + be(4, 2000)
    for e in range(8):
        for n in range(0, 12) if e in (3, 5, 6) else (3, 5, 7, 9):
            yield 4, be(2, e) + bytes(range(n))
        for x in (0, 0x01020304, 4294967295):
            yield 4, be(2, e) + be(4, x)
            yield 4, be(2, e) + be(4, x) + be(4, 4294967295 - x)
    yield 4, b'\0'


def commands():
    for name in (b'_result', b'_error', b'onStatus', b'connect', b'createStream', b'', b'_', b'_resul', b'_results', b'_Result', b'result', b'_erro',
                 b'_errors', b'onStatu', b'onStatuses', b'onstatus', b'onStatus\0', b'\0onStatus', 'é'.encode(), b'x' * 300):
        yield cmd(name)
        yield cmd(name, 1.9, NULL, ONE)
        yield cmd(name, 0.0, NULL, obj((b'code', text(b'c'))))
    for p in PATTERNS:
        yield text(b'_result') + num(p) + NULL + num(p)
    for v in OTHERS:
        yield v + ONE + NULL                          # what stands for the name
        yield text(b'_result') + v + NULL             # for the number
        yield cmd(b'_result', 1.0, v)                 # for the object
        yield cmd(b'_result', 1.0, NULL, v)           # for the first argument
        yield cmd(b'_error', 1.0, v, v, v)
        yield cmd(b'onStatus', 0.0, NULL, v)
    for v in BROKEN:
        yield v
        yield text(b'_result') + v
        yield cmd(b'_result', 1.0, v)
        yield cmd(b'_result', 1.0, NULL, v)
        yield cmd(b'onStatus', 0.0, NULL, obj((b'code', text(b'c'))), v)
    for n in (6, 7, 8):
        for v in deep(n):
            yield cmd(b'_result', 1.0, v)
            yield cmd(b'_result', 1.0, NULL, v)
    yield cmd(b'_result', 1.0, NULL, *OTHERS)
    yield b''
    yield text(b'_result')
    yield text(b'_result') + ONE
    for n in range(len(RESULT) + 1):
        yield RESULT[:n]
    for n in range(0, len(START) + 1, 3):
        yield START[:n]
    yield RESULT + NULL
    yield RESULT + b'\x04'


def notices():
    codes = [b'NetStream.Play.Start', b'NetStream.Publish.Start', b'NetStream.Play.Reset', b'NetStream.Play.Star', b'NetStream.Play.Start2', b'',
             b'netstream.play.start', b'NetStream.Publish.Star', b'NetStream.Publish.Start ', 'NetStream.Pl\u00e4y'.encode(), b'x' * 260]
    for make in (obj, ecma):
        for c in codes:
            yield make((b'code', text(c)))
            yield make((b'level', text(b'status')), (b'code', text(c)), (b'description', text(b'd')))
            yield make((b'code', NULL), (b'code', text(c)))
            yield make((b'code', text(c)), (b'code', NULL))
            yield make((b'code', text(c)), (b'code', text(b'other')))
            yield make((b'code', text(b'other')), (b'code', text(c)))
            yield make((b'x', obj((b'code', text(c)))))
        for v in OTHERS:
            yield make((b'code', v))
        for n in (b'Code', b'cod', b'codes', b'x'):
            yield make((n, text(b'NetStream.Play.Start')))
        yield make()
        yield make((b'', text(b'a')))
    yield strict(obj((b'code', text(b'NetStream.Play.Start'))))
    yield NULL + obj((b'code', text(b'NetStream.Play.Start')))
    yield obj((b'code', text(b'NetStream.Play.Start'))) + NULL
    yield b''


def metadata():
    yield FULL
    yield FULL.replace(b'\x03\0\x05width', b'\x08\0\0\0\x0b\0\x05width')
    for n in range(len(FULL)):
        yield FULL[:n]
    for make in (obj, ecma):
        for name in FIELDS if make == obj else FIELDS[::3]:
            yield meta((name, good(name)), make=make)
            yield meta(*[(n, good(n)) for n in FIELDS if n != name], make=make)
            for v in OTHERS if make == obj else OTHERS[::5]:
                yield meta((name, v), make=make)
            yield meta((name, good(name)), (name, NULL), make=make)
            yield meta((name, NULL), (name, good(name)), make=make)
            yield meta((name.upper(), good(name)), (name + b'2', good(name)), (name[:-1], good(name)), make=make)
            yield meta((b'x', obj((name, good(name)))), make=make)
    for name in (b'width', b'audiochannels'):
        for p in PATTERNS:
            yield meta((name, num(p)))
    for p in PATTERNS + RATES:
        yield meta((b'framerate', num(p)))
    yield meta((b'encoder', text(b'')))
    yield meta((b'encoder', text(b'a')), (b'encoder', text(b'bc')), (b'x', NULL))
    yield meta((b'width', num(1.0)), (b'width', num(2.0)), (b'width', num(3.0)))
    for v in OTHERS:
        yield v
        yield text(b'onMetaData') + v
        yield text(b'onMetaData') + NULL + v
        yield v + obj((b'width', num(5.0)))
    for name in (b'onMetadata', b'onMetaDat', b'onMetaData2', b'', b'onmetadata', b'onCuePoint'):
        yield text(name) + obj((b'width', num(5.0)))
    for v in BROKEN:
        yield v
        yield text(b'onMetaData') + v
        yield meta((b'width', num(5.0))) + v
    for n in (6, 7, 8):
        for v in deep(n):
            yield meta((b'a', v))
            yield text(b'x') + v
    yield b'\0' + FULL


def status(level, code):
    return cmd(b'onStatus', 0.0, NULL, obj((b'level', text(level)), (b'code', text(code)), (b'description', text(b'sample'))))


def connecting():
    """Section 7.2.1.1 of RTMP 1.0: connect with the values of its table, and what its diagram sends after it."""
    yield 20, cmd(b'connect', 1.0, obj(
        (b'app', text(b'testapp')), (b'flashver', text(b'FMSc/1.0')), (b'swfUrl', text(b'file://C:/FlvPlayer.swf')),
        (b'tcUrl', text(b'rtmp://localhost:1935/testapp/instance1')), (b'fpad', bool_(0)), (b'audioCodecs', num(4.0)),
        (b'videoCodecs', num(4.0)), (b'videoFunction', num(1.0)), (b'pageUrl', text(b'http://somehost/sample.html')),
        (b'objectEncoding', num(3.0))))
    yield 5, be(4, 2500000)
    for limit in range(3):
        yield 6, be(4, 2500000) + bytes([limit])
    yield 4, be(2, 0) + be(4, 0)
    server = obj((b'fmsVer', text(b'FMS/3,5,7,7009')), (b'capabilities', num(31.0)))
    for name, level, code in ((b'_result', b'status', b'NetConnection.Connect.Success'), (b'_error', b'error', b'NetConnection.Connect.Rejected')):
        yield 20, cmd(name, 1.0, server, obj((b'level', text(level)), (b'code', text(code)), (b'description', text(b'sample')),
                                             (b'objectEncoding', num(0.0))))


def streaming():
    """The commands of sections 7.2.1.2 to 7.2.2.8, and the messages of the diagrams in 7.2.2.1, 7.3.1 and 7.3.3."""
    yield 20, cmd(b'call', 2.0, NULL, text(b'sample'))
    yield 20, cmd(b'createStream', 2.0)
    yield 20, cmd(b'_result', 2.0, NULL, ONE)
    yield 20, cmd(b'_error', 2.0, NULL, obj((b'level', text(b'error')), (b'code', text(b'NetConnection.Call.Failed'))))
    for key in (b'sample', b'mp3:sample', b'mp4:sample.m4v'):
        yield 20, cmd(b'play', 0.0, NULL, text(key))
        yield 20, cmd(b'play', 0.0, NULL, text(key), num(-2.0), num(-1.0), bool_(1))
        yield 20, cmd(b'publish', 0.0, NULL, text(key), text(b'live'))
    yield 20, cmd(b'play2', 0.0, NULL, obj((b'oldStreamName', text(b'sample')), (b'streamName', text(b'mp4:sample.m4v')), (b'start', num(-2.0)),
                                          (b'len', num(-1.0)), (b'offset', num(-1.0)), (b'transition', text(b'switch'))))
    yield 20, cmd(b'deleteStream', 0.0, NULL, ONE)
    for name in (b'receiveAudio', b'receiveVideo'):
        yield 20, cmd(name, 0.0, NULL, bool_(0))
    yield 20, cmd(b'seek', 0.0, NULL, num(2000.0))
    yield 20, cmd(b'pause', 0.0, NULL, bool_(1), num(2000.0))
    for code in (b'Play.Reset', b'Play.Start', b'Publish.Start', b'Seek.Notify', b'Pause.Notify', b'Unpause.Notify'):
        yield 20, status(b'status', b'NetStream.' + code)
    for code in (b'Play.StreamNotFound', b'Publish.BadName'):
        yield 20, status(b'error', b'NetStream.' + code)
    yield 1, be(4, 4096)
    for e in range(5):
        yield 4, be(2, e) + be(4, 1) + (be(4, 3000) if e == 3 else b'')
    for e in (6, 7):
        yield 4, be(2, e) + be(4, 2000)
    yield 18, FULL
    yield 18, text(b'@setDataFrame') + FULL
    yield 8, bytes(range(32))                         # as long as the messages of section 5.3.2
    yield 9, bytes(i % 256 for i in range(307))


def changed():
    """Bodies with some bytes changed, left out or put in."""
    rng = random.Random(20)
    for t, s in ((20, RESULT), (20, START), (17, b'\0' + START), (18, FULL), (15, meta((b'stereo', bool_(1)), (b'encoder', text(b'e')), make=ecma))):
        for _ in range(20):
            b = bytearray(s)
            for _ in range(rng.randint(1, 2)):
                i = rng.randrange(len(b))
                way = rng.randrange(3)
                if way == 0:
                    b[i] = rng.choice([0, 1, 2, 3, 5, 6, 8, 9, 10, rng.randrange(256)])
                elif way == 1:
                    del b[i]
                else:
                    b.insert(i, rng.choice([0, 1, 2, 5, rng.randrange(256)]))
            yield t, bytes(b)


def cases():
    yield from plain()
    yield from events()
    for i, s in enumerate(commands()):
        yield 20, s
        if i % 8 == 0:
            yield 17, s
            yield 17, b'\0' + s
        if i % 24 == 0:
            yield 17, b'\0\0' + s
            yield 20, b'\0' + s
    yield 17, b'\0'
    yield 17, b'\0\0'
    for i, v in enumerate(notices()):
        yield 20, cmd(b'onStatus', 0.0, NULL) + v
        if i % 5 == 0:
            yield 17, b'\0' + cmd(b'onStatus', 0.0, NULL) + v
            yield 20, cmd(b'_error', 1.0, NULL) + v
    for i, s in enumerate(metadata()):
        yield (15 if i % 4 == 0 else 18), s
    yield from connecting()
    yield from streaming()
    yield from changed()


def main():
    seen, lines = set(), []
    for t, s in cases():
        if (t, s) not in seen:
            seen.add((t, s))
            lines.append('%02x\t%s\t%s\n' % (t, s.hex() or '-', answer(t, s)))
    with open(os.path.join(os.path.dirname(os.path.abspath(__file__)), 'messages.txt'), 'w') as out:
        out.writelines(lines)


if __name__ == '__main__':
    main()
