#!/usr/bin/env python3
"""Writes bodies.txt: bodies that a client sends, worked out from the public papers (AMF0 section 2, RTMP 1.0 sections 5.4 and 7).

A line is tab-parted: a word, its arguments, and the body in hexadecimal. A text is hexadecimal, `.` if it is empty.
  connect N APP FLASH URL         URL is `-` where none is configured
  createstream N
  delete STREAM
  play STREAM MS KEY              SetBufferLength and then play, joined
  publish KEY live|record|append
  ping T · pong T · ack N
  sizes WINDOW CHUNK              joined
  metadata and eleven fields      width height videocodecid framerate videodatarate audiocodecid audiodatarate audiosamplerate
                                  audiochannels stereo encoder; each `-` where it is absent; the rate is a single's pattern in
                                  8 hexadecimal digits, stereo is 0 or 1
"""
import itertools, os, random, struct

def word(n, size): return bytes(n >> 8 * (size - 1 - i) & 255 for i in range(size))

def double(n):
    """The pattern of the whole number n as a double: IEEE 754, 11 bits of exponent and 52 of fraction."""
    if n == 0: return 0
    top = n.bit_length() - 1
    return (top + 1023) << 52 | (n << 52 - top) - (1 << 52)

def widened(p):
    """The pattern of the double that equals the single p; of a NaN 7ff8000000000000."""
    sign, exponent, fraction = p >> 31, p >> 23 & 255, p & 0x7fffff
    if exponent == 255: return 0x7ff8 << 48 if fraction else sign << 63 | 0x7ff << 52
    if exponent == 0:
        if fraction == 0: return sign << 63
        top = fraction.bit_length() - 1
        return sign << 63 | (top - 149 + 1023) << 52 | (fraction << 52 - top) - (1 << 52)
    return sign << 63 | (exponent - 127 + 1023) << 52 | fraction << 29

def number(bits): return b'\x00' + word(bits, 8)
def boolean(b): return b'\x01' + (b'\x01' if b else b'\x00')
def name(t): return word(len(t), 2) + t
def text(t): return b'\x02' + name(t)
def prop(n, value): return name(n) + value
def obj(props): return b'\x03' + b''.join(props) + b'\x00\x00\x09'
NULL = b'\x05'

def command(n, number_, *values): return text(n) + number(double(number_)) + b''.join(values)

def connect(n, app, flash, url):
    props = [prop(b'app', text(app)), prop(b'flashVer', text(flash)), prop(b'objectEncoding', number(double(0)))]
    if url is not None: props.append(prop(b'tcUrl', text(url)))
    return command(b'connect', n, obj(props))

def play(stream, ms, key): return word(3, 2) + word(stream, 4) + word(ms, 4) + command(b'play', 0, NULL, text(key))

NAMES = ['width', 'height', 'videocodecid', 'framerate', 'videodatarate', 'audiocodecid', 'audiodatarate', 'audiosamplerate',
         'audiochannels', 'stereo', 'encoder']

def metadata(fields):
    props = []
    for n, v in zip(NAMES, fields):
        if v is None: continue
        if n == 'framerate': v = number(widened(v))
        elif n == 'stereo': v = boolean(v)
        elif n == 'encoder': v = text(v)
        else: v = number(double(v))
        props.append(prop(n.encode(), v))
    return text(b'@setDataFrame') + text(b'onMetaData') + obj(props)

def shown(t): return '-' if t is None else t.hex() or '.'

def shown_fields(fields):
    out = []
    for n, v in zip(NAMES, fields):
        if v is None: out.append('-')
        elif n == 'framerate': out.append('%08x' % v)
        elif n == 'stereo': out.append(str(int(v)))
        elif n == 'encoder': out.append(shown(v))
        else: out.append(str(v))
    return out

NUMBERS = [0, 1, 255, 256, 65535, 65536, 2 ** 31, 2 ** 32 - 1]
MORE = [2, 3, 127, 128, 16777216, 16777217, 2 ** 31 - 1, 2 ** 31 + 1, 2 ** 32 - 2, 1234567890]
TEXTS = [b'', b'a', b'camera-7', bytes(97 + i % 26 for i in range(255)), 'é'.encode(), '日本語/録画'.encode(), '😀'.encode(),
         '日'.encode() * 85, '\x00'.encode(), '\x7f\u0080\u07ff\u0800\uffff\U00010000\U0010ffff'.encode()]
SINGLES = [0x7fc00000, 0xffc00000, 0x7f800001, 0xffffffff, 0x7fbfffff, 0x7f800000, 0xff800000, 0x00000000, 0x80000000, 0x00000001,
           0x80000001, 0x00000002, 0x007fffff, 0x807fffff, 0x00400000, 0x00800000, 0x7f7fffff, 0xff7fffff, 0x3f800000, 0xbf800000,
           0x41efc28f, 0x41f00000, 0x3dcccccd, 0x42c80000]
FULL = [1920, 1080, 7, 0x41efc28f, 2500, 10, 160, 48000, 2, True, b'Lavf60.3.100']

def lines():
    rnd = random.Random(7)
    def say(w, args, body): return '\t'.join([w, *map(str, args), body.hex()])
    for n in NUMBERS + MORE: yield say('createstream', [n], command(b'createStream', n, NULL))
    for n in NUMBERS + MORE: yield say('delete', [n], command(b'deleteStream', 0, NULL, number(double(n))))
    for n in NUMBERS + MORE: yield say('ping', [n], word(6, 2) + word(n, 4))
    for n in NUMBERS + MORE[:4]: yield say('pong', [n], word(7, 2) + word(n, 4))
    for n in NUMBERS + MORE[:4]: yield say('ack', [n], word(n, 4))
    for w, c in [(0, 0), (1, 2), (2500000, 4096), (2 ** 32 - 1, 2 ** 31 - 1), (255, 256), (65536, 65535), (2 ** 31, 1), (0, 2 ** 32 - 1)]:
        yield say('sizes', [w, c], word(w, 4) + word(c, 4))
    for i, key in enumerate(TEXTS):
        for kind in ('live', 'record', 'append'):
            yield say('publish', [shown(key), kind], command(b'publish', 0, NULL, text(key), text(kind.encode())))
        stream, ms = NUMBERS[i % 8], NUMBERS[(i + 3) % 8]
        yield say('play', [stream, ms, shown(key)], play(stream, ms, key))
    yield say('play', [1, 2000, shown(b'key')], play(1, 2000, b'key'))
    def conn(n, app, flash, url): return say('connect', [n, shown(app), shown(flash), shown(url)], connect(n, app, flash, url))
    for n in NUMBERS: yield conn(n, b'live', b'LNX 9,0,124,2', None)
    for n in NUMBERS: yield conn(n, b'live', b'LNX 9,0,124,2', b'rtmp://example.com/live')
    for i, t in enumerate(TEXTS):
        yield conn(1, t, b'F', None)
        yield conn(2, b'app', t, b'')
        yield conn(3, TEXTS[i - 1], TEXTS[i - 2], t)
    # RTMP 1.0's own values: the properties of connect in section 7.2.1.1, and the streams named for play in 7.2.2.1
    for url in (None, b'rtmp://localhost:1935/testapp/instance1'): yield conn(1, b'testapp', b'FMSc/1.0', url)
    for key in (b'sample', b'mp3:sample', b'mp4:sample.m4v'):
        yield say('play', [1, 2000, shown(key)], play(1, 2000, key))
        for kind in ('live', 'record', 'append'):
            yield say('publish', [shown(key), kind], command(b'publish', 0, NULL, text(key), text(kind.encode())))
    none = [None] * 11
    def meta(fields): return say('metadata', shown_fields(fields), metadata(fields))
    yield meta(none)
    yield meta(FULL)
    for i in range(11): yield meta([v if i == j else None for j, v in enumerate(FULL)])
    for i in range(11): yield meta([None if i == j else v for j, v in enumerate(FULL)])
    for p in SINGLES: yield meta([p if i == 3 else None for i in range(11)])
    for picks in itertools.product([False, True], repeat=4):
        chosen = dict(zip([0, 3, 9, 10], picks))
        yield meta([v if chosen.get(i, False) else None for i, v in enumerate(FULL)])
        yield meta([v if chosen.get(i, True) else None for i, v in enumerate(FULL)])
    for i, n in enumerate(NUMBERS): yield meta([NUMBERS[(i + j) % 8] if j not in (3, 9, 10) else None for j in range(11)])
    for i, t in enumerate(TEXTS): yield meta([None] * 9 + [i % 2 == 0, t])
    for _ in range(24):
        some = [rnd.choice(NUMBERS + MORE), rnd.getrandbits(32), rnd.getrandbits(16), rnd.getrandbits(32), rnd.getrandbits(24),
                rnd.getrandbits(8), rnd.getrandbits(12), rnd.choice([44100, 48000]), rnd.randrange(9), rnd.random() < .5, rnd.choice(TEXTS)]
        yield meta([v if rnd.random() < .6 else None for v in some])

# the encoder of numbers against the machine's
for n in NUMBERS + MORE: assert word(double(n), 8) == struct.pack('>d', n)
for p in SINGLES + [random.Random(1).getrandbits(32) for _ in range(1000)]:
    x = struct.unpack('>f', word(p, 4))[0]
    assert word(widened(p), 8) == (struct.pack('>d', x) if x == x else bytes.fromhex('7ff8000000000000'))
# document 01's starred bodies
assert command(b'createStream', 2, NULL).hex() == '02000c63726561746553747265616d00400000000000000005'
assert play(1, 2000, b'')[:10].hex() == '000300000001000007d0'
assert (word(7, 2) + word(7, 4)).hex() == '000700000007'

if __name__ == '__main__':
    with open(os.path.join(os.path.dirname(os.path.abspath(__file__)), 'bodies.txt'), 'w', encoding='ascii') as f:
        for line in dict.fromkeys(lines()): f.write(line + '\n')
