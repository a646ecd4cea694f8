"""Random walks for replay.py: sessions of 40 lines from a fixed seed, each line chosen by what the session is about to do and against it.

Connects, requests, replies in time, late, doubled, halved (1.9), unknown and of the wrong shape, second grants, notices, stops, pictures, sound,
metadata, pings, windows set, lowered and 0, counts up to 32 bits, bodies cut off, lengthened and changed, openings, and lent outputs that are too
short.
"""
import random

from messages import BROKEN, FULL, NULL, OTHERS, bool_, cmd, ecma, num, obj, text
from replay_card import SPACE, Card
from replay_notation import (ONMETA, PING, STOP_PLAYBACK, STOP_PUBLISHING, audio, connect, control, count, error, keep, metadata, msg, octets,
                             opening, play, publish, result, space, status, video, window)
from replay_model import CONNECTED, DISCONNECTED, PLAY_REQUESTED, PLAY_START, PLAYING, PUBLISH_REQUESTED, PUBLISH_START

MOST = 4294967295
SCRIPTS, LINES = 200, 40


class Walk:
    def __init__(self, seed):
        self.rnd, self.card, self.lines = random.Random(seed), Card(), []
        # how many requests this walk has open before it answers one, and whether it is one that counts bytes more than anything else
        self.wanted, self.counting = self.rnd.choice([1, 1, 2, 3, 4, 9]), seed % 5 == 0

    def pick(self, *choices):
        return self.rnd.choice(choices)

    def chance(self, p):
        return self.rnd.random() < p

    def say(self, line):
        clock = self.pick(0, 5, MOST, self.rnd.getrandbits(32), 1000 * len(self.lines), 1000 * len(self.lines))
        raw = b'\t'.join(octets(f) for f in [clock, *line])
        self.lines.append(raw)
        self.card.feed(raw)

    # -- what a line is made of

    def text(self):
        if self.chance(.08):
            return self.pick(b'k' * 256, b'\xff', b'a\xc3', 'é'.encode() * 128)
        return self.pick(b'', b'k', b'camera-7', 'é日😀'.encode(), b'k' * 255 if self.chance(.2) else b'key', b'a b')

    def stream(self):
        s = self.card.session
        return s.active if s.active is not None and self.chance(.8) else self.pick(0, 1, 5, MOST)

    def argument(self):
        if self.chance(.75):
            return num(self.pick(0.0, 1.0, 1.0, 2.0, 5.0, 1.9, -3.0, 4294967296.0, float('nan'), 7.0))
        return self.pick(*OTHERS)

    def number(self):
        s = self.card.session
        if s.open and self.chance(.75):
            n = float(self.rnd.choice(sorted(s.open)))
            return n + self.pick(0.0, 0.0, 0.0, .9, .5)
        return float(self.pick(0, s.next, s.next - 1, self.rnd.randrange(s.next + 1), -1, MOST, 4294967296)) + self.pick(0.0, .9)

    def damaged(self, body):
        b = bytearray(body)
        way = self.rnd.randrange(4)
        at = self.rnd.randrange(len(b)) if b else 0
        if way == 0 or not b:
            return bytes(b) + self.pick(b'\0', b'\x04', b'\x05', b'\x09')
        if way == 1:
            return bytes(b[:at])
        if way == 2:
            b[at] = self.pick(0, 1, 2, 3, 5, 6, 8, 9, 10, self.rnd.randrange(256))
        else:
            del b[at]
        return bytes(b)

    # -- lines

    def reply(self):
        arguments = [self.argument() for _ in range(self.pick(0, 1, 1, 1, 1, 2))]
        line = self.pick(result, result, result, error)(self.number(), *arguments)
        if self.chance(.15):
            line[1], line[4] = 17, self.pick('', '00', '0000') + line[4]
        return line

    def notice(self):
        if self.chance(.2):
            return msg(20, cmd(b'onStatus', 0.0, NULL, self.pick(*OTHERS, obj((b'code', NULL)), ecma((b'code', text(PLAY_START))),
                obj((b'code', text(PUBLISH_START)), (b'code', text(b'x'))))))
        return status(self.pick(PLAY_START, PUBLISH_START, PLAY_START, PUBLISH_START, b'NetStream.Play.Reset', b''))

    def data(self):
        body = self.pick(ONMETA, ONMETA, FULL, b'', text(b'onMetaData'), text(b'onMetaData') + self.pick(*OTHERS), text(b'x') + obj(),
            self.pick(*BROKEN), text(b'onMetaData') + ecma((b'stereo', bool_(1)), n=9))
        return msg(self.pick(18, 18, 15), body, self.stream())

    def plain(self):
        e = self.pick(0, 1, 2, 4, 6, 6, 7, 5, 31, 8)
        return self.pick(control(e, self.pick(0, 7, MOST)), control(3, 1, 2000), control(3, 1), msg(self.pick(1, 2, 3),
            self.pick(b'\0\0\0\x80', b'\x7f\xff\xff\xff', b'\x80\0\0\0', b'\0\0\0')),
                         msg(6, b'\0\0\0\1' + bytes([self.rnd.randrange(4)])), msg(self.pick(0, 7, 14, 16, 19, 21, 22, 255), b'\1\2'),
                         msg(20, cmd(b'onBWDone', 0.0, NULL)))

    def window(self):
        s = self.card.session
        return window(self.pick(0, 10, 100, 100, max(s.pending - 1, 0), s.pending, min(s.pending + 1, MOST), MOST, MOST, MOST,
            self.rnd.getrandbits(32)))

    def count(self):
        s = self.card.session
        left = max((s.window or 0) - s.pending, 0)
        return count(self.pick(0, 1, 9, 9, left, max(left - 1, 0), max(left - 1, 0), min(left + 1, MOST), MOST, self.rnd.getrandbits(32),
            MOST - s.pending, min(2 ** 32 - s.pending, MOST)))

    def request(self):
        return self.pick(connect(self.text()), play(self.text()), publish(self.text(), self.pick('live', 'record', 'append')))

    def media_in(self):
        return msg(self.pick(8, 9), bytes(self.rnd.randrange(4)), self.stream(), self.rnd.getrandbits(32))

    def media_out(self):
        data, time, droppable = bytes(self.rnd.randrange(256) for _ in range(self.rnd.randrange(12))), self.rnd.getrandbits(32), self.rnd.randrange(2)
        if self.chance(.7):
            return self.pick(video, audio)(data, time, droppable)
        fields = [b'width=%d' % self.rnd.getrandbits(32), b'framerate=%08x' % self.pick(self.rnd.getrandbits(32), 0x7fc00001, 0xff800000),
            b'audiochannels=2', b'stereo=%d' % droppable, b'encoder=' + self.text()]
        return metadata(*[f for f in fields if self.chance(.5)])

    def stop(self):
        return self.pick(STOP_PLAYBACK, STOP_PUBLISHING)

    def opening(self):
        fields = [self.pick(b'F', b'', b'F', b'f' * 256 if self.chance(.3) else b'F', b'\xff'), self.pick(0, 2000, MOST), self.pick(0, 2500000, MOST),
            self.pick(0, 128, 2147483647, 2147483648)]
        return opening(*self.pick([], fields, fields + [self.pick(b'', b'rtmp://a/b', b'\xff')]))

    def forward(self):
        """The line that leads on from this stage; at the last ones also replies to what is still open."""
        s = self.card.session
        streams = [n for n, (kind, _) in s.open.items() if kind != b'connect']
        if s.stage == DISCONNECTED:
            more = len(s.open) < self.wanted and self.chance(.85)
            return connect(b'live') if more or not s.open else result(float(self.pick(*s.open)))
        if s.stage == CONNECTED:
            ask = self.pick(play(b'key %d' % s.next), publish(b'key %d' % s.next, self.pick('live', 'record', 'append')))
            return ask if len(streams) < self.wanted else result(float(self.pick(*streams)), self.argument())
        if s.stage in (PLAY_REQUESTED, PUBLISH_REQUESTED):
            return status(PLAY_START if s.stage == PLAY_REQUESTED else PUBLISH_START)
        if s.open and self.chance(.25):
            return result(float(self.pick(*s.open)), self.argument())
        return self.media_in() if s.stage == PLAYING else self.media_out()

    def line(self):
        ways = [(30, self.forward), (14, self.request), (14, self.reply), (6, self.notice), (5, self.data), (6, self.plain),
            (12 if self.counting else 3, self.window), (40 if self.counting else 5, self.count), (5, self.media_in), (7, self.media_out),
            (4, self.stop),
                (2, lambda: PING), (1, self.opening)]
        line = self.rnd.choices([w for _, w in ways], [n for n, _ in ways])[0]()
        if line[0] == 'msg' and self.chance(.06):
            line[4] = self.damaged(bytes.fromhex(line[4])).hex()
        return line

    def lent(self):
        """Now and then an output that is too short for some of what comes, and long again before the end."""
        short = self.card.space != SPACE
        if short and (len(self.lines) >= LINES - 1 or self.chance(.3)):
            self.say(space(SPACE))
        elif not short and len(self.lines) < LINES - 3 and self.chance(.04):
            self.say(space(self.pick(0, 3, 4, 5, 7, 24, 25, 32, 33, 34, self.rnd.randrange(100))))

    def go(self):
        while len(self.lines) < LINES:
            before = len(self.lines)
            self.lent()
            if len(self.lines) == LINES:
                break
            line = self.line()
            if line[0] == 'open' and len(self.lines) > LINES - 3:
                line = PING
            self.say(line)
            if line[0] == 'open' and self.card.space != SPACE:
                self.say(space(self.card.space))
            assert len(self.lines) > before
        assert self.card.space == SPACE and len(self.lines) == LINES
        return self


def make():
    for i in range(SCRIPTS):
        walk = Walk(7000 + i).go()
        keep('walk-%03d' % i, b'\n'.join(walk.lines) + b'\n', walk.card)
