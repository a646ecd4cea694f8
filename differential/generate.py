#!/usr/bin/env python3
"""Scripts for the program `card`, from a seed: generate.py SEED [COUNT]. Each starts with an `open` line.

Every script stays within document 01's limits, so that no listed difference to the Rust shows: a caller's texts of at most
255 bytes, at most eight open requests, a chunk size of ours of at most 2,147,483,647, a pending count that fits 32 bits, no
NaN frame rate but 7fc00000, and no event 31 or 32 of type 4 (limits.py).
"""
import random
import sys

from coding import NULL, UNDEFINED, array, bits, boolean, command, ecma, num, number, obj, text
from limits import NAN, PLAY_START, PUBLISH_START, U32, Outside, Steer

FIELDS = ['width', 'height', 'videocodecid', 'framerate', 'videodatarate', 'audiocodecid', 'audiodatarate', 'audiosamplerate',
          'audiochannels', 'stereo', 'encoder']
# Texts at the edges of UTF-8: the first eight are none, the others are.
EDGES = [b'\xff', b'\xc0\x80', b'\xe0\x9f\xbf', b'\xed\xa0\x80', b'\xf0\x8f\xbf\xbf', b'\xf4\x90\x80\x80', b'a\xc3', b'\xe2\x82',
         b'\xc2\x80', b'\xdf\xbf', b'\xe0\xa0\x80', b'\xed\x9f\xbf', b'\xee\x80\x80', b'\xef\xbf\xbf', b'\xf0\x90\x80\x80', b'\xf4\x8f\xbf\xbf']


class Maker:
    """The lines of one script."""

    def __init__(self, seed):
        self.r, self.steer = random.Random(seed), Steer()
        self.push = self.r.choice([0.1, 0.4, 0.6])
        self.clock = self.r.choice([0, 0, 7, 4294967000, self.r.randrange(2 ** 32)])

    # -- small things

    def u32(self):
        return self.r.choice([0, 1, 2, 5, 7, 127, 128, 255, 256, 4096, 65536, 2147483647, 2147483648, 4294967294, U32,
                              self.r.randrange(2 ** 32)])

    def pattern(self):
        r = self.r
        return r.choice([0, 1 << 63, 1, NAN, 0x7ff0000000000001, 0xfff8000000000000, 0x7ff0000000000000, 0xfff0000000000000,
                         0x7fefffffffffffff, bits(0.9), bits(1.9), bits(-3.0), bits(-0.5), bits(4294967295.0), bits(4294967295.5),
                         bits(4294967296.0), bits(2147483648.0), bits(29.97), bits(1e300), bits(r.randrange(20) + r.random()),
                         r.getrandbits(64), bits(float(r.randrange(9)))])

    def rate_pattern(self):
        """A double at or near the rounding to a single, subnormal ones and the largest included."""
        r = self.r
        low = r.choice([0, 0x10000000, 0x0fffffff, 0x10000001, 0x1fffffff, r.getrandbits(29)])
        high = r.choice([0x3ff00000 << 3, 0x47efffff << 3 | 7, r.randrange(0x368, 0x382) << 23 | r.getrandbits(23),
                         r.randrange(0x47f) << 23 | r.getrandbits(23), r.choice([0x369, 0x36a, 0x380, 0x381, 0x47e]) << 23 | r.choice([0, 1, 2, 0x7fffff])])
        return r.getrandbits(1) << 63 | high << 29 | low

    def caller_text(self):
        r = self.r
        return r.choice([b'', b'k', b'live', b'camera-7', 'é日😀'.encode(), b'k' * 255, 'é'.encode() * 127 + b'k', b'a=b c', b'\0\x01',
                         bytes(r.choices(b'abcxyz/?&', k=r.randrange(40)))])

    def peer_text(self):
        r = self.r
        if r.random() < 0.02:
            return r.choice(EDGES) + r.choice([b'', b'x'])
        if r.random() < 0.002:
            return b't' * 65535
        return r.choice([b'', b'x', b'description', b'code', 'ß€'.encode(), b't' * 256, b'NetConnection.Connect.Rejected', b'\0\t\n\r',
                         bytes(r.choices(b'._onRsult', k=r.randrange(12))), 'é'.encode() * r.randrange(200)])

    def value(self, depth=1):
        r = self.r
        if r.random() < 0.01:
            return self.nested(r.choice([7, 8, 9]))
        kind = r.randrange(7 if depth > 3 else 10)
        if kind < 2:
            return number(self.pattern())
        if kind < 4:
            return text(self.peer_text())
        if kind == 4:
            return boolean(r.choice([0, 1, 2, 255]))
        if kind < 7:
            return r.choice([NULL, UNDEFINED])
        if kind == 9:
            return array(*(self.value(depth + 1) for _ in range(r.randrange(4))))
        return self.object([(self.peer_text() or b'n', self.value(depth + 1)) for _ in range(r.randrange(4))])

    def object(self, pairs):
        return obj(*pairs) if self.r.random() < 0.7 else ecma(self.r.choice([0, len(pairs), U32]), *pairs)

    def nested(self, depth):
        """A value whose innermost has this depth."""
        r, found = self.r, self.r.choice([NULL, obj(), array(), ecma(0), num(1.0)])
        for _ in range(depth - 1):
            found = r.choice([obj((b'a', found)), array(found), array(NULL, found), ecma(1, (b'e', found))])
        return found

    def garble(self, body):
        """A body near a good one."""
        r, at = self.r, self.r.randrange(len(body) + 1)
        if r.random() < 0.15:
            # a value at the end that is cut short, of an unlisted marker, too deep, or no UTF-8
            return body + r.choice([b'\2\0\1\xff', b'\2\0\3\xed\xa0\x80', b'\2\0\2\xc0\x80', b'\x03\0\0\5', b'\t', b'\4', b'\7', b'\x0b',
                                    b'\x0c\0\0\0\0', b'\x11', b'\3\0\1\xffa', b'\3\0\1a\t', b'\x0a\0\0\0\1', b'\x0a\xff\xff\xff\xff', b'\0',
                                    self.nested(9), self.nested(8)])
        return r.choice([body[:at], body + bytes([r.randrange(256)]), body[:at] + body[at + 1:], body[:at] + b'\0' + body[at:],
                         body[:at] + bytes([r.randrange(256)]) + body[at + 1:], body[1:], b'', b'\0', b'\0' + body])

    # -- messages

    def msg(self, type_id, stream, body):
        return b'msg\t%d\t%d\t%d\t%s' % (type_id, self.u32(), stream, body.hex().encode())

    def amf_command(self, name, pattern, *rest):
        body = command(name, pattern, *rest)
        kind = self.r.choice([20, 20, 20, 17, 17])
        if kind == 17 and self.r.random() < 0.6:
            body = b'\0' + body
        if self.r.random() < 0.06:
            body = self.garble(body)
        return self.msg(kind, self.r.choice([0, 0, 0, self.u32()]), body)

    def reply_number(self, n):
        return self.r.choice([bits(float(n))] * 6 + [bits(n + 0.5), bits(n + 0.9999)])

    def arguments(self):
        return [self.value() for _ in range(self.r.randrange(3))]

    def result_args(self, kind):
        r = self.r
        if kind == 'connect':
            return self.arguments()
        return r.choice([[num(float(r.choice([1, 1, 1, 2, 5])))]] * 8 + [[number(self.pattern())], [number(self.pattern())] + self.arguments(),
                        [], [NULL], [text(b'1')], [obj()], [array(num(1.0))], [UNDEFINED, num(1.0)]])

    def error_args(self):
        r, t = self.r, text(self.peer_text())
        return r.choice([[], [NULL], [t], [self.object([(b'description', t)])], [self.object([(b'code', t), (b'description', t), (b'x', NULL)])],
                         [self.object([(b'description', t), (b'description', NULL)])], [self.object([(b'description', NULL), (b'description', t)])],
                         [self.object([(b'description', num(1.0))])], [array(obj((b'description', t)))], [self.object([(b'o', obj((b'description', t)))])],
                         [NULL, obj((b'description', t))], [obj((b'Description', t))], self.arguments()])

    def reply(self):
        """To an open request, one that was closed, one not given yet, or none."""
        r, s = self.r, self.steer
        name = b'_result' if r.random() < 0.8 else b'_error'
        first = r.choice([NULL, NULL, self.value()])
        if s.open and r.random() < 0.75:
            n = r.choice(sorted(s.open))
            args = self.result_args(s.open[n]) if name == b'_result' else self.error_args()
            return self.amf_command(name, self.reply_number(n), first, *args)
        n = r.choice([bits(float(x)) for x in s.closed[-3:] + [0, s.next, s.next + 1]] + [self.pattern()])
        return self.amf_command(name, n, first, *(self.arguments() if r.random() < 0.5 else self.error_args()))

    def notice(self):
        r = self.r
        good = {2: PLAY_START, 4: PUBLISH_START}.get(self.steer.stage)
        code = good if good and r.random() < 0.7 else r.choice([PLAY_START, PUBLISH_START, self.peer_text(), b'NetStream.Play.Stop', b'NetStream.Play.start',
                                                                b'NetStream.Play.Start ', b'NetStream.Publish.Star'])
        c = (b'code', text(code))
        odd = [[self.object([(b'level', text(b'status')), c, (b'description', self.value())])], [], [NULL], [text(code)], [obj()],
               [obj((b'code', NULL))], [obj(c, (b'code', NULL))], [obj((b'code', num(1.0)), c)], [array(obj(c))], [NULL, obj(c)],
               [obj((b'o', obj(c)))], [obj(c), self.value()], [obj((b'Code', text(code)))]]
        args = r.choice([[self.object([c])]] * 10 + odd)
        return self.amf_command(b'onStatus', r.choice([0, 0, self.pattern()]), r.choice([NULL, self.value()]), *args)

    def other_command(self):
        name = self.r.choice([b'', b'_resul', b'_results', b'_RESULT', b'_error ', b'onstatus', b'onStatus\0', b'onBWDone', b'close', self.peer_text()])
        return self.amf_command(name, self.pattern(), self.value(), *self.arguments())

    def stream(self):
        active = self.steer.active
        return active if active is not None and self.r.random() < 0.8 else self.r.choice([0, 1, 2, 5, self.u32()])

    def media_in(self):
        return self.msg(self.r.choice([8, 9]), self.stream(), self.r.randbytes(self.r.choice([0, 1, 5, 300])))

    def metadata_value(self, name):
        r = self.r
        if r.random() < 0.2:
            return self.value()
        if name == 'stereo':
            return boolean(r.choice([0, 1, 7]))
        if name == 'encoder':
            return text(self.peer_text())
        if name == 'framerate' and r.random() < 0.7:
            return number(self.rate_pattern())
        return number(self.pattern())

    def metadata_in(self):
        r = self.r
        pairs = []
        for name in r.sample(FIELDS + ['Width', 'fps'], r.randrange(9)) + r.choices(FIELDS, k=r.randrange(3)):
            pairs.append((name.encode(), self.metadata_value(name)))
        first = r.choice([text(b'onMetaData')] * 12 + [text(b'onMetadata'), text(b'@setDataFrame') + text(b'onMetaData'), NULL, self.value()])
        second = r.choice([self.object(pairs)] * 12 + [b'', NULL, array(obj(*pairs)), self.value()])
        body = r.choice([first + second] * 12 + [first + second + self.value(), b''])
        if r.random() < 0.06:
            body = self.garble(body)
        return self.msg(r.choice([18, 18, 15]), self.stream(), body)

    def control(self):
        r = self.r
        event = r.choice([0, 1, 2, 3, 4, 6, 6, 6, 7, 7, 7, r.choice([5, 8, 9, 255, 256, 262, 1536, 65535])])
        body = event.to_bytes(2, 'big') + self.u32().to_bytes(4, 'big') + (self.u32().to_bytes(4, 'big') if event == 3 else b'')
        return self.msg(4, r.choice([0, self.u32()]), self.garble_short(body))

    def garble_short(self, body):
        if self.r.random() < 0.1:
            return self.r.choice([body[:-1], body + b'\0', body[:1], b'', body + body, body[:2]])
        return body

    def four(self):
        type_id = self.r.choice([1, 1, 2, 3, 3, 6])
        body = self.u32().to_bytes(4, 'big') + (bytes([self.r.choice([0, 1, 2, 3, 255])]) if type_id == 6 else b'')
        return self.msg(type_id, self.r.choice([0, self.u32()]), self.garble_short(body))

    def set_window(self):
        r, pending = self.r, self.steer.pending
        size = r.choice([0, 1, 4, 1000, 70000, 2500000, 2500000, U32, pending, pending, max(pending - 1, 0), min(pending + 1, U32), pending // 2, self.u32()])
        return self.msg(5, 0, self.garble_short(size.to_bytes(4, 'big')))

    def unknown(self):
        return self.msg(self.r.choice([0, 7, 10, 11, 12, 13, 14, 16, 19, 21, 22, 255]), self.u32(), self.r.randbytes(self.r.randrange(6)))

    # -- calls

    def count(self):
        r, s = self.r, self.steer
        room = U32 - s.pending if s.window is not None else U32
        left = max((s.window or 0) - s.pending, 0)
        return b'bytes\t%d' % min(room, r.choice([0, 1, 3, 10, 300, 1500, 65536, left, max(left - 1, 0), max(left - 1, 0), left + 1, room, self.u32()]))

    def media_out(self):
        verb, data = self.r.choice([b'video', b'audio']), self.r.randbytes(self.r.choice([0, 1, 9, 200]))
        return b'%s\t%d\t%d\t%s' % (verb, self.u32(), self.r.randrange(2), data.hex().encode())

    def metadata_out(self):
        r, found = self.r, []
        for name in r.sample(FIELDS, r.choice([0, 1, 3, 11])):
            value = {'stereo': b'%d' % r.randrange(2), 'encoder': self.caller_text()}.get(name, b'%d' % self.u32())
            if name == 'framerate':
                value = b'%08x' % r.choice([0, 0x80000000, 1, 0x007fffff, 0x00800000, 0x7f7fffff, 0x7f800000, 0xff800000, 0x7fc00000, 0x41efc28f,
                                            r.randrange(0x7f800000), r.randrange(0x80000000, 0xff800000)])
            found.append(name.encode() + b'=' + value)
        return b'\t'.join([b'metadata'] + found)

    def request(self):
        r = self.r
        verb = 'connect' if r.random() < (0.85 if self.steer.stage == 0 else 0.1) else r.choice(['play', 'publish'])
        if len(self.steer.open) == 8 and self.steer.stage == (0 if verb == 'connect' else 1):
            return self.reply()
        tail = b'\t' + r.choice([b'live', b'record', b'append']) if verb == 'publish' else b''
        return verb.encode() + b'\t' + self.caller_text() + tail

    def stop(self):
        own = {2: b'stop_playback', 3: b'stop_playback', 4: b'stop_publishing', 5: b'stop_publishing'}.get(self.steer.stage, b'stop_playback')
        return own if self.r.random() < 0.6 else self.r.choice([b'stop_playback', b'stop_publishing'])

    def open(self):
        r = self.r
        if r.random() < 0.5:
            return b'open'
        found = [b'open', self.caller_text(), b'%d' % self.u32(), b'%d' % self.u32(), b'%d' % min(self.u32(), 2147483647)]
        return b'\t'.join(found + ([self.caller_text()] if r.random() < 0.5 else []))

    def good_reply(self, kinds):
        """The reply that an open request of one of these kinds waits for."""
        n = self.r.choice([n for n, kind in self.steer.open.items() if kind in kinds])
        rest = [] if self.steer.open[n] == 'connect' else [num(float(self.r.choice([0, 1, 1, 2, 5])))]
        return self.amf_command(b'_result', self.reply_number(n), NULL, *rest)

    def onward(self):
        """A line that leads deeper: several requests are opened before the first reply, so that late ones are left."""
        r, s = self.r, self.steer
        connects = list(s.open.values()).count('connect')
        streams = len(s.open) - connects
        if s.stage == 0:
            return self.good_reply(['connect']) if connects and r.random() < 0.5 else self.request()
        if s.stage == 1:
            return self.good_reply(['play', 'publish']) if streams and r.random() < 0.4 else self.request()
        if s.stage in (2, 4) and r.random() < 0.6:
            return self.notice()
        if s.open and r.random() < 0.3:
            return self.good_reply(['connect', 'play', 'publish'])
        return r.choice([self.media_out, self.metadata_out, self.metadata_in] if s.stage > 3 else [self.media_in, self.media_in, self.metadata_in])()

    def next(self):
        r, s = self.r, self.steer
        if r.random() < self.push:
            return self.onward()
        weights = [(self.request, 8 if s.stage < 2 else 2), (self.reply, 9 if s.open else 2), (self.notice, 6 if s.stage in (2, 4) else 2), (self.stop, 2),
                   (self.media_out, 5 if s.stage == 5 else 1), (self.metadata_out, 4 if s.stage == 5 else 1), (self.media_in, 5 if s.stage in (2, 3) else 1),
                   (self.metadata_in, 4 if s.active is not None else 1), (self.count, 5 if s.window is not None else 2), (self.set_window, 2),
                   (self.control, 2), (self.four, 2), (self.other_command, 1), (self.unknown, 1), (lambda: b'ping', 1), (self.open, 0.1)]
        return r.choices([w[0] for w in weights], [w[1] for w in weights])[0]()

    def script(self):
        found, length = [], self.r.randrange(10, 61)
        while len(found) < length:
            line = b'%d\t%s' % (self.clock, self.next() if found else self.open())
            try:
                self.steer.line(line)
            except Outside:
                continue
            found.append(line)
            self.clock = self.r.choice([self.clock, min(self.clock + self.r.randrange(3000), U32), self.u32()])
        return found


def script(seed):
    return Maker(seed).script()


if __name__ == '__main__':
    start = int(sys.argv[1])
    for seed in range(start, start + int((sys.argv[2:] or ['1'])[0])):
        sys.stdout.buffer.write(b''.join(line + b'\n' for line in script(seed)))
