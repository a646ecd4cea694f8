"""Document 01's limits, for generated scripts: `within` says whether a script stays inside them, so that no listed
difference to the Rust shows. `Steer` follows the session as far as that needs, and lets the generator find open requests;
it judges no result.
"""
from coding import Malformed, check, held, read_command, values

U32 = 4294967295
PLAY_START, PUBLISH_START = b'NetStream.Play.Start', b'NetStream.Publish.Start'
NAN, INFINITY = 0x7ff8000000000000, 0x7ff0000000000000


class Outside(Exception):
    """A script leaves document 01's limits."""


class Steer:
    """Stage, active stream, open requests, next number and pending count after the lines so far."""

    def __init__(self):
        self.stage, self.active, self.open, self.next, self.window, self.pending = 0, None, {}, 1, None, 0
        self.closed = []

    def line(self, line):
        _, verb, *fields = line.split(b'\t')
        verb = verb.decode()
        if verb == 'open':
            if len(fields) > 3 and (int(fields[3]) > 2147483647 or max(map(len, fields)) > 255):
                raise Outside
            self.__init__()
        elif verb in ('connect', 'play', 'publish'):
            self.request(verb, fields)
        elif verb.startswith('stop'):
            if self.stage in ((2, 3) if verb == 'stop_playback' else (4, 5)):
                self.stage, self.active = 1, None
        elif verb == 'bytes':
            self.count(int(fields[0]))
        elif verb == 'msg':
            self.message(int(fields[0]), bytes.fromhex(fields[3].decode()))
        elif verb == 'metadata' and any(f.startswith(b'encoder=') and len(f) > 263 for f in fields):
            raise Outside

    def request(self, verb, fields):
        if len(fields[0]) > 255:
            raise Outside
        if self.stage != (0 if verb == 'connect' else 1):
            return
        if len(self.open) == 8:
            raise Outside
        self.open[self.next] = verb
        self.next += 1

    def count(self, n):
        if self.window is None:
            return
        if self.pending + n > U32:
            raise Outside
        self.pending += n
        if self.pending >= self.window:
            self.pending = 0

    def message(self, type_id, body):
        if type_id == 4 and body[:2] in (b'\0\x1f', b'\0\x20'):
            raise Outside
        try:
            check(type_id, body)
        except Malformed:
            return
        if type_id == 5:
            self.window = int.from_bytes(body, 'big')
        elif type_id in (15, 18):
            rates = [v[1].get(b'framerate', ('null',)) for v in values(body)[1:2] if v[0] == 'object']
            if any(rate[0] == 'number' and rate[1] & (1 << 63) - 1 > INFINITY and rate[1] != NAN for rate in rates):
                raise Outside
        elif type_id in (17, 20):
            self.command(*read_command(type_id, body))

    def command(self, name, pattern, rest):
        if name in (b'_result', b'_error'):
            kind = self.open.pop(held(pattern), None)
            if kind:
                self.closed.append(held(pattern))
            if name == b'_result' and kind == 'connect':
                self.stage = 1
            elif name == b'_result' and kind and len(rest) > 1 and rest[1][0] == 'number':
                self.stage, self.active = (2 if kind == 'play' else 4), held(rest[1][1])
        elif name == b'onStatus' and len(rest) > 1 and rest[1][0] == 'object':
            code = rest[1][1].get(b'code')
            if code == ('text', PLAY_START) and self.stage == 2 or code == ('text', PUBLISH_START) and self.stage == 4:
                self.stage += 1


def within(lines):
    steer = Steer()
    try:
        for line in lines:
            steer.line(line)
    except Outside:
        return False
    return True
