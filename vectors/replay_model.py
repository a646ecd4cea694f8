"""The client session of document 01 as a whole: what replay.py holds each script against.

Written from document 01 ("Turned-away calls", "The session's work", "Bodies") and its readings, and never from our code. Bodies that come in are read
by message_reader.py and amf0_reader.py beside this file, bodies that go out are written by bodies.py: all three are from the public papers.
"""
import copy

import bodies
import message_reader
from amf0_reader import Bad

CHUNK, BODY, SPENT = 2 ** 31 - 1, 16777215, 2 ** 32
DISCONNECTED, CONNECTED, PLAY_REQUESTED, PLAYING, PUBLISH_REQUESTED, PUBLISHING = range(6)
PLAY_START, PUBLISH_START = b'NetStream.Play.Start', b'NetStream.Publish.Start'
# the places of the events in events.rs, counted from 0
(ACCEPTED, REJECTED, PLAY_ACCEPTED, PUBLISH_ACCEPTED, METADATA, VIDEO, AUDIO, OTHER_COMMAND, UNKNOWN_REPLY, OTHER_CODE, ACKNOWLEDGED,
 PING_RESPONSE) = range(12)


class Refused(Exception):
    def __init__(self, number, closes=None):
        self.number, self.closes = number, closes


def fits(t):
    try:
        t.decode('utf-8')
    except UnicodeDecodeError:
        return False
    return len(t) <= 255


def event(place, *values):
    """An event with its values in the order of events.rs: bytes of the message, whole numbers, and of metadata NAME=VALUE for each field that is there."""
    return 'event', place, *values


def out(type_id, time, body, stream=0, droppable=0, uncompressed=0):
    return 'out', type_id, time, stream, droppable, uncompressed, body


# ---- the session. A call raises its first refusal, or changes the session and gives its results


class Session:
    def __init__(self, flash=b'WIN 23,0,0,207', buffer_ms=2000, window=2500000, chunk=4096, url=None):
        if not fits(flash) or url is not None and not fits(url):
            raise Refused(9)
        if chunk > CHUNK:
            raise Refused(7)
        self.settings = flash, buffer_ms, window, chunk, url
        self.stage, self.active, self.next, self.open = DISCONNECTED, None, 1, {}
        self.peer_chunk, self.window, self.pending, self.total = 128, None, 0, 0

    def kept(self):
        other = copy.copy(self)
        other.open = dict(self.open)
        return other

    # -- requests: 1 or 2; 9; 11; 10

    def request(self, kind, text):
        if not fits(text):
            raise Refused(9)
        if self.next == SPENT:
            raise Refused(11)
        if len(self.open) == 8:
            raise Refused(10)
        n, self.next = self.next, self.next + 1
        self.open[n] = kind, text
        return n

    def connect(self, clock, app):
        if self.stage != DISCONNECTED:
            raise Refused(1)
        n = self.request(b'connect', app)
        return [out(20, clock, bodies.connect(n, app, self.settings[0], self.settings[4]))]

    def play(self, clock, key):
        return self.publish(clock, key, b'play')

    def publish(self, clock, key, kind):
        if self.stage != CONNECTED:
            raise Refused(2)
        return [out(20, clock, bodies.command(b'createStream', self.request(kind, key), bodies.NULL))]

    # -- stops

    def stop(self, clock, own):
        if self.stage not in own:
            return []
        stream, self.stage, self.active = self.active, CONNECTED, None
        if stream is None:
            return []
        return [out(20, clock, bodies.command(b'deleteStream', 0, bodies.NULL, bodies.number(bodies.double(stream))), stream)]

    def stop_playback(self, clock):
        return self.stop(clock, (PLAY_REQUESTED, PLAYING))

    def stop_publishing(self, clock):
        return self.stop(clock, (PUBLISH_REQUESTED, PUBLISHING))

    # -- picture, sound and metadata out: 2; 3; 9

    def publishing(self):
        if self.stage != PUBLISHING:
            raise Refused(2)
        if self.active is None:
            raise Refused(3)

    def media(self, type_id, time, droppable, data):
        self.publishing()
        if len(data) > BODY:
            raise Refused(9)
        return [out(type_id, time, data, self.active, droppable)]

    def video(self, clock, time, droppable, data):
        return self.media(9, time, droppable, data)

    def audio(self, clock, time, droppable, data):
        return self.media(8, time, droppable, data)

    def metadata(self, clock, fields):
        self.publishing()
        if fields[10] is not None and not fits(fields[10]):
            raise Refused(9)
        return [out(18, clock, bodies.metadata(fields), self.active)]

    # -- ping and byte count

    def ping(self, clock):
        return [out(4, clock, bodies.word(6, 2) + bodies.word(clock, 4))]

    def bytes(self, clock, count):
        self.total = (self.total + count) % 2 ** 64
        if self.window is None:
            return []
        reached = self.pending + count
        if reached < self.window:
            self.pending = reached
            return []
        self.pending = 0
        return [out(3, clock, bodies.word(reached % 2 ** 32, 4))]

    # -- message in: 9; 8; then 2, 4, 5, 6 or 7

    def msg(self, clock, type_id, time, stream, body):
        if len(body) > BODY:
            raise Refused(9)
        try:
            what, *held = read(type_id, body)
        except Bad:
            raise Refused(8)
        if what == 'chunk':
            if held[0] > CHUNK:
                raise Refused(7)
            self.peer_chunk = held[0]
            return []
        if what == 'window':
            self.window = held[0]
            return []
        if what == 'event':
            return self.control(clock, *held)
        if what == 'media':
            return self.media_in(type_id, time, stream, body)
        if what == 'data':
            return self.data_in(stream, *held)
        if what == 'command':
            return self.command(clock, *held)
        return [event(ACKNOWLEDGED, *held)] if what == 'ack' else [('unhandled', type_id)]

    def control(self, clock, kind, n):
        if kind == 6:
            return [out(4, clock, bodies.word(7, 2) + bodies.word(n, 4))]
        return [event(PING_RESPONSE, n)] if kind == 7 else []

    def media_in(self, type_id, time, stream, body):
        if self.stage not in (PLAY_REQUESTED, PLAYING):
            raise Refused(2)
        if stream != self.active:
            return []
        return [event(VIDEO if type_id == 9 else AUDIO, time, body)]

    def data_in(self, stream, values):
        if stream != self.active or len(values) < 2 or text_of(values[0]) != b'onMetaData' or values[1][0] != 'object':
            return []
        return [event(METADATA, *metadata_fields(values[1][1]))]

    def command(self, clock, name, number, arguments, thing, rest):
        first = arguments[0] if arguments else ('absent', None)
        if name == b'onStatus':
            return self.notice(first)
        if name not in (b'_result', b'_error'):
            return [event(OTHER_COMMAND, name, bodies.word(number, 8), thing, rest)]
        n = message_reader.held(number)
        if n not in self.open:
            return [event(UNKNOWN_REPLY, bodies.word(number, 8), thing, rest)]
        kind, text = self.open.pop(n)
        if kind == b'connect':
            return self.accepted(clock) if name == b'_result' else [event(REJECTED, description(first))]
        if name == b'_error':
            raise Refused(4, n)
        if first[0] != 'number':
            raise Refused(5, n)
        return self.grant(clock, kind, text, message_reader.held(first[1]))

    def accepted(self, clock):
        self.stage = CONNECTED
        window, chunk = self.settings[2:4]
        return [out(5, clock, bodies.word(window, 4)), event(ACCEPTED), out(1, 0, bodies.word(chunk, 4), uncompressed=1)]

    def grant(self, clock, kind, key, stream):
        self.active = stream
        if kind == b'play':
            self.stage = PLAY_REQUESTED
            length = bodies.word(3, 2) + bodies.word(stream, 4) + bodies.word(self.settings[1], 4)
            return [out(4, clock, length), out(20, clock, bodies.command(b'play', 0, bodies.NULL, bodies.text(key)), stream)]
        self.stage = PUBLISH_REQUESTED
        return [out(20, clock, bodies.command(b'publish', 0, bodies.NULL, bodies.text(key), bodies.text(kind)), stream)]

    def notice(self, first):
        code = text_of(message_reader.last(first[1], b'code')) if first[0] == 'object' else None
        if code is None:
            raise Refused(6)
        if code not in (PLAY_START, PUBLISH_START):
            return [event(OTHER_CODE, code)]
        if self.stage != (PLAY_REQUESTED if code == PLAY_START else PUBLISH_REQUESTED):
            raise Refused(2)
        self.stage += 1
        return [event(PLAY_ACCEPTED if code == PLAY_START else PUBLISH_ACCEPTED)]


def text_of(v):
    return v[1][2] if v[0] == 'text' else None


def description(first):
    """That of a rejected connect: empty where the first argument is no object with a text `description`."""
    return (text_of(message_reader.last(first[1], b'description')) if first[0] == 'object' else None) or b''


def metadata_fields(properties):
    """NAME=VALUE for each field that is there, in sending order: whole fields held, the frame rate as the nearest single's pattern."""
    found = []
    for name in message_reader.FIELDS:
        kind, what = message_reader.last(properties, name)
        value = None
        if name == b'stereo':
            value = '%d' % what if kind == 'boolean' else None
        elif name == b'encoder':
            value = what[2].hex() if kind == 'text' else None
        elif kind == 'number':
            value = '%08x' % message_reader.single(what) if name == b'framerate' else '%d' % message_reader.held(what)
        if value is not None:
            found.append('%s=%s' % (name.decode(), value))
    return found


def read_command(s, at):
    """Name, the Number's pattern, the arguments; and the bytes of the object and of the arguments."""
    (kind, name), at = message_reader.value(s, at)
    if kind != 'text':
        raise Bad
    (kind, number), at = message_reader.value(s, at)
    if kind != 'number':
        raise Bad
    thing, at = at, message_reader.value(s, at)[1]
    return 'command', name[2], number, message_reader.values(s, at), s[thing:at], s[at:]


def read_event(s):
    kind = int.from_bytes(s[:2], 'big')
    if kind not in (0, 1, 2, 3, 4, 6, 7) or len(s) != (10 if kind == 3 else 6):
        raise Bad
    return 'event', kind, int.from_bytes(s[2:6], 'big')


def read(type_id, s):
    """What a body says, by its layout; Bad where it doesn't follow it."""
    if type_id in (1, 2, 3, 5):
        return {1: 'chunk', 2: 'unhandled', 3: 'ack', 5: 'window'}[type_id], message_reader.word(s)
    if type_id == 4:
        return read_event(s)
    if type_id == 6:
        if len(s) != 5 or s[4] > 2:
            raise Bad
        return ('unhandled',)
    if type_id in (8, 9):
        return ('media',)
    if type_id in (15, 18):
        return 'data', message_reader.values(s, 0)
    if type_id in (17, 20):
        return read_command(s, 1 if type_id == 17 and s[:1] == b'\0' else 0)
    return ('unhandled',)


def step(session, verb, clock, fields, space):
    """The number that the call is turned away by, or None; its results; the session after it."""
    after = session.kept()
    try:
        results = getattr(after, verb)(clock, *fields)
        if sum(len(r[6]) for r in results if r[0] == 'out') > space:
            raise Refused(12)
    except Refused as e:
        kept = session.kept()
        if e.number in (4, 5):
            del kept.open[e.closes]
        return e.number, [], kept
    return None, results, after
