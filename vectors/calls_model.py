"""The model by which calls.py works out what is expected: the session record with refusal 13, and the calls on it with their refusals and bodies.

Written from document 01 ("Turned-away calls", "The session's work") and never from our code. Bodies are those of bodies.py beside this file, from the
public papers; the judge of UTF-8 is Python's strict decoder.
"""
import copy

from bodies import FULL, NULL, command, connect, double, metadata, number, word

U32, U64, CHUNK = 2 ** 32 - 1, 2 ** 64 - 1, 2 ** 31 - 1
SPENT = 2 ** 32
DISCONNECTED, CONNECTED, PLAY_REQUESTED, PLAYING, PUBLISH_REQUESTED, PUBLISHING = STAGES = range(6)
KINDS = ['free', 'connect', 'play', 'live', 'record', 'append']

# ---- the record and refusal 13


def utf8(t):
    try:
        t.decode('utf-8')
    except UnicodeDecodeError:
        return False
    return True


def fits(t):
    return len(t) <= 255 and utf8(t)


class Text:
    """A stored text: a length of any size, and bytes."""

    def __init__(self, given, length=None):
        self.given, self.length = given, len(given) if length is None else length

    def value(self):
        return self.given[:self.length] + bytes(max(0, self.length - len(self.given)))

    def good(self):
        return self.length <= 255 and utf8(self.value())

    def shown(self):
        return 'over %d' % self.length if self.length > 255 else self.value().hex() or '.'

    def field(self):
        return '%016x.%s' % (self.length, self.given[:255].hex())


class Record:
    def __init__(self, **parts):
        self.flash, self.configured, self.url = Text(b'WIN 23,0,0,207'), False, Text(b'')
        self.sizes = (2000, 2500000, 4096)
        self.stage, self.active, self.next = DISCONNECTED, None, 1
        # a place: kind, number, text; of a free one only the text counts for nothing
        self.places = [('free', 0, Text(b''))] * 8
        self.link = (128, None, 0, 0)
        for name, value in parts.items():
            assert name in self.__dict__
            setattr(self, name, value)

    def open(self):
        return [p for p in self.places if p[0] != 'free']

    def sound(self):
        """Refusal 13 doesn't meet it."""
        if not self.flash.good() or self.configured and not self.url.good() or self.sizes[2] > CHUNK:
            return False
        if self.next == 0 or self.next > SPENT:
            return False
        numbers = [n for _, n, _ in self.open()]
        if len(set(numbers)) < len(numbers) or any(n == 0 or n >= self.next for n in numbers):
            return False
        return all(t.good() for _, _, t in self.open())

    def part(self, letter):
        """The fields that set a part of a record to this one's."""
        if letter == 'f':
            return ['f' + self.flash.field()]
        if letter == 'u':
            return ['u%02x.%s' % (self.configured, self.url.field())]
        if letter == 's':
            return ['s%08x.%08x.%08x' % self.sizes]
        if letter == 'g':
            return ['g%02x.%02x.%08x' % (self.stage, self.active is not None, self.active or 0)]
        if letter == 'n':
            return ['n%016x' % self.next]
        if letter == 'p':
            return ['p%02x.%02x.%08x.%s' % (i, KINDS.index(kind), n, text.field()) for i, (kind, n, text) in enumerate(self.places)]
        chunk, window, pending, total = self.link
        return ['l%08x.%02x.%08x.%08x.%016x' % (chunk, window is not None, window or 0, pending, total)]

    def fields(self):
        """What makes this record of the first one."""
        first = Record()
        return [f for letter in 'fusgnpl' for f in self.part(letter) if f not in first.part(letter)]

    def shown(self):
        requests = ', '.join('%d %s %s' % (n, kind, t.shown()) for kind, n, t in sorted(self.open(), key=lambda p: p[1])) or '-'
        chunk, window, pending, total = self.link
        progress = '%d %s %d' % (self.stage, '-' if self.active is None else self.active, self.next)
        return [progress, requests, '%d %s %d %d' % (chunk, '-' if window is None else window, pending, total)]

    def settings(self):
        return ' '.join([self.flash.shown()] + [str(n) for n in self.sizes] + [self.url.shown() if self.configured else '-'])


# ---- the calls: each raises the first refusal that holds, or changes the record and says what goes out


class Refused(Exception):
    pass


def message(type_id, time, body, stream=0, droppable=False):
    return type_id, time, stream, int(droppable), 0, body


def opening(r):
    if not r.flash.good() or r.configured and not r.url.good():
        raise Refused('9')
    if r.sizes[2] > CHUNK:
        raise Refused('7')


def request(r, kind, text, body):
    if not fits(text):
        raise Refused('9')
    if r.next == SPENT:
        raise Refused('11')
    if len(r.open()) == 8:
        raise Refused('10')
    n = r.next
    r.places[[p[0] for p in r.places].index('free')] = (kind, n, Text(text))
    r.next += 1
    return body(n)


def plan_connect(r, clock, app):
    if r.stage != DISCONNECTED:
        raise Refused('1')
    url = r.url.value() if r.configured else None
    return message(20, clock, request(r, 'connect', app, lambda n: connect(n, app, r.flash.value(), url)))


def plan_stream(r, clock, kind, key):
    if r.stage != CONNECTED:
        raise Refused('2 %d' % r.stage)
    return message(20, clock, request(r, kind, key, lambda n: command(b'createStream', n, NULL)))


def plan_stop(r, clock, own):
    if r.stage not in own:
        return None
    stream, r.stage, r.active = r.active, CONNECTED, None
    if stream is None:
        return None
    return message(20, clock, command(b'deleteStream', 0, NULL, number(double(stream))), stream)


def publishing(r):
    if r.stage != PUBLISHING:
        raise Refused('2 %d' % r.stage)
    if r.active is None:
        raise Refused('3')


def plan_media(r, type_id, time, droppable, data):
    publishing(r)
    return message(type_id, time, data, r.active, droppable)


def plan_metadata(r, clock, values, encoder, lent):
    """The encoder is None or a place, which names what is there of the lent bytes."""
    publishing(r)
    text = None if encoder is None else lent[encoder[0]:encoder[0] + encoder[1]]
    if text is not None and not fits(text):
        raise Refused('9')
    return message(18, clock, metadata(values + [text]), r.active)


def plan_bytes(r, clock, count):
    chunk, window, pending, total = r.link
    r.link = (chunk, window, pending, (total + count) % 2 ** 64)
    if window is None:
        return None
    reached = pending + count
    if reached < window:
        r.link = r.link[:2] + (reached,) + r.link[3:]
        return None
    r.link = r.link[:2] + (0,) + r.link[3:]
    return message(3, clock, word(reached % 2 ** 32, 4))


# ---- calls with their arguments: a letter, the bytes of the field after clock and space, and the plan


class Call:
    def __init__(self, letter, field, plan):
        self.letter, self.field, self.plan = letter, field, plan


def c_connect(app=b'live'):
    return Call('C', [app.hex()], lambda r, clock: plan_connect(r, clock, app))


def c_play(key=b'key'):
    return Call('P', [key.hex()], lambda r, clock: plan_stream(r, clock, 'play', key))


def c_publish(key=b'key', kind='live'):
    return Call('U', ['%02x' % (KINDS.index(kind) - 3), key.hex()], lambda r, clock: plan_stream(r, clock, kind, key))


def c_stop_playback():
    return Call('S', [], lambda r, clock: plan_stop(r, clock, (PLAY_REQUESTED, PLAYING)))


def c_stop_publishing():
    return Call('T', [], lambda r, clock: plan_stop(r, clock, (PUBLISH_REQUESTED, PUBLISHING)))


def c_ping():
    return Call('I', [], lambda r, clock: message(4, clock, word(6, 2) + word(clock, 4)))


def c_media(letter, data=b'data', time=77, droppable=False):
    type_id = {'V': 9, 'A': 8}[letter]
    return Call(letter, ['%08x' % time, '%02x' % droppable, data.hex()], lambda r, clock: plan_media(r, type_id, time, droppable, data))


def c_metadata(values=FULL[:10], encoder=(0, 12), lent=b'Lavf60.3.100'):
    there = ''.join('%02x' % (v is not None) for v in values + [encoder])
    numbers = ['%08x' % (v or 0) for v in values[:9]]
    field = [there, *numbers, '%02x' % bool(values[9]), '%016x.%016x' % (encoder or (0, 0)), lent.hex()]
    return Call('M', field, lambda r, clock: plan_metadata(r, clock, values, encoder, lent))


def c_bytes(count=5):
    return Call('B', ['%08x' % count], lambda r, clock: plan_bytes(r, clock, count))


def step(r, call, clock, space):
    """The outcome, the output and the record after."""
    after = copy.deepcopy(r)
    try:
        if not r.sound():
            raise Refused('13')
        sent = call.plan(after, clock)
        if sent and len(sent[5]) > space:
            raise Refused('12')
    except Refused as e:
        return 'refused ' + str(e), b'\xff' * space, r
    if not sent:
        return 'none', b'\xff' * space, after
    body = sent[5]
    outcome = 'out %d %d %d %d %d 0 %d' % (sent[:5] + (len(body),))
    if call.letter == 'I':
        outcome = 'pinged %d %s' % (clock, outcome)
    return outcome, body + b'\xff' * (space - len(body)), after
