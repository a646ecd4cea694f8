"""The program `card` of document 01 over the session of replay_model.py, by document 01 and readings 26 and 27, with what `replay` adds to its lines:
an event's values behind its place, and after each line that writes anything a line `open` with the active stream and the open requests, or `-`.

After every line the session is compared with the latest-line rule, which sees the journal alone, and with the law on the sum of all acknowledgements.
"""
import bodies
import message_reader
from replay_model import (CONNECTED, DISCONNECTED, PLAY_REQUESTED, PLAY_START, PUBLISH_REQUESTED, PUBLISH_START, PUBLISHING, Refused, Session, read,
                          read_command, step, text_of)

U8, U32 = 2 ** 8 - 1, 2 ** 32 - 1
# the length of the lent output at the start: no outcome of a script needs more
SPACE = 4096
PUBLISH_KINDS = [b'live', b'record', b'append']

# ---- the latest-line rule, from the journal alone


class Line:
    """A line of the journal: the call with its arguments, the number that it was turned away by, and the messages that it sent."""

    def __init__(self, verb, fields, refused, sent):
        self.verb, self.fields, self.refused, self.sent = verb, fields, refused, sent
        self.reply = self.code = None
        if verb == 'msg' and fields[0] in (17, 20) and refused in (None, 4, 5):
            _, name, number, arguments, *_ = read(fields[0], fields[3])
            first = arguments[0] if arguments else ('absent', None)
            if name in (b'_result', b'_error'):
                self.reply = name, message_reader.held(number), message_reader.held(first[1]) if first[0] == 'number' else None
            elif name == b'onStatus' and refused is None:
                self.code = text_of(message_reader.last(first[1], b'code'))

    def request(self):
        """The number in the command sent, and the kind and purpose asked for."""
        if self.refused is None and self.verb in ('connect', 'play', 'publish'):
            return message_reader.held(read_command(self.sent[0][6], 0)[2]), self.fields[1] if self.verb == 'publish' else self.verb.encode()
        return None

    def stopped(self):
        return self.refused is None and self.verb.startswith('stop') and self.sent != []


def rule(journal):
    """Stage, active stream and open requests."""
    stage, stream, opened = DISCONNECTED, None, {}
    deciding = []
    for at, line in enumerate(journal):
        if line.reply and line.refused is None and line.reply[0] == b'_result' and line.reply[1] in opened:
            kind = opened[line.reply[1]]
            deciding.append((at, 'reply') if kind == b'connect' else (at, 'grant', kind, line.reply[2]))
        if line.stopped():
            deciding.append((at, 'stop'))
        opened = opened_after(opened, line)
    if deciding:
        at, what, *rest = deciding[-1]
        stage = CONNECTED
        if what == 'grant':
            stage = PLAY_REQUESTED if rest[0] == b'play' else PUBLISH_REQUESTED
            own = PLAY_START if rest[0] == b'play' else PUBLISH_START
            stage += any(line.code == own for line in journal[at:])
    grants = [d for d in deciding if d[1] == 'grant']
    if grants and not any(d[1] == 'stop' and d[0] > grants[-1][0] for d in deciding):
        stream = grants[-1][3]
    return stage, stream, opened


def opened_after(opened, line):
    found = dict(opened)
    if line.request():
        found.update([line.request()])
    if line.reply:
        found.pop(line.reply[1], None)
    return found


# ---- the program `card`


class Unreadable(Exception):
    pass


def decimal(most):
    def read_decimal(f):
        if not f or any(c not in b'0123456789' for c in f) or int(f) > most:
            raise Unreadable
        return int(f)
    return read_decimal


def hexadecimal(f):
    if len(f) % 2 or any(c not in b'0123456789abcdefABCDEF' for c in f):
        raise Unreadable
    return bytes.fromhex(f.decode())


def pattern(f):
    if len(f) != 8:
        raise Unreadable
    return int.from_bytes(hexadecimal(f), 'big')


def plain(f):
    return f


def publish_kind(f):
    if f not in PUBLISH_KINDS:
        raise Unreadable
    return f


WHOLE, FLAG = decimal(U32), decimal(1)
VERBS = {
    'bytes': [WHOLE], 'msg': [decimal(U8), WHOLE, WHOLE, hexadecimal], 'connect': [plain], 'play': [plain], 'publish': [plain, publish_kind],
    'stop_playback': [], 'stop_publishing': [], 'ping': [], 'video': [WHOLE, FLAG, hexadecimal], 'audio': [WHOLE, FLAG, hexadecimal],
    'space': [WHOLE],
}
OPEN = [plain, WHOLE, WHOLE, WHOLE, plain]
METADATA_READERS = {n: {'framerate': pattern, 'stereo': FLAG, 'encoder': plain}.get(n, WHOLE) for n in bodies.NAMES}


def read_fields(readers, fields):
    if len(readers) != len(fields):
        raise Unreadable
    return [r(f) for r, f in zip(readers, fields)]


def read_metadata(fields):
    found = {}
    for f in fields:
        name, sign, value = f.partition(b'=')
        name = name.decode('latin-1')
        if not sign or name not in METADATA_READERS:
            raise Unreadable
        found[name] = METADATA_READERS[name](value)
    return [[found.get(n) for n in bodies.NAMES]]


def read_line(raw):
    """The clock, the verb and its fields."""
    clock, *rest = raw.split(b'\t')
    clock = WHOLE(clock)
    if not rest:
        raise Unreadable
    verb, fields = rest[0].decode('latin-1'), rest[1:]
    if verb == 'open':
        return clock, verb, read_fields(OPEN[:len(fields)] if len(fields) in (0, 4) else OPEN, fields)
    if verb == 'metadata':
        return clock, verb, read_metadata(fields)
    if verb not in VERBS:
        raise Unreadable
    return clock, verb, read_fields(VERBS[verb], fields)


def shown(result):
    return '\t'.join(r.hex() if isinstance(r, bytes) else str(r) for r in result)


def open_line(session):
    """Requests by number, each with its kind, of a publish request also its type."""
    kinds = [(n, 'publish:' if kind in PUBLISH_KINDS else '', kind.decode()) for n, (kind, _) in sorted(session.open.items())]
    requests = ','.join('%d:%s%s' % k for k in kinds)
    return '\t'.join(['open', '-' if session.active is None else str(session.active), requests or '-'])


class Card:
    def __init__(self):
        self.number, self.space, self.written = 0, SPACE, []
        self.start(Session())

    def start(self, session):
        self.session, self.journal, self.counted, self.acknowledged = session, [], 0, 0

    def feed(self, raw):
        """Takes a line without its newline; what it writes is added, and its results handed back without the line's number."""
        self.number += 1
        raw = raw[:-1] if raw.endswith(b'\r') else raw
        if raw == b'':
            return []
        try:
            results = self.line(*read_line(raw))
        except Unreadable:
            return []
        lines = ['%d\t%s' % (self.session.stage, shown(r)) for r in results]
        after = ['%d\t%s' % (self.session.stage, open_line(self.session))] if lines else []
        self.written += ['%d\t%s' % (self.number, line) for line in lines + after]
        return lines

    def line(self, clock, verb, fields):
        if verb == 'space':
            self.space = fields[0]
            return []
        if verb == 'open':
            try:
                self.start(Session(*fields))
            except Refused as e:
                return [('refused', e.number)]
            return [('none',)]
        before = self.session
        refused, results, self.session = step(before, verb, clock, fields, self.space)
        self.journal.append(Line(verb, fields, refused, [r for r in results if r[0] == 'out']))
        self.holds(before, verb, fields, refused, results)
        assert refused != 12 or self.space < SPACE
        return results or [('none',) if refused is None else ('refused', refused)]

    def holds(self, before, verb, fields, refused, results):
        """The latest-line rule, and the law on the sum of all acknowledgements."""
        s = self.session
        assert rule(self.journal) == (s.stage, s.active, {n: kind for n, (kind, _) in s.open.items()})
        if verb == 'video':
            assert (refused == 2) == (rule(self.journal[:-1])[0] != PUBLISHING)
        if verb == 'bytes' and refused is None and before.window is not None:
            self.counted += fields[0]
        self.acknowledged += sum(int.from_bytes(r[6], 'big') for r in results if r[:2] == ('out', 3))
        assert (self.acknowledged + s.pending - self.counted) % 2 ** 32 == 0
