"""How replay.py writes a script down: lines of `card`, each with what document 01 says that it gives.

A script is a name and rows in turn, a line and then what it gives: the stage after it and its results. `none`, `event0`, `unhandled6` and
`refused8` stand as they are. `out20` is a message of type 20 that carries the clock of its line, stream 0 and no flag; what is different stands
behind it in this order: `@77` another time, `#5` another stream, `d` droppable, `u` uncompressed header, `:0007` the body. `event5:77:1701` is an
event with its values; without them they are the model's. `open/5/2:play` at the end of a row is the active stream and the open requests after it. A
line that writes nothing gives the empty text. What the model answers must be the same, or there is no script.

The clock of a line is 1000 times its number in the script, unless `at` gives one.
"""
import re

from messages import NULL, cmd, num, obj, text
from replay_card import Card
from replay_model import PLAY_START, PUBLISH_START

scripts = {}
OUT = re.compile(r'out(\d+)(@\d+)?(#\d+)?(d?)(u?)(:[0-9a-f]*)?$')


def octets(f):
    return f if isinstance(f, bytes) else str(f).encode()


def raw(line):
    """A line as it stands, its clock included."""
    return 'raw', line


def at(clock, line):
    return 'at', clock, line


def result_line(token, clock, line):
    """What a token of a row stands for; a body or an event's values that it leaves open are taken from the line."""
    if token.startswith('event'):
        place, *values = token[len('event'):].split(':')
        return '\t'.join(['event', place, *(values or line.split('\t')[3:])])
    m = OUT.match(token)
    if not m:
        word, number = re.match(r'([a-z]+)(\d*)$', token).groups()
        return word + ('\t' + number if number else '')
    type_id, time, stream, droppable, uncompressed, body = m.groups()
    return '\t'.join(['out', type_id, time[1:] if time else str(clock), stream[1:] if stream else '0', '1' if droppable else '0',
                      '1' if uncompressed else '0', body[1:] if body is not None else line.split('\t')[-1]])


def written(row, number):
    """The bytes of a row's line, and its clock."""
    clock = 1000 * number
    if row[0] == 'raw':
        return row[1], clock
    if row[0] == 'at':
        _, clock, row = row
    return b'\t'.join(octets(f) for f in [clock, *row]), clock


def script(name, *rows, end=b'\n'):
    assert name not in scripts and len(rows) % 2 == 0, name
    card, lines = Card(), []
    for i, (row, gives) in enumerate(zip(rows[::2], rows[1::2])):
        line, clock = written(row, i + 1)
        lines.append(line)
        found = card.feed(line)
        stage, *tokens = gives.split() or ['']
        if tokens and tokens[-1].startswith('open/'):
            assert card.written[-1].split('\t')[1:] == [stage, *tokens.pop().split('/')], (name, line, gives, card.written[-1])
        assert len(found) == len(tokens), (name, line, gives, found)
        for f, token in zip(found, tokens):
            assert f == stage + '\t' + result_line(token, clock, f), (name, line, gives, found)
    keep(name, b'\n'.join(lines) + end, card)


def keep(name, given, card):
    scripts[name] = given, ''.join(line + '\n' for line in card.written).encode()


# ---- lines


def connect(app='live'):
    return ['connect', app]


def play(key='key'):
    return ['play', key]


def publish(key='key', kind='live'):
    return ['publish', key, kind]


def video(data=b'\x17\x01', time=77, droppable=0):
    return ['video', time, droppable, data.hex()]


def audio(data=b'\xaf\x01', time=78, droppable=0):
    return ['audio', time, droppable, data.hex()]


def metadata(*fields):
    return ['metadata', *fields]


def count(n):
    return ['bytes', n]


def space(n):
    return ['space', n]


def opening(*fields):
    return ['open', *fields]


def msg(type_id, body, stream=0, time=0):
    return ['msg', type_id, time, stream, body.hex()]


def result(number, *arguments, thing=NULL):
    return msg(20, cmd(b'_result', number, thing, *arguments))


def error(number, *arguments):
    return msg(20, cmd(b'_error', number, NULL, *arguments))


def status(code, *more):
    return msg(20, cmd(b'onStatus', 0.0, NULL, obj((b'level', text(b'status')), (b'code', text(code))), *more))


def control(event, *words):
    return msg(4, event.to_bytes(2, 'big') + b''.join(w.to_bytes(4, 'big') for w in words))


def window(n):
    return msg(5, n.to_bytes(4, 'big'))


STOP_PLAYBACK, STOP_PUBLISHING, PING = ['stop_playback'], ['stop_publishing'], ['ping']
ONMETA = text(b'onMetaData') + obj((b'width', num(640.0)))
RESTORE = [space(4096), '']

# ---- rows that lead to a stage; the first request is number 1 and the second is number 2

REPLY = '1 out5:002625a0 event0 out1@0u:00001000'
AT_CONNECTED = [connect(), '0 out20', result(1.0), REPLY]


def at_play_requested(stream=5):
    return AT_CONNECTED + [play(), '1 out20', result(2.0, num(float(stream))), '2 out4 out20#%d' % stream]


def at_playing(stream=5):
    return at_play_requested(stream) + [status(PLAY_START), '3 event2']


def at_publish_requested(stream=5):
    return AT_CONNECTED + [publish(), '1 out20', result(2.0, num(float(stream))), '4 out20#%d' % stream]


def at_publishing(stream=5):
    return at_publish_requested(stream) + [status(PUBLISH_START), '5 event3']


STAGES = [[], AT_CONNECTED, at_play_requested(), at_playing(), at_publish_requested(), at_publishing()]
