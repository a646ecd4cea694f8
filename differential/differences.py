"""For each row of docs/DIFFERENCES.md the smallest input on which the two sides differ as listed, with what each gives.

A script is its lines; what is expected is every result of every line but the lines `open`, in turn, each from its stage on.
Both sides get the same lines unless the row needs a verb that only the reference has: `turn` (several messages in one turn)
and `next` (the next number). A side whose lines are None can't be given the input.
"""
from coding import NULL, bits, command, num, number, obj, text

OPEN = b'0\topen'
OPENED = '0\tnone'
CONNECT = b'0\tconnect\ta'


def msg(type_id, stream, body):
    return b'0\tmsg\t%d\t0\t%d\t%s' % (type_id, stream, body.hex().encode())


def result(n, *rest):
    return msg(20, 0, command(b'_result', bits(float(n)), NULL, *rest))


def out(stage, type_id, stream, body, uncompressed=0):
    return '%d\tout\t%d\t0\t%d\t0\t%d\t%s' % (stage, type_id, stream, uncompressed, body.hex())


def connect_sent(n, flash=b'WIN 23,0,0,207'):
    properties = obj((b'app', text(b'a')), (b'flashVer', text(flash)), (b'objectEncoding', num(0.0)))
    return out(0, 20, 0, command(b'connect', bits(float(n)), properties))


def create_sent(n):
    return out(1, 20, 0, command(b'createStream', bits(float(n)), NULL))


def accepted(window=2500000, chunk=4096):
    return [out(1, 5, 0, window.to_bytes(4, 'big')), '1\tevent\t0', out(1, 1, 0, chunk.to_bytes(4, 'big'), 1)]


def metadata(stream, rate):
    return out(5, 18, stream, text(b'@setDataFrame') + text(b'onMetaData') + obj((b'framerate', number(rate))))


def data(rate):
    return msg(18, 1, text(b'onMetaData') + obj((b'framerate', number(rate))))


CONNECTED = [OPEN, CONNECT, result(1)]
CONNECTED_GIVES = [OPENED, connect_sent(1)] + accepted()
PLAYING = CONNECTED + [b'0\tplay\tk', result(2, num(1.0))]
PLAYING_GIVES = CONNECTED_GIVES + [create_sent(2), out(2, 4, 0, bytes.fromhex('000300000001000007d0')),
                                   out(2, 20, 1, command(b'play', 0, NULL, text(b'k')))]
START = msg(20, 0, command(b'onStatus', 0, NULL, obj((b'code', text(b'NetStream.Publish.Start')))))
PUBLISHING = CONNECTED + [b'0\tpublish\tk\tlive', result(2, num(1.0)), START]
PUBLISHING_GIVES = CONNECTED_GIVES + [create_sent(2), out(4, 20, 1, command(b'publish', 0, NULL, text(b'k'), text(b'live'))), '5\tevent\t3']

PING, SHORT = msg(4, 0, bytes.fromhex('000600000007')), msg(3, 0, b'\0\0\1')
TURN = b'0\tturn\t4\t0\t0\t000600000007\t3\t0\t0\t000001'
PONG = out(0, 4, 0, bytes.fromhex('000700000007'))
WIDE = [OPEN, msg(5, 0, b'\xff' * 4), b'0\tbytes\t4294967294', b'0\tbytes\t2']
LARGE = [OPEN, b'0\topen\tF\t1\t2\t2147483648', CONNECT, result(1)]
LONG = b'k' * 256
NINE = [OPEN] + [CONNECT] * 9

LIST = [
    ('One message a turn', [OPEN, PING, SHORT], [OPEN, TURN], [OPENED, PONG, '0\trefused\t8'], [OPENED, '0\trefused\t8']),
    ('Pending past 32 bits', WIDE, WIDE, [OPENED, '0\tnone', '0\tnone', out(0, 3, 0, bytes(4))], [OPENED, '0\tnone', '0\tnone', '0\tpanic']),
    ('Chunk size tested at opening', LARGE, LARGE, [OPENED, '0\trefused\t7', connect_sent(1)] + accepted(),
     [OPENED, '0\tnone', connect_sent(1, b'F'), '1\trefused\t7']),
    ('NaN frame rate in', PLAYING + [data(0xfff8000000000000)], PLAYING + [data(0xfff8000000000000)],
     PLAYING_GIVES + ['2\tevent\t4\tframerate=7fc00000'], PLAYING_GIVES + ['2\tevent\t4\tframerate=ffc00000']),
    ('NaN frame rate out', PUBLISHING + [b'0\tmetadata\tframerate=ffc00000'], PUBLISHING + [b'0\tmetadata\tframerate=ffc00000'],
     PUBLISHING_GIVES + [metadata(1, 0x7ff8000000000000)], PUBLISHING_GIVES + [metadata(1, 0xfff8000000000000)]),
    ('Texts of callers', CONNECTED + [b'0\tplay\t' + LONG], CONNECTED + [b'0\tplay\t' + LONG],
     CONNECTED_GIVES + ['1\trefused\t9'], CONNECTED_GIVES + [create_sent(2)]),
    ('Open requests', NINE, NINE, [OPENED] + [connect_sent(n) for n in range(1, 9)] + ['0\trefused\t10'],
     [OPENED] + [connect_sent(n) for n in range(1, 10)]),
    ('Numbers', None, [OPEN, b'0\tnext\t4294967295', CONNECT], None, [OPENED, '0\tnone', '0\tpanic']),
    ('Space', [OPEN, b'0\tspace\t0', CONNECT], [OPEN, CONNECT], [OPENED, '0\trefused\t12'], [OPENED, connect_sent(1)]),
    ('Length of a body', None, PUBLISHING + [b'0\tvideo\t0\t0\t' + b'00' * 16777216], None, PUBLISHING_GIVES + ['5\trefused\t9']),
]

# Rows that no input of these programs shows.
NOT_SHOWN = {
    'Exact body lengths': 'the reading of bodies is the harness\'s on the Rust\'s side too',
    'Two events of type 4': 'as above',
    'AMF0\'s limits': 'as above; the Rust\'s AMF0 crate is not at hand',
    'Order of properties': 'the harness sorts the Rust\'s map into document 01\'s order',
    'A record that is no session': 'the Rust\'s fields are private, and no line of a script makes one',
    'connected_app_name': 'nothing reads it',
}
