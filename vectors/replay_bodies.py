"""Scripts for document 01's "Bodies", as far as `card` shows them: which bodies that come in are refusal 8, and which aren't."""
from messages import BROKEN, FULL, NULL, OTHERS, bool_, cmd, ecma, num, obj, strict, text
from replay_notation import at_play_requested, at_playing, connect, msg, script
from replay_model import PLAY_START

END = b'\0\0\x09'


def rows(stage, pairs):
    return [x for line, gives in pairs for x in (line, '%d %s' % (stage, gives))]


def plain():
    # "Types 1, 3, 5 and 2: 4 bytes" and "Lengths are exact"
    for type_id, gives in ((1, 'none'), (2, 'unhandled2'), (3, 'event10'), (5, 'none')):
        script('body-%02d' % type_id, *rows(0, [(msg(type_id, b'\0\0\0\1\0\0'[:n]), gives if n == 4 else 'refused8') for n in range(7)]))
    # "Type 6: 4 bytes and a limit 0 to 2"
    script('body-06', *rows(0, [(msg(6, b'\0\0\0\1' + bytes([n])), 'unhandled6' if n < 3 else 'refused8') for n in (0, 1, 2, 3, 4, 128, 255)]),
           *rows(0, [(msg(6, b'\0\0\0\1\1\0'[:n]), 'unhandled6' if n == 5 else 'refused8') for n in range(7)]))
    # "Type 4: event of 2 bytes; 0, 1, 2, 4, 6, 7 have 4 more, 3 has 8; another event is refusal 8, also BufferEmpty and BufferReady of the Rust" (31
    # and 32)
    gives = {0: 'none', 1: 'none', 2: 'none', 4: 'none', 6: 'out4:000700000001', 7: 'event11'}
    for e in list(range(10)) + [31, 32, 255, 256, 259, 1536, 1792, 65535]:
        four, eight = gives.get(e, 'refused8'), 'none' if e == 3 else 'refused8'
        lengths = [(msg(4, e.to_bytes(2, 'big') + b'\0\0\0\1\0\0\0\2\0\0'[:n]),
            four if n == 4 else eight if n == 8 else 'refused8') for n in range(11)]
        script('body-04-event-%d' % e, *rows(0, lengths if e < 8 else [lengths[0], lengths[4], lengths[8]]))
    script('body-04-short', *rows(0, [(msg(4, b''), 'refused8'), (msg(4, b'\0'), 'refused8')]))
    # "Types 8 and 9: raw": no body is malformed
    script('body-08-09', *at_playing(),
           *rows(3, [(msg(t, b, 5), 'event%d' % (5 if t == 9 else 6)) for t in (8, 9) for b in (b'', b'\0', b'\x04', b'\xff' * 40)]))


def commands():
    # "Types 20 and 17: text, Number, value, further values": cut off after each byte, the whole passes, and so does one further value
    whole = cmd(b'x', 1.0, NULL, num(2.0), text(b'ab'))
    ends = [14, 23, 28]
    script('body-20-cut', *rows(0, [(msg(20, whole[:n]), 'event7' if n in ends else 'refused8') for n in range(len(whole) + 1)]))
    script('body-17-cut', *rows(0, [(msg(17, b'\0' + whole[:n]), 'event7' if n in ends else 'refused8') for n in range(len(whole) + 1)]))
    # what stands for the name must be a text, what stands for the number a Number; the object may be any value
    script('body-20-kinds', *rows(0, [(msg(20, v + num(1.0) + NULL), 'event7' if v[0] == 2 else 'refused8') for v in OTHERS]),
           *rows(0, [(msg(20, text(b'x') + v + NULL), 'event7' if v[0] == 0 else 'refused8') for v in OTHERS]),
           *rows(0, [(msg(20, cmd(b'x', 1.0, v)), 'event7') for v in OTHERS]))
    # an AMF0 long string (marker 0c) is no text
    script('body-20-long-string', *rows(0, [(msg(20, b'\x0c\0\0\0\1x' + num(1.0) + NULL), 'refused8')]))


def values():
    # "AMF0 markers, hexadecimal: 00 number, 01 boolean, 02 text, 03 object, 05 null, 06 undefined, 08 ECMA array, 0a strict array. Others: refusal 8"
    good = {0: bytes(8), 1: b'\1', 2: b'\0\1a', 3: END, 5: b'', 6: b'', 8: bytes(4) + END, 10: bytes(4)}
    for m in list(range(20)) + [128, 255]:
        tail, ok = good.get(m, b''), m in good
        pairs = [(msg(20, cmd(b'x', 1.0, bytes([m]) + tail)), 'event7' if ok else 'refused8'),
                 (msg(20, cmd(b'x', 1.0, NULL, bytes([m]) + tail)), 'event7' if ok else 'refused8'),
                 (msg(18, bytes([m]) + tail), 'none' if ok else 'refused8'),
                 (msg(20, cmd(b'x', 1.0, obj((b'a', bytes([m]) + tail)))), 'event7' if ok else 'refused8'),
                 (msg(20, cmd(b'x', 1.0, strict(bytes([m]) + tail))), 'event7' if ok else 'refused8')]
        script('body-marker-%02x' % m, *rows(0, pairs))
    # broken values of every kind, in every place of a command and in data
    script('body-broken', *rows(0, [(msg(20, cmd(b'x', 1.0, v)), 'refused8') for v in BROKEN]),
           *rows(0, [(msg(20, cmd(b'x', 1.0, NULL, v)), 'refused8') for v in BROKEN]), *rows(0, [(msg(18, v), 'refused8') for v in BROKEN]))
    # "boolean (nonzero is true)": every byte is a boolean
    script('body-boolean', *rows(0, [(msg(20, cmd(b'x', 1.0, bool_(n))), 'event7') for n in (0, 1, 2, 127, 128, 255)]))
    # "08 ECMA array (read as object, count ignored)": a count that lies passes
    script('body-ecma-count', *at_play_requested(),
           *rows(2, [(msg(18, text(b'onMetaData') + ecma((b'width', num(1.0)), n=n), 5), 'event4') for n in (0, 1, 2, 4294967295)]),
           msg(20, cmd(b'onStatus', 0.0, NULL, ecma((b'code', text(PLAY_START)), n=77))), '3 event2')
    # a strict array's count is none that may lie
    script('body-strict-count',
           *rows(0, [(msg(20, cmd(b'x', 1.0, b'\x0a' + n.to_bytes(4, 'big') + NULL * k)), 'event7' if n <= k else 'refused8') for n in (0, 1, 2, 3,
           4294967295) for k in (0, 1, 2)]))


def names():
    # "Text is UTF-8": names of commands, texts, names of properties
    bad = [b'\xff', b'\x80', b'a\xc3', b'\xc0\x80', b'\xe0\x9f\xbf', b'\xed\xa0\x80', b'\xf0\x8f\xbf\xbf', b'\xf4\x90\x80\x80', b'\xf5\x80\x80\x80']
    fine = [b'\0', b'\x7f', b'\xc2\x80', b'\xe0\xa0\x80', b'\xed\x9f\xbf', b'\xee\x80\x80', b'\xf0\x90\x80\x80', b'\xf4\x8f\xbf\xbf']
    for name, make in (('name', lambda t: cmd(t, 1.0)), ('text', lambda t: cmd(b'x', 1.0, text(t))),
                       ('property', lambda t: cmd(b'x', 1.0, obj((t, NULL)))), ('ecma-name', lambda t: cmd(b'x', 1.0, NULL, ecma((t, NULL))))):
        script('body-utf8-%s' % name, *rows(0, [(msg(20, make(t)), 'refused8') for t in bad]),
               *rows(0, [(msg(20, make(t)), 'event7') for t in fine]))
    # "An empty name stands only before 09"
    script('body-empty-name',
           *rows(0, [(msg(20, cmd(b'x', 1.0, b'\x03' + b)), g) for b, g in ((END, 'event7'), (b'\0\0\5' + END, 'refused8'),
           (b'\0\1a\5' + END, 'event7'), (b'\0\0\0' + END, 'refused8'), (b'\0\1a\x09' + END, 'refused8'), (b'\0\0', 'refused8'), (b'', 'refused8'))]))
    # "Of equal names the later holds"
    start, other = text(PLAY_START), text(b'other')
    script('body-equal-names', *at_play_requested(),
           *rows(2, [(msg(20, cmd(b'onStatus', 0.0, NULL, obj((b'code', start), (b'code', other)))), 'event9')]),
           msg(20, cmd(b'onStatus', 0.0, NULL, obj((b'code', other), (b'x', NULL), (b'code', start)))), '3 event2')


def nested(n, inner, wrap):
    for _ in range(n):
        inner = wrap(inner)
    return inner


def depth():
    # "A top value has depth 1; depth 9 is refusal 8": objects, ECMA arrays and strict arrays, in a command's object, in its arguments and in data
    wraps = {'object': lambda v: obj((b'a', v)), 'ecma': lambda v: ecma((b'a', v)), 'array': lambda v: strict(v)}
    for name, wrap in wraps.items():
        pairs = []
        for n in (6, 7, 8, 9, 40):
            v = nested(n, NULL, wrap)
            gives = 'event7' if n < 8 else 'refused8'
            pairs += [(msg(20, cmd(b'x', 1.0, v)), gives), (msg(20, cmd(b'x', 1.0, NULL, v)), gives), (msg(18, v), 'none' if n < 8 else 'refused8')]
        script('body-depth-%s' % name, *rows(0, pairs))


def arrived():
    # metadata that comes in: fields of the wrong kind, doubled and missing are never refused
    pairs = [(msg(18, text(b'onMetaData') + obj((n, v)), 5), 'event4') for n in (b'width', b'framerate', b'stereo', b'encoder') for v in OTHERS]
    script('body-metadata-kinds', *at_playing(), *rows(3, pairs))
    # metadata cut off after each byte: after its name it is a list of one value, whole it is metadata, elsewhere refusal 8
    script('body-metadata-cut', *at_playing(),
           *rows(3, [(msg(18, FULL[:n], 5), 'none' if n in (0, 13) else 'event4' if n == len(FULL) else 'refused8') for n in range(0,
           len(FULL) + 1)]))
    # a malformed body changes nothing: replies and notices cut short, then whole
    reply = cmd(b'_result', 1.0, obj((b'fmsVer', text(b'FMS'))), obj((b'code', text(b'ok'))))
    script('body-reply-cut', connect(), '0 out20', *rows(0, [(msg(20, reply[:n]), 'refused8') for n in range(0, len(reply), 3)]),
           msg(20, reply), '1 out5 event0 out1@0u')


def make():
    for group in (plain, commands, values, names, depth, arrived):
        group()
