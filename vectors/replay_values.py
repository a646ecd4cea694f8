"""Scripts for what `replay` tells beside `card`'s lines: the values of events, and after a line the active stream and the open requests.

Each value stands beside what document 01 says of it ("The session's work", "Bodies", the latest-line rule).
"""
from message_reader import FIELDS
from messages import NULL, bool_, cmd, ecma, num, obj, strict, text
from replay_model import PUBLISH_START
from replay_notation import (REPLY, STOP_PLAYBACK, STOP_PUBLISHING, at_playing, connect, control, error, msg, opening, play, publish, result, script,
                             status)

MOST = 4294967295
NAN, INFINITE = 0x7ff8000000000000, 0x7ff0000000000000


def descriptions():
    # "the description is handed back as that stretch of the caller's body, or empty where the first argument is no object with a text `description`"
    no, there = text(b'no'), obj((b'description', text(b'no')))
    for name, gives, arguments in [
            ('text', '6e6f', [there]), ('ecma', '6e6f', [ecma((b'code', NULL), (b'description', no))]), ('empty', '', [obj((b'description', text(b'')))]),
            ('none', '', []), ('null', '', [NULL]), ('plain', '', [no]), ('number', '', [obj((b'description', num(1.0)))]),
            ('array', '', [strict(there)]), ('second', '', [NULL, there]), ('deeper', '', [obj((b'o', there))]), ('case', '', [obj((b'Description', no))]),
            ('later', '6e6f', [obj((b'description', NULL), (b'description', no))]), ('later-null', '', [obj((b'description', no), (b'description', NULL))])]:
        script('description-' + name, connect(), '0 out20 open/-/1:connect', error(1.0, *arguments), '0 event1:%s open/-/-' % gives)
    # reading 20: in type 17 the stretch lies in the caller's body with its leading 0 counted
    script('description-17', connect(), '0 out20', msg(17, b'\0' + cmd(b'_error', 1.0, NULL, there)), '0 event1:6e6f',
           connect(), '0 out20', msg(17, cmd(b'_error', 2.0, NULL, there)), '0 event1:6e6f')


def onmeta(*properties, make=obj):
    return msg(18, text(b'onMetaData') + make(*properties), 5)


def fields():
    # "Metadata fields, in sending order", whatever order they came in
    full = [(n, bool_(7) if n == b'stereo' else text(b'OBS') if n == b'encoder' else num(float(i))) for i, n in enumerate(FIELDS)]
    gives = ('width=0:height=1:videocodecid=2:framerate=40400000:videodatarate=4:audiocodecid=5:audiodatarate=6:audiosamplerate=7:audiochannels=8:'
             'stereo=1:encoder=4f4253')
    script('fields-all', *at_playing(), onmeta(*full), '3 event4:' + gives, onmeta(*full[::-1], make=ecma), '3 event4:' + gives,
           onmeta((b'Width', num(1.0)), (b'x', NULL), (b'height', num(2.0))), '3 event4:height=2')
    # "Whole fields are held as reply numbers are", each of them
    held = [(1.9, 1), (NAN, 0), (-3.0, 0), (4294967296.0, MOST), (INFINITE, MOST), (4294967294.5, 4294967294), (0xfff0000000000000, 0)]
    whole = [n for n in FIELDS if n not in (b'framerate', b'stereo', b'encoder')]
    script('fields-held', *at_playing(), *[x for n in whole for v, h in held for x in (onmeta((n, num(v))), '3 event4:%s=%d' % (n.decode(), h))])
    # "The frame rate is kept as a 32-bit float: nearest, ties to even; NaN becomes 7fc00000"
    rates = [(0x403df851eb851eb8, '41efc28f'), (NAN, '7fc00000'), (0xfff8000000000001, '7fc00000'), (0x3ff0000010000000, '3f800000'),
             (0x3ff0000030000000, '3f800002'), (0x3ff0000010000001, '3f800001'), (INFINITE, '7f800000'), (0x8000000000000000, '80000000'),
             (0x47effffff0000000, '7f800000'), (0x36a0000000000000, '00000001'), (0x3690000000000000, '00000000'), (-1.0, 'bf800000')]
    script('fields-rate', *at_playing(), *[x for v, p in rates for x in (onmeta((b'framerate', num(v))), '3 event4:framerate=' + p)])
    # "Any may be absent, as when its value is of the wrong kind"; reading 17, "of equal names the later holds", and then its kind is judged
    wrong = {b'stereo': num(1.0), b'encoder': NULL}
    script('fields-wrong', *at_playing(),
           *[x for n, v in full for x in (onmeta((b'audiochannels' if n != b'audiochannels' else b'width', num(2.0)), (n, wrong.get(n, text(b'1')))),
                                          '3 event4:%s=2' % ('audiochannels' if n != b'audiochannels' else 'width'))],
           onmeta((b'height', num(9.0)), (b'width', num(5.0)), (b'width', text(b'x'))), '3 event4:height=9',
           onmeta((b'width', text(b'x')), (b'width', num(5.0))), '3 event4:width=5', onmeta((b'stereo', bool_(0))), '3 event4:stereo=0',
           onmeta((b'encoder', text(b''))), '3 event4:encoder=')


def others():
    # pictures and sound in: their time and the whole body
    script('values-media', *at_playing(), msg(9, b'\x17\1\2', 5, 77), '3 event5:77:170102', msg(8, b'', 5, MOST), '3 event6:%d:' % MOST)
    # "No such open request: event with raw number, object and arguments"
    thing, more = obj((b'a', num(1.0))), [num(1.9), NULL, strict(text(b'x'))]
    script('values-unknown', result(1.9, thing=thing), '0 event8:3ffe666666666666:%s:' % thing.hex(),
           error(-3.0, *more), '0 event8:c008000000000000:05:%s' % b''.join(more).hex(),
           msg(17, b'\0' + text(b'_result') + num(0xfff8000000000001) + thing + more[0]), '0 event8:fff8000000000001:%s:%s' % (thing.hex(), more[0].hex()))
    # another command: its name too
    script('values-command', msg(20, cmd(b'onBWDone', 1.5, NULL)), '0 event7:%s:3ff8000000000000:05:' % b'onBWDone'.hex(),
           msg(17, b'\0' + cmd(b'', 0.0, thing, *more)), '0 event7::0000000000000000:%s:%s' % (thing.hex(), b''.join(more).hex()))
    # "Another code is an event"; "a response is an event. Acknowledgement is an event"
    script('values-code', status(b'x'), '0 event9:78', status(b''), '0 event9:', status('\u00e9'.encode()), '0 event9:c3a9')
    script('values-number', *[x for n in (0, 7, MOST) for x in (control(7, n), '0 event11:%d' % n, msg(3, n.to_bytes(4, 'big')), '0 event10:%d' % n)])


def opened():
    # "Open requests are compared as a set of numbers, each with the kind and purpose it was asked for"
    script('open-kinds', connect(), '0 out20 open/-/1:connect', connect(), '0 out20 open/-/1:connect,2:connect', result(2.0), REPLY + ' open/-/1:connect',
           play(), '1 out20 open/-/1:connect,3:play', *[x for i, k in enumerate(['live', 'record', 'append']) for x in (publish('k', k), '1 out20')],
           connect(), '1 refused1 open/-/1:connect,3:play,4:publish:live,5:publish:record,6:publish:append',
           # "Closing a request frees its place for use again": the order is that of the numbers
           error(3.0), '1 refused4 open/-/1:connect,4:publish:live,5:publish:record,6:publish:append',
           play(), '1 out20 open/-/1:connect,4:publish:live,5:publish:record,6:publish:append,7:play',
           result(5.0, NULL), '1 refused5 open/-/1:connect,4:publish:live,6:publish:append,7:play',
           result(5.0, num(1.0)), '1 event8 open/-/1:connect,4:publish:live,6:publish:append,7:play',
           # a grant's stream, one that follows it, a late connect reply, which keeps it, and a stop
           result(7.0, num(9.0)), '2 out4 out20#9 open/9/1:connect,4:publish:live,6:publish:append',
           result(4.0, num(0.0)), '4 out20 open/0/1:connect,6:publish:append', status(PUBLISH_START), '5 event3 open/0/1:connect,6:publish:append',
           result(1.0), REPLY + ' open/0/6:publish:append', STOP_PUBLISHING, '1 none open/0/6:publish:append',
           result(6.0, num(3.0)), '4 out20#3 open/3/-', STOP_PLAYBACK, '4 none open/3/-', STOP_PUBLISHING, '1 out20#3 open/-/-',
           opening(), '0 none open/-/-')


def make():
    for group in (descriptions, fields, others, opened):
        group()
