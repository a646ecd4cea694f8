"""Scripts for what document 01 and its readings name one by one: the whole case, the spindle cases, the mistakes near at hand, the readings 2 to 25.

No script shows reading 1 (11 is out of reach), 5 (13 is) and 6 (a record's width); 26 and 27 stand in replay_lines.py.
"""
import bodies
from messages import NULL, cmd, ecma, num, obj, strict, text
from replay_notation import (AT_CONNECTED, ONMETA, REPLY, RESTORE, STAGES, STOP_PLAYBACK, STOP_PUBLISHING, at, at_play_requested, at_playing,
                             at_publishing, connect, control, count, error, metadata, msg, opening, play, publish, result, script, scripts, space,
                             status, video, window)
from replay_model import PLAY_START, PUBLISH_START

MOST, LONG, BROKEN = 4294967295, b'k' * 256, b'key\xff'
IN = b'0\tbytes\t10\n0\tmsg\t5\t0\t0\t00000004\n7\tbytes\t4\n'
OUT = b'1\t0\tnone\n2\t0\tnone\n3\t0\tout\t3\t7\t0\t0\t0\t00000004\n'


def whole_case():
    # "Whole case, no header": input and output byte for byte, but for the lines `open`
    script('whole-case', at(0, count(10)), '0 none', at(0, window(4)), '0 none', at(7, count(4)), '0 out3:00000004')
    given, answers = scripts['whole-case']
    assert (given, b''.join(line for line in answers.splitlines(keepends=True) if b'\topen\t' not in line)) == (IN, OUT)


def spindle():
    # "createStream, number 2: hexadecimal `02000c63726561746553747265616d00400000000000000005`"
    script('spindle-create-stream', *AT_CONNECTED, play(), '1 out20:02000c63726561746553747265616d00400000000000000005')
    # "SetBufferLength, stream 1, 2,000 ms: `000300000001000007d0`"
    script('spindle-buffer-length', *AT_CONNECTED, play(), '1 out20', result(2.0, num(1.0)), '2 out4:000300000001000007d0 out20#1')
    # "Ping response, 7: `000700000007`"
    script('spindle-ping-response', control(6, 7), '0 out4:000700000007')
    # "Held numbers: 1.9 is 1; NaN and −3 are 0; 4294967296 is 4294967295": as stream numbers
    for name, number, stream in (('half', 1.9, 1), ('nan', float('nan'), 0), ('negative', -3.0, 0), ('over', 4294967296.0, MOST)):
        script('spindle-held-%s' % name, *AT_CONNECTED, publish(), '1 out20', result(2.0, num(number)), '4 out20#%d' % stream)
    # "Double 403df851eb851eb8 (29.97) becomes single 41efc28f": what `card` shows is that it comes in as metadata, and the single going out
    script('spindle-rate', *at_playing(), msg(18, text(b'onMetaData') + obj((b'framerate', num(0x403df851eb851eb8))), 5), '3 event4')
    script('spindle-rate-out', *at_publishing(),
           metadata('framerate=41efc28f'), '5 out18#5:02000d40736574446174614672616d65' '02000a6f6e4d65746144617461'
           '03' '00096672616d6572617465' '00403df851e0000000' '000009')
    # "Reply 1.9 closes request 1; a second reply to it is unknown"
    script('spindle-reply-half', connect(), '0 out20', result(1.9), REPLY, result(1.9), '1 event8', result(1.0), '1 event8')
    # "Stop at Connected: empty success"
    script('spindle-stop', *AT_CONNECTED, STOP_PLAYBACK, '1 none', STOP_PUBLISHING, '1 none')
    # "Peer size 2,147,483,647 passes, 2,147,483,648 is 7"
    script('spindle-peer-size', msg(1, b'\x7f\xff\xff\xff'), '0 none', msg(1, b'\x80\0\0\0'), '0 refused7')
    # "Depth 8 passes, 9 doesn't"
    eight = NULL
    for _ in range(7):
        eight = obj((b'a', eight))
    script('spindle-depth', msg(20, cmd(b'x', 1.0, eight)), '0 event7', msg(20, cmd(b'x', 1.0, strict(eight))), '0 refused8')
    # "A key of 255 bytes passes, 256 is 9"
    for i, line in enumerate((play, publish, lambda k: publish(k, 'record'), lambda k: publish(k, 'append'))):
        script('spindle-key-%d' % i, *AT_CONNECTED, line(b'k' * 255), '1 out20', line(LONG), '1 refused9',
               result(2.0, num(1.0)), '2 out4 out20#1' if i == 0 else '4 out20#1')
    # "Eight open pass, a ninth is 10"
    script('spindle-eight', *AT_CONNECTED, *[x for i in range(8) for x in (play('key %d' % i), '1 out20')], play('key 8'), '1 refused10')
    script('spindle-eight-connects', *[x for i in range(8) for x in (connect('app %d' % i), '0 out20')], connect('app 8'), '0 refused10')


def mistakes():
    # "clearing the active stream at a late connect reply": the stream is kept, data on it is still an event, and a later grant's stop names the new
    # one
    late = [connect('a'), '0 out20', connect('b'), '0 out20', result(1.0), REPLY]
    script('mistake-late-reply', *late, publish(), '1 out20', result(3.0, num(5.0)), '4 out20#5', status(PUBLISH_START), '5 event3',
           result(2.0), REPLY, msg(18, ONMETA, 5), '1 event4', msg(18, ONMETA, 6), '1 none', video(), '1 refused2')
    # "keeping a request open after refusal 5"
    script('mistake-open-after-5', *AT_CONNECTED, play(), '1 out20', result(2.0), '1 refused5', result(2.0, num(5.0)), '1 event8',
           error(2.0), '1 event8')
    # "refusing a second createStream reply while Playing": of a play, and of a publish
    script('mistake-second-reply-play', *AT_CONNECTED, play('a'), '1 out20', play('b'), '1 out20', result(2.0, num(5.0)), '2 out4 out20#5',
           status(PLAY_START), '3 event2', result(3.0, num(6.0)), '2 out4:000300000006000007d0 out20#6', msg(9, b'', 5), '2 none',
           msg(9, b'', 6), '2 event5', status(PLAY_START), '3 event2')
    script('mistake-second-reply-publish', *AT_CONNECTED, play('a'), '1 out20', publish('b'), '1 out20', result(2.0, num(5.0)), '2 out4 out20#5',
           status(PLAY_START), '3 event2', result(3.0, num(6.0)), '4 out20#6', msg(9, b'', 6), '4 refused2', status(PUBLISH_START), '5 event3',
           video(), '5 out9@77#6')
    # "letting a window apply to the count that brought it": counts before the window are none of its pending
    script('mistake-window', count(100), '0 none', window(50), '0 none', count(0), '0 none', count(49), '0 none', count(1), '0 out3:00000032')


def orders():
    # reading 2: connect at a wrong stage is always 1, never 2, whatever else holds
    script('reading-02', *AT_CONNECTED, *[x for i in range(8) for x in (play('k'), '1 out20')], space(0), '', connect(), '1 refused1',
           connect(LONG), '1 refused1', connect(BROKEN), '1 refused1', *RESTORE)
    # reading 3: 8 comes before every look at the stage or the stream; garbage after a good `_result` is 8 and leaves its request open
    bad = [msg(20, cmd(b'onStatus', 0.0, NULL, obj((b'code', text(PLAY_START)))) + b'\x04'), msg(20, cmd(b'onStatus', 0.0) + b'\x04'),
           msg(18, ONMETA + b'\x04', 5), msg(18, b'\x04', 9), msg(15, b'\x07', 5), msg(1, b'\xff\xff\xff\xff\0'),
           msg(20, cmd(b'_error', 2.0) + b'\x09'), msg(17, b'\0' + cmd(b'x', 1.0) + b'\xff')]
    for stage in range(6):
        script('reading-03-stage-%d' % stage, *STAGES[stage], *[x for line in bad for x in (line, '%d refused8' % stage)])
    script('reading-03-open', connect(), '0 out20', msg(20, cmd(b'_result', 1.0) + b'\x04'), '0 refused8', result(1.0), REPLY, play(), '1 out20',
           msg(20, cmd(b'_error', 2.0) + b'\0'), '1 refused8', msg(20, cmd(b'_result', 2.0, NULL, NULL) + b'\x01'), '1 refused8',
           result(2.0, num(1.0)), '2 out4 out20#1')
    # reading 4: 12 undoes everything, the byte count and the closing of a request included; 4 and 5 send nothing, so 12 never meets them
    script('reading-04', connect(), '0 out20', window(10), '0 none', count(6), '0 none', space(3), '', count(7), '0 refused12',
           result(1.0), '0 refused12', *RESTORE, count(3), '0 none', count(1), '0 out3:0000000a', result(1.0), REPLY, play('a'), '1 out20',
           play('b'), '1 out20', space(0), '', error(2.0), '1 refused4', result(3.0), '1 refused5', error(2.0), '1 event8', result(3.0), '1 event8',
           *RESTORE)


def streams():
    # reading 7: stream 0 is a lawful active stream: with it active data on stream 0 is an event, with none it gives nothing
    for name, number in (('zero', 0.0), ('below-one', 0.9), ('nan', float('nan')), ('negative', -3.0)):
        script('reading-07-%s' % name, msg(18, ONMETA, 0), '0 none', *AT_CONNECTED, msg(18, ONMETA, 0), '1 none', play('k'), '1 out20',
               result(2.0, num(number)), '2 out4:000300000000000007d0 out20', msg(18, ONMETA, 0), '2 event4', msg(9, b'\1', 0), '2 event5',
               msg(9, b'\1', 1), '2 none', STOP_PLAYBACK, '1 out20:02000c64656c65746553747265616d000000000000000000' '05' '000000000000000000',
               msg(18, ONMETA, 0), '1 none', publish('k'), '1 out20', result(3.0, num(number)), '4 out20', status(PUBLISH_START), '5 event3',
               video(), '5 out9@77')
    # reading 8: a sum of pending and count past 32 bits has reached every window
    script('reading-08', window(MOST), '0 none', count(4294967294), '0 none', count(3), '0 out3:00000001', window(100), '0 none',
           count(99), '0 none', count(MOST), '0 out3:00000062', count(99), '0 none')
    # reading 9: a window set below pending sends nothing by itself; the next count does, also a count of 0. A second type 5 keeps pending
    script('reading-09-lowered', window(100), '0 none', count(60), '0 none', window(50), '0 none', count(0), '0 out3:0000003c', count(49), '0 none',
           window(49), '0 none', count(0), '0 out3:00000031')
    script('reading-09-kept', window(100), '0 none', count(60), '0 none', window(200), '0 none', count(139), '0 none', window(200), '0 none',
           count(1), '0 out3:000000c8')
    script('reading-09-window-0', window(100), '0 none', count(60), '0 none', window(0), '0 none', count(0), '0 out3:0000003c',
           count(0), '0 out3:00000000', window(MOST), '0 none', count(0), '0 none')
    # reading 10: chunk size 0, ours and the peer's, is accepted
    script('reading-10', opening('F', 1, 2, 0), '0 none', msg(1, b'\0\0\0\0'), '0 none', connect(), '0 out20',
           result(1.0), '1 out5:00000002 event0 out1@0u:00000000', msg(1, b'\0\0\0\0'), '1 none')
    # reading 11: the acknowledgement number is what came since the last one, and not the bytes received so far
    script('reading-11', count(10), '0 none', window(4), '0 none', count(4), '0 out3:00000004', count(5), '0 out3:00000005')


def texts():
    # reading 12: 255 counts bytes; empty texts pass; an empty tcUrl that is configured is sent
    script('reading-12-bytes', connect('é'.encode() * 127 + b'a'), '0 out20', connect('é'.encode() * 128), '0 refused9',
           connect('日'.encode() * 85), '0 out20', connect('😀'.encode() * 63 + b'abc'), '0 out20', connect('😀'.encode() * 64), '0 refused9')
    script('reading-12-empty', opening('', 1, 2, 3), '0 none', connect(''), '0 out20:' + bodies.connect(1, b'', b'', None).hex(),
           result(1.0), '1 out5:00000002 event0 out1@0u:00000003', play(''), '1 out20', publish('', 'append'), '1 out20',
           result(2.0, num(1.0)), '2 out4 out20#1:020004706c617900000000000000000005' '020000',
           result(3.0, num(1.0)), '4 out20#1:0200077075626c69736800000000000000000005' '020000' '020006617070656e64')
    script('reading-12-url', opening('F', 1, 2, 3, ''), '0 none', connect('a'), '0 out20:' + bodies.connect(1, b'a', b'F', b'').hex(),
           opening('F', 1, 2, 3), '0 none', connect('a'), '0 out20:' + bodies.connect(1, b'a', b'F', None).hex())
    # reading 13: what comes in has no limit of 255: names, code, description, encoder
    for n in (255, 256, 1000):
        t = text(b't' * n)
        script('reading-13-%d' % n, msg(20, t + num(1.0) + NULL), '0 event7', connect(), '0 out20',
               error(1.0, obj((b'description', t))), '0 event1', connect(), '0 out20', result(2.0, obj((b'n' * n, t))), REPLY, play(), '1 out20',
               result(3.0, num(5.0), t), '2 out4 out20#5', status(b'c' * n), '2 event9',
               msg(18, text(b'onMetaData') + obj((b'encoder', t)), 5), '2 event4', msg(18, t + obj(), 5), '2 none')
    # reading 14: a property name that isn't UTF-8 is 8, in ECMA arrays too
    script('reading-14', *at_playing(), msg(18, text(b'onMetaData') + obj((b'\xff', NULL)), 5), '3 refused8',
           msg(18, text(b'onMetaData') + ecma((b'\xc3', NULL)), 5), '3 refused8',
           msg(20, cmd(b'onStatus', 0.0, NULL, obj((b'code', text(b'x')), (b'\x80', NULL)))), '3 refused8',
           msg(18, text(b'onMetaData') + ecma((b'\xc3\xa9', NULL)), 5), '3 event4')


def values():
    # reading 15: eight nested objects pass if the innermost is empty, and are 8 if it holds even a null; arrays too
    for name, wrap, empty, full in (('object', lambda v: obj((b'a', v)), obj(), obj((b'a', NULL))),
                                    ('ecma', lambda v: ecma((b'a', v)), ecma(), ecma((b'a', NULL))),
                                    ('array', lambda v: strict(v), strict(), strict(NULL))):
        for _ in range(7):
            empty, full = wrap(empty), wrap(full)
        script('reading-15-%s' % name, msg(20, cmd(b'x', 1.0, empty)), '0 event7', msg(20, cmd(b'x', 1.0, full)), '0 refused8',
               msg(18, empty), '0 none', msg(18, full), '0 refused8')
    # reading 16: 09 anywhere but after an empty name inside an object is 8
    script('reading-16',
           *[x for b in (b'\x09', b'\0\0\x09', obj() + b'\x09', strict(b'\x09'), obj((b'a', b'\x09')), text(b'') + b'\x09') for x in (msg(18, b),
           '0 refused8')],
           msg(18, obj()), '0 none')
    # reading 17: of equal names the later holds first, then its kind is judged
    code, null = (b'code', text(PLAY_START)), (b'code', NULL)
    script('reading-17', *at_play_requested(), msg(20, cmd(b'onStatus', 0.0, NULL, obj(code, null))), '2 refused6',
           msg(20, cmd(b'onStatus', 0.0, NULL, ecma(code, null))), '2 refused6',
           msg(18, text(b'onMetaData') + obj((b'width', num(5.0)), (b'width', text(b'x'))), 5), '2 event4',
           msg(20, cmd(b'onStatus', 0.0, NULL, obj(null, code))), '3 event2')
    # reading 18: empty bodies of types 18 and 15 give nothing; empty 20 and 17, and 17 with a single 0, are 8; type 17 skips at most one leading 0,
    # types 15 and 20 none
    body = cmd(b'x', 1.0)
    script('reading-18', msg(18, b''), '0 none', msg(15, b''), '0 none', msg(20, b''), '0 refused8', msg(17, b''), '0 refused8',
           msg(17, b'\0'), '0 refused8', msg(17, body), '0 event7', msg(17, b'\0' + body), '0 event7', msg(17, b'\0\0' + body), '0 refused8',
           msg(20, b'\0' + body), '0 refused8', msg(15, b'\0' + ONMETA), '0 refused8', msg(18, b'\0' + ONMETA), '0 refused8')
    script('reading-18-data', *at_playing(), msg(18, b'', 5), '3 none', msg(15, b'', 5), '3 none', msg(15, ONMETA, 5), '3 event4',
           msg(15, b'\0' + ONMETA, 5), '3 refused8', msg(18, b'\0' + ONMETA, 5), '3 refused8')
    # reading 19: a command has at least name, number and one value; the first argument is the first value after that one
    script('reading-19', msg(20, text(b'x')), '0 refused8', msg(20, text(b'x') + num(1.0)), '0 refused8', msg(20, cmd(b'x', 1.0)), '0 event7',
           connect(), '0 out20', msg(20, text(b'_result') + num(1.0)), '0 refused8', result(1.0), REPLY, play('a'), '1 out20', play('b'), '1 out20',
           result(2.0, thing=num(9.0)), '1 refused5', result(3.0, num(8.0), thing=num(9.0)), '2 out4 out20#8')
    # reading 20: the description of the first argument, ECMA arrays too, and in type 17; `card` shows the event alone
    d = (b'description', text(b'no'))
    script('reading-20', connect(), '0 out20', error(1.0, obj(d)), '0 event1', connect(), '0 out20',
           msg(17, b'\0' + cmd(b'_error', 2.0, NULL, obj(d))), '0 event1', connect(), '0 out20',
           msg(17, cmd(b'_error', 3.0, NULL, ecma(d))), '0 event1', connect(), '0 out20', error(4.0, obj((b'a', obj(d)))), '0 event1')


def session():
    # reading 21: `play` and `publish` go out with number 0 and null; Start notices raise events 2 and 3; a connect reply raises event 0 between its
    # two messages
    script('reading-21', connect(), '0 out20', result(1.0), '1 out5:002625a0 event0 out1@0u:00001000', play('k'), '1 out20',
           publish('k', 'record'), '1 out20',
           result(2.0, num(1.0)), '2 out4:000300000001000007d0 out20#1:020004706c617900000000000000000005' '0200016b',
           status(PLAY_START), '3 event2',
           result(3.0, num(2.0)), '4 out20#2:0200077075626c69736800000000000000000005' '0200016b' '0200067265636f7264',
           status(PUBLISH_START), '5 event3')
    # reading 22: a late connect reply at any stage gives Connected with the stream kept: a stop is then an empty success, data on that stream is
    # still an event, a picture is 2, and a later grant overwrites the stream without deleteStream
    late = [connect('a'), '0 out20', connect('b'), '0 out20', result(2.0), REPLY]
    for stage in range(1, 6):
        rows = list(late)
        if stage > 1:
            rows += [play('k') if stage < 4 else publish('k'), '1 out20', result(3.0, num(5.0)), '2 out4 out20#5' if stage < 4 else '4 out20#5']
        if stage in (3, 5):
            rows += [status(PLAY_START if stage == 3 else PUBLISH_START), '3 event2' if stage == 3 else '5 event3']
        number = 3.0 if stage == 1 else 4.0
        script('reading-22-stage-%d' % stage, *rows, result(1.0), REPLY, STOP_PLAYBACK, '1 none', STOP_PUBLISHING, '1 none',
               msg(18, ONMETA, 5), '1 none' if stage == 1 else '1 event4', video(), '1 refused2', msg(9, b'', 5), '1 refused2',
               status(PLAY_START), '1 refused2', status(PUBLISH_START), '1 refused2', publish('next'), '1 out20',
               result(number, num(7.0)), '4 out20#7', msg(18, ONMETA, 5), '4 none', STOP_PUBLISHING, '1 out20#7', msg(18, ONMETA, 5), '1 none')


def later():
    # reading 23: a grant sends the key of its own request, whatever order the replies come in
    keys = [play('one'), publish('two', 'append'), play('three'), publish('four', 'live')]
    sent = {2: 'out4 out20#9:' + bodies.command(b'play', 0, NULL, text(b'one')).hex(),
            3: 'out20#9:' + bodies.command(b'publish', 0, NULL, text(b'two'), text(b'append')).hex(),
            4: 'out4 out20#9:' + bodies.command(b'play', 0, NULL, text(b'three')).hex(),
            5: 'out20#9:' + bodies.command(b'publish', 0, NULL, text(b'four'), text(b'live')).hex()}
    for i, order in enumerate(((2, 3, 4, 5), (5, 4, 3, 2), (4, 2, 5, 3), (3, 5, 2, 4))):
        script('reading-23-%d' % i, *AT_CONNECTED, *[x for k in keys for x in (k, '1 out20')],
               *[x for n in order for x in (result(float(n), num(9.0)), '%d %s' % (2 if n % 2 == 0 else 4, sent[n]))])
    # reading 24: the app name of an accepted connect is used for nothing later: two accepted with other names
    script('reading-24', connect('a'), '0 out20', connect('b'), '0 out20', result(2.0), REPLY, result(1.0), REPLY,
           play('k'), '1 out20:' + bodies.command(b'createStream', 3, NULL).hex())
    # reading 25: replies of type 17 count like those of type 20; a line refused by 8 or 12 closes nothing; a reply that came before its number was
    # given closes nothing
    script('reading-25', msg(17, b'\0' + cmd(b'_result', 1.0)), '0 event8', error(2.0), '0 event8', connect(), '0 out20',
           msg(17, b'\0' + cmd(b'_result', 1.0)), REPLY, play(), '1 out20', msg(17, cmd(b'_result', 2.0, NULL, num(5.0)) + b'\x09'), '1 refused8',
           space(5), '', msg(17, cmd(b'_result', 2.0, NULL, num(5.0))), '1 refused12', *RESTORE,
           msg(17, cmd(b'_result', 2.0, NULL, num(5.0))), '2 out4 out20#5',
           msg(17, b'\0' + cmd(b'onStatus', 0.0, NULL, obj((b'code', text(PLAY_START))))), '3 event2')
    script('reading-25-refused', *AT_CONNECTED, play('a'), '1 out20', play('b'), '1 out20', msg(17, b'\0' + cmd(b'_error', 2.0)), '1 refused4',
           msg(17, b'\0' + cmd(b'_error', 2.0)), '1 event8', msg(17, cmd(b'_result', 3.0)), '1 refused5',
           msg(17, cmd(b'_result', 3.0, NULL, num(1.0))), '1 event8')


def make():
    for group in (whole_case, spindle, mistakes, orders, streams, texts, values, session, later):
        group()
