"""Scripts for document 01's "The session's work": one or more for each of its sentences.

`card` shows of an event only which it is, so what an event holds (description, metadata, times, raw numbers) is not among them. No script reaches a
stop with no active stream: from an opening, its own two stages always have one.
"""
import bodies
from messages import FULL, NULL, bool_, cmd, ecma, num, obj, strict, text
from replay_notation import (AT_CONNECTED, ONMETA, PING, REPLY, STAGES, STOP_PLAYBACK, STOP_PUBLISHING, at, at_play_requested, at_playing,
                             at_publishing, audio, connect, control, count, error, metadata, msg, opening, play, publish, result, script, status,
                             video, window)
from replay_model import PLAY_START, PUBLISH_START

INF, NAN = float('inf'), float('nan')
MOST = 4294967295


def times():
    # "The clock is the caller's, a u32 of milliseconds; each outbound message carries it unless said": the largest clock, one that goes back, and
    # a message's own time, which is never carried
    script('clock', at(MOST, connect()), '0 out20', at(5, msg(20, cmd(b'_result', 1.0), time=99)), REPLY, at(0, play()), '1 out20',
           at(MOST, msg(20, cmd(b'_result', 2.0, NULL, num(5.0)), time=3)), '2 out4 out20#5',
           at(1, msg(4, b'\0\6\0\0\0\x63', time=7)), '2 out4:000700000063', at(2, STOP_PLAYBACK), '1 out20#5', at(MOST, window(0)), '1 none',
           at(3, count(4)), '1 out3:00000004', at(MOST, PING), '1 out4:0006ffffffff')
    # "Pictures and sound sent carry the caller's time and droppable flag", metadata the clock
    script('media-times', *at_publishing(), at(1, video(b'\x01', MOST, 1)), '5 out9@4294967295#5d:01', at(2, video(b'\x02', 0, 0)), '5 out9@0#5:02',
           at(3, audio(b'\x03', 12, 1)), '5 out8@12#5d:03', at(4, audio(b'\x04', 11, 0)), '5 out8@11#5:04',
           at(MOST, metadata('stereo=1')), '5 out18#5')


def requests():
    # "Numbers for requests start at 1 and rise by 1", over every kind; a refused request takes none
    script('numbers-rise', connect('a'), '0 out20:' + bodies.connect(1, b'a', b'WIN 23,0,0,207', None).hex(),
           connect('b'), '0 out20:' + bodies.connect(2, b'b', b'WIN 23,0,0,207', None).hex(), connect(b'\xff'), '0 refused9', result(2.0), REPLY,
           *[x for i, line in enumerate((play(), publish(), publish(kind='record'), publish(kind='append'))) for x in (line,
           '1 out20:' + bodies.command(b'createStream', 3 + i, NULL).hex())],
           connect(), '1 refused1', play('k' * 256), '1 refused9', play(), '1 out20:' + bodies.command(b'createStream', 7, NULL).hex())
    # "Connect: command `connect`, object with `app`, `flashVer`, `objectEncoding` 0, then `tcUrl` if configured"
    script('connect-body', connect('live'), '0 out20:020007636f6e6e656374003ff000000000000003' '00036170700200046c697665'
           '0008666c61736856657202000e57494e2032332c302c302c323037' '000e6f626a656374456e636f64696e67000000000000000000' '000009')
    for name, fields in (('flash', [b'LNX 9,0,124,2', 1, 2, 3]), ('url', [b'LNX 9,0,124,2', 1, 2, 3, b'rtmp://example.com/live']),
                         ('utf8', ['é日😀'.encode(), 1, 2, 3, 'rtmp://é/日'.encode()])):
        url = fields[4] if len(fields) > 4 else None
        script('connect-' + name, opening(*fields), '0 none',
               connect('日本'.encode()), '0 out20:' + bodies.connect(1, '日本'.encode(), fields[0], url).hex())
    # "Stage unchanged, so several may be open": each of three is answered, in another order
    script('connect-several', connect('a'), '0 out20', connect('b'), '0 out20', connect('c'), '0 out20', error(3.0), '0 event1', result(1.0), REPLY,
           connect('d'), '1 refused1', result(2.0), REPLY, result(2.0), '1 event8', result(3.0), '1 event8')
    # "Play, publish: at Connected only; command `createStream`, null": the key doesn't go out yet
    for i, line in enumerate((play('secret'), publish('secret', 'live'), publish('secret', 'record'), publish('secret', 'append'))):
        script('create-%d' % i, line, '0 refused2', *AT_CONNECTED, line, '1 out20:02000c63726561746553747265616d00400000000000000005')


def numbers():
    # "Reply: the number is cut to its whole part and held within 0 to 4,294,967,295; NaN gives 0"
    for name, number in (('half', 1.9), ('whole', 1.0), ('just-below-two', 1.9999999999999998), ('just-above-one', 1.0000000000000002)):
        script('reply-held-%s' % name, connect(), '0 out20', result(number), REPLY, result(number), '1 event8')
    for name, number in (('zero', 0.0), ('below-one', 0.9999999999999999), ('nan', NAN), ('negative', -1.0), ('minus-zero', -0.0),
                         ('infinite', INF), ('minus-infinite', -INF), ('over', 4294967296.0), ('over-by-one', 4294967297.0), ('two', 2.0)):
        script('reply-held-unknown-%s' % name, connect(), '0 out20', result(number), '0 event8', error(number), '0 event8', result(1.0), REPLY)
    # the same of a grant's number: "Grant: number held as above"
    for name, number, stream in (('one', 1.0, 1), ('half', 1.9, 1), ('zero', 0.0, 0), ('below-one', 0.9, 0), ('nan', NAN, 0), ('negative', -3.0, 0),
                                 ('most', 4294967295.0, MOST), ('most-half', 4294967295.5, MOST), ('over', 4294967296.0, MOST),
                                 ('infinite', INF, MOST), ('minus-infinite', -INF, 0), ('high', 2147483648.7, 2147483648)):
        script('grant-held-play-%s' % name, *AT_CONNECTED, play('k'), '1 out20',
               result(2.0, num(number)), '2 out4:0003%08x000007d0 out20#%d' % (stream, stream), msg(9, b'\1', stream), '2 event5',
               msg(9, b'\1', (stream + 1) % 2 ** 32), '2 none',
               STOP_PLAYBACK, '1 out20#%d:%s' % (stream, bodies.command(b'deleteStream', 0, NULL, num(float(stream))).hex()))
        script('grant-held-publish-%s' % name, *AT_CONNECTED, publish('k'), '1 out20', result(2.0, num(number)), '4 out20#%d' % stream,
               status(PUBLISH_START), '5 event3', video(), '5 out9@77#%d' % stream, metadata(), '5 out18#%d' % stream,
               STOP_PUBLISHING, '1 out20#%d' % stream)


def replies():
    # "No such open request: event with raw number, object and arguments": before any request, for both names, at every stage
    for stage in range(6):
        script('reply-unknown-%d' % stage, *STAGES[stage], result(9.0), '%d event8' % stage,
               error(9.0, obj((b'description', text(b'd')))), '%d event8' % stage,
               result(1.0, num(1.0)), '1 event8' if stage == 1 else '%d event8' % stage)
    # "Connect `_result`: stage Connected, active stream kept; window size, event, chunk size (time 0, uncompressed flag set)", with settings of our
    # own
    script('connect-result', opening('F', 1, 65536, 128), '0 none', connect(), '0 out20',
           at(77, result(1.0)), '1 out5@77:00010000 event0 out1@0u:00000080')
    script('connect-result-extremes', opening('F', 0, MOST, 0), '0 none', connect(), '0 out20',
           result(1.0, obj((b'code', text(b'x')))), '1 out5:ffffffff event0 out1@0u:00000000')
    # a connect's `_result` needs no argument and no object
    for name, arguments in (('bare', []), ('number', [num(5.0)]), ('null', [NULL]), ('many', [NULL, bool_(1), strict(num(1.0)), ecma()])):
        script('connect-result-%s' % name, connect(), '0 out20', result(1.0, *arguments), REPLY)
    # "Connect `_error`: event; the description is handed back as that stretch of the caller's body, or empty where the first argument is no object
    # with a text `description`": in each case the event, the request closed, the stage as it was
    for name, arguments in (('text', [obj((b'description', text(b'no')))]), ('absent', []), ('null', [NULL]), ('other', [obj((b'x', text(b'no')))]),
                            ('number', [obj((b'description', num(1.0)))]), ('ecma', [ecma((b'description', text(b'no')))]),
                            ('second', [NULL, obj((b'description', text(b'no')))]), ('long', [obj((b'description', text(b'd' * 300)))]),
                            ('array', [strict(obj((b'description', text(b'no'))))])):
        script('connect-error-%s' % name, connect(), '0 out20', error(1.0, *arguments), '0 event1', error(1.0, *arguments), '0 event8',
               connect(), '0 out20')
    # a connect's `_error` after another connect was accepted keeps stage and stream
    script('connect-error-later', connect('a'), '0 out20', connect('b'), '0 out20', result(1.0), REPLY, publish(), '1 out20',
           result(3.0, num(5.0)), '4 out20#5', status(PUBLISH_START), '5 event3', error(2.0), '5 event1', video(), '5 out9@77#5')


def grants():
    # "Play: stage PlayRequested, then SetBufferLength on stream 0, then `play` with the key on the stream", with a buffer length of our own
    script('grant-play', opening('F', 2500, 1, 2), '0 none', connect(), '0 out20', result(1.0), '1 out5:00000001 event0 out1@0u:00000002',
           play('camera 7'), '1 out20',
           result(2.0, num(9.0)), '2 out4:000300000009000009c4 out20#9:020004706c61790000000000000000000502000863616d6572612037')
    # "Publish: PublishRequested, `publish` with key and `live`, `record` or `append`"
    for kind in ('live', 'record', 'append'):
        script('grant-publish-%s' % kind, *AT_CONNECTED, publish('camera 7', kind), '1 out20',
               result(2.0, num(9.0)), '4 out20#9:0200077075626c69736800000000000000000005' '02000863616d6572612037' '02%04x%s' % (len(kind),
               kind.encode().hex()))
    # further arguments of a grant count for nothing, its object neither
    script('grant-more-arguments', *AT_CONNECTED, play(), '1 out20',
           result(2.0, num(4.0), NULL, num(8.0), thing=obj((b'a', num(3.0)))), '2 out4 out20#4')
    # grants at every stage after Connected: each takes stage and stream, without deleteStream
    for stage in range(2, 6):
        first, second = (play, publish) if stage < 4 else (publish, play)
        ask = AT_CONNECTED + [first('a'), '1 out20', second('b'), '1 out20', result(2.0, num(5.0)), '2 out4 out20#5' if stage < 4 else '4 out20#5']
        if stage in (3, 5):
            ask += [status(PLAY_START if stage == 3 else PUBLISH_START), '%d event%d' % (stage, 2 if stage == 3 else 3)]
        script('grant-second-%d' % stage, *ask, result(3.0, num(6.0)), '4 out20#6' if stage < 4 else '2 out4 out20#6',
               status(PUBLISH_START if stage < 4 else PLAY_START), '5 event3' if stage < 4 else '3 event2',
               STOP_PUBLISHING if stage < 4 else STOP_PLAYBACK, '1 out20#6')


def notices():
    # "`NetStream.Play.Start` at PlayRequested gives Playing; `NetStream.Publish.Start` at PublishRequested gives Publishing; elsewhere refusal 2";
    # the notice's own number, stream, object and further arguments count for nothing, and an ECMA array is an object
    for name, body in (('number', cmd(b'onStatus', 7.5, NULL, obj((b'code', text(PLAY_START))))),
                       ('object', cmd(b'onStatus', 0.0, obj(), obj((b'code', text(PLAY_START))))),
                       ('more', cmd(b'onStatus', 0.0, NULL, obj((b'code', text(PLAY_START))), NULL, num(1.0))),
                       ('ecma', cmd(b'onStatus', 0.0, NULL, ecma((b'code', text(PLAY_START)))))):
        script('notice-%s' % name, *at_play_requested(), msg(20, body, 8, 4), '3 event2')
    # "Another code is an event": at every stage, codes beside the two among them
    codes = [b'NetStream.Play.Reset', b'NetStream.Play.Star', b'NetStream.Play.Start ', b'netstream.play.start', b'NetStream.Publish.BadName',
             b'NetStream.Publish.Start2', b'', b'c' * 300]
    for stage in range(6):
        script('notice-other-%d' % stage, *STAGES[stage], *[x for c in codes for x in (status(c), '%d event9' % stage)])
    # a notice that comes again after a new grant
    script('notice-again', *at_playing(), STOP_PLAYBACK, '1 out20#5', status(PLAY_START), '1 refused2', play('b'), '1 out20',
           result(3.0, num(6.0)), '2 out4 out20#6', status(PUBLISH_START), '2 refused2', status(PLAY_START), '3 event2')


def stops():
    # "Stop: at its own two stages, deleteStream (0, null, stream) on the stream; Connected, no active stream. Elsewhere an empty success"
    for stage in range(6):
        delete = '1 out20#5:02000c64656c65746553747265616d000000000000000000' '05' '004014000000000000'
        none = '%d none' % stage
        script('stop-playback-%d' % stage, *STAGES[stage], STOP_PLAYBACK, delete if stage in (2, 3) else none,
               STOP_PLAYBACK, '1 none' if stage in (2, 3) else none)
        script('stop-publishing-%d' % stage, *STAGES[stage], STOP_PUBLISHING, delete if stage in (4, 5) else none,
               STOP_PUBLISHING, '1 none' if stage in (4, 5) else none)
        # no active stream after it: data on the stream gives nothing; before it, it is an event
        if stage > 1:
            script('stop-ends-stream-%d' % stage, *STAGES[stage], msg(18, ONMETA, 5), '%d event4' % stage,
                   STOP_PLAYBACK if stage < 4 else STOP_PUBLISHING, delete, msg(18, ONMETA, 5), '1 none', msg(9, b'', 5), '1 refused2')
    # a stop keeps what is open: a second createStream is answered after it
    script('stop-keeps-requests', *AT_CONNECTED, play('a'), '1 out20', publish('b'), '1 out20', result(2.0, num(5.0)), '2 out4 out20#5',
           STOP_PLAYBACK, '1 out20#5', result(3.0, num(6.0)), '4 out20#6')


def media():
    # "Picture, sound, metadata out: at Publishing, on the active stream; metadata as `@setDataFrame`, `onMetaData`, object in type 18", fields in
    # sending order whatever order they are given in
    full = ['width=1920', 'height=1080', 'videocodecid=7', 'framerate=41efc28f', 'videodatarate=2500', 'audiocodecid=10', 'audiodatarate=160',
            'audiosamplerate=48000', 'audiochannels=2', 'stereo=1', 'encoder=Lavf60.3.100']
    body = ':' + bodies.metadata(bodies.FULL).hex()
    script('metadata-out', *at_publishing(), metadata(*full), '5 out18#5' + body, metadata(*full[::-1]), '5 out18#5' + body,
           metadata(), '5 out18#5:02000d40736574446174614672616d65' '02000a6f6e4d65746144617461' '03000009')
    for i, field in enumerate(full):
        values = [v if i == j else None for j, v in enumerate(bodies.FULL)]
        script('metadata-out-%s' % bodies.NAMES[i], *at_publishing(), metadata(field), '5 out18#5:' + bodies.metadata(values).hex(),
               metadata(*full[:i], *full[i + 1:]), '5 out18#5:' + bodies.metadata([None if i == j else v for j, v in enumerate(bodies.FULL)]).hex())
    # whole fields at their ends; stereo false
    numbers = [0, MOST, 1, None, 2147483648, MOST, 0, 65535, 65536, False, b'']
    script('metadata-out-ends', *at_publishing(),
           metadata(*['%s=%s' % (n, v.decode() if isinstance(v, bytes) else int(v)) for n, v in zip(bodies.NAMES, numbers) if v is not None]),
           '5 out18#5:' + bodies.metadata(numbers).hex())
    # "Sending widens without loss, a NaN to 7ff8000000000000"
    rows = [x for p in bodies.SINGLES for x in (metadata('framerate=%08x' % p), '5 out18#5:' + bodies.metadata([None] * 3 + [p] + [None] * 7).hex())]
    script('metadata-out-rates', *at_publishing(), *rows)
    script('media-out-bodies', *at_publishing(), video(bytes(range(256)), 1), '5 out9@1#5:' + bytes(range(256)).hex(), audio(b'', 2), '5 out8@2#5:',
           video(b'\0', 3), '5 out9@3#5:00', audio(b'\xff' * 500, 4, 1), '5 out8@4#5d:' + 'ff' * 500)


def media_in():
    # "Picture, sound in: another stream gives nothing": stream 0 among them
    script('media-in', *at_play_requested(), msg(9, b'\x17', 5), '2 event5', msg(8, b'\xaf', 5, MOST), '2 event6', msg(9, b'', 5), '2 event5',
           msg(9, b'\x17', 0), '2 none', msg(8, b'\x17', 4294967295), '2 none', status(PLAY_START), '3 event2', msg(9, b'\x17', 5), '3 event5',
           msg(8, b'\xaf', 6), '3 none')
    # "Data in: nothing unless on the active stream, first value `onMetaData`, second an object"
    rows = [(FULL, 'event4'), (text(b'onMetaData') + obj(), 'event4'), (text(b'onMetaData') + ecma((b'width', num(1.0))), 'event4'),
            (ONMETA + NULL, 'event4'), (text(b'onMetaData'), 'none'), (text(b'onMetaData') + NULL, 'none'),
            (text(b'onMetaData') + NULL + obj(), 'none'), (text(b'onMetaData') + strict(obj()), 'none'), (obj(), 'none'),
            (text(b'onMetadata') + obj(), 'none'), (text(b'@setDataFrame') + ONMETA, 'none'), (NULL + obj(), 'none'),
            (text(b'onMetaData2') + obj(), 'none'), (text(b'onMetaDat') + obj(), 'none')]
    script('data-in', *at_playing(), *[x for b, g in rows for x in (msg(18, b, 5), '3 ' + g, msg(15, b, 5), '3 ' + g, msg(18, b, 6), '3 none')])
    for stage in range(6):
        script('data-in-%d' % stage, *STAGES[stage], msg(18, ONMETA, 5), '%d %s' % (stage, 'event4' if stage > 1 else 'none'),
               msg(15, ONMETA, 0), '%d none' % stage)


def control_messages():
    # "Ping: ours (event 6) carries the clock and returns it; the peer's gets event 7 with its time; a response is an event. Acknowledgement is an
    # event. Type 5 sets the window, type 1 the peer's chunk size. Types 2, 6 and unknown ones are reported unhandled": at every stage. Other events
    # of type 4 give nothing
    for stage in range(6):
        rows = [(at(4660, PING), 'out4:000600001234'), (control(6, 7), 'out4:000700000007'), (control(6, MOST), 'out4:0007ffffffff'),
                (control(7, 9), 'event11'), (msg(3, b'\0\0\0\x09'), 'event10'), (msg(2, b'\0\0\0\x03'), 'unhandled2'),
                (msg(6, b'\0\0\0\x03\2'), 'unhandled6'), (window(2500000), 'none'), (msg(1, b'\0\0\x10\0'), 'none'),
                (msg(22, b'\1'), 'unhandled22')]
        rows += [(control(e, 1), 'none') for e in (0, 1, 2, 4)] + [(control(3, 1, 2000), 'none')]
        script('control-%d' % stage, *STAGES[stage], *[x for line, g in rows for x in (line, '%d %s' % (stage, g))])
    # every type but those with a layout is unhandled, whatever its body
    known = (1, 2, 3, 4, 5, 6, 8, 9, 15, 17, 18, 20)
    rest = [t for t in range(256) if t not in known]
    script('unknown-types', *[x for t in rest for x in (msg(t, b'' if t % 2 else b'\x04'), '0 unhandled%d' % t)])
    # a command of another name is an event: RTMP's own, and names beside the three
    names = [b'connect', b'onBWDone', b'close', b'', b'_result ', b'_Result', b'_resul', b'_errors', b'onStatus2', b'onstatus', b'n' * 300]
    for stage in (0, 1, 3, 5):
        script('command-other-%d' % stage, *STAGES[stage], *[x for n in names for x in (msg(20, cmd(n, 1.0, NULL, num(7.0))), '%d event7' % stage)])


def counts():
    # "Once a window is set they also enter a pending count; when pending reaches the window, an Acknowledgement of pending goes out and pending is 0"
    script('bytes', count(1000), '0 none', window(10), '0 none', count(9), '0 none', count(1), '0 out3:0000000a', count(10), '0 out3:0000000a',
           count(11), '0 out3:0000000b', count(9), '0 none', count(0), '0 none', count(2), '0 out3:0000000b', count(0), '0 none')
    # "Window 0 acknowledges a count of 0"
    script('bytes-window-0', window(0), '0 none', count(0), '0 out3:00000000', count(7), '0 out3:00000007', count(MOST), '0 out3:ffffffff',
           count(0), '0 out3:00000000')
    # "Past 4,294,967,295, the low 32 bits of the sum are sent"
    script('bytes-past-32-bits', window(MOST), '0 none', count(MOST), '0 out3:ffffffff', count(4294967294), '0 none',
           count(MOST), '0 out3:fffffffd', count(4294967294), '0 none', count(2), '0 out3:00000000', count(1), '0 none')
    # at every stage, and the messages between them count for nothing
    for stage in range(6):
        script('bytes-%d' % stage, *STAGES[stage], window(100), '%d none' % stage, count(60), '%d none' % stage,
               msg(3, b'\0\0\0\1'), '%d event10' % stage, control(6, 1), '%d out4' % stage, count(40), '%d out3:00000064' % stage)
    # a window is set by type 5 alone: our own window size, which goes out with a connect's reply, is none
    script('bytes-own-window', *AT_CONNECTED, count(2500000), '1 none', count(MOST), '1 none')
    # "the numbers of all acknowledgements plus pending equal the bytes counted since the first window": 1200 and 999 are 2199,
    # pending shown by window 0
    script('bytes-sum', count(77), '0 none', window(1000), '0 none', count(300), '0 none', count(300), '0 none', count(300), '0 none',
           count(300), '0 out3:000004b0', count(999), '0 none', window(0), '0 none', count(0), '0 out3:000003e7', count(0), '0 out3:00000000')
    # "All counts enter a u64 total that wraps": nothing that a script shows; many large counts run on
    script('bytes-many', *[x for _ in range(20) for x in (count(MOST), '0 none')], window(5), '0 none', count(4), '0 none',
           count(1), '0 out3:00000005')


def make():
    for group in (times, requests, numbers, replies, grants, notices, stops, media, media_in, control_messages, counts):
        group()
