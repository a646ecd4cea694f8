"""Scripts for document 01's "Turned-away calls": each number of its table that a script can reach, and the sentences under the table.

No script reaches 3, 11 and 13: from an opening, Publishing always has an active stream; four thousand million requests are too many lines; and
`card` hands every call the session that the last one handed back. A body over 16,777,215 bytes (9) is longer than a line can be.
"""
from messages import NULL, UNDEFINED, bool_, cmd, ecma, num, obj, strict, text
from replay_notation import (AT_CONNECTED, ONMETA, PING, REPLY, RESTORE, STAGES, STOP_PLAYBACK, STOP_PUBLISHING, at_play_requested, at_playing,
                             at_publish_requested, at_publishing, audio, connect, control, count, error, metadata, msg, opening, play, publish,
                             result, script, space, status, video, window)
from replay_model import PLAY_START, PUBLISH_START

LONG, BROKEN = b'k' * 256, b'key\xff'


def by_stage():
    # "1 connected: connect asked at a stage other than Disconnected", and at Disconnected it is sent; an app that refusal 9 would meet is 1 too
    for stage in range(6):
        gives = '0 out20' if stage == 0 else '%d refused1' % stage
        script('refusal-01-stage-%d' % stage, *STAGES[stage], connect('a'), gives, connect(LONG), '0 refused9' if stage == 0 else gives)
    # "2 stage: the call or message isn't allowed at this stage": play and publish at Connected only
    for stage in range(6):
        gives = '1 out20' if stage == 1 else '%d refused2' % stage
        script('refusal-02-requests-%d' % stage, *STAGES[stage], play('a'), gives, publish('b', 'live'), gives, publish('c', 'record'), gives,
               publish('d', 'append'), gives)
    # the same of picture, sound and metadata out: at Publishing, and with empty contents too
    for stage in range(6):
        sent = ['5 out9@77#5:1701', '5 out8@78#5:af01', '5 out9@9#5:', '5 out18#5', '5 out18#5']
        gives = sent if stage == 5 else ['%d refused2' % stage] * 5
        script('refusal-02-media-out-%d' % stage, *STAGES[stage], video(), gives[0], audio(), gives[1], video(b'', 9), gives[2],
               metadata(), gives[3], metadata('width=640'), gives[4])
    # the same of picture and sound in: "refusal 2 unless PlayRequested or Playing", whatever stream they are on
    for stage in range(6):
        gives = ['%d %s' % (stage, g) for g in (('event5', 'event6', 'none', 'none') if stage in (2, 3) else ['refused2'] * 4)]
        script('refusal-02-media-in-%d' % stage, *STAGES[stage], msg(9, b'\x17', 5), gives[0], msg(8, b'\xaf', 5), gives[1],
               msg(9, b'\x17', 6), gives[2], msg(8, b'', 0), gives[3])
    # the same of Start notices: each at its own requested stage; once it has come, a second one is refused
    for stage in range(6):
        first = {2: '3 event2'}.get(stage, '%d refused2' % stage)
        script('refusal-02-play-start-%d' % stage, *STAGES[stage], status(PLAY_START), first, status(PLAY_START), first[0] + ' refused2')
        first = {4: '5 event3'}.get(stage, '%d refused2' % stage)
        script('refusal-02-publish-start-%d' % stage, *STAGES[stage], status(PUBLISH_START), first, status(PUBLISH_START), first[0] + ' refused2')


def replies():
    # "4 not created: `_error` to an open createStream", whatever it says; 4 closes the request, so a second reply is unknown
    for name, arguments in (('bare', []), ('object', [obj((b'description', text(b'no')))]), ('number', [num(7.0)])):
        script('refusal-04-%s' % name, *AT_CONNECTED, play(), '1 out20', publish(), '1 out20', error(2.0, *arguments), '1 refused4',
               error(2.0, *arguments), '1 event8', result(2.0, num(7.0)), '1 event8', result(3.0, num(7.0)), '4 out20#7')
    # "5 no number: `_result` to an open createStream, first argument absent or no Number"; 5 closes the request
    others = {'absent': [], 'null': [NULL], 'undefined': [UNDEFINED], 'boolean': [bool_(1)], 'text': [text(b'7')],
              'object': [obj((b'id', num(7.0)))], 'ecma': [ecma((b'id', num(7.0)))], 'array': [strict(num(7.0))], 'second': [NULL, num(7.0)]}
    for name, arguments in others.items():
        script('refusal-05-%s' % name, *AT_CONNECTED, publish(), '1 out20', result(2.0, *arguments), '1 refused5',
               result(2.0, num(7.0)), '1 event8')
    # the command object is no argument: a Number there is no stream number
    script('refusal-05-number-as-object', *AT_CONNECTED, play(), '1 out20', result(2.0, thing=num(7.0)), '1 refused5')
    # 4 and 5 keep the stage, here while Playing and while Publishing
    script('refusal-04-playing', *AT_CONNECTED, play('a'), '1 out20', play('b'), '1 out20', result(2.0, num(5.0)), '2 out4 out20#5',
           status(PLAY_START), '3 event2', error(3.0), '3 refused4', error(3.0), '3 event8', msg(9, b'\x17', 5), '3 event5')
    script('refusal-05-publishing', *AT_CONNECTED, publish('a'), '1 out20', publish('b'), '1 out20', result(2.0, num(5.0)), '4 out20#5',
           status(PUBLISH_START), '5 event3', result(3.0, NULL), '5 refused5', result(3.0, num(6.0)), '5 event8', video(), '5 out9@77#5')
    # "6 bad notice: onStatus without a first argument that is an object with a text `code`", at every stage
    bad = [cmd(b'onStatus', 0.0), cmd(b'onStatus', 0.0, obj((b'code', text(PLAY_START)))), cmd(b'onStatus', 0.0, NULL, NULL),
           cmd(b'onStatus', 0.0, NULL, text(PLAY_START)), cmd(b'onStatus', 0.0, NULL, obj()), cmd(b'onStatus', 0.0, NULL, obj((b'code', NULL))),
           cmd(b'onStatus', 0.0, NULL, obj((b'code', num(1.0)))), cmd(b'onStatus', 0.0, NULL, obj((b'Code', text(PLAY_START)))),
           cmd(b'onStatus', 0.0, NULL, strict(obj((b'code', text(PLAY_START))))),
           cmd(b'onStatus', 0.0, NULL, obj((b'info', obj((b'code', text(PLAY_START)))))),
           cmd(b'onStatus', 0.0, NULL, NULL, obj((b'code', text(PLAY_START))))]
    for stage in range(6):
        script('refusal-06-stage-%d' % stage, *STAGES[stage], *[x for b in bad for x in (msg(20, b), '%d refused6' % stage)])


def sizes():
    # "7 chunk size: above 2,147,483,647: our own at opening": the old session stays, here one that is Connected
    for name, chunk, gives in (('most', 2147483647, '0 none'), ('over', 2147483648, '1 refused7'), ('far', 4294967295, '1 refused7')):
        script('refusal-07-ours-%s' % name, *AT_CONNECTED, opening('F', 1, 2, chunk), gives,
               connect(), gives[0] + (' out20' if gives[0] == '0' else ' refused1'))
    # the chunk size of 2,147,483,647 goes out
    script('refusal-07-ours-sent', opening('F', 1, 2, 2147483647), '0 none', connect(), '0 out20',
           result(1.0), '1 out5:00000002 event0 out1@0u:7fffffff')
    # "or the peer's", at every stage
    for stage in range(6):
        script('refusal-07-peer-%d' % stage, *STAGES[stage], msg(1, b'\x7f\xff\xff\xff'), '%d none' % stage,
               msg(1, b'\x80\0\0\0'), '%d refused7' % stage, msg(1, b'\xff\xff\xff\xff'), '%d refused7' % stage)


def texts():
    # "9 length: a caller's text over 255 bytes or not UTF-8"; the refused request takes no number
    for name, call, rows, stage in (('connect', connect, [], 0), ('play', play, AT_CONNECTED, 1), ('publish', publish, AT_CONNECTED, 1)):
        bad = '%d refused9' % stage
        script('refusal-09-%s' % name, *rows, call(LONG), bad, call(BROKEN), bad, call(b'\xc3\xa9' * 128), bad, call(b'\xc0\x80'), bad,
               call(b'\xed\xa0\x80'), bad, call(b'\xf4\x90\x80\x80'), bad, call(b'k' * 254 + b'\xc3'), bad, call(b'k' * 255), '%d out20' % stage,
               call(b'\xc3\xa9' * 127 + b'k'), '%d out20' % stage, call(b''), '%d out20' % stage,
               error(1.0), '0 event1' if stage == 0 else '1 event8',
               result(2.0, num(3.0)), REPLY if stage == 0 else '2 out4:0003%08x000007d0 out20#3' % 3 if name == 'play' else '4 out20#3')
    # the encoder is a caller's text
    script('refusal-09-encoder', *at_publishing(), metadata(b'encoder=' + LONG), '5 refused9', metadata(b'encoder=a\x80'), '5 refused9',
           metadata('width=1', b'encoder=' + b'e' * 255), '5 out18#5', metadata('encoder='), '5 out18#5')
    # so are flash version and tcUrl: opening refuses them, and the old session stays
    for name, fields in (('flash', [LONG, 1, 2, 3]), ('flash-broken', [BROKEN, 1, 2, 3]), ('url', ['F', 1, 2, 3, LONG]),
                         ('url-broken', ['F', 1, 2, 3, BROKEN])):
        script('refusal-09-open-%s' % name, *at_playing(), opening(*fields), '3 refused9', msg(9, b'\x17', 5), '3 event5')
    script('refusal-09-open-255', opening(b'f' * 255, 1, 2, 3, b'u' * 255), '0 none', connect(b'a' * 255), '0 out20')


def eight():
    # "10 eight open: a new number is asked for and 8 requests are open already"; one closed, and the place serves again
    for close, gives in ((result(3.0), REPLY), (error(3.0), '0 event1')):
        more = [connect('ninth'), '0 out20', connect('tenth'), '0 refused10'] if gives[0] == '0' else [play('ninth'), '1 out20', play('tenth'),
            '1 refused10']
        script('refusal-10-connects-%s' % ('result' if gives[0] == '1' else 'error'),
               *[x for i in range(8) for x in (connect('app %d' % i), '0 out20')], connect('one more'), '0 refused10', close, gives, *more)
    streams = [play('a'), publish('b', 'live'), publish('c', 'record'), publish('d', 'append'), play('e'), publish('f'), play('g'),
               publish('h', 'record')]
    filled = AT_CONNECTED + [x for s in streams for x in (s, '1 out20')] + [play('i'), '1 refused10', publish('j', 'append'), '1 refused10']
    # a grant, refusal 4 and refusal 5 free a place, an unknown reply doesn't; the next number is 10, since the refused ones took none
    script('refusal-10-streams', *filled, result(10.0, num(1.0)), '1 event8', play('k'), '1 refused10', error(2.0), '1 refused4',
           play('k'), '1 out20', play('l'), '1 refused10', result(4.0), '1 refused5', play('l'), '1 out20',
           result(10.0, num(77.0)), '2 out4 out20#77', STOP_PLAYBACK, '1 out20#77', publish('m'), '1 out20', publish('n'), '1 refused10')
    # open connects count with the streams
    script('refusal-10-both-kinds', *[x for i in range(5) for x in (connect('app %d' % i), '0 out20')], result(3.0), REPLY,
           *[x for i in range(4) for x in (play('key %d' % i), '1 out20')], publish('ninth'), '1 refused10', error(1.0), '1 event1',
           publish('ninth'), '1 out20')


def short(name, stage, rows, line, need, gives, *after):
    """No space and a byte short, at the stage before; then exactly enough."""
    refused = '%d refused12' % stage
    script('refusal-12-%s' % name, *rows, space(0), '', line, refused, space(need - 1), '', line, refused, space(need), '', line, gives, *after,
           *RESTORE)


def lent():
    # "12 space: the lent output is shorter than all bodies of this outcome together": for every call and message that sends; it undoes
    # everything, the number given, the stop, the closing of a request and the count of bytes included
    short('connect', 0, [], connect('live'), 87, '0 out20', result(1.0), REPLY)
    short('play', 1, AT_CONNECTED, play('a long key that takes no space yet'), 25, '1 out20:02000c63726561746553747265616d00400000000000000005')
    short('publish', 1, AT_CONNECTED, publish('key'), 25, '1 out20')
    short('stop-playback-2', 2, at_play_requested(), STOP_PLAYBACK, 34, '1 out20#5', STOP_PLAYBACK, '1 none')
    short('stop-playback-3', 3, at_playing(), STOP_PLAYBACK, 34, '1 out20#5', STOP_PLAYBACK, '1 none')
    short('stop-publishing-4', 4, at_publish_requested(), STOP_PUBLISHING, 34, '1 out20#5', STOP_PUBLISHING, '1 none')
    short('stop-publishing-5', 5, at_publishing(), STOP_PUBLISHING, 34, '1 out20#5', video(), '1 refused2')
    short('ping', 0, [], PING, 6, '0 out4')
    short('peer-ping', 0, [], control(6, 7), 6, '0 out4:000700000007')
    short('video', 5, at_publishing(), video(b'\x17\x01\x02'), 3, '5 out9@77#5:170102')
    short('audio', 5, at_publishing(), audio(b'\xaf\x01\x02', droppable=1), 3, '5 out8@78#5d:af0102')
    short('metadata', 5, at_publishing(), metadata('width=640', 'encoder=obs'), 16 + 13 + 1 + 7 + 9 + 9 + 6 + 3, '5 out18#5')
    short('connect-reply', 0, [connect(), '0 out20'], result(1.0), 8, REPLY, result(1.0), '1 event8')
    short('play-grant', 1, AT_CONNECTED + [play(), '1 out20'], result(2.0, num(5.0)), 10 + 7 + 9 + 1 + 6, '2 out4:000300000005000007d0 out20#5',
          result(2.0, num(5.0)), '2 event8')
    short('publish-grant', 1, AT_CONNECTED + [publish(), '1 out20'], result(2.0, num(5.0)), 10 + 9 + 1 + 6 + 7, '4 out20#5',
          result(2.0, num(5.0)), '4 event8')
    # a count whose acknowledgement has no space isn't counted: 9 and then 6 are 15, and not 21
    script('refusal-12-bytes', window(10), '0 none', count(9), '0 none', space(3), '', count(6), '0 refused12', space(4), '',
           count(6), '0 out3:0000000f', space(3), '', count(9), '0 none', count(1), '0 refused12', space(4), '', count(0), '0 none',
           count(1), '0 out3:0000000a', *RESTORE)
    # what sends nothing needs no space; a picture without bytes neither
    script('refusal-12-nothing-to-send', *at_publishing(), space(0), '', video(b'', 3, 1), '5 out9@3#5d:', msg(18, ONMETA, 5), '5 event4',
           status(b'x'), '5 event9', msg(3, b'\0\0\0\1'), '5 event10', msg(2, b'\0\0\0\1'), '5 unhandled2', count(5), '5 none',
           STOP_PLAYBACK, '5 none', window(9), '5 none', control(7, 1), '5 event11', *RESTORE)


def orders():
    # "Caller's order: 13; 1 or 2; 3; 9; 7; 11; 10; 12": every set of conditions that a script can bring about, the first of the order is given
    for text_, full, little in [(a, b, c) for a in (0, 1) for b in (0, 1) for c in (0, 1)]:
        gives = 'refused9' if text_ else 'refused10' if full else 'refused12' if little else 'out20'
        name = ''.join(w for w, on in (('-text', text_), ('-eight', full), ('-space', little)) if on) or '-none'
        many = [x for i in range(8 if full else 2) for x in (connect('app'), '0 out20')]
        lack = [space(24), ''] if little else []
        script('order-connect' + name, *many, *lack, connect(LONG if text_ else 'app'), '0 ' + gives, *RESTORE)
        many = AT_CONNECTED + [x for i in range(8 if full else 2) for x in (play('key'), '1 out20')]
        script('order-play' + name, *many, *lack, play(LONG if text_ else 'key'), '1 ' + gives,
               publish(BROKEN if text_ else 'key'), '1 ' + ('refused10' if gives == 'refused10' else gives), *RESTORE)
        # at another stage it is 1 or 2, whatever else holds
        many = [x for i in range(9 if full else 2) for x in (connect('app'), '0 out20' if i < 8 else '0 refused10')]
        script('order-stage' + name, *many, *lack, play(LONG if text_ else 'key'), '0 refused2',
               metadata(b'encoder=' + (LONG if text_ else b'e')), '0 refused2', video(b'x' * 30), '0 refused2', *RESTORE)
    script('order-metadata', *at_publishing(), space(0), '', metadata(b'encoder=' + LONG), '5 refused9', metadata('encoder=e'), '5 refused12',
           *RESTORE)
    # "Message order: 13; 9; 8; then 2, 4, 5, 6 or 7; then 12": with no space at all
    script('order-message', *AT_CONNECTED, play('a'), '1 out20', play('b'), '1 out20', play('c'), '1 out20', space(0), '',
           msg(9, b'\x17'), '1 refused2', status(PLAY_START), '1 refused2', error(2.0), '1 refused4', result(3.0, NULL), '1 refused5',
           msg(20, cmd(b'onStatus', 0.0)), '1 refused6', msg(1, b'\xff\0\0\0'), '1 refused7', result(4.0, num(1.0)), '1 refused12',
           msg(20, cmd(b'_result', 4.0, NULL, num(1.0)) + b'\x04'), '1 refused8', *RESTORE, error(2.0), '1 event8',
           result(3.0, num(1.0)), '1 event8', result(4.0, num(1.0)), '2 out4 out20#1')
    # opening: 9 before 7
    script('order-open', opening(LONG, 1, 2, 4294967295), '0 refused9', opening('F', 1, 2, 4294967295, BROKEN), '0 refused9',
           opening('F', 1, 2, 4294967295), '0 refused7')


def kept():
    # "A refusal writes no output byte and keeps the session": after refusals of every kind the requests, stage and pending are as they were
    script('refusal-keeps', *at_playing(), window(10), '3 none', count(4), '3 none', connect(), '3 refused1', play(), '3 refused2',
           video(), '3 refused2', status(PUBLISH_START), '3 refused2', msg(20, cmd(b'onStatus', 0.0)), '3 refused6',
           msg(1, b'\xff\0\0\0'), '3 refused7', msg(5, b'\0\0\0'), '3 refused8', msg(20, b''), '3 refused8', space(0), '',
           STOP_PLAYBACK, '3 refused12', count(6), '3 refused12', *RESTORE, msg(9, b'', 5), '3 event5', count(6), '3 out3:0000000a',
           STOP_PLAYBACK, '1 out20#5')
    # "Closing a request frees its place for use again": a hundred times
    script('place-used-again', *AT_CONNECTED, *[x for i in range(50) for x in (play('k%d' % i), '1 out20', error(2.0 + i), '1 refused4')],
           play('last'), '1 out20', result(52.0, num(9.0)), '2 out4 out20#9')
    # "Success writes its bodies one after the other from output byte 0": exactly as long as both
    script('two-bodies-exactly', opening('F', 7, 8, 9), '0 none', connect('a'), '0 out20', space(8), '',
           result(1.0), '1 out5:00000008 event0 out1@0u:00000009', space(25), '', play('key'), '1 out20', space(33), '',
           result(2.0, num(1.0)), '2 out4:00030000000100000007 out20#1:020004706c617900000000000000000005' '0200036b6579', *RESTORE)


def make():
    for group in (by_stage, replies, sizes, texts, eight, lent, orders, kept):
        group()
