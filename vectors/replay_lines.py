"""Scripts for the lines of the program `card`: document 01's description of it and readings 26 and 27."""
import bodies
from messages import NULL, cmd, num
from replay_notation import (AT_CONNECTED, PING, REPLY, RESTORE, STOP_PLAYBACK, STOP_PUBLISHING, at, at_playing, at_publishing, audio, connect, count,
    metadata, msg, opening,
                             play, publish, raw, result, script, space, video, window)


def readable():
    # "opens a default session": the default settings of config.rs, seen in what goes out
    script('line-default', connect('a'), '0 out20:' + bodies.connect(1, b'a', b'WIN 23,0,0,207', None).hex(),
           result(1.0), '1 out5:002625a0 event0 out1@0u:00001000', play('k'), '1 out20',
           result(2.0, num(1.0)), '2 out4:000300000001000007d0 out20#1')
    # reading 26: "Output hexadecimal is lower case; input takes both cases"
    script('line-cases', raw(b'1\tmsg\t4\t0\t0\t00060000ABCD'), '0 out4@1:00070000abcd',
           raw(b'2\tmsg\t4\t0\t0\t0006aBcDeFfF'), '0 out4@2:0007abcdefff', *at_publishing(),
           raw(b'3\tvideo\t1\t0\tDEADbeef'), '5 out9@1#5:deadbeef',
           raw(b'4\tmetadata\tframerate=41EFC28F'), '5 out18@4#5:' + bodies.metadata([None] * 3 + [0x41efc28f] + [None] * 7).hex())
    # "a carriage return before it is dropped": of a number, a text and an empty body
    script('line-carriage-return', raw(b'0\tmsg\t5\t0\t0\t00000004\r'), '0 none', raw(b'7\tbytes\t4\r'), '0 out3@7:00000004',
           raw(b'8\tconnect\tlive\r'), '0 out20@8:' + bodies.connect(1, b'live', b'WIN 23,0,0,207', None).hex(),
           raw(b'9\tmsg\t18\t0\t0\t\r'), '0 none', raw(b'9\tping\r'), '0 out4@9:000600000009', raw(b'\r'), '', raw(b'9\topen\r'), '0 none')
    # "an empty line is passed over and counted"
    script('line-empty', raw(b''), '', count(1), '0 none', raw(b''), '', raw(b''), '', count(2), '0 none', raw(b''), '')
    # a text is what stands between the tabs: with blanks, an equals sign, a carriage return and a zero in it
    texts = [b' ', b' a b ', b'a=b', b'a\rb', b'a\0b', b'"a"', b'\\t', '\u2028é'.encode()]
    script('line-texts',
           *[x for i, t in enumerate(texts) for x in (connect(t), '0 out20:' + bodies.connect(1 + i, t, b'WIN 23,0,0,207', None).hex())])


def verbs():
    # reading 27: every verb
    script('line-verbs', *AT_CONNECTED, publish('k', 'append'), '1 out20', result(2.0, num(4.0)), '4 out20#4',
           msg(20, cmd(b'onStatus', 0.0, NULL, b'\x03\0\4code\2\0\x17NetStream.Publish.Start\0\0\x09')), '5 event3',
           at(9, video(b'\1\2', 5, 1)), '5 out9@5#4d:0102', at(9, audio(b'', 6, 0)), '5 out8@6#4:',
           at(9, metadata('height=2', 'stereo=0')), '5 out18#4:' + bodies.metadata([None, 2] + [None] * 7 + [False, None]).hex(),
           at(9, PING), '5 out4:000600000009', STOP_PLAYBACK, '5 none', STOP_PUBLISHING, '1 out20#4', space(0), '', PING, '1 refused12', *RESTORE,
           opening(), '0 none')
    # an encoder's text may have an equals sign and blanks
    script('line-encoder', *at_publishing(), metadata('encoder=a=b c'), '5 out18#5:' + bodies.metadata([None] * 10 + [b'a=b c']).hex(),
           metadata('encoder='), '5 out18#5:' + bodies.metadata([None] * 10 + [b'']).hex())
    # "`open` with no field, or with ...: a new session, which writes `none`, or `refused` with its number and the old session stays"
    script('line-open', *at_playing(), window(10), '3 none', count(9), '3 none', opening('F', 1, 2, 2147483648), '3 refused7',
           count(1), '3 out3:0000000a', opening(b'\xff', 1, 2, 3), '3 refused9', msg(9, b'', 5), '3 event5', opening(), '0 none',
           count(100), '0 none', connect('a'), '0 out20:' + bodies.connect(1, b'a', b'WIN 23,0,0,207', None).hex(),
           opening('F', 1, 2, 3, 'u'), '0 none', result(1.0), '0 event8', connect('a'), '0 out20:' + bodies.connect(1, b'a', b'F', b'u').hex(),
           result(1.0), '1 out5:00000002 event0 out1@0u:00000003', opening(), '0 none',
           connect('a'), '0 out20:' + bodies.connect(1, b'a', b'WIN 23,0,0,207', None).hex(), result(1.0), REPLY)
    # a line's number counts every line, what a result writes stands in turn
    script('line-numbers', raw(b''), '', connect(), '0 out20', space(4096), '', result(1.0), REPLY)


WRONG = {
    'verb': [b'0', b'0\t', b'0\tjump', b'0\tConnect\ta', b'0\tconnects\ta', b'0\tmessage\t5\t0\t0\t00000004', b'bytes\t5', b'\tbytes\t5',
    b'0 bytes 5'],
    'missing': [b'0\tbytes', b'0\tconnect', b'0\tplay', b'0\tpublish', b'0\tpublish\tkey', b'0\tmsg', b'0\tmsg\t5', b'0\tmsg\t5\t0',
    b'0\tmsg\t5\t0\t0', b'0\tvideo\t1\t0', b'0\taudio\t1', b'0\tspace',
                b'0\topen\tF', b'0\topen\tF\t1', b'0\topen\tF\t1\t2', b'0\topen\t'],
    'extra': [b'0\tbytes\t1\t2', b'0\tbytes\t1\t', b'0\tconnect\ta\tb', b'0\tplay\tk\t', b'0\tpublish\tk\tlive\tx', b'0\tmsg\t5\t0\t0\t00000004\t',
    b'0\tping\t', b'0\tping\t1', b'0\tstop_playback\tx',
              b'0\tstop_publishing\t', b'0\tvideo\t1\t0\t00\t00', b'0\tspace\t1\t2', b'0\topen\tF\t1\t2\t3\tu\tx'],
    'number': [b'4294967296\tping', b'-1\tping', b'x\tping', b'1.5\tping', b'0\tbytes\t4294967296', b'0\tbytes\t', b'0\tbytes\t-1', b'0\tbytes\t0x10',
    b'0\tbytes\t18446744073709551617',
               b'0\tbytes\t340282366920938463463374607431768211457', b'0\tmsg\t256\t0\t0\t00', b'0\tmsg\t-1\t0\t0\t00',
               b'0\tmsg\t9\t4294967296\t0\t00', b'0\tmsg\t9\t0\t4294967296\t00', b'0\tvideo\t4294967296\t0\t00',
               b'0\tvideo\t1\t2\t00', b'0\taudio\t1\t\t00', b'0\topen\tF\t4294967296\t2\t3', b'0\topen\tF\t1\t4294967296\t3',
               b'0\topen\tF\t1\t2\t4294967296', b'0\topen\tF\tx\t2\t3', b'0\tspace\t-1', b'0\tspace\tx'],
    'hexadecimal': [b'0\tmsg\t5\t0\t0\t0000000', b'0\tmsg\t5\t0\t0\t0000000g', b'0\tmsg\t5\t0\t0\t0x000004', b'0\tmsg\t5\t0\t0\t 0000004',
    b'0\tmsg\t5\t0\t0\t0000 0004', b'0\tvideo\t1\t0\tf', b'0\taudio\t1\t0\tzz'],
    'kind': [b'0\tpublish\tk\tLive', b'0\tpublish\tk\tdefault', b'0\tpublish\tk\t', b'0\tpublish\tlive\tk'],
    'metadata': [b'0\tmetadata\twidth', b'0\tmetadata\tWidth=1', b'0\tmetadata\tbitrate=1', b'0\tmetadata\twidth=4294967296', b'0\tmetadata\twidth=',
    b'0\tmetadata\twidth=-1', b'0\tmetadata\tframerate=41efc28',
                 b'0\tmetadata\tframerate=41efc28f0', b'0\tmetadata\tframerate=29.97', b'0\tmetadata\tframerate=41efc28g', b'0\tmetadata\tstereo=2',
                 b'0\tmetadata\tstereo=true', b'0\tmetadata\t=1', b'0\tmetadata\t'],
}


def unreadable():
    # reading 26: "A line that can't be read gets a clear message with its line number on standard error, changes nothing, and the next line goes on":
    # nothing on standard output; afterwards stage, stream, numbers, pending and the space are as they were
    for name, lines in WRONG.items():
        script('unreadable-%s' % name, window(10), '0 none', count(9), '0 none', *at_publishing(), *[x for line in lines for x in (raw(line), '')],
               count(0), '5 none', count(1), '5 out3:0000000a', video(), '5 out9@77#5', metadata(), '5 out18#5', STOP_PUBLISHING, '1 out20#5',
               play('k'), '1 out20:' + bodies.command(b'createStream', 3, NULL).hex())
    # at Disconnected and at Connected, where requests and openings could do something
    for name in ('verb', 'missing', 'extra', 'number', 'kind'):
        script('unreadable-%s-connected' % name, *AT_CONNECTED, *[x for line in WRONG[name] for x in (raw(line), '')],
               play('k'), '1 out20:' + bodies.command(b'createStream', 2, NULL).hex(), opening(), '0 none',
               *[x for line in WRONG[name] for x in (raw(line), '')],
               connect('a'), '0 out20:' + bodies.connect(1, b'a', b'WIN 23,0,0,207', None).hex())


def last():
    # "A line ends in a newline or the end of the input": the last script of all, without a newline at its end
    script('without-newline', window(3), '0 none', count(2), '0 none', at(8, count(1)), '0 out3:00000003', end=b'')
