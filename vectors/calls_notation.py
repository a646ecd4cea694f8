"""How calls.py writes a case down, its line of input and its line of output; and the calls, requests and records that its cases share.

The head of calls.py says how these lines are read. What a call gives comes from calls_model.py.
"""
import copy

from calls_model import (CONNECTED, DISCONNECTED, KINDS, U32, Record, Refused, Text, c_bytes, c_connect, c_media, c_metadata, c_ping, c_play, c_publish,
                         c_stop_playback, c_stop_publishing, opening, step)

given, expected = [], []


class Case:
    def __init__(self, name, record):
        self.name, self.now = name, copy.deepcopy(record)
        self.input, self.results = ['=' + name, *record.fields()], [name]

    def call(self, call, space=None, clock=1000):
        """With no space given: what the call needs, and a byte more."""
        if space is None:
            space = self.needs(call, clock) + 1
        outcome, output, self.now = step(self.now, call, clock, space)
        self.input.append('.'.join([call.letter + '%08x' % clock, '%04x' % space] + call.field).rstrip('.'))
        self.results += [outcome, output.hex()]
        return self

    def needs(self, call, clock=1000):
        outcome, output, _ = step(self.now, call, clock, 2000)
        return int(outcome.split()[-1]) if 'out' in outcome else 0

    def open(self):
        self.input.append('O')
        try:
            opening(self.now)
            self.results.append('none')
        except Refused as e:
            self.results.append('refused ' + str(e))
        # after a refusal the settings are those that opening refused, so that what is handed back is no session
        self.now = Record(flash=self.now.flash, configured=self.now.configured, url=self.now.url, sizes=self.now.sizes)
        return self

    def set(self, **parts):
        """Parts of the record changed by hand in the middle of a case."""
        for name, value in parts.items():
            setattr(self.now, name, value)
        letters = {'stage': 'g', 'active': 'g', 'next': 'n', 'link': 'l'}
        for letter in sorted({letters[name] for name in parts}):
            self.input += self.now.part(letter)
        return self

    def view(self):
        self.input.append('v')
        self.results += self.now.shown()
        return self

    def settings(self):
        self.input.append('w')
        self.results.append(self.now.settings())
        return self

    def end(self):
        assert all('\t' not in f for f in self.input + self.results)
        given.append('\t'.join(self.input))
        expected.append('\t'.join(self.results))


CALLS = {
    'connect': c_connect(), 'play': c_play(), 'live': c_publish(), 'record': c_publish(kind='record'), 'append': c_publish(kind='append'),
    'stop playback': c_stop_playback(), 'stop publishing': c_stop_publishing(), 'ping': c_ping(), 'picture': c_media('V'),
    'sound': c_media('A', droppable=True), 'metadata': c_metadata(), 'bytes': c_bytes(),
}
REQUESTS = {'connect': (DISCONNECTED, c_connect), 'play': (CONNECTED, c_play), 'live': (CONNECTED, lambda t: c_publish(t, 'live')),
            'record': (CONNECTED, lambda t: c_publish(t, 'record')), 'append': (CONNECTED, lambda t: c_publish(t, 'append'))}
STREAMS = [None, 0, 7, U32]


def places(*opened, free=()):
    """Eight places: (place, kind, number, text) of open ones, (place, text) of free ones."""
    found = [('free', 0, Text(b''))] * 8
    for i, kind, n, text in opened:
        found[i] = (kind, n, text if isinstance(text, Text) else Text(text))
    for i, text in free:
        found[i] = ('free', 0, text)
    return found


def eight():
    return places(*[(i, KINDS[1 + i % 5], 1 + i, b'open %d' % i) for i in range(8)])


SOME = places((0, 'connect', 1, b'live'), (2, 'play', 3, b'key'), (5, 'append', 4, 'é'.encode()))
