"""AMF0 and body layouts by document 01's "Bodies", for the generator and the comparer: values as Python values and bytes.

A value is ('number', pattern of 64 bits), ('boolean', b), ('text', bytes), ('object', {name: value}), ('array', [values]),
('null',) or ('undefined',).
"""
import struct


class Malformed(Exception):
    """Refusal 8."""


# ---- writing


def bits(x):
    """The pattern of a Python float."""
    return struct.unpack('>Q', struct.pack('>d', x))[0]


def number(pattern):
    return b'\0' + pattern.to_bytes(8, 'big')


def num(x):
    return number(bits(x))


def text(t):
    return b'\2' + len(t).to_bytes(2, 'big') + t


def boolean(byte):
    return bytes([1, byte])


NULL, UNDEFINED = b'\5', b'\6'


def properties(pairs):
    return b''.join(len(n).to_bytes(2, 'big') + n + v for n, v in pairs) + b'\0\0\t'


def obj(*pairs):
    return b'\3' + properties(pairs)


def ecma(count, *pairs):
    return b'\x08' + count.to_bytes(4, 'big') + properties(pairs)


def array(*values):
    return b'\n' + len(values).to_bytes(4, 'big') + b''.join(values)


def command(name, pattern, *values):
    return text(name) + number(pattern) + b''.join(values)


# ---- reading


class Reader:
    def __init__(self, data):
        self.data, self.at = data, 0

    def take(self, n):
        if len(self.data) - self.at < n:
            raise Malformed
        self.at += n
        return self.data[self.at - n:self.at]

    def whole(self, n):
        return int.from_bytes(self.take(n), 'big')

    def text(self):
        found = self.take(self.whole(2))
        try:
            found.decode('utf-8')
        except UnicodeDecodeError:
            raise Malformed
        return found

    def properties(self, depth):
        found = {}
        while True:
            name = self.text()
            if not name:
                if self.take(1) != b'\t':
                    raise Malformed
                return ('object', found)
            found[name] = self.value(depth + 1)

    def value(self, depth):
        if depth > 8:
            raise Malformed
        marker = self.whole(1)
        if marker == 0:
            return ('number', self.whole(8))
        if marker == 1:
            return ('boolean', self.whole(1) != 0)
        if marker == 2:
            return ('text', self.text())
        if marker in (5, 6):
            return ('null',) if marker == 5 else ('undefined',)
        if marker == 3:
            return self.properties(depth)
        if marker == 8:
            self.take(4)
            return self.properties(depth)
        if marker == 10:
            return ('array', [self.value(depth + 1) for _ in range(self.whole(4))])
        raise Malformed


def values(data):
    """All values, to the last byte."""
    reader, found = Reader(data), []
    while reader.at < len(data):
        found.append(reader.value(1))
    return found


def read_command(type_id, data):
    """Name, pattern of the Number, values after it."""
    if type_id == 17 and data[:1] == b'\0':
        data = data[1:]
    found = values(data)
    if len(found) < 3 or found[0][0] != 'text' or found[1][0] != 'number':
        raise Malformed
    return found[0][1], found[1][1], found[2:]


def check(type_id, data):
    """Raises Malformed where a body doesn't follow its layout."""
    if type_id in (17, 20):
        read_command(type_id, data)
    elif type_id in (15, 18):
        values(data)
    elif type_id in (1, 2, 3, 5) and len(data) != 4 or type_id == 6 and (len(data) != 5 or data[4] > 2):
        raise Malformed
    elif type_id == 4 and len(data) != {0: 6, 1: 6, 2: 6, 3: 10, 4: 6, 6: 6, 7: 6}.get(int.from_bytes(data[:2], 'big')):
        raise Malformed


def held(pattern):
    """The whole part of a Number, held within 0 to 4,294,967,295; NaN gives 0."""
    x = struct.unpack('>d', pattern.to_bytes(8, 'big'))[0]
    return 0 if x != x or x <= 0 else int(min(x, 4294967295.0))


# ---- canonical text, as the reference prints it


def canonical(value):
    kind = value[0]
    if kind == 'number':
        return '#%016x' % value[1]
    if kind == 'boolean':
        return 'true' if value[1] else 'false'
    if kind == 'text':
        return "'" + value[1].hex()
    if kind == 'array':
        return '[' + ','.join(map(canonical, value[1])) + ']'
    if kind == 'object':
        return '{' + ','.join('%s:%s' % p for p in sorted((n.hex(), canonical(v)) for n, v in value[1].items())) + '}'
    return kind
