"""A reader of AMF0 values, and the line of amf0.txt that it gives for a body; the head of amf0.py has the fields of a line.

Written from Adobe's "Action Message Format - AMF 0" and from document 01's limits: the markers 00, 01, 02, 03, 05, 06, 08 and 0a and no other;
texts and names are UTF-8 (RFC 3629); an empty name stands only before 09; an ECMA array's count is ignored; of equal names the later holds; a
value at the top has depth 1, and depth 9 is malformed.
"""
DEPTH = 8


class Bad(Exception):
    pass


def take(s, at, n):
    if at + n > len(s):
        raise Bad
    return s[at:at + n], at + n


def uint(s, at, n):
    b, at = take(s, at, n)
    return int.from_bytes(b, 'big'), at


def utf8(s, at):
    n, at = uint(s, at, 2)
    t, at = take(s, at, n)
    try:
        t.decode('utf-8')
    except UnicodeDecodeError:
        raise Bad
    return t, at


def properties(s, at, depth):
    """The properties from `at` to the end marker: (name, where the value starts), and the place after the marker."""
    found = []
    while True:
        name, at = utf8(s, at)
        if not name:
            m, at = uint(s, at, 1)
            if m != 0x09:
                raise Bad
            return found, at
        found.append((name, at))
        at = value(s, at, depth)


def value(s, at, depth=1):
    """The place after the value at `at`, which has that depth."""
    if depth > DEPTH:
        raise Bad
    m, at = uint(s, at, 1)
    if m == 0x00:
        return take(s, at, 8)[1]
    if m == 0x01:
        return take(s, at, 1)[1]
    if m == 0x02:
        return utf8(s, at)[1]
    if m == 0x03:
        return properties(s, at, depth + 1)[1]
    if m in (0x05, 0x06):
        return at
    if m == 0x08:
        return properties(s, uint(s, at, 4)[1], depth + 1)[1]
    if m == 0x0a:
        n, at = uint(s, at, 4)
        while n:
            at = value(s, at, depth + 1)
            n -= 1
        return at
    raise Bad


def kind(s, at):
    m, at = uint(s, at, 1)
    if m == 0x00:
        return 'number %016x' % uint(s, at, 8)[0]
    if m == 0x01:
        return 'boolean %d' % (uint(s, at, 1)[0] != 0)
    if m == 0x02:
        t, end = utf8(s, at)
        return 'text %d %d' % (end - len(t), len(t))
    if m in (0x03, 0x08):
        return 'object'
    if m == 0x05:
        return 'null'
    if m == 0x06:
        return 'undefined'
    if m == 0x0a:
        return 'array'
    raise Bad


def find(s, name):
    """Where the value of the last property of that name of the first value starts; None where there is none."""
    m, at = uint(s, 0, 1)
    if m in (0x03, 0x08):
        if m == 0x08:
            at = uint(s, at, 4)[1]
        places = [p for n, p in properties(s, at, 2)[0] if n == name]
        return places[-1] if places else None
    if m in (0x00, 0x01, 0x02, 0x05, 0x06, 0x0a):
        return None
    raise Bad


def or_bad(f, *args):
    try:
        return str(f(*args))
    except Bad:
        return 'bad'


def count(s):
    n = at = 0
    while at < len(s):
        at = value(s, at)
        n += 1
    return n


def place(s):
    p = find(s, b'code')
    return 'absent' if p is None else 'at %d' % p


def stretch(s):
    try:
        p = find(s, b'code')
    except Bad:
        return 'absent'
    k = 'none' if p is None else or_bad(kind, s, p)
    return k[len('text '):] if k.startswith('text ') else 'absent'


def line(s):
    return '\t'.join([s.hex() or '-', or_bad(count, s), or_bad(value, s, 0), or_bad(kind, s, 0), or_bad(place, s), stretch(s)])
