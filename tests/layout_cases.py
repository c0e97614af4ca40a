#!/usr/bin/env python3
"""Writes the cases of crates/layout_replay/stdin: bytes, sound and spoilt, with the answer that the layouts ask for.

usage: python3 tests/layout_cases.py     (at the top of the repository)

A case: entry (1 byte), prefix length (2 bytes, lowest first), prefix, fill byte, fill count (4 bytes), count of words (1 byte),
words (4 bytes each). The input is the prefix, then the fill byte so many times. Entries: 0 bundle, 1 single entity, 2 nodes,
3 ways, 4 multipolygons, 5 group number below 2^32, 6 below 2^64. The words are the answer:
  refusal   1, number, reason, text, line, character
  bundle    0, count, then per text: name from, name to, text from, text to
  entity    0, kind, id low, id high, tags, tag count, end
  stream    the words of each entity, then 2 at the end or the words of the refusal
  number    0, low, high, place behind it; or 1
The reader below follows the layouts' text alone.
"""
import random
import struct


def group(n):
    out = bytearray()
    while n >= 128:
        out.append(128 + n % 128)
        n //= 128
    out.append(n)
    return bytes(out)


class Broken(Exception):
    pass


def read_group(s, at, most):
    value, shift, i = 0, 0, at
    while True:
        if i >= len(s):
            raise Broken
        b = s[i]
        value += (b & 127) << shift
        i += 1
        if b < 128:
            break
        shift += 7
    if i - at > 1 and s[i - 1] == 0:
        raise Broken  # not the shortest form
    if value > most:
        raise Broken
    return value, i


def read_part(s, at):
    n, p = read_group(s, at, 2**32 - 1)
    if p + n > len(s):
        raise Broken
    return p, p + n


def utf8(b):
    try:
        b.decode("utf-8", "strict")
        return True
    except UnicodeDecodeError:
        return False


def refusal(number, reason=0, text=0):
    return [1, number, reason, text, 0, 0]


def bundle_answer(s):
    try:
        if len(s) > 1048576:
            raise Broken
        n, at = read_group(s, 0, 2**32 - 1)
        if not 1 <= n <= 64:
            raise Broken
        texts = []
        for _ in range(n):
            a, b = read_part(s, at)
            if not 1 <= b - a <= 255:
                raise Broken
            c, d = read_part(s, b)
            texts.append((a, b, c, d))
            at = d
        if at != len(s) or len({s[a:b] for a, b, _, _ in texts}) != n:
            raise Broken
    except Broken:
        return refusal(1)
    if not all(utf8(s[a:b]) and utf8(s[c:d]) for a, b, c, d in texts):
        return refusal(2)
    return [0, n] + [x for t in texts for x in t]


def read_entity(s, at, kinds):
    if at >= len(s) or s[at] not in kinds:
        raise Broken
    ident, p = read_group(s, at + 1, 2**64 - 1)
    n, tags = read_group(s, p, 2**32 - 1)
    if n > 256:
        raise Broken
    q, last, text = tags, None, True
    for _ in range(n):
        a, b = read_part(s, q)
        c, d = read_part(s, b)
        if last is not None and not last < s[a:b]:
            raise Broken
        last, q = s[a:b], d
        text = text and utf8(s[a:b]) and utf8(s[c:d])
    if q - at > 65536:
        raise Broken
    return [0, s[at], ident % 2**32, ident >> 32, tags, n, q], q, text


def single_answer(s):
    try:
        words, end, text = read_entity(s, 0, (0, 1, 2))
        if end != len(s):
            raise Broken
    except Broken:
        return refusal(7)
    return words if text else refusal(2)


def stream_answer(s, kinds, stream):
    if len(s) > 1048576:
        return refusal(7, stream, 0)
    out, at, place = [], 0, 0
    while at < len(s):
        try:
            words, at, text = read_entity(s, at, kinds)
        except Broken:
            return out + refusal(7, stream, place)
        if not text:
            return out + refusal(2, stream, place)
        out += words
        place += 1
    return out + [2]


def number_answer(s, most):
    try:
        v, p = read_group(s, 0, most)
    except Broken:
        return [1]
    return [0, v % 2**32, v >> 32, p]


ANSWERS = [
    bundle_answer,
    single_answer,
    lambda s: stream_answer(s, (0,), 0),
    lambda s: stream_answer(s, (1, 2), 0),
    lambda s: stream_answer(s, (1, 2), 1),
    lambda s: number_answer(s, 2**32 - 1),
    lambda s: number_answer(s, 2**64 - 1),
]
cases, seen = [], set()


def case(entry, prefix, fill=0, count=0):
    key = (entry, bytes(prefix), fill, count)
    if key in seen:
        return
    seen.add(key)
    words = ANSWERS[entry](bytes(prefix) + bytes([fill]) * count)
    assert len(words) < 256, (entry, prefix)
    cases.append(
        bytes([entry]) + struct.pack("<H", len(prefix)) + bytes(prefix) + bytes([fill]) + struct.pack("<I", count)
        + bytes([len(words)]) + b"".join(struct.pack("<I", w) for w in words)
    )


def sized(x):
    return group(len(x)) + x


def bundle(texts):
    return group(len(texts)) + b"".join(sized(n) + sized(t) for n, t in texts)


def entity(kind, ident, tags):
    return bytes([kind]) + group(ident) + group(len(tags)) + b"".join(sized(k) + sized(v) for k, v in tags)


def spoil(entry, s, rng, some):
    """Cut at each place, then some copies with one byte changed, dropped or doubled."""
    for i in range(len(s)):
        case(entry, s[:i])
    case(entry, s + b"\0")
    case(entry, s + s)
    for _ in range(some):
        i = rng.randrange(len(s))
        case(entry, s[:i] + bytes([rng.choice((0, 1, 127, 128, 255, (s[i] + 1) % 256, s[i] ^ 128))]) + s[i + 1:])
        case(entry, s[:i] + s[i + 1:])
        case(entry, s[:i] + s[i:i + 1] + s[i:])


# what is not UTF-8: lone, cut, overlong, surrogate, past the end of Unicode, and the bytes that are never there
BAD_TEXTS = [b"\x80", b"a\xbf", b"\xc2", b"\xe2\x82", b"\xf0\x9f\x92", b"\xc0\x80", b"\xc1\xbf", b"\xe0\x9f\xbf", b"\xf0\x8f\xbf\xbf",
             b"\xed\xa0\x80", b"\xed\xbf\xbf", b"\xf4\x90\x80\x80", b"\xf5\x80\x80\x80", b"\xff", b"\xfe", b"\xc2\x41", b"\xe2\x41\xac"]
GOOD_TEXTS = [b"", b"a", "é".encode(), "€".encode(), "😀".encode(), b"\0", b"\x7f", "\u0080\u07ff\u0800\ud7ff\ue000\uffff".encode(),
              "\U00010000\U0010ffff".encode()]


def main():
    rng = random.Random(20261115)
    for n in (0, 1, 127, 128, 255, 256, 16383, 16384, 2**21 - 1, 2**21, 2**31, 2**32 - 1, 2**32, 2**35, 2**63 - 1, 2**63, 2**64 - 1, 2**64,
              2**64 + 1, 2**70, 2**77):
        for e in (5, 6):
            case(e, group(n))
            case(e, group(n) + b"\x05")
            case(e, group(n)[:-1])
            case(e, group(n)[:-1] + bytes([group(n)[-1] + 128, 0]))  # a needless last byte
    for e in (5, 6):
        case(e, b"\x80" * 9 + b"\x02")
        case(e, b"\xff" * 9 + b"\x01")
        case(e, b"\xff" * 9 + b"\x02")
        case(e, b"", 0x80, 40)
        case(e, b"\x80\x00")
        case(e, b"\x80\x80\x00")
        for _ in range(40):
            case(e, bytes(rng.choice((rng.randrange(256), rng.randrange(128, 256))) for _ in range(rng.randrange(1, 12))))

    small = [[(b"a", b"way{}")], [(b"a", b""), (b"b", b"@import \"a\";")], [("é".encode(), "€".encode()), (b"b" * 255, b"x" * 130), (b"c", b"")]]
    for texts in small:
        case(0, bundle(texts))
    spoil(0, bundle(small[1]), rng, 60)
    spoil(0, bundle(small[0]), rng, 30)
    case(0, bundle(small[2])[:-2])
    case(0, group(0))
    for n in (16, 63, 64, 65):
        s = group(n) + b"".join(sized(b"n%d" % i) + sized(b"") for i in range(n))
        if n <= 16 or n > 64:
            case(0, s)
        case(0, s[:-1])
        case(0, s + b"\0")
        case(0, s.replace(b"n9", b"n8", 1))
    case(0, bundle([(b"", b"x")]))
    case(0, bundle([(b"n" * 256, b"x")]))
    case(0, bundle([(b"a", b"1"), (b"b", b"2"), (b"a", b"3")]))
    case(0, bundle([(b"a", b"1"), (b"a", b"1")]))
    case(0, bundle([(b"a", b"1"), (b"ab", b"2"), (b"b", b"3")]))
    case(0, bundle([(b"a", b"1"), (b"a", b"\xff")]))  # layout is judged before UTF-8
    for t in BAD_TEXTS + GOOD_TEXTS:
        case(0, bundle([(b"a", t)]))
        case(0, bundle([(b"a", b"x" + t + b"y"), (b"b", b"")]))
        if t:
            case(0, bundle([(t, b"x")]))
            case(0, bundle([(b"a", b""), (t, b"x")]))
    for over in (-1, 0, 1):  # at the bound of 1,048,576 bytes
        n = 1048576 - 6 + over
        case(0, group(1) + sized(b"a") + group(n), 97, n)
    case(0, group(1) + sized(b"a") + group(2**32 - 1))
    case(0, group(1) + sized(b"a") + group(2**32))
    case(0, group(1) + group(2**32 + 1) + b"a" + sized(b""))
    case(0, b"\x81\x00" + sized(b"a") + sized(b""))  # a count that is not of the shortest form

    tags = [(b"", b""), (b"a", b"1"), (b"ab", b""), (b"highway", b"path"), ("name".encode(), "Mürren".encode())]
    for k in (0, 1, 2, 3, 255):
        for e in (1, 2, 3, 4):
            case(e, entity(k, 1, []))
            case(e, entity(k, 7, tags))
    for e in (1, 3):
        spoil(e, entity(1, 300, tags[1:4]), rng, 60)
    spoil(2, entity(0, 2**64 - 1, tags[:2]), rng, 30)
    for i in (0, 127, 128, 2**32, 2**64 - 1, 2**64):
        case(1, entity(1, i, []))
    for pair in ([(b"a", b"1"), (b"a", b"2")], [(b"b", b"1"), (b"a", b"2")], [(b"ab", b""), (b"a", b"")], [(b"a", b""), (b"", b"")],
                 [(b"\x7f", b""), (b"\x80", b"")], [(b"a\0", b""), (b"a", b"")], [(b"a", b""), (b"a\0", b"")]):
        case(1, entity(2, 5, pair))
        case(4, entity(2, 5, []) + entity(2, 5, pair))
    for t in BAD_TEXTS + GOOD_TEXTS:
        case(1, entity(1, 5, [(b"a", t)]))
        case(1, entity(1, 5, [(b"a", b""), (b"b" + t, b"x")]))
        case(2, entity(0, 5, []) + entity(0, 6, [(b"b", t)]) + entity(0, 7, []))
        case(4, entity(1, 5, []) + entity(1, 6, [(b"b" + t, b"")]) + b"\x05")
    many = [(b"%03d" % i, b"") for i in range(257)]
    for n in (255, 256, 257):
        case(1, entity(1, 5, many[:n]))
    case(1, entity(1, 5, many[:256])[:-1])
    for over in (-1, 0, 1):  # at the bound of 65,536 bytes
        n = 65536 - 8 + over
        head = bytes([1]) + group(5) + group(1) + sized(b"k") + group(n)
        case(1, head, 97, n)
        case(3, head, 97, n)
    case(3, entity(1, 1, []) + bytes([1]) + group(5) + group(1) + sized(b"k") + group(65536), 97, 65536)
    for e in (2, 3, 4):
        k = 0 if e == 2 else 2
        case(e, b"")
        case(e, entity(k, 1, []) * 5)
        case(e, entity(k, 1, tags) + entity(k, 2, tags) + entity(2 - k, 3, []))
        case(e, entity(k, 1, tags) + b"\0" + entity(k, 2, tags))
        for n in (1048575, 1048576, 1048577):  # too long is refused at place 0, before the first entity is read
            case(e, entity(k, 1, []), 255, n - 3)
    case(3, entity(1, 1, []) + entity(2, 2, []) + entity(0, 3, []))
    with open("crates/layout_replay/stdin", "wb") as f:
        f.write(b"".join(cases))
    print(len(cases), "cases,", sum(map(len, cases)), "bytes")


main()
