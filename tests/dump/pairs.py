#!/usr/bin/env python3
"""Pairs of damaged keys, alone and in containers: two keys that differ in their private bytes
alone, damaged in the same way. `sec1_dump` must print the same of both, as text and as JSON, unless
the damage made headers of private bytes in a whole tree, as the second reader sees it too. No four
private bytes in a row may be in what is printed, but for such headers, nor in a content that the
library for C says isn't hidden.

    tests/dump/pairs.py [PROGRAM]   draws 200,000 pairs

The last line is 'N passed, M failed'.
"""
import base64
import ctypes
import itertools
import operator
import pathlib
import random
import re
import subprocess
import sys
import tempfile

import picture
import programs
from ber import Header, NoElement, is_tree
from table import arcs_of

TESTS = pathlib.Path(__file__).resolve().parent.parent
# so many pairs in batches of so many, which are blocks of PEM; each 50th batch is files of DER too
PAIRS, BATCH, FILES, SEED = 200_000, 1_000, 50, 2026
# bytes of headers
HEADS = bytes.fromhex("010203040506132024308081828384859FA0A1BFFF")


def element(tag, *contents):
    """Returns an element in DER, with these contents one after the other."""
    content = b"".join(contents)
    count = len(content)
    if count < 128:
        return bytes([tag, count]) + content
    octets = count.to_bytes(4, "big").lstrip(b"\0")
    return bytes([tag, 128 + len(octets)]) + octets + content


def sequence(*contents):
    """Returns a SEQUENCE of these elements."""
    return element(0x30, *contents)


def identifier(dotted):
    """Returns an OBJECT IDENTIFIER."""
    return element(6, arcs_of(dotted))


EC, ED25519, X25519, BAG, DATA = map(identifier, (
    "1.2.840.10045.2.1", "1.3.101.112", "1.3.101.110", "1.2.840.113549.1.12.10.1.1",
    "1.2.840.113549.1.7.1"))
CURVES = [*map(identifier, (
    "1.2.840.10045.3.1.7", "1.3.132.0.34", "1.3.132.0.10", "1.3.36.3.3.2.8.1.1.7"))]


def ec_key(source, private, is_inside=False):
    """Returns an ECPrivateKey of RFC 5915: with its curve and its point, or without one or both;
    inside of PKCS #8 without its curve."""
    form = source.randrange(4)
    fields = [element(2, b"\1"), element(4, private)]
    if form & 1 and not is_inside:
        fields.append(element(0xA0, source.choice(CURVES)))
    if form & 2:
        fields.append(element(0xA1, element(3, b"\0\4", source.randbytes(2 * len(private)))))
    return sequence(*fields)


def container(source, private):
    """Returns the PKCS #8 of RFC 5958, with an EC key."""
    algorithm = sequence(EC, source.choice(CURVES))
    return sequence(element(2, b"\0"), algorithm, element(4, ec_key(source, private, True)))


def edwards(source, private):
    """Returns the PKCS #8 of RFC 8410, of Ed25519 or X25519, with its public key or without."""
    has_public = source.randrange(2)
    algorithm = sequence(source.choice((ED25519, X25519)))
    public = element(0x81, b"\0", source.randbytes(len(private))) if has_public else b""
    inner = element(4, element(4, private))
    return sequence(element(2, bytes([has_public])), algorithm, inner, public)


def integers(source, sizes, private):
    """Returns INTEGERs after a version: some of so many bytes, and the private ones."""
    values = [b"\1" + source.randbytes(size - 1) for size in sizes]
    return sequence(*(element(2, value) for value in [b"\0", *values, *private]))


def rsa(source, *private):
    """Returns an RSA key, of numbers of few bytes."""
    return integers(source, [2 * len(private[1]), 3], private)


def dsa(source, private):
    """Returns a DSA key, of numbers of few bytes."""
    size = len(private)
    return integers(source, [2 * size, size, 2 * size, 2 * size], [private])


def identified(kind, content):
    """Returns a SEQUENCE of an identifier, and of what it says."""
    return sequence(kind, element(0xA0, content))


def public(source):
    """Returns a public key (RFC 5480)."""
    return sequence(sequence(EC, CURVES[0]), element(3, b"\0\4", source.randbytes(64)))


# What a key is in: AsymmetricKeyPackage (RFC 5958), SafeContents and SafeBag (RFC 7292), data of
# CMS (RFC 5652), a SEQUENCE of an OCTET STRING; and what it is behind, or before.
AROUND = [
    *[lambda source, key: key] * 3,
    lambda source, key: sequence(key),
    lambda source, key: sequence(identified(BAG, key)),
    lambda source, key: identified(BAG, key),
    lambda source, key: identified(DATA, element(4, key)),
    lambda source, key: sequence(element(4, key)),
    lambda source, key: public(source) + key,
    lambda source, key: key + public(source),
]
# How a key is made of its private parts: an EC key, one in PKCS #8, one of Ed25519, an OCTET
# STRING, RSA, DSA.
KEYS = [*[ec_key] * 5, *[container] * 2, edwards, lambda _, private: element(4, private), rsa, dsa]


def pair(source):
    """Returns two keys that differ in private bytes alone, and where these are."""
    make, around, size = source.choice(KEYS), source.choice(AROUND), source.randint(20, 48)
    sizes = [2 * size] + [size] * 5 if make is rsa else [size]
    # numbers of RSA and DSA begin with a 1
    front = b"\1" if make in (rsa, dsa) else b""
    both = [[front + source.randbytes(count - len(front)) for count in sizes] for _ in "ab"]
    state, found = source.getstate(), []
    for private in both:
        source.setstate(state)
        found.append(around(source, make(source, *private)))
    hidden, at = set(), 0
    for number in both[0]:
        at = found[0].index(number, at)
        hidden.update(range(at, at + len(number)))
        at += len(number)
    return found[0], found[1], hidden


def siblings(data, at, end):
    """Yields the places of the elements of each content, as far as there are some."""
    found = []
    while at < end:
        try:
            head = Header(data, at, end)
        except NoElement:
            break
        stop = head.start + (head.length or 0)
        if stop > end:
            break
        found.append((at, stop))
        if head.constructed:
            yield from siblings(data, head.start, stop)
        at = stop
    if len(found) > 1:
        yield found


def damaged(source, one, other, hidden):
    """Returns both, damaged in the same way."""
    kind, count, put = source.randrange(16), len(one), b""
    if kind < 2:
        at, after = source.randrange(count), count
    elif kind < 4:
        at, after = 0, source.randrange(count)
    elif kind == 4:
        # a line of PEM, or some
        at = 48 * source.randrange(1 + count // 48)
        after = at + 48 * source.randint(1, 2)
    elif kind == 5 and (found := list(siblings(one, 0, count))):
        (a, b), (c, d) = sorted(source.sample(source.choice(found), 2))
        return tuple(key[:a] + key[c:d] + key[b:c] + key[a:b] + key[d:] for key in (one, other))
    else:
        places = [at for at in range(count) if at not in hidden]
        # the headers in front matter most
        at = source.choice(places[:24] if source.randrange(2) else places)
        after = at + 1
        if kind not in (6, 7):
            # any byte, one of headers, or the same with another bit
            put = bytes([source.randrange(256)])
            if source.randrange(2):
                put = bytes([source.choice(HEADS)])
            elif source.randrange(2):
                put = bytes([one[at] ^ 1 << source.randrange(8)])
    return tuple(key[:at] + put + key[after:] for key in (one, other))


def pairs(count, seed, private=None):
    """Yields this many pairs of damaged keys; the private bytes of each first one go into a set."""
    source = random.Random(seed)
    for number in range(count):
        if number % 16 == 0:
            one, other, hidden = pair(source)
        if private is not None:
            private.update(runs(bytes(one[at] for at in sorted(hidden))))
        yield damaged(source, one, other, hidden)


def runs(data):
    """Yields each four bytes of some."""
    return (data[at:at + 4] for at in range(len(data) - 3))


def shown_runs(text):
    """Yields each four bytes that a text has: in hexadecimal, as characters, in base64, as escapes
    of a picture or of JSON."""
    for digits in re.findall(r"(?:[0-9A-Fa-f]{2} ?){4,}", text):
        yield from runs(bytes.fromhex(digits))
    for quoted in re.findall(r'"(?:[^"\\\n]|\\.)*', text):
        letters = re.sub(r"\\u\{?00([0-9A-Fa-f]{2})|\\u\{([0-9A-F]{1,2})\}|\\(.)",
                         lambda it: it[3] or chr(int(it[1] or it[2], 16)), quoted[1:])
        yield from runs(letters.encode("latin-1", "replace"))
    for digits in re.findall(r"[A-Za-z0-9+/]{6,}", text):
        for at in range(4):
            part = digits[at:len(digits) - (len(digits) - at) % 4]
            yield from runs(base64.b64decode(part))


def shows_private(printed, private, pair):
    """Returns whether private bytes of the first of two inputs are in what is printed of it, but
    for those in headers that the second reader sees too: the damage made them of private bytes."""
    # bytes of one key may be in what is printed of another by chance
    seen, (one, other) = private.intersection(shown_runs(printed)), pair
    if not seen:
        return False
    rows = picture.rows_of(one, picture.Plan(one))
    heads = {run for row in rows if row.head for run in runs(one[row.at:row.start])}
    return bool(seen.intersection(runs(one)).difference(runs(other), heads))


def is_excused(pair):
    """Returns whether the second reader draws two inputs in different ways too: the damage made
    headers, or a short content of a whole tree, of private bytes, or a text."""
    one, other = ((picture.drawn(data)[0], picture.draw(data)) for data in pair)
    return one != other


def blocks(program, asked, given):
    """Returns what the program prints of each of these inputs, which are blocks of PEM of one file,
    with the status of all; None if it doesn't print something of each."""
    text = b"".join(b"-----BEGIN KEY-----\n%b\n-----END KEY-----\n" % base64.b64encode(data)
                    for data in given)
    ended = subprocess.run([program, *asked], input=text, capture_output=True, timeout=3600)
    front = r'^(?=\{"bytes":)' if "--json" in asked else r"^(?=PEM at line )"
    first, *found = re.split(front, ended.stdout.decode(), flags=re.M)
    is_whole = not first and not ended.stderr and len(found) == len(given)
    # of each there is more than where it is
    is_whole = is_whole and all(it.count("\n") > 1 for it in found)
    return [f"{it}{ended.returncode}\n" for it in found] if is_whole else [None] * len(given)


def files(program, asked, given):
    """Returns the same of these inputs, which are files of DER of one run."""
    found, status = programs.outputs_and_status(program, asked, given)
    return [it and f"{it}{status}\n" for it in found]


def library(room):
    """Returns the library for C, built for this machine in a folder."""
    subprocess.run(["make", "-s", "-C", TESTS.parent / "dist", f"BUILD={room}"], check=True)
    return ctypes.CDLL(str(next(pathlib.Path(room).glob("libsec1.so.*.*"))))


def is_shown(calls, data, private, most=10_000):
    """Returns whether the library for C says that a content with four private bytes may be shown
    unasked, but for short contents of a tree."""
    size, count = ctypes.c_size_t, ctypes.c_size_t()
    room_len = 2 * len(data) + 2
    room, lines = ctypes.create_string_buffer(room_len), (size * (6 * most))()
    calls.sec1_picture_lines(data, size(len(data)), room, size(room_len), lines, size(most),
                             ctypes.byref(count))
    least = 13 if is_tree(data) else 4
    for at in range(0, 6 * count.value, 6):
        kind, offset, header, length, _, hidden = lines[at:at + 6]
        content = data[offset + header:offset + header + length]
        if kind == 1 and not hidden and len(content) >= least:
            if not private.isdisjoint(runs(content)):
                return True
    return False


def main(arguments):
    """Draws pairs, prints each that differs and may not, and counts."""
    program = pathlib.Path(*arguments or [TESTS.parent / "crates/sec1_dump/out/sec1_dump"])
    if not program.is_file():
        print(f"FAILED: {program} isn't there: run rt ci first\n0 passed, 1 failed")
        return 1
    program, passed, failed, excused, private = program.resolve(), 0, 0, 0, set()
    every = (pair for pair in pairs(2 * PAIRS, SEED, private) if pair[0] != pair[1])
    ones, others = zip(*itertools.islice(every, 20))
    shown = blocks(program, ["--all"], ones)
    is_same = any(map(operator.eq, shown, blocks(program, ["--all"], others)))
    if is_same or private.isdisjoint(shown_runs("".join(shown))):
        print("FAILED: no private byte is shown with --all\n0 passed, 1 failed")
        return 1
    with tempfile.TemporaryDirectory() as room:
        calls = library(room)
        while passed + failed < PAIRS:
            private.clear()
            batch = [*itertools.islice(every, BATCH)]
            is_file = passed % (BATCH * FILES) == 0
            wrong = {pair for pair in batch if is_file and is_shown(calls, pair[0], private)}
            ways = [blocks, files] if is_file else [blocks]
            for run, asked in itertools.product(ways, ([], ["--json"])):
                ones, others = (run(program, asked, given) for given in zip(*batch))
                for pair, one, other in zip(batch, ones, others):
                    may_differ = one != other and bool(one and other) and is_excused(pair)
                    excused += may_differ
                    is_wrong = not one or one != other and not may_differ
                    if is_wrong or shows_private(one, private, pair):
                        wrong.add(pair)
            for one, other in wrong:
                print("FAILED: private bytes are shown:", one.hex(), other.hex(), flush=True)
            passed, failed = passed + len(batch) - len(wrong), failed + len(wrong)
    if excused > PAIRS // 250:
        print(f"FAILED: {excused} pairs differ for the second reader too")
        failed += 1
    print(f"{passed} passed, {failed} failed")
    return failed != 0


if __name__ == "__main__":
    sys.exit(main(sys.argv[1:]))
