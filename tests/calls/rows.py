"""The lines of calls that crates/replay reads, and what it has to print for each.

Written from docs/FORMATS.md and the documentation of the calls; elements are read and written as
in certificates/. `rows()` are the lines of the stored input: points, keys, streams that fail once
or end, and single calls.
"""
import functools
import itertools
import re

from certificates.reader import Elements, Refused, demand
from certificates.writer import element

SIZES = (5, 20, 24, 28, 32, 40, 48, 64, 66)
LENGTHS = (0, 1, 28, 32, 48, 66, 300, 5000, 100000, 2000000)
CURVE = "2a8648ce3d030107"
# the most that a document grows by at once, in bytes
GROWTH = 4096
# the most digits of a point that are printed at once
PRINTED = 134


def pattern(count):
    """So many bytes: 0 to 250 over and over."""
    return (bytes(range(251)) * (count // 251 + 1))[:count]


def key(private_len, curve=None, public_len=None):
    """The content of a key with these parts (RFC 5915 section 3)."""
    content = element(2, b"\1") + element(4, pattern(private_len))
    if curve is not None:
        content += element(0xA0, element(6, bytes.fromhex(curve)))
    if public_len is not None:
        content += element(0xA1, element(3, b"\0" + pattern(public_len)))
    return content


@functools.cache
def sum_of(data):
    """The length of the bytes, and their sum, in which each multiplies what is before it by 31."""
    total = 0
    for byte in data:
        total = (total * 31 + byte) % 2**32
    return f"{len(data)} {total}"


def line(name, calls, is_refused):
    """What is printed of calls: what each returns, and with refused requests how many end it with
    Memory, how many don't end it, and how many end it with another error."""
    return name + "".join(
        f" {text}" + f" {requests}+0+0" * bool(is_refused and requests) for text, requests in calls)


def points():
    """The size and the encoding of points of each form."""
    for size in SIZES:
        x, even, odd = bytes(range(1, size + 1)), b"\xAB" * (size - 1) + b"\xCE", b"\xEF" * size
        yield size, b"\0"
        for first, y in ((2, b""), (3, b""), (4, even), (4, odd), (5, b""), (6, even), (7, odd)):
            yield size, bytes([first]) + x + y


def point_rows(is_refused):
    for size, encoding in points():
        lower, upper = encoding.hex().encode(), encoding.hex().upper().encode()
        calls = [(f"to_bytes {sum_of(encoding)}", 1), (f"to_lower_hex {sum_of(lower)}", 1)]
        calls += [(f"{name} {sum_of(upper)}", 1) for name in ("to_upper_hex", "to_json")]
        # a text grows once for each piece that is printed, and is then twice as long as the first
        calls += [(f"Display {sum_of(upper)}", (len(upper) + PRINTED - 1) // PRINTED)]
        yield f"point {size} {encoding.hex()}", line("point", calls, is_refused)


def private_len_of(length):
    """The length of the private key of which the content of a key has this length."""
    return next(it for it in range(length - 16, length) if len(key(it)) == length)


def beside(*numbers):
    """These numbers, each between those one less and one more."""
    return [it + more for it in numbers for more in (-1, 0, 1)]


def key_shapes():
    """The private key's length, the curve and the public key's length."""
    yield from itertools.product(LENGTHS, (None, CURVE), (None, 65))
    # contents of a whole number of steps; each length up to 140, and those beside powers of two
    counts = [private_len_of(it) for it in beside(*(steps * GROWTH for steps in (1, 2, 3, 25)))]
    counts += sorted({*range(141), *beside(*(2**place for place in range(8, 17)))})
    yield from ((count, None, None) for count in counts)
    yield from [(0, None, 0), (0, CURVE, 100000)]


def shape(count, curve, public_len):
    """The words of a key's shape."""
    return f"{count} {curve or '-'} {'-' if public_len is None else public_len}"


def key_rows(is_refused):
    names = """to_der document_ref document encode_msg from_der read_der_from from_sec1_der
        read_sec1_der_from to_sec1_der write_sec1_der_to""".split()
    for lengths in key_shapes():
        content = key(*lengths)
        result = sum_of(element(0x30, content))
        growth = (len(content) + GROWTH - 1) // GROWTH
        requests = {"read_der_from": growth, "read_sec1_der_from": growth + 1}
        calls = [(f"{name} {result}", requests.get(name, 1)) for name in names]
        yield f"key {shape(*lengths)}", line("key", calls, is_refused)


def written(how, after, data):
    """What is said of bytes that are written over a stream which fails behind so many of them."""
    fails = how != "None" and after < len(data)
    return f"Io {sum_of(data[:after])}" if fails else f"Ok {sum_of(data)}"


def break_row(how, after, step, private_len):
    der = element(0x30, key(private_len))
    # the end is read too, and isn't written
    fails = how != "None" and after <= len(der)
    reads = f"Io of {after}" if fails else f"{sum_of(der)} of {len(der)}"
    writes = written(how, after, der)
    asked = f"break {how} {after} {step} {private_len}"
    return asked, f"break, {reads}, {reads}, {writes}, {writes}"


# the kinds of std's errors, but for one that can't be named
KINDS = """NotFound PermissionDenied ConnectionRefused ConnectionReset HostUnreachable
    NetworkUnreachable ConnectionAborted NotConnected AddrInUse AddrNotAvailable NetworkDown
    BrokenPipe AlreadyExists WouldBlock NotADirectory IsADirectory DirectoryNotEmpty
    ReadOnlyFilesystem FilesystemLoop StaleNetworkFileHandle InvalidInput InvalidData TimedOut
    WriteZero StorageFull NotSeekable QuotaExceeded FileTooLarge ResourceBusy ExecutableFileBusy
    Deadlock CrossesDevices TooManyLinks InvalidFilename ArgumentListTooLong Interrupted Unsupported
    UnexpectedEof OutOfMemory InProgress Other""".split()


def breaks():
    """How a stream fails, behind how many bytes, how many it moves at once, and the length of the
    private key."""
    longer = (4081, 4082, 4083, 5000, 8177, 8178, 8179)
    yield from itertools.product(KINDS, (0, 1, 2, 5, 11, 12), [4], [4])
    for how in ("WouldBlock", "Interrupted", "Other"):
        yield from ((how, after, step, 4) for step in (1, 3, 100) for after in range(13))
        for private_len in longer:
            whole = len(element(0x30, key(private_len)))
            near = sorted({*beside(4, 4096, 4100, 8192, whole)})
            yield from ((how, it, 5000, private_len) for it in near if it <= whole + 1)
    # each read and each write of the 121 bytes of a key fails once
    yield from (("Other", after, 1, 114) for after in range(122))
    steps = (1, 2, 3, 7, 100, 4095, 4096, 4097)
    yield from itertools.product(["None"], [0], steps, (0, 4, 66, 300, *longer))
    # contents of these lengths, in pieces of six sizes in turn
    for length in (120, 200, 4096, 4097, 10000, 12001, 100000, 1000000, 1048575, 1048576):
        yield from (("None", turn, 0, private_len_of(length)) for turn in range(6))


def encode_rows():
    """A key that is written into a slice of bytes AA: whether it fits, and whether it is a key."""
    near = [(count, it) for count in (122, 123) for it in beside(len(element(0x30, key(count))))]
    for count, room in [*((0, room) for room in range(10)), *near, (114, 130)]:
        der = element(0x30, key(count))
        fits, is_read = len(der) <= room, str(len(der) == room).lower()
        left = (der if fits else b"").ljust(room, b"\xAA").hex()
        result = len(der) if fits else "Buffer"
        yield f"encode {count} {room}", f"encode {result} {left} read {is_read}"


# A key of P-256 with both fields, and without its curve (RFC 5915 section 3).
PRIVATE = "69624171561a63340de0e7d869f2a05492558e1a04868b6a9f854a866788188d"
PUBLIC = ("a144034200041cacffb55f2f2cefd89d89eb374b2681152452802deea09916068137d839cf7fc481a4449230"
          "4d7ef66ac117befe83a8d08f155f2b52f9f618dd447029048e0f")
WHOLE = f"30770201010420{PRIVATE}a00a0608{CURVE}{PUBLIC}"
WITHOUT_CURVE = f"306b0201010420{PRIVATE}{PUBLIC}"


def piece_row(how, after, step, data, error, taken):
    """Bytes over streams: by which error they are no document, if they are none, and how many of
    them are taken until then."""
    read = f"{error or sum_of(data)} of {taken}"
    found, writes = document_row(data)[1].split(" ")[1], written(how, after, data)
    writes = f"{writes}, {writes}" if found.isdigit() else f"no document, {found} 0 0"
    asked = f"pieces {how} {after} {step} {data.hex()}"
    return asked, f"pieces, {sum_of(data)}, {read}, {read}, {writes}"


def piece_rows():
    """Bytes over streams that move few at once, end, or fail. A header is read byte by byte, and of
    what is behind a document one byte."""
    whole = bytes.fromhex(WHOLE)
    for step in (1, 7, 121, 1000):
        yield piece_row("None", 0, step, whole, None, 121)
    yield piece_row("None", 0, 1, whole + b"\0", "TrailingData", 122)
    for how, after, step, error in (
        ("Other", 121, 121, "Io"), ("Other", 10, 3, "Io"), ("Other", 7, 1000, "Io"),
        ("End", 10, 3, "Truncated"), ("End", 7, 1000, "Truncated"), ("End", 0, 1, "Truncated"),
    ):
        yield piece_row(how, after, step, whole, error, after)
    # more than is read, as of a stream without an end
    for data, error, taken in (
        (bytes(300), "Tag", 1), (b"\x30" * 300, "TrailingData", 51),
        (b"\x30\x80" + bytes(300), "Length", 2), (b"\x30\x84\x10\0\0\0", "Length", 6),
    ):
        yield piece_row("None", 0, 1, data, error, taken)
    # a content of 268,435,455 bytes that fails behind 12,288 of them
    long = b"\x30\x84\x0F\xFF\xFF\xFF" + bytes(20_000)
    yield piece_row("Other", 12_294, 4_096, long, "Io", 12_294)
    for data, error, taken in (
        (b"", "Truncated", 0), (b"\4\1\xAA", None, 3), (b"\4\2\xAA", "Truncated", 3),
        (b"\0\xFF", "Tag", 1), (b"\5\0\0", "TrailingData", 3), (b"\5\0", None, 2),
        (b"\x30\3\4\5\0", None, 5),
    ):
        yield piece_row("None", 0, 1000, data, error, taken)


def document_rows():
    """Documents, and whether the bytes are a tree: over a stream as in memory."""
    wrapped, octet = b"", element(4, b"\xAA")
    for level in range(64):
        wrapped = element(0x30, wrapped)
        octet = element(0x30, octet) if level else octet
    tests = [
        ("0401aa", "3 1"), ("3003040500", "5 Truncated"), ("050000", "TrailingData TrailingData"),
        ("1f00", "Tag Tag"), ("", "Truncated Truncated"), ("0401", "Truncated Truncated"),
        ("30840fffffff", "Truncated Truncated"), ("308410000000", "Length Length"),
        ("308410", "Truncated Truncated"), ("3180", "Length Length"), ("0500", "2 1"),
        ("a000", "2 1"), ("04033080ff", "5 1"), ("0000", "Tag Tag"), ("30800000", "Length Length"),
        ("3002050000", "TrailingData TrailingData"), (wrapped.hex(), f"{len(wrapped)} 64"),
        (octet.hex(), f"{len(octet)} 64"), (WHOLE, "121 7"), (WITHOUT_CURVE, "109 5"),
        ("30050201010400", "7 3"),
        # an INTEGER of two bytes, and a field that occurs twice, are a key's no more, but a tree's
        ("3006020200010400", "8 3"), ("30110201010400a00406022a03a00406022a03", "19 7"),
        ("3081050201010400", "Length Length"),
    ]
    for outer in (element(0x30, wrapped), element(0x30, octet)):
        tests += [(outer.hex(), f"{len(outer)} Depth")]
    for tag in range(256):
        for der in (element(tag), element(tag, element(4, bytes(130)))):
            # of a constructed element the content is one element more (X.690 section 8.1.2.5)
            count = 1 + (tag & 0x20 != 0 and len(der) > 2)
            is_tag = tag != 0 and tag % 32 != 31
            tests += [(der.hex(), f"{len(der)} {count}" if is_tag else "Tag Tag")]
    for digits, found in tests:
        yield f"document {digits}", f"document {found} {found.split()[0]}"


def elements_of(elements, levels=64):
    """The number of elements of the tree that is read next, of at most so many levels."""
    tag, inside = elements.data[elements.at :][:1], Elements(elements.read(None))
    count = 1
    while tag[0] & 0x20 and inside.more():
        demand(levels > 1, "Depth")
        count += elements_of(inside, levels - 1)
    return count


def outcome(data, read):
    """What a call returns that reads all of the bytes, or by which error it refuses them."""
    elements = Elements(data)
    try:
        found = read(elements)
        elements.finish()
    except Refused as refused:
        return str(refused)
    return str(found)


def document_row(data):
    """What the calls on a document of these bytes return, by the reader of certificates/."""
    found = outcome(data, lambda elements: len(elements.read_whole()))
    return f"document {data.hex()}", f"document {found} {outcome(data, elements_of)} {found}"


class Numbers:
    """Numbers without a pattern, the same in each run."""

    def __init__(self):
        self.state = 1

    def next(self, limit):
        self.state = (self.state * 6364136223846793005 + 1442695040888963407) % 2**64
        return (self.state >> 33) % limit


def made_tree(numbers):
    """A tree, grown from a leaf: a leaf goes behind the row or before it, the row is written twice,
    or a node goes around it. Returns the number of its elements and its depth too."""
    row, count, depth = element(4, b""), 1, 1
    for _ in range(numbers.next(100)):
        how = numbers.next(8)
        if how == 0:
            row, count = row + element(4, b"\x30" * numbers.next(200)), count + 1
        elif how == 1:
            row, count = element(0xA0, b"") + row, count + 1
        elif how == 2 and len(row) < 500:
            row, count = row + row, count * 2
        else:
            row, count, depth = element(0x30, row), count + 1, depth + 1
    return element(0xBE, row), count + 1, depth + 1


def tree_rows():
    """For each of 2,000 trees its lines: as it is, and each with a byte changed, cut off there, and
    with a byte more."""
    numbers = Numbers()
    for _ in range(2000):
        der, count, depth = made_tree(numbers)
        asked, wanted = document_row(der)
        tree = count if depth <= 64 else "Depth"
        assert wanted == f"document {len(der)} {tree} {len(der)}"
        rows = [(asked, wanted)]
        for _ in range(8):
            at, byte = numbers.next(len(der)), bytes([numbers.next(256)])
            rows += [document_row(der[:at] + byte + der[at + 1 :]), document_row(der[:at])]
        yield rows + [document_row(der + bytes([numbers.next(256)]))]


def short_rows():
    """For each first byte the lines of each list of up to two bytes, and with a third one."""
    for first in range(256):
        longer = (bytes([first, second]) + rest
                  for second in range(256) for rest in (b"", b"\x00", b"\x05", b"\x80"))
        yield [*map(document_row, [b"", bytes([first]), *longer])]


def failed_rows():
    """A reader of which a call failed: each further call returns Failed, and moves nothing."""
    after = "true None Failed Failed Failed Failed Failed true"
    for digits, kind in (
        ("05000400", "Tag"), ("", "Truncated"), ("0402aa", "Truncated"), ("04800000", "Length"),
        ("1f000400", "Tag"), ("048105aabbccddee", "Length"),
    ):
        yield f"failed {digits}", f"failed {kind} {after}"
    for digits, said in (("0400", "None Truncated"), ("04000500", "Some(5) Tag")):
        yield f"failed {digits}", f"failed Ok false {said} Failed Failed Failed Failed true"


TAGS = ("Identity", "", "CompressedEvenY", "CompressedOddY", "Uncompressed", "Compact",
        "HybridEvenY", "HybridOddY")


def parts_of(size, encoding):
    """The parts of a point, by SEC1 v2.0 section 2.3.3, or the error."""
    if not encoding or encoding[0] > 7 or encoding[0] == 1:
        return "PointEncoding"
    first, x, y = encoding[0], encoding[1 : 1 + size], encoding[1 + size :]
    has_y = first in (4, 6, 7)
    if len(encoding) != (1 if first == 0 else 1 + size * (1 + has_y)):
        return "PointEncoding"
    parity = y[-1] % 2 if has_y else 0
    if first in (6, 7) and parity != first - 6:
        return "PointEncoding"
    compressed = bytes([2 + parity]) + x if has_y else encoding
    hybrid = bytes([6 + parity]) + x + y if first == 4 else encoding
    texts = [x.hex() if first else "none", y.hex() if has_y else "none"]
    texts += [compressed.hex(), hybrid.hex()]
    return f"parts {TAGS[first]} {len(encoding)} " + " ".join(texts)


def part_encodings():
    """Sizes and bytes: known points, and those that are none."""
    for digits in (
        "02ff", "0201", "0300", "0401ff", "040200", "0507", "050700", "060102", "060103", "070103",
        "070102", "0602ff", "00", "0000", "01", "06", "07", "0801", "ff", "", "040101", "040103",
    ):
        yield 1, bytes.fromhex(digits)
    for digits in ("0400000100", "0400000001", "0600000100", "0700000001", "0700000100"):
        yield 2, bytes.fromhex(digits)
    yield from points()
    for size in (28, 32, 48, 66):
        encodings = [b"\2\1" + bytes(size - 1), b"\3\2" + bytes(size - 1)]
        for point in (b"\2" + b"\x11" * size, b"\4" + b"\x11" * size + b"\x22" * size):
            encodings += [point, point + b"\0"]
            # of 32 bytes with each first byte, and each beginning
            encodings += [bytes([it]) + point[1:] for it in range(256 if size == 32 else 9)]
            encodings += [point[:it] for it in range(len(point) if size == 32 else 3)]
        yield from ((size, encoding) for encoding in encodings)


def parts_row(size, encoding):
    return f"parts {size} {encoding.hex()}", parts_of(size, encoding)


def text_row(size, text):
    """A text of a point has the digits of its encoding, all letters in one case."""
    is_text = re.fullmatch("([0-9a-f]{2})*|([0-9A-F]{2})*", text)
    digits = text.lower() if is_text else ""
    said = f"{digits} {digits} {digits.upper()}"
    if parts_of(size, bytes.fromhex(digits)) == "PointEncoding":
        said = "PointEncoding PointEncoding none"
    return f"text {size} {text}", f"text {said}"


def text_rows():
    for text in "02AF 02af 02aF 02A  02 02AF0000 070103 070102 02G0 00".split(" "):
        yield text_row(1, text)
    whole = PUBLIC[10:]
    for text in (whole, "02" + "11" * 32, "04" + "11" * 32 + "22" * 32, whole[:66]):
        yield from (text_row(32, text.upper()), text_row(32, text))


CURVES = {
    None: None,
    CURVE: "1.2.840.10045.3.1.7",
    "2b81040022": "1.3.132.0.34",
    "2a" + "01" * 38: "1.2" + ".1" * 38,
}


def some(begin, items, end):
    """What `{:?}` and `{:#?}` print of a field that has these items, or that is None."""
    if items is None:
        return "None", "None"
    lines = "".join(f"            {item},\n" for item in items)
    inside = f"\n{lines}        " if items else ""
    return f"Some({begin}{', '.join(items)}{end})", f"Some(\n        {begin}{inside}{end},\n    )"


def shown_key(curve, public_len):
    """What `{:?}` and `{:#?}` print of a key: no private key."""
    text = None if curve is None else [f"ObjectIdentifier({CURVES[curve]})"]
    numbers = None if public_len is None else [str(byte) for byte in pattern(public_len)]
    parameters, long_parameters = some("NamedCurve(", text, ")")
    public_key, long_key = some("[", numbers, "]")
    short = f"EcPrivateKey {{ parameters: {parameters}, public_key: {public_key}, .. }}"
    fields = f"    parameters: {long_parameters},\n    public_key: {long_key},\n"
    return short, f"EcPrivateKey {{\n{fields}    ..\n}}"


def show_rows():
    """What `{:?}` prints: of keys and documents nothing that is secret."""
    counts = (0, 1, 2, 28, 32, 48, 66, 300)
    for count, curve, public_len in itertools.product(counts, CURVES, (None, 0, 1, 65)):
        texts = [*shown_key(curve, public_len), "SecretDocument { .. }", "SecretDocument { .. }"]
        yield f"show_key {shape(count, curve, public_len)}", "\n".join(texts).encode().hex()
    # by a width, a precision and other options: of the private key nothing either
    for count, curve, public_len in itertools.product((*counts, 5000), CURVES, (None, 0, 65)):
        yield f"hidden {shape(count, curve, public_len)}", "hidden true"
    for size, encoding in points():
        first, x, y = encoding[0], list(encoding[1 : 1 + size]), list(encoding[1 + size :])
        is_odd = "true" if first == 3 else "false"
        forms = {0: "Identity", 4: f"Uncompressed {{ x: {x}, y: {y} }}", 5: f"Compact {{ x: {x} }}"}
        compressed = f"Compressed {{ x: {x}, y_is_odd: {is_odd} }}"
        text = forms.get(first, compressed if first < 4 else f"Hybrid {{ x: {x}, y: {y} }}")
        yield f"show_point {size} {encoding.hex()}", f"EncodedPoint({text})"


def rows(is_refused=False):
    """Each line of the stored input, and its line of the output: as it is where requests for memory
    are refused, or with memory to spare."""
    return itertools.chain(
        point_rows(is_refused), key_rows(is_refused), itertools.starmap(break_row, breaks()),
        piece_rows(), encode_rows(), document_rows(), failed_rows(),
        itertools.starmap(parts_row, part_encodings()), text_rows(), show_rows())
