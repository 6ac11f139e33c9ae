"""What docs/FORMATS.md has sec1_inspect print for keys of every form.

The keys have a point of each form at each size, points that are none, private keys from 0 bytes to
1 MB, and each combination of the optional fields; each is given as text on standard input and as
DER in a file. BY_HAND has texts with the lines that are printed of each.
"""

import itertools
import subprocess

from certificates.writer import element

SIZES = (28, 32, 48, 66)
LENGTHS = (0, 1, 28, 32, 48, 66, 117, 118, 122, 123, 127, 128, 255, 256, 300, 4095, 4096, 5000)
LENGTHS += (10000, 65535, 65536, 100000, 500000, 1000000)
# the most bytes of an input, and what is printed of a longer one
LIMIT = 1048576
TOO_LONG = "refused: input too long\ntree: no\n"
# the content of an identifier and its text
CURVES = {
    "2a8648ce3d030107": "1.2.840.10045.3.1.7",
    "2b81040022": "1.3.132.0.34",
    "8837": "2.999",
    "00": "0.0",
    "77": "2.39",
    "78": "2.40",
    "2a8fffffff7f": "1.2.4294967295",
    "8fffffff7f": "2.4294967215",
    "2a" + "01" * 38: "1.2" + ".1" * 38,
}

NO_FIELDS = "private_key: {} bytes\nparameters: none\npublic_key: none\npoint: none\n"
NO_CURVE = "private_key: 0 bytes\nparameters: none\npublic_key: {}\npoint: {}\n"
NO_DIGITS = "refused: not hexadecimal\ntree: no\n"
NO_KEY = "refused: not an EC private key in DER\ntree: {}\n"
# what a text is, the text, and the lines that are printed of it
BY_HAND = [
    ("neither a curve nor a public key", "30 05 02 01 01 04 00", NO_FIELDS.format(0)),
    ("a private key of one byte", "3006 020101 040107", NO_FIELDS.format(1)),
    ("blanks between any two digits, letters of both cases",
     " 3\t0 0\r\n9 020101 04 04 aB\nCd 0 1 2 3\n", NO_FIELDS.format(4)),
    ("a public key that is present and empty", "300A 020101 0400 A103 030100",
     NO_CURVE.format("empty", "none")),
    ("a public key of one byte", "300B 020101 0400 A104 03020000",
     NO_CURVE.format("00", "identity")),
    ("a second arc above 39", "300B 020101 0400 A004 06028837",
     "private_key: 0 bytes\nparameters: 2.999\npublic_key: none\npoint: none\n"),
    ("a compressed point of 48 bytes", "303B 020101 0400 A134 0332 0003" + "11" * 48,
     NO_CURVE.format("03" + "11" * 48, "compressed odd 48")),
    ("a compressed point of 28 bytes", "3027 020101 0400 A120 031E 0002" + "11" * 28,
     NO_CURVE.format("02" + "11" * 28, "compressed even 28")),
    ("a compact point", "302B 020101 0400 A124 0322 0005" + "11" * 32,
     NO_CURVE.format("05" + "11" * 32, "compact 32")),
    ("a hybrid point: y is even", "304B 020101 0400 A144 0342 0006" + "11" * 32 + "22" * 32,
     NO_CURVE.format("06" + "11" * 32 + "22" * 32, "hybrid even 32")),
    ("no point: y isn't odd", "304B 020101 0400 A144 0342 0007" + "11" * 32 + "22" * 32,
     NO_CURVE.format("07" + "11" * 32 + "22" * 32, "none")),
    ("an odd number of digits", "300", NO_DIGITS),
    ("a letter that is no digit", "30 0g", NO_DIGITS),
    ("a form feed, which is no blank", "30\x0C05020101 0400", NO_DIGITS),
    ("no bytes", "", NO_KEY.format("no")),
    ("a length in the long form below 128", "30 81 05 02 01 01 04 00", NO_KEY.format("no")),
    ("a curve that occurs twice", "3011 020101 0400 A004 06022A03 A004 06022A03",
     NO_KEY.format("7 elements")),
]


def key(private_key, curve=None, public_key=None):
    """Returns the key with these parts in DER (RFC 5915 section 3)."""
    content = element(2, b"\1") + element(4, private_key)
    if curve is not None:
        content += element(0xA0, element(6, bytes.fromhex(curve)))
    if public_key is not None:
        content += element(0xA1, element(3, b"\0" + public_key))
    return element(0x30, content)


def report(private_len, curve=None, public_key=None, point="none"):
    """Returns the lines of the report on a key."""
    digits = "none" if public_key is None else public_key.hex().upper() or "empty"
    curve = "none" if curve is None else CURVES[curve]
    lines = f"private_key: {private_len} bytes\nparameters: {curve}\n"
    return lines + f"public_key: {digits}\npoint: {point}\n"


def points():
    """Returns public keys, and the words for the point that each is."""
    yield b"\0", "identity"
    for size in SIZES:
        x, even, odd = bytes(range(1, size + 1)), bytes([0x22]) * size, bytes([0xFF]) * size
        yield b"\2" + x, f"compressed even {size}"
        yield b"\3" + x, f"compressed odd {size}"
        yield b"\5" + x, f"compact {size}"
        for is_odd, y, word in ((0, even, "even"), (1, odd, "odd")):
            yield b"\4" + x + y, f"uncompressed {size}"
            yield bytes([6 + is_odd]) + x + y, f"hybrid {word} {size}"
            yield bytes([7 - is_odd]) + x + y, "none"
        yield b"\2" + bytes(size), f"compressed even {size}"
        yield b"\4" + bytes(2 * size), f"uncompressed {size}"
        # no tag of a point, a byte more, and a byte less
        for first in (0, 1, 8, 0x82, 0xFF):
            yield bytes([first]) + x, "none"
        for first in (2, 3, 4, 5, 6, 7):
            whole = bytes([first]) + x + (even if first in (4, 6, 7) else b"")
            yield whole + b"\0", "none"
            yield whole[:-1], "none"
    for size in (0, 1, 20, 31, 33, 64):
        yield b"\2" + bytes(size), "none"
        yield b"\4" + bytes(2 * size), "none"
    yield b"\0\0", "none"
    yield b"", "none"


def cases():
    """Returns each input in DER, and what is printed of it."""
    for (public_key, point), curve in itertools.product(points(), (None, "2b81040022")):
        yield key(b"\1" * 32, curve, public_key), report(32, curve, public_key, point)
    for curve in CURVES:
        yield key(b"", curve), report(0, curve)
    uncompressed = b"\4" + bytes(range(64))
    for count, curve in itertools.product(LENGTHS, (None, "2a8648ce3d030107")):
        yield key(bytes(count), curve), report(count, curve)
        lines = report(count, curve, uncompressed, "uncompressed 32")
        yield key(bytes(count), curve, uncompressed), lines
    whole = key(b"\1" * 32, "2a8648ce3d030107", uncompressed)
    for count in range(len(whole)):
        yield whole[:count], NO_KEY.format("no")
    yield whole + b"\0", NO_KEY.format("no")
    yield element(0x30, b""), NO_KEY.format("1 elements")
    octets = element(4, b"")
    yield element(0x30, element(2, b"\2") + octets), NO_KEY.format("3 elements")
    yield element(0x30, element(2, b"\1") + octets + element(5, b"")), NO_KEY.format("4 elements")
    inner = octets
    for depth in range(2, 67):
        inner = element(0x30, inner)
        yield inner, NO_KEY.format(f"{depth} elements" if depth <= 64 else "no")
    # the greatest input, and one byte more
    yield key(bytes(LIMIT - 13)), report(LIMIT - 13)
    yield key(bytes(LIMIT - 12)), TOO_LONG


def ended(lines):
    """Returns the status, standard output and standard error of a run that prints these lines."""
    return int(lines.startswith("refused")), lines.encode(), b""


def runs():
    """Returns each run: its name, whether the input is a file, the input, and how it has to end."""
    for der, lines in cases():
        name = f"{der[:60].hex()}.. of {len(der)} bytes"
        yield f"a path, {name}", True, der, ended(lines)
        ways = {"text": der.hex(), "text in capitals, with blanks": der.hex(" ").upper()}
        for way, text in ways.items():
            wanted = ended(lines if len(text) <= LIMIT else TOO_LONG)
            yield f"{way}, {name}", False, text.encode(), wanted
    for name, text, lines in BY_HAND:
        yield name, False, text.encode(), ended(lines)


def run(program, is_file, given, file):
    """Runs the program over this file, once it has these bytes, or over standard input. Returns its
    status, standard output and standard error."""
    if is_file:
        file.write_bytes(given)
    ended = subprocess.run([program, *[file] * is_file], input=b"" if is_file else given,
                           capture_output=True, timeout=3600, check=False)
    return ended.returncode, ended.stdout, ended.stderr
