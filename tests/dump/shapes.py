"""Inputs of each shape: tags, values at the limits of the rules, points, depths, each form whole
and with each of its elements damaged, each name of an identifier, and texts."""
import base64
from itertools import product

from ber import Header
from pairs import element, identifier, sequence, siblings
from table import ALL, CASES, STRUCTURES, arcs_of
from values import NAMES

KEY = bytes.fromhex(
    "307702010104202d01ca44ef8a07fdb8664555f78a1e0d807c93655d1936ee7c8979bacff71a0ba00a06082a8648ce"
    "3d030107a14403420004485bfbba7f3270c4c8424b68bac0aca161c6d61f63f4370f71a8141d1f279811cbf2c62f4a"
    "0e960ae0513446119371fd70d30ccdff9228be0a5f4a4adf4aea2a")
NULL, ZERO, ONE = b"\5\0", element(2, b"\0"), element(2, b"\1")


def algorithm_of(dotted, *parameters):
    """Returns an AlgorithmIdentifier."""
    return sequence(identifier(dotted), *parameters)


def valued(content):
    """Returns the element with a tag and a content that are a line of CONTENTS."""
    return element(int(content[:2], 16), bytes.fromhex(content[3:]))


def nested(levels, inside=b""):
    """Returns elements in one another."""
    for _ in range(levels):
        inside = sequence(inside)
    return inside


def shapes():
    """Yields each tag, values of each form, and depths."""
    for tag in range(256):
        yield sequence(element(tag), element(tag, b"\1\2"))
        yield sequence(NULL, element(tag), NULL)
    for first in range(9):
        yield element(3, bytes([first, 0xF0]))
        for count in (0, 1, 2, 65):
            point = element(3, bytes([0, first]), b"\1" * count)
            yield sequence(ONE, element(4), element(0xA1, point))
    for levels in (1, 2, 16, 17, 18, 63, 64, 65, 66, 70, 200):
        yield from (nested(levels), nested(levels, NULL))
    for content in [*CONTENTS, *(f"{tag:02X} " for tag in (*range(1, 31), 0x9E))]:
        yield from (valued(content), nested(2, valued(content)))
    for count in (65, 66, 67, 68):
        yield sequence(NULL, element(0x82, b"y" * count))
    for digits in HEADERS:
        yield from (bytes.fromhex(digits), sequence(NULL, bytes.fromhex(digits)))


def contents():
    """Yields contents in a certificate's name, its times and its serial number, which are shown if
    they are valid, and in a tree without a form."""
    algorithm, key = algorithm_of("1.3.101.112"), element(3, b"\0")
    time = element(0x17, b"260102030405Z")
    for content in CONTENTS:
        value = valued(content)
        names = sequence(element(0x31, sequence(identifier("2.5.4.3"), value)))
        number = value if content[:2] == "02" else element(2, b"\5")
        times = sequence(value if content[:2] in ("17", "18") else time, time)
        tbs = sequence(number, algorithm, names, times, sequence(), sequence(algorithm, key))
        yield sequence(tbs, algorithm, key)


def example(structure, fewest=False, turn=0):
    """Returns the content of a structure of the table, with all that it may have, or the fewest
    elements."""
    out = b""
    for number, field in enumerate(STRUCTURES[structure]):
        if field.is_needed or not fewest:
            is_twice = field.presence == "*" and not fewest and turn % 2
            out += example_of(field, number, fewest, turn) * (2 if is_twice else 1)
    return out


def example_of(field, number, fewest, turn):
    """Returns an element that is a field of a structure, which has this number there."""
    inside = field.inside or field.whole or field.bits
    if field.tag == 0:
        return (element(0x13, b"me"), identifier("1.3.132.0.34"), NULL, element(4, b"\7" * 9),
                sequence(element(2, b"\7")))[turn % 5]
    if field.kind == "version":
        content = b"\xFF" if field.tag == 1 else bytes([turn % 3])
    elif field.kind == "point":
        content = b"\0" * (field.tag != 4) + b"\4" + b"\7" * 64
    elif field.arcs:
        content = field.arcs + b"\1" * (turn % 2)
    elif field.tag == 6 and field.kind != "short":
        content = arcs_of("1.2.840.10045.3.1.7")
    elif inside:
        content = b"\0" * bool(field.bits) + example(inside, fewest, turn)
    elif field.tag & 32:
        content = element(2, b"\7" * 3)
    else:
        content = {2: b"\x7F" * (9 + number), 0x17: b"260102030405Z"}.get(field.tag, b"\7" * 9)
        content = content[:2 + turn % 7] if field.kind == "short" else content
    return element(field.tag, content)


def extensions():
    """Yields extensions in a certificate: an identifier that says what comes after it, one that
    begins so, or of more than 12 bytes, before the fields of each."""
    tails = (b"", b"\1", b"\1" * 10)
    for (_, arcs, _), tail, (_, _, structure) in product(CASES, tails, CASES):
        extension = sequence(element(6, arcs_of(arcs), tail), example(structure))
        tbs = sequence(example("tbs", True), element(0xA3, sequence(extension)))
        yield sequence(tbs, sequence(example("algorithm", True)), element(3, b"\0"))


def examples():
    """Yields each form: whole, cut, followed by a byte, of an indefinite length, and with each
    element left out, of another tag, twice, or empty."""
    for form, turn in product(ALL, range(6)):
        content = example(form.structure, turn == 0, turn)
        data = content if form.structure == "oid" else sequence(content)
        yield data
        if turn < 2:
            yield from (data[:-1], data[:len(data) // 2], data + b"\0", sequence(data))
            yield from (b"\x30\x80" + content + b"\0\0", b"\x30\x80" + content)
            for at, stop in sum(siblings(data, 0, len(data)), []):
                other_tag = bytes([data[at] ^ 2]) + data[at + 1:stop]
                for other in (b"", data[at:stop] * 2, NULL, other_tag):
                    yield data[:at] + other + data[stop:]
                    yield fitted(data, at, stop, other)


def fitted(data, at, stop, other, start=0, end=None):
    """Returns bytes with others in place of these, and lengths that fit."""
    end, out = len(data) if end is None else end, b""
    while start < end:
        head = Header(data, start, end)
        if (start, head.stop) == (at, stop):
            out += other
        elif start < at and stop <= head.stop:
            out += element(head.first, fitted(data, at, stop, other, head.start, head.stop))
        else:
            out += data[start:head.stop]
        start = head.stop
    return out


def named():
    """Yields each identifier that has a name, alone and in a SEQUENCE."""
    for dotted in NAMES:
        yield from (identifier(dotted), sequence(NULL, identifier(dotted)))


def forms():
    """Yields keys and other structures, whole and with something changed, in DER."""
    key, curves = element(4, b"\7"), [element(6, content) for content in CURVES]
    for curve in curves:
        yield sequence(ONE, key, element(0xA0, curve))
        yield sequence(ZERO, sequence(curve), element(4, key))
    for dotted in ("2.16.840.1.101.3.4.1.2", "2.16.840.1.101.3.4.2.1.1.1.1",
                   "2.16.840.1.101.3.4.2.1.1.1.1.1", "1.2.840.113549.1.12.1.3",
                   "1.2.840.113549.1.12.1.4"):
        yield sequence(algorithm_of(dotted), key)
    # Ed25519 with parameters
    yield sequence(ZERO, algorithm_of("1.3.101.112", NULL), element(4, key))
    for inside in (curves[0] + NULL, sequence(), key, b"", b"\6"):
        yield sequence(ONE, key, element(0xA0, inside))
    for bit_string in (b"\0\4\1\2", b"\1\4\1\2", b"\1\xFE", b"\1", b"\x21" + bytes(9), b""):
        yield sequence(ONE, key, element(0xA1, element(3, bit_string)))
    for inside in (element(4, b"\0"), element(3, b"\0") + NULL):
        yield sequence(ONE, key, element(0xA1, inside))
    long = b"\4\x81\x80" + bytes(128)
    for fields in (ONE + long, ONE + long + NULL, ONE + b"\4\x81\1\7", ONE + b"\4\5\7",
                   element(2, b"\0\1") + key, b"\2\x81\1\1" + key, ONE + b"\x24\3\4\1\7", key,
                   element(1, b"\1") + key, element(2, b"\2") + key, ONE + ONE + key, ONE,
                   ONE + b"\4\x80" + NULL + b"\0\0", b"\4\x80" + key + b"\0\0" + key):
        cut = sequence(fields, bytes(9))[:len(fields) + 2]
        yield from (sequence(fields), element(0x31, fields), cut)
        yield from (b"\x30\x80" + fields + b"\0\0", b"\x30\x80" + fields)
    for count, front, size in product(range(1, 12), (b"", ZERO), (1, 9)):
        numbers = [front, *(element(2, b"\1" * (size + at % 3)) for at in range(count))]
        whole, followed = sequence(*numbers), sequence(*numbers, NULL)
        yield from (whole, followed, whole[:-1], followed[:-2])
    for size in (4, 5, 8, 9):
        yield sequence(element(2, b"\1" * 5), element(2, b"\1" * size))
    algorithm = algorithm_of("1.2.840.10045.2.1", curves[0])
    for inside in (sequence(ONE, key), key, ONE, sequence(ONE, key) + NULL, b"\7" * 9,
                   *(sequence(b"\2\1\0" * count) for count in (9, 6, 5, 2)), sequence(ONE),
                   sequence(ONE, key, NULL), sequence(ONE, key, element(0xA0, curves[0]))):
        fields = ZERO, algorithm, element(4, inside)
        for after in (b"", element(0xA0), element(0xA0) + b"\x81\1\0", b"\x81\1\0", NULL):
            yield sequence(*fields, after)
        yield sequence(*fields, bytes(9))[:-9]


def bits():
    """Yields RSA public keys whose bits are a whole key or not."""
    rsa, power = "1.2.840.113549.1", element(2, b"\1\0\1")
    number = element(2, b"\0\xC3", b"\5" * 30)
    algorithms = (algorithm_of(f"{rsa}.1.1", NULL), algorithm_of(f"{rsa}.1.10", sequence()),
                  algorithm_of(f"{rsa}.1.1"), algorithm_of(f"{rsa}.2", NULL))
    key = sequence(number, power)
    insides = (key, b"\1" + key, b"\x30" + key, b"\0", b"", b"\1", *(b"\0" + more for more in (
        key, b"\0", key + b"\0", key[:-1], sequence(number), sequence(key), sequence(number * 2),
        b"\x30\x80" + number + power + b"\0\0", element(0x31, number, power),
        sequence(number, power, power))))
    for algorithm, inside, tag in product(algorithms, insides, (3, 0x23, 4)):
        fields = algorithm, element(tag, inside)
        yield from (sequence(*fields), sequence(*fields, NULL))
        yield from (sequence(*fields, b"\5")[:-1], sequence(*fields)[:-3])


def retagged():
    """Yields keys whose private key has another tag, or another element is changed too."""
    one, curve, point = KEY[2:5], KEY[39:51], KEY[51:]
    fields = (b"", curve, point, curve + point, point + curve, curve + curve, NULL, b"\xA2\0")
    for tag in (1, 2, 3, 4, 5, 6, 12, 0x14, 0x1F, 0x24, 0x44, 0x84):
        for count, after in product((0, 1, 27, 28, 32, 33, 48, 66), fields):
            if count in (0, 32) or not after:
                yield sequence(one, element(tag, b"\x21" * count), after)
    versions = (b"", element(2), element(2, b"\0\1"), element(1, b"\1"), one + one)
    for version, tag, root in product(versions, (4, 6), (0x30, 0x31, 0xA0)):
        key = element(tag, b"\x21" * 32)
        yield from (element(root, version, key), element(root, one, key, version))
    other = KEY[:5] + b"\6" + KEY[6:]
    yield from (b"\x30\x80" + other[2:] + b"\0\0", other + b"\0", other[:-1])


def repaired():
    """Yields keys on curves with lengths that fit these or not, and keys that a command makes DER
    of."""
    for dotted, count in (("1.3.132.0.9", 20), ("1.3.132.0.9", 21), ("1.3.132.0.35", 65),
                          ("1.3.132.0.35", 66)):
        yield sequence(KEY[2:5], element(4, b"\7" * count), element(0xA0, identifier(dotted)))
    for form, (count, unused) in product(range(8), ((32, 0), (64, 0), (64, 1))):
        point = element(3, bytes([unused, form]), b"\2" * count)
        yield sequence(KEY[2:51], element(0xA1, point))
    # a long length, version 2, PKCS #12, and PKCS #8 without a public key and with one
    yield from (b"\x30\x81" + KEY[1:], KEY[:4] + b"\2" + KEY[5:])
    yield sequence(example("PFX", False, 1))
    fields = ZERO, algorithm_of("1.2.840.10045.2.1", KEY[41:51]), element(4, KEY)
    yield from (sequence(*fields), sequence(*fields, b"\x81", KEY[54:]))


def block(label, *lines):
    """Returns a block of PEM."""
    return "\n".join([f"-----BEGIN {label}-----", *lines, f"-----END {label}-----", ""])


def texts():
    """Yields PEM of each form, and what isn't PEM."""
    label = "EC PRIVATE KEY"
    for data in (*repaired(), KEY + NULL):
        yield from (block(label, base64.b64encode(data).decode()), data.hex())
    digits = base64.b64encode(KEY).decode()
    lines = [digits[at:at + 64] for at in range(0, len(digits), 64)]
    whole, begin = block(label, *lines), f"-----BEGIN {label}-----"
    yield from (whole, "\uFEFF" + whole, " " + whole, whole + whole, whole + "\0", f'"{whole}"')
    yield "Bag Attributes\r\n\r\n" + whole.replace("\n", "\r\n")
    yield "text\r" + whole.replace("\n", "\r")
    yield "  " + whole.replace("\n", "\n  ")
    yield whole.replace("+", "-").replace("/", "_")
    yield "\n".join([begin, *lines])
    yield from (whole[len(begin) + 1:], " " + begin + digits, whole.lower())
    yield " " + whole.replace("END EC", "END RSA")
    for old, *others in (
        ("\n", " \t\n", "\\n", " ", "\\r\\n"), ("END EC", "END RSA"), ("=\n", "\n"), ("=", ""),
        # unused bits that aren't 0
        ("Kg==", "Kh=="), ("-----", "----"), (lines[1], lines[1] + "\n", lines[1] + "\0"),
        (begin, *(f"{begin}\n{header}" for header in (
            "Comment: me\n", "", "Proc-Type: 4,ENCRYPTED\n", "Proc-Type: 4,CLEAR\n"))),
    ):
        yield from (whole.replace(old, new) for new in others)
    for inside, end in ((b"ssh-ed25519", "\n"), (b"ssh-ed25519", "\r\n"), (KEY, "\r\n")):
        text = block("OPENSSH PRIVATE KEY", base64.b64encode(inside).decode())
        yield text.replace("\n", end)
    for other in ("PRIVATE KEY", "ENCRYPTED PRIVATE KEY", "RSA PRIVATE KEY", "OPENSSH PRIVATE KEY",
                  "EC PARAMETERS", "CERTIFICATE", "PGP MESSAGE", "A" * 40, "A" * 41, "", "key",
                  "X#1.2"):
        text = whole.replace(label, other)
        encrypted = text.replace("--\n", "--\nProc-Type: 4,ENCRYPTED\n\n", 1)
        yield from (text, text + whole, encrypted + whole)
    yield f"-----BEGIN {'A' * 40}-----\nProc-Type: 4,ENCRYPTED\n\nMA\n"
    yield from '30 3 0x 3:0 30,30 -----BEGIN MA== MAB= AAAA MTIz AAAx { {" [] hello'.split()
    yield from ("0X3000", "10x30", "000030", "gA==", "", " \n", "\n\n\n", "0x3077 ", "30 \f")
    yield from (digits, digits + "\\n", digits.replace("=", ""), KEY.hex(":"), KEY.hex().upper())
    yield ", ".join(f"0x{byte:02x}" for byte in KEY)
    yield from ("00000000: 3077 0201", "0000000 3077", "000000: 30", "000000 x", "0000 30")
    yield from ("0000\t30", "00000000 30", "ssh-ed25519 AAAA", "ecdsa-sha2-nistp256 A")
    yield from ("sk-ssh-ed25519 A", "PuTTY-User-Key-File-2: x", "PuTTY-User-Key-File-3: ssh-ed448")
    yield from (" \n{", " { \n\"a", "{0x30, 0x00}", "48, 9, 2")


def binaries():
    """Yields beginnings of files of other kinds, and other bytes that are no DER."""
    yield element(4, b"\n-----BEGIN X-----\nMAA=\n-----END X-----\n")
    for data, count in product(map(bytes.fromhex, BEGINNINGS), (0, 27, 28, 32, 33, 48, 66)):
        yield data + b"\xC3" * (count - len(data))


def every():
    """Yields a name and the bytes of each."""
    for make in (shapes, contents, forms, bits, retagged, extensions, examples, named, repaired,
                 binaries, texts):
        for number, data in enumerate(make()):
            data = data.encode() if make is texts else data
            yield f"{make.__name__} {number}, {data.hex()}", data


# Contents of identifiers, the first of which is P-256.
CURVES = [
    *map(bytes.fromhex, ("2A8648CE3D030107", "2A8FFFFFFF7F", "2A9080808000", "8FFFFFFF7F",
                         "9080808000", "90808080CF7F", "9080808050", "8001", "", "81")),
    *(b"\x2A" + b"\1" * count for count in (11, 12, 37, 38, 39))]
# What files of other kinds begin with, or nearly so.
BEGINNINGS = """
FEEDFEED00 CECECECE00 1F8B0800 1F8B0700 1EF1B5B0 03D9A29A 9500050401020304 9900010400 9900020400
99FFFF0400 9900010300 9403040000 FFFE3000 FEFF0030 FFFE000030 0000FEFF30 2D002D00 002D002D 2D002D
EFBBBF00 FFFF 80
""".split()
# Headers, and what is after them.
HEADERS = """
3080 30800000 308000 1F0100 1F1E00 1F1F00 1F800100 1F80 1F 1F8180808000 1F81808000 0000 2000 00
30817F 308180 30820080 308400FFFFFF 308401000000 3083FFFFFF 3085 30FF 0480 3082FF 308410000000 30
248120040100 3F811F8120 3F8101810100 A0800500 A080050000 3080308000000000 30803080050000000500 0501
24020400 0A0155 BF2003050000 9E0161 5F2101FF 040430020500 0A8101FF 6100 E100 C10141 1F818080800000
04800000 04850000000000 308401000000020101040107 308400FFFFFF020101040107 30040A020100
""".split() + ["04817F" + "07" * 127, "04820080" + "07" * 128]
# Contents at the limits of the rules: the tag and the content.
CONTENTS = """
01 00|01 FF|01 01|01 0000|02 00|02 80|02 0080|02 00000000000000FF|02 8000000000000000
02 008000000000000000|0A FF7F|0A FF80|03 00|03 08FF|03 0100|03 01FF|03 00FFFFFF|03 00FFFFFFFF
03 0780|03 07C0|03 01FFFFFFFE|05 00|06 2A|06 80|06 8001|06 2A8648CE3D030107|06 2A80|06 2A8001
06 6982F4DFD4AAE6A6E2E2E2E2E2E2E2E2E2E201|06 6983FFFFFFFFFFFFFFFFFFFFFFFFFFFFFFFFFF7F
06 6984808080808080808080808080808080808000|06 2A010101010101010101010101010101010101010101
0C 41C3A4|0C ED9FBF|0C EDA080|0C F48FBFBF|0C F4908080|0C C080|0C 7F|0C 22|0C 5C
12 3120|12 41|13 4127|13 2A|14 E4|16 7F|16 80|19 E4|1A 20|1A 7E|1A 7F|1B E4
1C 0000004100000042|1C 0000D800|1C 0010FFFF|1C 00110000|1E 00410042|1E D83DDE00|1E D83D|1E DE00
17 3236303130323033303430355A|17 3439313233313233353935395A|17 3530313233313233353935395A
17 3236303030313030303030305A|17 3030303232393030303030305A|17 3031303232393030303030305A
17 3236303433313030303030305A
17 3236313330313030303030305A|17 3236303130323234303030305A|17 3236303130323030363030305A
17 3236303130323030303036305A|17 32363031303230333034303530|17 323630313032303330345A
18 32303236303130323033303430355A|18 32303236303130323033303430352E355A
18 32303236303130323033303430352E35305A|18 32303236303130323033303430352E5A
18 31393030303232393030303030305A|18 32303030303232393030303030305A
18 32313030303232393030303030305A
06 78|06 4F|06 50|82 6578616D706C65|82 7F|82 20|82 7E|82 2261|42 6578|C2 6578|80 1F|0C 1F|1E 41
""".replace("|", "\n").strip().splitlines()
