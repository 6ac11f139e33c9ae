"""What is given to the page: stored pictures, keys and certificates, and large inputs."""
import base64
import pathlib
import random
import textwrap

TESTS = pathlib.Path(__file__).resolve().parent.parent
KEY = bytes.fromhex(
    "307702010104202d01ca44ef8a07fdb8664555f78a1e0d807c93655d1936ee7c8979bacff71a0ba00a06082a8648ce"
    "3d030107a14403420004485bfbba7f3270c4c8424b68bac0aca161c6d61f63f4370f71a8141d1f279811cbf2c62f4a"
    "0e960ae0513446119371fd70d30ccdff9228be0a5f4a4adf4aea2a")
ED25519 = bytes.fromhex("302e020100300506032b657004220420d4ee72dbf913584ad5b6d8f1f769f8ad3afe7c28"
                        "cbf1d4fbe097a88f44755842")
# A key whose private key has no bytes: what is behind it has no rows until all are asked for.
EMPTY = KEY[:6] + b"\0" + KEY[7:]
KEYS = [bytes.fromhex(line) for line in (TESTS / "keys/openssl.txt").read_text().splitlines()
        if not line.startswith("#")]
# The kind and the bytes of each stored structure of OpenSSL.
CONTAINERS = [(line.split()[0], bytes.fromhex(line.split()[1]))
              for line in (TESTS / "certificates/openssl.txt").read_text().splitlines()]
CERTIFICATE = next(it for kind, it in CONTAINERS if kind == "certificate" and len(it) > 300)


def pem(label, data):
    """Returns a block of PEM."""
    digits = textwrap.fill(base64.b64encode(data).decode(), 64)
    return f"-----BEGIN {label}-----\n{digits}\n-----END {label}-----\n"


def element(tag, content):
    """Returns an element in DER."""
    count = len(content)
    if count < 128:
        return bytes([tag, count]) + content
    octets = count.to_bytes((count.bit_length() + 7) // 8, "big")
    return bytes([tag, 128 + len(octets)]) + octets + content


TWO_BLOCKS = pem("CERTIFICATE", CERTIFICATE) + pem("EC PRIVATE KEY", KEY)
PASTED = {
    "digits with colons": KEY.hex(":"),
    "digits for C": ", ".join(f"0x{byte:02X}" for byte in KEY),
    "base64": base64.b64encode(KEY).decode(),
    "two blocks": TWO_BLOCKS,
    "a block that isn't drawn": pem("EC PRIVATE KEY", KEY).replace(
        "KEY-----\n", "KEY-----\nProc-Type: 4,ENCRYPTED\n\n", 1) + pem("CERTIFICATE", CERTIFICATE),
    "no PEM": "hello",
    "a JWK": '{"kty":"EC"}',
    "a public key of OpenSSH": "ssh-ed25519 AAAA me",
    "the output of xxd": "00000000: 3077 0201 0104 20",
}


def secrets():
    """Yields names and bytes of keys, whole and damaged, and the private contents in each."""
    private = KEY[7:39]
    yield "key.der", KEY, [private]
    yield "crlf.pem", pem("EC PRIVATE KEY", KEY).replace("\n", "\r\n").encode(), [private]
    container = next(it for kind, it in CONTAINERS if kind == "private-key-info")
    yield "pkcs8.der", container, [container[container.index(b"\4\x20") + 2:][:32]]
    yield "ed25519.der", ED25519, [ED25519[16:]]
    # The numbers of an RSA key of 1,024 bits, made up.
    made_up = random.Random(8017)
    fields = [b"\0"] + [b"\1" + made_up.randbytes(it) for it in (127, 2, 127, 63, 63, 63, 63, 63)]
    yield "rsa.der", element(0x30, b"".join(element(2, it) for it in fields)), fields[3:]
    yield "cut.der", KEY[:60], [private]
    for at, byte in ((5, 6), (6, 0), (6, 0x21), (4, 2)):
        yield f"damaged-{at}-{byte}.der", KEY[:at] + bytes([byte]) + KEY[at + 1:], [private[1:]]
    # A private key of letters, where a string stands in its place.
    letters = bytes(random.Random(12).choices(b"abcdefghijklmnopqrstuvwxyz", k=32))
    yield "letters.der", KEY[:5] + b"\x0c\x20" + letters + KEY[39:], [letters]
    # One with an identifier in its place, inside of an element that is longer than what is there.
    arcs = b"\x2a" + bytes(random.Random(13).choices(range(1, 128), k=11))
    yield "arcs.der", KEY[:6] + b"\0\xA0\x7E\6\x0C" + arcs + KEY[23:], [arcs[1:]]
    yield "behind.der", CERTIFICATE + KEY, [private]
    # One whose private key has more bytes than a list makes all lines of.
    long = random.Random(5).randbytes(5000)
    yield "long.der", element(0x30, bytes([2, 1, 1]) + element(4, long)), [long]


SECRETS = list(secrets())


def large():
    """Yields a megabyte of numbers, and one of empty elements: the name, the bytes, and the lines of
    the rows, as docs/FORMATS.md has them."""
    numbers = [0x5500 + at % 256 for at in range(262_000)]
    parts = [b"\x0A\2" + it.to_bytes(2, "big") for it in numbers]
    for name, parts, words in (
            ("numbers.der", parts, [f"ENUMERATED {it}" for it in numbers]),
            ("empty.der", [b"\5\0"] * 524_100, ["NULL"] * 524_100)):
        data, size = element(0x30, b"".join(parts)), len(parts[0])
        head = parts[0][:2].hex(" ").upper()
        lines = [f"{place:>4} {head}{size - 2:>14}    {said}"
                 for place, said in zip(range(5, len(data), size), words)]
        yield name, data, [f"   0 {data[:5].hex(' ').upper()} {len(data) - 5}  SEQUENCE", *lines]


LARGE = list(large())


def damaged(numbers, data):
    """Returns what is done to the bytes, and what they are then."""
    place, kind = numbers.randrange(len(data)), numbers.randrange(4)
    if kind == 0:
        return f"cut off at {place}", data[:place]
    if kind == 1:
        return f"byte {place} taken out", data[:place] + data[place + 1:]
    # Headers stand at the beginning, and behind the private key.
    place = numbers.choice([numbers.randrange(8), place])
    byte = numbers.randrange(256)
    return f"byte {place} is {byte}", data[:place] + bytes([byte]) + data[place + 1:]


def stored():
    """Yields the name and the bytes of 200 stored keys, damaged copies, and structures."""
    for number, data in enumerate(KEYS[::8][:80]):
        yield f"key {number}", data
    for number, (kind, data) in enumerate(CONTAINERS[::7][:50]):
        yield f"{kind} {number}", data
    numbers = random.Random(2026)
    for _ in range(70):
        yield damaged(numbers, numbers.choice(KEYS))
