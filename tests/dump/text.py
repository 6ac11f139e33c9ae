"""Reads the text of an input: PEM (RFC 7468, RFC 1421), hexadecimal and base64 (RFC 4648), and what
is almost that."""
import base64
import binascii
import itertools
import re
from collections import namedtuple

from ber import count_of, is_tree, shortened
from table import RAW

# the labels of the keys that OpenSSL reads from PEM, if they are the first in a file
KEYS = ("EC PRIVATE KEY", "PRIVATE KEY", "ENCRYPTED PRIVATE KEY")
OF_PEM = "openssl ec -in FILE -outform DER -out key.der"
ASKS = "If OpenSSL reads it, this asks for the password and writes it in DER:"
OPENSSH = "This is OpenSSH's own form"
LABEL = re.compile(rb"-----BEGIN ([A-Z0-9 #.]{1,40})-----[ \t]*")
XXD = "This begins as the output of xxd. If it is that, this draws it:"
PUTTY = "This is PuTTY's own form. If puttygen reads it, this makes PEM of it:"
TEXTS = [
    (rb"00000000:", XXD, "xxd -r FILE | sec1_dump"),
    (rb"0000000|0000[ \t]",
     "This begins with an offset, as of hexdump or od: no hexadecimal alone.", None),
    (rb"PuTTY-User-Key-File-[^\r\n]*ssh-ed(25519|448)",
     "This is PuTTY's own form, of a key that puttygen makes no PEM of.", None),
    (rb"PuTTY-User-Key-File-", PUTTY, "puttygen FILE -O private-openssh -o key.pem"),
    (rb"ssh-|ecdsa-sha2-|sk-", "This begins as a public key of OpenSSH: no DER.", None),
    (rb"[ \t\r\n]*\{[ \t\r\n]*\"", "This is JSON, perhaps a JWK (RFC 7517): no DER.", None),
    (rb"", "This is text, and no PEM, hexadecimal or base64.", None),
]
WIDE = [(b"\xFF\xFE\0\0", 32), (b"\0\0\xFE\xFF", 32), (b"\xFF\xFE", 16), (b"\xFE\xFF", 16),
        (b"-\0-\0", 16), (b"\0-\0-", 16)]


# A part of an input that is drawn, or said to be something else; of a block of PEM its label and
# line, and whether the commands of OpenSSL read it.
Part = namedtuple("Part", "form data heading words command label line runs",
                  defaults=(None, None, (), None, None, None, True))


def decoded(written):
    """Returns the bytes that base64 with blanks encodes, or None: with padding, and unused bits of
    0."""
    written = written.translate(None, b" \t\r\n")
    try:
        found = base64.b64decode(written, validate=True)
    except binascii.Error:
        return None
    return found if base64.b64encode(found) == written else None


def blocks(given):
    """Returns the blocks of PEM, which begin and end with lines of their own."""
    found, is_first, lines = [], True, re.split(rb"\r\n|\n|\r", given)
    for number, line in enumerate(lines, 1):
        begin = LABEL.fullmatch(line)
        if begin:
            body = [*itertools.takewhile(lambda it: not it.startswith(b"-----"), lines[number:])]
            label, end = begin[1].decode(), b"-----END " + begin[1] + b"-----"
            after = b"".join(lines[number + len(body):][:1])
            is_ended = after.rstrip(b" \t") == end
            found.append(block(given, is_first, number, label, body, is_ended))
            is_first = is_first and not label.endswith("PRIVATE KEY")
    return found


def split_headers(lines):
    """Returns the headers of a block, and the lines after them."""
    at = next((number for number, line in enumerate(lines) if not line.strip(b" \t")), 0)
    if any(b":" in header for header in lines[:at]):
        return lines[:at], lines[at + 1:]
    return [], lines


def mended(written):
    """Returns the bytes of a text that is almost base64, if they are a whole tree."""
    digits = re.sub(rb"[^A-Za-z0-9+/_-]", b"", re.sub(rb"\\[nr]", b"", written))
    digits = digits.translate(bytes.maketrans(b"-_", b"+/"))
    data = decoded(digits + b"=" * (-len(digits) % 4))
    return data if data and is_tree(data) else None


def wrong(written, words):
    """Returns what is wrong with a text that is almost base64: these words, if nothing else."""
    if re.search(rb"\\[nr]", written):
        return ", with \\n for line ends"
    return ", in base64url" if re.search(rb"[-_]", written) else f", {words}"


def pem(label, line, told, is_ended, **more):
    """Returns a block of PEM of which this is told."""
    ending = "" if is_ended else ", with no line END"
    heading = shortened(f"PEM at line {line}, {label}: {told}{ending}")
    return Part("pem", heading=heading, label=label, line=line, **more)


def block(given, is_first, number, label, lines, is_ended):
    """Returns a block of an input, of which it may be the first key."""
    headers, body = split_headers(lines)
    written = b"\n".join(body)
    data, words, command = decoded(written), [], None
    is_encrypted = any(header.startswith(b"Proc-Type: 4,ENCRYPTED") for header in headers)
    runs = is_first and is_ended and label in KEYS and b"\n" in given
    runs = runs and (is_encrypted or not headers)
    if label.startswith("PGP "):
        data, told = None, "OpenPGP (RFC 9580), not drawn"
    elif is_encrypted:
        data, told = None, "encrypted (RFC 1421), not drawn"
        if label == "EC PRIVATE KEY" and runs:
            words, command = [ASKS], OF_PEM
    elif label == "OPENSSH PRIVATE KEY" and data is not None:
        words = [f"{OPENSSH}."]
        if b"ssh-ed25519" in data:
            words = [f"{OPENSSH}, of a key that ssh-keygen makes no PEM of."]
        elif b"\r" not in given:
            words = [f"{OPENSSH}. If ssh-keygen reads it, this makes PEM of a copy of it:"]
            command = "ssh-keygen -p -m PEM -f COPY"
        data, told = None, "no DER, not drawn"
    elif data is None:
        data, runs = mended(written), False
        amiss = wrong(written, "with other characters in it")
        told = f"{count_of(len(data))}{amiss}" if data else "no base64, not drawn"
    else:
        told = count_of(len(data))
    return pem(label, number, told, is_ended, data=data, words=words, command=command, runs=runs)


def almost_pem(given):
    """Returns the first block that begins or ends anywhere, if it is almost one; or None."""
    front, begin, after = given.partition(b"-----BEGIN ")
    if not begin:
        front, _, after = given.partition(b"-----END ")
    label, dashes, rest = after.partition(b"-----")
    written, words, is_ended = front, "with no line BEGIN", True
    if begin:
        written = rest.partition(b"-----")[0]
        words = "indented or quoted" if re.search(rb"[\r\n]", written) else "with no line ends"
        is_ended = rest[len(written):].startswith(b"-----END " + label + b"-----")
    data = mended(written)
    if data is None or not LABEL.fullmatch(b"-----BEGIN " + label + dashes):
        return None
    told, line = f"{count_of(len(data))}{wrong(written, words)}", front.count(b"\n") + 1
    return pem(label.decode(), line, told, is_ended, data=data, runs=False)


def hexadecimal(given):
    """Returns the bytes of hexadecimal, or None: each run of digits is of whole bytes."""
    runs = re.split(rb"[ \t\r\n:,]+", given.replace(b"0x", b"").replace(b"0X", b""))
    is_whole = all(re.fullmatch(rb"(?:[0-9A-Fa-f]{2})*", run) for run in runs)
    return bytes.fromhex(b"".join(runs).decode()) if is_whole else None


def is_text(given):
    """Returns whether an input is text: UTF-8 without control characters but those of lines."""
    try:
        return re.fullmatch(r"[^\0-\x08\v\f\x0E-\x1F]+", given.decode()) is not None
    except UnicodeDecodeError:
        return False


def parts(given):
    """Returns the parts of an input."""
    if not is_text(given):
        if is_tree(given):
            return [Part("der", given)]
        size = None if len(given) in RAW else next(
            (size for mark, size in WIDE if given.startswith(mark)), None)
        said = [f"This begins as text in UTF-{size}. Write it in UTF-8 first."]
        return [Part("text", words=said)] if size else blocks(given) or [Part("der", given)]
    given = given.removeprefix(b"\xEF\xBB\xBF")
    found = blocks(given)
    if found:
        return found
    words, command = next(row[1:] for row in TEXTS if re.match(row[0], given))
    if given[:4] != b"0000" or "text" in words:
        part, amiss = almost_pem(given), wrong(given, "with other characters in it")
        if part:
            return [part]
        for form, name, data, amiss in (("hex", "hexadecimal", hexadecimal(given), ""),
                                        ("base64", "base64", decoded(given), ""),
                                        ("base64", "base64", mended(given), amiss)):
            if data:
                return [Part(form, data, f"{name}: {count_of(len(data))}{amiss}")]
    return [Part("text", words=[words], command=command)]
