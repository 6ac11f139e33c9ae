"""A reader of certificates, public keys, containers of private keys and ECDSA signatures in DER,
written from X.690, RFC 5280, RFC 5958 and RFC 3279 alone and apart from the crates. It stands
beside them to say what they have to print.

The reader of each word returns the fields as text. Faults are found from left to right: of each
element its tag, its length, its end and its content, and then of what follows it.
"""
import contextlib
import re

from certificates import writer

LIMIT = 0x0FFFFFFF
BOOLEAN, INTEGER, BIT_STRING, OCTET_STRING, IDENTIFIER = 0x01, 0x02, 0x03, 0x04, 0x06
UTC_TIME, GENERALIZED_TIME, SEQUENCE, SET = 0x17, 0x18, 0x30, 0x31
V1, V2, V3 = b"\x00", b"\x01", b"\x02"


class Refused(Exception):
    """The bytes are refused; the one argument is the kind."""


def demand(holds, kind="Value"):
    if not holds:
        raise Refused(kind)


def is_tag(byte):
    """A tag of one byte that isn't end-of-contents (X.690 sections 8.1.2 and 8.1.5)."""
    return byte != 0 and byte & 0x1F != 0x1F


class Elements:
    """The elements in a content, which are read one after another."""

    def __init__(self, data):
        self.data, self.at = data, 0

    def more(self):
        return self.at < len(self.data)

    def is_next(self, tag):
        return self.more() and self.data[self.at] == tag

    def take(self, count):
        """Reads so many bytes."""
        demand(self.at + count <= len(self.data), "Truncated")
        self.at += count
        return self.data[self.at - count : self.at]

    def length(self):
        """Reads a length in its one form (X.690 section 10.1)."""
        (first,) = self.take(1)
        if first < 0x80:
            return first
        demand(0x81 <= first <= 0x84, "Length")
        digits = self.take(first - 0x80)
        number = int.from_bytes(digits, "big")
        demand(digits[0] != 0 and 0x80 <= number <= LIMIT, "Length")
        return number

    def read(self, tag):
        """Reads an element with this tag, or with any for None. Returns its content."""
        (found,) = self.take(1)
        demand(is_tag(found) if tag is None else found == tag, "Tag")
        return self.take(self.length())

    def read_whole(self, check=lambda elements: elements.read(None)):
        """Has this function read an element, by default any. Returns its bytes."""
        start = self.at
        check(self)
        return self.data[start : self.at]

    def finish(self):
        demand(not self.more(), "TrailingData")

    @contextlib.contextmanager
    def inside(self, tag):
        """Gives the elements in one with this tag, all of which have to be read."""
        inner = Elements(self.read(tag))
        yield inner
        inner.finish()

    def each(self, check):
        """Has this function read each element, and returns their bytes."""
        return [self.read_whole(check) for _ in iter(self.more, False)]


def digits(data):
    return "-" if data is None else data.hex() or "empty"


def integer(content):
    """X.690 sections 8.3.1 and 8.3.2: the first nine bits aren't all the same."""
    demand(content)
    if len(content) > 1:
        demand(content[0] != 0x00 or content[1] >= 0x80)
        demand(content[0] != 0xFF or content[1] < 0x80)
    return content


def unsigned(content):
    """Returns the number's bytes without the byte that is there for its sign."""
    demand(integer(content)[0] < 0x80)
    return content[1:] if len(content) > 1 and content[0] == 0 else content


def identifier(content):
    """X.690 section 8.19.2: subidentifiers; none begins with 80, and the last one ends."""
    demand(re.fullmatch(rb"(([\x81-\xff][\x80-\xff]*)?[\x00-\x7f])+", content))
    return content


def bits(content):
    """X.690 sections 8.6.2 and 11.2: the count of unused bits, which are zero, and the bytes."""
    demand(content and content[0] <= 7)
    demand(content[0] == 0 or len(content) > 1 and content[-1] % (1 << content[0]) == 0)
    return content


def is_moment(year, text):
    """Whether MMDDhhmmss is a time in this year, to the second."""
    month, day, hour, minute, second = (int(text[at : at + 2]) for at in range(0, 10, 2))
    leap = year % 4 == 0 and (year % 100 != 0 or year % 400 == 0)
    days = [31, 29 if leap else 28, 31, 30, 31, 30, 31, 31, 30, 31, 30, 31]
    is_day = 1 <= month <= 12 and 1 <= day <= days[month - 1]
    return is_day and hour < 24 and minute < 60 and second < 60


def time(elements):
    """RFC 5280 section 4.1: Time, a UTCTime or else a GeneralizedTime."""
    if elements.is_next(UTC_TIME):
        # X.690 section 11.8 and RFC 5280 section 4.1.2.5.1: YYMMDDhhmmssZ
        content = elements.read(UTC_TIME)
        demand(re.fullmatch(rb"[0-9]{12}Z", content))
        year = int(content[:2])
        demand(is_moment(year + (2000 if year < 50 else 1900), content[2:12]))
        return "u:" + content.decode()
    # X.690 section 11.7: YYYYMMDDhhmmssZ; a fraction of the second doesn't end in 0
    content = elements.read(GENERALIZED_TIME)
    demand(re.fullmatch(rb"[0-9]{14}(\.[0-9]*[1-9])?Z", content))
    demand(is_moment(int(content[:4]), content[4:14]))
    return "g:" + content.decode()


def algorithm(elements):
    """RFC 5280 section 4.1.1.2: the identifier's content, and the parameters' element."""
    with elements.inside(SEQUENCE) as inside:
        name, parameters = identifier(inside.read(IDENTIFIER)), None
        # A byte that is no tag begins no parameters, so that it is a byte too many.
        if inside.more() and is_tag(inside.data[inside.at]):
            parameters = inside.read_whole()
    return digits(name), digits(parameters)


def set_of(content, check):
    """Has the elements checked to the end, and then tests their order (X.690 section 11.6): the
    shorter encoding is padded with zeros."""
    members = Elements(content).each(check)
    for one, next_one in zip(members, members[1:]):
        size = max(len(one), len(next_one))
        demand(one.ljust(size, b"\0") <= next_one.ljust(size, b"\0"))
    return content


def attribute(elements):
    """RFC 5280 section 4.1.2.4: AttributeTypeAndValue."""
    with elements.inside(SEQUENCE) as inside:
        identifier(inside.read(IDENTIFIER))
        inside.read_whole()


def name(elements):
    """RFC 5280 section 4.1.2.4: a SEQUENCE OF SET OF AttributeTypeAndValue."""
    content = elements.read(SEQUENCE)
    Elements(content).each(lambda inside: set_of(inside.read(SET), attribute))
    return digits(content)


def extension(elements):
    """RFC 5280 section 4.1. FALSE, the default of `critical`, isn't written: X.690 section 11.5."""
    with elements.inside(SEQUENCE) as inside:
        identifier(inside.read(IDENTIFIER))
        if inside.is_next(BOOLEAN):
            demand(inside.read(BOOLEAN) == b"\xff")
        inside.read(OCTET_STRING)


def extensions(content):
    outer = Elements(content)
    row = outer.read(SEQUENCE)
    Elements(row).each(extension)
    outer.finish()
    return row


def version(elements):
    """RFC 5280 section 4.1.2.1. The default v1 isn't written: X.690 section 11.5."""
    if not elements.is_next(0xA0):
        return V1
    with elements.inside(0xA0) as inside:
        content = inside.read(INTEGER)
        demand(content in (V2, V3))
    return content


def optional(elements, tag, check):
    return digits(check(elements.read(tag))) if elements.is_next(tag) else "-"


def public_key_info(elements):
    """RFC 5280 section 4.1: SubjectPublicKeyInfo."""
    with elements.inside(SEQUENCE) as inside:
        return [*algorithm(inside), digits(bits(inside.read(BIT_STRING)))]


def certificate(elements):
    """RFC 5280 section 4.1: Certificate, of which a TBSCertificate is signed."""
    with elements.inside(SEQUENCE) as outer:
        with outer.inside(SEQUENCE) as inside:
            fields = [str(version(inside)[0] + 1), digits(integer(inside.read(INTEGER)))]
            fields += [":".join(algorithm(inside)), name(inside)]
            with inside.inside(SEQUENCE) as validity:
                fields += [time(validity), time(validity)]
            fields += [name(inside), *public_key_info(inside)]
            fields += [optional(inside, tag, bits) for tag in (0x81, 0x82)]
            fields.append(optional(inside, 0xA3, extensions))
        return [*fields, ":".join(algorithm(outer)), digits(bits(outer.read(BIT_STRING)))]


def key_attribute(elements):
    """RFC 5958 section 2: Attribute. Its values aren't examined."""
    with elements.inside(SEQUENCE) as inside:
        identifier(inside.read(IDENTIFIER))
        inside.read(SET)


def private_key_info(elements):
    """RFC 5958 section 2: OneAsymmetricKey. Version 0 has no public key."""
    with elements.inside(SEQUENCE) as inside:
        number = inside.read(INTEGER)
        demand(number in (V1, V2))
        fields = [str(number[0]), *algorithm(inside), digits(inside.read(OCTET_STRING))]
        fields.append(optional(inside, 0xA0, lambda content: set_of(content, key_attribute)))
        return [*fields, optional(inside, 0x81, bits) if number == V2 else "-"]


def signature(elements):
    """RFC 3279 section 2.2.3: ECDSA-Sig-Value."""
    with elements.inside(SEQUENCE) as inside:
        return [digits(unsigned(inside.read(INTEGER))) for _ in range(2)]


def answer(line):
    """Returns what crates/replay has to print for a line. The function of a word has its name."""
    word, text = line.split(" ")
    elements = Elements(bytes.fromhex(text))
    try:
        fields = globals()[word.replace("-", "_")](elements)
        elements.finish()
    except Refused as refused:
        return f"refused: {refused.args[0]}"
    same = "same" if writer.write(word, fields) == elements.data else "different"
    return " ".join([*fields, same])
