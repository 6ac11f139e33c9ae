"""The values of contents, and the names of types and identifiers (X.680, X.690)."""
import re

import make_names
from ber import base_128, count_of

CLASSES = ("universal", "application", "context", "private")
TYPES = {
    1: "BOOLEAN", 2: "INTEGER", 3: "BIT STRING", 4: "OCTET STRING", 5: "NULL",
    6: "OBJECT IDENTIFIER", 7: "ObjectDescriptor", 8: "EXTERNAL", 9: "REAL", 10: "ENUMERATED",
    11: "EMBEDDED PDV", 12: "UTF8String", 13: "RELATIVE-OID", 14: "TIME", 16: "SEQUENCE",
    17: "SET", 18: "NumericString", 19: "PrintableString", 20: "TeletexString",
    21: "VideotexString", 22: "IA5String", 23: "UTCTime", 24: "GeneralizedTime",
    25: "GraphicString", 26: "VisibleString", 27: "GeneralString", 28: "UniversalString",
    29: "CHARACTER STRING", 30: "BMPString",
}
# the types of X.690 10.2: those whose contents are strings
STRINGS = (3, 4, 12, *range(18, 29), 30)
# those whose contents are characters that are shown: no UniversalString
LETTERS = (12, *range(18, 23), *range(25, 28), 30)
NAMES = make_names.names()


def subidentifiers(content):
    """Returns the subidentifiers of an identifier (X.690 8.19.2), or None."""
    if not content or content[-1] > 127:
        return None
    parts = re.findall(rb"[\x80-\xFF]*[\0-\x7F]", content)
    return None if any(part[0] == 128 for part in parts) else [*map(base_128, parts)]


def identifier(content):
    """Returns the dotted text of an identifier (X.690 8.19), or None."""
    arcs = subidentifiers(content)
    if arcs is None:
        return None
    first = min(arcs[0] // 40, 2)
    return ".".join(map(str, [first, arcs[0] - 40 * first] + arcs[1:]))


def is_named(content):
    """Returns whether sec1 reads an identifier: at most 39 bytes, each number below 2^32."""
    arcs = subidentifiers(content)
    return arcs is not None and len(content) <= 39 and max(arcs) >> 32 == 0


def escaped(characters):
    """Returns a text of which all but 20 to 7E is escaped."""
    text = re.sub(r'["\\]', r"\\\g<0>", characters)
    return re.sub("[^ -~]", lambda it: f"\\u{{{ord(it[0]):X}}}", text)


FITS = {
    18: re.compile(r"[0-9 ]*"), 19: re.compile(r"[A-Za-z0-9 '()+,./:=?-]*"),
    22: re.compile("[\0-\x7f]*"), 26: re.compile("[ -~]*"),
}


def characters_of(number, content):
    """Returns the characters of a string, or None."""
    encoding = {12: "utf-8", 30: "utf-16-be"}.get(number, "latin-1")
    try:
        found = content.decode(encoding)
    except UnicodeDecodeError:
        return None
    return found if number not in FITS or FITS[number].fullmatch(found) else None


def time_of(number, content):
    """Returns the text of a time, or None."""
    digits = 2 if number == 23 else 4
    form = rb"(\d{%d})" % digits + rb"(\d\d)" * 5 + rb"(\.\d*[1-9])?Z"
    found = re.fullmatch(form, content)
    if not found or number == 23 and found[7]:
        return None
    year, month, day, hour, minute, second = map(int, found.groups()[:6])
    if number == 23:
        year += 1900 if year >= 50 else 2000
    leap = year % 4 == 0 and (year % 100 != 0 or year % 400 == 0)
    days = [31, 28 + leap, 31, 30, 31, 30, 31, 31, 30, 31, 30, 31]
    if not 1 <= month <= 12 or not 1 <= day <= days[month - 1] or (
            hour > 23 or minute > 59 or second > 59):
        return None
    fraction = (found[7] or b"").decode()
    return f"{year:04}-{month:02}-{day:02} {hour:02}:{minute:02}:{second:02}{fraction}Z"


def is_valid(head, content):
    """Returns whether a content may be one of its type, where one that is shown must be."""
    if head.constructed or head.is_type(28):
        return False
    if head.is_type(2, 10):
        wide = len(content) > 1 and (content[0], content[1] >> 7) in ((0, 0), (255, 1))
        return len(content) > 0 and not wide
    if head.is_type(23, 24):
        return re.fullmatch(rb"\d{%d}Z" % (12 if head.number == 23 else 14), content) is not None
    if head.is_type(30):
        letters = zip(content[::2], content[1::2])
        return len(content) % 2 == 0 and not any(
            high == 0 and is_control(low) for high, low in letters)
    return not head.is_type(*LETTERS) or not any(map(is_control, content))


def is_control(byte):
    return byte < 0x20 or byte == 0x7F


def point_of(head, content):
    """Returns the form and size of a point, of whose content these bytes are shown; nothing if that
    has unused bits."""
    before = 0 if head.first == 4 else 1
    if before and content[0]:
        return ""
    if not content[before:]:
        return "no point"
    tag, count = content[before], head.length - before - 1
    if tag in (4, 6, 7) and count and count % 2 == 0:
        return f"{'uncompressed' if tag == 4 else 'hybrid'}, 2 x {count_of(count // 2)}"
    if tag in (2, 3, 5) and count:
        return f"{'compact' if tag == 5 else 'compressed'}, {count_of(count)}"
    return "the point at infinity" if tag == 0 and count == 0 else "no point"


UNUSED = "more than 7 unused bits (X.690 8.6.2.2)"
# By types, which contents are wrong, and what is said of one by the first rule that it breaks.
RULES = [
    ([1], lambda it: len(it) != 1, "BOOLEAN has 1 byte (X.690 8.2.1)"),
    ([1], lambda it: it[0] not in (0, 255), "TRUE is FF (X.690 11.1)"),
    ([2, 10], lambda it: not it, "INTEGER has a byte or more (X.690 8.3.1)"),
    ([3], lambda it: not it, "BIT STRING has a byte or more (X.690 8.6.2.2)"),
    ([3], lambda it: it[0] > 7, UNUSED),
    ([3], lambda it: it[0] and not it[1:], "unused bits in an empty BIT STRING (X.690 8.6.2.3)"),
    ([3], lambda it: it[-1] % (1 << it[0]), "unused bits that aren't 0 (X.690 11.2.1)"),
    ([5], lambda it: it, "NULL has no content (X.690 8.8.2)"),
    ([6], lambda it: identifier(it) is None, "no identifier (X.690 8.19.2)"),
    ([23], lambda it: time_of(23, it) is None, "not YYMMDDhhmmssZ (X.690 11.8)"),
    ([24], lambda it: time_of(24, it) is None, "not YYYYMMDDhhmmss[.f]Z (X.690 11.7)"),
    *(([number], lambda it, number=number: characters_of(number, it) is None,
       f"not the characters of {TYPES[number]}") for number in LETTERS),
]


class Label:
    """The type of a row and its value, as they are printed, and the members of its JSON."""

    def __init__(self, data, row):
        self.value, self.oid, self.note, self.is_all = None, None, None, False
        head = row.head
        if head is None:
            self.type = row.kind
            count = count_of(row.stop - row.at)
            self.text = f"{count} not drawn" if row.kind == "not drawn" else row.kind
            return
        space = CLASSES[head.first >> 6]
        bare = {"universal": "UNIVERSAL ", "context": ""}.get(space, space.upper() + " ")
        self.type = TYPES.get(head.number) if space == "universal" else None
        self.type = self.type or f"[{bare}{head.number}]"
        self.text = self.type
        if row.opened:
            return
        content, is_bits = data[row.start:row.start + row.shown], head.is_type(3)
        self.text += f", {count_of(max(0, head.length - is_bits))}"
        # of a point the form says more than its bits
        is_point = bool(row.field) and row.field.kind == "point"
        if is_point and content:
            self.note = point_of(head, content)
        unused = content[0] if content and (is_bits or is_point and head.first != 4) else 0
        if head.length > is_bits and 0 < unused < 8 or unused > 7 and is_bits and not is_point:
            self.text += f", {count_of(unused, 'unused bit')}"
        self.is_all = row.shown == row.stop - row.start and not row.missing and not head.constructed
        amiss = UNUSED if is_bits and unused > 7 else None
        if self.is_all and space == "universal":
            self.read(head.number, content, is_point)
            amiss = next((words for numbers, is_wrong, words in RULES
                          if head.number in numbers and is_wrong(content)), None)
        elif self.is_all and re.fullmatch(rb"[ -~]+", content) and not is_point:
            self.quote(content.decode())
        row.marks += [("content", amiss)] if amiss else []

    def give(self, value):
        self.value, self.text = value, f"{self.type} {value}"

    def quote(self, characters):
        self.value, self.text = characters, f"{self.type} \"{escaped(characters)}\""

    def read(self, number, content, is_point):
        """Reads a content of a type that has this number, if it has a value."""
        if number == 1 and len(content) == 1:
            self.give("TRUE" if content[0] else "FALSE")
        elif number in (2, 10) and 0 < len(content) <= 8:
            self.give(str(int.from_bytes(content, "big", signed=True)))
        elif number == 3 and 1 < len(content) < 5 and content[0] < 8 and not is_point:
            digits = "".join(f"{byte:08b}" for byte in content[1:])
            self.give(digits[:len(digits) - content[0]])
        elif number == 5 and not content:
            self.text = "NULL"
        # an arc of a UUID isn't longer (X.667 7)
        elif number == 6 and identifier(content) and not max(subidentifiers(content)) >> 128:
            self.oid = identifier(content)
            self.value = NAMES.get(self.oid)
            named = f"{self.value} ({self.oid})" if self.value else self.oid
            self.text = f"{self.type} {named}"
        elif number in (23, 24) and time_of(number, content):
            self.give(time_of(number, content))
        elif number in LETTERS and characters_of(number, content) is not None:
            self.quote(characters_of(number, content))
