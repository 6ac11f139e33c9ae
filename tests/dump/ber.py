"""Headers of elements in BER (X.690 section 8.1), where their contents end, and whole trees."""
import re
from functools import reduce

LIMIT = (1 << 24) - 1
LEVELS = 64
# a tag number in the high form, of four bytes at most
NUMBER = re.compile(rb"[\x80-\xFF]{0,3}[\0-\x7F]")


class NoElement(Exception):
    """No element is at a place."""


class Header:
    """A tag and a length, of BER."""

    def __init__(self, data, at, end):
        if at >= end or data[at] in (0, 0x20):
            raise NoElement
        self.at, self.first, self.marks = at, data[at], []
        self.number, self.constructed = self.first & 31, self.first & 32 == 32
        at = self.high_number(data, at + 1, end) if self.number == 31 else at + 1
        self.start = self.read_length(data, at, end)
        # where the content ends, here at the latest
        stop = end if self.length is None else self.start + self.length
        self.stop, self.is_cut = min(stop, end), stop > end

    def high_number(self, data, at, end):
        """Reads a number in the high form, and returns where it ends."""
        digits = NUMBER.match(data, at, end)
        if not digits:
            raise NoElement
        self.number = base_128(digits[0])
        if data[digits.start()] == 128:
            self.marks.append(("tag", "tag number with a needless byte 80 (X.690 8.1.2.4.2)"))
        elif self.number < 31:
            self.marks.append(("tag", "tag number below 31 in the high form (X.690 8.1.2.2)"))
        return digits.end()

    def read_length(self, data, at, end):
        """Reads a length, None if it is indefinite, and returns where it ends."""
        if at >= end or data[at] > 132 or data[at] == 128 and not self.constructed:
            raise NoElement
        count, at = data[at], at + 1
        self.length = None if count == 128 else count
        if count == 128:
            said = "indefinite length (X.690 8.1.3.6); DER has definite ones (10.1)"
            self.marks.append(("indefinite", said))
        elif count > 128:
            digits, at = data[at:at + count - 128], at + count - 128
            self.length = int.from_bytes(digits, "big")
            if at > end or self.length > LIMIT:
                raise NoElement
            if self.length < 128 or digits[0] == 0:
                self.marks.append(("length", "length in more bytes than needed (X.690 10.1)"))
        return at

    def is_type(self, *numbers):
        """Returns whether this is the tag of one of these types of X.680."""
        return self.first < 64 and self.number in numbers


def base_128(digits):
    """Returns the number that the low seven bits of each byte are."""
    return reduce(lambda number, digit: number * 128 + digit % 128, digits, 0)


def end_of(data, at, end, levels=LEVELS):
    """Returns where an element ends that begins here, if it is whole up to here, of at most so many
    levels; or None."""
    try:
        head = Header(data, at, end)
    except NoElement:
        return None
    if levels == 0 or head.is_cut:
        return None
    is_open, at = head.length is None, head.start if head.constructed else head.stop
    while at is not None and (is_open or at < head.stop):
        if is_open and data[at:min(at + 2, end)] == b"\0\0":
            return at + 2
        at = end_of(data, at, head.stop, levels - 1)
    return at


def is_tree(data):
    """Returns whether bytes are one element, whole, and no more."""
    return end_of(data, 0, len(data)) == len(data)


def count_of(number, word="byte"):
    return f"{number} {word}" if number == 1 else f"{number} {word}s"


def shortened(line):
    """Returns a line of at most 100 characters."""
    return line if len(line) <= 100 else line[:97] + "..."
