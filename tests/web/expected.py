"""What the page has to show of an input: the lines that the library for C gives, built for this
machine by a C compiler alone, what each is of, and which contents are hidden until they are asked
for. That these lines are right is tested in tests/dump.
"""
import ctypes
import itertools
import pathlib
import re
import subprocess
import tempfile
import unicodedata
from collections import namedtuple
from dataclasses import dataclass

TOP = pathlib.Path(__file__).resolve().parent.parent.parent
HEADING, ROW, MARK = range(3)
BUFFER = 7
# A letter that a line has escaped, which a page needn't.
LETTER = re.compile(r"\\u\{([0-9A-F]{1,6})\}")
# Letters that have no shape.
BLANK = "\u115f\u1160\u2800\u3164\uffa0"
# An item of the page's table: its number, the texts of its columns, its marks, what its button
# says, and its level.
Item = namedtuple("Item", "index columns marks button level")


def built():
    """Returns the library, built in a folder that goes away."""
    with tempfile.TemporaryDirectory() as room:
        subprocess.run(["make", "-s", "-C", TOP / "dist", f"BUILD={room}"], check=True)
        return ctypes.CDLL(str(next(pathlib.Path(room).glob("libsec1.so.*.*"))))


LIBRARY = built()


def drawn(data, all_rows=False, most=0):
    """Returns the text of the picture of an input, which may have room for it."""
    size, length, is_key = ctypes.c_size_t, ctypes.c_size_t(), ctypes.c_size_t()
    room_len = 2 * len(data) + 2 + most
    room, text = (ctypes.create_string_buffer(it + 1) for it in (room_len, most))
    status = LIBRARY.sec1_picture_draw(
        data, size(len(data)), size(all_rows), room, size(room_len), text, size(most),
        ctypes.byref(length), ctypes.byref(is_key))
    if status == BUFFER:
        return drawn(data, all_rows, length.value)
    return text.raw[:length.value].decode("ascii")


def numbers(data, most):
    """Returns the numbers of each line, and what was decoded."""
    room_len, count = 2 * len(data) + 2, ctypes.c_size_t()
    room, found = ctypes.create_string_buffer(room_len), (ctypes.c_size_t * (6 * most))()
    size = ctypes.c_size_t
    LIBRARY.sec1_picture_lines(data, size(len(data)), room, size(room_len), found, size(most),
                               ctypes.byref(count))
    assert count.value == most
    return [tuple(found[at:at + 6]) for at in range(0, 6 * most, 6)], room.raw


@dataclass(eq=False)
class Line:
    """A line: its text, its kind, and of a row its place and whether its content is hidden."""

    words: str
    kind: int
    offset: int = 0
    header: int = 0
    content: int = 0
    depth: int = 0
    hidden: bool = False
    part: int = 0

    def __post_init__(self):
        # Bytes that are no element may be of any key.
        self.hidden = self.kind == ROW and self.content > 0 and bool(self.hidden or not self.header)
        self.start = self.offset + self.header
        self.end = self.start + self.content

    @property
    def columns(self):
        """The columns of a row: its offset, header, length, element and field."""
        front, rest = self.words.split(None, 1)
        digits, rest = rest[:3 * self.header].strip(), rest[max(0, 3 * self.header - 1):]
        length, words = rest.split(None, 1)
        quoted = re.match(r'[^"]*"(?:[^"\\]|\\.)*(?:"|$)', words)
        gap = words.find("  ", quoted.end() if quoted else 0)
        element, field = (words[:gap], words[gap:].strip()) if gap >= 0 else (words, "")
        return [front, digits, length, lettered(element), field]


def lettered(words):
    """Returns a line with letters in the place of their escapes."""
    def letter(it):
        one = chr(int(it[1], 16))
        return one if unicodedata.category(one)[0] in "LNPS" and one not in BLANK else it[0]

    return LETTER.sub(letter, words)


@dataclass
class View:
    """How an input is drawn: its lines, and the bytes of each of its parts."""

    lines: list
    parts: list

    @property
    def rows(self):
        """The lines that are rows."""
        return [line for line in self.lines if line.kind == ROW]

    @property
    def said(self):
        """What is said above the table."""
        return [line.words.strip() for line in self.lines if line.kind not in (ROW, MARK)]

    @property
    def items(self):
        """The items of the table: the rows, and where there are several parts their headings."""
        items = []
        for line in self.lines:
            if line.kind == ROW:
                button = "show" if line.hidden else None
                items.append(Item(len(items), line.columns, [], button, line.depth + 1))
            elif line.kind == HEADING and len(self.parts) > 1:
                items.append(Item(len(items), [line.words], [], None, 0))
            elif line.kind == MARK:
                items[-1].marks.append(line.words.strip())
        return items


def view(given):
    """Returns how an input is drawn; without a heading it is its only part."""
    words = drawn(given).splitlines()
    found, room = numbers(given, len(words))
    lines, parts = [Line(text, *of) for text, of in zip(words, found)], []
    for line in lines:
        if line.kind == HEADING:
            parts.append(room[line.offset:line.offset + line.content])
        elif not parts:
            parts.append(given)
        line.part = len(parts) - 1
    return View(lines, parts)


def after(rows, at):
    """Returns the place of the first row behind one that isn't inside of it."""
    inside = itertools.takewhile(lambda it: it.depth > rows[at].depth, rows[at + 1:])
    return at + 1 + sum(1 for _ in inside)
