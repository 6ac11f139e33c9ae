"""Draws any input as `sec1_dump` does, by a reader of its own, written from X.690, the standards of
the structures in `table.py` and docs/FORMATS.md. `text.py` reads the text of an input (PEM,
hexadecimal, base64), `ber.py` headers, `guard.py` finds the form and the rows, `values.py` reads
contents, and `words.py` says what the bytes are.
"""
import json
import pathlib
import sys

sys.path.insert(0, str(pathlib.Path(__file__).resolve().parent))
import text  # noqa: E402
import words  # noqa: E402
from ber import Header, NoElement, count_of, shortened  # noqa: E402
from guard import Plan, rows_of  # noqa: E402
from values import CLASSES, STRINGS, TYPES, Label, escaped  # noqa: E402

ORDER = ("missing", "tag", "length", "indefinite", "string", "content", "expected", "rest")
SECRET = ("privateKey", "the key", "privateExponent", "prime1", "prime2", "exponent1", "exponent2",
          "coefficient", "otherPrimeInfos", "x")


class Picture:
    """The rows of bytes, with what is printed of them."""

    def __init__(self, data, everything=False):
        self.data, self.everything, self.plan = data, everything, Plan(data)
        plan = self.plan
        is_named = plan.is_whole or plan.is_cut or not plan.is_private
        self.rows = []
        for row in rows_of(data, plan, everything):
            row.label = Label(data, row)
            row.name = row.field.name if row.field and is_named else None
            row.marks += self.marks_of(row)
            row.marks.sort(key=lambda mark: ORDER.index(mark[0]))
            is_hidden = row.name in SECRET and not row.opened and not row.label.is_all
            row.secret = is_hidden and not everything
            # the bytes that have no other row
            row.content = b"" if row.opened else data[row.start:row.stop]
            if row.kind != "not drawn" or row.stop > row.at or row.marks:
                self.rows.append(row)

    def marks_of(self, row):
        """Returns the marks of a row, but for those of its content."""
        found, head = [*row.head.marks] if row.head else [], row.head
        if row.missing:
            found.append(("missing", f"{row.missing} of {count_of(head.length)} missing"))
        if head and head.constructed and head.is_type(*STRINGS):
            found.append(("string", "constructed string; DER has primitive ones (X.690 10.2)"))
        if row.expected is not None and self.plan.is_private and not self.plan.is_cut:
            found.append(("expected", "expected " + expected_of(row.expected)))
        if row.kind == "not drawn" and row.depth == 0 and row.at:
            found.append(("rest", "after the end of the root"))
        return found


def expected_of(fields):
    """Returns the words for the fields that could come."""
    found = []
    for field in fields:
        kind = TYPES.get(field.tag & 31) if field.tag < 64 else f"[{field.tag & 31}]"
        kind = {0: "any element", 0x17: "UTCTime (17) or GeneralizedTime (18)"}.get(
            field.tag, f"{kind} ({field.tag:02X})")
        found.append(f"{field.name}, {kind}" if field.name else kind)
        if field.is_needed:
            return ", or ".join(found)
    return ", or ".join([*found, "the end"])


def lines_of(picture, row):
    """Returns the lines of a row."""
    label, header = row.label, picture.data[row.at:row.start]
    length = row.head.length if row.head else row.stop - row.start
    head, count = "".join(f" {byte:02X}" for byte in header), "?" if length is None else str(length)
    front = f"{row.at:>4}{head}{' ' * max(1, 20 - len(head) - len(count))}{count}  "
    told = "  " * min(row.depth, 16) + (f"{row.depth}: " if row.depth > 16 else "") + label.text
    name = row.name and row.name + ", not shown" * row.secret
    name = name if label.note is None else label.note
    if name:
        long = told + " " * max(2, 29 - len(told)) + name
        told = long if len(front + long) <= 100 else told
    lines, content = [shortened(front + told)], row.content
    is_said = label.value is not None or label.oid is not None
    if picture.everything and not (is_said and len(front + told) <= 100):
        lines += [" " * 26 + content[at:at + 16].hex(" ").upper()
                  for at in range(0, len(content), 16)]
    return lines + [shortened("     ^ " + said) for _, said in row.marks]


def object_of(picture, row):
    """Returns the members of a row; None is one that doesn't apply."""
    label, head = row.label, row.head
    content = row.content if picture.everything else b""
    members = {
        "depth": row.depth, "offset": row.at, "type": label.type, "name": row.name,
        "header_len": row.start - row.at, "oid": label.oid, "value": label.note or label.value,
        "len": None if head and head.length is None else row.stop - row.start,
        "faults": [{"kind": kind, "words": said} for kind, said in row.marks] or None,
        "secret": row.secret or None, "content": content.hex().upper() or None}
    if head:
        members |= {"class": CLASSES[head.first >> 6], "tag": head.number,
                    "constructed": head.constructed,
                    "opened": row.opened and not head.constructed or None,
                    "announced": head.length if row.missing else None}
    return members


def element_at(data, offset):
    """Returns the element that begins at an offset, as far as it is there, if it has a row: one in
    the content of others, of a BIT STRING behind its unused bits. Returns None if it has none."""
    if not any(row.head and row.at == offset for row in Picture(data).rows):
        return None
    at = 0
    while at <= offset:
        try:
            head = Header(data, at, len(data))
        except NoElement:
            return None
        if at == offset:
            return data[at:head.stop]
        is_behind = head.length is not None and head.stop <= offset
        at = head.stop if is_behind else head.start + (head.first == 3)
    return None


def last_of(said, command, is_key=False, mark=None):
    """Returns the last lines, and the members of the last one."""
    lines = [*said, "  " + command] if command else [*said]
    members = {"key": is_key, "words": " ".join(said) or None, "advice": command, "mark": mark}
    return lines, members


def drawn(data, everything=False, source="der", runs=True, depth=None):
    """Returns the lines of bytes, the members of those of JSON, and whether the bytes are a key's;
    of the rows those of at most such a depth."""
    picture = Picture(data, everything)
    told = words.Words(Picture(data), source, runs)
    rows = [row for row in picture.rows if depth is None or row.depth <= depth]
    lines = [line for row in rows for line in lines_of(picture, row)]
    mark = next((row.at for row in told.picture.rows if row.marks), None)
    said, last = last_of(told.lines, told.command, told.is_key, mark)
    return lines + said, [*(object_of(picture, row) for row in rows), last], told.is_key


def draw(given, everything=False, as_json=False, path=None, offset=0, depth=None):
    """Returns what is printed of an input, and whether it has a key; of the element alone that
    begins at an offset, if that isn't 0, and of the rows those of at most such a depth."""
    lines, values, found = [], [], False
    for part in text.parts(given):
        data, said, command = part.data, part.words, part.command
        values.append({"form": part.form, "bytes": None if data is None else len(data),
                       "file": path, "label": part.label, "line": part.line})
        lines += [part.heading] if part.heading else []
        if data is not None and offset:
            data, said = element_at(data, offset), [f"No element begins at offset {offset}."]
        if data is None:
            shown, last = last_of(said, command)
            members, is_key = [last], False
        else:
            # no command reads a part of a file
            runs = part.runs and not offset
            shown, members, is_key = drawn(data, everything, part.form, runs, depth)
        lines, values, found = lines + shown, values + members, found or is_key
    if as_json:
        values = [{key: it for key, it in value.items() if it is not None} for value in values]
        lines = [json.dumps(value, separators=(",", ":"), sort_keys=True) for value in values]
    return "".join(line + "\n" for line in lines), found
