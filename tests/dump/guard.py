"""Which form bytes have, how they are drawn, and their rows: docs/FORMATS.md, "The picture of
`sec1_dump`"."""
from functools import lru_cache

from ber import LEVELS, Header, NoElement, is_tree
from table import ALL, CLOSED, PRIVATE, RAW, STRUCTURES, Field, fields_after
from values import is_valid


class Row:
    """A header, an end-of-contents, or bytes that aren't drawn."""

    def __init__(self, at, depth, stop, head=None, kind=None, expected=None):
        self.at, self.depth, self.stop, self.head, self.kind = at, depth, stop, head, kind
        # an end-of-contents is a header alone
        self.start = head.start if head else at if kind == "not drawn" else stop
        # the bytes that the header has beyond the end of the row
        self.missing = head.start + head.length - stop if head and head.length is not None else 0
        # the fields that could stand here, where none of them does
        self.expected = expected
        self.field, self.opened, self.shown, self.marks = None, False, 0, []


# What any elements are.
ANY = [Field(0, "*", "hidden", "")]


class Ended(Exception):
    """The rows have ended before the bytes."""


class Walk:
    """The rows of bytes by a form, or of any elements if it is none; or by the fields of a
    structure, which they are inside of."""

    def __init__(self, data, form=None, is_loose=False, is_tree=False, inside=None):
        self.data, self.is_loose, self.is_tree = data, is_loose, is_tree
        self.rows, self.is_whole, self.is_cut = [], False, False
        try:
            if inside:
                self.draw_inside(0, len(data), 0, STRUCTURES[inside], False)
            else:
                self.draw_root(form and form.root)
            self.is_whole = not self.is_cut
        except Ended:
            pass

    def draw_root(self, root):
        """Draws the root, which has to be this field, if it is one."""
        try:
            head = Header(self.data, 0, len(self.data))
        except NoElement:
            self.end(0, 0)
        self.is_cut = head.is_cut
        if root and self.next_of([root], head)[0] is None:
            self.end(0, 0)
        after = self.draw(head, 0, root)
        if after < len(self.data):
            self.end(after, 0)

    def left(self):
        """Returns how many bytes aren't drawn."""
        return sum(row.stop - row.at for row in self.rows if row.kind == "not drawn")

    def end(self, at, depth, fields=None):
        """Ends the rows where these fields could stand: what follows isn't drawn."""
        expected = ANY if fields is None and depth else fields
        self.rows.append(Row(at, depth, len(self.data), None, "not drawn", expected))
        raise Ended

    def draw(self, head, depth, field, expected=None):
        """Draws an element that is this field, if it is one, and what is in it. Returns where it
        ends."""
        row = Row(head.at, depth, head.start if head.length is None else head.stop, head)
        row.field, row.expected = field, expected
        self.rows.append(row)
        fields = self.fields_in(field, head)
        if fields is not None or head.length is None or self.is_loose and head.constructed:
            row.opened, is_loose = True, self.is_loose
            # what is whole is drawn so
            self.is_loose = is_loose and not (field and (field.whole or field.bits))
            start = head.start + bool(field and field.bits)
            after = self.draw_inside(start, head.stop, depth + 1, fields, head.length is None)
            self.is_loose = is_loose
            return after
        row.shown = self.shown(row)
        return head.stop

    def fields_in(self, field, head):
        """Returns the fields in an element that is this field; None if they aren't named."""
        if field is None:
            return None
        inside, content = field.inside, self.data[head.start:head.stop]
        if field.whole and Walk(content, inside=field.whole).is_whole:
            inside = field.whole
        # X.690 section 8.6.2: the number of unused bits, and bits
        if field.bits and content[:1] == b"\0" and Walk(content[1:], inside=field.bits).is_whole:
            inside = field.bits
        return STRUCTURES.get(inside)

    def draw_inside(self, at, stop, depth, fields, is_open):
        """Draws the elements of a content: these fields, or any elements, up to an end-of-contents
        if it is open. Returns where the next element begins."""
        while True:
            is_end = is_open and self.data[at:min(at + 2, stop)] == b"\0\0"
            is_last = at >= stop and (self.is_loose or not is_open)
            lacks = any(field.is_needed for field in fields or [])
            if (is_end or is_last) and (self.is_loose or not lacks):
                break
            try:
                head = Header(self.data, at, stop)
            except NoElement:
                self.end(at, depth, fields)
            field, rest = self.next_of(fields, head)
            expected = None if field else fields
            if depth == LEVELS or (expected is not None or head.is_cut) and not self.is_loose:
                self.end(at, depth, fields)
            at, fields = self.draw(head, depth, field, expected), rest
        if lacks:
            self.rows.append(Row(at, depth, at, None, "not drawn", fields))
        if is_end:
            self.rows.append(Row(at, depth - 1, at + 2, None, "end-of-contents"))
        return at + 2 * is_end

    def next_of(self, fields, head):
        """Returns the first of these fields that an element can be, and those that may follow."""
        content = self.data[head.start:head.stop]
        is_there = head.length == len(content)
        for number, field in enumerate(fields or []):
            if field.has_tag(head.first):
                if not field.admits(content) or field.is_exact and not is_there:
                    break
                is_told = is_there and not head.constructed
                after = fields_after(field.name, content) if is_told else None
                rest = fields[number + (field.presence != "*"):]
                return field, rest if after is None else after
            if field.is_needed:
                break
        return None, None

    def shown(self, row):
        """Returns how many bytes are shown of a content that has no rows."""
        content, field, head = self.data[row.start:row.stop], row.field, row.head
        if row.missing:
            return 0
        if field is None:
            # a whole tree: short contents of a few types
            is_short = head.is_type(6) and len(content) <= 12
            is_short |= head.is_type(1) and len(content) == 1
            is_short |= head.is_type(2, 10) and len(content) <= 8 and is_valid(head, content)
            return len(content) if self.is_tree and is_short and not head.constructed else 0
        if field.kind == "point":
            return min(len(content), 1 if head.is_type(4) else 2)
        is_shown = field.arcs or field.kind == "version" or is_valid(head, content) and (
            field.kind == "short" or field.kind == "shown" and len(content) <= field.most)
        return len(content) if is_shown else 0


@lru_cache(maxsize=1 << 16)
def form_of(data):
    """Returns the form of bytes, and whether they are wholly of it; None for none. Of two that as
    many bytes don't follow it is the one that is followed to the end, or else the earlier one."""
    walks = [(form, Walk(data, form)) for form in ALL]
    form, walk = min(walks, key=lambda it: (it[1].left(), not it[1].is_whole))
    kids = sum(row.depth == 1 and row.head is not None for row in walk.rows)
    return (form, walk.is_whole) if walk.is_whole or kids >= 2 else (None, False)


def is_retagged(data):
    """Returns whether a whole tree is an ECPrivateKey (RFC 5915 section 3) whose privateKey has the
    tag of another primitive type, and, if no field follows, the length of one of RAW."""
    parts = [(row.head.first, row.stop - row.start) for row in Walk(data, None, True).rows
             if row.head and row.depth == 1]
    if data[0] != 0x30 or len(parts) < 2 or parts[0] != (2, 1):
        return False
    (tag, length), others = parts[1], bytes(first for first, _ in parts[2:])
    is_field = others in (b"\xA0", b"\xA1", b"\xA0\xA1") or not others and length in RAW
    return tag & 0xE0 == 0 and tag != 4 and is_field


class Plan:
    """What bytes are, and how they are drawn."""

    def __init__(self, data):
        self.is_tree = is_tree(data)
        self.form, self.is_whole = form_of(data)
        if self.form is None and self.is_tree and is_retagged(data):
            self.form = ALL[0]
        self.is_cut = bool(self.form) and Walk(data, self.form).is_cut
        secrecy = self.form.secrecy if self.form else None
        self.is_private, is_hidden = secrecy == PRIVATE, secrecy in (PRIVATE, CLOSED)
        self.is_strict = self.is_private and self.is_whole or is_hidden and not self.is_tree


def rows_of(data, plan, everything=False):
    """Returns the rows of bytes."""
    if not plan.is_tree and not plan.form:
        return [Row(0, 0, len(data), kind="not drawn")] if data else []
    return Walk(data, plan.form, everything or not plan.is_strict, plan.is_tree).rows


def mask_of(data):
    """Returns bytes with 00 for each of a content that isn't shown, and FF for what isn't drawn."""
    mask = bytearray(data)
    for row in rows_of(data, Plan(data)):
        start, filler = row.start + row.shown, b"\xFF" if row.kind == "not drawn" else b"\0"
        if not row.opened:
            mask[start:row.stop] = filler * (row.stop - start)
    return bytes(mask)
