"""20,000 damaged copies of structures, the same in each run, as lines WORD HEX. Some are damaged as
bytes; of others the elements are changed and the lengths around them announce what they hold then,
so that the fault stands deeper, or there is none.
"""
import contextlib
import random

from certificates.reader import Elements

COUNT = 20_000
CONSTRUCTED = 0x20

# Contents to try, by the tag: some are right, some aren't.
BITS = ["", "00", "01", "07", "08", "0041", "0140", "0141", "0780", "07c0", "0800", "ff00"]
UTC_TIMES = [
    "000229000000Z", "010229000000Z", "500101000000Z", "491231235959Z", "001301000000Z",
    "000001000000Z", "000100000000Z", "000132000000Z", "000431000000Z", "000101240000Z",
    "000101006000Z", "000101000060Z", "000101000000z", "0001010000Z", "000101000000+0000",
    "000101000000", "00010100000Z", "000101000000.5Z", "20000101000000Z", "0001 1000000Z", "",
]
GENERALIZED_TIMES = [
    "20000229000000Z", "19000229000000Z", "00000229000000Z", "20240229235959Z", "20230229000000Z",
    "20240101000000.5Z", "20240101000000.50Z", "20240101000000.0Z", "20240101000000.Z",
    "20240101000000,5Z", "20240101000000.05Z", "20240101000000.5", "20240101000000", "2024010100Z",
    "20241301000000Z", "20240101000060Z", "202401010000Z", "20240101000000-0100", "99991231235959Z",
    "240101000000Z", "20240101000000.123456789012345678901Z", "20240101000000.5.5Z", "",
]
CONTENTS = {
    0x01: ["", "00", "01", "fe", "ff", "ffff"],
    0x02: ["", "00", "01", "02", "03", "7f", "80", "ff", "0000", "007f", "0080", "00ff", "ff00",
           "ff7f", "ff80", "ffff"],
    0x03: BITS,
    0x04: ["", "00"],
    0x05: ["", "00"],
    0x06: ["", "00", "2a", "80", "2a80", "2a81", "8001", "2a8001", "2a8100", "2aff7f", "2a" * 60],
    0x17: [text.encode().hex() for text in UTC_TIMES],
    0x18: [text.encode().hex() for text in GENERALIZED_TIMES],
    0x81: BITS,
    0x82: BITS,
}
ELEMENTS = [
    "010100", "0101ff", "0500", "0400", "020100", "020101", "020102", "0603550403", "a000", "0300",
    "a003020100", "a003020101", "a003020102", "a003020103", "8100", "810100", "82020041", "3000",
    "a3023000", "3100", "00", "0000", "1f00", "3f8100", "0580", "3080", "30850000000000", "308001",
    "310a3003060155040c30030601", "170d3234303130313030303030305a",
]
TAGS = [0x00, 0x01, 0x02, 0x03, 0x04, 0x05, 0x06, 0x0C, 0x13, 0x17, 0x18, 0x1E, 0x1F, 0x24, 0x30]
TAGS += [0x31, 0x3F, 0x80, 0x81, 0x82, 0x83, 0xA0, 0xA1, 0xA2, 0xA3, 0xBF, 0xC1, 0xFF]


class Unfit(Exception):
    """The structure has no element that could be damaged so."""


class Node:
    """An element. `zeros` counts needless digits of its length, `error` is added to the length. Of
    its `nodes` some may be bytes."""

    def __init__(self, tag, content):
        self.tag, self.content, self.zeros, self.error = tag, content, 0, 0
        self.nodes = parse(content) if tag & CONSTRUCTED else None

    def __bytes__(self):
        content = self.content if self.nodes is None else b"".join(map(bytes, self.nodes))
        size = max(len(content) + self.error, 0)
        if size < 0x80 and not self.zeros:
            return bytes([self.tag, size]) + content
        digits = bytes(self.zeros) + size.to_bytes((size.bit_length() + 7) // 8, "big")
        return bytes([self.tag, 0x80 + len(digits)]) + digits + content

    def inner(self):
        """Returns this element and all within it."""
        return [self] + [node for child in self.nodes or [] for node in child.inner()]


def parse(data):
    elements = Elements(data)
    return [Node(data[elements.at], elements.read(None)) for _ in iter(elements.more, False)]


class Damage(random.Random):
    """The ways to damage a structure: its bytes, or the elements in its outermost one."""

    # ---- damage to bytes

    def change_byte(self, data):
        place = self.choice([self.randrange(len(data)), self.randrange(min(16, len(data)))])
        data[place] = (data[place] + self.choice([1, 255, 0x80, 0x20])) % 256

    def change_bit(self, data):
        data[self.randrange(len(data))] ^= 1 << self.randrange(8)

    def take_byte_out(self, data):
        del data[self.randrange(len(data))]

    def put_byte_in(self, data):
        data.insert(self.randrange(len(data)), self.randrange(256))

    def cut_off(self, data):
        del data[self.randrange(1, len(data)) :]

    def append(self, data):
        data += self.randbytes(self.randrange(1, 4))

    def double_part(self, data):
        start = self.randrange(len(data))
        data[start:start] = data[start : start + self.randrange(1, 20)]

    # ---- damage to elements

    def some(self, top, holds):
        """Returns an element for which this holds."""
        nodes = [node for node in top.inner() if holds(node)]
        if not nodes:
            raise Unfit
        return self.choice(nodes)

    def leaf(self, top):
        return self.some(top, lambda node: node.nodes is None)

    def parent(self, top):
        return self.some(top, lambda node: node.nodes)

    def change_content(self, top):
        node = self.leaf(top)
        content = bytearray(node.content or b"\0")
        place = self.choice([0, len(content) - 1, self.randrange(len(content))])
        content[place] = (content[place] + self.choice([1, 2, 255, 128])) % 256
        node.content = bytes(content)

    def shorten_content(self, top):
        node = self.leaf(top)
        start = self.choice([0, 0, 1])
        node.content = node.content[start : len(node.content) - self.randrange(2)]

    def lengthen_content(self, top):
        node = self.leaf(top)
        more = self.choice([b"\x00", b"\xff", b"\x80", b"\x30", b"\x5a", self.randbytes(2)])
        node.content = self.choice([more + node.content, node.content + more])

    def try_content(self, top):
        tags = {node.tag for node in top.inner()}
        tag = self.choice([tag for tag in CONTENTS if tag in tags])
        node = self.some(top, lambda node: node.tag == tag)
        node.content = bytes.fromhex(self.choice(CONTENTS[tag]))

    def take_element_out(self, top):
        nodes = self.parent(top).nodes
        del nodes[self.randrange(len(nodes))]

    def repeat_element(self, top):
        nodes = self.parent(top).nodes
        place = self.randrange(len(nodes))
        nodes.insert(place, nodes[place])

    def swap_neighbours(self, top):
        nodes = self.some(top, lambda node: node.nodes and len(node.nodes) > 1).nodes
        place = self.randrange(len(nodes) - 1)
        nodes[place], nodes[place + 1] = nodes[place + 1], nodes[place]

    def put_element_in(self, top):
        nodes = self.parent(top).nodes
        place = self.randrange(len(nodes) + 1)
        nodes.insert(place, bytes.fromhex(self.choice(ELEMENTS)))

    def put_false_in(self, top):
        """Puts a BOOLEAN behind an identifier, as of an extension that isn't critical."""
        nodes = self.some(top, lambda node: node.nodes and node.nodes[0].tag == 0x06).nodes
        nodes.insert(1, bytes.fromhex(self.choice(["010100", "010100", "0101ff", "010101"])))

    def add_to_set(self, top):
        """Puts another element into a SET, at any place."""
        nodes = self.some(top, lambda node: node.tag == 0x31 and node.nodes).nodes
        (other,) = parse(bytes(nodes[0]))
        for node in other.inner():
            if node.nodes is None and node.content and self.randrange(2):
                node.content = node.content[:-1] + bytes([self.randrange(128)])
        nodes.insert(self.randrange(2), other)

    def append_inside(self, top):
        self.parent(top).nodes.append(self.randbytes(self.randrange(1, 4)))

    def empty_element(self, top):
        node = self.choice(top.inner())
        node.content, node.nodes = b"", None

    def change_tag(self, top):
        self.choice(top.inner()).tag = self.choice(TAGS)

    def needless_digits(self, top):
        self.choice(top.inner()).zeros = self.choice([1, 1, 2, 3, 4])

    def wrong_length(self, top):
        node = self.choice(top.inner())
        node.error = self.choice([-2, -1, 1, 1, 2, 100, 1000, 0x0FFFFFFF, 0x10000000, 1 << 32])

    def cut_inside(self, top):
        node = self.parent(top)
        data = b"".join(map(bytes, node.nodes))
        node.content, node.nodes = data[: self.randrange(len(data))], None

    def damage(self, data):
        """Returns a damaged copy, or one that isn't where the structure is unfit."""
        of_bytes = [self.change_byte, self.change_bit, self.take_byte_out, self.put_byte_in,
                    self.cut_off, self.append, self.double_part]
        of_elements = [
            *[self.change_content] * 3, self.shorten_content, self.lengthen_content,
            *[self.try_content] * 2, self.take_element_out, self.repeat_element,
            self.swap_neighbours, self.put_element_in, self.put_false_in, self.add_to_set,
            self.append_inside, self.empty_element, self.change_tag, self.needless_digits,
            self.wrong_length, self.cut_inside,
        ]
        change = self.choice(of_bytes + of_elements)
        (damaged,) = [bytearray(data)] if change in of_bytes else parse(data)
        with contextlib.suppress(Unfit):
            change(damaged)
        return bytes(damaged)


def copies(lines):
    """Returns the damaged copies of the structures in these lines."""
    structures = [line.split(" ") for line in lines]
    numbers, seen = Damage(2026), dict.fromkeys(lines)
    while len(seen) < len(set(lines)) + COUNT:
        word, text = numbers.choice(structures)
        data = numbers.damage(bytes.fromhex(text))
        if numbers.randrange(200) == 0:
            word = numbers.choice(structures)[0]
        seen[f"{word} {data.hex()}"] = None
    return [*seen][-COUNT:]
