"""Reads a linked module of WebAssembly (WebAssembly Core Specification 2.0, chapter 5) that has the
kinds of instructions that the library has: no imports, no tables, no floating point, no vectors.
What else a module has is refused.
"""
import struct

# By opcode (section 5.4.7): the name, the types of what is taken off the stack, the type of what is
# left there. A type is a letter: i has 32 bits, l has 64.
PLAIN = {}
# By opcode (section 5.4.6): the type of the number, how many bits of it lie in memory, and whether
# the others of a load are copies of its sign.
LOADS = {
    0x28: ("i", 32, 0), 0x29: ("l", 64, 0), 0x2C: ("i", 8, 1), 0x2D: ("i", 8, 0),
    0x2E: ("i", 16, 1), 0x2F: ("i", 16, 0), 0x30: ("l", 8, 1), 0x31: ("l", 8, 0),
    0x32: ("l", 16, 1), 0x33: ("l", 16, 0), 0x34: ("l", 32, 1), 0x35: ("l", 32, 0),
}
STORES = {
    0x36: ("i", 32), 0x37: ("l", 64), 0x3A: ("i", 8), 0x3B: ("i", 16), 0x3C: ("l", 8),
    0x3D: ("l", 16), 0x3E: ("l", 32),
}
# The types of section 5.3.1.
TYPES = {0x7F: "i", 0x7E: "l"}
# Those that begin a block, or end one; those after which the rest of a block isn't reached.
BLOCKS, END, LEAVING = (0x02, 0x03), 0x0B, (0x00, 0x0C, 0x0E, 0x0F)
# Two bytes are one number here: memory.copy is 0xFC 0x0A, and memory.fill 0xFC 0x0B.
CALL, SELECT, COPY, FILL = 0x10, 0x1B, 0xFC0A, 0xFC0B
# How many numbers others take and leave: get, set and tee of a local, get and set of a global, both
# kinds of constants, drop, br_if, br_table, select, copy and fill.
EFFECTS = {
    0x20: (0, 1), 0x21: (1, 0), 0x22: (1, 1), 0x23: (0, 1), 0x24: (1, 0), 0x41: (0, 1),
    0x42: (0, 1), 0x1A: (1, 0), 0x0D: (1, 0), 0x0E: (1, 0), SELECT: (3, 1), COPY: (3, 0),
    FILL: (3, 0),
}
# The numbers of sections (section 5.5.2).
CUSTOM, TYPE, IMPORT, FUNCTION, MEMORY, EXPORT, CODE, DATA = 0, 1, 2, 3, 5, 7, 10, 11


def _plain(first, names, takes, leaves):
    for at, name in enumerate(names.split()):
        PLAIN[first + at] = (name, takes, leaves)


_COMPARE = "eq ne lt_s lt_u gt_s gt_u le_s le_u ge_s ge_u"
_COMPUTE = "add sub mul div_s div_u rem_s rem_u and or xor shl shr_s shr_u rotl rotr"
for _type, _test, _count, _compute in (("i", 0x45, 0x67, 0x6A), ("l", 0x50, 0x79, 0x7C)):
    _bits = {"i": "i32", "l": "i64"}[_type]
    _plain(_test, f"{_bits}.eqz", _type, "i")
    _plain(_test + 1, " ".join(f"{_bits}.{it}" for it in _COMPARE.split()), 2 * _type, "i")
    _plain(_count, f"{_bits}.clz {_bits}.ctz {_bits}.popcnt", _type, _type)
    _plain(_compute, " ".join(f"{_bits}.{it}" for it in _COMPUTE.split()), 2 * _type, _type)
_plain(0xA7, "i32.wrap_i64", "l", "i")
_plain(0xAC, "i64.extend_i32_s i64.extend_i32_u", "i", "l")
_plain(0xC0, "i32.extend8_s i32.extend16_s", "i", "i")
_plain(0xC2, "i64.extend8_s i64.extend16_s i64.extend32_s", "l", "l")


def refuse(is_wrong, what):
    """Ends the program if the module has what it mustn't have."""
    if is_wrong:
        raise SystemExit(f"the module has {what}")


class Reader:
    """The bytes of a module from a place on."""

    def __init__(self, data, at=0):
        self.data, self.at = data, at

    def byte(self):
        """Returns the next byte as a number."""
        self.at += 1
        return self.data[self.at - 1]

    def bytes(self, count):
        """Returns so many bytes."""
        self.at += count
        return self.data[self.at - count:self.at]

    def unsigned(self):
        """Returns a number in unsigned LEB128 (section 5.2.2)."""
        number = shift = 0
        while True:
            byte = self.byte()
            number |= (byte & 127) << shift
            shift += 7
            if byte < 128:
                return number

    def signed(self):
        """Returns a number in signed LEB128."""
        begin = self.at
        number = self.unsigned()
        bits = 7 * (self.at - begin)
        return number - (1 << bits) if number >> (bits - 1) else number

    def text(self):
        """Returns a name (section 5.2.4)."""
        return self.bytes(self.unsigned()).decode()

    def many(self, read):
        """Returns what is read so many times as a number in front says (section 5.1.3)."""
        return [read() for _ in range(self.unsigned())]


class Op:
    """An instruction: its place, the place after it, its opcode and its immediates. Those of a load
    or a store are the alignment, the place of the offset, and the offset."""

    __slots__ = ("at", "end", "code", "args")

    def __init__(self, at, end, code, args):
        self.at, self.end, self.code, self.args = at, end, code, args


def ops(reader, end):
    """Yields the instructions from where the reader stands up to a place."""
    while reader.at < end:
        at, code = reader.at, reader.byte()
        args = ()
        if code in BLOCKS or code in (0x41, 0x42):
            args = (reader.signed(),)
        elif code in (0x0C, 0x0D, CALL, 0x20, 0x21, 0x22, 0x23, 0x24):
            args = (reader.unsigned(),)
        elif code == 0x0E:
            args = (reader.many(reader.unsigned), reader.unsigned())
        elif code in LOADS or code in STORES:
            args = (reader.unsigned(), reader.at, reader.unsigned())
        elif code == 0xFC:
            code = 0xFC00 | reader.unsigned()
            refuse(code not in (COPY, FILL), f"an instruction {code:x} at {at:x}")
            args = tuple(reader.bytes(2 if code == COPY else 1))
        else:
            known = code in PLAIN or code in LEAVING or code in (END, 0x01, 0x1A, SELECT)
            refuse(not known, f"an instruction {code:x} at {at:x}")
        yield Op(at, reader.at, code, args)


def reached(found):
    """Yields those of the instructions that can be reached."""
    left = 0  # how many blocks are open from the one on whose rest isn't reached
    for op in found:
        if left:
            left += (op.code in BLOCKS) - (op.code == END)
        if not left:
            yield op
            left = int(op.code in LEAVING)


class Function:
    """The types of its parameters, results and locals, and the places of its locals, of its first
    instruction, and of its end."""

    def __init__(self, params, results, locals_, head, begin, end):
        self.params, self.results, self.locals = params, results, locals_
        self.head, self.begin, self.end = head, begin, end


class Module:
    """A module, by its bytes.

    sections    (number, name of a custom section, begin of the content, end)
    types       (parameters, results)
    functions   Function, by index
    segments    (place in memory, begin, end)
    names       names of functions by index, as the section `name` has them
    exports     indices of exported functions by name
    """

    def __init__(self, data):
        refuse(data[:8] != b"\0asm\1\0\0\0", "another magic word or version")
        self.data, self.sections = data, []
        reader = Reader(data, 8)
        while reader.at < len(data):
            number, size = reader.byte(), reader.unsigned()
            end = reader.at + size
            name = reader.text() if number == CUSTOM else ""
            self.sections.append((number, name, reader.at, end))
            reader.at = end
        refuse(reader.at != len(data), "another length than its last section")
        refuse(self.section(IMPORT), "imports")
        self.types = self._types(self.section(TYPE))
        self.functions = list(self._functions())
        self.segments = list(self._segments(self.section(DATA)))
        self.names = dict(self._names())
        self.exports = dict(self._exports(self.section(EXPORT)))

    def section(self, number, name=""):
        """Returns a reader of a section's content, or None."""
        for it in self.sections:
            if it[:2] == (number, name):
                return Reader(self.data, it[2])
        return None

    def ops(self, function):
        """Yields the instructions of a function that can be reached."""
        return reached(ops(Reader(self.data, function.begin), function.end))

    def effect(self, op):
        """Returns how many numbers an instruction takes off the stack, and how many it leaves."""
        if op.code in PLAIN:
            return len(PLAIN[op.code][1]), 1
        if op.code == CALL:
            callee = self.functions[op.args[0]]
            return len(callee.params), len(callee.results)
        if op.code in LOADS:
            return 1, 1
        if op.code in STORES:
            return 2, 0
        return EFFECTS.get(op.code, (0, 0))

    def word(self, at):
        """Returns the 64 bits at a place of the module, the least significant byte first."""
        return struct.unpack_from("<Q", self.data, at)[0]

    @staticmethod
    def _types(reader):
        def numbers():
            return "".join(TYPES[it] for it in reader.many(reader.byte))

        def type_():
            refuse(reader.byte() != 0x60, "a type that isn't a function's")
            return numbers(), numbers()

        return reader.many(type_)

    def _functions(self):
        reader = self.section(FUNCTION)
        kinds = reader.many(reader.unsigned)
        reader = self.section(CODE)
        refuse(reader.unsigned() != len(kinds), "functions without code")
        for kind in kinds:
            size = reader.unsigned()
            head, end = reader.at, reader.at + size
            runs = reader.many(lambda: (reader.unsigned(), reader.byte()))
            locals_ = "".join(TYPES[type_] * count for count, type_ in runs)
            yield Function(*self.types[kind], locals_, head, reader.at, end)
            reader.at = end

    @staticmethod
    def _segments(reader):
        for _ in range(reader.unsigned() if reader else 0):
            refuse(reader.unsigned() != 0, "a segment of another memory, or of none")
            refuse(reader.byte() not in (0x41, 0x42), "a segment at no constant place")
            place = reader.signed()
            refuse(reader.byte() != END, "a segment at no constant place")
            size = reader.unsigned()
            yield place, reader.at, reader.at + size
            reader.at += size

    def _names(self):
        reader = self.section(CUSTOM, "name")
        end = next((it[3] for it in self.sections if it[1] == "name"), 0)
        while reader and reader.at < end:
            kind, size = reader.byte(), reader.unsigned()
            after = reader.at + size
            if kind == 1:
                yield from reader.many(lambda: (reader.unsigned(), reader.text()))
            reader.at = after

    @staticmethod
    def _exports(reader):
        for _ in range(reader.unsigned() if reader else 0):
            name, kind, index = reader.text(), reader.byte(), reader.unsigned()
            if kind == 0:
                yield name, index
