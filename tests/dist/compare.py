"""Compares the assembly in dist with the object that `rt lib` built.

The lines that dist/make adds for x86-64 are left out before: how to unwind the stack, and what
branch tracking needs. What is left has to have the same sections in the same order: their flags and
alignment, their bytes, their relocations, and at the same places the same exported names. Names of
other functions may differ. On x86-64 the instructions are compared as objdump prints them, since
a compiler and an assembler fill up to an alignment by different ones that do nothing.
"""
import re
import struct

from conftest import lines_of

# The numbers of ELF for the processor, for kinds and flags of sections, and for symbols.
X86_64, GLOBAL = 62, 1
PROGBITS, SYMBOLS, RELOCATIONS, NOBITS = 1, 2, 4, 8
ALLOCATED, EXECUTED = 2, 4
# A call of a function by PC32 or by PLT32 is the same: a linker treats them alike.
SAME_KIND = {(X86_64, 4): 2}


def text_at(strings, start):
    """Returns the text that ends with a byte 0."""
    return strings[start:strings.index(b"\0", start)].decode()


class Object:
    """The parts of a relocatable ELF object of 64 bits, least significant byte first."""

    def __init__(self, path):
        data = path.read_bytes()
        assert data[:6] == b"\x7fELF\2\1", f"{path} is no such object"
        self.path, self.machine = path, struct.unpack_from("<H", data, 18)[0]
        (start,) = struct.unpack_from("<Q", data, 40)
        size, count, names = struct.unpack_from("<HHH", data, 58)
        places = range(start, start + count * size, size)
        self.heads = [struct.unpack_from("<IIQQQQIIQQ", data, it) for it in places]
        self.bytes = [b"" if it[1] == NOBITS else data[it[4]:it[4] + it[5]] for it in self.heads]
        self.names = [text_at(self.bytes[names], it[0]) for it in self.heads]
        self.symbols, self.relocations = [], {}
        for head, content in zip(self.heads, self.bytes):
            if head[1] == SYMBOLS:
                for name, kind, _, section, value, _ in struct.iter_unpack("<IBBHQQ", content):
                    name = text_at(self.bytes[head[6]], name)
                    self.symbols.append((name, kind >> 4, section, value))
            if head[1] == RELOCATIONS:
                self.relocations[head[7]] = list(struct.iter_unpack("<QQq", content))
        # what a constant of no bytes stands in has none either, but an address
        addressed = {
            self.symbols[info >> 32][2]
            for section, places in self.relocations.items()
            if self.heads[section][2] & ALLOCATED
            for _, info, _ in places
        }
        kept = [it[1] in (PROGBITS, NOBITS) and it[2] & ALLOCATED for it in self.heads]
        self.kept = [i for i, it in enumerate(self.heads) if kept[i] and (it[5] or i in addressed)]

    def relocated(self, section):
        """Returns what is filled in, by places: the section and the offset there, or the name of
        what is undefined."""
        found = []
        for place, info, addend in self.relocations.get(section, []):
            name, _, of, value = self.symbols[info >> 32]
            kind = SAME_KIND.get((self.machine, info & 0xFFFFFFFF), info & 0xFFFFFFFF)
            found.append((place, kind, self.kept.index(of) if of else name, value + addend))
        return sorted(found)

    def instructions(self):
        """Returns the instructions of each section, without those that do nothing."""
        listed = "\n".join(lines_of("objdump", "-d", "-w", "--no-show-raw-insn", self.path))
        _, *parts = re.split(r"^Disassembly of section (.*):$", listed, flags=re.M)
        plain = (re.sub(r"[ \t]*(<.*>|#.*)", "", it) for it in parts[1::2])
        code = (re.findall(r"^ *(\w+):\t(.*\S)", it, re.M) for it in plain)
        does_nothing = re.compile(r"(data16 |cs )*nop|xchg +%ax,%ax$").match
        found = ([it for it in every if not does_nothing(it[1])] for every in code)
        return dict(zip(parts[::2], found))

    def sections(self):
        """Yields the name of each section that is kept, and what is compared of it."""
        code = self.instructions() if self.machine == X86_64 else {}
        for it in self.kept:
            name, head = self.names[it], self.heads[it]
            is_code = self.machine == X86_64 and head[2] & EXECUTED
            yield name, {
                "kind, size or alignment": (head[1], head[2], head[5], head[8]),
                "addresses": self.relocated(it),
                "names": sorted((at, word) for word, *of, at in self.symbols if of == [GLOBAL, it]),
                "instructions or bytes": code[name] if is_code else self.bytes[it],
            }


def without_additions(text):
    """Returns the assembly without the lines that dist/make adds."""
    text = re.sub(r"^\t(\.cfi_.*|endbr64)\n", "", text, flags=re.M)
    text = re.sub(r"^\tnotrack ", "\t", text, flags=re.M)
    return re.sub(r"^\t\.section\t\.note\.gnu\.property,(.*\n)+", "", text, flags=re.M)


def differences(ours, theirs):
    """Yields what differs."""
    if ours.machine != theirs.machine or len(ours.kept) != len(theirs.kept):
        yield f"{len(ours.kept)} sections, not {len(theirs.kept)}, or of another processor"
    for (_, found), (name, wanted) in zip(ours.sections(), theirs.sections()):
        yield from (f"{name}: other {it}" for it in wanted if found[it] != wanted[it])
    # what is exported, and what is needed
    names, others = ({it[0] for it in o.symbols if it[1] == GLOBAL} for o in (ours, theirs))
    if names != others:
        yield f"other names: {sorted(names ^ others)}"
