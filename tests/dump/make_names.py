#!/usr/bin/env python3
"""Makes crates/der_view/src/names/table.rt of the names of identifiers in names.txt of that crate.

Each line of names.txt is an identifier in dotted text, its name, and the standard that has it.
"""
import pathlib
import re

from table import arcs_of

CRATE = pathlib.Path(__file__).resolve().parent.parent.parent / "crates/der_view"
NAMES = CRATE / "names.txt"
TABLE = CRATE / "src/names/table.rt"
LINE = 100
HEAD = '''//! The names of identifiers, as `tests/dump/make_names.py` makes them of `names.txt`.

/// A row for all identifiers whose contents have one front, which is all but the last byte: the
/// number whose digits in base 256 are a 128 and the front, and how many bytes its names have.
// With a 128, neither half of a number looks like an address of the module for WebAssembly.
#[rattlefmt::skip]
pub(super) static ROWS: [(u128, usize); {}] = [
{}
];

/// The names of each row, by the last byte from 0 on, with a comma after each. An empty one is
/// none.
pub(super) static NAMES: [u8; {}] = *b"\\
{}\\
";
'''


def names():
    """Returns the names by dotted text, in the order of the file."""
    found = {}
    for line in NAMES.read_text().splitlines():
        dotted, name, standard = line.split(maxsplit=2)
        assert dotted not in found, f"{dotted} twice"
        assert name.isascii() and name.isprintable() and not set(name) & set('"\\,'), name
        assert len(arcs_of(dotted)) <= 12 and len(name) <= 50 and standard, line
        found[dotted] = name
    return found


def lines(pieces, between, end):
    """Lines of these pieces: what is between two of them, and at the end of a line but the last."""
    filled = [pieces[0]]
    for piece in pieces[1:]:
        if 4 + len(filled[-1] + between + piece + end) > LINE:
            filled.append(piece)
        else:
            filled[-1] += between + piece
    return f"{end}\n".join("    " + line for line in filled)


def text():
    """The text of the file. A line may end after each comma or hyphen of the names."""
    fronts = {}
    for dotted, name in names().items():
        octets = arcs_of(dotted)
        fronts.setdefault(octets[:-1], {})[octets[-1]] = name
    rows, words = [], ""
    # Short fronts first: many identifiers have one.
    for front, named in sorted(fronts.items(), key=lambda row: (len(row[0]), row[0])):
        found = "".join(named.get(last, "") + "," for last in range(max(named) + 1))
        rows.append(f"(0x80_{front.hex().upper()}, {len(found)}),")
        words += found
    parts = re.findall("[^,-]*[,-]", words)
    return HEAD.format(len(rows), lines(rows, " ", ""), len(words), lines(parts, "", "\\"))


if __name__ == "__main__":
    TABLE.write_text(text())
