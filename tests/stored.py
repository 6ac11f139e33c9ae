"""What crates/replay is stored to read and to print, by what it is about: `keys`, `certificates` or
`calls`. Each line of the input has one of the output, but for those that begin with `#`, which say
what the key below them is.
"""

import pathlib

TESTS = pathlib.Path(__file__).resolve().parent
CRATE = TESTS.parent / "crates/replay"
KINDS = ("keys", "certificates", "calls")
KEY = "ec-private-key"
STRUCTURES = ("certificate", "private-key-info", "public-key-info", "signature")


def kind_of(line):
    """Returns the kind of a line of the input."""
    word = line.split(" ")[0]
    if line.startswith("#") or word == KEY:
        return "keys"
    return "certificates" if word in STRUCTURES else "calls"


def lines_in(file):
    """Returns the lines of a file in tests/, but for those that say what the next one is."""
    return [it for it in (TESTS / file).read_text().splitlines() if not it.startswith("#")]


def pairs(kind):
    """Returns the lines of a kind that the program reads, each with the one that it prints."""
    every = zip(lines_in(CRATE / "stdin"), lines_in(CRATE / "stdout"), strict=True)
    return [pair for pair in every if kind_of(pair[0]) == kind]


def stored(name, kind):
    """Returns the lines of a kind in a stored file."""
    if name == "stdin":
        lines = (CRATE / name).read_text().splitlines()
        return [line for line in lines if kind_of(line) == kind]
    return [said for _, said in pairs(kind)]


def write(kind, *lines):
    """Stores other lines of a kind, those that are read and those that are printed."""
    names = ("stdin", "stdout")
    texts = {it: [stored(name, it) for name in names] for it in KINDS} | {kind: lines}
    for name, *parts in zip(names, *texts.values()):
        (CRATE / name).write_text("".join(f"{line}\n" for part in parts for line in part))
