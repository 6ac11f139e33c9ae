#!/usr/bin/env python3
"""Where the faults of a damaged key are, which a test of `der_view::faults` wants. This prints the
numbers of its SHORT_DAMAGES."""

import random
import re
import sys
from pathlib import Path

TESTS = Path(__file__).resolve().parents[2] / "crates/pkix_tests/src/faults.rt"

# The kinds, each by its place as its number; None where there is no fault.
KINDS = [None, "Truncated", "Tag", "Length", "TrailingData", "Value"]

KEY = bytes.fromhex("3017020101040155a00706052b81040022a106030400040707")


def fault(reader, key):
    """Returns the offset and the number of a key's first fault."""
    try:
        reader.key(key)
    except reader.Refused as refused:
        kind, offset = refused.args
        return offset, KINDS.index(kind)
    return 0, KINDS.index(None)


def damages(reader):
    """Returns each damage to the key: an index, the byte there, and the fault."""
    numbers, found = random.Random(5915), []
    for at, byte in enumerate(KEY):
        others = [0x00, 0x80, 0x81, 0xA1, 0xFF, (byte + 1) % 256, (byte - 1) % 256]
        found += [(at, other, *fault(reader, KEY[:at] + bytes([other]) + KEY[at + 1 :]))
                  for other in [*others, numbers.randrange(256)] if other != byte]
    return found


def stored(name):
    """Returns the numbers of an array in the tests."""
    array = re.search(rf"static {name}: \[u8; \d+\] = \[(.*?)\];", TESTS.read_text(), re.S)
    return [int(it, 0) for it in array[1].replace(",", " ").split()]


def stored_damages():
    """Returns the damages that the test has."""
    numbers = stored("SHORT_DAMAGES")
    return [tuple(numbers[it : it + 4]) for it in range(0, len(numbers), 4)]


if __name__ == "__main__":
    sys.dont_write_bytecode = True
    import reader

    print(*(", ".join(map(str, it)) for it in damages(reader)), sep=",\n")
