"""The rows that `sec1_dump --json` prints: whether they are the bytes of the input, each once, and
those of `openssl asn1parse`.
"""
import json
import random
import re
import subprocess

from pairs import pairs
from programs import structures

THEIRS = re.compile(r"^ *(\d+):d=(\d+) +hl= *(\d+) l= *(\d+) (cons|prim):", re.M)


def of(program, data, everything=False):
    """Returns the rows of an input in DER, and the number of its bytes; none of a text."""
    asked = [program, "--json", *["--all"] * everything]
    ended = subprocess.run(asked, input=data, capture_output=True, timeout=3600)
    front, *rows, _ = map(json.loads, ended.stdout.splitlines())
    return (rows, front["bytes"]) if front["form"] == "der" else ([], None)


def cover(rows, count):
    """Returns whether the headers of the rows, and the contents that have no rows of their own, are
    so many bytes, in order and each once."""
    at = 0
    for row, after in zip(rows, [*rows[1:], {"offset": count, "depth": 0}]):
        if row["offset"] != at:
            return False
        at += row["header_len"]
        if row.get("opened"):
            at += row["tag"] == 3
        elif after["offset"] != at or not row.get("constructed"):
            at += row.get("len", 0)
    return at == count


def are_openssl(program, data):
    """Returns whether the rows of DER are those of OpenSSL, but for the rows inside strings: their
    offsets, depths and lengths, and whether their contents are elements. With --all each header is
    one."""
    command = ["openssl", "asn1parse", "-inform", "DER"]
    ended = subprocess.run(command, input=data, capture_output=True)
    found, inside = [], None
    for row in of(program, data, True)[0]:
        if inside is not None and row["depth"] > inside:
            continue
        inside = row["depth"] if row.get("opened") else None
        if "tag" not in row:
            return False
        kind = "cons" if row["constructed"] else "prim"
        found.append((row["offset"], row["depth"], row["header_len"], row["len"], kind))
    theirs = [(*map(int, numbers), kind) for *numbers, kind
              in THEIRS.findall(ended.stdout.decode("latin-1"))]
    return ended.returncode == 0 and theirs == found


def damaged():
    """The name and the bytes of stored structures, cut off and with a byte changed, of damaged
    keys, and of bytes at random."""
    numbers = random.Random(690)
    for name, data in [*structures()][::3]:
        at = numbers.randrange(len(data))
        # before that one there is a byte that no text has
        yield f"{name}, cut off at {at}", b"\x30" + data[1:at] if at > 9 else b"\x30\1"
        byte = numbers.choice((0, 0x24, 0x30, 0x80, 0x81, 0x85, 0xA0, 0xBF, 0xFF))
        yield f"{name}, {byte} at {at}", data[:at] + bytes([byte]) + data[at + 1:]
    for number, (data, _) in enumerate(pairs(400, 690)):
        yield f"damaged key {number}", data + b"\0"
    for number in range(200):
        count = numbers.randrange(1, 40)
        tags = [numbers.choice(b"\x30\x31\x24\xA0\x02\x04\x03\x05\0\x1F\x80\x81\xFF")
                for _ in range(count)]
        length = numbers.choice((0x80, count, count + 3))
        yield f"{number} at random", bytes([0x30, length, *tags, 0])
