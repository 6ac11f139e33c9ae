"""Draws files of DER, PEM, hexadecimal or base64: python -m sec1 [--all] [--json] [FILE].. With --all private keys
are shown too, and with --json each line is an object, as `sec1_dump --json` prints it. The status is 0 if each file has
an EC private key, 1 if one has none, and 2 if one can't be read or printed, or for wrong arguments.
"""
import argparse
import errno
import os
import sys
from typing import Any, List, NoReturn

from . import _check, _library

# The greatest number of bytes that are read of a file.
LIMIT = 16_777_215


class Refused(Exception):
    """What is wrong with the arguments, or with an input."""


class Output(Exception):
    """Standard output, or standard error, can't be written to."""


class Parser(argparse.ArgumentParser):
    """A parser that neither prints nor ends the program."""

    def error(self, message: str) -> NoReturn:
        raise Refused(message)


def number_of(stream: Any) -> int:
    """Returns the number of a stream, or raises OSError if it was closed when the program began."""
    if stream is None:
        raise OSError(errno.EBADF, os.strerror(errno.EBADF))
    return int(stream.fileno())


def write(stream: Any, text: str) -> None:
    """Writes a text to a stream, or raises Output. Nothing is kept for later."""
    left = memoryview(text.encode("ascii", "backslashreplace"))
    try:
        while left:
            left = left[os.write(number_of(stream), left) :]
    except OSError as error:
        raise Output(error.strerror) from None


def escaped(name: str) -> str:
    """Returns the name of a file, in which all but 20 to 7E is escaped, and `"` and `\\` too."""
    kept = {'"': '\\"', "\\": "\\\\"}
    return "".join(kept.get(it, it if " " <= it <= "~" else f"\\u{{{ord(it):X}}}") for it in name)


def read(file: int) -> bytes:
    """Returns what is in a file. Of one above the limit no more than one byte above it is read."""
    data = bytearray()
    while part := os.read(file, min(100_000, LIMIT + 1 - len(data))):
        data += part
        if len(data) > LIMIT:
            raise Refused("more than 16,777,215 bytes")
    return bytes(data)


def content(path: str) -> bytes:
    """Returns what is in a file, or in standard input for `-`."""
    if path == "-":
        return read(number_of(sys.stdin))
    with open(path, "rb", buffering=0) as file:
        return read(file.fileno())


def drawn(path: str, show_all: bool, as_json: bool, file: str) -> int:
    """Writes the picture of a file, which has this name in JSON if it isn't empty, and returns its status."""
    try:
        status, text, is_key = _library.drawn(content(path), show_all, json=as_json, file=os.fsencode(file))
        _check(status)
    except (OSError, Refused, MemoryError) as error:
        reason = error.strerror if isinstance(error, OSError) else str(error) or "out of memory"
        name = "standard input" if path == "-" else escaped(path)
        write(sys.stderr, f"sec1: {name}: {reason}\n")
        return 2
    write(sys.stdout, text.decode("ascii"))
    return int(not is_key)


def run(words: List[str]) -> int:
    """Does what the arguments say, and returns the status."""
    about = "Draws files of DER, PEM, hexadecimal or base64."
    parser = Parser(prog="python -m sec1", description=about, allow_abbrev=False, add_help=False)
    parser.add_argument("--help", "-h", action="store_true", help="show this help")
    parser.add_argument("--all", action="store_true", help="show every content, private keys too")
    parser.add_argument("--json", action="store_true", help="write lines of JSON")
    parser.add_argument("files", metavar="FILE", nargs="*", help="standard input if there is none, or for -")
    try:
        given = parser.parse_args(words)
    except Refused as error:
        write(sys.stderr, f"{parser.format_usage()}sec1: {escaped(str(error))}\n")
        return 2
    if given.help:
        write(sys.stdout, parser.format_help())
        return 0
    if not given.files:
        return drawn("-", given.all, given.json, "")
    status = 0
    for path in given.files:
        if len(given.files) > 1 and not given.json:
            write(sys.stdout, f"{escaped(path)}:\n")
        status = max(status, drawn(path, given.all, given.json, path))
    return status


def main(words: List[str]) -> int:
    """Does what the arguments say as far as there are memory and an output, and returns the status."""
    try:
        try:
            return run(words)
        except Output as error:
            write(sys.stderr, f"sec1: standard output: {error}\n")
        except MemoryError:
            write(sys.stderr, "sec1: out of memory\n")
    except Output:
        pass  # There is nobody to tell.
    return 2


if __name__ == "__main__":
    sys.exit(main(sys.argv[1:]))
