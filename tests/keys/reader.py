"""A reader of EC private keys in DER, written from the rules of docs/FORMATS.md alone and apart
from the crates. It stands beside them to say what they have to return.
"""

LIMIT = 0x0FFFFFFF


class Refused(Exception):
    """The bytes are no key; the arguments are the kind of the refusal and the fault's offset."""


def demand(holds, kind, at):
    if not holds:
        raise Refused(kind, at)


def header(data, at, end, tag):
    """Reads this tag byte and the length. Returns where the content begins and ends."""
    demand(at < end, "Truncated", at)
    demand(data[at] == tag, "Tag", at)
    at += 1
    demand(at < end, "Truncated", at)
    start, size = at + 1, data[at]
    if size >= 0x80:
        demand(0x81 <= size <= 0x84, "Length", at)
        start += size - 0x80
        demand(start <= end, "Truncated", at)
        digits = data[at + 1 : start]
        size = int.from_bytes(digits, "big")
        demand(digits[0] != 0 and 0x80 <= size <= LIMIT, "Length", at)
    demand(start + size <= end, "Truncated", at)
    return start, start + size


def arcs(content, at):
    """Returns the arcs that the content of an identifier encodes, which begins at this offset."""
    demand(1 <= len(content) <= 39, "Value", at)
    numbers, number, is_inside = [], 0, False
    for byte in content:
        demand(is_inside or byte != 0x80, "Value", at)
        number = number << 7 | byte & 0x7F
        is_inside = byte >= 0x80
        if not is_inside:
            numbers.append(number)
            number = 0
    demand(not is_inside and all(number < 1 << 32 for number in numbers), "Value", at)
    first = min(numbers[0] // 40, 2)
    return [first, numbers[0] - 40 * first, *numbers[1:]]


def bits(content, at):
    """Returns the count of unused bits and the bytes of a bit string."""
    demand(content and content[0] <= 7, "Value", at)
    unused, rest = content[0], content[1:]
    demand(unused == 0 or rest and rest[-1] % (1 << unused) == 0, "Value", at)
    return unused, rest


def key(data):
    """Returns the private key, the arcs of the curve or None, and the public key or None."""
    at, end = header(data, 0, len(data), 0x30)
    start, at = header(data, at, end, 0x02)
    demand(data[start:at] == b"\x01", "Value", start)
    start, at = header(data, at, end, 0x04)
    private, curve, public = data[start:at], None, None
    if at < end and data[at] == 0xA0:
        start, at = header(data, at, end, 0xA0)
        inside, last = header(data, start, at, 0x06)
        curve = arcs(data[inside:last], inside)
        demand(last == at, "TrailingData", last)
    if at < end and data[at] == 0xA1:
        start, at = header(data, at, end, 0xA1)
        inside, last = header(data, start, at, 0x03)
        unused, public = bits(data[inside:last], inside)
        demand(last == at, "TrailingData", last)
        demand(unused == 0, "Value", inside)
    demand(at == end, "TrailingData", at)
    demand(end == len(data), "TrailingData", end)
    return private, curve, public


def digits(data):
    return data.hex().upper() or "-"


def answer(line):
    """Returns what crates/replay has to print for a line."""
    try:
        private, curve, public = key(bytes.fromhex(line.split(" ")[1]))
    except Refused as refused:
        return f"refused: {refused.args[0]}"
    curve = "none" if curve is None else ".".join(map(str, curve))
    return f"{digits(private)} {curve} {'none' if public is None else digits(public)} same"
