"""Prints 2,000 damaged copies of the keys on standard input, the same in each run, each behind a
line that says what was done."""
import random
import sys


def damage(numbers, data):
    """Returns what is done to the bytes, and what they are then."""
    place = numbers.randrange(len(data))
    kind = numbers.randrange(10)
    if kind <= 2:
        # headers stand at the beginning, and behind the private key
        starts = [0, len(data) // 2 - 4]
        place = numbers.choice([*(it + numbers.randrange(8) for it in starts), place])
        data[place] = (data[place] + numbers.choice([1, 255, 0x80, 0x20])) % 256
        return f"byte {place} changed", data
    if kind == 3:
        data[place] = numbers.randrange(256)
        return f"byte {place} made anew", data
    if kind == 4:
        return f"cut off at {place}", data[:place]
    if kind == 5:
        more = numbers.randbytes(numbers.randrange(1, 4))
        return f"{len(more)} bytes added", data + more
    if kind == 6:
        data.insert(place, numbers.randrange(256))
        return f"a byte put in at {place}", data
    if kind == 7:
        del data[place]
        return f"byte {place} taken out", data
    if kind == 8:
        # the element around the key tells the new length, so that the fault stands deeper
        place = numbers.randrange(2, len(data))
        del data[place:]
        data[1] = min(len(data) - 2, 0x7F)
        return f"cut off at {place}, and announced so", data
    start, end = sorted((place, numbers.randrange(len(data))))
    data[start:start] = data[start:end]
    return f"bytes {start} to {end} doubled", data


def copies(lines):
    """Returns the lines of the damaged copies of the keys in these lines."""
    keys = [bytes.fromhex(it) for it in lines if not it.startswith("#") and len(it) <= 2 * 129]
    numbers, seen = random.Random(2026), dict.fromkeys(keys)
    while len(seen) < 2_000 + len(set(keys)):
        what, data = damage(numbers, bytearray(numbers.choice(keys)))
        seen.setdefault(bytes(data), what)
    return [it for data, what in seen.items() if what
            for it in (f"# {what}", data.hex().upper())]


if __name__ == "__main__":
    print(*copies(sys.stdin.read().splitlines()), sep="\n")
