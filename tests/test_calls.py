"""What crates/replay prints of points, keys, trees, streams and files, beside calls/rows.py, and of
some with each request for memory refused once.

    pytest-3 tests/test_calls.py --write      stores the lines for its run under rt ci
"""

import os
import subprocess
import threading

import pytest
import stored
from calls.rows import GROWTH, WHOLE, element, key, line, rows, short_rows, sum_of, tree_rows

pytestmark = [pytest.mark.built, pytest.mark.slow]

DER, WHOLE = element(0x30, key(4)), bytes.fromhex(WHOLE)
HOUR = 3600
each_kind = pytest.mark.parametrize("kind", ["key", "document"])


@pytest.fixture
def printed(program, tell):
    """Runs the program over lines, and returns those that it prints."""

    def call(asked, **environment):
        ran = subprocess.run(
            [program("replay")], input="".join(f"{it}\n" for it in asked), capture_output=True,
            encoding="utf-8", errors="replace", env={**os.environ, **environment}, check=False,
        )  # fmt: skip
        lines = ran.stdout.split("\n")[:-1]
        ended = ran.returncode, ran.stderr[:200], len(lines)
        tell(f"over {len(asked)} lines: {ended}", ended == (0, "", len(asked)))
        return lines

    return call


@pytest.fixture
def compare(printed, tell):
    """Compares each line that the program prints with the one that is wanted."""

    def call(*pairs, **environment):
        asked, wanted = zip(*pairs)
        for it, other, found in zip(asked, wanted, printed(asked, **environment)):
            tell(f"{it[:150]}: wanted {other}, printed {found}", other == found)

    return call


# ---- lines


@pytest.mark.parametrize("at, name", enumerate(["stdin", "stdout"]))
def test_stored_lines(pytestconfig, at, name):
    lines = [list(it) for it in zip(*rows())]
    if pytestconfig.getoption("--write"):
        stored.write("calls", *lines)
    assert stored.stored(name, "calls") == lines[at]


def test_lines(compare):
    compare(*rows())


def test_lines_with_requests_refused(compare, refuse):
    compare(*rows(True), LD_PRELOAD=str(refuse))


@pytest.mark.parametrize("lists", [tree_rows, short_rows])
def test_lists(printed, tell, lists):
    """Counts each list of lines as a case."""
    lists = list(lists())
    lines = iter(printed([asked for pairs in lists for asked, _ in pairs]))
    for pairs in lists:
        wrong = [it for it in zip(pairs, lines) if it[0][1] != it[1]]
        tell(f"{wrong[:1]}", not wrong)


# ---- files


# The last have 1,000 bytes and more, up to some 3,000.
NAMES = ["key", "a key", "clé–鍵", "-", "--help"]
NAMES += [("d" * 199 + "/") * count + "key" for count in (5, 10, 15)]


@pytest.mark.parametrize("name", NAMES, ids=lambda name: ascii(name[:9]))
def test_file_is_written_and_read(compare, tell, tmp_path, name):
    """Writes each shorter key over a longer one too."""
    path = tmp_path / name
    path.parent.mkdir(parents=True, exist_ok=True)
    for count in (5000, 4083, 300, 114, "-", 66, 0, 2000000, 100000, 1):
        # the shortest element stands for a private key of `-`
        der = b"\5\0" if count == "-" else element(0x30, key(count))
        for kind in ("key", "document"):
            compare((f"write {kind} {count} {path}", "Ok"))
            tell(f"the file of a {kind} of {count}", path.read_bytes() == der)
            compare((f"read key {path}", sum_of(der)))
            compare((f"read document {path}", sum_of(der)))


CONTENTS = {
    "nothing": (b"", "Truncated"),
    "a byte less": (DER[:-1], "Truncated"),
    "a byte more": (DER + b"\0", "TrailingData"),
    "a long tag": (b"\x1f\0", "Tag"),
    "an indefinite length": (b"\x30\x80", "Length"),
    "a length in too many bytes": (b"\x30\x81\x05", "Length"),
    "a length that is too great": (b"\x30\x84\x10\0\0\0", "Length"),
    "the greatest length": (b"\x30\x84\x0f\xff\xff\xff\0", "Truncated"),
    "a key that another program wrote": (WHOLE, sum_of(WHOLE)),
}


@each_kind
@pytest.mark.parametrize("content, said", CONTENTS.values(), ids=CONTENTS)
def test_file_is_read(compare, tmp_path, kind, content, said):
    (tmp_path / "file").write_bytes(content)
    compare((f"read {kind} {tmp_path}/file", said))


# What is said of a path in a folder that has a file, where it is read, and where it is written.
PATHS = {
    "the folder": ("{}", "Io", "Io"),
    "in a folder that is missing": ("{}/none/key", "Io", "Io"),
    "a name longer than the system has": ("{}/" + "n" * 256, "Io", "Io"),
    "an empty path": ("", "Io", "Io"),
    "below a file": ("{}/file/key", "Io", "Io"),
    "no file": ("{}/missing", "Io", None),
    "a full device": ("/dev/full", None, "Io"),
    "an empty device": ("/dev/null", "Truncated", "Ok"),
    "a device without end": ("/dev/zero", "Tag", None),
}


@each_kind
@pytest.mark.parametrize("path, read, written", PATHS.values(), ids=PATHS)
def test_path(compare, tell, tmp_path, kind, path, read, written):
    (tmp_path / "file").write_bytes(WHOLE)
    if read:
        compare((f"read {kind} {path.format(tmp_path)}", read))
    if written:
        compare((f"write {kind} 4 {path.format(tmp_path)}", written))
    tell(f"made were {os.listdir(tmp_path)}", os.listdir(tmp_path) == ["file"])


@each_kind
@pytest.mark.parametrize("count", [0, 300, 100000])
def test_pipe(compare, tell, tmp_path, kind, count):
    """Reads from a pipe with a name, and writes into it, while a thread does the contrary."""
    path, der, taken = tmp_path / "pipe", element(0x30, key(count)), []
    os.mkfifo(path)
    writer = threading.Thread(target=lambda: path.write_bytes(der), daemon=True)
    writer.start()
    compare((f"read {kind} {path}", sum_of(der)))
    writer.join(HOUR)
    reader = threading.Thread(target=lambda: taken.append(path.read_bytes()), daemon=True)
    reader.start()
    compare((f"write {kind} {count} {path}", "Ok"))
    reader.join(HOUR)
    tell(f"what was written into the pipe: {str(taken)[:100]}", taken == [der])


REFUSING = {
    "no file": (None, "Io"),
    "a file that it refuses": (b"\4\1\xaa", "Version"),
    "a file of no element": (b"old", "Truncated"),
    "a file that is cut off": (b"\4\2\xaa", "Truncated"),
}


@pytest.mark.parametrize("content, error", REFUSING.values(), ids=REFUSING)
def test_key_type_that_refuses(compare, tell, tmp_path, content, error):
    """Has a key type return errors of its own: nothing is written, and no file is touched."""
    path = tmp_path / "file"
    if content:
        path.write_bytes(content)
    said = f"refuse Version Version 0 Truncated {error} Crypto Crypto 0 Crypto"
    compare((f"refuse {path}", said))
    tell("the file is as it was", (path.read_bytes() if path.exists() else None) == content)


def file_row(count, path):
    """Returns the line of each call on a file, which is opened without a request for memory."""
    content = key(count)
    result, growth = sum_of(element(0x30, content)), (len(content) + GROWTH - 1) // GROWTH
    calls = [("write_sec1_der_file 0 0", 1), (f"read_sec1_der_file {result}", growth + 1)]
    calls += [("write_der_file 0 0", 0), (f"read_der_file {result}", growth)]
    return f"file {count} {path}", line("file", calls, True)


@pytest.mark.parametrize("name", NAMES[::5], ids=len)
def test_files_with_requests_refused(compare, refuse, tmp_path, name):
    path = tmp_path / name
    path.parent.mkdir(parents=True, exist_ok=True)
    lines = (file_row(count, path) for count in (0, 300, 5000, 100000))
    compare(*lines, LD_PRELOAD=str(refuse))
