"""sec1_inspect as a user runs it: on paths, pipes and closed streams, and with each request for
memory refused once."""

import contextlib
import itertools
import os
import subprocess
import threading
import time

import pytest
from conftest import TOP

pytestmark = [pytest.mark.built, pytest.mark.core]

TEXT = (TOP / "crates/sec1_inspect/stdin").read_bytes()
KEY = bytes.fromhex(TEXT.decode())
LARGE_KEY = bytes.fromhex("30830F424802010104830F4240") + bytes(1_000_000)
MB = 1_000_000
LIMIT = 1_048_576
BLANKS = b"\n" * 300_000 + TEXT

# How a run ends: its status, standard output and standard error.
NO_FIELDS = b"private_key: %d bytes\nparameters: none\npublic_key: none\npoint: none\n"
REPORT = 0, (TOP / "crates/sec1_inspect/stdout").read_bytes(), b""
SMALL = 0, NO_FIELDS % 0, b""
LARGE = 0, NO_FIELDS % MB, b""
NO_KEY = 1, b"refused: not an EC private key in DER\ntree: no\n", b""
NO_DIGITS = 1, b"refused: not hexadecimal\ntree: no\n", b""
TOO_LONG = 1, b"refused: input too long\ntree: no\n", b""
INPUT = 2, b"", b"sec1_inspect: input failed\n"
OUTPUT = 2, b"", b"sec1_inspect: output failed\n"
MEMORY = 2, b"", b"sec1_inspect: out of memory\n"
PATHS = 2, b"", b"sec1_inspect: at most one path\n"
UNSEEN = 2, b"", b""


def run(command, folder, **how):
    """Runs a command in a folder, and returns how it ends."""
    ran = subprocess.run(command, cwd=folder, capture_output=True, timeout=3600, check=False, **how)
    return ran.returncode, ran.stdout, ran.stderr


def run_in_shell(program, words, folder):
    """Runs the program with these words of a shell behind its name, and returns how it ends."""
    command = ["bash", "-c", f'exec "$0" {words}', program("sec1_inspect")]
    return run(command, folder, stdin=subprocess.DEVNULL)


@pytest.fixture(scope="module")
def room(tmp_path_factory):
    """Returns a folder with the files that the words of RUNS name."""
    folder = tmp_path_factory.mktemp("room")
    files = {
        "text": TEXT,
        "key": KEY,
        "small": bytes.fromhex("30050201010400"),
        "refused": bytes.fromhex("3081050201010400"),
        "words": b"no digits\n",
        "nothing": b"",
        "long": b" " * LIMIT,
        "longer": b" " * (LIMIT + 1),
        "large": LARGE_KEY,
        "longest": LARGE_KEY + bytes(3 * MB),
        "zeros": bytes(3 * MB),
        "blanks": BLANKS,
    }
    for name, content in files.items():
        (folder / name).write_bytes(content)
    for link, to in {"link": "key", "broken": "nowhere", "circle": "circle"}.items():
        (folder / link).symlink_to(to)
    return folder


RUNS = {
    "hexadecimal on standard input": ("<text", REPORT),
    "a path": ("key", REPORT),
    "a path, whatever standard input has": ("key <text", REPORT),
    "another path": ("small <text", SMALL),
    "a path with a folder": ("./small", SMALL),
    "a whole path, and no standard input": ('"$PWD/small" <&-', SMALL),
    "a path to hexadecimal text": ("text", NO_KEY),
    "DER on standard input": ("<key", NO_DIGITS),
    "a refused key": ("refused", NO_KEY),
    "text that is not hexadecimal": ("<words", NO_DIGITS),
    "no text": ("", NO_KEY),
    "a missing path": ("missing <text", INPUT),
    "a folder": (". <text", INPUT),
    "an empty path": ("'' <text", INPUT),
    "two paths": ("small key <text", PATHS),
    "three paths": ("small small small <text", PATHS),
    "two missing paths": ("missing missing <text", PATHS),
    "the words of a path with a blank": ("a key", PATHS),
    "a path that is not text": (r"$'\xff' <text", INPUT),
    "a second path that is not text": (r"small $'\xff' <text", INPUT),
    "two dashes, which are a path": ("-- <text", INPUT),
    "a dash, which is a path": ("- <text", INPUT),
    "an option, which is a path": ("--help <text", INPUT),
    "a short option, which is a path": ("-h <text", INPUT),
    "a name longer than the system has": ("f" * 398, INPUT),
    "a link to a file": ("link", REPORT),
    "a link to no file": ("broken", INPUT),
    "a link to itself": ("circle", INPUT),
    "an empty file": ("nothing", NO_KEY),
    "the path of standard input, which has DER": ("/dev/stdin <key", REPORT),
    "a device that is empty": ("/dev/null <text", NO_KEY),
    "a device without end": ("/dev/zero <text", TOO_LONG),
    "a closed standard input": ("<&-", INPUT),
    "a folder as standard input": ("<.", INPUT),
    "a closed standard output": ("<text >&-", OUTPUT),
    "a closed standard output, and a path": ("small >&-", OUTPUT),
    "a full standard output": ("<text >/dev/full", OUTPUT),
    "a full standard output, and a refused key": ("refused >/dev/full", OUTPUT),
    "a full standard error": ("missing 2>/dev/full", UNSEEN),
    "a closed standard error": ("missing 2>&-", UNSEEN),
    "1,048,576 blanks": ("<long", NO_KEY),
    "a file of 1,048,576 blanks": ("long <text", NO_KEY),
    "1,048,577 blanks": ("<longer", TOO_LONG),
    "a long file": ("longer <text", TOO_LONG),
    "a file of 4 MB that begins with a key": ("longest <text", TOO_LONG),
    "a file of 3 MB": ("zeros <text", TOO_LONG),
    "3 MB on standard input": ("<zeros", TOO_LONG),
    "a key of 1,000,000 bytes": ("large", LARGE),
    "300,000 blanks before the digits": ("<blanks", REPORT),
}


@pytest.mark.parametrize("words, ended", RUNS.values(), ids=RUNS)
def test_run(program, room, words, ended):
    assert run_in_shell(program, words, room) == ended


# A path of 1,003 bytes is the last.
NAMES = ["-", "--help", "a key", " ", "line\nbreak", "clé–鍵", ("f" * 199 + "/") * 5 + "key"]


@pytest.mark.parametrize("name", NAMES, ids=lambda name: ascii(name[:20]))
def test_name_of_a_file(program, tmp_path, name):
    file = tmp_path / name
    file.parent.mkdir(parents=True, exist_ok=True)
    file.write_bytes(KEY)
    found = run([program("sec1_inspect"), name], tmp_path, stdin=subprocess.DEVNULL)
    assert found == REPORT


UNEVEN = 1, 4095, 4096, 7, 1000, 4097
PIPES = {
    "a pipe with a name": ("pipe", KEY, [len(KEY)], REPORT),
    "a slow pipe with a name": ("pipe", KEY, [60], REPORT),
    "an empty pipe with a name": ("pipe", b"", [1], NO_KEY),
    "a key of 1,000,000 bytes in uneven pieces": ("pipe", LARGE_KEY, UNEVEN, LARGE),
    "300,000 blanks and the digits in uneven pieces": ("<pipe", BLANKS, UNEVEN, REPORT),
    "a pipe": ("<pipe", TEXT, [len(TEXT)], REPORT),
    "a slow pipe": ("<pipe", TEXT, [99], REPORT),
}


@pytest.mark.parametrize("words, data, sizes, ended", PIPES.values(), ids=PIPES)
def test_pipe(program, tmp_path, words, data, sizes, ended):
    os.mkfifo(tmp_path / "pipe")
    threading.Thread(target=feed, args=(tmp_path / "pipe", data, sizes), daemon=True).start()
    assert run_in_shell(program, words, tmp_path) == ended


def feed(pipe, data, sizes):
    """Writes data into a pipe, each piece of the next of these sizes, and slowly if it is short."""
    pause = 0.2 if len(data) < 1000 else 0.001
    with contextlib.suppress(BrokenPipeError), pipe.open("wb", buffering=0) as end:
        for size in itertools.cycle(sizes):
            end.write(data[:size])
            data = data[size:]
            if not data:
                return
            time.sleep(pause)


# How a run ends with each request for memory refused, a letter for each:
#   I  input failed: the arguments, or the opening of the file
#   M  out of memory
#   G  it is granted for less, and the report is printed: the vector of the digits, which grows from
#      8 to 256 bytes
# There are 3 requests for the arguments and one more for each path; 2 to read; 6 to drop the blanks
# and 1 to decode the digits; 10 for the three texts and the report of the whole key (1, 1, 2 and 6,
# since the growing ones double), and 7 of the small one (1, 1, 1 and 4). The large key takes 246
# reads of 4,096 bytes, the last of which finds the end, and the texts of a small key.
REQUESTS = {
    "text": ([], "III" + "MM" + 6 * "G" + 11 * "M", REPORT),
    "path": (["key"], "IIII" + 12 * "M", REPORT),
    "a small key": (["small"], "IIII" + 9 * "M", SMALL),
    "a key of 1,000,000 bytes": (["large"], "IIII" + 253 * "M", LARGE),
    "a missing path": (["missing"], "IIII", INPUT),
    "two paths": (["small", "key"], "IIIII", PATHS),
}


@pytest.mark.parametrize("words, letters, ended", REQUESTS.values(), ids=REQUESTS)
def test_requests(program, room, refuse, tmp_path, tell, words, letters, ended):
    count = tmp_path / "count"
    # none is refused, each in turn, and one more than are made
    for number, letter in enumerate(f"-{letters}-"):
        variables = {"LD_PRELOAD": str(refuse), "REFUSE": str(number), "REFUSE_COUNT": str(count)}
        how = {"env": {**os.environ, **variables}, "input": TEXT}
        found = run([program("sec1_inspect"), *words], room, **how)
        made, refused = map(int, count.read_text().split())
        wanted = {"I": INPUT, "M": MEMORY}.get(letter, ended), letter != "-"
        tell(f"request {number}: {found}, {refused} refused", (found, refused) == wanted)
    tell(f"{made} requests, for {len(letters)}", made == len(letters))
