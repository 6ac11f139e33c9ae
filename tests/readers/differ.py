"""The second readers, compared with what the library printed. This is stored text where the tests
have it so (what crates/replay prints), and else what the built programs print.
"""
import functools
import os
import pathlib
import random
import subprocess
import sys
import tempfile
import types

TOP = pathlib.Path(__file__).resolve().parents[2]
sys.path[:0] = [str(TOP / "tests"), str(TOP / "tests/dump")]
import reports  # noqa: E402
import stored  # noqa: E402

ROOM = tempfile.TemporaryDirectory()
# Private keys from so many bytes on are left out, since no rule is about them.
LONG = 10_000


def text_of(path):
    """Returns what a file of the repository holds."""
    return (TOP / path).read_text()


def load(path, text=None):
    """Returns the module of a file, with this text in the place of its own."""
    module = types.ModuleType(pathlib.Path(path).stem)
    module.__file__ = str(TOP / path)
    code = compile(text_of(path) if text is None else text, path, "exec")
    exec(code, vars(module))
    return module


# ---- the comparisons: each returns whether the reader with this text differs from the library


def differs_on_keys(path, text):
    """What is stored of keys, and the faults that the tests of der_view::faults want."""
    reader, places = load(path, text), load("tests/keys/places.py")
    return (any(reader.answer(line) != said for line, said in reversed(stored.pairs("keys")))
            or places.stored_damages() != places.damages(reader))


def differs_on_certificates(path, text):
    """What is stored of certificates and containers, and what is printed of those of OpenSSL."""
    reader, writer = (
        load(file, text if file == path else None) for file in READERS if "certificates" in file)
    reader.writer = writer
    asked, found = (stored.lines_in(f"certificates/{it}.txt") for it in ("openssl", "fields"))
    pairs = stored.pairs("certificates") + [(one, f"{it} same") for one, it in zip(asked, found)]
    return any(reader.answer(line) != said for line, said in pairs)


def differs_on_calls(path, text):
    """What is stored of calls, and what is printed of them with requests for memory refused."""
    rows = load(path, text)
    rows.LENGTHS = [it for it in rows.LENGTHS if it < LONG]
    printed = dict(stored.pairs("calls"))
    if any(printed.get(asked, wanted) != wanted for asked, wanted in rows.rows()):
        return True
    refused = printed_when_refused()
    pairs = (pair for call in (rows.point_rows, rows.key_rows) for pair in call(True))
    return any(refused.get(asked, wanted) != wanted for asked, wanted in pairs)


@functools.cache
def printed_when_refused():
    """Returns what is printed of points and short keys, each request for memory refused."""
    allocator = os.path.join(ROOM.name, "refuse.so")
    build = ["cc", "-O1", "-shared", "-fPIC", "-o", allocator, TOP / "tests/refuse.c", "-ldl"]
    subprocess.run(build, check=True)
    asked = [line for line in stored.stored("stdin", "calls")
             if line.startswith(("point ", "key ")) and int(line.split()[1]) < LONG]
    ended = subprocess.run([TOP / "crates/replay/out/replay"], check=True, text=True,
                           input="".join(f"{line}\n" for line in asked), capture_output=True,
                           env={**os.environ, "LD_PRELOAD": allocator})
    return dict(zip(asked, ended.stdout.splitlines()))


def differs_on_reports(path, text):
    """What sec1_inspect prints: it is run once over each input."""
    changed = load(path, text)
    changed.LENGTHS = [it for it in changed.LENGTHS if it < LONG]
    return any(run_once(is_file, given) != wanted for _, is_file, given, wanted in changed.runs())


@functools.cache
def run_once(is_file, given):
    """Runs sec1_inspect over a file or text, and returns how it ended."""
    program = TOP / "crates/sec1_inspect/out/sec1_inspect"
    return reports.run(program, is_file, given, pathlib.Path(ROOM.name, str(os.getpid())))


# The second reader of pictures, each file before those that import it.
PICTURES = ("ber", "table", "values", "guard", "text", "words", "picture")


def differs_on_pictures(path, text):
    """What sec1_dump prints of inputs of each shape: it is run over them once."""
    sys.modules.update(kept_pictures())
    load_pictures(PICTURES[PICTURES.index(pathlib.Path(path).stem):], path, text)
    draw = sys.modules["picture"].draw
    return any(draw(data, "--all" in options, "--json" in options, file)[0] != said
               for options, file, data, said in printed_pictures())


@functools.cache
def kept_pictures():
    """Returns the modules of the second reader, which keep what they have found of each input: for
    the faults in those that only say it."""
    load_pictures(PICTURES)
    kept = {name: sys.modules[name] for name in PICTURES}
    for data in {data for _, _, data, _ in printed_pictures()}:
        kept["picture"].draw(data)
    return kept


def load_pictures(names, path=None, text=None):
    """Loads these files of the second reader of pictures, that of the path with this text."""
    for name in names:
        file = f"tests/dump/{name}.py"
        sys.modules[name] = load(file, text if file == path else None)


@functools.cache
def printed_pictures():
    """Returns options, files, what they hold, and what sec1_dump prints of them: first what sees
    most faults, the inputs drawn by hand and the files, then the others, with all shown as JSON."""
    programs, shapes, rows = (load(f"tests/dump/{name}.py") for name in (
        "programs", "shapes", "rows"))
    first = [data for _, data, *_ in programs.drawn_by_hand()]
    with tempfile.TemporaryDirectory() as folder:
        files = load("tests/dump/advice.py").Room(folder)
        files.make()
        first += [data for _, data, _ in files.cases()]
    given = first + [data for _, data, *_ in [*shapes.every(), *rows.damaged()]]
    program = TOP / "crates/sec1_dump/out/sec1_dump"
    printed = []
    for options in (["--json"], [], ["--all"], ["--all", "--json"]):
        said = programs.outputs(program, options, given)
        files = map(programs.path_of, range(len(given)))
        printed += zip([options] * len(given), files, given, said)
    random.Random(5915).shuffle(printed)
    return sorted(printed, key=lambda it: (it[2] not in first, len(it[0]) < 2))


def differs_in_c(path, text):
    """What the library for C returns: a million inputs, up to the first difference."""
    folder = pathlib.Path(tempfile.mkdtemp(dir=ROOM.name))
    for file in (TOP / "dist/tests").glob("*.h"):
        (folder / file.name).write_text(text if file == TOP / path else file.read_text())
    build = ["cc", "-std=c11", "-O1", "-I", folder, "-I", TOP / "dist", "-o", folder / "million",
             "-x", "c", "-", "-x", "none", TOP / "crates/sec1_c/out/libsec1_c.a"]
    subprocess.run(build, input=text_of("dist/tests/million.c").encode(), check=True)
    with subprocess.Popen(["stdbuf", "-oL", folder / "million"], stdout=subprocess.PIPE,
                          text=True) as ran:
        found = any(line.startswith("FAILED") for line in ran.stdout)
        ran.kill()
    return found


READERS = {
    **{f"tests/dump/{it}.py": differs_on_pictures for it in PICTURES},
    "tests/keys/reader.py": differs_on_keys,
    "tests/certificates/reader.py": differs_on_certificates,
    "tests/certificates/writer.py": differs_on_certificates,
    "tests/calls/rows.py": differs_on_calls,
    "tests/reports.py": differs_on_reports,
    "dist/tests/reader.h": differs_in_c,
    "dist/tests/records.h": differs_in_c,
}


def prepare(files):
    """Has the programs print, once for all that comes later, what these readers are compared
    with."""
    wanted = {READERS[it] for it in files}
    if differs_on_pictures in wanted:
        kept_pictures()
    if differs_on_calls in wanted:
        printed_when_refused()
    if differs_on_reports in wanted:
        differs_on_reports("tests/reports.py", text_of("tests/reports.py"))
