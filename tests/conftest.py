"""What the tests share: how cases are counted, and what has to be there for a test.

A test is a case, or, if it asks for `tell`, as many as it tells: `tell(what, is_right)`, which
doesn't end the test. The last line is 'N passed, M failed', or that with ', K skipped', of all
cases. tests/least has the least number of cases of each module, and of each script.
"""

import functools
import glob
import os
import re
import shutil
import subprocess
from collections import Counter
from pathlib import Path

import pytest

TOP = Path(__file__).resolve().parent.parent
OUTCOMES = ["passed", "failed", "skipped"]
LEAST = dict(reversed(it.split(" ", 1)) for it in (TOP / "tests/least").read_text().splitlines())
# How many failed cases of a test are shown.
SHOWN = 40
# What clang needs for its sanitizers, and to fuzz.
CLANG = "clang", "/usr/lib/clang/*/lib/linux/libclang_rt.fuzzer-x86_64.a"
# The last line of a script that counts its cases.
COUNT = re.compile(r"^(\d+) passed, (\d+) failed(?:, (\d+) skipped)?$")


def pytest_addoption(parser):
    parser.addoption("--write", action="store_true", help="store the lines of crates/replay anew")


class Tell:
    """The cases of a test."""

    def __init__(self):
        self.passed, self.failed, self.skipped = 0, 0, 0
        self.lines = []

    def __call__(self, what, is_right):
        """Counts a case."""
        self.passed += bool(is_right)
        self.failed += not is_right
        self.lines += [] if is_right else [f"FAILED: {what[:600]}"]

    def lacks(self, count, *tools):
        """Counts so many cases as skipped where a tool is missing, and returns whether one is."""
        self.skipped += count if lacking(*tools) else 0
        return bool(lacking(*tools))


@pytest.fixture
def tell():
    """Counts the cases of a test, which fails where one of them did."""
    return Tell()


def call(command, **how):
    """Runs a command, or a text of a shell, and returns how it ended."""
    words = ["bash", "-euo", "pipefail", "-c", command] if isinstance(command, str) else command
    how |= {"stdin": subprocess.DEVNULL, "capture_output": True, "text": True, "errors": "replace"}
    # it ends where the test is ended by force
    return subprocess.run(["setpriv", "--pdeathsig", "TERM", *words], check=False, **how)


@pytest.fixture
def check(tell, tmp_path):
    """Runs a command in a folder, and counts a case: it has to end well, and to print a text if one
    is given, or to fail, and say what is `refused`. Variables are of its environment."""

    def run(what, command, prints=None, refused=None, folder=tmp_path, **variables):
        variables = {name: str(value) for name, value in variables.items()}
        ran = call(command, cwd=folder, env={**os.environ, **variables})
        said = ran.stdout + ran.stderr
        is_right = ran.returncode == 0 and prints in (None, ran.stdout.rstrip("\n"))
        if refused is not None:
            is_right = ran.returncode != 0 and refused in said
        tell(f"{what}: status {ran.returncode}: {said[-500:]}", is_right)
        return said

    return run


@pytest.fixture
def add(tell):
    """Runs a script, and adds the cases that it counts. Those that it skips are a failure where
    none of these optional tools is missing."""

    def run(command, *optional, **variables):
        ran = call(command, cwd=TOP, env={**os.environ, **variables})
        lines = ran.stdout.splitlines()
        counted, ended = COUNT.match(lines[-1] if lines else ""), f"status {ran.returncode}"
        assert counted, "\n".join([f"{ended}, uncounted:", *lines[-40:], ran.stderr[-4000:]])
        passed, failed, skipped = (int(it or 0) for it in counted.groups())
        tell.passed, tell.failed = tell.passed + passed, tell.failed + failed
        tell.lines += [it for it in lines if it.startswith("FAILED:")]
        if skipped and not tell.lacks(skipped, *optional):
            tell(f"{skipped} cases were skipped, though all tools are there", False)
        if ran.returncode and not failed:
            tell(ended, False)

    return run


@pytest.fixture(scope="session")
def program():
    """Returns the path of a crate's program, of its tests with `NAME_tests`, or of its library."""

    def path(crate, name=None):
        file = TOP / "crates" / crate / "out" / (name or crate)
        assert file.exists(), f"{file.relative_to(TOP)} isn't built: run tests/crate {crate} first"
        return file

    return path


@pytest.fixture
def replay(program):
    """Runs crates/replay over lines, and returns those that it prints."""
    command = program("replay")
    return lambda lines: lines_of(command, given=lines)


def lines_of(*command, given=(), cwd=None):
    """Returns the lines that a command prints, which is given others, and has to end well."""
    how = {"input": "".join(f"{line}\n" for line in given), "cwd": cwd, "text": True}
    return subprocess.run(command, stdout=subprocess.PIPE, check=True, **how).stdout.splitlines()


@pytest.fixture(scope="session")
def refuse(tmp_path_factory):
    """Returns the path of the allocator that refuses, which is preloaded into a built program."""
    library = tmp_path_factory.mktemp("allocator") / "refuse.so"
    build = ["cc", "-O1", "-shared", "-fPIC", "-o", library, TOP / "tests/refuse.c", "-ldl"]
    subprocess.run(build, check=True)
    return library


def object_of(archive, *names):
    """Returns the bytes of these objects of an archive, by default of all that it has."""
    return subprocess.run(["ar", "p", archive, *names], stdout=subprocess.PIPE, check=True).stdout


def lacking(*tools):
    """Returns those commands, or files (`/PATH`, which may have a `*`), that aren't there."""
    return [it for it in tools if not (glob.glob(it) if it[0] == "/" else shutil.which(it))]


def needs(*tools, cases=1):
    """Skips a test of so many cases where a tool is missing."""
    without = lacking(*tools)
    return pytest.mark.skipif(bool(without), reason=f"without {', '.join(without)}; cases: {cases}")


def rows(table):
    """Returns the rows of a table as parameters; the tools that a row needs are its last column."""
    return [
        pytest.param(*row[:-1], marks=needs(*row[-1].split()), id=name)
        for name, row in table.items()
    ]


# For commands that no network is there for.
OFFLINE = """CARGO_NET_OFFLINE=true PIP_NO_INDEX=1 PIP_DISABLE_PIP_VERSION_CHECK=1
    PYTHONDONTWRITEBYTECODE=1 npm_config_offline=true npm_config_update_notifier=false"""


def blocks(path, word):
    """Returns the blocks of a document with this word behind the backquotes."""
    found = re.findall(r"^```(.*)\n((?s:.*?))^```$", (TOP / path).read_text(), re.M)
    return [text for behind, text in found if behind == word]


# ---- counts


def pytest_collection_modifyitems(items):
    """Has each test that tells cases fail where one of them did."""
    for item in items:
        if "tell" in item.fixturenames:
            item.obj = told(item, item.obj)


def told(item, test):
    """Returns a test that fails as its cases do."""

    @functools.wraps(test)
    def run(**given):
        test(**given)
        # a fixture may be what asks for it
        tell = item.funcargs["tell"]
        item.user_properties += vars(tell).items()
        if tell.failed:
            more = [f"FAILED: {len(tell.lines) - SHOWN} more"] if tell.lines[SHOWN:] else []
            pytest.fail("\n".join(tell.lines[:SHOWN] + more), pytrace=False)

    return run


# The cases of each module, and of each script; and the tests that failed, but for those that tell.
CASES = {}
FAILED = []


def pytest_collectreport(report):
    """Counts a module that can't be read, which each worker reports."""
    if report.failed:
        CASES[report.nodeid] = Counter(failed=1)


def pytest_runtest_logreport(report):
    """Adds what a test counts."""
    if report.when == "call" or not report.passed:
        module, _, name = report.nodeid.partition("::")
        told = dict(report.user_properties) if report.when == "call" else {}
        several = report.skipped and re.search(r"; cases: (\d+)$", report.longrepr[2])
        counts = {report.outcome: int(several[1]) if several else 1}
        counts = {it: told.get(it, 0) for it in OUTCOMES} if told else counts
        FAILED.extend([report.nodeid] if report.failed and not told else [])
        script = name[name.index("[") + 1 : -1] if module == "test_scripts.py" else module
        CASES.setdefault(script, Counter()).update(counts)


def pytest_sessionfinish(session):
    """Has the run fail where a module or a script has fewer cases than tests/least wants of it."""
    option, is_worker = session.config.getoption, hasattr(session.config, "workerinput")
    if is_worker or option("keyword") or option("lf") or "::" in "".join(session.config.args):
        return
    for name, counts in CASES.items():
        cases, least = sum(counts.values()), int(LEAST.get(name, 1))
        if cases < least:
            counts["failed"] += 1
            print(f"\nFAILED: {name}: {cases} cases were counted, of {least}")
            session.exitstatus = 1


def pytest_unconfigure(config):
    """Prints the last line."""
    if not hasattr(config, "workerinput"):
        total = sum(CASES.values(), Counter())
        print(*(f"FAILED: {it}\n" for it in FAILED), sep="", end="")
        ends = OUTCOMES if total["skipped"] else OUTCOMES[:2]
        print(", ".join(f"{total[it]} {it}" for it in ends))
