"""That what fails is counted as failed: by pytest as conftest.py has it, by
dist/tests/counts.sh, and by tests/part."""

import shutil

import pytest
from conftest import TOP, call

# What a module holds, and the last line. The run ends well where none failed.
MODULES = {
    "none": ("def test_it(): pass", "1 passed, 0 failed"),
    "an assertion": ("def test_it(): assert 1 == 2", "0 passed, 1 failed"),
    "a case": (
        "def test_it(tell):\n tell('one', True)\n tell('other', False)\n tell('third', True)",
        "2 passed, 1 failed",
    ),
    "an assertion after cases": (
        "def test_it(tell):\n tell('one', True)\n assert 1 == 2", "0 passed, 1 failed",
    ),
    "what a test asks for": ("def test_it(nothing): pass", "0 passed, 1 failed"),
    "too few cases": ("def test_it(tell):\n tell('one', True)", "1 passed, 1 failed"),
    "a module that can't be read": ("import nothing", "0 passed, 1 failed"),
    "a test that is skipped": (
        "from conftest import needs\n@needs('nothing')\ndef test_it(): pass\ndef test_other(): pass",
        "1 passed, 0 failed, 1 skipped",
    ),
    "a test of cases that is skipped": (
        "from conftest import needs\n@needs('nothing', cases=7)\ndef test_it(tell): pass",
        "0 passed, 0 failed, 7 skipped",
    ),
}  # fmt: skip
# The same of what a test has a shell do.
SHELL = {
    "check('it', 'echo one; echo two >&2', prints='one')": "1 passed, 0 failed",
    "check('it', 'exit 1')": "0 passed, 1 failed",
    "check('it', 'false | true')": "0 passed, 1 failed",
    "check('it', 'echo one', prints='two')": "0 passed, 1 failed",
    "check('it', 'echo one >&2; exit 1', refused='one')": "1 passed, 0 failed",
    "check('it', 'echo one', refused='one')": "0 passed, 1 failed",
    "check('it', 'exit 1', refused='one')": "0 passed, 1 failed",
    "add('echo 3 passed, 1 failed')": "3 passed, 1 failed",
    "add('echo 3 passed, 0 failed; exit 1')": "3 passed, 1 failed",
    "add('echo 3 passed, 0 failed; echo more')": "0 passed, 1 failed",
    "add('echo 3 passed, 0 failed, 2 skipped')": "3 passed, 1 failed",
    "add('echo 3 passed, 0 failed, 2 skipped', 'nothing')": "3 passed, 0 failed, 2 skipped",
}
MODULES |= {it: (f"def test_it(check, add):\n {it}", last) for it, last in SHELL.items()}
# What a part prints, and its last line.
PARTS = {
    "work=$(mktemp -d); trap 'rm -r $work' EXIT; . dist/tests/counts.sh;"
    "check one true; check two false; finish": "1 passed, 1 failed",
    "echo 3 passed, 0 failed; exit 1": "3 passed, 1 failed",
    "echo 3 passed, 0 failed; echo more": "0 passed, 1 failed",
    "exit 0": "0 passed, 1 failed",
}


@pytest.mark.parametrize("workers", [0, 2])
@pytest.mark.parametrize("what", MODULES)
def test_what_fails_is_counted(what, workers, tmp_path):
    text, last = MODULES[what]
    tests = tmp_path / "tests"
    tests.mkdir()
    for name in ("conftest.py", "pytest.ini"):
        shutil.copy(TOP / "tests" / name, tests)
    (tests / "least").write_text("2 test_few.py\n1 test_one.py\n")
    (tests / f"test_{'few' if what == 'too few cases' else 'one'}.py").write_text(text)
    ran = call(f"pytest-3 -q -n {workers} tests", cwd=tmp_path)
    assert ran.stdout.splitlines()[-1] == last, ran.stdout
    assert (ran.returncode == 0) == (" 0 failed" in last), ran.stdout


@pytest.mark.parametrize("command, last", PARTS.items(), ids=PARTS)
def test_a_part_that_fails_is_counted(command, last, tmp_path):
    words = ["tests/part", tmp_path / "part", "bash", "-c", command]
    assert call(words, cwd=TOP).returncode == 1
    assert (tmp_path / "part").read_text().splitlines()[-1] == last
