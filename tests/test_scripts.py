"""The scripts, which count their own cases, and print them in a last line 'N passed, M failed'.

    pytest-3 -n 4 tests              all of them, side by side
    pytest-3 tests -k "dump and not pairs"
    pytest-3 tests --lf              those that failed
"""

import pytest

BUILT, SLOW = pytest.mark.built, pytest.mark.slow
# Those that take long stand between others, since a worker of xdist takes two at a time.
SCRIPTS = {
    "tests/web/run": [SLOW],
    "tests/documents": [],
    "tests/plant rust": [SLOW],
    "tests/plant web": [SLOW],
    "tests/plant python": [SLOW],
    "tests/plant js": [SLOW],
    "tests/plant readers": [BUILT, SLOW],
    "tests/dump/pairs.py": [BUILT, SLOW],
    "tests/plant dist": [BUILT, SLOW],
}
# The optional tools of scripts that skip cases without them. Cases that are skipped though each of
# these is there don't count.
OPTIONAL = {
    "tests/plant js": "node",
    "tests/plant web": "chromium firefox-esr xvfb-run /usr/lib/python3/dist-packages/gi",
    "tests/web/run": "chromium firefox-esr xvfb-run /usr/lib/python3/dist-packages/gi",
}


@pytest.mark.parametrize("script", [pytest.param(it, marks=SCRIPTS[it], id=it) for it in SCRIPTS])
def test_script(script, add):
    add(script.split(), *OPTIONAL.get(script, "").split())
