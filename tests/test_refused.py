"""The built tests of sec1, sec1_der and sec1_inspect in which memory, reads and writes are refused
one by one, over the allocator that refuses. The gate builds them. test_calls.py has the calls of
these crates that allocate."""

import os
import re

import pytest
from conftest import call

pytestmark = [pytest.mark.built, pytest.mark.slow]

# What the tests have to print: how a document grows, and which calls make no request.
PRINTED = [
    "SecretDocument::read_der_from grows by 4,096 bytes",
    "SecretDocument::write_der_to: no request",
    "from_der, encoded_len, encode_to_slice: no request",
    "try_from, encoded_len, encode_to_slice, check_tree: no request",
    "from_bytes, cmp, compress: no request",
    "from_str, from_json: no request",
]


@pytest.mark.parametrize("crate, lines", [("sec1_tests", PRINTED), ("sec1_inspect", [])])
def test_refused(program, refuse, tmp_path, tell, crate, lines):
    tests = program(crate, f"{crate}_tests")
    how = {"env": {**os.environ, "TMPDIR": str(tmp_path), "LD_PRELOAD": str(refuse)}}
    names = call([tests, "--list"], cwd=tmp_path, **how).stdout
    printed = []
    for name in re.findall(r"^(.*(?:memory::|in_turn).*): test$", names, re.M):
        ran = call([tests, name], cwd=tmp_path, **how)
        tell(f"{name}: {ran.stderr[:300]}", ran.returncode == 0)
        printed += ran.stdout.splitlines()
    for line in lines:
        tell(f"it isn't printed that {line}", line in printed)
