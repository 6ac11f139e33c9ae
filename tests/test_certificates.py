"""What crates/replay prints for the structures of OpenSSL, those made by hand, some of many sizes
and 20,000 damaged copies: beside the reader of certificates/, and what OpenSSL found.

    pytest-3 tests/test_certificates.py --write      stores those made by hand, and their lines
"""

import itertools

import pytest
import stored
from certificates import damage, sizes
from certificates.reader import answer
from stored import lines_in

pytestmark = [pytest.mark.built, pytest.mark.slow]


@pytest.fixture
def compare(replay, tell):
    """Compares what the program prints for each line with what the reader says, and other lines."""

    def call(asked, *others):
        answers = map(answer, asked)
        for line, found, *wanted in itertools.zip_longest(asked, replay(asked), answers, *others):
            tell(f"{str(line)[:150]}: {found}, and not {wanted}", {found} == {*wanted})

    return call


def test_structures_of_openssl(compare):
    found = [f"{it} same" for it in lines_in("certificates/fields.txt")]
    compare(lines_in("certificates/openssl.txt"), found)


# In these files a structure is followed by the line for it.
BY_HAND = "hand.txt", "times.txt"


@pytest.mark.parametrize("name", BY_HAND)
def test_structures_by_hand(compare, name):
    lines = lines_in(f"certificates/{name}")
    compare(lines[::2], lines[1::2])


def test_contents_of_many_sizes(compare):
    compare(*sizes.lines())


def test_damaged_structures(compare):
    compare(damage.copies(lines_in("certificates/openssl.txt")))


@pytest.mark.parametrize("at, name", enumerate(["stdin", "stdout"]))
def test_stored_structures(pytestconfig, at, name):
    lines = [it for file in BY_HAND for it in lines_in(f"certificates/{file}")]
    if pytestconfig.getoption("--write"):
        stored.write("certificates", lines[::2], lines[1::2])
    assert stored.stored(name, "certificates") == lines[at::2]
