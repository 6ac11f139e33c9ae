"""The keys that crates/replay is stored to read, and what it has to print for them, which is
compared where its crate is proved; and what it prints for the changed copies of one: beside the
reader of keys/, and OpenSSL.

    pytest-3 tests/test_keys.py --write      stores both anew
"""

import itertools

import pytest
import stored
from conftest import TOP, lines_of
from keys import damage
from keys.reader import answer

pytestmark = [pytest.mark.built, pytest.mark.slow]

KEYS = TOP / "tests/keys"
MADE = (KEYS / "openssl.txt").read_text().splitlines()
# Three lines for each key made by hand: what it is, the key, and the line for it.
BY_HAND = (KEYS / "hand.txt").read_text().splitlines()


def differences(*lists):
    """Returns the first rows of these lists whose last two differ."""
    rows = (it for it in itertools.zip_longest(*lists) if it[-1] != it[-2])
    return [*itertools.islice(rows, 10)]


@pytest.fixture(scope="module")
def asked():
    """Returns the keys of OpenSSL, their damaged copies and those made by hand."""
    by_hand = [it for number, it in enumerate(BY_HAND) if number % 3 != 2]
    lines = [*MADE, *damage.copies(MADE), *by_hand]
    return [it if it.startswith("#") else f"{stored.KEY} {it}" for it in lines]


@pytest.fixture(scope="module")
def answers(asked, pytestconfig):
    """Returns what the reader says of them; with `--write` stores both."""
    lines = [answer(it) for it in asked if not it.startswith("#")]
    if pytestconfig.getoption("--write"):
        stored.write("keys", asked, lines)
    return lines


def test_stored_keys(asked, answers):
    assert differences(asked, stored.stored("stdin", "keys")) == []


def test_stored_answers(answers):
    assert differences(answers, stored.stored("stdout", "keys")) == []


def test_answers_by_hand():
    wanted = BY_HAND[2::3]
    found = stored.stored("stdout", "keys")[-len(wanted) :]
    assert differences(BY_HAND[1::3], wanted, found) == []


def test_number_of_stored_keys():
    assert len(stored.pairs("keys")) == 656 + 2000 + 135


@pytest.fixture(scope="module")
def copies():
    """Returns a key with all fields as it begins, with a byte behind it, and with each of its bytes
    made each other value; and what the reader says of them."""
    (key,) = (bytes.fromhex(it) for it in BY_HAND if it.startswith("307702"))
    changed = [key[:count] for count in range(len(key))] + [key + b"\0"]
    changed += [key[:place] + bytes([other]) + key[place + 1 :]
                for place, byte in enumerate(key) for other in range(256) if other != byte]
    lines = [f"{stored.KEY} {it.hex().upper()}" for it in changed]
    return lines, [*map(answer, lines)]


def test_changed_copies(replay, copies):
    lines, wanted = copies
    assert differences(lines, wanted, replay(lines)) == []


def test_number_of_changed_copies(copies):
    _, wanted = copies
    is_read = [not it.startswith("refused") for it in wanted]
    assert (len(is_read), sum(is_read)) == (30977, 26644)


def test_openssl_finds_the_private_keys(tmp_path):
    command = ["openssl", "asn1parse", "-inform", "DER", "-in", tmp_path / "key"]
    pairs = [it for it in stored.pairs("keys")[:80] if not it[1].startswith("refused")]
    assert pairs
    for line, said in pairs:
        (tmp_path / "key").write_bytes(bytes.fromhex(line.split(" ")[1]))
        octets = [it.rpartition(":")[2] for it in lines_of(*command) if "OCTET STRING" in it]
        assert said.split(" ")[0] in octets
