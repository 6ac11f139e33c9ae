"""The faults that a test of `der_view::faults` wants, beside the reader of keys/. keys/places.py
prints them anew."""

import itertools

from keys import places, reader


def test_damages(tell):
    stored, found = places.stored_damages(), places.damages(reader)
    tell(f"{len(stored)} damages are stored, of {len(found)}", len(stored) == len(found))
    for wanted, fault in itertools.zip_longest(stored, found):
        tell(f"the test wants {wanted}, and the reader says {fault}", wanted == fault)


def test_damaged_key_is_stored():
    assert bytes(places.stored("SHORT_KEY")) == places.KEY


def test_damaged_key_had_no_fault():
    assert places.fault(reader, places.KEY) == (0, 0)
