"""Test the reader against outcomes worked out by hand."""

from __future__ import annotations

import re
import unittest

from deck import Deck, Refusal, description, read_deck
from make_decks import all_samples
from sample import BRIDGE, Sample, cards

# Refusals that can stand on one line only, whatever the deck.
ONE_LINE_ONLY = {1: 1, 2: 66, 5: 1, 15: 0}
# The first line on which each of the others can stand.
FIRST_LINE = {3: 2, 4: 2, 16: 1, 17: 1, 18: 1, 19: 3}


def outcome(data: bytes) -> tuple[int, int, int]:
    """Number, place and line as a sample states them."""
    result = read_deck(data)
    if isinstance(result, Deck):
        return (0, 0, 0)
    return (result.number, result.place, result.line)


class SampleTest(unittest.TestCase):
    samples: list[Sample] = all_samples()

    def test_outcomes(self) -> None:
        for sample in self.samples:
            with self.subTest(sample.name):
                stated = (sample.number, sample.place, sample.line)
                self.assertEqual(outcome(sample.data), stated)

    def test_names(self) -> None:
        names = [sample.name for sample in self.samples]
        self.assertEqual(len(names), len(set(names)))
        for name in names:
            self.assertRegex(name, re.compile(r"\A[a-z0-9_]+\.deck\Z"))

    def test_no_deck_twice(self) -> None:
        self.assertEqual(len({sample.data for sample in self.samples}), len(self.samples))

    def test_refusals_that_have_one_line(self) -> None:
        for number, line in ONE_LINE_ONLY.items():
            self.assertEqual(self._lines(number), {line})

    def test_refusals_at_first_and_later_lines(self) -> None:
        for number, line in FIRST_LINE.items():
            self.assertEqual(min(self._lines(number)), line)
            self.assertGreater(max(self._lines(number)), line)

    def _lines(self, number: int) -> set[int]:
        return {sample.line for sample in self.samples if sample.number == number}


class DescriptionTest(unittest.TestCase):
    def test_refusal(self) -> None:
        self.assertEqual(
            description(Refusal(4, 12, 14)), b"DECK REFUSED 4 LAYER N PLACE 12 LINE 14\n"
        )

    def test_lines_of_any_number(self) -> None:
        # crates/refusals wants the same texts
        for refusal, text in (
            (Refusal(15, 0, 0), b"DECK REFUSED 15 LAYER D PLACE 0 LINE 0\n"),
            (Refusal(19, 0, 2**32 + 7), b"DECK REFUSED 19 LAYER D PLACE 0 LINE 4294967303\n"),
            (
                Refusal(3, 5, 2**64 - 1),
                b"DECK REFUSED 3 LAYER N PLACE 5 LINE 18446744073709551615\n",
            ),
        ):
            self.assertEqual(description(refusal), text)

    def test_layers(self) -> None:
        for number, layer in ((1, "N"), (4, "N"), (5, "S"), (14, "D"), (15, "D"), (19, "D")):
            self.assertEqual(Refusal(number, 0, 0).layer, layer)

    def test_small_table(self) -> None:
        self.assertEqual(read_deck(b"", places=63), Refusal(14, 0, 0))
        self.assertEqual(read_deck(b"", places=64), Refusal(15, 0, 0))

    def test_marked_bridge(self) -> None:
        marks = ("FAILED 00", "WORKING 4", "WORKING 0", "FAILED 3")
        deck = cards(*BRIDGE, *marks, "DOOR 03", "DOOR 9")
        self.assertEqual(
            description(read_deck(deck)),
            b"NODES 4 HEAD 0 BRANCHES 5\n"
            b"BRANCH 0 0 1 W 100000000 9\n"
            b"BRANCH 1 0 2 A 100000000 9\n"
            b"BRANCH 2 1 2 A 100000000 9\n"
            b"BRANCH 3 1 3 F 100000000 9\n"
            b"BRANCH 4 2 3 W 100000000 9\n"
            b"DOOR 3\n"
            b"DOOR 9\n",
        )


if __name__ == "__main__":
    unittest.main()
