"""Test decks with two or more faults, where the order of questions decides.

The title names the other faults by their numbers, after "not".
"""

from __future__ import annotations

from sample import (
    BRIDGE,
    FULL,
    MOST_BYTES,
    PAIR,
    PAIR_BRANCH,
    PAIR_NODES,
    Samples,
    at_line_1,
    at_line_2,
    at_line_3,
    at_line_7,
    at_line_8,
    branch,
    cards,
    filled_with_doors,
    refused,
)


def samples() -> Samples:
    yield from _whole_deck_first()
    yield from _word_first()
    yield from _turn_before_numbers()
    yield from _turn_before_card()
    yield from _numbers_before_card()
    yield from _within_nodes()
    yield from _within_branch()
    yield from _earlier_line_first()
    yield from _fault_before_early_end()


_BAD_END = branch(0, 9)
_BAD_RATING = branch(0, 1, 1, 8)
_BAD_BOTH = branch(9, 0, 1_000_000_001, 19)


def _whole_deck_first() -> Samples:
    """Length and last byte are judged before any line."""
    for title, deck in (
        ("1", at_line_1("NODES 1 0")),
        ("2", cards(*FULL, PAIR_BRANCH, "DOOR 31")),
        ("3", at_line_2(_BAD_END)),
        ("4", at_line_2(_BAD_RATING)),
        ("5", at_line_1("NODES 2 2")),
        ("16", at_line_1("NODESX 2 0")),
        ("17", cards("DOOR 1")),
        ("17_early_end", cards(*PAIR)),
        ("18", at_line_1("NODES 2 x")),
        ("19", at_line_3("FAILED 1")),
    ):
        yield refused(15, f"no_final_byte_10_not_{title}", deck[:-1], line=0)
    bad_start = filled_with_doors(cards("NODESX 2 0", PAIR_BRANCH), MOST_BYTES + 1)
    yield refused(15, "bytes_65537_not_16", bad_start, line=0)
    yield refused(15, "bytes_65537_no_final_byte_10", bad_start[:-1] + b"1", line=0)
    yield refused(15, "bytes_65537_all_10_not_16", b"\n" * (MOST_BYTES + 1), line=0)


def _word_first() -> Samples:
    """An unknown word stops the line, whatever else is wrong with it."""
    yield refused(16, "not_1", at_line_1("nodes 1 0"), line=1)
    yield refused(16, "not_3", at_line_2(_BAD_END.lower()), line=2)
    yield refused(16, "not_4", at_line_2(" " + _BAD_RATING), line=2)
    yield refused(16, "not_5", at_line_1(" NODES 2 2"), line=1)
    yield refused(16, "not_17_where_nodes_is_due", cards("EDGE 0 1 1 9", *PAIR, "DOOR 1"), line=1)
    yield refused(16, "not_17_after_nodes", cards(PAIR_NODES, "DOORS 1", "DOOR 1"), line=2)
    yield refused(16, "not_17_after_door", at_line_8("branch 0 3 100000000 9"), line=8)
    yield refused(16, "not_18", at_line_1("NODESX 2"), line=1)
    yield refused(16, "not_18_later", at_line_7(" DOOR x"), line=7)
    yield refused(16, "not_19", at_line_7("failed 5"), line=7)
    yield refused(16, "not_2", cards(*FULL, "Branch 0 1 1 9", "DOOR 31"), line=66)


def _turn_before_numbers() -> Samples:
    """A card out of turn is refused before its numbers are looked at."""
    for title, text in (
        ("branch_alone", "BRANCH"),
        ("failed_alone", "FAILED"),
        ("working_empty_word", "WORKING "),
        ("door_alone", "DOOR"),
        ("door_minus", "DOOR -1"),
    ):
        yield refused(17, f"{title}_first_not_18", cards(text, *PAIR, "DOOR 1"), line=1)
    for title, text in (
        ("nodes_alone", "NODES"),
        ("failed_two_numbers", "FAILED 0 0"),
        ("door_11_digits", "DOOR 00000000001"),
    ):
        deck = cards(PAIR_NODES, text, PAIR_BRANCH, "DOOR 1")
        yield refused(17, f"{title}_after_nodes_not_18", deck, line=2)
    late_branch = cards(*BRIDGE, "FAILED 0", "BRANCH 0 3", "DOOR 3")
    yield refused(17, "branch_after_mark_not_18", late_branch, line=8)
    yield refused(17, "working_after_door_not_18", at_line_8("WORKING x"), line=8)
    yield refused(17, "nodes_after_door_not_18", at_line_8("NODES 4 0 "), line=8)


def _turn_before_card() -> Samples:
    """Nor is what the numbers mean looked at."""
    yield refused(17, "second_nodes_not_1", at_line_3("NODES 1 0"), line=3)
    yield refused(17, "second_nodes_not_5", at_line_3("NODES 2 2"), line=3)
    yield refused(17, "branch_first_not_3", cards(_BAD_END, *PAIR, "DOOR 1"), line=1)
    late = cards(*FULL, "FAILED 0", branch(0, 1), "DOOR 31")
    yield refused(17, "65th_branch_after_mark_not_2", late, line=67)
    yield refused(17, "branch_after_mark_not_3", _after_mark(_BAD_END), line=4)
    yield refused(17, "branch_after_mark_not_4", _after_mark(_BAD_RATING), line=4)
    no_branch = cards(PAIR_NODES, "FAILED 0", PAIR_BRANCH, "DOOR 1")
    yield refused(17, "failed_before_branches_not_19", no_branch, line=2)
    yield refused(17, "working_first_not_19", cards("WORKING 7", *PAIR, "DOOR 1"), line=1)
    yield refused(17, "failed_after_door_not_19", at_line_8("FAILED 5"), line=8)


def _after_mark(text: str) -> bytes:
    return cards(*PAIR, "WORKING 0", text, "DOOR 1")


def _numbers_before_card() -> Samples:
    """All numbers of a card are sound before any is used."""
    yield refused(18, "one_number_not_1", at_line_1("NODES 1"), line=1)
    yield refused(18, "three_numbers_not_1", at_line_1("NODES 33 0 0"), line=1)
    yield refused(18, "head_letter_not_1", at_line_1("NODES 33 x"), line=1)
    yield refused(18, "three_numbers_not_5", at_line_1("NODES 4 4 4"), line=1)
    yield refused(18, "n_letter_not_5", at_line_1("NODES x 99"), line=1)
    yield refused(18, "nodes_4294967296_not_1", at_line_1("NODES 4294967296 0"), line=1)
    for title, text in (
        ("three_numbers", "BRANCH 0 1 9"),
        ("letter", "BRANCH 0 1 1 x"),
        ("11_digits", "BRANCH 0 1 00000000001 9"),
    ):
        yield refused(18, f"65th_branch_{title}_not_2", cards(*FULL, text, "DOOR 31"), line=66)
    yield refused(18, "three_numbers_not_3", at_line_2("BRANCH 0 2 100000000"), line=2)
    yield refused(18, "e_letter_not_3", at_line_2("BRANCH 2 0 100000000 x"), line=2)
    yield refused(18, "five_numbers_not_4", at_line_2("BRANCH 0 1 1000000001 9 9"), line=2)
    yield refused(18, "m_minus_not_4", at_line_2("BRANCH 0 1 -1 8"), line=2)
    yield refused(18, "e_4294967296_not_4", at_line_2("BRANCH 0 1 1 4294967296"), line=2)
    yield refused(18, "m_letter_not_3_nor_4", at_line_2("BRANCH 0 2 x 8"), line=2)
    yield refused(18, "11_digits_not_19", at_line_7("FAILED 00000000005"), line=7)
    yield refused(18, "two_numbers_not_19", at_line_7("WORKING 5 5"), line=7)
    yield refused(18, "4294967296_not_19", at_line_7("FAILED 4294967296"), line=7)
    yield refused(18, "byte_13_not_19", at_line_7(b"WORKING 9\r"), line=7)


def _within_nodes() -> Samples:
    """The node count comes before the head."""
    for nodes, head in ((0, 0), (1, 1), (33, 33), (33, 4_294_967_295)):
        deck = at_line_1(f"NODES {nodes} {head}")
        yield refused(1, f"nodes_{nodes}_head_{head}_not_5", deck, line=1)


def _within_branch() -> Samples:
    """Room for the branch, then its ends, then its rating."""
    for title, text in (("3", branch(0, 32)), ("4", _BAD_RATING), ("3_nor_4", branch(32, 0, 1, 8))):
        yield refused(2, f"65th_branch_not_{title}", cards(*FULL, text, "DOOR 31"), line=66)
    yield refused(3, "not_4", at_line_2(_BAD_BOTH), line=2, place=0)
    yield refused(3, "not_4_second_end", at_line_2(branch(1, 2, 1, 8)), line=2, place=0)
    yield refused(3, "later_not_4", at_line_7(_BAD_BOTH), line=7, place=5)
    last = cards(*FULL[:-1], branch(32, 32, 1, 19), "DOOR 31")
    yield refused(3, "last_of_64_branches_not_4", last, line=65, place=63)


def _earlier_line_first() -> Samples:
    """Each line is judged whole before the next one is looked at."""
    yield refused(1, "not_16_on_line_2", cards("NODES 1 0", "", "DOOR 1"), line=1)
    yield refused(5, "not_18_on_line_2", cards("NODES 2 2", "BRANCH", "DOOR 1"), line=1)
    yield refused(5, "not_3_on_line_2", cards("NODES 2 9", _BAD_END, "DOOR 1"), line=1)
    yield refused(18, "not_17_on_line_2", cards("NODES 2", "NODES 2 0", "DOOR 1"), line=1)
    yield refused(16, "not_17_on_line_2", cards("NODESX 2 0", "DOOR 1"), line=1)
    yield refused(17, "not_16_on_line_2", cards("DOOR 1", "DOORS 1"), line=1)
    yield refused(17, "not_16_on_line_9", cards(*BRIDGE, "NODES 4 0", "DOOR 3", ""), line=7)
    yield refused(2, "not_16_on_line_67", cards(*FULL, PAIR_BRANCH, "door 1"), line=66)
    rating_then_end = cards(PAIR_NODES, _BAD_RATING, _BAD_END, "DOOR 1")
    yield refused(4, "not_3_on_line_3", rating_then_end, line=2, place=0)
    end_then_rating = cards(PAIR_NODES, _BAD_END, _BAD_RATING, "DOOR 1")
    yield refused(3, "not_4_on_line_3", end_then_rating, line=2, place=0)
    end_then_too_many = cards(FULL[0], branch(0, 32), *FULL[1:], PAIR_BRANCH, "DOOR 31")
    yield refused(3, "not_2_on_line_66", end_then_too_many, line=2, place=0)
    rating_then_turn = cards(*BRIDGE, _BAD_RATING, "NODES 4 0", "DOOR 3")
    yield refused(4, "not_17_on_line_8", rating_then_turn, line=7, place=5)
    yield refused(19, "not_16_on_line_8", cards(*BRIDGE, "FAILED 5", "x", "DOOR 3"), line=7)
    yield refused(19, "not_17_on_line_8", cards(*BRIDGE, "FAILED 5", branch(0, 3)), line=7)
    yield refused(18, "not_19_on_line_8", cards(*BRIDGE, "FAILED x", "FAILED 5", "DOOR 3"), line=7)
    two_numbers = cards(*BRIDGE, "DOOR 3 3", "DOOR", "DOOR 3")
    yield refused(18, "not_18_on_line_8", two_numbers, line=7)


def _fault_before_early_end() -> Samples:
    """A deck that lacks its door is still refused for an earlier line."""
    yield refused(1, "not_17_early_end", cards("NODES 33 0"), line=1)
    yield refused(3, "not_17_early_end", cards(PAIR_NODES, _BAD_END), line=2, place=0)
    yield refused(4, "not_17_early_end", cards(*PAIR, _BAD_RATING), line=3, place=1)
    yield refused(5, "not_17_early_end", cards("NODES 2 2"), line=1)
    yield refused(2, "not_17_early_end", cards(*FULL, PAIR_BRANCH), line=66)
    yield refused(16, "not_17_early_end", cards(*PAIR, "door 1"), line=3)
    yield refused(18, "not_17_early_end", cards(*PAIR, "DOOR"), line=3)
    yield refused(19, "not_17_early_end", cards(*PAIR, "FAILED 1"), line=3)
