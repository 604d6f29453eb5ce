"""Test decks with a single fault each."""

from __future__ import annotations

from sample import (
    BRIDGE,
    FULL,
    MOST_BYTES,
    PAIR,
    PAIR_BRANCH,
    PAIR_NODES,
    Samples,
    at_line_1,
    at_line_2,
    at_line_3,
    at_line_7,
    at_line_8,
    branch,
    cards,
    filled_with_doors,
    refused,
)


def samples() -> Samples:
    yield from _node_counts()
    yield from _heads()
    yield from _branch_counts()
    yield from _ends()
    yield from _ratings()
    yield from _whole_decks()
    yield from _words()
    yield from _strange_bytes_in_words()
    yield from _turns()
    yield from _early_ends()
    yield from _number_counts()
    yield from _number_forms()
    yield from _number_sizes()
    yield from _strange_bytes_in_numbers()
    yield from _line_ends()
    yield from _marks()


def _node_counts() -> Samples:
    """The node count can only be judged on line 1."""
    for nodes in (1, 33, 64, 258, 65_538, 4_294_967_295):
        yield refused(1, f"nodes_{nodes}", at_line_1(f"NODES {nodes} 0"), line=1)


def _heads() -> Samples:
    """So can the head."""
    for nodes, head in ((2, 2), (4, 5), (32, 32), (4, 256), (4, 4_294_967_295)):
        deck = at_line_1(f"NODES {nodes} {head}")
        yield refused(5, f"head_{head}_of_{nodes}", deck, line=1)


def _branch_counts() -> Samples:
    """The branch past the 64th always stands on line 66."""
    yield refused(2, "branches_65", cards(*FULL, branch(0, 1), "DOOR 31"), line=66)
    more = [branch(1, 2)] * 192
    yield refused(2, "branches_256", cards(*FULL, *more, "DOOR 31"), line=66)


def _ends() -> Samples:
    yield refused(3, "first_end_n", at_line_2(branch(2, 0)), line=2, place=0)
    yield refused(3, "second_end_n", at_line_2(branch(0, 2)), line=2, place=0)
    yield refused(3, "both_ends_n", at_line_2(branch(2, 2)), line=2, place=0)
    yield refused(3, "end_256", at_line_2(branch(0, 256)), line=2, place=0)
    yield refused(3, "end_4294967295", at_line_2(branch(4_294_967_295, 0)), line=2, place=0)
    yield refused(3, "later_first_end_n", at_line_7(branch(4, 1)), line=7, place=5)
    yield refused(3, "later_second_end_n", at_line_7(branch(1, 4)), line=7, place=5)
    last = cards(*FULL[:-1], branch(0, 32), "DOOR 31")
    yield refused(3, "last_of_64_branches", last, line=65, place=63)
    twice = cards(PAIR_NODES, branch(0, 1), branch(0, 2), branch(3, 3), "DOOR 1")
    yield refused(3, "two_branches", twice, line=3, place=1)


def _ratings() -> Samples:
    big = 1_000_000_001
    yield refused(4, "m_1000000001", at_line_2(branch(0, 1, big, 9)), line=2, place=0)
    yield refused(4, "m_1000000001_e_18", at_line_2(branch(0, 1, big, 18)), line=2, place=0)
    yield refused(4, "m_4294967295", at_line_2(branch(0, 1, 4_294_967_295, 9)), line=2, place=0)
    for e in (0, 8, 19, 265, 4_294_967_295):
        yield refused(4, f"e_{e}", at_line_2(branch(0, 1, 1, e)), line=2, place=0)
    yield refused(4, "m_0_e_8", at_line_2(branch(0, 1, 0, 8)), line=2, place=0)
    yield refused(4, "later_m", at_line_7(branch(0, 3, big, 9)), line=7, place=5)
    yield refused(4, "later_e_8", at_line_7(branch(0, 3, 1, 8)), line=7, place=5)
    yield refused(4, "later_e_19", at_line_7(branch(3, 3, 1, 19)), line=7, place=5)
    last = cards(*FULL[:-1], branch(0, 31, 1, 19), "DOOR 31")
    yield refused(4, "last_of_64_branches", last, line=65, place=63)
    marked = cards(PAIR_NODES, branch(0, 1, big, 9), "FAILED 0", "DOOR 1")
    yield refused(4, "branch_marked_failed_later", marked, line=2, place=0)


def _whole_decks() -> Samples:
    """Faults of the deck as a whole have no line."""
    bridge = cards(*BRIDGE, "DOOR 3")
    start = cards(*PAIR)
    longest = filled_with_doors(start, MOST_BYTES)
    yield refused(15, "empty", b"", line=0)
    yield refused(15, "one_byte_space", b" ", line=0)
    yield refused(15, "no_final_byte_10", bridge[:-1], line=0)
    yield refused(15, "final_byte_13", bridge[:-1] + b"\r", line=0)
    yield refused(15, "final_bytes_10_13", bridge + b"\r", line=0)
    yield refused(15, "final_byte_0", bridge + b"\0", line=0)
    yield refused(15, "final_space", bridge + b" ", line=0)
    yield refused(15, "final_byte_138", bridge[:-1] + b"\x8a", line=0)
    yield refused(15, "bytes_65537", filled_with_doors(start, MOST_BYTES + 1), line=0)
    yield refused(15, "bytes_65536_no_final_byte_10", longest[:-1] + b"1", line=0)
    yield refused(15, "bytes_65537_sound_up_to_65536", longest + b"\n", line=0)
    twice = longest + cards("DOOR 0000000001") * (MOST_BYTES // 16)
    yield refused(15, "bytes_131072", twice, line=0)


def _words() -> Samples:
    """The whole first word counts, in capitals, and nothing before it."""
    yield refused(16, "one_byte_10", b"\n", line=1)
    yield refused(16, "only_bytes_10", b"\n" * MOST_BYTES, line=1)
    yield refused(16, "empty_line_first", cards("", *PAIR, "DOOR 1"), line=1)
    yield refused(16, "empty_line_second", cards(PAIR_NODES, "", PAIR_BRANCH, "DOOR 1"), line=2)
    yield refused(16, "empty_line_before_door", at_line_7(""), line=7)
    yield refused(16, "empty_line_last", at_line_8(""), line=8)
    yield refused(16, "space_line", at_line_7(" "), line=7)
    for title, text in _WRONG_FIRST_WORDS:
        yield refused(16, title, at_line_1(text), line=1)
    for title, text in _WRONG_LATER_WORDS:
        yield refused(16, title, at_line_7(text), line=7)
    long_word = cards("N" * (MOST_BYTES - 1))
    yield refused(16, "word_of_65535_bytes", long_word, line=1)
    yield refused(16, "last_line_of_65536_bytes", _long_with_wrong_end(), line=9359)


_WRONG_FIRST_WORDS = (
    ("nodesx", "NODESX 2 0"),
    ("node", "NODE 2 0"),
    ("nodes_small_letters", "nodes 2 0"),
    ("nodes_one_capital", "Nodes 2 0"),
    ("nodes_leading_space", " NODES 2 0"),
    ("nodes_two_leading_spaces", "  NODES 2 0"),
    ("nodes_joined_to_number", "NODES2 0"),
    ("nodes_after_number", "2 NODES 0"),
    ("nodes_colon", "NODES: 2 0"),
    ("remark", "# NODES 2 0"),
)

_WRONG_LATER_WORDS = (
    ("branchx", "BRANCHX 0 3 100000000 9"),
    ("branc", "BRANC 0 3 100000000 9"),
    ("branch_small_letters", "branch 0 3 100000000 9"),
    ("branch_leading_space", " BRANCH 0 3 100000000 9"),
    ("fail", "FAIL 0"),
    ("failed_small_letters", "failed 0"),
    ("workings", "WORKINGS 0"),
    ("working_leading_space", " WORKING 0"),
    ("doors", "DOORS 3"),
    ("door_small_letters", "door 3"),
    ("door_leading_space", " DOOR 3"),
    ("head", "HEAD 0"),
)


def _long_with_wrong_end() -> bytes:
    """A deck of the largest length whose very last line is no card.

    The pair's cards take 33 bytes.  9,355 doors of 7 bytes and one of 9 follow
    on lines 3 to 9,358, and nine bytes are left for line 9,359.
    """
    return filled_with_doors(cards(*PAIR), MOST_BYTES - 9) + cards("DOORS 12")


def _strange_bytes_in_words() -> Samples:
    """Only the space parts words, so other bytes belong to the word."""
    for title, text in (
        ("byte_0_before_nodes", b"\0NODES 2 0"),
        ("byte_0_after_nodes", b"NODES\0 2 0"),
        ("byte_0_for_space", b"NODES\x002 0"),
        ("tab_before_nodes", b"\tNODES 2 0"),
        ("tab_for_space", b"NODES\t2\t0"),
        ("byte_13_before_nodes", b"\rNODES 2 0"),
        ("byte_13_after_nodes_alone", b"NODES\r"),
        ("byte_255_before_nodes", b"\xffNODES 2 0"),
        ("byte_255_for_space", b"NODES\xff2 0"),
        ("byte_160_for_space", b"NODES\xa02 0"),
        ("byte_11_for_space", b"NODES\x0b2 0"),
        ("utf8_mark_before_nodes", b"\xef\xbb\xbfNODES 2 0"),
        ("utf8_space_for_space", "NODES\u00a02 0"),
        ("utf8_wide_nodes", "\uff2e\uff2f\uff24\uff25\uff33 2 0"),
        ("high_bit_letter", b"\xceODES 2 0"),
    ):
        yield refused(16, title, at_line_1(text), line=1)
    for title, text in (
        ("later_byte_0_line", b"\0"),
        ("later_tab_line", b"\t"),
        ("later_byte_13_line", b"\r"),
        ("later_byte_255_line", b"\xff"),
        ("later_byte_0_after_door", b"DOOR\0 3"),
        ("later_tab_after_door", b"DOOR\t3"),
        ("later_byte_13_after_door_alone", b"DOOR\r"),
        ("later_byte_255_after_door", b"DOOR\xff 3"),
        ("later_byte_12_before_door", b"\x0cDOOR 3"),
    ):
        yield refused(16, title, at_line_7(text), line=7)


# Sound cards up to and with the named one, and a sample of each kind of card.
_UP_TO = {
    "nothing": (),
    "nodes": (PAIR_NODES,),
    "branch": PAIR,
    "failed": (*PAIR, "FAILED 0"),
    "working": (*PAIR, "WORKING 0"),
    "door": (*PAIR, "DOOR 1"),
}
_CARD = {
    "nodes": PAIR_NODES,
    "branch": PAIR_BRANCH,
    "failed": "FAILED 0",
    "working": "WORKING 0",
    "door": "DOOR 1",
}
# Which cards are out of turn after which.
_OUT_OF_TURN = {
    "nothing": ("branch", "failed", "working", "door"),
    "nodes": ("nodes", "failed", "working", "door"),
    "branch": ("nodes",),
    "failed": ("nodes", "branch"),
    "working": ("nodes", "branch"),
    "door": ("nodes", "branch", "failed", "working"),
}


def _turns() -> Samples:
    for before, words in _OUT_OF_TURN.items():
        start = _UP_TO[before]
        for word in words:
            deck = cards(*start, _CARD[word], "DOOR 1")
            yield refused(17, f"{word}_after_{before}", deck, line=len(start) + 1)
    yield refused(17, "later_nodes_other_figures", at_line_7("NODES 5 1"), line=7)
    yield refused(17, "later_branch_after_door", at_line_8(branch(0, 3)), line=8)
    marks = ("FAILED 0", "WORKING 1", branch(0, 3), "DOOR 3")
    yield refused(17, "later_branch_after_marks", cards(*BRIDGE, *marks), line=9)
    doors = ("DOOR 1", "DOOR 2", "DOOR 3", "FAILED 0")
    yield refused(17, "later_failed_after_doors", cards(*BRIDGE, *doors), line=10)


def _early_ends() -> Samples:
    """A missing door is told at the line that would come next."""
    yield refused(17, "ends_after_nodes", cards(PAIR_NODES), line=2)
    yield refused(17, "ends_after_branch", cards(*PAIR), line=3)
    yield refused(17, "ends_after_failed", cards(*PAIR, "FAILED 0"), line=4)
    yield refused(17, "ends_after_working", cards(*PAIR, "WORKING 0"), line=4)
    yield refused(17, "ends_after_5_branches", cards(*BRIDGE), line=7)
    yield refused(17, "ends_after_64_branches", cards(*FULL), line=66)
    # The pair's cards take 33 bytes and 7,278 marks 9 each: 65,535 together.
    marks = cards(*PAIR) + b"FAILED 0\n" * 7278
    yield refused(17, "ends_after_7278_marks", marks, line=7281)


# What the lines after a first line, and its own end, leave free in a deck.
_LONGEST_LINE_1 = MOST_BYTES - len(at_line_1(""))


def _number_counts() -> Samples:
    """One number too few, one too many, and empty words among them."""
    for title, text in (
        ("nodes_alone", "NODES"),
        ("nodes_one_number", "NODES 2"),
        ("nodes_three_numbers", "NODES 2 0 0"),
        ("nodes_space", "NODES "),
        ("nodes_two_empty_words", "NODES  "),
        ("nodes_two_spaces_first", "NODES  2 0"),
        ("nodes_two_spaces_second", "NODES 2  0"),
        ("nodes_trailing_space", "NODES 2 0 "),
        ("nodes_empty_word_for_head", "NODES 2 "),
        ("nodes_empty_word_for_n", "NODES  0"),
        ("nodes_65500_spaces", "NODES".ljust(_LONGEST_LINE_1)),
    ):
        yield refused(18, title, at_line_1(text), line=1)
    for title, text in (
        ("branch_alone", "BRANCH"),
        ("branch_three_numbers", "BRANCH 0 1 100000000"),
        ("branch_five_numbers", "BRANCH 0 1 100000000 9 9"),
        ("branch_four_empty_words", "BRANCH    "),
        ("branch_empty_word_for_end", "BRANCH  1 100000000 9"),
        ("branch_two_spaces", "BRANCH 0 1  100000000 9"),
        ("branch_trailing_space", "BRANCH 0 1 100000000 9 "),
    ):
        yield refused(18, title, at_line_2(text), line=2)
    for title, text in (
        ("failed_alone", "FAILED"),
        ("failed_two_numbers", "FAILED 0 0"),
        ("failed_two_spaces", "FAILED  0"),
        ("failed_trailing_space", "FAILED 0 "),
        ("working_alone", "WORKING"),
        ("working_two_numbers", "WORKING 0 1"),
        ("working_empty_word", "WORKING "),
        ("door_alone", "DOOR"),
        ("door_two_numbers", "DOOR 3 1"),
        ("door_empty_word", "DOOR "),
        ("door_two_spaces", "DOOR  3"),
        ("door_trailing_space", "DOOR 3 "),
        ("door_remark", "DOOR 3 # the yard"),
    ):
        yield refused(18, title, at_line_7(text), line=7)


def _number_forms() -> Samples:
    """Nothing but the ten ASCII digits makes a number."""
    for title, text in (
        ("nodes_plus", "NODES +2 0"),
        ("head_minus_zero", "NODES 2 -0"),
        ("nodes_hexadecimal", "NODES 0x2 0"),
        ("nodes_decimal_point", "NODES 2.0 0"),
        ("nodes_arabic_digit", "NODES \u0662 0"),
        ("head_wide_digit", "NODES 2 \uff10"),
        ("nodes_word", "NODES TWO 0"),
    ):
        yield refused(18, title, at_line_1(text), line=1)
    for title, text in (
        ("branch_end_minus", "BRANCH 0 -1 100000000 9"),
        ("branch_m_plus", "BRANCH 0 1 +100000000 9"),
        ("branch_m_decimal_point", "BRANCH 0 1 0.1 9"),
        ("branch_m_exponent", "BRANCH 0 1 1e8 9"),
        ("branch_m_low_lines", "BRANCH 0 1 100_000_00 9"),
        ("branch_m_commas", "BRANCH 0 1 1,000,000 9"),
        ("branch_e_hexadecimal", "BRANCH 0 1 100000000 0x9"),
    ):
        yield refused(18, title, at_line_2(text), line=2)
    for title, text in (
        ("failed_minus", "FAILED -1"),
        ("working_plus", "WORKING +0"),
        ("door_plus", "DOOR +3"),
        ("door_minus", "DOOR -3"),
        ("door_hexadecimal", "DOOR 0x3"),
        ("door_hexadecimal_letter", "DOOR A"),
        ("door_decimal_point", "DOOR 3."),
        ("door_bengali_digit", "DOOR \u09e9"),
        ("door_raised_digit", "DOOR \u00b3"),
        ("door_byte_before_digits", "DOOR /"),
        ("door_byte_after_digits", "DOOR :"),
        ("door_high_bit_digit", b"DOOR \xb3"),
        ("door_quoted", 'DOOR "3"'),
    ):
        yield refused(18, title, at_line_7(text), line=7)


def _number_sizes() -> Samples:
    """Eleven digits are too many, and so is anything past 32 bits."""
    yield refused(18, "nodes_11_digits", at_line_1("NODES 00000000002 0"), line=1)
    yield refused(18, "head_11_digits", at_line_1("NODES 2 00000000000"), line=1)
    yield refused(18, "nodes_4294967298", at_line_1("NODES 4294967298 0"), line=1)
    yield refused(18, "head_4294967296", at_line_1("NODES 2 4294967296"), line=1)
    long_zero = "NODES 2 ".ljust(_LONGEST_LINE_1, "0")
    yield refused(18, "head_65497_digits", at_line_1(long_zero), line=1)
    for title, text in (
        ("end_11_digits", "BRANCH 00000000000 1 100000000 9"),
        ("end_4294967296", "BRANCH 4294967296 1 100000000 9"),
        ("m_11_digits", "BRANCH 0 1 00100000000 9"),
        ("m_4294967296", "BRANCH 0 1 4294967296 9"),
        ("e_11_digits", "BRANCH 0 1 100000000 00000000009"),
        ("e_4294967305", "BRANCH 0 1 100000000 4294967305"),
    ):
        yield refused(18, title, at_line_2(text), line=2)
    for title, text in (
        ("failed_11_digits", "FAILED 00000000000"),
        ("working_4294967296", "WORKING 4294967296"),
        ("door_11_digits", "DOOR 00000000001"),
        ("door_4294967296", "DOOR 4294967296"),
        ("door_9999999999", "DOOR 9999999999"),
        ("door_18446744073709551619", "DOOR 18446744073709551619"),
    ):
        yield refused(18, title, at_line_7(text), line=7)


def _strange_bytes_in_numbers() -> Samples:
    for title, text in (
        ("byte_0_in_number", b"NODES 2\0 0"),
        ("byte_0_at_line_end", b"NODES 2 0\0"),
        ("byte_0_for_number", b"NODES \0 0"),
        ("tab_between_numbers", b"NODES 2\t0"),
        ("tab_at_line_end", b"NODES 2 0\t"),
        ("tab_before_number", b"NODES \t2 0"),
        ("byte_11_at_line_end", b"NODES 2 0\x0b"),
        ("byte_12_at_line_end", b"NODES 2 0\x0c"),
        ("byte_28_at_line_end", b"NODES 2 0\x1c"),
        ("byte_133_at_line_end", b"NODES 2 0\x85"),
        ("byte_160_at_line_end", b"NODES 2 0\xa0"),
        ("byte_255_in_number", b"NODES 2\xff 0"),
        ("byte_255_at_line_end", b"NODES 2 0\xff"),
    ):
        yield refused(18, title, at_line_1(text), line=1)
    for title, text in (
        ("later_byte_0_at_line_end", b"DOOR 3\0"),
        ("later_tab_at_line_end", b"DOOR 3\t"),
        ("later_byte_13_at_line_end", b"DOOR 3\r"),
        ("later_byte_255_at_line_end", b"DOOR 3\xff"),
        ("later_byte_13_between_cards", b"FAILED 0\rWORKING 0"),
    ):
        yield refused(18, title, at_line_7(text), line=7)


def _line_ends() -> Samples:
    """Byte 10 alone ends a line; byte 13 is part of the word beside it."""
    bridge = cards(*BRIDGE, "DOOR 3")
    both = bridge.replace(b"\n", b"\r\n")
    yield refused(18, "bytes_13_10_everywhere", both, line=1)
    yield refused(18, "bytes_13_10_last_line", bridge[:-1] + b"\r\n", line=7)
    yield refused(16, "bytes_13_10_empty_last_line", bridge + b"\r\n", line=8)
    yield refused(18, "byte_13_for_10", bridge[:-1].replace(b"\n", b"\r") + b"\n", line=1)
    yield refused(16, "bytes_10_13_everywhere", bridge[:-1].replace(b"\n", b"\n\r") + b"\n", line=2)


def _marks() -> Samples:
    """The first line a mark can stand on is line 3."""
    for word in ("FAILED", "WORKING"):
        title = word.lower()
        yield refused(19, f"{title}_one_past_last", at_line_3(f"{word} 1"), line=3)
        yield refused(19, f"later_{title}_one_past_last", at_line_7(f"{word} 5"), line=7)
        full = cards(*FULL, f"{word} 64", "DOOR 31")
        yield refused(19, f"{title}_64_of_64", full, line=66)
        yield refused(19, f"{title}_256", at_line_3(f"{word} 256"), line=3)
        yield refused(19, f"{title}_4294967295", at_line_3(f"{word} 4294967295"), line=3)
    marks = ("FAILED 0", "WORKING 4", "FAILED 6", "DOOR 3")
    yield refused(19, "third_mark", cards(*BRIDGE, *marks), line=9)
