"""Test the search, the scales, the bounds and the sheets.

Some results were worked out by hand, some are published, and the rest come out
of a second way of reckoning: all node sets, all branch sets, or fractions.
"""

from __future__ import annotations

import unittest
from collections.abc import Iterator
from fractions import Fraction
from itertools import combinations

import operations
import published
from bounds import bounds
from chance import MOST_ABLE, able, cut_off_chance, cut_off_chances
from cuts import MOST_ROWS, Refused, Search, Status, aim, members, network_of, reached
from deck import Condition, Deck, read_deck
from enumerate_cuts import lumps, minimal_cuts
from fast_scales import FastBillionths, FastNineFigures
from layouts import ALWAYS, NEVER, ONE_IN_10, chains, complete, deck_of, mixed, ring
from make_plans import all_plans
from plans_small import BRIDGE, bridge
from random_decks import Dice, good_lines, random_deck
from sample import cards
from scales import Billionths, NineFigures
from sheet import ratings_of, sheet

B, N = Billionths(), NineFigures()
FAST_B, FAST_N = FastBillionths(), FastNineFigures()

# Branches and nodes of a row, both rising.
Shown = tuple[list[int], list[int]]


def search_of(data: bytes, budget: int = 10_000) -> Search:
    """The finished search for the first door of a deck."""
    deck = read_deck(data)
    search = aim(network_of(deck), deck.head, deck.doors[0])
    search.run(budget)
    return search


def rows(search: Search) -> list[Shown]:
    return [(list(members(branches)), list(members(nodes))) for branches, nodes in search.listed()]


def as_sets(search: Search) -> set[tuple[frozenset[int], frozenset[int]]]:
    return {(frozenset(branches), frozenset(nodes)) for branches, nodes in rows(search)}


def refusal(data: bytes) -> int:
    """The number with which the first door of a deck is refused, or 0."""
    deck = read_deck(data)
    try:
        aim(network_of(deck), deck.head, deck.doors[0])
    except Refused as refused:
        return refused.number
    return 0


def door_bounds(scale: object, search: Search, deck: Deck) -> tuple[object, object]:
    sets = [branches for branches, _ in search.listed()]
    return bounds(scale, ratings_of(deck), sets, search.status is Status.FINISHED)


def random_doors(seed: int, most_lumps: int) -> Iterator[tuple[Deck, int]]:
    """Decks by chance without end, with a door that can be cut off."""
    index = 0
    while True:
        index += 1
        dice = Dice(seed, index)
        deck = read_deck(cards(*good_lines(dice)))
        door = dice.below(deck.nodes)
        try:
            aim(network_of(deck), deck.head, door)
        except Refused:
            continue
        if len(lumps(deck)) <= most_lumps:
            yield deck, door


class WorkedTest(unittest.TestCase):
    """Cases worked by hand, with the rows in the order of their writing."""

    def check(self, data: bytes, wanted: list[Shown], tries: int) -> None:
        search = search_of(data)
        self.assertEqual(rows(search), wanted)
        self.assertEqual((search.tries, search.status), (tries, Status.FINISHED))

    def test_1_bridge(self) -> None:
        wanted = [([0, 1], [1, 2, 3]), ([1, 2, 3], [2, 3]), ([0, 2, 4], [1, 3]), ([3, 4], [3])]
        self.check(bridge(), wanted, 3)

    def test_1_chance_and_bounds(self) -> None:
        deck, search = read_deck(bridge()), search_of(bridge())
        self.assertEqual(cut_off_chance(deck, 3), Fraction(2152, 100_000))
        for scale in (B, FAST_B):
            self.assertEqual(door_bounds(scale, search, deck), (21_490_000, 22_000_000))
        fine = ((214_900_000, 10), (220_000_000, 10))
        self.assertEqual(door_bounds(N, search, deck), fine)

    def test_1_sheet(self) -> None:
        self.assertEqual(
            sheet(bridge()),
            b"DOOR 3 CUTS 4 TRIES 3 FINISHED\n"
            b"CUT 0 1 / 1 2 3\n"
            b"CUT 1 2 3 / 2 3\n"
            b"CUT 0 2 4 / 1 3\n"
            b"CUT 3 4 / 3\n"
            b"LOW 21490000 HIGH 22000000\n"
            b"FINE 214900000 10 220000000 10\n",
        )

    def test_2_working_branch(self) -> None:
        self.check(bridge(working=[2]), [([0, 1], [1, 2, 3]), ([3, 4], [3])], 2)

    def test_3_failed_branch(self) -> None:
        wanted = [([0, 1], [1, 2, 3]), ([1, 3], [2, 3]), ([0, 4], [1, 3]), ([3, 4], [3])]
        self.check(bridge(failed=[2]), wanted, 3)

    def test_4_try_without_row(self) -> None:
        data = deck_of(4, [(0, 1), (0, 2), (1, 2), (2, 3)], [3])
        self.check(data, [([0, 1], [1, 2, 3]), ([1, 2], [2, 3]), ([3], [3])], 3)

    def test_5_ring(self) -> None:
        wanted = [([0, 3], [1, 2, 3]), ([1, 3], [2, 3]), ([0, 2], [1, 2]), ([1, 2], [2])]
        self.check(deck_of(4, ring(4), [2]), wanted, 3)

    def test_6_spur(self) -> None:
        self.check(deck_of(3, [(0, 1), (0, 2)], [1]), [([0], [1])], 0)

    def test_7_rated_0(self) -> None:
        data = deck_of(2, [(0, 1)], [1], rating=NEVER)
        self.check(data, [([0], [1])], 0)
        self.assertTrue(sheet(data).endswith(b"LOW 0 HIGH 0\nFINE 0 9 0 9\n"))

    def test_8_refused_doors(self) -> None:
        self.assertEqual(refusal(bridge(4)), 6)
        self.assertEqual(refusal(bridge(0)), 7)
        self.assertEqual(refusal(bridge(failed=[3, 4])), 8)
        self.assertEqual(refusal(bridge(working=[0, 3])), 9)
        self.assertEqual(sheet(bridge(4, 0)), b"DOOR 4 REFUSED 6\nDOOR 0 REFUSED 7\n")

    def test_9_a_tenth_of_little(self) -> None:
        tenth = (100_000_000, 9)
        self.assertEqual((B.times_down(1, tenth), B.times_up(1, tenth)), (0, 1))
        little = (100_000_000, 17)
        for times in (N.times_down, N.times_up):
            self.assertEqual(times(little, tenth), (100_000_000, 18))

    def test_10_nearly_1(self) -> None:
        self.assertEqual(N.less(N.one, (100_000_000, 28)), (999_999_999, 9))

    def test_11_three_chains(self) -> None:
        short = search_of(deck_of(23, chains(7, 7, 7), [22]))
        self.assertEqual((len(short.rows), short.status), (512, Status.FINISHED))
        long = search_of(deck_of(32, chains(10, 10, 10), [31]))
        self.assertEqual((len(long.rows), long.status), (512, Status.FULL))

    def test_refused_deck(self) -> None:
        refused = cards("NODES 4 0", "BRANCH 0 1 1 9", "BRANCH 0 4 1 9", "DOOR 3")
        self.assertEqual(sheet(refused), b"DECK REFUSED 3 LAYER N PLACE 1 LINE 3\n")


class FullTest(unittest.TestCase):
    """Just enough room, and one row too few."""

    def test_513_cuts(self) -> None:
        search = search_of(deck_of(26, chains(2, 2, 2, 18), [25]))
        self.assertEqual((len(search.rows), search.status), (MOST_ROWS, Status.FULL))
        before = search.tries
        self.assertEqual(search.advance(10_000).tries, 0)
        self.assertEqual(search.tries, before)

    def test_tries_after_the_last_row(self) -> None:
        data = all_plans()["chains_3_of_7_tied.deck"]
        deck = read_deck(data)
        search = aim(network_of(deck), deck.head, deck.doors[0])
        while len(search.rows) < MOST_ROWS:
            search.advance(1)
        self.assertIs(search.status, Status.MORE)
        self.assertGreater(search.advance(10_000).tries, 0)
        self.assertEqual((len(search.rows), search.status), (MOST_ROWS, Status.FINISHED))

    def test_high_bound_is_1_before_the_end(self) -> None:
        deck = read_deck(deck_of(26, chains(2, 2, 2, 18), [25]))
        search = aim(network_of(deck), 0, 25)
        self.assertEqual(door_bounds(B, search, deck)[1], B.one)
        search.run()
        self.assertEqual(door_bounds(FAST_N, search, deck)[1], FAST_N.one)


class PublishedTest(unittest.TestCase):
    """A published table of 28 cuts, for three numberings of the nodes."""

    def found(self, numbering: published.Numbering) -> dict[frozenset[int], frozenset[int]]:
        """The cuts of all doors; a cut disconnects the same nodes for each door."""
        found: dict[frozenset[int], frozenset[int]] = {}
        for door in range(1, published.NODES):
            for branches, nodes in as_sets(self.search(numbering, door)):
                self.assertEqual(found.setdefault(branches, nodes), nodes)
        return found

    @staticmethod
    def search(numbering: published.Numbering, door: int) -> Search:
        return search_of(deck_of(published.NODES, numbering.pairs, [door]))

    def test_cuts(self) -> None:
        for numbering in published.NUMBERINGS:
            found, printed = self.found(numbering), numbering.rows()
            self.assertEqual(len(found), published.CUTS_PRINTED)
            self.assertEqual(sum(map(len, found.values())), published.INCIDENCES_PRINTED)
            self.assertLessEqual(set(printed), set(found))
            wrong = {cut for cut, nodes in printed.items() if found[cut] != nodes}
            self.assertEqual(wrong, published.MISPRINTS[numbering.name])

    def test_doors(self) -> None:
        """A door has the cuts whose nodes it is among."""
        for numbering in published.NUMBERINGS:
            found = self.found(numbering)
            for door in range(1, published.NODES):
                wanted = {row for row in found.items() if door in row[1]}
                self.assertEqual(as_sets(self.search(numbering, door)), wanted)

    def test_the_tables_say_the_same(self) -> None:
        first = self.found(published.FIRST)
        for numbering in published.NUMBERINGS:
            node = published.renumbered(numbering)
            for cut, nodes in self.found(numbering).items():
                self.assertEqual(frozenset(node[k] for k in nodes), first[cut])

    def test_misprints_are_right_elsewhere(self) -> None:
        first = self.found(published.FIRST)
        rightly = set()
        for numbering in published.NUMBERINGS:
            node = published.renumbered(numbering)
            for cut, nodes in numbering.rows().items():
                if frozenset(node[k] for k in nodes) == first[cut]:
                    rightly.add(cut)
        self.assertEqual(rightly, set(first))

    def test_complete_graphs(self) -> None:
        for nodes, (cuts, incidences) in published.COMPLETE_PRINTED.items():
            found, count = set(), 0
            for door in range(1, nodes):
                search = search_of(deck_of(nodes, complete(range(nodes)), [door]))
                self.assertIs(search.status, Status.FINISHED)
                found |= as_sets(search)
                count += len(search.rows)
            self.assertEqual(count, incidences)
            self.assertEqual(len(found), cuts if cuts else 2 ** (nodes - 1) - 1)

    def test_ten_cuts(self) -> None:
        search = search_of(deck_of(8, published.TEN_CUTS_PAIRS, [7]))
        self.assertEqual({branches for branches, _ in as_sets(search)}, published.TEN_CUTS)


class EnumerationTest(unittest.TestCase):
    """The search against all node sets, and these against the meaning of a cut."""

    def check_door(self, deck: Deck, door: int) -> None:
        search = aim(network_of(deck), deck.head, door)
        self.assertIs(search.run(), Status.FINISHED)
        self.assertEqual(as_sets(search), minimal_cuts(deck, door))
        self.assertEqual(len(as_sets(search)), len(search.rows))
        self.assertLessEqual(search.tries, len(search.rows) * (deck.nodes - 2))

    def test_random_networks(self) -> None:
        doors = random_doors(1, most_lumps=9)
        for _ in range(400):
            self.check_door(*next(doors))

    def test_larger_random_networks(self) -> None:
        doors = random_doors(2, most_lumps=13)
        larger = ((deck, door) for deck, door in doors if len(lumps(deck)) > 10)
        for _ in range(20):
            self.check_door(*next(larger))

    def test_named_plans(self) -> None:
        for name in ("complete_08", "shape_petersen", "grid_3_by_4", "dense_30_lumps_of_4"):
            deck = read_deck(all_plans()[f"{name}.deck"])
            for door in deck.doors:
                if not refusal(deck_with_door(deck, door)):
                    self.check_door(deck, door)

    def test_full_search_lists_cuts_only(self) -> None:
        deck = read_deck(all_plans()["hubs_10_full_between_others.deck"])
        search = aim(network_of(deck), deck.head, 1)
        self.assertIs(search.run(), Status.FULL)
        every = minimal_cuts(deck, 1)
        self.assertEqual(len(every), 1024)
        self.assertEqual(len(as_sets(search) & every), MOST_ROWS)

    def test_enumeration_itself(self) -> None:
        doors = random_doors(3, most_lumps=9)
        few = ((deck, door) for deck, door in doors if len(able(deck)) <= 8)
        for _ in range(100):
            deck, door = next(few)
            found = {branches for branches, _ in minimal_cuts(deck, door)}
            self.assertEqual(found, minimal_by_definition(deck, door))


def deck_with_door(deck: Deck, door: int) -> bytes:
    """The same network with one door."""
    marks = {Condition.FAILED: "FAILED", Condition.WORKING: "WORKING"}
    told = [(k, x.condition) for k, x in enumerate(deck.branches) if x.condition in marks]
    return cards(
        f"NODES {deck.nodes} {deck.head}",
        *("BRANCH %d %d %d %d" % (*x.ends, x.m, x.e) for x in deck.branches),
        *(f"{marks[condition]} {k}" for k, condition in told),
        f"DOOR {door}",
    )


def minimal_by_definition(deck: Deck, door: int) -> set[frozenset[int]]:
    """All branch sets that part head and door, without those that hold another."""
    names = [k for k, x in enumerate(deck.branches) if x.condition is Condition.ABLE]
    found: list[frozenset[int]] = []
    for size in range(len(names) + 1):
        for chosen in map(frozenset, combinations(names, size)):
            smaller = any(cut <= chosen for cut in found)
            if not smaller and not _still_joined(deck, chosen, door):
                found.append(chosen)
    return set(found)


def _still_joined(deck: Deck, gone: frozenset[int], door: int) -> bool:
    neighbours = [0] * deck.nodes
    for k, x in enumerate(deck.branches):
        if k not in gone and x.condition is not Condition.FAILED:
            one, other = x.ends
            neighbours[one] |= 1 << other
            neighbours[other] |= 1 << one
    return bool(reached(1 << deck.head, neighbours, (1 << deck.nodes) - 1) >> door & 1)


class PortionTest(unittest.TestCase):
    """Portions of any size lead to the same rows."""

    def test_random_networks(self) -> None:
        doors = random_doors(4, most_lumps=32)
        for _ in range(60):
            self.check(*next(doors))

    def test_full_network(self) -> None:
        self.check(read_deck(deck_of(26, chains(2, 2, 2, 18), [25])), 25)

    def check(self, deck: Deck, door: int) -> None:
        ends = []
        for budget in (1, 7, 100, 10_000):
            search = aim(network_of(deck), deck.head, door)
            self.advance(search, budget)
            ends.append((search.rows, search.tries, search.status))
        for end in ends:
            self.assertEqual(end, ends[0])

    def advance(self, search: Search, budget: int) -> None:
        """Each answer tells the tries of its own call and all the rows."""
        before = -1
        while before != search.tries:
            before = search.tries
            answer = search.advance(budget)
            self.assertEqual(answer.tries, search.tries - before)
            self.assertEqual((answer.rows, answer.status), (len(search.rows), search.status))
            if answer.status is Status.MORE:
                self.assertEqual(answer.tries, budget)

    def test_budgets_out_of_range(self) -> None:
        search = search_of(bridge())
        for budget in (0, 10_001):
            with self.assertRaises(Refused) as caught:
                search.advance(budget)
            self.assertEqual(caught.exception.number, 11)


class ScaleTest(unittest.TestCase):
    """Roundings, and whether the fast scales work like the slow ones."""

    EXACT = [
        Fraction(0), Fraction(1, 10**70), Fraction(1, 10**52), Fraction(10**8 + 1, 10**61),
        Fraction(1, 3), Fraction(2, 3 * 10**40), Fraction(10**10 - 1, 10**10), Fraction(1),
        Fraction(123_456_789, 10**9), Fraction(1_234_567_891, 10**30), Fraction(1, 7 * 10**51),
    ]  # fmt: skip

    def test_roundings(self) -> None:
        """Down and up enclose a value; there is nothing of the set in between."""
        for scale, after in ((B, self.after_w), (N, self.after_figures)):
            for exact in self.EXACT:
                down, up = scale.down(exact), scale.up(exact)
                self.assertLessEqual(scale.value(down), exact)
                self.assertGreaterEqual(scale.value(up), exact)
                if scale.value(down) == exact:
                    self.assertEqual(up, down)
                else:
                    self.assertEqual(after(down), up)

    @staticmethod
    def after_w(w: int) -> int:
        return w + 1

    @staticmethod
    def after_figures(number: tuple[int, int]) -> tuple[int, int]:
        """The next number of nine figures, told by its place in the list of all."""
        m, e = number
        if number == N.zero:
            return 100_000_000, 60
        return (m + 1, e) if m < 999_999_999 else (100_000_000, e - 1)

    def test_past_1(self) -> None:
        for scale in (B, N):
            self.assertEqual(scale.down(Fraction(3, 2)), scale.one)
            self.assertEqual(scale.up(Fraction(3, 2)), scale.one)

    def test_operations(self) -> None:
        """Every stored operation once more in whole steps."""
        for line in operations.cases():
            self.assertEqual(self.fast_answer(line), operations.answer(line), line)

    def fast_answer(self, line: str) -> str:
        letter, name, *words = line.split(" ")
        numbers = list(map(int, words))
        if letter == "B":
            scale, one, rest = FAST_B, numbers[0], numbers[1:]
            other = rest[0]
        else:
            scale, one, rest = FAST_N, self.steps(*numbers[:2]), numbers[2:]
            other = self.steps(*rest)
        if name == "ORDER":
            return str(scale.at_most(one, other)).lower()
        if name == "LESS":
            return scale.text(scale.less(one, other))
        if name == "SUM":
            down, up = scale.sum_down(one, other), scale.sum_up(one, other)
            return f"{scale.text(down)} {scale.text(up)}"
        return self.fast_times(scale, one, (rest[0], rest[1]))

    def fast_times(self, scale: object, one: int, rating: tuple[int, int]) -> str:
        """A fold over one rating has to be that product."""
        down, up = scale.times_down(one, rating), scale.times_up(one, rating)
        self.assertEqual(scale.fold_down(one, scale.prepared([rating])), down)
        self.assertEqual(scale.fold_up(one, scale.prepared([rating])), up)
        return f"{scale.text(down)} {scale.text(up)}"

    @staticmethod
    def steps(m: int, e: int) -> int:
        return m * 10 ** (60 - e)


class BoundsTest(unittest.TestCase):
    """Bounds against exact chances, and fast bounds against slow ones."""

    def test_low_exact_high(self) -> None:
        doors = random_doors(5, most_lumps=32)
        few = ((deck, door) for deck, door in doors if len(able(deck)) <= 9)
        for _ in range(250):
            deck, door = next(few)
            search = aim(network_of(deck), deck.head, door)
            search.run()
            exact = cut_off_chance(deck, door)
            for scale in (B, N):
                low, high = map(scale.value, door_bounds(scale, search, deck))
                self.assertLessEqual(low, exact)
                self.assertLessEqual(exact, high)

    def test_slow_and_fast(self) -> None:
        doors = random_doors(6, most_lumps=32)
        for _ in range(60):
            deck, door = next(doors)
            search = aim(network_of(deck), deck.head, door)
            search.advance(25)
            self.same_text(deck, search)

    def test_slow_and_fast_on_plans(self) -> None:
        plans = all_plans()
        for name in ("pair_64_tiny", "pair_64_mixed", "rating_1_each_e", "published_10", "line_32"):
            self.same_text(read_deck(plans[f"{name}.deck"]), search_of(plans[f"{name}.deck"]))

    def same_text(self, deck: Deck, search: Search) -> None:
        for slow, fast in ((B, FAST_B), (N, FAST_N)):
            ours = map(slow.text, door_bounds(slow, search, deck))
            theirs = map(fast.text, door_bounds(fast, search, deck))
            self.assertEqual(list(ours), list(theirs))

    def test_no_sets(self) -> None:
        for scale in (B, N, FAST_B, FAST_N):
            self.assertEqual(bounds(scale, [ONE_IN_10], [], True), (scale.zero, scale.zero))
            self.assertEqual(bounds(scale, [ONE_IN_10], [], False), (scale.zero, scale.one))

    def test_low_of_an_earlier_prefix(self) -> None:
        """With sets that overlap much, the best difference comes before the end."""
        ratings = [(500_000_000, 9)] * 5
        sets = [1 << k for k in range(5)]
        # Left over after 1, 2, 3, 4 and 5 sets: 2/4, 3/4, 3/4, 2/4 and 0.
        self.assertEqual(bounds(B, ratings, sets, True), (750_000_000, B.one))

    def test_overlaps_are_rounded_up(self) -> None:
        """Two singles of 10**-9 whose overlap is far smaller, but not nothing."""
        ratings = [(1, 9), (1, 9)]
        self.assertEqual(bounds(B, ratings, [1, 2], True), (1, 2))

    def test_chances_0_and_1(self) -> None:
        never, always = read_deck(bridge(rating=NEVER)), read_deck(bridge(rating=ALWAYS))
        self.assertEqual(set(cut_off_chances(never)), {0})
        self.assertEqual(cut_off_chances(always), [0, 1, 1, 1])

    def test_too_many_cases(self) -> None:
        deck = read_deck(deck_of(2, [(0, 1)] * (MOST_ABLE + 1), [1]))
        with self.assertRaises(ValueError):
            cut_off_chance(deck, 1)


class RandomDeckTest(unittest.TestCase):
    def test_same_again(self) -> None:
        self.assertEqual(random_deck(1, 2), random_deck(1, 2))
        self.assertNotEqual(random_deck(1, 2), random_deck(1, 6))

    def test_three_of_four_are_good(self) -> None:
        for index in range(80):
            accepted = isinstance(read_deck(random_deck(7, index)), Deck)
            self.assertEqual(accepted, index % 4 < 3)

    def test_mixed_ratings_are_legal(self) -> None:
        deck = read_deck(deck_of(5, BRIDGE * 12, [3], rating=mixed))
        self.assertIsInstance(deck, Deck)


if __name__ == "__main__":
    unittest.main()
