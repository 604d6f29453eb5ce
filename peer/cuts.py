"""Find the smallest cuts between the head and a door, row by row.

A node set or branch set is a whole number here: bit k stands for node k or
branch k.  A failed branch is as good as absent.  A working branch can never be
cut, so its two ends always stay on the same side.
"""

from __future__ import annotations

from collections.abc import Iterator
from dataclasses import dataclass
from enum import Enum

from deck import Branch, Condition, Deck

MOST_ROWS = 512
MOST_BUDGET = 10_000


class Status(Enum):
    """Where a search stands."""

    MORE = "MORE"
    FINISHED = "FINISHED"
    FULL = "FULL"


class Refused(Exception):
    """A question about the door or the budget failed."""

    def __init__(self, number: int) -> None:
        super().__init__(number)
        self.number = number


class Network:
    """Nodes and branches, with the neighbours of each node at hand."""

    def __init__(self, nodes: int, branches: list[Branch]) -> None:
        self.nodes = nodes
        self.branches = branches
        self.all_nodes = (1 << nodes) - 1
        # Neighbours over branches that are there at all, and over those that
        # cannot fail.
        self.linked = self._neighbours({Condition.ABLE, Condition.WORKING})
        self.tied = self._neighbours({Condition.WORKING})

    def _neighbours(self, conditions: set[Condition]) -> list[int]:
        found = [0] * self.nodes
        for branch in self.branches:
            one, other = branch.ends
            if branch.condition in conditions:
                found[one] |= 1 << other
                found[other] |= 1 << one
        return found

    def branch_set(self, inside: int) -> int:
        """The branches able to fail that lead from the inside to the outside."""
        found = 0
        for k, branch in enumerate(self.branches):
            one, other = (inside >> end & 1 for end in branch.ends)
            if branch.condition is Condition.ABLE and one != other:
                found |= 1 << k
        return found


def network_of(deck: Deck) -> Network:
    """The network that a deck tells."""
    return Network(deck.nodes, deck.branches)


def members(numbers: int) -> Iterator[int]:
    """The members of a set, rising."""
    while numbers:
        lowest = numbers & -numbers
        yield lowest.bit_length() - 1
        numbers ^= lowest


def reached(start: int, neighbours: list[int], within: int) -> int:
    """The nodes that can be walked to from the start without leaving `within`."""
    found = fresh = start & within
    while fresh:
        node = fresh & -fresh
        new = neighbours[node.bit_length() - 1] & within & ~found
        found |= new
        fresh = fresh ^ node | new
    return found


def joined(neighbours: list[int], one: int, other: int) -> bool:
    """Whether a walk leads from one node to the other; to itself it always does."""
    everywhere = (1 << len(neighbours)) - 1
    return bool(reached(1 << one, neighbours, everywhere) >> other & 1)


def closure(network: Network, nodes: int, door: int) -> int:
    """What has to be inside along with these nodes.

    First whatever hangs on them by working branches.  Should the door be among
    it, that is every node.  If not, only the nodes stay outside that can still
    be walked to from the door around the nodes so far.
    """
    held = reached(nodes, network.tied, network.all_nodes)
    if held >> door & 1:
        return network.all_nodes
    outside = reached(1 << door, network.linked, network.all_nodes & ~held)
    return network.all_nodes & ~outside


@dataclass
class Row:
    """The nodes on the head's side, and the nodes that may not be added."""

    inside: int
    barred: int


@dataclass(frozen=True)
class Try:
    """A try that could be made next: its row, its node, and what it leads to."""

    row: Row
    node: int
    inside: int

    @property
    def writes(self) -> bool:
        """A try leads to a row unless it takes in something barred."""
        return not self.inside & self.row.barred


@dataclass(frozen=True)
class Answer:
    """What one call did by itself, and where it left the search."""

    tries: int
    rows: int
    status: Status


class Search:
    """The rows for one door, made by `aim`."""

    def __init__(self, network: Network, head: int, door: int) -> None:
        self.network = network
        self.door = door
        self.tries = 0
        self.rows = [Row(closure(network, 1 << head, door), 1 << door)]
        # No row before this one has a candidate, nor will it ever have one:
        # what is inside a row stays, and what is barred only grows.
        self._current = 0

    def advance(self, budget: int) -> Answer:
        """Make tries until the budget is spent or none can be made."""
        if not 1 <= budget <= MOST_BUDGET:
            raise Refused(11)
        made = 0
        coming = self._coming()
        while made < budget and self._status(coming) is Status.MORE:
            self._make(coming)
            made += 1
            coming = self._coming()
        return Answer(made, len(self.rows), self._status(coming))

    def run(self, budget: int = MOST_BUDGET) -> Status:
        """Advance in portions of one budget until there is no more to do."""
        while (answer := self.advance(budget)).status is Status.MORE:
            pass
        return answer.status

    @property
    def status(self) -> Status:
        return self._status(self._coming())

    def show(self, k: int) -> tuple[int, int]:
        """The branch set of a row, and the nodes that it cuts off."""
        inside = self.rows[k].inside
        return self.network.branch_set(inside), self.network.all_nodes & ~inside

    def listed(self) -> list[tuple[int, int]]:
        """What every row shows, in order."""
        return [self.show(k) for k in range(len(self.rows))]

    def candidates(self, row: Row) -> Iterator[int]:
        """The nodes next to the inside that a try may take, rising."""
        for node in members(self.network.all_nodes & ~row.inside & ~row.barred):
            if self.network.linked[node] & row.inside:
                yield node

    def _coming(self) -> Try | None:
        """The try that is due, if any row still has a node to try."""
        while self._current < len(self.rows):
            row = self.rows[self._current]
            node = next(self.candidates(row), None)
            if node is not None:
                return self._look(row, node)
            self._current += 1
        return None

    def _look(self, row: Row, node: int) -> Try:
        return Try(row, node, closure(self.network, row.inside | 1 << node, self.door))

    def _status(self, coming: Try | None) -> Status:
        """Full only matters to a try that would need one more row."""
        if coming is None:
            return Status.FINISHED
        if coming.writes and len(self.rows) == MOST_ROWS:
            return Status.FULL
        return Status.MORE

    def _make(self, coming: Try) -> None:
        """The new row takes over what was barred before this try's node was."""
        if coming.writes:
            self.rows.append(Row(coming.inside, coming.row.barred))
        coming.row.barred |= 1 << coming.node
        self.tries += 1


def aim(network: Network, head: int, door: int) -> Search:
    """Start a search, unless the door fails one of four questions."""
    if door >= network.nodes:
        raise Refused(6)
    if door == head:
        raise Refused(7)
    if not joined(network.linked, head, door):
        raise Refused(8)
    # With every branch gone that can go, the working ones alone remain.
    if joined(network.tied, head, door):
        raise Refused(9)
    return Search(network, head, door)
