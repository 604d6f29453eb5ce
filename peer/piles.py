"""Tell piles of networks branch by branch, for the cases of the program `piles`.

A case is seven numbers: nodes and branches of a first list, nodes and branches
of a second list, the node of the first at which the two are joined, the branch
of the joint that is told as failed, and the branch that is told as working on
top of that.  Then a ring of the first list's nodes, with the branch counts as
m and e of its rating, takes the place of the first list.
"""

from __future__ import annotations

import argparse
import sys
from dataclasses import dataclass, replace

from folder import ROOT

CRATE = ROOT / "crates" / "piles"
PLACES = 70


@dataclass(frozen=True)
class Branch:
    """Two ends, a condition letter, and a rating."""

    a: int
    b: int
    condition: str
    m: int
    e: int


@dataclass(frozen=True)
class Network:
    """A node count and branches by number."""

    nodes: int
    branches: tuple[Branch, ...]


EMPTY = Network(0, ())


def rating_is_legal(m: int, e: int) -> bool:
    """m at most a thousand million, e from 9 to 18."""
    return 0 <= m <= 1_000_000_000 and 9 <= e <= 18


def made_rows(nodes: int, count: int, m: int, e: int) -> list[Branch]:
    """The rows that the program makes: row k between k and 7 k + 3, counted round."""
    around = max(nodes, 1)
    return [
        Branch(k % around, (7 * k + 3) % around, "A", m + k, e)
        for k in range(min(count, PLACES))
    ]


def list_refusal(nodes: int, rows: list[Branch]) -> tuple[int, int] | None:
    """Number and place of the first question that a list fails."""
    if not 2 <= nodes <= 32:
        return 1, 0
    if not 1 <= len(rows) <= 64:
        return 2, 0
    for k, row in enumerate(rows):
        if row.a >= nodes or row.b >= nodes:
            return 3, k
        if not rating_is_legal(row.m, row.e):
            return 4, k
    return None


def listed(nodes: int, rows: list[Branch]) -> Network:
    """A list that was refused has stayed empty."""
    return EMPTY if list_refusal(nodes, rows) else Network(nodes, tuple(rows))


def ring_refusal(nodes: int, m: int, e: int) -> tuple[int, int] | None:
    """Number and place of the first question that a ring fails."""
    if not 2 <= nodes <= 32:
        return 1, 0
    return None if rating_is_legal(m, e) else (4, 0)


def ring(nodes: int, m: int, e: int) -> Network:
    """Each node joined to the next one round."""
    return Network(
        nodes, tuple(Branch(k, (k + 1) % nodes, "A", m, e) for k in range(nodes))
    )


def told(below: Network, k: int, condition: str) -> Network:
    """Branch k with another condition; nothing changes where there is none."""
    if k >= len(below.branches):
        return below
    changed = list(below.branches)
    changed[k] = replace(changed[k], condition=condition)
    return Network(below.nodes, tuple(changed))


def joint(first: Network, second: Network, node: int) -> Network:
    """The second network hung on a node of the first, where that is possible."""
    nodes = first.nodes + second.nodes - 1
    count = len(first.branches) + len(second.branches)
    if node >= first.nodes or second.nodes == 0 or nodes > 32 or count > 64:
        return EMPTY

    def moved(i: int) -> int:
        return node if i == 0 else first.nodes + i - 1

    added = tuple(replace(x, a=moved(x.a), b=moved(x.b)) for x in second.branches)
    return Network(nodes, first.branches + added)


def text(network: Network) -> list[str]:
    """A headline with head 0, and a line for each branch."""
    lines = [f"NODES {network.nodes} HEAD 0 BRANCHES {len(network.branches)}"]
    for k, x in enumerate(network.branches):
        lines.append(f"BRANCH {k} {x.a} {x.b} {x.condition} {x.m} {x.e}")
    return lines


def tell_case(line: str) -> list[str]:
    """Everything printed for one case."""
    n, b, m, c, node, out, sure = map(int, line.split(" "))
    first, second = made_rows(n, b, 1000, 9), made_rows(m, c, 2000, 18)
    lines = [f"CASE {line}"]
    for nodes, rows in ((n, first), (m, second)):
        if refusal := list_refusal(nodes, rows):
            lines.append("LIST REFUSED %d PLACE %d" % refusal)
    hung = listed(m, second)
    pile = told(told(joint(listed(n, first), hung, node), out, "F"), sure, "W")
    lines += text(pile)
    if refusal := ring_refusal(n, b, c):
        return lines + ["RING REFUSED %d PLACE %d" % refusal]
    pile = told(told(joint(ring(n, b, c), hung, node), out, "F"), sure, "W")
    return lines + text(pile)


def cases() -> list[str]:
    """Limits on both sides, empty networks, marks within, at and past the count."""
    chosen = [
        # nodes of the joint: 31, 32, 33; the joining node within, last and past
        (16, 16, 16, 12, 0, 0, 1), (16, 16, 17, 12, 15, 3, 3), (17, 17, 17, 12, 16, 0, 0),
        (16, 10, 17, 10, 16, 0, 0), (2, 1, 31, 40, 1, 40, 0), (2, 1, 32, 40, 1, 0, 0),
        (31, 9, 2, 9, 30, 17, 9), (32, 9, 2, 9, 31, 0, 0), (32, 64, 2, 9, 0, 0, 0),
        # branches of the joint: 63, 64, 65
        (4, 31, 5, 32, 2, 62, 30), (4, 32, 5, 32, 3, 63, 31), (4, 33, 5, 32, 3, 0, 0),
        (4, 64, 2, 9, 1, 0, 0), (2, 9, 3, 64, 0, 0, 0), (3, 55, 3, 9, 2, 63, 64),
        # lists that are refused, and so stay empty
        (1, 4, 4, 9, 0, 0, 0), (33, 4, 4, 9, 0, 0, 0), (0, 0, 0, 0, 0, 0, 0),
        (4, 0, 4, 9, 0, 0, 0), (4, 65, 4, 9, 0, 0, 0), (4, 70, 4, 12, 3, 0, 0),
        (4, 6, 1, 9, 0, 0, 0), (4, 6, 33, 9, 0, 0, 0), (4, 6, 4, 0, 0, 0, 0), (4, 6, 4, 65, 0, 0, 0),
        (3, 6, 0, 18, 2, 0, 0), (2, 2, 2, 9, 2, 0, 0),
        # ratings of the ring: e of 8, 9, 18, 19
        (5, 7, 3, 8, 4, 0, 0), (5, 7, 3, 9, 4, 0, 0), (5, 7, 3, 18, 4, 0, 0), (5, 7, 3, 19, 4, 0, 0),
        (2, 64, 2, 18, 1, 65, 66), (32, 33, 2, 10, 0, 0, 0),
        # marks on the same branch, on the last one, and past the count
        (6, 9, 4, 9, 3, 4, 4), (6, 9, 4, 9, 3, 17, 16), (6, 9, 4, 9, 3, 18, 17), (6, 9, 4, 9, 3, 4294967295, 18),
        (6, 9, 4, 9, 4294967295, 0, 1), (6, 9, 4, 9, 6, 0, 1), (6, 9, 4, 9, 5, 14, 15),
    ]
    return [" ".join(map(str, case)) for case in chosen]


def main() -> int:
    """Write both files, or with --check compare with what is stored."""
    parser = argparse.ArgumentParser(description=__doc__.splitlines()[0])
    parser.add_argument("--check", action="store_true")
    arguments = parser.parse_args()
    lines = cases()
    wanted = {
        CRATE / "stdin": "".join(f"{line}\n" for line in lines),
        CRATE / "stdout": "".join(f"{x}\n" for line in lines for x in tell_case(line)),
    }
    if not arguments.check:
        for path, content in wanted.items():
            path.write_text(content)
        return 0
    wrong = [p.name for p, content in wanted.items() if not p.exists() or p.read_text() != content]
    print(f"piles: {len(lines)} cases, " + ("different: " + ", ".join(wrong) if wrong else "as stored"))
    return 1 if wrong else 0


if __name__ == "__main__":
    sys.exit(main())
