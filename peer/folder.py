"""Where the test files live, found from the place of this file."""

from __future__ import annotations

from dataclasses import dataclass
from pathlib import Path

ROOT = Path(__file__).resolve().parent.parent
DECKS = ROOT / "crates" / "decks"
DATA = DECKS / "data"
NAMES = DECKS / "stdin"
DESCRIPTIONS = DECKS / "stdout"

EXAMPLES = ROOT / "plans"


@dataclass(frozen=True)
class Crate:
    """The folder of a program that is run over many cases."""

    name: str

    @property
    def data(self) -> Path:
        return ROOT / "crates" / self.name / "data"

    @property
    def stdin(self) -> Path:
        return ROOT / "crates" / self.name / "stdin"

    @property
    def stdout(self) -> Path:
        return ROOT / "crates" / self.name / "stdout"


PLANS = Crate("plans")
OPERATIONS = Crate("operations")
BOUNDS_CASES = Crate("bounds_cases")
PORTIONS = Crate("portions")
