"""A profile and its cuts. All values are points: hundredths of a degree Celsius, whole numbers."""

from enum import IntEnum
from typing import NamedTuple


class Kind(IntEnum):
    """The four kinds of cut, by their numbers in a file."""

    DAY_FLOOR = 0
    DAY_CEILING = 1
    TOTAL_FLOOR = 2
    TOTAL_CEILING = 3

    @property
    def of_total(self) -> bool:
        return self >= Kind.TOTAL_FLOOR

    @property
    def bound(self) -> str:
        """The bound that a cut of this kind moves, as a word."""
        return "ceiling" if self % 2 else "floor"


class Range(NamedTuple):
    floor: int
    ceiling: int

    def cut(self, kind: Kind, value: int) -> "Range":
        """The part of this range that keeps the cut."""
        if kind.bound == "floor":
            return self._replace(floor=max(self.floor, value))
        return self._replace(ceiling=min(self.ceiling, value))

    def __str__(self) -> str:
        return f"{degrees(self.floor)} to {degrees(self.ceiling)}"


class Cut(NamedTuple):
    kind: Kind
    day: int
    value: int

    def __str__(self) -> str:
        """The cut as the text form has it."""
        whole = "total" if self.kind.of_total else f"day {self.day}"
        return f"cut {whole} {self.kind.bound} {degrees(self.value)}"


class Profile(NamedTuple):
    total: Range
    days: list[Range]
    rises: list[int]
    """The least rise from each day to the next: one less than there are days."""
    cuts: list[Cut]
    first: int = 0
    """The first counted day."""

    def counted(self, values: list[int]) -> list[int]:
        """Of a value for each day, those that count in the total."""
        return values[self.first :]

    def without_cuts(self) -> "Profile":
        return self._replace(cuts=[])


def degrees(points: int) -> str:
    """Points in degrees, with two decimals."""
    whole, hundredths = divmod(abs(points), 100)
    return f"{'-' if points < 0 else ''}{whole}.{hundredths:02}"
