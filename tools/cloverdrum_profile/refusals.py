"""What a refusal says: its number, its place in the file, and its cause in words."""

from collections.abc import Iterator
from typing import NamedTuple

MEANINGS = {
    1: "the day count is 0 or over 512, or there are more than 512 cuts",
    3: "a point is outside its bounds",
    4: "a rise is outside its bounds",
    5: "a bound of the total is outside its bounds",
    6: "a floor is above its ceiling, of a day or of the total",
    7: "a day is not in the profile",
    8: "no schedule exists",
    11: "the file's length or an offset is wrong",
    12: "a cut's kind is unknown, the last rise is not 0, or a cut of the total has a day other than 0",
    13: "the first counted day is not in the profile",
}
"""Of every number that `ranges` prints."""


class Fault(NamedTuple):
    """A refusal's number and its cause in words."""

    number: int
    cause: str


def fault_unless(right: bool, number: int, cause: str) -> Fault | None:
    return None if right else Fault(number, cause)


class Place(NamedTuple):
    """Where in a file a refusal arises; without an offset where no single field is at fault."""

    name: str
    offset: int | None = None

    def __str__(self) -> str:
        return self.name if self.offset is None else f"{self.name}, byte {self.offset}"


class Refusal(NamedTuple):
    place: Place
    fault: Fault

    def __str__(self) -> str:
        number, cause = self.fault
        return f"refused {number}: {MEANINGS[number]}\n{self.place}: {cause}"


class Refused(Exception):
    """Raised with the refusal of a file."""

    def __init__(self, refusal: Refusal) -> None:
        super().__init__(str(refusal))
        self.refusal = refusal


Checks = Iterator[tuple[Place, Fault | None]]
"""What is checked, in document 01's order; as the first fault ends it, a check may rely on those before it."""


def check(checks: Checks) -> None:
    """Raises the first refusal, if there is one."""
    for place, fault in checks:
        if fault:
            raise Refused(Refusal(place, fault))
