"""What document 01 allows of days, rises, totals and cuts, and request One of the first counted day."""

from typing import NamedTuple

from .model import Cut, Range, degrees
from .refusals import Fault, fault_unless

MOST_DAYS = 512
MOST_CUTS = 512


class Limits(NamedTuple):
    """The lowest and the highest value that something may have, and the refusal of any other."""

    lowest: int
    highest: int
    what: str
    number: int

    def fault(self, name: str, value: int) -> Fault | None:
        if value < self.lowest:
            side = f"below {degrees(self.lowest)}, the lowest"
        elif value > self.highest:
            side = f"above {degrees(self.highest)}, the highest"
        else:
            return None
        return Fault(self.number, f"the {name} {degrees(value)} is {side} {self.what}")


POINTS = Limits(-1_000, 4_000, "temperature", 3)
RISES = Limits(-2_000, 2_000, "rise", 4)
TOTALS = Limits(-512_000, 2_048_000, "total", 5)


def crossed_fault(bounds: Range) -> Fault | None:
    cause = f"the floor {degrees(bounds.floor)} is above the ceiling {degrees(bounds.ceiling)}"
    return fault_unless(bounds.floor <= bounds.ceiling, 6, cause)


def first_day_fault(first: int, day_count: int) -> Fault | None:
    return fault_unless(first < day_count, 13, _no_day(first, day_count))


def cut_day_fault(cut: Cut, day_count: int) -> Fault | None:
    return fault_unless(cut.kind.of_total or cut.day < day_count, 7, _no_day(cut.day, day_count))


def _no_day(day: int, day_count: int) -> str:
    return f"the profile has no day {day}, its days are 0 to {day_count - 1}"


def cut_value_fault(cut: Cut) -> Fault | None:
    limits = TOTALS if cut.kind.of_total else POINTS
    return limits.fault(cut.kind.bound, cut.value)
