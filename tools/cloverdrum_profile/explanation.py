"""What `ranges` answers for a file, in words."""

from collections.abc import Iterator
from typing import NamedTuple

from .causes import first_refusal
from .file_format import decode, encode
from .model import Profile, Range, degrees
from .program import Ranges, run_ranges
from .refusals import Refused

Stages = tuple[Range, Range, Range]
"""A range as entered, at opening before any cut, and after the cuts."""
FILLING = "  filling"
"""Marks a day before the first counted one."""


class Unexplained(Exception):
    """`ranges` answers something else than this tool works out."""


class Answer(NamedTuple):
    profile: Profile
    opened: Ranges
    now: Ranges

    def total_stages(self) -> Stages:
        return self.profile.total, self.opened.total, self.now.total

    def day_stages(self) -> Iterator[Stages]:
        return zip(self.profile.days, self.opened.days, self.now.days)


def ask(data: bytes) -> Answer:
    """What `ranges` answers for a file; raises Refused with the cause of a refusal."""
    now = run_ranges(data)
    refusal = first_refusal(data)
    printed = None if isinstance(now, Ranges) else now
    worked_out = refusal.fault.number if refusal else None
    if printed != worked_out:
        raise Unexplained(
            f"`ranges` answers {_words(printed)}, and tools/profile works out {_words(worked_out)}: "
            "it can't explain this answer, which is a bug in one of them"
        )
    if refusal:
        raise Refused(refusal)
    profile = decode(data)
    return Answer(profile, run_ranges(encode(profile.without_cuts())), now)


def _words(number: int | None) -> str:
    return "ranges" if number is None else f"refused {number}"


def explain(answer: Answer) -> str:
    """A table of the ranges, in degrees."""
    days, cuts, first = len(answer.profile.days), len(answer.profile.cuts), answer.profile.first
    counted = f" from day {first} on" if first else ""
    lines = [
        f"{_count(days, 'day')}, {_count(cuts, 'cut')}; degrees Celsius, the total in degree-days{counted}",
        "",
        f"{'':8} {'entered':^20}  {'at opening':^20}  {'after the cuts':^20}".rstrip(),
        _row("total", answer.total_stages()),
        *(_row(f"day {day}", stages) + FILLING * (day < first) for day, stages in enumerate(answer.day_stages())),
    ]
    return "".join(line + "\n" for line in lines)


def _count(number: int, noun: str) -> str:
    return f"{number} {noun}" if number == 1 else f"{number} {noun}s"


def _row(name: str, stages: Stages) -> str:
    return f"{name:8} " + "  ".join(f"{degrees(floor):>9}  {degrees(ceiling):>9}" for floor, ceiling in stages)
