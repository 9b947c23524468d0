"""The text form of a profile, in degrees: a line for the total, one for the first counted day where that is not 0, one for
each day, one for each cut."""

import math
import re

from .messages import excerpt
from .model import Cut, Kind, Profile, Range, degrees
from .refusals import Fault
from .rules import (
    MOST_CUTS,
    MOST_DAYS,
    POINTS,
    RISES,
    TOTALS,
    crossed_fault,
    cut_day_fault,
    cut_value_fault,
    first_day_fault,
)

MOST_FAULTS = 20
"""The faults that are listed of one text."""

FORMS = {
    "total": "the total's line reads: total FLOOR CEILING",
    "first": "the first counted day's line reads: first NUMBER",
    "day": "a day's line reads: day NUMBER FLOOR CEILING rise RISE",
    "cut": "a cut's line reads: cut day NUMBER floor VALUE (or ceiling; or cut total floor VALUE)",
}
NO_RISE = "the rise to the next day is missing: rise 0.00 if it may not cool, rise -2.00 if by at most 2"
NUMBER = re.compile(r"([+-]?)([0-9]{1,9})(?:\.([0-9]+))?")
DAY_NUMBER = re.compile(r"[0-9]{1,9}")


class TextError(Exception):
    """What is wrong with a text, a line for each fault."""


class _LineError(Exception):
    """What is wrong with one line."""


def format_text(profile: Profile) -> str:
    rises = [f" rise {degrees(rise)}" for rise in profile.rises] + [""]
    lines = [
        f"total {_bounds(profile.total)}",
        *([f"first {profile.first}"] if profile.first else []),
        *(f"day {day} {_bounds(profile.days[day])}{rise}" for day, rise in enumerate(rises)),
        *map(str, profile.cuts),
    ]
    return "".join(line + "\n" for line in lines)


def parse_text(text: str, name: str) -> Profile:
    """The profile that a text describes; raises TextError with every fault, each with the file's name and its line."""
    lines = [(number, line.partition("#")[0].split()) for number, line in enumerate(text.split("\n"), 1)]
    parser = _Parser(name)
    parser.take_all([(number, words) for number, words in lines if words])
    if parser.faults:
        raise TextError(_listing(name, parser.faults))
    return Profile(parser.total, parser.days, parser.rises[:-1], parser.cuts, parser.first)


def _listing(name: str, faults: list[str]) -> str:
    listed = faults[:MOST_FAULTS]
    if len(faults) > MOST_FAULTS:
        listed.append(f"{name}: and {len(faults) - MOST_FAULTS} more")
    return "\n".join(listed)


class _Parser:
    """Takes the lines of a text one after another, and goes on past a faulty one."""

    def __init__(self, name: str) -> None:
        self.total = Range(0, 0)
        self.days: list[Range] = []
        self.rises: list[int] = []
        self.cuts: list[Cut] = []
        self.first = 0
        self.faults: list[str] = []
        self._name = name
        self._seen = {"total": 0, "first": 0, "day": 0, "cut": 0}
        self._day_count = 0
        self._next_day = 0
        self._last_day_line = math.inf

    def take_all(self, lines: list[tuple[int, list[str]]]) -> None:
        """Takes the words of every line, each with the line's number."""
        day_lines = [number for number, words in lines if words[0] == "day"]
        self._day_count = len(day_lines)
        self._last_day_line = max(day_lines, default=math.inf)
        for number, words in lines:
            try:
                self._take(number, words)
            except _LineError as error:
                self.faults.append(f"{self._name}:{number}: {error}")
        if not self._seen["total"]:
            self.faults.append(f"{self._name}: there is no total: the first line reads total FLOOR CEILING")
        if not self._seen["day"]:
            self.faults.append(f"{self._name}: there is no day: a profile has 1 to {MOST_DAYS} days (refused 1)")

    def _take(self, number: int, words: list[str]) -> None:
        if words[0] not in FORMS:
            raise _LineError(f"a line begins with total, first, day or cut, and this one with '{excerpt(words[0])}'")
        self._seen[words[0]] += 1
        match words:
            case ["total", floor, ceiling]:
                self._take_total(Range(_points(floor), _points(ceiling)))
            case ["first", day]:
                self._take_first(_day_number(day))
            case ["day", day, *values]:
                self._take_day_number(day)
                self._take_day(values, is_last=number == self._last_day_line)
            case ["cut", *_] if number < self._last_day_line:
                raise _LineError("the cuts come after the days")
            case ["cut", "day", day, "floor" | "ceiling" as bound, value]:
                self._take_cut(Cut(Kind[f"DAY_{bound.upper()}"], _day_number(day), _points(value)))
            case ["cut", "total", "floor" | "ceiling" as bound, value]:
                self._take_cut(Cut(Kind[f"TOTAL_{bound.upper()}"], 0, _points(value)))
            case _:
                raise _LineError(FORMS[words[0]])

    def _take_total(self, total: Range) -> None:
        if self._seen["total"] > 1:
            raise _LineError("the total stands in an earlier line: one line is enough")
        if self._seen["day"] or self._seen["cut"]:
            raise _LineError("the total comes first, before the days and the cuts")
        _refuse(TOTALS.fault("floor", total.floor) or TOTALS.fault("ceiling", total.ceiling) or crossed_fault(total))
        self.total = total

    def _take_first(self, first: int) -> None:
        if self._seen["first"] > 1:
            raise _LineError("the first counted day stands in an earlier line: one line is enough")
        if self._seen["day"] or self._seen["cut"]:
            raise _LineError("the first counted day comes before the days and the cuts")
        if self._day_count:
            _refuse(first_day_fault(first, self._day_count))
        self.first = first

    def _take_day_number(self, word: str) -> None:
        """Judges the number of a day, and counts on from it, so that a missing day is one fault and not many."""
        expected = self._next_day
        self._next_day += 1
        day = _day_number(word)
        self._next_day = day + 1
        if day > expected:
            raise _LineError(f"day {expected} is missing: this line says day {day}")
        if day < expected:
            raise _LineError(f"day {day} stands in an earlier line: this line should say day {expected}")
        if day >= MOST_DAYS:
            _refuse(Fault(1, f"there is no room for day {day}: a profile has at most {MOST_DAYS} days"))

    def _take_day(self, values: list[str], is_last: bool) -> None:
        match values:
            case [_, _] if not is_last:
                raise _LineError(NO_RISE)
            case [floor, ceiling]:
                day, rise = Range(_points(floor), _points(ceiling)), 0
            case [floor, ceiling, "rise", rise]:
                day, rise = Range(_points(floor), _points(ceiling)), _points(rise)
            case _:
                raise _LineError(FORMS["day"])
        if is_last and rise:
            raise _LineError(f"the last day has no next day to rise to: leave out rise {degrees(rise)}")
        _refuse(
            POINTS.fault("floor", day.floor)
            or POINTS.fault("ceiling", day.ceiling)
            or RISES.fault("rise", rise)
            or crossed_fault(day)
        )
        self.days.append(day)
        self.rises.append(rise)

    def _take_cut(self, cut: Cut) -> None:
        if self._seen["cut"] > MOST_CUTS:
            _refuse(Fault(1, f"there is no room for this cut: a profile has at most {MOST_CUTS} cuts"))
        _refuse(cut_day_fault(cut, self._next_day) or cut_value_fault(cut))
        self.cuts.append(cut)


def _refuse(fault: Fault | None) -> None:
    if fault:
        raise _LineError(f"{fault.cause} (refused {fault.number})")


def _points(word: str) -> int:
    """A number of degrees in points; exact, as no fraction of a point exists."""
    match = NUMBER.fullmatch(word)
    if not match:
        raise _LineError(f"'{excerpt(word)}' is not a number such as 17.50")
    sign, whole, decimals = match.groups(default="")
    if len(decimals) > 2:
        raise _LineError(f"{excerpt(word)} has more than two decimals: a point is a hundredth of a degree")
    return int(sign + whole + decimals.ljust(2, "0"))


def _day_number(word: str) -> int:
    if not DAY_NUMBER.fullmatch(word):
        raise _LineError(f"'{excerpt(word)}' is not a day's number: days are counted 0, 1, 2, ..")
    return int(word)


def _bounds(bounds: Range) -> str:
    return f"{degrees(bounds.floor)} {degrees(bounds.ceiling)}"
