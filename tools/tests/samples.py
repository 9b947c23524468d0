"""Profiles for the tests, by chance from a given seed, and at the bounds."""

from collections.abc import Iterator
from random import Random

from cloverdrum_profile.model import Cut, Kind, Profile, Range
from cloverdrum_profile.rules import MOST_CUTS, MOST_DAYS, POINTS, RISES, TOTALS, Limits


def writable_profiles(seed: int, count: int) -> Iterator[Profile]:
    """Profiles that document 01's writer takes, with any values in bounds."""
    random = Random(seed)
    for _ in range(count):
        yield _profile(random, days=random.randint(1, 20), cuts=random.randint(0, 5))


def longest_profile(seed: int) -> Profile:
    """As many days and cuts as a profile can have."""
    return _profile(Random(seed), MOST_DAYS, MOST_CUTS)


def narrow_profiles(seed: int, count: int) -> Iterator[Profile]:
    """Small profiles whose days, rises, total and cuts get in each other's way: some have a schedule and some don't."""
    random = Random(seed)
    for _ in range(count):
        floors = [random.randint(0, 12) for _ in range(random.randint(1, 6))]
        days = [Range(floor, floor + random.randint(0, 12)) for floor in floors]
        rises = [random.randint(-6, 2) for _ in days[1:]]
        first = random.choice([0, random.randrange(len(days))])
        ceilings = [day.ceiling for day in days]
        total = Range(sum(floors[first:]) + random.randint(-5, 10), sum(ceilings[first:]) + random.randint(-10, 5))
        cuts = [_near_cut(random, days, total) for _ in range(random.randint(0, 6))]
        yield Profile(total, days, rises, cuts, first)


def wild_profiles(seed: int, count: int) -> Iterator[Profile]:
    """Narrow profiles, each with some values out of bounds, crossed, or of a day that is not there."""
    random = Random(seed)
    for profile in narrow_profiles(seed, count):
        yield Profile(
            Range(*(_wild(random, value, TOTALS) for value in profile.total)),
            [Range(*(_wild(random, value, POINTS) for value in day)) for day in profile.days],
            [_wild(random, rise, RISES) for rise in profile.rises],
            [_wild_cut(random, cut) for cut in profile.cuts],
            random.choice([profile.first, profile.first, profile.first, len(profile.days), 65_535]),
        )


def _profile(random: Random, days: int, cuts: int) -> Profile:
    return Profile(
        _range(random, TOTALS),
        [_range(random, POINTS) for _ in range(days)],
        [_value(random, RISES) for _ in range(days - 1)],
        [_cut(random, days) for _ in range(cuts)],
        random.choice([0, random.randrange(days), days - 1]),
    )


def _value(random: Random, limits: Limits) -> int:
    """A value within the limits, in two of five cases one of them."""
    between = random.randint(limits.lowest, limits.highest)
    return random.choice([limits.lowest, limits.highest, between, between, between])


def _wild(random: Random, value: int, limits: Limits) -> int:
    """The value, or in one of eight cases another, at the limits or just outside."""
    others = [limits.lowest, limits.lowest - 1, limits.highest, limits.highest + 1]
    return random.choice(others) if random.randrange(8) == 0 else value


def _wild_cut(random: Random, cut: Cut) -> Cut:
    if cut.kind.of_total:
        return cut._replace(value=_wild(random, cut.value, TOTALS))
    return cut._replace(day=cut.day + random.choice([0, 0, 0, 1]), value=_wild(random, cut.value, POINTS))


def _range(random: Random, limits: Limits) -> Range:
    return Range(*sorted((_value(random, limits), _value(random, limits))))


def _cut(random: Random, days: int) -> Cut:
    kind = random.choice(list(Kind))
    if kind.of_total:
        return Cut(kind, 0, _value(random, TOTALS))
    return Cut(kind, random.randrange(days), _value(random, POINTS))


def _near_cut(random: Random, days: list[Range], total: Range) -> Cut:
    """A cut whose value is near the bound that it moves."""
    kind = random.choice(list(Kind))
    day = 0 if kind.of_total else random.randrange(len(days))
    bounds = total if kind.of_total else days[day]
    inwards = random.randint(-1, 5)
    return Cut(kind, day, bounds.floor + inwards if kind.bound == "floor" else bounds.ceiling - inwards)
