"""Why `ranges` refuses a file: the causes, judged in document 01's order."""

from .file_format import FIRST_PLACE, cut_place, day_place, decode, total_place
from .model import Cut, Profile, degrees
from .refusals import Checks, Fault, Place, Refusal, Refused, check
from .rules import POINTS, RISES, TOTALS, crossed_fault, cut_day_fault, cut_value_fault, first_day_fault


def first_refusal(data: bytes) -> Refusal | None:
    """The first refusal that reading, opening and cutting meet."""
    try:
        profile = decode(data)
        check(_opening(profile))
        check(_cutting(profile))
    except Refused as refused:
        return refused.refusal
    return None


def _opening(profile: Profile) -> Checks:
    for index, day in enumerate(profile.days):
        yield day_place(index, "floor"), POINTS.fault("floor", day.floor)
        yield day_place(index, "ceiling"), POINTS.fault("ceiling", day.ceiling)
    for index, rise in enumerate(profile.rises):
        yield day_place(index, "rise"), RISES.fault("rise", rise)
    yield total_place("floor"), TOTALS.fault("floor", profile.total.floor)
    yield total_place("ceiling"), TOTALS.fault("ceiling", profile.total.ceiling)
    for index, day in enumerate(profile.days):
        yield day_place(index, "floor"), crossed_fault(day)
    yield total_place("floor"), crossed_fault(profile.total)
    yield FIRST_PLACE, first_day_fault(profile.first, len(profile.days))
    yield Place("at opening"), no_schedule_fault(profile)


def _cutting(profile: Profile) -> Checks:
    day_count = len(profile.days)
    clipped = profile
    for index, cut in enumerate(profile.cuts):
        yield cut_place(index, day_count, "day"), cut_day_fault(cut, day_count)
        yield cut_place(index, day_count, "value"), cut_value_fault(cut)
        clipped = _clip(clipped, cut)
        fault = no_schedule_fault(clipped)
        context = f"with `{cut}` and the cuts before it" if index else f"with `{cut}`"
        yield cut_place(index, day_count, "kind"), fault and fault._replace(cause=f"{context}, {fault.cause}")


def _clip(profile: Profile, cut: Cut) -> Profile:
    """The profile with the one bound moved that the cut names."""
    if cut.kind.of_total:
        return profile._replace(total=profile.total.cut(cut.kind, cut.value))
    days = list(profile.days)
    days[cut.day] = days[cut.day].cut(cut.kind, cut.value)
    return profile._replace(days=days)


def no_schedule_fault(profile: Profile) -> Fault | None:
    """Why no schedule keeps the bounds of the profile, its cuts aside; None where one does.

    Every total from the sum of the carried floors to the sum of the carried ceilings, of the counted days, has a
    schedule (document 01, "Ranges of the total"), so that one of these causes applies wherever there is none.
    """
    cause = _chain_cause(profile) or _total_cause(profile)
    return Fault(8, cause) if cause else None


def _chain_cause(profile: Profile) -> str | None:
    """A day whose floor, or an earlier one carried forward with the rises, is above its ceiling."""
    carried = _carried_floors(profile)
    for index, day in enumerate(profile.days):
        if carried[index] > day.ceiling:
            source = max(i for i in range(index + 1) if carried[i] == profile.days[i].floor)
            return _chain_words(profile, source, index, carried[index])
    return None


def _chain_words(profile: Profile, source: int, day: int, carried: int) -> str:
    floor, ceiling = degrees(profile.days[source].floor), degrees(profile.days[day].ceiling)
    if source == day:
        return f"the floor {floor} of day {day} is above its ceiling {ceiling}"
    rises = f"the rises up to day {day}"
    if source + 1 == day:
        rises = f"the rise {degrees(profile.rises[source])} to day {day}"
    return (
        f"day {day} can't be below {degrees(carried)} (the floor {floor} of day {source} and {rises}), "
        f"and its ceiling is {ceiling}"
    )


def _total_cause(profile: Profile) -> str | None:
    """A total's range that crosses itself or has no sum of days in it."""
    total, days = profile.total, f"the days from {profile.first} on" if profile.first else "the days"
    least, greatest = sum(profile.counted(_carried_floors(profile))), sum(profile.counted(_carried_ceilings(profile)))
    if total.floor > total.ceiling:
        return f"the total's floor {degrees(total.floor)} is above its ceiling {degrees(total.ceiling)}"
    if greatest < total.floor:
        return f"{days} can sum to at most {degrees(greatest)}, and the total's floor is {degrees(total.floor)}"
    if least > total.ceiling:
        return f"{days} sum to at least {degrees(least)}, and the total's ceiling is {degrees(total.ceiling)}"
    return None


def _carried_floors(profile: Profile) -> list[int]:
    """The floor of each day, or what the day before and the rise ask for, where that is more."""
    floors = [profile.days[0].floor]
    for day, rise in zip(profile.days[1:], profile.rises):
        floors.append(max(day.floor, floors[-1] + rise))
    return floors


def _carried_ceilings(profile: Profile) -> list[int]:
    """The ceilings likewise, carried from the last day to the first."""
    ceilings = [profile.days[-1].ceiling]
    for day, rise in zip(profile.days[-2::-1], reversed(profile.rises)):
        ceilings.append(min(day.ceiling, ceilings[-1] - rise))
    return ceilings[::-1]
