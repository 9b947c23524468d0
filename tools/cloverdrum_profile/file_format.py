"""The bytes of a profile file, and what document 01's reader refuses."""

from struct import Struct

from .model import Cut, Kind, Profile, Range, degrees
from .refusals import Checks, Place, check, fault_unless
from .rules import MOST_CUTS, MOST_DAYS

HEADER = Struct("<4H2i")
FIRST = Struct("<H")
"""The first counted day, after the header."""
DAY = Struct("<3h")
CUT = Struct("<2Hi")

HEADER_FIELDS = {"day count": 0, "cut count": 2, "days' offset": 4, "cuts' offset": 6, "floor": 8, "ceiling": 12}
DAY_FIELDS = {"floor": 0, "ceiling": 2, "rise": 4}
CUT_FIELDS = {"kind": 0, "day": 2, "value": 4}
"""Offsets, from the start of the file, of the day and of the cut."""
DAYS_OFFSET = HEADER.size + FIRST.size
FIRST_PLACE = Place("the first counted day", HEADER.size)


def cuts_offset(day_count: int) -> int:
    return DAYS_OFFSET + DAY.size * day_count


def header_place(field: str) -> Place:
    return Place("the header", HEADER_FIELDS[field])


def total_place(bound: str) -> Place:
    return Place("the total", HEADER_FIELDS[bound])


def day_place(day: int, field: str) -> Place:
    return Place(f"day {day}", DAYS_OFFSET + DAY.size * day + DAY_FIELDS[field])


def cut_place(cut: int, day_count: int, field: str) -> Place:
    return Place(f"cut {cut}", cuts_offset(day_count) + CUT.size * cut + CUT_FIELDS[field])


def encode(profile: Profile) -> bytes:
    day_count = len(profile.days)
    header = HEADER.pack(day_count, len(profile.cuts), DAYS_OFFSET, cuts_offset(day_count), *profile.total)
    days = (DAY.pack(*day, rise) for day, rise in zip(profile.days, [*profile.rises, 0]))
    cuts = (CUT.pack(*cut) for cut in profile.cuts)
    return b"".join((header, FIRST.pack(profile.first), *days, *cuts))


def decode(data: bytes) -> Profile:
    """The profile in a file that document 01's reader takes; raises Refused for any other. Values are not judged."""
    check(_reading(data))
    day_count, _, _, _, *total = HEADER.unpack_from(data)
    days = list(DAY.iter_unpack(data[DAYS_OFFSET : cuts_offset(day_count)]))
    cuts = CUT.iter_unpack(data[cuts_offset(day_count) :])
    return Profile(
        Range(*total),
        [Range(floor, ceiling) for floor, ceiling, _ in days],
        [rise for _, _, rise in days[:-1]],
        [Cut(Kind(kind), day, value) for kind, day, value in cuts],
        *FIRST.unpack_from(data, HEADER.size),
    )


def _reading(data: bytes) -> Checks:
    yield from _reading_header(data)
    day_count, *_ = HEADER.unpack_from(data)
    *_, (_, _, last_rise) = DAY.iter_unpack(data[DAYS_OFFSET : cuts_offset(day_count)])
    yield day_place(day_count - 1, "rise"), fault_unless(
        last_rise == 0, 12, f"the rise of the last day is {degrees(last_rise)}, and must be 0.00"
    )
    for index, (kind, day, _) in enumerate(CUT.iter_unpack(data[cuts_offset(day_count) :])):
        yield cut_place(index, day_count, "kind"), fault_unless(
            kind <= max(Kind), 12, f"the kind is {kind}, and must be 0 to {max(Kind)}"
        )
        yield cut_place(index, day_count, "day"), fault_unless(
            day == 0 or not Kind(kind).of_total, 12, f"the day of this cut of the total is {day}, and must be 0"
        )


def _reading_header(data: bytes) -> Checks:
    yield Place("the header", 0), fault_unless(
        len(data) >= DAYS_OFFSET,
        11,
        f"with the first counted day it takes {DAYS_OFFSET} bytes, and the whole file has {len(data)}",
    )
    day_count, cut_count, days_at, cuts_at, _, _ = HEADER.unpack_from(data)
    yield header_place("day count"), fault_unless(
        1 <= day_count <= MOST_DAYS, 1, f"the day count is {day_count}, and must be 1 to {MOST_DAYS}"
    )
    yield header_place("cut count"), fault_unless(
        cut_count <= MOST_CUTS, 1, f"the cut count is {cut_count}, and must be 0 to {MOST_CUTS}"
    )
    yield header_place("days' offset"), fault_unless(
        days_at == DAYS_OFFSET, 11, f"the offset of the days is {days_at}, and must be {DAYS_OFFSET}"
    )
    yield header_place("cuts' offset"), fault_unless(
        cuts_at == cuts_offset(day_count),
        11,
        f"the offset of the cuts is {cuts_at}, and must be {cuts_offset(day_count)}",
    )
    length = cuts_offset(day_count) + CUT.size * cut_count
    yield Place("the file's end", min(length, len(data))), fault_unless(
        len(data) == length, 11, f"the header's counts ask for {length} bytes, and the file has {len(data)}"
    )
