import unittest
from collections.abc import Iterator
from random import Random

from cloverdrum_profile.causes import first_refusal, no_schedule_fault
from cloverdrum_profile.file_format import CUT, cuts_offset, encode
from cloverdrum_profile.model import Profile, Range, degrees
from cloverdrum_profile.program import Ranges, run_ranges
from cloverdrum_profile.refusals import MEANINGS, Refusal
from cloverdrum_profile.rules import TOTALS, crossed_fault
from cloverdrum_profile.text_form import parse_text

from . import EXAMPLES
from .samples import longest_profile, narrow_profiles, wild_profiles

DOC01 = (EXAMPLES / "doc01.profile").read_bytes()
ALE = (EXAMPLES / "ale.profile").read_bytes()
ANY_TOTAL = Range(TOTALS.lowest, TOTALS.highest)


def truncations(data: bytes) -> Iterator[bytes]:
    for length in range(len(data)):
        yield data[:length]
    yield data + b"\0"


def byte_changes(data: bytes, seed: int, count: int) -> Iterator[bytes]:
    """At each byte as many changes as asked for, to values by chance."""
    random = Random(seed)
    for place, byte in enumerate(data):
        for value in random.sample(sorted({*range(256)} - {byte}), count):
            yield data[:place] + bytes([value]) + data[place + 1 :]


def damaged(data: bytes, seed: int, count: int) -> Iterator[bytes]:
    """With several bytes changed at once, and now and then one missing, so that several causes apply."""
    random = Random(seed)
    for _ in range(count):
        changed = bytearray(data)
        for place in random.sample(range(len(data)), random.randint(2, 5)):
            changed[place] = random.choice([0, 1, 16, 127, 255])
        yield bytes(changed[: len(data) - random.choice([0, 0, 0, 1])])


def refusal_of(text: str) -> str:
    return str(first_refusal(encode(parse_text(text, "text"))))


def files() -> Iterator[bytes]:
    """Files of every fate: damaged ones, narrow ones, and long ones."""
    for path in sorted(EXAMPLES.glob("*.profile")):
        yield path.read_bytes()
    for data, count in ((DOC01, 64), (ALE, 24)):
        yield from truncations(data)
        yield from byte_changes(data, seed=3, count=count)
    yield from damaged(DOC01, seed=4, count=2000)
    yield from map(encode, narrow_profiles(seed=5, count=1500))
    yield from map(encode, wild_profiles(seed=6, count=1000))
    yield encode(longest_profile(seed=7))


class AgainstRanges(unittest.TestCase):
    def test_the_number_is_the_one_that_ranges_prints(self):
        seen = set()
        for data in files():
            printed, refusal = run_ranges(data), first_refusal(data)
            number = refusal.fault.number if refusal else None
            self.assertEqual(number, None if isinstance(printed, Ranges) else printed, data.hex(" "))
            seen.add(number)
        self.assertEqual(seen, {None, *MEANINGS})

    def test_no_schedule_exists_from_the_place_on_that_is_named(self):
        """With the cuts before it `ranges` shows ranges, and with one more it refuses; at opening, without any."""
        places = set()
        for profile in narrow_profiles(seed=8, count=1000):
            refusal = first_refusal(encode(profile))
            if not refusal or refusal.fault.number != 8:
                continue
            cuts = self.cuts_before(refusal, profile)
            places.add(cuts)
            if cuts is None:
                self.assertEqual(run_ranges(encode(profile.without_cuts())), 8)
            else:
                self.assertIsInstance(run_ranges(encode(profile._replace(cuts=profile.cuts[:cuts]))), Ranges)
                self.assertEqual(run_ranges(encode(profile._replace(cuts=profile.cuts[: cuts + 1]))), 8)
        self.assertEqual(places, {None, 0, 1, 2, 3, 4, 5})

    def cuts_before(self, refusal: Refusal, profile: Profile) -> int | None:
        """How many cuts stand before the refusal's place in a file; None at opening."""
        if refusal.place.offset is None:
            return None
        return (refusal.place.offset - cuts_offset(len(profile.days))) // CUT.size

    def test_the_sums_are_those_that_ranges_shows(self):
        """Where any total will do, `ranges` shows the least and the greatest sum of the days."""
        for profile in narrow_profiles(seed=9, count=1000):
            fault = no_schedule_fault(profile)
            free = run_ranges(encode(profile.without_cuts()._replace(total=ANY_TOTAL)))
            if free == 8:
                self.assertRegex(fault.cause, "^day . can't be below ")
            elif crossed_fault(profile.total):
                self.assertRegex(fault.cause, "^the total's floor .* is above its ceiling ")
            elif free.total.ceiling < profile.total.floor:
                self.assertIn(f"sum to at most {degrees(free.total.ceiling)},", fault.cause)
            elif free.total.floor > profile.total.ceiling:
                self.assertIn(f"sum to at least {degrees(free.total.floor)},", fault.cause)
            else:
                self.assertIsNone(fault)


class Words(unittest.TestCase):
    def test_places_and_causes_in_a_file(self):
        changes = [
            (0, b"\0", "1", "the header, byte 0: the day count is 0, and must be 1 to 512"),
            (3, b"\x02", "1", "the header, byte 2: the cut count is 514, and must be 0 to 512"),
            (4, b"\x10", "11", "the header, byte 4: the offset of the days is 16, and must be 18"),
            (6, b"\x23", "11", "the header, byte 6: the offset of the cuts is 35, and must be 36"),
            (2, b"\x03", "11", "the file's end, byte 52: the header's counts ask for 60 bytes, and the file has 52"),
            (34, b"\x32", "12", "day 2, byte 34: the rise of the last day is 0.50, and must be 0.00"),
            (44, b"\x04", "12", "cut 1, byte 44: the kind is 4, and must be 0 to 3"),
            (46, b"\x01", "12", "cut 1, byte 46: the day of this cut of the total is 1, and must be 0"),
            (27, b"\x10", "3", "day 1, byte 26: the ceiling 41.03 is above 40.00, the highest temperature"),
            (29, b"\x80", "4", "day 1, byte 28: the rise -327.68 is below -20.00, the lowest rise"),
            (15, b"\x01", "5", "the total, byte 12: the ceiling 167772.28 is above 20480.00, the highest total"),
            (24, b"\x08", "6", "day 1, byte 24: the floor 0.08 is above the ceiling 0.07"),
            (8, b"\x0d", "6", "the total, byte 8: the floor 0.13 is above the ceiling 0.12"),
            (16, b"\x03", "13", "the first counted day, byte 16: the profile has no day 3, its days are 0 to 2"),
            (17, b"\xff", "13", "the first counted day, byte 16: the profile has no day 65280, its days are 0 to 2"),
            (38, b"\x03", "7", "cut 0, byte 38: the profile has no day 3, its days are 0 to 2"),
            (41, b"\x10", "3", "cut 0, byte 40: the floor 40.99 is above 40.00, the highest temperature"),
        ]
        for place, byte, number, words in changes:
            with self.subTest(words):
                data = DOC01[:place] + byte + DOC01[place + 1 :]
                self.assertEqual(str(first_refusal(data)), f"refused {number}: {MEANINGS[int(number)]}\n{words}")

    def test_a_short_file(self):
        for length in (7, 17):
            words = f"the header, byte 0: with the first counted day it takes 18 bytes, and the whole file has {length}"
            self.assertEqual(str(first_refusal(DOC01[:length])), f"refused 11: {MEANINGS[11]}\n{words}")

    def test_why_there_is_no_schedule(self):
        days = "day 0 20 22 rise 0.5\nday 1 18 22 rise 1\nday 2 18 21.5\n"
        causes = [
            (
                "total 0 99\nday 0 20 22 rise 0.5\nday 1 18 22 rise 1\nday 2 18 21",
                "at opening: day 2 can't be below 21.50 (the floor 20.00 of day 0 and the rises up to day 2), "
                "and its ceiling is 21.00",
            ),
            (
                f"total 0 99\n{days}cut total floor 1\ncut day 1 floor 20.51",
                "cut 1, byte 44: with `cut day 1 floor 20.51` and the cuts before it, day 2 can't be below 21.51 "
                "(the floor 20.51 of day 1 and the rise 1.00 to day 2), and its ceiling is 21.50",
            ),
            (
                f"total 0 99\n{days}cut day 0 ceiling 19",
                "cut 0, byte 36: with `cut day 0 ceiling 19.00`, "
                "the floor 20.00 of day 0 is above its ceiling 19.00",
            ),
            (
                f"total 62.01 99\n{days}",
                "at opening: the days can sum to at most 62.00, and the total's floor is 62.01",
            ),
            (
                f"total 0 61.99\n{days}",
                "at opening: the days sum to at least 62.00, and the total's ceiling is 61.99",
            ),
            (
                f"total 42.01 99\nfirst 1\n{days}",
                "at opening: the days from 1 on can sum to at most 42.00, and the total's floor is 42.01",
            ),
            (
                f"total 0 41.99\nfirst 1\n{days}",
                "at opening: the days from 1 on sum to at least 42.00, and the total's ceiling is 41.99",
            ),
            (
                "total 0 99\nday 0 0 20\ncut total floor 10\ncut total ceiling 9",
                "cut 1, byte 32: with `cut total ceiling 9.00` and the cuts before it, "
                "the total's floor 10.00 is above its ceiling 9.00",
            ),
        ]
        for text, words in causes:
            with self.subTest(words):
                self.assertEqual(refusal_of(text), f"refused 8: no schedule exists\n{words}")
