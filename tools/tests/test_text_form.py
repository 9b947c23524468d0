import unittest

from cloverdrum_profile.file_format import decode, encode
from cloverdrum_profile.model import Cut, Kind, Profile, Range
from cloverdrum_profile.text_form import MOST_FAULTS, TextError, format_text, parse_text

from . import EXAMPLES
from .samples import longest_profile, writable_profiles

ONE_DAY = Profile(Range(-512_000, 2_048_000), [Range(-1_000, 4_000)], [], [])

TOTAL_FAULTS = [
    ("total 1", "the total's line reads: total FLOOR CEILING"),
    ("total 1 x", "'x' is not a number such as 17.50"),
    ("total 1 17.", "'17.' is not a number such as 17.50"),
    ("total 1 1e3", "'1e3' is not a number such as 17.50"),
    ("total 1 ٣", "'٣' is not a number such as 17.50"),
    ("total -5120.01 1", "the floor -5120.01 is below -5120.00, the lowest total (refused 5)"),
    ("total 1 20480.01", "the ceiling 20480.01 is above 20480.00, the highest total (refused 5)"),
    ("total 2 1", "the floor 2.00 is above the ceiling 1.00 (refused 6)"),
]
"""Faulty lines of the total, and what is said of them."""

FAULTS = [
    ("total 1 2\nday 0 17 19", "2: the total stands in an earlier line: one line is enough"),
    ("day 0 17", "2: a day's line reads: day NUMBER FLOOR CEILING rise RISE"),
    ("day 0 17 19 0.5", "2: a day's line reads: day NUMBER FLOOR CEILING rise RISE"),
    ("day 0 17.005 19", "2: 17.005 has more than two decimals: a point is a hundredth of a degree"),
    ("day x 17 19", "2: 'x' is not a day's number: days are counted 0, 1, 2, .."),
    ("day 0 -10.01 19", "2: the floor -10.01 is below -10.00, the lowest temperature (refused 3)"),
    ("day 0 17 41", "2: the ceiling 41.00 is above 40.00, the highest temperature (refused 3)"),
    ("day 0 19 18", "2: the floor 19.00 is above the ceiling 18.00 (refused 6)"),
    ("day 0 17 19 rise 0.01", "2: the last day has no next day to rise to: leave out rise 0.01"),
    ("day 0 17 19 rise -20.01\nday 1 17 19", "2: the rise -20.01 is below -20.00, the lowest rise (refused 4)"),
    ("day 0 17 19 rise 20.01\nday 1 17 19", "2: the rise 20.01 is above 20.00, the highest rise (refused 4)"),
    (
        "day 0 17 19\nday 1 17 19",
        "2: the rise to the next day is missing: rise 0.00 if it may not cool, rise -2.00 if by at most 2",
    ),
    ("day 1 17 19", "2: day 0 is missing: this line says day 1"),
    ("day 0 17 19 rise 0\nday 0 17 19", "3: day 0 stands in an earlier line: this line should say day 1"),
    ("day 0 17 19\ncut day 1 floor 17", "3: the profile has no day 1, its days are 0 to 0 (refused 7)"),
    ("day 0 17 19\ncut day 0 floor 40.01", "3: the floor 40.01 is above 40.00, the highest temperature (refused 3)"),
    ("day 0 17 19\ncut total ceiling -6000", "3: the ceiling -6000.00 is below -5120.00, the lowest total (refused 5)"),
    ("day 0 17 19\ncut day -1 floor 17", "3: '-1' is not a day's number: days are counted 0, 1, 2, .."),
    (
        "day 0 17 19\ncut day 0 above 17",
        "3: a cut's line reads: cut day NUMBER floor VALUE (or ceiling; or cut total floor VALUE)",
    ),
    ("cut total floor 1\nday 0 17 19", "2: the cuts come after the days"),
    ("days 0 17 19\nday 0 17 19", "2: a line begins with total, first, day or cut, and this one with 'days'"),
    ("first\nday 0 17 19", "2: the first counted day's line reads: first NUMBER"),
    ("first 0 1\nday 0 17 19", "2: the first counted day's line reads: first NUMBER"),
    ("first 0.5\nday 0 17 19", "2: '0.5' is not a day's number: days are counted 0, 1, 2, .."),
    ("first 1\nday 0 17 19", "2: the profile has no day 1, its days are 0 to 0 (refused 13)"),
    ("first 999999999\nday 0 17 19", "2: the profile has no day 999999999, its days are 0 to 0 (refused 13)"),
    ("first 0\nfirst 0\nday 0 17 19", "3: the first counted day stands in an earlier line: one line is enough"),
    ("day 0 17 19\nfirst 0", "3: the first counted day comes before the days and the cuts"),
]
"""Faulty texts after the total's line, and what is said of them after the file's name."""


class RoundTrips(unittest.TestCase):
    def assert_round_trip(self, profile: Profile) -> None:
        data, text = encode(profile), format_text(profile)
        self.assertEqual(decode(data), profile)
        self.assertEqual(parse_text(text, "text"), profile)
        self.assertEqual(encode(parse_text(format_text(decode(data)), "text")), data)
        self.assertEqual(format_text(decode(encode(parse_text(text, "text")))), text)

    def test_examples(self):
        for path in sorted(EXAMPLES.glob("*.profile")):
            with self.subTest(path.name):
                self.assert_round_trip(decode(path.read_bytes()))

    def test_random_profiles(self):
        for profile in writable_profiles(seed=1, count=3000):
            self.assert_round_trip(profile)

    def test_one_day_and_most_days_and_cuts(self):
        self.assert_round_trip(ONE_DAY)
        self.assert_round_trip(longest_profile(seed=2))


class Text(unittest.TestCase):
    def test_the_canonical_form(self):
        days = [Range(1700, 1900), Range(-5, 5), Range(0, 0)]
        cuts = [Cut(Kind.DAY_FLOOR, 2, 1825), Cut(Kind.TOTAL_CEILING, 0, -1)]
        self.assertEqual(
            format_text(Profile(Range(-100, 23000), days, [50, -2000], cuts, 2)),
            "total -1.00 230.00\n"
            "first 2\n"
            "day 0 17.00 19.00 rise 0.50\n"
            "day 1 -0.05 0.05 rise -20.00\n"
            "day 2 0.00 0.00\n"
            "cut day 2 floor 18.25\n"
            "cut total ceiling -0.01\n",
        )

    def test_reading_is_lenient(self):
        text = (
            "\n# A comment\r\n  total\t1 +2.5#another\n\n"
            "day 00 17 17.5 rise +0\nday 1 17.50 19 rise 0\ncut total floor -0.5"
        )
        days, cuts = [Range(1700, 1750), Range(1750, 1900)], [Cut(Kind.TOTAL_FLOOR, 0, -50)]
        profile = Profile(Range(100, 250), days, [0], cuts)
        self.assertEqual(parse_text(text, "text"), profile)
        self.assertEqual(parse_text(f"first 01 # full\n{text}", "text"), profile._replace(first=1))

    def test_where_every_day_counts_the_line_is_left_out(self):
        self.assertNotIn("first", format_text(ONE_DAY))
        self.assertEqual(parse_text(f"first 0\n{format_text(ONE_DAY)}", "text"), ONE_DAY)

    def test_values_that_the_reader_leaves_to_opening_are_printed(self):
        cuts = [Cut(Kind.DAY_FLOOR, 65_535, 2_147_483_647)]
        profile = Profile(Range(-(2**31), 0), [Range(32_767, -32_768)], [], cuts, 65_535)
        self.assertEqual(
            format_text(decode(encode(profile))),
            "total -21474836.48 0.00\nfirst 65535\nday 0 327.67 -327.68\ncut day 65535 floor 21474836.47\n",
        )


class Faults(unittest.TestCase):
    def faults(self, text: str) -> list[str]:
        with self.assertRaises(TextError) as raised:
            parse_text(text, "ale.txt")
        return str(raised.exception).split("\n")

    def test_each_fault_with_its_line_and_number(self):
        for line, message in TOTAL_FAULTS:
            with self.subTest(line):
                self.assertEqual(self.faults(f"{line}\nday 0 17 19"), [f"ale.txt:1: {message}"])
        for text, message in FAULTS:
            with self.subTest(text):
                self.assertEqual(self.faults(f"total 1 2\n{text}"), [f"ale.txt:{message}"])

    def test_every_faulty_line_is_named(self):
        text = "total 2 1\nday 0 41 42\nday 1\nday 3 17 19\nday 4 17 19\ncut day 9 floor 1"
        lines = [fault.split(": ")[0] for fault in self.faults(text)]
        self.assertEqual(lines, [f"ale.txt:{line}" for line in (1, 2, 3, 4, 6)])

    def test_what_is_missing_altogether(self):
        no_total = "ale.txt: there is no total: the first line reads total FLOOR CEILING"
        no_day = "ale.txt: there is no day: a profile has 1 to 512 days (refused 1)"
        self.assertEqual(self.faults("# nothing"), [no_total, no_day])
        self.assertEqual(self.faults("day 0 17 19"), [no_total])
        self.assertEqual(self.faults("total 1 2"), [no_day])
        self.assertEqual(self.faults("total 1 2\nfirst 7"), [no_day])

    def test_the_total_comes_first(self):
        message = "ale.txt:2: the total comes first, before the days and the cuts"
        self.assertEqual(self.faults("day 0 17 19\ntotal 1 2"), [message])

    def test_too_many_days_and_cuts(self):
        days = "".join(f"\nday {day} 17 19 rise 0" for day in range(513))
        self.assertEqual(
            self.faults("total 1 2" + days),
            ["ale.txt:514: there is no room for day 512: a profile has at most 512 days (refused 1)"],
        )
        self.assertEqual(
            self.faults("total 1 2\nday 0 17 19" + "\ncut total floor 1" * 513),
            ["ale.txt:515: there is no room for this cut: a profile has at most 512 cuts (refused 1)"],
        )

    def test_a_long_list_of_faults_is_capped(self):
        faults = self.faults("total 1 2\nday 0 17 19" + "\ncut" * (MOST_FAULTS + 5))
        self.assertEqual(len(faults), MOST_FAULTS + 1)
        self.assertEqual(faults[-1], "ale.txt: and 5 more")
