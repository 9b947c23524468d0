import unittest
import xml.etree.ElementTree as ET

from cloverdrum_profile.chart import MOST_TOOLTIPS, draw, round_ticks
from cloverdrum_profile.explanation import ask
from cloverdrum_profile.file_format import encode
from cloverdrum_profile.text_form import parse_text

from . import EXAMPLES

SVG = "{http://www.w3.org/2000/svg}"
ONE_DAY = encode(parse_text("total -5120 20480\nday 0 17 17\ncut day 0 ceiling 40", "text"))


def days_of(svg: str) -> list[ET.Element]:
    return ET.fromstring(svg).findall(f"{SVG}g[@class='day']")


class Chart(unittest.TestCase):
    def assert_chart(self, data: bytes) -> None:
        """A group of three bands for each day, each visible and within the one before."""
        answer = ask(data)
        svg = draw(answer, "title")
        self.assertEqual(draw(answer, "title"), svg)
        days = days_of(svg)
        self.assertEqual(len(days), len(answer.profile.days))
        for day in days:
            heights = [float(band.get("height")) for band in day.findall(f"{SVG}rect")]
            self.assertEqual(len(heights), 3)
            self.assertGreater(min(heights), 2)
            self.assertEqual(heights, sorted(heights, reverse=True))
            self.assertEqual(len(day.findall(f"{SVG}title")), len(days) <= MOST_TOOLTIPS)

    def test_examples(self):
        for name in ("doc01", "ale", "lager", "cellar", "tall_tank"):
            with self.subTest(name):
                self.assert_chart((EXAMPLES / f"{name}.profile").read_bytes())

    def test_one_day(self):
        self.assert_chart(ONE_DAY)

    def test_a_mark_for_each_cut(self):
        svg = ET.fromstring(draw(ask((EXAMPLES / "ale.profile").read_bytes()), "ale"))
        in_legend = 2
        self.assertEqual(len(svg.findall(f"{SVG}polygon")), 3 + in_legend)

    def test_filling_days_are_marked(self):
        svg = draw(ask((EXAMPLES / "tall_tank.profile").read_bytes()), "title")
        titles = [day.findtext(f"{SVG}title") for day in days_of(svg)]
        self.assertEqual([day for day, title in enumerate(titles) if ", filling: " in title], [0, 1, 2])
        self.assertEqual(len(ET.fromstring(svg).findall(f"{SVG}rect[@class='filling']")), 1)
        self.assertIn("counted from day 3 on", svg)
        for mark in ("filling", "counted from"):
            self.assertNotIn(mark, draw(ask((EXAMPLES / "ale.profile").read_bytes()), "title"))

    def test_the_last_day_alone_counts(self):
        text = "total 17 19\nfirst 2\nday 0 17 19 rise 0\nday 1 17 19 rise 0\nday 2 17 19"
        self.assert_chart(encode(parse_text(text, "text")))

    def test_a_title_that_xml_could_not_hold(self):
        svg = draw(ask(ONE_DAY), "<&\x01\udc80" + "x" * 100)
        title = ET.fromstring(svg.encode()).findtext(f"{SVG}text")
        self.assertEqual(title, "<&��" + "x" * 55 + "…")


class Ticks(unittest.TestCase):
    def test_round_steps(self):
        self.assertEqual(list(round_ticks(200, 2200, 8)), [0, 500, 1000, 1500, 2000, 2500])
        self.assertEqual(list(round_ticks(2, 7, 8)), [2, 3, 4, 5, 6, 7])
        self.assertEqual(list(round_ticks(-512_000, 2_048_000, 8)), list(range(-1_000_000, 2_500_001, 500_000)))

    def test_one_value_has_room_around_it(self):
        ticks = round_ticks(1700, 1700, 8)
        self.assertLess(ticks[0], 1700)
        self.assertGreater(ticks[-1], 1700)
