"""A chart of a profile's ranges as SVG: the days' ranges above, the total's below."""

import xml.etree.ElementTree as ET
from typing import NamedTuple

from .explanation import Answer, Stages

WIDTH, HEIGHT = 800, 520
LEFT, RIGHT = 64, 776
MIDDLE = (LEFT + RIGHT) / 2
TITLE_Y = 32
LEGEND_Y, LEGEND_STEP = 60, 130
TOP, BOTTOM = 92, 372
TOTAL_TOP, TOTAL_BOTTOM = 434, 452
INSET = 12
"""Room between the frame and the outermost values, for the marks of cuts."""

BANDS = (("entered", "#dde1e6"), ("at opening", "#8fbfe0"), ("after the cuts", "#1b5a8f"))
"""Told apart by lightness alone, widest first; each lies on the one before."""
THINNEST = 2.5
MARK, INK, GRID, FILLING = "#d55e00", "#333333", "#cccccc", "#f4efe2"
MARK_SIZE = 5
STEPS = [digit * 10**zeros for zeros in range(9) for digit in (1, 2, 5)]

MOST_TOOLTIPS = 60
MOST_TITLE = 60


class Scale(NamedTuple):
    """Lays values on an axis of pixels; its ticks are multiples of a round step."""

    ticks: range
    start: float
    end: float

    def __call__(self, value: float) -> float:
        first, last = self.ticks[0], self.ticks[-1]
        return self.start + (value - first) * (self.end - self.start) / (last - first)


def draw(answer: Answer, title: str) -> str:
    svg = ET.Element("svg", xmlns="http://www.w3.org/2000/svg")
    _set(svg, width=WIDTH, viewBox=f"0 0 {WIDTH} {HEIGHT}", font_family="sans-serif", font_size=12, fill=INK)
    _add(svg, "rect", width=WIDTH, height=HEIGHT, fill="white")
    _text(svg, LEFT, TITLE_Y, _printable(title), font_size=18, font_weight="bold")
    _legend(svg)
    _days(svg, answer)
    _total(svg, answer)
    ET.indent(svg)
    return ET.tostring(svg, encoding="unicode") + "\n"


def round_ticks(low: int, high: int, most: int) -> range:
    """Multiples of the least round step of which about `most` reach from low to high, ends included."""
    if low == high:
        low, high = low - 100, high + 100
    step = next(step for step in STEPS if high - low <= most * step)
    return range(low // step * step, -(-high // step) * step + 1, step)


def _legend(svg: ET.Element) -> None:
    left = LEFT
    for name, colour in BANDS:
        _add(svg, "rect", x=left, y=LEGEND_Y - 10, width=18, height=12, fill=colour)
        _text(svg, left + 24, LEGEND_Y, name)
        left += LEGEND_STEP
    for bound, tip in (("floor", LEGEND_Y - 9), ("ceiling", LEGEND_Y + 1)):
        _mark(svg, left + 9, tip, bound)
        _text(svg, left + 24, LEGEND_Y, f"cut of a {bound}")
        left += LEGEND_STEP


def _days(svg: ET.Element, answer: Answer) -> None:
    count = len(answer.profile.days)
    cuts = [cut for cut in answer.profile.cuts if not cut.kind.of_total]
    values = [value for day in answer.profile.days for value in day] + [cut.value for cut in cuts]
    x = Scale(range(count + 1), LEFT, RIGHT)
    y = Scale(round_ticks(min(values), max(values), 12), BOTTOM - INSET, TOP + INSET)
    first = answer.profile.first
    if first:
        _add(svg, "rect", class_="filling", x=LEFT, y=TOP, width=x(first) - LEFT, height=BOTTOM - TOP, fill=FILLING)
    _degrees_axis(svg, y)
    for day, stages in enumerate(answer.day_stages()):
        group = _add(svg, "g", class_="day", shape_rendering="crispEdges")
        if count <= MOST_TOOLTIPS:
            filling = ", filling" if day < first else ""
            _add(group, "title").text = f"day {day}{filling}: {_in_words(stages)}"
        for (_, colour), (floor, ceiling) in zip(BANDS, stages):
            top, height = _span(y(ceiling), y(floor))
            _add(group, "rect", x=x(day), y=top, width=x(day + 1) - x(day), height=height, fill=colour)
    for cut in cuts:
        _mark(svg, x(cut.day + 0.5), y(cut.value), cut.kind.bound)
    _add(svg, "rect", x=LEFT, y=TOP, width=RIGHT - LEFT, height=BOTTOM - TOP, fill="none", stroke=INK)
    _days_axis(svg, x, count)
    if first:
        _first_counted(svg, x(first), first)


def _first_counted(svg: ET.Element, x: float, first: int) -> None:
    """A line where the first counted day begins."""
    _add(svg, "line", x1=x, x2=x, y1=TOP - 14, y2=BOTTOM, stroke=INK, stroke_dasharray="4 3")
    side, anchor = (4, "start") if x < MIDDLE else (-4, "end")
    _text(svg, x + side, TOP - 5, f"counted from day {first} on", text_anchor=anchor)


def _degrees_axis(svg: ET.Element, y: Scale) -> None:
    _text(svg, LEFT - 8, TOP - 4, "°C", text_anchor="end")
    for tick in y.ticks:
        _add(svg, "line", x1=LEFT, x2=RIGHT, y1=y(tick), y2=y(tick), stroke=GRID)
        _text(svg, LEFT - 8, y(tick) + 4, _tick_label(tick, y.ticks.step), text_anchor="end")


def _days_axis(svg: ET.Element, x: Scale, count: int) -> None:
    for day in range(0, count, round_ticks(0, count, 15).step):
        _text(svg, x(day + 0.5), BOTTOM + 16, str(day), text_anchor="middle")
    _text(svg, MIDDLE, BOTTOM + 34, "day", text_anchor="middle")


def _total(svg: ET.Element, answer: Answer) -> None:
    cuts = [cut for cut in answer.profile.cuts if cut.kind.of_total]
    values = [*answer.profile.total, *(cut.value for cut in cuts)]
    x = Scale(round_ticks(min(values), max(values), 8), LEFT + INSET, RIGHT - INSET)
    _total_axis(svg, x)
    group = _add(svg, "g", class_="total", shape_rendering="crispEdges")
    for (_, colour), (floor, ceiling) in zip(BANDS, answer.total_stages()):
        left, width = _span(x(floor), x(ceiling))
        _add(group, "rect", x=left, y=TOTAL_TOP, width=width, height=TOTAL_BOTTOM - TOTAL_TOP, fill=colour)
    for cut in cuts:
        _mark(svg, x(cut.value), TOTAL_BOTTOM if cut.kind.bound == "floor" else TOTAL_TOP, cut.kind.bound)
    _text(svg, MIDDLE, TOTAL_BOTTOM + 46, f"degree-days: {_in_words(answer.total_stages())}", text_anchor="middle")


def _total_axis(svg: ET.Element, x: Scale) -> None:
    _text(svg, LEFT - 8, TOTAL_BOTTOM - 5, "total", text_anchor="end")
    for tick in x.ticks:
        _add(svg, "line", x1=x(tick), x2=x(tick), y1=TOTAL_TOP - INSET, y2=TOTAL_BOTTOM + INSET, stroke=GRID)
        _text(svg, x(tick), TOTAL_BOTTOM + 26, _tick_label(tick, x.ticks.step), text_anchor="middle")


def _mark(svg: ET.Element, x: float, y: float, bound: str) -> None:
    """A triangle whose tip is at a cut's value: below it and pointing up for a floor, the reverse for a ceiling."""
    base = y + 2 * MARK_SIZE if bound == "floor" else y - 2 * MARK_SIZE
    points = ((x, y), (x - MARK_SIZE, base), (x + MARK_SIZE, base))
    _add(svg, "polygon", points=" ".join(f"{_number(a)},{_number(b)}" for a, b in points), fill=MARK, stroke="white")


def _span(start: float, end: float) -> tuple[float, float]:
    """Start and length of a band, which stays visible where both ends are one value."""
    length = max(end - start, THINNEST)
    return (start + end - length) / 2, length


def _in_words(stages: Stages) -> str:
    return ", ".join(f"{name} {range_}" for (name, _), range_ in zip(BANDS, stages))


def _tick_label(points: int, step: int) -> str:
    """Degrees with no more decimals than the step between the ticks needs."""
    decimals = 2 if step % 10 else 1 if step % 100 else 0
    return f"{points / 100:.{decimals}f}"


def _printable(title: str) -> str:
    """The title as far as it fits, without what XML can't hold."""
    short = title if len(title) <= MOST_TITLE else title[: MOST_TITLE - 1] + "…"
    return "".join(char if char.isprintable() else "�" for char in short)


def _text(parent: ET.Element, x: float, y: float, text: str, **attributes: float | str) -> None:
    _add(parent, "text", x=x, y=y, **attributes).text = text


def _add(parent: ET.Element, tag: str, **attributes: float | str) -> ET.Element:
    element = ET.SubElement(parent, tag)
    _set(element, **attributes)
    return element


def _set(element: ET.Element, **attributes: float | str) -> None:
    """Sets attributes; an underscore in a name stands for a hyphen, and one at its end for nothing."""
    for name, value in attributes.items():
        element.set(name.rstrip("_").replace("_", "-"), _number(value))


def _number(value: float | str) -> str:
    return value if isinstance(value, str) else f"{value:.6g}"
