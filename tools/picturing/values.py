"""Lines of values as bands over the days: an SVG picture.

Each change has its day written below its band. A band that is too narrow for its value has it beside its day, and one that is narrower
than a few points is drawn that wide and higher than its neighbours, so that a single day is seen. A number is the darker, the greater
it is in its row. The legend has what occurs, and nothing else.
"""
from __future__ import annotations

import dataclasses
import html
from collections.abc import Iterator

from .reading import Day, Fault, Pairs, lines_of_values

LEFT, WIDTH, RIGHT, BAND = 250, 760, 40, 26
NARROWEST, LETTER, SMALL, LANE = 4.0, 7.2, 6.2, 13
COLOURS = {"true": "#2b8a6e", "false": "#d9d9d9", "unknown": "#ffffff", "uncertain": "#f2cf63"}
SAID = {"true": "true", "false": "false", "unknown": "unknown: not answered yet", "uncertain": "uncertain: there is no value"}
BLUES = ("#deebf7", "#c6dbef", "#9ecae1", "#6baed6", "#4292c6", "#2171b5")
DARK = ("#2b8a6e", "#4292c6", "#2171b5")
OTHER = "#c6dbef"


@dataclasses.dataclass
class Segment:
    """A run of days with one value, as far as it is in the picture; and whether it goes on to its left and right."""

    begin: Day
    end: Day
    value: str
    before: bool
    after: bool


def segments(pairs: Pairs, first: Day, last: Day) -> list[Segment]:
    found = []
    for place, (day, value) in enumerate(pairs):
        until = pairs[place + 1][0] if place + 1 < len(pairs) else None
        begin = max(first, day) if day else first
        end = min(last, until) if until else last
        if begin < end:
            found.append(Segment(begin, end, value, day is None or day < first, until is None or until > last))
    return found


def number_of(value: str) -> float | None:
    try:
        return float(value)
    except ValueError:
        return None


def shades(row: list[Segment]) -> dict[str, str]:
    """The colour of each value of a row: numbers from pale to dark by their size."""
    numbers = sorted({float(s.value) for s in row if number_of(s.value) is not None})
    colours = {}
    for segment in row:
        number = number_of(segment.value)
        if segment.value in COLOURS:
            colours[segment.value] = COLOURS[segment.value]
        elif number is None:
            colours[segment.value] = OTHER
        else:
            place = numbers.index(number) * (len(BLUES) - 1) // max(1, len(numbers) - 1)
            colours[segment.value] = BLUES[place]
    return colours


def label(x: float, y: float, text: str, extra: str = "") -> str:
    return f'<text x="{x:.1f}" y="{y:.1f}"{extra}>{html.escape(text)}</text>'


def box(x: float, y: float, width: float, height: float, fill: str, dashed: bool) -> str:
    dash = ' stroke-dasharray="3 2"' if dashed else ""
    return f'<rect x="{x:.1f}" y="{y:.1f}" width="{width:.1f}" height="{height}" fill="{fill}" stroke="#555" stroke-width="0.7"{dash}/>'


def arrow(x: float, y: float, way: int) -> str:
    """A small arrow head: the value goes on beyond the picture."""
    return f'<path d="M{x:.1f} {y - 5:.1f} l{7 * way} 5 l{-7 * way} 5 z" fill="#555"/>'


def step_of(years: int) -> int:
    return next((step for step in (1, 2, 5, 10, 20, 50, 100) if years / step <= 16), 200)


def wrapped(words: str, most: int) -> list[str]:
    """The words on as many lines as they need."""
    lines = [""]
    for word in words.split(" "):
        if lines[-1] and len(lines[-1]) + 1 + len(word) > most:
            lines.append(word)
        else:
            lines[-1] = f"{lines[-1]} {word}".strip()
    return lines


class Row:
    """A point's band, and the days of its changes below it, on as many lanes as they need."""

    def __init__(self, words: str, pairs: Pairs, first: Day, last: Day):
        self.words = wrapped(words, 34)
        self.segments = segments(pairs, first, last)
        self.colours = shades(self.segments)
        self.at = lambda day: LEFT + WIDTH * (day - first).days / (last - first).days
        self.days: list[tuple[float, float, int, str]] = []
        ends: list[float] = []
        for segment in self.segments:
            fits = self.fits(segment)
            if segment.before and fits:
                continue
            text = "" if segment.before else str(segment.begin)
            text += "" if fits else f"{': ' if text else ''}{segment.value}"
            x = self.at(segment.begin)
            start = min(x + 2, LEFT + WIDTH + RIGHT - 8 - SMALL * len(text))
            lane = next((n for n, end in enumerate(ends) if end < start), len(ends))
            ends[lane : lane + 1] = [start + SMALL * len(text) + 6]
            self.days.append((x, start, lane, text))
        self.height = max(BAND + 8 + LANE * len(ends) + 10, 14 * len(self.words) + 12)

    def fits(self, segment: Segment) -> bool:
        return self.at(segment.end) - self.at(segment.begin) > LETTER * len(segment.value) + 6

    def drawn(self, top: float) -> Iterator[str]:
        for number, words in enumerate(self.words):
            yield label(LEFT - 14, top + 17.5 + 14 * (number - (len(self.words) - 1) / 2), words, ' text-anchor="end"')
        for x, start, lane, text in self.days:
            y = top + BAND + 13 + LANE * lane
            yield f'<path d="M{x:.1f} {top + BAND} V{y - 3:.1f} H{start - 1:.1f}" fill="none" stroke="#777" stroke-width="0.8"/>'
            yield label(start, y, text, ' font-size="10" fill="#333"')
        narrow = [s for s in self.segments if self.at(s.end) - self.at(s.begin) < NARROWEST]
        for segment in [s for s in self.segments if s not in narrow] + narrow:
            left, right = self.at(segment.begin), self.at(segment.end)
            fill, dashed = self.colours[segment.value], segment.value == "unknown"
            if segment in narrow:
                yield box(left, top - 4, NARROWEST, BAND + 8, fill, dashed)
                continue
            yield box(left, top, right - left, BAND, fill, dashed)
            if self.fits(segment):
                colour = "#fff" if fill in DARK else "#222"
                yield label((left + right) / 2, top + 17.5, segment.value, f' text-anchor="middle" fill="{colour}"')
        if self.segments and self.segments[0].before:
            yield arrow(LEFT - 1, top + BAND / 2, -1)
        if self.segments and self.segments[-1].after:
            yield arrow(LEFT + WIDTH + 1, top + BAND / 2, 1)


def span(found: dict[str, tuple[Pairs, str | None]], first: Day | None, last: Day | None) -> tuple[Day, Day]:
    days = [day for pairs, _ in found.values() for day, _ in pairs if day]
    first = first or Day((min(days).year if days else 2024), 1, 1)
    last = last or Day(min(9998, max(days).year if days else 2024) + 1, 1, 1)
    if last <= first:
        raise Fault(f"--to {last} isn't after --from {first}")
    return first, last


def legend(rows: list[Row], top: float) -> Iterator[str]:
    """What occurs in the rows, and nothing else."""
    values = {segment.value for row in rows for segment in row.segments}
    items = [(COLOURS[value], SAID[value], value == "unknown") for value in COLOURS if value in values]
    x = float(LEFT)
    for fill, words, dashed in items:
        yield box(x, top, 18, 14, fill, dashed)
        yield label(x + 24, top + 12, words)
        x += 24 + LETTER * len(words) + 20
    if any(number_of(value) is not None for value in values):
        for place, fill in enumerate(BLUES[::2]):
            yield box(x + 9 * place, top, 9, 14, fill, False)
        yield label(x + 33, top + 12, "a number: the darker, the greater in its row")


def values_picture(text: str, where: str, first: Day | None, last: Day | None, title: str | None) -> str:
    found = lines_of_values(text, where)
    first, last = span(found, first, last)
    rows = [Row(point + (f" ({state})" if state else ""), pairs, first, last) for point, (pairs, state) in found.items()]
    head = title or f"{where.rpartition('/')[2]}: values from {first} to before {last}"
    bottom = 62 + sum(row.height for row in rows)
    parts = [label(14, 22, head, ' font-size="15" font-weight="bold"')]
    at = lambda day: LEFT + WIDTH * (day - first).days / (last - first).days
    for year in range(first.year, last.year + 1, step_of(last.year - first.year + 1)):
        day = Day(year, 1, 1)
        if first <= day <= last:
            parts.append(f'<line x1="{at(day):.1f}" y1="50" x2="{at(day):.1f}" y2="{bottom:.1f}" stroke="#ccc" stroke-width="0.7"/>')
            parts.append(label(at(day), 45, str(year), ' text-anchor="middle" fill="#555"'))
    top = 62.0
    for row in rows:
        parts += row.drawn(top)
        top += row.height
    parts += legend(rows, bottom + 6)
    style = 'font-family="DejaVu Sans, Arial, sans-serif" font-size="12" fill="#222"'
    width, height = LEFT + WIDTH + RIGHT, bottom + 34
    said = f'<title>{html.escape(head)}</title>'
    opening = f'<svg xmlns="http://www.w3.org/2000/svg" role="img" width="{width}" height="{height:.0f}" viewBox="0 0 {width} {height:.0f}" {style}>'
    return "\n".join([opening, said, '<rect width="100%" height="100%" fill="#fff"/>', *parts, "</svg>"]) + "\n"
