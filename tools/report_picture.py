"""The pictures of a report, as SVG with text: exceedance curves, and bars. No program; tools/report imports it.

A picture is 440 units wide, so that its text can be read on a page of 400 pixels, and has a title and a description for those who hear it.
"""
import math
import unicodedata
from html import escape
from typing import NamedTuple

WIDTH = 440
FONT = 14           # the size of its text
LETTER = 8.6        # no letter of a number is wider, on average, at that size
POINTS = 60         # so many return periods a picture has
LINES = 12          # so many lines a picture has, each with its own colour and mark
COLOURS = ["#1b5e9e", "#b34700", "#1e7d32", "#a3123a", "#6a3d9a", "#7a5200", "#c2185b", "#006d77", "#4d4d4d", "#3949ab", "#5d7300", "#8e24aa"]
MARKS = ["M{x} {y}m-4 0a4 4 0 1 0 8 0a4 4 0 1 0-8 0z", "M{x} {y}m-3.5-3.5h7v7h-7z", "M{x} {y}m0-5l5 9h-10z", "M{x} {y}m0-5l5 5-5 5-5-5z"]
UNITS = [(10**11, "thousand million"), (10**8, "million"), (10**5, "thousand"), (100, "")]
ROW = 27            # the height of a bar with its room
LEFT, RIGHT, TOP, BOTTOM = 62, 40, 34, 50
HEIGHT = 300


class Line(NamedTuple):
    """A curve of a picture."""
    name: str
    style: int
    points: list        # (return period, cents), the shortest first


class Bar(NamedTuple):
    name: str
    style: int
    cents: int


def mark(style, x, y):
    return MARKS[style % len(MARKS)].format(x=number(x), y=number(y))


def number(value):
    """A place in a picture, to a tenth."""
    return f"{value:.1f}".rstrip("0").rstrip(".")


def key(style):
    """The mark and the colour of a line, beside its name."""
    return (f'<svg class="key" width="26" height="14" viewBox="0 0 26 14" aria-hidden="true" focusable="false">'
            f'<path class="c{style}" d="M0 7H26"/><path class="d{style}" d="{mark(style, 13, 7)}"/></svg>')


def style_rules():
    """The rules of the colours."""
    return "".join(f".c{at}{{stroke:{colour}}}.d{at}{{fill:{colour}}}" for at, colour in enumerate(COLOURS))


def unit_of(cents):
    """The unit that fits amounts up to this one: its size in cents and its name."""
    return next((unit for unit in UNITS if cents >= unit[0]), UNITS[-1])


def steps_to(greatest):
    """The marks of an axis from 0 to a value: at most six, at round values, the last at it or above."""
    if greatest <= 0:
        return [0, 1]
    power = 10 ** math.floor(math.log10(greatest / 5))
    step = next(power * factor for factor in (1, 2, 2.5, 5, 10) if power * factor * 5 >= greatest)
    return [step * at for at in range(math.ceil(greatest / step - 1e-9) + 1)]


def plain(value):
    """A value at an axis."""
    return f"{value:,.10g}" if value < 1e6 else f"{value:,.0f}"


def amount_text(unit, currency):
    """What an axis of losses counts in."""
    return "loss" + "".join(f", {text}" for text in [" ".join(filter(None, [unit, currency]))] if text)


def framed(ident, height, title, description, content):
    return (f'<svg class="picture" role="img" aria-labelledby="{ident}-t {ident}-d" viewBox="0 0 {WIDTH} {height}">'
            f'<title id="{ident}-t">{escape(title)}</title><desc id="{ident}-d">{escape(description)}</desc>{content}</svg>')


def text(x, y, content, kind=""):
    return f'<text x="{number(x)}" y="{number(y)}"{kind and f" class={chr(34)}{kind}{chr(34)}"}>{escape(content)}</text>'


def spread(periods, place):
    """The return periods that have room for their numbers, from the greatest down."""
    kept, free = [], math.inf
    for period in sorted(periods, reverse=True):
        half = len(f"{period:,}") * LETTER / 2
        if place(period) + half + 6 <= free:
            kept.append(period)
            free = place(period) - half
    return kept


def curves(ident, title, lines, currency):
    """Exceedance curves: a point where a loss is known, and steps between, for there the loss is at least that of the point before."""
    known = sorted({period for line in lines for period, _ in line.points})
    periods = thinned(known)
    kept = set(periods)
    lines = [line._replace(points=[point for point in line.points if point[0] in kept]) for line in lines]
    greatest = max((cents for line in lines for _, cents in line.points), default=0)
    if not periods:
        return framed(ident, 80, title, "There are no losses.", text(WIDTH / 2, 45, "no losses", "m"))
    size, unit = unit_of(greatest)
    ticks = steps_to(greatest / size)
    right, bottom = WIDTH - RIGHT, HEIGHT - BOTTOM
    low, high = math.log(periods[0]), math.log(periods[-1])

    def across(period):
        return (LEFT + 12 + (right - LEFT - 12) * (math.log(period) - low) / (high - low)) if high > low else (LEFT + right) / 2

    def up(cents):
        return bottom - (bottom - TOP) * cents / size / ticks[-1]

    parts = [text(2, 16, amount_text(unit, currency))]
    for tick in ticks:
        y = up(tick * size)
        parts.append(f'<path class="g" d="M{LEFT} {number(y)}H{right}"/>' + text(LEFT - 6, y + 5, plain(tick), "e"))
    for period in spread(periods, across):
        x = across(period)
        parts.append(f'<path class="a" d="M{number(x)} {bottom}v5"/>' + text(x, bottom + 20, f"{period:,}", "m"))
    parts.append(text((LEFT + right) / 2, HEIGHT - 6, axis_text(len(periods), len(known)), "m"))
    for line in reversed(lines):
        places = [(number(across(period)), number(up(cents))) for period, cents in line.points]
        path = "".join(f"M{x} {y}" if not at else f"H{x}V{y}" for at, (x, y) in enumerate(places))
        marks = "".join(mark(line.style, across(period), up(cents)) for period, cents in line.points)
        parts.append(f'<path class="s c{line.style}" d="{path}"/><path class="d{line.style}" d="{marks}"/>')
    return framed(ident, HEIGHT, title, described(lines, currency), "".join(parts))


def thinned(periods):
    """Of many return periods those that are some way apart on the axis, the least and the greatest among them."""
    if len(periods) <= POINTS:
        return periods
    apart, kept = math.log(periods[-1] / periods[0]) / (POINTS - 2), periods[:1]
    for period in periods[1:-1]:
        if math.log(period / kept[-1]) >= apart:
            kept.append(period)
    return kept + periods[-1:]


def axis_text(shown, known):
    """What the axis of return periods counts in, and how many of them the picture leaves out."""
    return f"return period (logarithmic), {shown} of {known:,} shown" if shown < known else "return period, in periods (logarithmic)"


def described(lines, currency):
    """What a picture of curves shows, in words: the two ends of each."""
    return " ".join(f"{line.name}: from {money(line.points[0][1], currency)} at return period {line.points[0][0]:,} to "
                    f"{money(line.points[-1][1], currency)} at {line.points[-1][0]:,}." if line.points else f"{line.name}: no losses."
                    for line in lines)


def money(cents, currency=""):
    """An amount, with each three digits set apart."""
    return f"{cents // 100:,}.{cents % 100:02}" + (f" {currency}" if currency else "")


def bars(ident, title, rows, currency):
    """Amounts as bars from 0, each with its name and its amount."""
    greatest = max((row.cents for row in rows), default=0)
    size, unit = unit_of(greatest)
    left, right = 150, WIDTH - 76
    parts = [text(2, 16, amount_text(unit, currency))]
    for at, row in enumerate(rows):
        y = TOP + at * ROW
        width = (right - left) * row.cents / greatest if greatest else 0
        shown = row.cents / size
        parts.append(text(left - 8, y + 15, shortened(row.name, left - 12), "e") +
                     f'<path class="d{row.style}" d="M{left} {y}h{number(width)}v20h-{number(width)}z"/>' +
                     text(left + width + 6, y + 15, f"{shown:,.2f}" if shown < 1000 else f"{shown:,.0f}"))
    parts.append(f'<path class="a" d="M{left} {TOP - 4}V{TOP + len(rows) * ROW}"/>')
    said = " ".join(f"{row.name}: {money(row.cents, currency)}." for row in rows) or "There are no losses."
    return framed(ident, TOP + len(rows) * ROW + 6, title, said, "".join(parts))


def shortened(name, room):
    """As much of a name as has room."""
    if sum(map(letter_width, name)) <= room:
        return name
    while name and sum(map(letter_width, name + "…")) > room:
        name = name[:-1]
    return name.rstrip() + "…"


def letter_width(letter):
    """No less than what a letter takes, in the fonts that browsers have for it."""
    if unicodedata.east_asian_width(letter) in "WF":
        return FONT
    return 14 if letter in "MW@%" else 11 if letter.isupper() or letter in "mw" else LETTER
