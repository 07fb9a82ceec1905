"""The picture of tools/convergence, as one SVG with text: errors by numbers of samples, and an exceedance curve with its error.

No program; tools/convergence imports it.
"""
import math
from html import escape

from report_picture import COLOURS, LETTER, number, plain, spread, steps_to, text, unit_of

WIDTH, PANEL, LEFT, RIGHT, TOP, BOTTOM = 640, 330, 80, 30, 60, 54
FONT = "font-family:sans-serif;font-size:14px"


def picture(summaries, samples):
    """Of the first summary with the greatest average annual loss: its error by samples, in each perspective of its set; and its
    curve in the last of them."""
    first = max(summaries, key=lambda one: (one.average, -one.number))
    same = [one for one in summaries if (one.number, one.summary) == (first.number, first.summary)]
    last = same[-1]
    parts = errors(same, samples) + [f'<g transform="translate(0 {PANEL})">', *curve(last, samples), "</g>"]
    title = f"Errors by sampling: set {first.number}, summary {first.summary}" + (f" ({first.label})" if first.label else "")
    return (f'<svg xmlns="http://www.w3.org/2000/svg" role="img" aria-labelledby="t d" viewBox="0 0 {WIDTH} {2 * PANEL}" width="{WIDTH}" '
            f'height="{2 * PANEL}" style="{FONT}"><title id="t">{escape(title)}</title><desc id="d">{escape(described(same, last, samples))}'
            f'</desc><style>.m{{text-anchor:middle}}.e{{text-anchor:end}}</style><path d="M0 0H{WIDTH}V{2 * PANEL}H0z" fill="#fff"/>'
            + "".join(parts) + "</svg>\n")


def described(same, last, samples):
    """What the picture shows, in words."""
    said = []
    for one in same:
        errors_ = [point for point in one.points if point.measure == "aal" and point.error is not None]
        said += [f"{one.perspective}: with {point.samples:,} samples the standard error of the average annual loss is {point.error / 100:,.2f}."
                 for point in errors_[:1] + errors_[1:][-1:]] or [f"{one.perspective}: no error is known."]
    said += [f"{last.perspective}, return period {point.period:,}: {point.mean / 100:,.2f}." for point in curve_points(last, samples)]
    return " ".join(said)


def curve_points(one, samples):
    return [point for point in one.points if point.measure == "aep" and point.samples == samples]


def scale(low, high):
    """A place across for a value, by its logarithm."""
    def across(value):
        if high <= low:
            return (LEFT + WIDTH - RIGHT) / 2
        return LEFT + 14 + (WIDTH - RIGHT - LEFT - 14) * (math.log(value) - math.log(low)) / (math.log(high) - math.log(low))
    return across


def frame(title, unit, ticks, up, marks, across, below):
    """The axes of a panel."""
    bottom = PANEL - BOTTOM
    parts = [text(LEFT, 20, title), text(4, 44, unit)]
    for tick in ticks:
        y = up(tick)
        parts.append(f'<path d="M{LEFT} {number(y)}H{WIDTH - RIGHT}" stroke="#ddd"/>' + text(LEFT - 8, y + 5, plain(tick), "e"))
    for mark in spread(marks, across):
        x = number(across(mark))
        parts.append(f'<path d="M{x} {bottom}v5" stroke="#333"/>' + text(across(mark), bottom + 22, f"{mark:,}", "m"))
    parts.append(text((LEFT + WIDTH - RIGHT) / 2, PANEL - 8, below, "m"))
    return parts


def errors(same, samples):
    """The standard error of the average annual loss in each perspective, as a percentage of it."""
    lines = {one.perspective: [(point.samples, 100 * point.error / one.average) for point in one.points
                               if point.measure == "aal" and point.error is not None and one.average] for one in same}
    known = sorted({count for line in lines.values() for count, _ in line})
    title = "Standard error of the average annual loss"
    if not known:
        return [text(LEFT, 20, title), text(WIDTH / 2, PANEL / 2, f"not known for {samples:,} samples", "m")]
    ticks = steps_to(max(value for line in lines.values() for _, value in line))
    up, across = upward(ticks), scale(known[0], known[-1])
    parts = frame(title, "% of it", ticks, up, known, across, "samples (logarithmic)")
    right = WIDTH - RIGHT
    for at, (name, line) in reversed(list(enumerate(lines.items()))):
        path = "".join(f"{'L' if place else 'M'}{number(across(count))} {number(up(value))}" for place, (count, value) in enumerate(line))
        dots = "".join(f'<circle cx="{number(across(count))}" cy="{number(up(value))}" r="4" fill="{COLOURS[at]}"/>' for count, value in line)
        parts.append(f'<path d="{path}" fill="none" stroke="{COLOURS[at]}" stroke-width="2"/>{dots}' if path else "")
        parts.append(f'<circle cx="{number(right - 30)}" cy="39" r="4" fill="{COLOURS[at]}"/>' + text(right - 22, 44, name))
        right -= 44 + len(name) * LETTER
    return parts


def upward(ticks):
    """A place for a value, upward from the lower axis."""
    return lambda value: PANEL - BOTTOM - (PANEL - BOTTOM - TOP) * value / ticks[-1]


def curve(one, samples):
    """The mean of the samples' curves of whole periods, its interval, and the least and greatest of them."""
    points = curve_points(one, samples)
    title = f"Losses of whole periods: {one.perspective}, {samples:,} samples"
    if not points:
        return [text(LEFT, 20, title), text(WIDTH / 2, PANEL / 2, "no return period has a loss", "m")]
    greatest = max(max(point.greatest, *(point.interval or (0,))) for point in points)
    size, unit = unit_of(greatest)
    ticks = steps_to(greatest / size)
    up, across = upward(ticks), scale(points[0].period, points[-1].period)
    parts = frame(title, f"loss, {unit}".rstrip(", "), ticks, up, [point.period for point in points], across,
                  "return period; bar: 95 %, thin: least and greatest sample")
    for point in points:
        x = number(across(point.period))
        parts.append(f'<path d="M{x} {number(up(point.least / size))}V{number(up(point.greatest / size))}" stroke="#777"/>')
        if point.interval:
            low, high = point.interval
            parts.append(f'<path d="M{x} {number(up(low / size))}V{number(up(high / size))}" stroke="{COLOURS[0]}" stroke-width="7" '
                         'stroke-opacity="0.5"/>')
        parts.append(f'<circle cx="{x}" cy="{number(up(point.mean / size))}" r="4" fill="{COLOURS[0]}"/>')
    return parts
