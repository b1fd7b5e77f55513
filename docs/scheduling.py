#!/usr/bin/env python3
"""Draws scheduling.svg: one chart, its lower envelope, and each operator's slope.

Run it as `python3 docs/scheduling.py`. It writes the picture beside itself, from the numbers below.
"""
from fractions import Fraction
from pathlib import Path

FULL_SIZE = 1_000_000
OPERATORS = [("Window", 1, 900_000), ("Project", 1, 100_000), ("ToStream", 1, 0)]

WIDTH, HEIGHT = 720, 440
LEFT, RIGHT, TOP, BOTTOM = 96, 200, 64, 80

INK, PALE, ENVELOPE, CHART = "#222222", "#d9d9d9", "#0b6e4f", "#b3541e"


def chart_points():
    """The points of time and size, from the full size at the time 0."""
    points = [(0, FULL_SIZE)]
    for _, cost, size in OPERATORS:
        points.append((points[-1][0] + cost, size))
    return points


def descent(earlier, later):
    """The size that is lost over the time that it takes."""
    return Fraction(earlier[1] - later[1], later[0] - earlier[0])


def lower_envelope(points):
    """From the first point each time to a later point of steepest descent."""
    envelope, place = [points[0]], 0
    while place + 1 < len(points):
        later = range(place + 1, len(points))
        place = max(later, key=lambda i: (descent(points[place], points[i]), i))
        envelope.append(points[place])
    return envelope


def slope_over(envelope, time):
    """The descent of the segment above the step that ends at this time."""
    for earlier, later in zip(envelope, envelope[1:]):
        if time <= later[0]:
            return descent(earlier, later)
    raise ValueError("no segment ends so late")


def picture(points, envelope):
    """The lines of the drawing."""
    last = points[-1][0]

    def x(time):
        return LEFT + (WIDTH - LEFT - RIGHT) * time / last

    def y(size):
        return TOP + (HEIGHT - TOP - BOTTOM) * (FULL_SIZE - size) / FULL_SIZE

    def text(at_x, at_y, words, anchor="middle", color=INK, weight="normal"):
        return (f'<text x="{at_x:.1f}" y="{at_y:.1f}" text-anchor="{anchor}" fill="{color}" '
                f'font-weight="{weight}">{words}</text>')

    def line(of_points, color, extra):
        places = " ".join(f"{x(t):.1f},{y(s):.1f}" for t, s in of_points)
        return f'<polyline points="{places}" fill="none" stroke="{color}" {extra}/>'

    out = [
        f'<svg xmlns="http://www.w3.org/2000/svg" viewBox="0 0 {WIDTH} {HEIGHT}" '
        f'width="{WIDTH}" height="{HEIGHT}" '
        'font-family="sans-serif" font-size="13">',
        "<title>A chart, its lower envelope, and the slopes of three operators</title>",
        f'<rect width="{WIDTH}" height="{HEIGHT}" fill="white"/>',
    ]
    for size in range(0, FULL_SIZE + 1, FULL_SIZE // 5):
        out.append(f'<line x1="{x(0):.1f}" y1="{y(size):.1f}" x2="{x(last):.1f}" '
                   f'y2="{y(size):.1f}" stroke="{PALE}"/>')
        out.append(text(x(0) - 10, y(size) + 4, f"{size:,}", "end"))
    for time, _ in points:
        out.append(f'<line x1="{x(time):.1f}" y1="{y(FULL_SIZE):.1f}" x2="{x(time):.1f}" '
                   f'y2="{y(0):.1f}" stroke="{PALE}"/>')
        out.append(text(x(time), y(0) + 18, str(time)))
    for (name, _, _), earlier, later in zip(OPERATORS, points, points[1:]):
        middle = (x(earlier[0]) + x(later[0])) / 2
        slope = slope_over(envelope, later[0])
        out.append(text(middle, y(0) + 36, name, weight="bold"))
        of_it = f"slope {slope.numerator}/{slope.denominator}"
        out.append(text(middle, y(0) + 54, of_it, color=ENVELOPE))
    out.append(text(x(last) + 14, y(0) + 18, "time, in units of cost", "start"))
    out.append(text(20, y(FULL_SIZE) - 40, "size, in millionths", "start"))
    out.append(line(points, CHART, 'stroke-width="1.5" stroke-dasharray="5 4"'))
    out.append(line(envelope, ENVELOPE, 'stroke-width="3"'))
    for time, size in points:
        on_it = (time, size) in envelope
        fill = ENVELOPE if on_it else "white"
        out.append(f'<circle cx="{x(time):.1f}" cy="{y(size):.1f}" r="5" fill="{fill}" '
                   f'stroke="{ENVELOPE if on_it else CHART}" stroke-width="2"/>')
        out.append(text(x(time) + 10, y(size) - 9, f"({time}, {size})", "start"))
    for words, color, extra, at_y in [
        ("lower envelope", ENVELOPE, 'stroke-width="3"', TOP + 44),
        ("chart", CHART, 'stroke-width="1.5" stroke-dasharray="5 4"', TOP + 66),
    ]:
        out.append(f'<line x1="{WIDTH - 160}" y1="{at_y - 4}" x2="{WIDTH - 124}" '
                   f'y2="{at_y - 4}" stroke="{color}" {extra}/>')
        out.append(text(WIDTH - 116, at_y, words, "start"))
    return out + ["</svg>"]


if __name__ == "__main__":
    chart = chart_points()
    target = Path(__file__).with_suffix(".svg")
    target.write_text("\n".join(picture(chart, lower_envelope(chart))) + "\n")
