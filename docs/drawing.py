"""What the pictures of this folder are drawn with: words, lines, boxes, as the text of an SVG."""
from html import escape
from pathlib import Path

INK, GREY, PALE, PAPER = "#222222", "#767676", "#d9d9d9", "#f4f4f4"
GREEN, LIGHT_GREEN = "#0b6e4f", "#d8efe6"
ORANGE, LIGHT_ORANGE = "#b3541e", "#f7e3d6"
RED = "#b00020"


class Drawing:
    """A picture of a width and a height, whose parts are drawn in the order of the calls."""

    def __init__(self, width, height, title):
        self.parts = [
            f'<svg xmlns="http://www.w3.org/2000/svg" viewBox="0 0 {width} {height}" '
            f'width="{width}" height="{height}" font-family="sans-serif" font-size="13">',
            f"<title>{escape(title)}</title>",
            f'<rect width="{width}" height="{height}" fill="white"/>',
        ]

    def text(self, x, y, words, anchor="middle", color=INK, weight="normal", size=13,
             family=None):
        """Words whose base line begins, ends or has its middle at a point."""
        font = f' font-family="{family}"' if family else ""
        self.parts.append(f'<text x="{x:.1f}" y="{y:.1f}" text-anchor="{anchor}" fill="{color}" '
                          f'font-weight="{weight}" font-size="{size}"{font}>{escape(words)}</text>')

    def code(self, x, y, words, anchor="middle", color=INK, size=12):
        """Words as code."""
        self.text(x, y, words, anchor, color, size=size, family="monospace")

    def line(self, points, color=INK, width=1.5, dashed=False, head=False):
        """A line through points, dashed or with a head at its end."""
        places = " ".join(f"{x:.1f},{y:.1f}" for x, y in points)
        dashes = ' stroke-dasharray="5 4"' if dashed else ""
        self.parts.append(f'<polyline points="{places}" fill="none" stroke="{color}" '
                          f'stroke-width="{width}"{dashes}/>')
        if head:
            (x0, y0), (x, y) = points[-2:]
            length = ((x - x0) ** 2 + (y - y0) ** 2) ** 0.5
            ux, uy = (x - x0) / length, (y - y0) / length
            back_x, back_y = x - 9 * ux, y - 9 * uy
            corners = [(x, y), (back_x - 4 * uy, back_y + 4 * ux),
                       (back_x + 4 * uy, back_y - 4 * ux)]
            places = " ".join(f"{a:.1f},{b:.1f}" for a, b in corners)
            self.parts.append(f'<polygon points="{places}" fill="{color}"/>')

    def box(self, x, y, width, height, fill="white", color=INK, stroke=1.5, round=4,
            dashed=False):
        """A box from its upper left corner."""
        dashes = ' stroke-dasharray="5 4"' if dashed else ""
        self.parts.append(f'<rect x="{x:.1f}" y="{y:.1f}" width="{width:.1f}" '
                          f'height="{height:.1f}" rx="{round}" fill="{fill}" stroke="{color}" '
                          f'stroke-width="{stroke}"{dashes}/>')

    def dot(self, x, y, radius, fill, color, dashed=False):
        """A circle round a point."""
        dashes = ' stroke-dasharray="3 2"' if dashed else ""
        self.parts.append(f'<circle cx="{x:.1f}" cy="{y:.1f}" r="{radius}" fill="{fill}" '
                          f'stroke="{color}" stroke-width="1.5"{dashes}/>')

    def write(self, script):
        """Writes the picture beside the script that draws it, under its name."""
        Path(script).with_suffix(".svg").write_text("\n".join(self.parts + ["</svg>"]) + "\n")
