"""What the pictures of docs/pictures are drawn with: boxes, lines of text that fit into them, arrows.

A text of class "name" is one that tools/names looks for.
"""
import os
from xml.sax.saxutils import escape

ROOT = os.path.join(os.path.dirname(os.path.abspath(__file__)), "..", "..")
WORDS = "DejaVu Sans, Verdana, sans-serif"
NAMES = "DejaVu Sans Mono, Menlo, Consolas, monospace"
INK, GREY, BLUE, RED = "#1f2328", "#57606a", "#0550ae", "#a40e26"
# Widths in parts of the size of type, as DejaVu Sans has them; other families are narrower.
NARROW, WIDE, NAME = 0.36, 0.86, 0.603


def width_of(text, size, name=False, bold=False):
    """About how wide a text is, at least."""
    if name:
        return NAME * size * len(text)
    letters = sum(NARROW if c in " ijl.,:;'|!()" else WIDE if c in "mwMWQO" else 0.64 for c in text)
    return letters * size * (1.1 if bold else 1)


class Picture:
    """A picture that is drawn from its upper left corner on."""

    def __init__(self, width, height):
        self.width, self.height, self.parts = width, height, []
        self.box(0, 0, width, height, "#ffffff", "none")

    def box(self, x, y, w, h, fill, stroke="#8c959f"):
        """A box with round corners."""
        self.parts.append(f'<rect x="{x}" y="{y}" width="{w}" height="{h}" rx="5" fill="{fill}" stroke="{stroke}"/>')

    def text(self, x, y, text, size=11, ink=INK, name="", bold=False, room=None, end=False):
        """A line of text that has this much room; a name has its class."""
        if room is not None and width_of(text, size, name, bold) > room:
            raise SystemExit(f"no room for '{text}': {width_of(text, size, name, bold):.0f} of {room}")
        kind = f'font-family="{NAMES}" class="{name}"' if name else f'font-family="{WORDS}"'
        more = ' font-weight="bold"' if bold else ""
        more += ' text-anchor="end"' if end else ""
        self.parts.append(f'<text x="{x}" y="{y}" font-size="{size}" fill="{ink}" {kind}{more}>{escape(text)}</text>')

    def names(self, x, y, names, room, size=11, ink=INK, step=15, kind="name"):
        """Names one after another, in as many lines as they need; returns where the next line goes."""
        line = ""
        for name in names:
            longer = f"{line} · {name}" if line else name
            if line and width_of(longer, size, True) > room:
                self.text(x, y, line, size, ink, name=kind, room=room)
                longer, y = name, y + step
            line = longer
        self.text(x, y, line, size, ink, name=kind, room=room)
        return y + step

    def arrow(self, x, y, to_x, to_y, ink=GREY):
        """A line with a head at its end, straight down, up or across."""
        away = (to_x > x) - (to_x < x), (to_y > y) - (to_y < y)
        left = to_x - 6 * away[0] - 4 * away[1], to_y - 6 * away[1] - 4 * away[0]
        right = to_x - 6 * away[0] + 4 * away[1], to_y - 6 * away[1] + 4 * away[0]
        self.parts.append(f'<path d="M{x} {y}L{to_x} {to_y}" stroke="{ink}" stroke-width="1.5" fill="none"/>')
        points = f"{to_x},{to_y} {left[0]},{left[1]} {right[0]},{right[1]}"
        self.parts.append(f'<polygon points="{points}" fill="{ink}"/>')

    def svg(self):
        """The picture's text."""
        head = f'<svg xmlns="http://www.w3.org/2000/svg" width="{self.width}" height="{self.height}"'
        head += f' viewBox="0 0 {self.width} {self.height}">'
        return "\n".join([head, *self.parts, "</svg>", ""])

    def save(self, file):
        """Writes the picture to docs/pictures."""
        with open(os.path.join(ROOT, "docs", "pictures", file), "w", encoding="utf-8") as out:
            out.write(self.svg())

    def is_saved(self, file):
        """Whether docs/pictures has exactly this picture."""
        path = os.path.join(ROOT, "docs", "pictures", file)
        if not os.path.exists(path):
            return False
        with open(path, encoding="utf-8") as there:
            return there.read() == self.svg()
