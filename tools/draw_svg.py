"""Writes pictures in SVG: boxes of lines of text, and lines between them. All texts are escaped, and nothing is named
that a browser would load or run."""

import unicodedata
from xml.sax.saxutils import escape, quoteattr

from flow_queries import readable

FONT = "ui-monospace, Menlo, Consolas, 'DejaVu Sans Mono', monospace"
TEXT_SIZE, LINE = 12, 16
# Of a character of that font, in pixels.
CHARACTER = 7.3
PADDING = 8
MARGIN = 24


def columns(text):
    """How wide a text is, in characters of a font in which all but the wide ones have one width."""
    return sum(2 if unicodedata.east_asian_width(character) in "WF" else 0 if unicodedata.combining(character) else 1
               for character in text)


def cut(text, most):
    """A text in a line, which is cut where it is too wide."""
    text = readable(text)
    if columns(text) <= most:
        return text
    while columns(text) > most - 1:
        text = text[:-1]
    return text + "…"


def width_of(lines):
    return max((columns(line) for line, _ in lines), default=0) * CHARACTER + 2 * PADDING


def height_of(lines):
    return len(lines) * LINE + 2 * PADDING


def number(value):
    return f"{value:.1f}".rstrip("0").rstrip(".")


class Picture:
    """Pieces of an SVG, and the styles of their classes."""

    def __init__(self, style):
        self.style = style
        self.pieces = []

    def add(self, piece):
        self.pieces.append(piece)

    def box(self, names, left, top, size, lines, title=""):
        """A box of some width and height, with lines of text, each with its class. `names` are its attributes."""
        width, height = size
        attributes = "".join(f" {name}={quoteattr(readable(value))}" for name, value in names.items())
        self.add(f"<g{attributes}>")
        if title:
            self.add(f"<title>{escape(title)}</title>")
        self.add(f'<rect x="{number(left)}" y="{number(top)}" width="{number(width)}" height="{number(height)}" '
                 'rx="5"/>')
        for place, (line, kind) in enumerate(lines):
            y = top + PADDING + place * LINE + 12
            self.add(f'<text class="{kind}" x="{number(left + PADDING)}" y="{number(y)}">{escape(line)}</text>')
        self.add("</g>")

    def path(self, names, drawn):
        attributes = "".join(f" {name}={quoteattr(readable(value))}" for name, value in names.items())
        self.add(f'<path{attributes} d="{drawn}"/>')

    def text(self, kind, x, y, text):
        self.add(f'<text class="{kind}" x="{number(x)}" y="{number(y)}">{escape(readable(text))}</text>')

    def written(self, width, height, title):
        """The whole picture, to be encoded in UTF-8."""
        size = f'width="{number(width)}" height="{number(height)}" viewBox="0 0 {number(width)} {number(height)}"'
        style = (f"text {{ font: {TEXT_SIZE}px {FONT}; fill: #1f2328; white-space: pre; }}\n"
                 "path { fill: none; stroke-width: 1.5; }\n" + self.style)
        return "\n".join([
            f'<svg xmlns="http://www.w3.org/2000/svg" {size} role="img">', f"<title>{escape(readable(title))}</title>",
            f"<style>\n{style}</style>", '<rect width="100%" height="100%" fill="#ffffff"/>', *self.pieces, "</svg>\n"])


def marker(name, colour):
    """An arrow's head."""
    return (f'<marker id="{name}" viewBox="0 0 8 8" refX="7.5" refY="4" markerWidth="8" markerHeight="8" '
            f'markerUnits="userSpaceOnUse" orient="auto"><path d="M0 0.5L8 4L0 7.5z" '
            f'style="fill: {colour}; stroke: none"/></marker>')
