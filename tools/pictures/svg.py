"""A drawing as SVG 1.1: shapes, text and the room that they take.

The view box grows with what is drawn, so that nothing is cut off. No scripts, no outside resources: only shapes, and
text in the viewer's own fonts, whose width is estimated on the large side. What a program printed is in letters of one
width, in which a long mask is easier to read.
"""

from xml.sax.saxutils import escape, quoteattr

FONTS = "DejaVu Sans, Verdana, Arial, Helvetica, sans-serif"
PRINTED_FONTS = "DejaVu Sans Mono, Consolas, Courier New, monospace"
MARGIN = 24
INK = "#000000"
SOFT = "#555555"
FAINT = "#aaaaaa"
BAND = "#ececec"


def text_width(text: str, size: float, bold: bool = False, printed: bool = False) -> float:
    """About how wide a text is, in units of the drawing; wide fonts are allowed for."""
    if printed:
        return size * 0.61 * len(text)
    widths = (0.36 if c in " .,:;'|()!ijlt" else 0.95 if c in "mwMW" else 0.72 if c.isupper() else 0.64 for c in text)
    return size * sum(widths) * (1.1 if bold else 1.0)


def wrap(text: str, size: float, width: float) -> list[str]:
    """The words of a text in lines that fit the width."""
    lines = [""]
    for word in text.split():
        longer = f"{lines[-1]} {word}".strip()
        if lines[-1] and text_width(longer, size) > width:
            lines.append(word)
        else:
            lines[-1] = longer
    return lines


def number(value: float) -> str:
    """A coordinate, with one digit behind the point at most."""
    return f"{value:.1f}".rstrip("0").rstrip(".")


def dots(centres: list[tuple[float, float]], radius: float) -> str:
    """The path of circles around the centres."""
    r = number(radius)
    half = f"a{r} {r} 0 1 0"
    return " ".join(f"M{number(x - radius)} {number(y)}{half} {number(2 * radius)} 0{half} {number(-2 * radius)} 0z"
                    for x, y in centres)


def squares(centres: list[tuple[float, float]], side: float) -> str:
    """The path of squares around the centres."""
    s = number(side)
    return " ".join(f"M{number(x - side / 2)} {number(y - side / 2)}h{s}v{s}h-{s}z" for x, y in centres)


class Drawing:
    """Shapes in the order in which they are drawn; later ones cover earlier ones."""

    def __init__(self, title: str, description: str):
        self.title, self.description = title, description
        self.right = self.bottom = 0.0
        self.parts: list[str] = []

    def reach(self, right: float, bottom: float) -> None:
        """Makes room up to this place."""
        self.right, self.bottom = max(self.right, right), max(self.bottom, bottom)

    def text(self, x: float, y: float, text: str, size: float = 13, anchor: str = "start", bold: bool = False,
             fill: str = INK, printed: bool = False) -> None:
        """A line of text on the base line y; `anchor` start, middle or end; `printed` for what a program printed."""
        width = text_width(text, size, bold, printed)
        self.reach(x + {"start": width, "middle": width / 2, "end": 0}[anchor], y + size * 0.3)
        style = ' font-weight="bold"' if bold else ""
        if printed:
            style += f" font-family={quoteattr(PRINTED_FONTS)}"
        self.parts.append(f'<text x="{number(x)}" y="{number(y)}" font-size="{number(size)}" text-anchor="{anchor}"'
                          f'{style} fill="{fill}">{escape(text)}</text>')

    def line(self, x1: float, y1: float, x2: float, y2: float, width: float = 1, stroke: str = INK,
             dash: str = "") -> None:
        self.reach(max(x1, x2), max(y1, y2))
        dashes = f' stroke-dasharray="{dash}"' if dash else ""
        self.parts.append(f'<line x1="{number(x1)}" y1="{number(y1)}" x2="{number(x2)}" y2="{number(y2)}"'
                          f' stroke="{stroke}" stroke-width="{number(width)}"{dashes}/>')

    def box(self, x: float, y: float, width: float, height: float, fill: str = "none", stroke: str = "none",
            line: float = 1) -> None:
        self.reach(x + width, y + height)
        self.parts.append(f'<rect x="{number(x)}" y="{number(y)}" width="{number(width)}" height="{number(height)}"'
                          f' fill="{fill}" stroke="{stroke}" stroke-width="{number(line)}"/>')

    def path(self, path: str, fill: str = INK, stroke: str = "none", width: float = 1) -> None:
        """A path whose room is already made."""
        if path:
            self.parts.append(f'<path d="{path}" fill="{fill}" stroke="{stroke}" stroke-width="{number(width)}"/>')

    def cross(self, x: float, y: float, arm: float, width: float) -> None:
        """The mark of a stop."""
        self.line(x - arm, y - arm, x + arm, y + arm, width)
        self.line(x - arm, y + arm, x + arm, y - arm, width)

    def paragraph(self, x: float, y: float, text: str, width: float, size: float = 12, fill: str = INK) -> float:
        """A text in lines that fit the width; the base line of the next paragraph."""
        for line in wrap(text, size, width):
            self.text(x, y, line, size, fill=fill)
            y += size * 1.4
        return y

    def svg(self) -> str:
        """The whole file."""
        width, height = round(self.right + MARGIN), round(self.bottom + MARGIN)
        head = (f'<svg xmlns="http://www.w3.org/2000/svg" version="1.1" width="{width}" height="{height}"'
                f' viewBox="0 0 {width} {height}" font-family={quoteattr(FONTS)}>')
        return "\n".join(['<?xml version="1.0" encoding="UTF-8"?>', head, f"<title>{escape(self.title)}</title>",
                          f"<desc>{escape(self.description)}</desc>",
                          f'<rect x="0" y="0" width="{width}" height="{height}" fill="#ffffff"/>',
                          *self.parts, "</svg>"]) + "\n"
