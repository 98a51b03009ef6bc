"""What the pictures are made of: texts, boxes and lines, with colours for a light page and for a dark one."""
from xml.sax.saxutils import escape, quoteattr

# The colours of each class, on a light page and on a dark one.
COLOURS = {
    ".page": ("fill: #ffffff; stroke: #d0d7de", "fill: #0d1117; stroke: #30363d"),
    "text": ("fill: #1f2328", "fill: #e6edf3"),
    ".quiet": ("fill: #57606a", "fill: #9198a1"),
    ".own": ("fill: #0969da", "fill: #4493f8"),
    ".other": ("fill: #8c959f", "fill: #6e7681"),
    ".box": ("fill: #f6f8fa; stroke: #8c959f", "fill: #161b22; stroke: #6e7681"),
    ".current": ("fill: #ddf4ff; stroke: #0969da", "fill: #0c2d4d; stroke: #4493f8"),
    ".gone": ("fill: none; stroke: #8c959f", "fill: none; stroke: #6e7681"),
    ".torn": ("fill: #ffebe9; stroke: #cf222e", "fill: #3c1618; stroke: #f85149"),
    ".line": ("stroke: #57606a", "stroke: #9198a1"),
    ".mark": ("stroke: #1f2328", "stroke: #e6edf3"),
    ".point": ("fill: #57606a", "fill: #9198a1"),
}
SHAPES = """\
text { font: 12px system-ui, "DejaVu Sans", sans-serif }
.title { font-size: 15px; font-weight: bold }
.strong { font-weight: bold }
.code { font-family: ui-monospace, "DejaVu Sans Mono", monospace }
.end { text-anchor: end }
.middle { text-anchor: middle }
.gone { stroke-dasharray: 4 3 }
.line { fill: none }
.mark { stroke-width: 2 }
"""


def style():
    light = "".join(f"{name} {{ {both[0]} }}\n" for name, both in COLOURS.items())
    dark = "".join(f"  {name} {{ {both[1]} }}\n" for name, both in COLOURS.items())
    return f"{light}{SHAPES}@media (prefers-color-scheme: dark) {{\n{dark}}}\n"


class Picture:
    """A picture of a width, which is as high as what was drawn last."""

    def __init__(self, width, title):
        self.width = width
        self.title = title
        self.parts = []

    def text(self, x, y, words, kind=""):
        """A line of text, in which what is in backquotes is code."""
        pieces = escape(words).split("`")
        pieces[1::2] = [f"<tspan class='code'>{it}</tspan>" for it in pieces[1::2]]
        self.parts.append(f"<text{of_kind(kind)} x='{x:g}' y='{y:g}'>{''.join(pieces)}</text>")

    def texts(self, x, y, lines, kind=""):
        """Lines of text, one below the other. Returns where the next one would be."""
        for at, words in enumerate(lines):
            self.text(x, y + 17 * at, words, kind)
        return y + 17 * len(lines)

    def box(self, x, y, width, height, kind, corner=3):
        self.parts.append(f"<rect{of_kind(kind)} x='{x:g}' y='{y:g}' width='{width:g}' height='{height:g}' rx='{corner}'/>")

    def line(self, points, kind="line"):
        self.parts.append(f"<polyline{of_kind(kind)} points='{' '.join(f'{x:g},{y:g}' for x, y in points)}'/>")

    def span(self, x, y, to, words):
        """A bracket below what reaches from one place to another, with words below it."""
        self.line([(x, y - 6), (x, y), (to, y), (to, y - 6)])
        for at, it in enumerate(words):
            self.text((x + to) / 2, y + 17 * (at + 1), it, "middle")

    def arrow(self, x, y, to):
        """An arrow to the right."""
        self.line([(x, y), (to - 5, y)])
        self.parts.append(f"<polygon class='point' points='{to:g},{y:g} {to - 7:g},{y - 4:g} {to - 7:g},{y + 4:g}'/>")

    def svg(self, height):
        size = f"width='{self.width}' height='{height:g}' viewBox='0 0 {self.width} {height:g}'"
        head = f"<svg xmlns='http://www.w3.org/2000/svg' {size} role='img' aria-label={quoteattr(self.title)}>"
        page = f"<rect class='page' x='0.5' y='0.5' width='{self.width - 1}' height='{height - 1:g}' rx='6'/>"
        return "\n".join([head, f"<title>{escape(self.title)}</title>", f"<style>\n{style()}</style>", page, *self.parts, "</svg>", ""])


def of_kind(kind):
    return f" class='{kind}'" if kind else ""
