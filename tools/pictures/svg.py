"""A picture in SVG: black on white, no scripts, no fonts of its own.

Sizes are in points. Numbers are written with one digit behind the point, so that
the same picture is the same text.
"""

import math
from xml.sax.saxutils import escape

WIDTH = 800
SANS, MONO = "Helvetica, Arial, sans-serif", "Menlo, Consolas, 'DejaVu Sans Mono', monospace"


def number(value):
    """A number as short as it goes."""
    text = ("%.1f" % value).removesuffix(".0")
    return "0" if text == "-0" else text


def width_of(words, size=12, mono=False):
    """How wide a text is, at most."""
    return len(words) * size * (0.61 if mono else 0.56)


class Picture:
    """Shapes, drawn in the order in which they come."""

    def __init__(self, height, title):
        self.height, self.title, self.shapes = height, title, []

    def add(self, tag, inner=None, **options):
        values = {name: it if isinstance(it, str) else number(it) for name, it in options.items()}
        said = " ".join('%s="%s"' % (name.replace("_", "-"), it) for name, it in values.items())
        self.shapes.append("<%s %s/>" % (tag, said) if inner is None else "<%s %s>%s</%s>" % (tag, said, inner, tag))

    def box(self, x, y, width, height, round_=0, dash="", thick=1, fill="white"):
        """A rectangle with its left upper corner at x, y."""
        more = {"stroke_dasharray": dash} if dash else {}
        more |= {"fill": fill, "stroke": "black", "stroke_width": thick}
        self.add("rect", x=x, y=y, width=width, height=height, rx=round_, **more)

    def circle(self, x, y, radius, thick=1, fill="white"):
        self.add("circle", cx=x, cy=y, r=radius, fill=fill, stroke="black", stroke_width=thick)

    def path(self, steps, dash="", thick=1):
        """A line along steps of a path: letters, and points as pairs."""
        text = " ".join(s if isinstance(s, str) else "%s %s" % (number(s[0]), number(s[1])) for s in steps)
        more = {"stroke_dasharray": dash} if dash else {}
        self.add("path", d=text, fill="none", stroke="black", stroke_width=thick, **more)

    def line(self, start, end, dash="", thick=1):
        self.path(["M", start, "L", end], dash, thick)

    def head(self, tip, behind, size=8):
        """An arrow's head, which points from `behind` to its tip."""
        angle = math.atan2(tip[1] - behind[1], tip[0] - behind[0])
        sides = [(size * math.cos(angle + turn), size * math.sin(angle + turn)) for turn in (0.38, -0.38)]
        corners = [tip] + [(tip[0] - across, tip[1] - down) for across, down in sides]
        points = " ".join("%s,%s" % (number(x), number(y)) for x, y in corners)
        self.add("polygon", points=points, fill="black")

    def arrow(self, start, end, dash="", thick=1):
        self.line(start, end, dash, thick)
        self.head(end, start)

    def text(self, x, y, words, anchor="middle", size=12, mono=False, bold=False, slope=0):
        """A line of text; y is where its letters stand. A slope turns it, in degrees."""
        more = {"font_weight": "bold"} if bold else {}
        more |= {"transform": "rotate(%s %s %s)" % (number(slope), number(x), number(y))} if slope else {}
        font = MONO if mono else SANS
        more |= {"font_family": font, "font_size": size, "text_anchor": anchor, "fill": "black"}
        self.add("text", escape(words), x=x, y=y, **more)

    def label(self, x, y, lines, size=12):
        """Lines of text round x, y, on white, so that what lies below doesn't show through."""
        step = size + 2
        width = max(width_of(words, size) for words in lines)
        top = y - step * len(lines) / 2
        self.add("rect", x=x - width / 2 - 2, y=top - 1, width=width + 4, height=step * len(lines) + 2, fill="white")
        for place, words in enumerate(lines):
            self.text(x, top + step * place + size - 0.5, words, size=size)

    def whole(self):
        """The text of the file."""
        size = 'width="%d" height="%d"' % (WIDTH, self.height)
        head = '<svg xmlns="http://www.w3.org/2000/svg" %s viewBox="0 0 %d %d" role="img">' % (size, WIDTH, self.height)
        title, ground = "<title>%s</title>" % escape(self.title), '<rect %s fill="white"/>' % size
        return "\n".join([head, title, ground, *self.shapes, "</svg>", ""])
