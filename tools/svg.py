"""Shapes of an SVG, as text, and scales from values to places on a picture."""
import sys
from html import escape

INK, FAINT = "#222222", "#888888"


def shape(name, content=None, **attributes):
    words = "".join(f' {key.replace("_", "-")}="{value}"' for key, value in attributes.items())
    return f"<{name}{words}/>" if content is None else f"<{name}{words}>{content}</{name}>"


def number(value):
    """A coordinate with at most one place after the point."""
    return f"{value:.1f}".removesuffix(".0")


def rectangle(x, y, width, height, colour, **more):
    return shape("rect", x=number(x), y=number(y), width=number(width), height=number(height), fill=colour, **more)


def line(x, y, x_2, y_2, colour=FAINT, **more):
    return shape("line", x1=number(x), y1=number(y), x2=number(x_2), y2=number(y_2), stroke=colour, **more)


def text(x, y, words, **more):
    return shape("text", escape(str(words)), x=number(x), y=number(y), **more)


def path(steps, colour, **more):
    return shape("path", d=steps, stroke=colour, **{"fill": "none", **more})


def boxes(found, colour):
    """Rectangles (begin, top, end, bottom) of one colour as one path, so that no seam is seen between neighbours; a width is
    the difference of two ends that were rounded."""
    steps = []
    for corners in found:
        begin, top, end, bottom = (round(corner, 1) for corner in corners)
        steps.append(f"M{number(begin)} {number(top)}h{number(end - begin)}v{number(bottom - top)}h{number(begin - end)}z")
    return shape("path", d="".join(steps), fill=colour, shape_rendering="crispEdges")


def picture(width, height, parts, title=None):
    """The whole text."""
    head = f'<svg xmlns="http://www.w3.org/2000/svg" width="{number(width)}" height="{number(height)}" '
    head += f'viewBox="0 0 {number(width)} {number(height)}" font-family="DejaVu Sans, Verdana, sans-serif" font-size="11" fill="{INK}">'
    named = [shape("title", escape(title))] if title else []
    return "\n".join([head, *named, rectangle(0, 0, width, height, "white"), *parts, "</svg>"]) + "\n"


def write(text):
    """Writes a picture in UTF-8, whatever standard output has."""
    sys.stdout.buffer.write(text.encode())


def ticks(low, high, most=6):
    """Round numbers from low to high."""
    step = next(factor * 10 ** power for power in range(12) for factor in (1, 2, 5) if (high - low) / (factor * 10 ** power) <= most)
    first = -(-low // step) * step
    return [int(first + place * step) for place in range(int((high - first) // step) + 1)]


class Scale:
    """From values to places on the picture; its values span at least `least`."""

    def __init__(self, low, high, begin, end, least=1):
        self.low, self.high, self.begin, self.end = low, max(high, low + least), begin, end

    def all(self, values):
        """The places of values that all lie on the scale."""
        begin, low, rate = self.begin, self.low, (self.end - self.begin) / (self.high - self.low)
        return [begin + (value - low) * rate for value in values]

    def __call__(self, value):
        within = min(max(value, self.low), self.high)
        return self.begin + (self.end - self.begin) * (within - self.low) / (self.high - self.low)
