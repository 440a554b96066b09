"""The plot of docs/BENCHMARK.md, as SVG by hand: time against pixels, and time against s."""
import math
from html import escape

COLOURS = {"library": "#0b5fa5", "careful C": "#c4500a", "OpenCV": "#5b8c2a", "memcpy": "#707070"}
MARKS = {"library": "circle", "careful C": "square", "OpenCV": "diamond", "memcpy": "circle"}
TEXT, FAINT = "#222222", "#dddddd"
WIDTH, HEIGHT, TOP, BOTTOM = 960, 470, 60, 400


class Axis:
    """Values from low to high onto places from begin to end, by logarithm or evenly."""

    def __init__(self, low, high, begin, end, log):
        self.log = log
        self.low, self.high = self.value(low), self.value(high)
        self.begin, self.end = begin, end

    def value(self, v):
        return math.log10(v) if self.log else v

    def place(self, v):
        return self.begin + (self.value(v) - self.low) / (self.high - self.low) * (self.end - self.begin)


def label(x, y, text, anchor="middle", colour=TEXT, size=13, weight="normal"):
    place = f'x="{x:.1f}" y="{y:.1f}" text-anchor="{anchor}"'
    return f'<text {place} fill="{colour}" font-size="{size}" font-weight="{weight}">{escape(text)}</text>'


def line(x1, y1, x2, y2, colour=FAINT):
    return f'<line x1="{x1:.1f}" y1="{y1:.1f}" x2="{x2:.1f}" y2="{y2:.1f}" stroke="{colour}"/>'


def mark(shape, x, y, colour):
    if shape == "circle":
        return f'<circle cx="{x:.1f}" cy="{y:.1f}" r="4" fill="{colour}"/>'
    turn = f' transform="rotate(45 {x:.1f} {y:.1f})"' if shape == "diamond" else ""
    return f'<rect x="{x - 3.5:.1f}" y="{y - 3.5:.1f}" width="7" height="7" fill="{colour}"{turn}/>'


def grid(across, up, across_marks, up_marks):
    """Grid lines with their numbers: (value, text) each."""
    out = []
    for v, text in across_marks:
        x = across.place(v)
        out += [line(x, TOP, x, BOTTOM), label(x, BOTTOM + 18, text)]
    for v, text in up_marks:
        y = up.place(v)
        out += [line(across.begin, y, across.end, y), label(across.begin - 8, y + 4, text, "end")]
    return out


def apart(places, least):
    """Places moved so that neighbours are `least` apart, in order."""
    moved = []
    for y in sorted(places):
        moved.append(max(y, moved[-1] + least) if moved else y)
    return dict(zip(sorted(places), moved))


def curves(across, up, series):
    """Each contestant's points joined, its name at the last one."""
    out, ends = [], {name: up.place(points[-1][1]) for name, points in series.items()}
    names_at = apart(ends.values(), 15)
    for name, points in series.items():
        colour = COLOURS[name]
        places = [(across.place(x), up.place(y)) for x, y in points]
        path = " ".join(f"{x:.1f},{y:.1f}" for x, y in places)
        out.append(f'<polyline points="{path}" fill="none" stroke="{colour}" stroke-width="2"/>')
        out += [mark(MARKS[name], x, y, colour) for x, y in places]
        out.append(label(across.end + 10, names_at[ends[name]] + 4, name, "start", colour, weight="bold"))
    return out


def decades(low, high):
    """1, 2, 5 of every power of ten within the range."""
    found = []
    for power in range(-4, 6):
        for digit in (1, 2, 5):
            v = digit * 10.0 ** power
            if low <= v <= high:
                found.append((v, f"{v:g}"))
    return found


def bounds(series, room):
    values = [y for points in series.values() for _, y in points]
    return min(values) / room, max(values) * room


def pixels_panel(series):
    low, high = bounds(series, 1.25)
    widths = [x for points in series.values() for x, _ in points]
    across = Axis(min(widths) / 1.1, max(widths) * 1.1, 70, 420, True)
    up = Axis(low, high, BOTTOM, TOP, True)
    out = [label(245, 35, "Time of a pair against pixels of a frame, s = 6", size=15, weight="bold")]
    out += grid(across, up, decades(min(widths), max(widths) * 1.1), decades(low, high))
    out += curves(across, up, series)
    return out + [label(245, BOTTOM + 42, "million pixels (both axes logarithmic)"), label(70, TOP - 8, "ms")]


def s_panel(series):
    top = bounds(series, 1.1)[1]
    across, up = Axis(-0.3, 8.3, 580, 860, False), Axis(0, top, BOTTOM, TOP, False)
    step = next(v for v, _ in decades(0.001, 1e5) if top / v <= 8)
    out = [label(720, 35, "Time of a pair of 1920×1080 against s", size=15, weight="bold")]
    up_marks = [(k * step, f"{k * step:g}") for k in range(int(top / step) + 1)]
    out += grid(across, up, [(s, str(s)) for s in range(9)], up_marks)
    out += curves(across, up, series)
    return out + [label(720, BOTTOM + 42, "s, the number of halvings"), label(580, TOP - 8, "ms")]


def picture(against_pixels, against_s):
    head = f'<svg xmlns="http://www.w3.org/2000/svg" viewBox="0 0 {WIDTH} {HEIGHT}" font-family="sans-serif">'
    back = f'<rect width="{WIDTH}" height="{HEIGHT}" fill="#ffffff"/>'
    return "\n".join([head, back, *pixels_panel(against_pixels), *s_panel(against_s), "</svg>"]) + "\n"
