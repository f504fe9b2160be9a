"""Draws docs/speed.svg for pages.py: the ratios of instructions by case, and a byte's instructions
against the length of a run that is kept. And docs/times.svg: the ratios of times beside other readers."""
from math import inf, log

from cases import target

WIDTH, LEFT, RIGHT = 960, 300, 920  # the area of both panels lies between LEFT and RIGHT
TOP, ROW = 100, 22  # where the rows of the ratios begin, and how high one is
RUNS, GAP = 260, 148  # how high the area of the runs is, and how far it lies below the ratios
LEADING = 17  # how far apart two names are at least
INK, SOFT, AXIS, GRID, BAND = "#222222", "#5f6670", "#8a919b", "#e3e6ea", "#f6f7f9"
TARGET = "#c9a0b8"
COLOURS = {"Library": "#1b7f5c", "Constant": "#7a3fa0", "Floor": "#b0486a", "Original": "#2563b8",
           "Filter": "#8a919b"}
# The sides of the ratios, that which lies on top last, and the titles of their marks
DRAWN = {"Library": "word at run time", "Constant": "constant word"}
LENGTHS = (100, 1_000, 10_000, 100_000)


class Axis:
    """A logarithmic axis."""

    def __init__(self, least, greatest, start, end):
        self.least, self.greatest, self.start, self.end = least, greatest, start, end

    def at(self, value):
        share = log(value / self.least) / log(self.greatest / self.least)
        return self.start + share * (self.end - self.start)

    def ticks(self, *values):
        return [value for value in values if self.least <= value <= self.greatest]


# ---- shapes

def rect(x, y, width, height, colour):
    return (f'<rect x="{x:.1f}" y="{y:.1f}" width="{width:.1f}" height="{height:.1f}" '
            f'fill="{colour}"/>')


def line(x, y, to_x, to_y, colour=GRID, width=1):
    return (f'<line x1="{x:.1f}" y1="{y:.1f}" x2="{to_x:.1f}" y2="{to_y:.1f}" stroke="{colour}" '
            f'stroke-width="{width}"/>')


def text(x, y, words, anchor="start", colour=INK, more='font-size="13"'):
    return (f'<text x="{x:.1f}" y="{y:.1f}" text-anchor="{anchor}" {more} '
            f'fill="{colour}">{words}</text>')


def head(y, words):
    return text(24, y, words, more='font-size="18" font-weight="bold"')


def mark(side, x, y):
    """What is drawn where a value lies. A diamond is seen below a disc."""
    if side == "Constant":
        shape = (f'path d="M{x:.1f} {y - 8.5:.1f}L{x + 8.5:.1f} {y:.1f}'
                 f'L{x:.1f} {y + 8.5:.1f}L{x - 8.5:.1f} {y:.1f}Z"')
    elif side in ("Floor", "Filter"):
        shape = f'rect x="{x - 4.5:.1f}" y="{y - 4.5:.1f}" width="9" height="9"'
    else:
        shape = f'circle cx="{x:.1f}" cy="{y:.1f}" r="4.5"'
    return f'<{shape} fill="{COLOURS[side]}" stroke="#fff" stroke-width="1"/>'


def titled_mark(side, x, y, title):
    """A mark, and what it shows, for a reader that points at it."""
    return f"<g><title>{title}</title>\n{mark(side, x, y)}\n</g>"


# ---- the ratios by case

def ratios(cases, names):
    bottom = TOP + ROW * len(names)
    drawn = {(name, side): cases.to_fixed(name, side) for name in names for side in DRAWN}
    there = [ratio for ratio in drawn.values() if ratio]
    axis = Axis(min(0.5, *there) / 1.05, max(2, *there) * 1.05, LEFT, RIGHT)
    yield head(36, "Ratios by case")
    yield from legend()
    for n, name in enumerate(names):
        if n % 2 == 0:
            yield rect(16, TOP + ROW * n, RIGHT - 4, ROW, BAND)
        yield text(LEFT - 16, TOP + ROW * (n + 0.7), name, "end")
    for step in axis.ticks(0.1, 0.2, 0.35, 0.5, 0.7, 1, 1.4, 2, 3, 4, 6, 10, 20, 50):
        x = axis.at(step)
        yield line(x, TOP, x, bottom, *((AXIS, 2) if step == 1 else (GRID, 1)))
        yield text(x, bottom + 18, step, "middle")
    yield text((LEFT + RIGHT) / 2, bottom + 42, "instructions of the library / instructions of the "
               "original (left of 1: the library has fewer)", "middle", SOFT)
    for n, name in enumerate(names):
        y = TOP + ROW * (n + 0.5)
        yield rect(axis.at(target(name)) - 1.5, y - 0.36 * ROW, 3, 0.72 * ROW, TARGET)
        for side in DRAWN:
            if drawn[name, side]:
                shown = cases.row(name)[f"{side} / fixed"].split(" ")[0]
                yield titled_mark(side, axis.at(drawn[name, side]), y, f"{name}, {side}: {shown}")


def legend():
    for n, (side, words) in enumerate(DRAWN.items()):
        yield mark(side, LEFT + 150 * n, 67.5)
        yield text(LEFT + 150 * n + 12, 72, words)
    x = LEFT + 150 * len(DRAWN)
    yield rect(x - 1.5, 60, 3, 15, TARGET)
    yield text(x + 10, 72, "target of a constant word")


# ---- the runs

def runs(cases, top):
    curves = {side: [(length, value) for length in LENGTHS
                     if (value := cases.run("IC", length, side)) != "–"]
              for side in ("Filter", "Floor", "Original", "Library")}
    greatest = max(float(value) for points in curves.values() for _, value in points)
    across = Axis(80, 125_000, LEFT, RIGHT - 110)
    up = Axis(0.8, max(10, greatest) * 1.5, top + RUNS, top)
    yield head(top - 42, "A run of separators that is kept (word IC)")
    yield text(24, top - 20, "Flat: a run twice as long takes twice the instructions. Rising: four "
               "times.", colour=SOFT)
    yield from run_axes(across, up)
    ends = []
    for side, points in curves.items():
        places = [(across.at(length), up.at(float(value))) for length, value in points]
        yield ('<polyline points="' + " ".join(f"{x:.1f},{y:.1f}" for x, y in places)
               + f'" fill="none" stroke="{COLOURS[side]}" stroke-width="2.5" '
               'stroke-linejoin="round"/>')
        for (x, y), (length, value) in zip(places, points):
            yield titled_mark(side, x, y, f"{side}, {length} separators: {value}")
        ends += [(places[-1][1], places[-1][0], side)] if places else []
    free = -inf
    for y, x, side in sorted(ends):  # each side's name where its curve ends
        y = max(free, y + 4.5)
        yield text(x + 16, y, side, colour=COLOURS[side], more='font-size="13" font-weight="bold"')
        free = y + LEADING


def run_axes(across, up):
    for length in LENGTHS:
        x = across.at(length)
        yield line(x, up.start, x, up.end)
        yield text(x, up.start + 20, f"{length:,}", "middle")
    for count in up.ticks(1, 10, 100, 1_000, 10_000, 100_000):
        y = up.at(count)
        yield line(across.start, y, across.end, y)
        yield text(across.start - 10, y + 4.5, f"{count:,}", "end")
    yield line(across.start, up.start, across.end, up.start, AXIS, 1.5)
    yield line(across.start, up.start, across.start, up.end, AXIS, 1.5)
    middle = (across.start + across.end) / 2
    yield text(middle, up.start + 46, "separators in the run", "middle", SOFT)
    x, y = across.start - 70, (up.start + up.end) / 2
    turned = f'font-size="13" transform="rotate(-90 {x:.1f} {y:.1f})"'
    yield text(x, y, "instructions for each byte", "middle", SOFT, turned)


def svg(cases):
    """The picture, on a light sheet with a name for those who can't see it. Other radices than 10
    are left to the table."""
    names = [name for name in cases.rows["Instructions"] if not name.startswith("y:")]
    bottom = TOP + ROW * len(names)
    height = bottom + GAP + RUNS + 70
    return "\n".join([
        f'<svg xmlns="http://www.w3.org/2000/svg" width="{WIDTH}" height="{height}" '
        f'viewBox="0 0 {WIDTH} {height}" role="img" '
        'aria-label="Instructions of the library to those of the original" '
        'font-family="Helvetica, Arial, \'DejaVu Sans\', sans-serif">',
        rect(0, 0, WIDTH, height, "#ffffff"), *ratios(cases, names), *runs(cases, bottom + GAP),
        "</svg>\n"])


# ---- docs/times.svg

def of_times(ratios):
    """The ratio of the library's time to that of the fastest other reader, by what is read: of the call
    that reads a whole text, and of the one that also answers the end, if it was timed."""
    bottom = TOP + ROW * len(ratios)
    there = [it for both in ratios.values() for it in both if it]
    axis = Axis(min(0.3, *there) / 1.05, max(1.2, *there) * 1.05, LEFT, RIGHT)
    names = {"Constant": "the number is a whole text", "Library": "by the call that also answers the end"}
    shapes = [head(36, "Time of this library / time of the fastest other reader")]
    for n, (side, words) in enumerate(names.items()):
        shapes += [mark(side, LEFT + 240 * n, 67.5), text(LEFT + 240 * n + 12, 72, words)]
    for n, row in enumerate(ratios):
        shapes += [rect(16, TOP + ROW * n, RIGHT - 4, ROW, BAND)] if n % 2 == 0 else []
        shapes.append(text(LEFT - 16, TOP + ROW * (n + 0.7), row, "end"))
    for step in axis.ticks(0.3, 0.4, 0.5, 0.6, 0.7, 0.8, 0.9, 1, 1.1, 1.2):
        x = axis.at(step)
        shapes += [line(x, TOP, x, bottom, *((AXIS, 2) if step == 1 else (GRID, 1))),
                   text(x, bottom + 18, step, "middle")]
    shapes.append(text((LEFT + RIGHT) / 2, bottom + 42, "left of 1: this library is faster", "middle", SOFT))
    for n, (row, both) in enumerate(ratios.items()):
        for side, ratio in zip(names, both):
            if ratio:
                shapes.append(titled_mark(side, axis.at(ratio), TOP + ROW * (n + 0.5),
                                          f"{row}, {names[side]}: {ratio:.2f}"))
    height = bottom + 62
    return "\n".join([
        f'<svg xmlns="http://www.w3.org/2000/svg" width="{WIDTH}" height="{height}" '
        f'viewBox="0 0 {WIDTH} {height}" role="img" '
        'aria-label="Time of this library to that of the fastest other reader" '
        'font-family="Helvetica, Arial, \'DejaVu Sans\', sans-serif">',
        rect(0, 0, WIDTH, height, "#ffffff"), *shapes, "</svg>\n"])
