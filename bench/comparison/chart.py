"""The picture of a run: the ratio of each problem on a logarithmic axis, as bars from the line at 1."""
import math
from html import escape

from comparison.room import TOP
from comparison.sides import ratio
from comparison.tables import at_threads, count_of, geometric_mean

WIDTH, LEFT, RIGHT = 880, 270, 60
TOP_SPACE, ROW, BAR, BOTTOM = 74, 27, 10, 34
COLOURS = {1: "#3b6fb6", 4: "#e08a2e"}
INK, PALE = "#222222", "#d5d5d5"


def write(measured):
    with open(f"{TOP}/docs/speed.svg", "w", encoding="utf-8") as file:
        file.write(picture(measured))


def picture(measured):
    rows = [(problem.words, {pair.threads: ratio(pair) for pair in pairs}) for problem, pairs in measured]
    means = {threads: geometric_mean([ratio(pair) for pair in at_threads(measured, threads)]) for threads in COLOURS}
    rows.append(("Geometric mean", means))
    height = TOP_SPACE + ROW * len(rows) + BOTTOM
    axis = Axis([value for _, values in rows for value in values.values()])
    parts = [
        f'<svg xmlns="http://www.w3.org/2000/svg" width="{WIDTH}" height="{height}" viewBox="0 0 {WIDTH} {height}"'
        ' font-family="sans-serif" font-size="12">',
        f'<rect width="{WIDTH}" height="{height}" fill="white"/>',
        text(12, 24, "Time of gbrun by time of SuiteSparse:GraphBLAS", size=16),
        text(12, 44, "Below 1 gbrun is faster. The axis is logarithmic."),
        *legend(),
        *axis.lines(TOP_SPACE, height - BOTTOM),
    ]
    for number, (words, values) in enumerate(rows):
        parts += bars(axis, TOP_SPACE + ROW * number, words, values, "bold" if values is means else "normal")
    parts.append(axis.limit(TOP_SPACE, height - BOTTOM))
    return "\n".join(parts) + "\n</svg>\n"


class Axis:
    """From the power of two below the least value to the one above the greatest, with 1 among them."""

    def __init__(self, values):
        self.first = math.floor(math.log2(min(values + [1 / 2])))
        self.last = math.ceil(math.log2(max(values + [2])))

    def place(self, value):
        return LEFT + (math.log2(value) - self.first) / (self.last - self.first) * (WIDTH - LEFT - RIGHT)

    def lines(self, top, bottom):
        step = math.ceil((self.last - self.first) / 10)
        for power in range(self.first, self.last + 1):
            if power % step == 0:
                x = self.place(2.0**power)
                yield line(x, top, bottom, PALE, 1)
                yield text(x, bottom + 18, f"{2.0**power:g}", anchor="middle")

    def limit(self, top, bottom):
        return line(self.place(1), top, bottom, INK, 2)


def legend():
    for number, (threads, colour) in enumerate(COLOURS.items()):
        x = WIDTH - 210 + 100 * number
        yield f'<rect x="{x}" y="34" width="12" height="12" fill="{colour}"/>'
        yield text(x + 18, 44, count_of(threads))


def bars(axis, top, words, values, weight):
    yield text(LEFT - 12, top + ROW / 2 + 4, words, anchor="end", weight=weight)
    for number, (threads, value) in enumerate(values.items()):
        start, end = sorted([axis.place(1), axis.place(value)])
        y = top + 3 + number * (BAR + 1)
        yield f'<rect x="{start:.1f}" y="{y}" width="{end - start:.1f}" height="{BAR}" fill="{COLOURS[threads]}"/>'
        beside = axis.place(value) + (4 if value >= 1 else -4)
        yield text(beside, y + BAR - 1, f"{value:.2f}", anchor="start" if value >= 1 else "end", size=10)


def line(x, top, bottom, colour, width):
    return f'<line x1="{x:.1f}" y1="{top}" x2="{x:.1f}" y2="{bottom}" stroke="{colour}" stroke-width="{width}"/>'


def text(x, y, words, anchor="start", size=12, weight="normal"):
    return (
        f'<text x="{x:.1f}" y="{y:.1f}" text-anchor="{anchor}" font-size="{size}" font-weight="{weight}"'
        f' fill="{INK}">{escape(words)}</text>'
    )
