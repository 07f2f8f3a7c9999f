"""Draws what tools/bench/scale.sh measured, as an SVG on standard output.

    python3 tools/bench/scale/plot.py times CAPTION     from lines 'who mix threads tenths', tenths of nanoseconds a commit
    python3 tools/bench/scale/plot.py memory CAPTION    from lines 'locations threads kilobytes'
"""

import collections
import statistics
import sys
from xml.sax.saxutils import escape

WIDTH, HEIGHT = 700, 400
LEFT, RIGHT, ABOVE, BELOW = 64, 240, 44, 64
COLOURS = ["#1f6fb4", "#b4491f", "#2f8a3c", "#8a2f86", "#8a7a1f", "#1f8a86"]
STORES = {"kcas": "lock-free", "locked": "one lock"}
MIXES = {"own": "each on its own", "storm": "on eight", "same": "on one"}


def times(lines):
    """Millions of commits a second by threads, by store and mix: medians of all rounds."""
    found = collections.defaultdict(lambda: collections.defaultdict(list))
    for who, mix, threads, tenths in lines:
        found[who, mix][int(threads)].append(10_000 / int(tenths))
    for mix, name in MIXES.items():
        for who, store in STORES.items():
            yield f"{name}, {store}", who != "kcas", [(n, statistics.median(rates)) for n, rates in sorted(found[who, mix].items())]


def memory(lines):
    """Megabytes by thousands of locations, by threads."""
    found = collections.defaultdict(list)
    for locations, threads, kilobytes in lines:
        found[int(threads)].append((int(locations) / 1000, int(kilobytes) / 1024))
    for threads, points in sorted(found.items()):
        yield f"{threads} thread{'s' * (threads > 1)}", False, points


AXES = {
    "times": (times, "threads", "millions of commits a second"),
    "memory": (memory, "thousands of locations", "resident megabytes"),
}


def step_of(most):
    """The least round step of which at most six make the most."""
    return next(step for power in range(-3, 9) for step in (10.0**power, 2 * 10.0**power, 5 * 10.0**power) if most / step <= 6)


class Plot:
    def __init__(self, series, across, up, caption):
        self.series = list(series)
        points = [point for _, _, points in self.series for point in points]
        self.most_x = max(x for x, _ in points)
        self.step = step_of(max(y for _, y in points))
        self.most_y = self.step * (int(max(y for _, y in points) / self.step) + 1)
        self.across, self.up, self.caption = across, up, caption
        self.out = []

    def x(self, value):
        return LEFT + value / self.most_x * (WIDTH - LEFT - RIGHT)

    def y(self, value):
        return HEIGHT - BELOW - value / self.most_y * (HEIGHT - ABOVE - BELOW)

    def text(self, x, y, text, anchor="start"):
        self.out.append(f'<text x="{x:.1f}" y="{y:.1f}" text-anchor="{anchor}">{escape(text)}</text>')

    def line(self, x1, y1, x2, y2, colour, dashes=""):
        self.out.append(f'<line x1="{x1:.1f}" y1="{y1:.1f}" x2="{x2:.1f}" y2="{y2:.1f}" stroke="{colour}"{dashes}/>')

    def axes(self):
        mark = 0.0
        while mark <= self.most_y:
            self.line(LEFT, self.y(mark), WIDTH - RIGHT, self.y(mark), "#ddd")
            self.text(LEFT - 8, self.y(mark) + 4, f"{mark:g}", "end")
            mark += self.step
        for x in sorted({x for _, _, points in self.series for x, _ in points}):
            self.text(self.x(x), HEIGHT - BELOW + 18, f"{x:g}" if x >= 1 else "0", "middle")
        self.text((LEFT + WIDTH - RIGHT) / 2, HEIGHT - BELOW + 36, self.across, "middle")
        self.text(LEFT - 40, ABOVE - 16, self.up)
        self.text(LEFT - 40, HEIGHT - 8, self.caption)

    def draw(self):
        self.axes()
        for at, (name, is_dashed, points) in enumerate(self.series):
            colour = COLOURS[(at // 2 if any(dashed for _, dashed, _ in self.series) else at) % len(COLOURS)]
            dashes = ' stroke-dasharray="5 4"' if is_dashed else ""
            path = " ".join(f"{self.x(x):.1f},{self.y(y):.1f}" for x, y in points)
            self.out.append(f'<polyline points="{path}" fill="none" stroke="{colour}" stroke-width="2"{dashes}/>')
            legend = ABOVE + 20 * at
            self.line(WIDTH - RIGHT + 16, legend, WIDTH - RIGHT + 44, legend, colour, f' stroke-width="2"{dashes}')
            self.text(WIDTH - RIGHT + 50, legend + 4, name)

    def svg(self):
        self.draw()
        style = "text { font: 12px sans-serif; fill: #333 }"
        head = f'<svg xmlns="http://www.w3.org/2000/svg" width="{WIDTH}" height="{HEIGHT}" viewBox="0 0 {WIDTH} {HEIGHT}">'
        return "\n".join([head, f'<style>{style}</style><rect width="100%" height="100%" fill="#fff"/>', *self.out, "</svg>\n"])


if __name__ == "__main__":
    read, across, up = AXES[sys.argv[1]]
    sys.stdout.write(Plot(read([line.split() for line in sys.stdin]), across, up, sys.argv[2]).svg())
