"""Draws time against n on fence placements as FOLDER/time.svg: plot.py FOLDER LIMIT. One panel for each number of costs, one line for each solver."""
import math
import os
import sys

import results
from results import PEERS, mean

COLOURS = {"ours": "#000000", "z3": "#0072b2", "glpk": "#d55e00", "clasp": "#009e73", "cbc": "#cc79a7"}
NAMES = {"ours": "Basilurn", **PEERS}
SIZES = (20, 30, 40, 50, 64)
WIDTH, HEIGHT, LEFT, TOP, GAP = 270, 300, 90, 90, 30


def text(x, y, words, size=13, anchor="middle", more=""):
    return '<text x="%.1f" y="%.1f" font-size="%d" text-anchor="%s"%s>%s</text>' % (x, y, size, anchor, more, words)


def line(x1, y1, x2, y2, colour, width, more=""):
    return '<line x1="%.1f" y1="%.1f" x2="%.1f" y2="%.1f" stroke="%s" stroke-width="%g"%s/>' % (x1, y1, x2, y2, colour, width, more)


def dot(x, y, colour, filled):
    return '<circle cx="%.1f" cy="%.1f" r="4" fill="%s" stroke="%s" stroke-width="1.6"/>' % (x, y, colour if filled else "#ffffff", colour)


def unit(power):
    """A power of ten of seconds, in words."""
    return "%d s" % 10**power if power >= 0 else "%d ms" % 10**(power + 3) if power >= -3 else "%d µs" % 10**(power + 6)


class Panel:
    """The coordinates of one panel: k = 2, 3 and 4 from the left, powers of ten from `low` to `high` upwards."""

    def __init__(self, k, low, high):
        self.k, self.left, self.low, self.high = k, LEFT + (k - 2) * (WIDTH + GAP), low, high

    def up(self, seconds):
        return TOP + HEIGHT * (self.high - math.log10(seconds)) / (self.high - self.low)

    def across(self, n):
        return self.left + 12 + (WIDTH - 24) * (n - SIZES[0]) / (SIZES[-1] - SIZES[0])

    def frame(self, limit):
        right, bottom = self.left + WIDTH, TOP + HEIGHT
        out = [text(self.left + WIDTH / 2, TOP - 10, "%d costs" % self.k, 14, more=' font-weight="bold"')]
        for power in range(self.low, self.high + 1):
            y = self.up(10**power)
            out.append(line(self.left, y, right, y, "#dddddd", 1))
            if self.k == 2:
                out.append(text(self.left - 8, y + 4, unit(power), anchor="end"))
        for n in SIZES:
            out += [line(self.across(n), bottom, self.across(n), bottom + 5, "#444444", 1), text(self.across(n), bottom + 20, str(n))]
        out.append(line(self.left, self.up(limit), right, self.up(limit), "#888888", 1, ' stroke-dasharray="5 4"'))
        if self.k == 2:
            out.append(text(self.left + 6, self.up(limit) - 5, "limit", 12, "start", ' fill="#666666"'))
        out.append('<rect x="%d" y="%d" width="%d" height="%d" fill="none" stroke="#444444"/>' % (self.left, TOP, WIDTH, HEIGHT))
        return out

    def curve(self, points, colour):
        """Points (n, seconds, whether the mean has an instance at the limit)."""
        places = [(self.across(n), self.up(seconds), reached) for n, seconds, reached in points]
        path = '<polyline points="%s" fill="none" stroke="%s" stroke-width="2"/>' % (" ".join("%.1f,%.1f" % p[:2] for p in places), colour)
        return [path] + [dot(x, y, colour, not reached) for x, y, reached in places]


def points_of(rows, solver):
    """Geometric means by n, where the solver has a figure on every instance of that n."""
    points = []
    for n in SIZES:
        figures = [(row["ours"], "done") if solver == "ours" else row[solver] for row in rows if row["n"] == n]
        if figures and all(seconds is not None for seconds, _ in figures):
            points.append((n, mean(seconds for seconds, _ in figures), any(state == "limit" for _, state in figures)))
    return points


def legend(names):
    out, x = [], LEFT
    for solver in names:
        out += [line(x, 52, x + 26, 52, COLOURS[solver], 2), dot(x + 13, 52, COLOURS[solver], True), text(x + 32, 56, NAMES[solver], anchor="start")]
        x += 62 + 8 * len(NAMES[solver])
    return out + [dot(x + 13, 52, "#444444", False), text(x + 24, 56, "some instances at the limit: a lower bound", anchor="start")]


def picture(rows, limit):
    wide, high = LEFT + 3 * WIDTH + 2 * GAP + 20, TOP + HEIGHT + 50
    size = 'width="%d" height="%d" viewBox="0 0 %d %d"' % (wide, high, wide, high)
    out = ['<svg xmlns="http://www.w3.org/2000/svg" %s font-family="Helvetica, Arial, sans-serif">' % size,
           '<rect width="100%" height="100%" fill="#ffffff"/>',
           text(LEFT, 26, "Time to list the front of a fence placement (geometric mean, start-up apart)", 16, "start")]
    shown = [solver for solver in NAMES if points_of(rows, solver)]
    out += legend(shown)
    least = min(seconds for solver in shown for k in (2, 3, 4) for _, seconds, _ in points_of([row for row in rows if row["k"] == k], solver))
    lowest, highest = math.floor(math.log10(least)), math.ceil(math.log10(limit))
    for k in (2, 3, 4):
        panel, members = Panel(k, lowest, highest), [row for row in rows if row["k"] == k]
        out += panel.frame(limit)
        for solver in reversed(shown):
            out += panel.curve(points_of(members, solver), COLOURS[solver])
        out.append(text(panel.left + WIDTH / 2, TOP + HEIGHT + 40, "sites (n)"))
    return out + [text(22, TOP + HEIGHT / 2, "time", more=' transform="rotate(-90 22 %d)"' % (TOP + HEIGHT / 2)), "</svg>", ""]


def main():
    folder, limit = sys.argv[1], float(sys.argv[2])
    rows = [row for row in results.read(folder) if row["family"] == "fence"]
    with open(os.path.join(folder, "time.svg"), "w", encoding="utf-8") as out:
        out.write("\n".join(picture(rows, limit)))


if __name__ == "__main__":
    main()
