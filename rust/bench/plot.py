#!/usr/bin/env python3
"""Draws what open, settle, trim and read cost against the groups in use.

usage: plot.py BENCH.TSV OUT.SVG
"""

import csv
import sys

CALLS = ["open", "settle", "trim", "read"]
SIDES = ["library", "reference"]

# Two by two panels; each has its place for numbers on the left and below.
PANEL_W, PANEL_H = 300, 190
LEFT, TOP, GAP_X, GAP_Y = 66, 74, 84, 74
WIDTH = LEFT + 2 * PANEL_W + GAP_X + 24
HEIGHT = TOP + 2 * PANEL_H + GAP_Y + 70

STYLE = """
  text { font: 12px sans-serif; fill: #24292f; }
  .title { font-size: 15px; font-weight: bold; }
  .call { font-size: 13px; font-weight: bold; }
  .grid { stroke: #d0d7de; stroke-width: 1; }
  .axis { stroke: #57606a; stroke-width: 1; fill: none; }
  .line { fill: none; stroke-width: 2; }
  .reference { stroke-dasharray: 6 3; }
  .line.library { stroke: #0550ae; }
  .line.reference { stroke: #bc4c00; }
  .dot.library { fill: #0550ae; }
  .dot.reference { fill: #bc4c00; }
  .back { fill: #ffffff; }
  @media (prefers-color-scheme: dark) {
    text { fill: #e6edf3; }
    .grid { stroke: #30363d; }
    .axis { stroke: #8b949e; }
    .line.library { stroke: #58a6ff; }
    .line.reference { stroke: #ffa657; }
    .dot.library { fill: #58a6ff; }
    .dot.reference { fill: #ffa657; }
    .back { fill: #0d1117; }
  }
"""


def read_points(path):
    """Instructions per call: by call and side, a list of (groups in use, cost)."""
    points = {(call, side): [] for call in CALLS for side in SIDES}
    with open(path, newline="") as file:
        for row in csv.DictReader(file, delimiter="\t"):
            if row["table"] != "use" or row["call"] not in CALLS:
                continue
            for side in SIDES:
                if row[side]:
                    points[row["call"], side].append((int(row["used"]), float(row[side])))
    if not all(points.values()):
        sys.exit(f"{path} has no instruction counts of ring use")
    return points


def nice_step(highest, steps=5):
    """A round distance between ticks, such that some five reach the highest."""
    size = 1
    while 10 * size * steps < highest:
        size *= 10
    return next(size * times for times in (1, 2, 5, 10) if size * times * steps >= highest)


def short(number):
    for size, unit in ((10**9, " G"), (10**6, " M"), (10**3, " k")):
        if number >= size:
            return f"{number / size:g}{unit}"
    return f"{number:g}"


def text(x, y, words, anchor="middle", kind=""):
    attribute = f' class="{kind}"' if kind else ""
    return f'<text x="{x:.1f}" y="{y:.1f}" text-anchor="{anchor}"{attribute}>{words}</text>'


def line(x1, y1, x2, y2, kind):
    return f'<line x1="{x1:.1f}" y1="{y1:.1f}" x2="{x2:.1f}" y2="{y2:.1f}" class="{kind}"/>'


def dot(x, y, side):
    if side == "library":
        return f'<circle cx="{x:.1f}" cy="{y:.1f}" r="3" class="dot {side}"/>'
    return f'<rect x="{x - 2.5:.1f}" y="{y - 2.5:.1f}" width="5" height="5" class="dot {side}"/>'


def curve(places, side):
    path = " ".join(f"{x:.1f},{y:.1f}" for x, y in places)
    return [f'<polyline points="{path}" class="line {side}"/>'] + [dot(x, y, side) for x, y in places]


def panel(x0, y0, call, points):
    most_used = max(used for side in SIDES for used, _ in points[call, side])
    highest = max(cost for side in SIDES for _, cost in points[call, side])
    step = nice_step(highest)
    top = step * -(-highest // step)
    bottom = y0 + PANEL_H

    def place(used, cost):
        return x0 + PANEL_W * used / most_used, bottom - PANEL_H * cost / top

    parts = [text(x0, y0 - 10, call, "start", "call")]
    for tick in range(round(top / step) + 1):
        _, y = place(0, tick * step)
        parts += [line(x0, y, x0 + PANEL_W, y, "grid"), text(x0 - 8, y + 4, short(tick * step), "end")]
    for quarter in range(5):
        x, _ = place(most_used * quarter / 4, 0)
        number = f"{most_used * quarter // 4:,}"
        parts += [line(x, bottom, x, bottom + 5, "axis"), text(x, bottom + 19, number)]
    parts.append(f'<path d="M{x0},{y0} V{bottom} H{x0 + PANEL_W}" class="axis"/>')
    for side in SIDES:
        parts += curve([place(*point) for point in points[call, side]], side)
    return parts


def legend(x, y):
    parts = []
    for side, words in (("library", "the library"), ("reference", "reference implementation")):
        parts += curve([(x, y - 4), (x + 34, y - 4)], side)
        parts.append(text(x + 42, y, words, "start"))
        x += 140
    return parts


def draw(points):
    parts = [
        f'<rect width="{WIDTH}" height="{HEIGHT}" class="back"/>',
        text(20, 26, "Instructions per call against groups in use, G 1,024, D 4,096", "start", "title"),
    ]
    parts += legend(20, 47)
    for index, call in enumerate(CALLS):
        x0 = LEFT + index % 2 * (PANEL_W + GAP_X)
        y0 = TOP + 16 + index // 2 * (PANEL_H + GAP_Y)
        parts += panel(x0, y0, call, points)
        if index >= 2:
            parts.append(text(x0 + PANEL_W / 2, y0 + PANEL_H + 38, "groups in use"))
    size = f'viewBox="0 0 {WIDTH} {HEIGHT}" width="{WIDTH}" height="{HEIGHT}"'
    head = [f'<svg xmlns="http://www.w3.org/2000/svg" {size}>', f"<style>{STYLE}</style>"]
    return "\n".join(head + parts + ["</svg>"]) + "\n"


def main():
    if len(sys.argv) != 3:
        sys.exit(__doc__.strip())
    drawing = draw(read_points(sys.argv[1]))
    with open(sys.argv[2], "w") as file:
        file.write(drawing)


if __name__ == "__main__":
    main()
