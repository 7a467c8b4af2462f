#!/usr/bin/env python3
"""Draws the crates of the repository by layers, as an SVG.

It reads crates.txt, which names each crate and what it stands on, and keeps the crates of the repository alone, but for
those that hold nothing but another's tests (`NAME_tests`). The lowest layer is at the bottom; a crate's layer is the length of
the longest path from it down. An arrow leads from a crate to one that it stands on, and is left out where another path says so
already. The same input gives the same picture.
"""
import argparse
import os
import sys
from itertools import combinations
from xml.sax.saxutils import escape

BOX_HEIGHT, BOX_GAP, LAYER_GAP, MARGIN = 34, 26, 66, 24
LETTER, PADDING = 8.6, 22
SWEEPS = 24


def read_crates(path):
    """Each crate of the file but those of tests, with the crates of the file that it stands on."""
    below = {}
    with open(path, encoding="utf-8") as lines:
        for line in lines:
            head, colon, rest = line.split("#")[0].partition(":")
            if colon and not head.split()[0].endswith("_tests"):
                below[head.split()[0]] = rest.split()
    return {name: sorted(set(used) & set(below)) for name, used in sorted(below.items())}


def layers_of(below):
    """How many crates the longest path from a crate down has under it."""
    layer = {}

    def layer_of(name):
        if name not in layer:
            layer[name] = max((layer_of(used) + 1 for used in below[name]), default=0)
        return layer[name]

    for name in below:
        layer_of(name)
    return layer


def reduced(below):
    """The arrows but those that another path stands for."""

    def reaches(name, goal):
        return name == goal or any(reaches(used, goal) for used in below[name])

    return [(name, used) for name in below for used in below[name]
            if not any(other != used and reaches(other, used) for other in below[name])]


def with_bends(arrows, layer):
    """The arrows in steps of one layer each, by bends of their own, and the rows of crates and bends."""
    rows = [[] for _ in range(max(layer.values()) + 1)]
    for name in sorted(layer):
        rows[layer[name]].append(name)
    chains = []
    for upper, lower in arrows:
        chain = [upper]
        for row in range(layer[upper] - 1, layer[lower], -1):
            bend = (upper, lower, row)
            rows[row].append(bend)
            chain.append(bend)
        chains.append(chain + [lower])
    return rows, chains


def crossings(rows, steps):
    """How many pairs of steps cross, where each row stands in this order."""
    place = {node: i for row in rows for i, node in enumerate(row)}
    count = 0
    for steps_of_row in steps:
        for (a, b), (c, d) in combinations(steps_of_row, 2):
            count += (place[a] - place[c]) * (place[b] - place[d]) < 0
    return count


def in_order(rows, chains):
    """The rows, each in an order with few crossings: by the mean place of what is next to each node."""
    row_of = {node: i for i, row in enumerate(rows) for node in row}
    steps = [[] for _ in rows]
    above, under = {}, {}
    for chain in chains:
        for upper, lower in zip(chain, chain[1:]):
            steps[row_of[lower]].append((upper, lower))
            above.setdefault(lower, []).append(upper)
            under.setdefault(upper, []).append(lower)
    best, least = rows, crossings(rows, steps)
    for sweep in range(SWEEPS):
        near = under if sweep % 2 == 0 else above
        order = range(len(rows)) if sweep % 2 == 0 else range(len(rows) - 1, -1, -1)
        rows = [list(row) for row in rows]
        for i in order:
            place = {node: j / max(1, len(row) - 1) for row in rows for j, node in enumerate(row)}
            rows[i].sort(key=lambda node: (mean([place[n] for n in near.get(node, [node])]), str(node)))
        if crossings(rows, steps) < least:
            best, least = rows, crossings(rows, steps)
    return best, above, under


def mean(numbers):
    return sum(numbers) / len(numbers)


def width_of(node):
    return LETTER * len(node) + PADDING if isinstance(node, str) else 12


def spaced(row, wanted):
    """Places from left to right, near the wanted ones, with room for each node."""
    right = []
    for i, node in enumerate(row):
        least = right[-1] + (width_of(row[i - 1]) + width_of(node)) / 2 + BOX_GAP if right else float("-inf")
        right.append(max(wanted[node], least))
    left = [0] * len(row)
    for i in range(len(row) - 1, -1, -1):
        most = left[i + 1] - (width_of(row[i + 1]) + width_of(row[i])) / 2 - BOX_GAP if i + 1 < len(row) else float("inf")
        left[i] = min(wanted[row[i]], most)
    return [(a + b) / 2 for a, b in zip(right, left)]


def places_of(rows, above, under):
    """The middle of each node."""
    x = {node: 0.0 for row in rows for node in row}
    for row in rows:
        x.update(zip(row, spaced(row, {node: 130.0 * i for i, node in enumerate(row)})))
    for sweep in range(4 * SWEEPS):
        order = rows if sweep % 2 == 0 else rows[::-1]
        for row in order:
            wanted = {node: mean([x[n] for n in above.get(node, []) + under.get(node, [])] or [x[node]]) for node in row}
            x.update(zip(row, spaced(row, wanted)))
    first = min(x[node] - width_of(node) / 2 for node in x)
    return {node: round(x[node] - first + MARGIN, 1) for node in x}


def path_of(chain, x, y):
    """The way of an arrow: upright at its ends, and slanted at a bend as from the node before it to the one after it."""
    points = [(x[node], y[node]) for node in chain]
    points[0] = (points[0][0], points[0][1] + BOX_HEIGHT / 2)
    points[-1] = (points[-1][0], points[-1][1] - BOX_HEIGHT / 2 - 4)
    slants = [0.0] * len(points)
    for i in range(1, len(points) - 1):
        (ax, ay), (bx, by) = points[i - 1], points[i + 1]
        slants[i] = (bx - ax) / (by - ay)
    way = f"M {points[0][0]:.1f} {points[0][1]:.1f}"
    for (ax, ay), (bx, by), first, last in zip(points, points[1:], slants, slants[1:]):
        third = (by - ay) / 2.6
        way += f" C {ax + first * third:.1f} {ay + third:.1f} {bx - last * third:.1f} {by - third:.1f} {bx:.1f} {by:.1f}"
    return way


def drawn(below):
    """The picture."""
    layer = layers_of(below)
    rows, chains = with_bends(reduced(below), layer)
    rows, above, under = in_order(rows, chains)
    x = places_of(rows, above, under)
    height = len(rows) * BOX_HEIGHT + (len(rows) - 1) * LAYER_GAP + 2 * MARGIN
    y = {node: height - MARGIN - BOX_HEIGHT / 2 - i * (BOX_HEIGHT + LAYER_GAP) for i, row in enumerate(rows) for node in row}
    width = max(x[node] + width_of(node) / 2 for node in x) + MARGIN
    out = [f'<svg xmlns="http://www.w3.org/2000/svg" viewBox="0 0 {width:.0f} {height:.0f}" width="{width:.0f}" height="{height:.0f}"'
           ' font-family="DejaVu Sans Mono, Menlo, Consolas, monospace" font-size="14">',
           '<title>The crates by layers</title>',
           '<defs><marker id="head" viewBox="0 0 8 8" refX="6" refY="4" markerWidth="7" markerHeight="7" orient="auto">'
           '<path d="M 0 0 L 8 4 L 0 8 z" fill="#555"/></marker></defs>',
           f'<rect width="{width:.0f}" height="{height:.0f}" fill="white"/>']
    for chain in sorted(chains, key=str):
        out.append(f'<path d="{path_of(chain, x, y)}" fill="none" stroke="#555" stroke-width="1.4" marker-end="url(#head)"/>')
    for name in sorted(layer):
        wide = width_of(name)
        fill = "#eef3fa" if below[name] else "#f6efdf"
        out.append(f'<rect x="{x[name] - wide / 2:.1f}" y="{y[name] - BOX_HEIGHT / 2:.1f}" width="{wide:.1f}" height="{BOX_HEIGHT}"'
                   f' rx="5" fill="{fill}" stroke="#333"/>')
        out.append(f'<text x="{x[name]:.1f}" y="{y[name] + 5:.1f}" text-anchor="middle">{escape(name)}</text>')
    return "\n".join(out + ["</svg>", ""])


def main():
    top = os.path.join(os.path.dirname(os.path.abspath(__file__)), "..")
    words = argparse.ArgumentParser(description=__doc__, formatter_class=argparse.RawDescriptionHelpFormatter)
    words.add_argument("--crates", default=os.path.join(top, "crates.txt"), help="the list of crates (default: the repository's)")
    words.add_argument("--out", default=os.path.join(top, "docs", "architecture.svg"), help="the picture (default: docs/architecture.svg)")
    words.add_argument("--check", action="store_true", help="write nothing, and end with status 1 where the picture is not that of the list")
    given = words.parse_args()
    picture = drawn(read_crates(given.crates))
    if given.check:
        with open(given.out, encoding="utf-8") as old:
            sys.exit(0 if old.read() == picture else 1)
    with open(given.out, "w", encoding="utf-8") as new:
        new.write(picture)


if __name__ == "__main__":
    main()
