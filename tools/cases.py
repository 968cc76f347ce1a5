#!/usr/bin/env python3
"""Writes the table of row lists that the program plancases runs, and what it must print.

The answers come from this file alone: an implementation of the rules in docs/RULES.md with exact fractions and
plain searches, written without looking at the Rattle code. Run it from the repository's root.
"""
from fractions import Fraction
from itertools import product

LIMIT = 10_000_000


def turn(a, b, c):
    return (a[0] - c[0]) * (b[1] - c[1]) - (b[0] - c[0]) * (a[1] - c[1])


def on(p, l):
    a, b = l
    if turn(a, b, p) != 0:
        return False
    return min(a[0], b[0]) <= p[0] <= max(a[0], b[0]) and min(a[1], b[1]) <= p[1] <= max(a[1], b[1])


def shared_points(l, m):
    """Ends of each on the other, the crossing of the straight lines, and a point inside an overlap."""
    pts = [p for p in l if on(p, m)] + [p for p in m if on(p, l)]
    (x1, y1), (x2, y2) = l
    (x3, y3), (x4, y4) = m
    d = (x1 - x2) * (y3 - y4) - (y1 - y2) * (x3 - x4)
    if d != 0:
        p = (
            Fraction((x1 * y2 - y1 * x2) * (x3 - x4) - (x1 - x2) * (x3 * y4 - y3 * x4), d),
            Fraction((x1 * y2 - y1 * x2) * (y3 - y4) - (y1 - y2) * (x3 * y4 - y3 * x4), d),
        )
        if on(p, l) and on(p, m):
            pts.append(p)
    distinct = list(dict.fromkeys(pts))
    if len(distinct) > 1:
        (a, b), (c, e) = distinct[0], distinct[1]
        pts.append((Fraction(a + c, 2), Fraction(b + e, 2)))
    return pts


def improper(l, m):
    if l == m:
        return False
    return any(not (p in l and p in m) for p in shared_points(l, m))


def line(r):
    return tuple(sorted(r))


def before(g, h):
    if g[0] != h[0]:
        return g[0] < h[0]
    lg, lh = g[0] < g[1], h[0] < h[1]
    if lg != lh:
        return lh
    t = turn(g[1], h[1], g[0])
    if t != 0:
        return t > 0
    d = lambda r: (r[0][0] - r[1][0]) ** 2 + (r[0][1] - r[1][1]) ** 2
    return d(g) < d(h)


def check(rows):
    for i, (a, b) in enumerate(rows):
        if any(abs(z) > LIMIT for z in a + b):
            return f"refused 1 row {i}"
        if a == b:
            return f"refused 2 row {i}"
    for i in range(1, len(rows)):
        if not before(rows[i - 1], rows[i]):
            return f"refused 7 row {i}"
    for i, (a, b) in enumerate(rows):
        if (b, a) not in rows:
            return f"refused 8 row {i}"
    for i, r in enumerate(rows):
        if any(improper(line(r), line(q)) for q in rows):
            return f"refused 4 row {i}"
    odd = [v for v in {r[0] for r in rows} if sum(r[0] == v for r in rows) % 2]
    if odd:
        return "refused 9 at %d %d" % min(odd)
    return f"closed {len(rows)}"


def rows_of(lines):
    rows = [r for a, b in lines for r in ((a, b), (b, a))]
    out = []
    for r in rows:
        k = next((i for i, q in enumerate(out) if before(r, q)), len(out))
        out.insert(k, r)
    return out


def ring(*pts):
    return list(zip(pts, pts[1:] + pts[:1]))


TRIANGLE = ring((0, 0), (4, 0), (0, 3))
HOLED = ring((0, 0), (8, 0), (8, 8), (0, 8)) + ring((0, 0), (4, 2), (2, 4))
SQUARE = ring((0, 0), (4, 0), (4, 4), (0, 4))


def move(lines, dx, dy, k=1):
    return [((a[0] * k + dx, a[1] * k + dy), (b[0] * k + dx, b[1] * k + dy)) for a, b in lines]


def swapped(rows, i, j):
    rows = list(rows)
    rows[i], rows[j] = rows[j], rows[i]
    return rows


def without(rows, i):
    return rows[:i] + rows[i + 1:]


M = LIMIT
CASES = {
    "no rows": [],
    "triangle": rows_of(TRIANGLE),
    "square": rows_of(SQUARE),
    "square with a hole at its corner": rows_of(HOLED),
    "two squares that meet at a corner": rows_of(SQUARE + move(SQUARE, 4, 4)),
    "two squares side by side": rows_of(SQUARE + ring((5, 0), (9, 0), (9, 4), (5, 4))),
    "square in a square": rows_of(move(SQUARE, 0, 0, 3) + move(SQUARE, 2, 2)),
    "three nested squares": rows_of(move(SQUARE, 0, 0, 5) + move(SQUARE, 3, 3, 3) + move(SQUARE, 7, 7)),
    "fan of three triangles": rows_of(ring((0, 0), (5, 1), (5, 2)) + ring((0, 0), (5, 3), (4, 5)) + ring((0, 0), (-4, 1), (-4, 3))),
    "corner with eight rows": rows_of(ring((0, 0), (3, 1), (3, -1)) + ring((0, 0), (-3, 1), (-3, -1)) + ring((0, 0), (1, 3), (-1, 3)) + ring((0, 0), (1, -3), (-1, -3))),
    "thin triangle over the whole range": rows_of(ring((-M, -M), (M, M), (M, M - 1))),
    "square over the whole range": rows_of(ring((-M, -M), (M, -M), (M, M), (-M, M))),
    "edges in line at a corner": rows_of(ring((0, 0), (2, 0), (4, 0), (4, 4), (0, 4))),
    "one coordinate too large": [((0, 0), (M + 1, 0))],
    "one coordinate too small": [((0, -M - 1), (3, 0))],
    "largest numbers of 32 bits": [((2147483647, -2147483648), (-2147483648, 2147483647))],
    "far out of range in the last row": rows_of(TRIANGLE) + [((5, 5), (5, 2147483647))],
    "no length": [((3, 3), (3, 3))],
    "no length after a good row": [((0, 0), (1, 1)), ((1, 1), (1, 1))],
    "range before length in one row": [((M + 1, 0), (M + 1, 0))],
    "length in an earlier row than range": [((1, 1), (1, 1)), ((M + 1, 0), (0, 0))],
    "one row twice": [((0, 0), (4, 0)), ((0, 0), (4, 0))],
    "last two rows exchanged": swapped(rows_of(TRIANGLE), 4, 5),
    "first two rows exchanged": swapped(rows_of(TRIANGLE), 0, 1),
    "left row before right row": swapped(rows_of(TRIANGLE), 2, 3),
    "further before nearer": [((0, 0), (4, 4)), ((0, 0), (2, 2))],
    "nearer before further": [((0, 0), (2, 2)), ((0, 0), (4, 4))],
    "further before nearer, leftwards": [((0, 0), (-4, -4)), ((0, 0), (-2, -2))],
    "a single row": [((0, 0), (4, 0))],
    "last row missing": without(rows_of(TRIANGLE), 5),
    "first row missing": without(rows_of(TRIANGLE), 0),
    "row of the square missing": without(rows_of(HOLED), 7),
    "diagonals of a square": rows_of([((0, 0), (4, 4)), ((0, 4), (4, 0))]),
    "square with a diagonal and a crossing": rows_of(SQUARE + [((0, 0), (4, 4)), ((1, 3), (3, 1))]),
    "end inside a line": rows_of(TRIANGLE + [((2, 0), (2, -3))]),
    "end inside a vertical line": rows_of(SQUARE + [((0, 2), (-3, 2))]),
    "end just beside a line": rows_of(move(TRIANGLE, 0, 0, 1000) + [((2000, -1), (2000, -3))]),
    "overlap from one corner": rows_of([((0, 0), (2, 0)), ((0, 0), (4, 0))]),
    "overlap in the middle": rows_of([((0, 0), (4, 4)), ((1, 1), (6, 6))]),
    "overlap of vertical lines": rows_of([((0, 0), (0, 4)), ((0, 2), (0, 6))]),
    "one line inside another": rows_of([((0, 0), (9, 3)), ((3, 1), (6, 2))]),
    "in line but apart": rows_of([((0, 0), (2, 0)), ((3, 0), (5, 0))]),
    "crossing at a place between whole points": rows_of([((0, 0), (3, 2)), ((0, 1), (3, 1))]),
    "crossing far to the right of other rows": rows_of(TRIANGLE + move(ring((0, 0), (4, 4), (0, 4), (4, 0)), 100, 0)),
    "crossing over the whole range": rows_of([((-M, -M), (M, M)), ((-M, -M + 1), (M, M - 1))]),
    "one line": rows_of([((0, 0), (4, 0))]),
    "open triangle": rows_of(TRIANGLE[1:]),
    "triangle with a tail": rows_of(TRIANGLE + [((4, 0), (9, 9))]),
    "three lines at a corner": rows_of([((0, 0), (4, 0)), ((0, 0), (4, 4)), ((0, 0), (0, 4))]),
    "odd corner to the left of a closed square": rows_of(SQUARE + [((-9, 1), (-5, 1))]),
}


def main():
    with open("crates/plancases/stdin", "w") as f:
        for name, rows in CASES.items():
            f.write(f"#{name}\n")
            for (a, b), (c, d) in rows:
                f.write(f"{a} {b} {c} {d}\n")
    with open("crates/plancases/stdout", "w") as f:
        for name, rows in CASES.items():
            f.write(f"{name}: {check(rows)}\n")
    with open("crates/plancheck/stdin", "w") as f:
        for (a, b), (c, d) in rows_of(HOLED):
            f.write(f"{a} {b} {c} {d}\n")
    with open("crates/plancheck/stdout", "w") as f:
        f.write(check(rows_of(HOLED)) + "\n")


main()
