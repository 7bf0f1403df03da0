#!/usr/bin/env python3
"""Draws docs/growth.svg: what a write and a range of ten take, and how many bytes a cell takes, from 10,000 cells to 10,000,000, beside a
plain Rust program and RocksDB. All of it is what bench/growth.sh measured last (bench/growth.txt). The colours and fonts are those of
docs/promise.py.

Usage: docs/growth.py >docs/growth.svg
"""
import math
import re
import sys
from xml.sax.saxutils import escape

sys.dont_write_bytecode = True
from promise import box, look, text_of, word  # noqa: E402

WIDTH, HEIGHT, EDGE, GAP = 960, 470, 28, 14
PANEL = (WIDTH - 2 * EDGE - 2 * GAP) / 3
TOP, BOTTOM, LEFT, RIGHT = 176, 364, 52, 18  # of what is drawn in a panel
PROGRAMS = {"tabd": ("tabd", "own"), "rust": ("a plain Rust program", "plain"), "rocksdb": ("RocksDB", "peer")}
PANELS = [("A write", "nanoseconds, with its sorting"), ("A range of ten rows", "microseconds"), ("Memory", "bytes a cell")]


def figures():
    """What is said of the run, and of each program its rows: cells, and a number for each panel."""
    said, curves = "", {}
    for line in text_of("bench/growth.txt").splitlines():
        if line.startswith("#"):
            said = said or re.sub("^# What bench/growth.sh measured on ", "", line)
        else:
            cells, program, *numbers = line.split()
            curves.setdefault(program, []).append((int(cells), *map(float, numbers)))
    return said, {program: sorted(rows) for program, rows in curves.items()}


def step_of(most):
    """A round step that fits three to six times into it."""
    power = 10 ** math.floor(math.log10(most))
    return next(step for step in (power / 5, power / 4, power / 2, power, 2 * power) if most / step <= 6)


def short(cells):
    return f"{cells // 1_000_000}M" if cells >= 1_000_000 else f"{cells // 1000}k"


def drawn(at, left, curves):
    title, unit = PANELS[at]
    counts = sorted({row[0] for rows in curves.values() for row in rows})
    low, high = math.log10(counts[0]), max(math.log10(counts[-1]), math.log10(counts[0]) + 1)
    most = max(row[at + 1] for rows in curves.values() for row in rows)
    step = step_of(most)

    def across(cells):
        return round(left + LEFT + (PANEL - LEFT - RIGHT) * (math.log10(cells) - low) / (high - low), 1)

    def up(number):
        return round(BOTTOM - (BOTTOM - TOP) * number / most, 1)

    yield box(left + 0.5, 104.5, PANEL, 312, 14, "sheet")
    yield word(left + 16, 134, "name", title)
    yield word(left + 16, 154, "small soft", unit)
    for mark in range(int(most / step) + 1):
        yield f'<line x1="{left + LEFT}" x2="{left + PANEL - RIGHT}" y1="{up(mark * step)}" y2="{up(mark * step)}" class="rule"/>'
        yield f'<text x="{left + LEFT - 8}" y="{up(mark * step) + 4}" class="small soft end">{mark * step:,.0f}</text>'
    for power in range(math.ceil(low), math.floor(high) + 1):
        yield f'<text x="{across(10**power)}" y="{BOTTOM + 22}" class="small soft middle">{short(10**power)}</text>'
    yield f'<text x="{left + LEFT + (PANEL - LEFT - RIGHT) / 2}" y="{BOTTOM + 42}" class="small soft middle">cells in the table</text>'
    for program, (_, kind) in PROGRAMS.items():
        points = [(across(row[0]), up(row[at + 1])) for row in curves.get(program, [])]
        if points:
            yield f'<polyline class="curve {kind}" points="{" ".join(f"{x},{y}" for x, y in points)}"/>'
            yield from (f'<circle cx="{x}" cy="{y}" r="3" class="dot {kind}"/>' for x, y in points)


def keys(curves):
    """Which curve is whose."""
    x = EDGE
    for program, (name, kind) in PROGRAMS.items():
        if program in curves:
            yield f'<line x1="{x}" x2="{x + 26}" y1="444" y2="444" class="curve {kind}"/>'
            yield word(x + 34, 449, "small", name)
            x += 56 + 7 * len(name)


def told(curves):
    """The ends of the curves in words."""
    ends = []
    for program, (name, _) in PROGRAMS.items():
        if rows := curves.get(program):
            first, last = rows[0], rows[-1]
            ends.append(f"{name}: from {first[0]:,} to {last[0]:,} cells a write takes {first[1]:.0f} to {last[1]:.0f} ns, "
                        f"a range of ten {first[2]:.1f} to {last[2]:.1f} µs, a cell {first[3]:.0f} to {last[3]:.0f} bytes")
    return ". ".join(ends) + "."


def picture(said, curves):
    most = max(rows[-1][0] for rows in curves.values())
    parts = [box(0, 0, WIDTH, HEIGHT, 16, "paper"), word(EDGE, 52, "title", "As a table grows")]
    parts.append(word(EDGE, 82, "soft", f"Cells written in random order, up to {most:,}, each with a label; half of them are the reader's."))
    for at in range(len(PANELS)):
        parts += drawn(at, EDGE + at * (PANEL + GAP), curves)
    parts += keys(curves)
    parts.append(f'<text x="{WIDTH - EDGE}" y="449" class="small soft end">{escape(said)}</text>')
    return "\n".join(
        [
            f'<svg xmlns="http://www.w3.org/2000/svg" viewBox="0 0 {WIDTH} {HEIGHT}" width="{WIDTH}" height="{HEIGHT}" role="img" aria-labelledby="title desc">',
            '<title id="title">What a write, a range of ten and a cell cost as a table grows</title>',
            f'<desc id="desc">{escape(told(curves))}</desc>',
            f"<style>\n{look()}",
            ".end { text-anchor: end; }\n.middle { text-anchor: middle; }\n.curve { fill: none; stroke-width: 2.5; }\n.dot { stroke-width: 0; }",
            ".own { stroke: var(--accent); }\n.plain { stroke: var(--soft); stroke-dasharray: 6 4; }\n.peer { stroke: var(--good); stroke-dasharray: 2 3; }",
            ".dot.own { fill: var(--accent); }\n.dot.plain { fill: var(--soft); }\n.dot.peer { fill: var(--good); }\n</style>",
            *parts,
            "</svg>",
        ]
    )


if __name__ == "__main__":
    print(picture(*figures()))
