#!/usr/bin/env python3
"""Draws how many operations a second a server does by how many connections ask at once, from what `server.py --figures FILE` wrote.

Usage: bench/server_picture.py FILE >PICTURE.svg
"""
import json
import sys

WIDTH, HEIGHT, LEFT, RIGHT, TOP, BOTTOM = 640, 400, 80, 90, 50, 60
COLOURS = {"tabd": "#1f6f8b", "rust": "#b5651d"}


def throughput(figures, who):
    """Pairs of a number of connections and operations a second."""
    return [(int(name.split()[0]), figures["operations"] / seconds) for name, (seconds, _) in figures[who].items() if name.endswith(" at once")]


def step_of(most):
    """A round step that fits up to six times into it."""
    step = 10 ** (len(str(int(most))) - 1)
    while most / step < 3:
        step /= 2
    return step * max(1, -(-int(most / step) // 6))


def text(x, y, words, anchor="middle", colour="#333333", size=13):
    return f'<text x="{x:.1f}" y="{y:.1f}" text-anchor="{anchor}" font-size="{size}" fill="{colour}">{words}</text>'


def line(points, colour, width):
    return f'<polyline fill="none" stroke="{colour}" stroke-width="{width}" points="{" ".join(f"{x:.1f},{y:.1f}" for x, y in points)}"/>'


def picture(figures):
    curves = {who: throughput(figures, who) for who in COLOURS}
    counts = [count for count, _ in curves["tabd"]]
    most = max(rate for curve in curves.values() for _, rate in curve)
    across = {count: LEFT + (WIDTH - LEFT - RIGHT) * at / max(1, len(counts) - 1) for at, count in enumerate(counts)}

    def up(rate):
        return HEIGHT - BOTTOM - (HEIGHT - TOP - BOTTOM) * rate / (most * 1.05)

    yield f'<svg xmlns="http://www.w3.org/2000/svg" viewBox="0 0 {WIDTH} {HEIGHT}" font-family="sans-serif">'
    yield f'<rect width="{WIDTH}" height="{HEIGHT}" fill="white"/>'
    yield text(WIDTH / 2, 26, "Operations a second by connections at once", size=16)
    step = step_of(most)
    for at in range(int(most / step) + 1):
        yield line([(LEFT, up(at * step)), (WIDTH - RIGHT, up(at * step))], "#dddddd", 1)
        yield text(LEFT - 8, up(at * step) + 4, f"{at * step:,.0f}", "end")
    for count, x in across.items():
        yield text(x, HEIGHT - BOTTOM + 22, count)
    yield text((LEFT + WIDTH - RIGHT) / 2, HEIGHT - 14, f"connections, half writes and half ranges of ten rows; {figures['cells']:,} cells, median of {figures['rounds']}", size=12)
    for who, curve in curves.items():
        points = [(across[count], up(rate)) for count, rate in curve]
        yield line(points, COLOURS[who], 2.5)
        yield from (f'<circle cx="{x:.1f}" cy="{y:.1f}" r="4" fill="{COLOURS[who]}"/>' for x, y in points)
        yield text(points[-1][0] + 10, points[-1][1] + 4, "Rust" if who == "rust" else who, "start", COLOURS[who])
    yield "</svg>"


def main():
    if len(sys.argv) != 2:
        sys.exit(__doc__)
    with open(sys.argv[1], encoding="utf-8") as file:
        print("\n".join(picture(json.load(file))))


main()
