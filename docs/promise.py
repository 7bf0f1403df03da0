#!/usr/bin/env python3
"""Draws docs/promise.svg: one table, three readers, and what each is told. All of it is what the program answers: the store is that of
examples/clinic.txt, and each reader scans it under what they hold; once more over a store without the cells that they aren't shown, where
the answer must be the same, byte for byte. The colours and fonts are those of web/style.css.

Usage: docs/promise.py >docs/promise.svg   (TABD in the environment: another program than the release's)
"""
import os
import re
import subprocess
import sys
from itertools import takewhile
from xml.sax.saxutils import escape

TOP = os.path.dirname(os.path.dirname(os.path.realpath(__file__)))
WIDTH, EDGE, GAP, PANEL, CARD = 960, 28, 14, 370, 164
CARDS_TOP, ROWS_TOP, ROW, ROWHEAD = 112, 196, 28, 30


def text_of(name):
    with open(f"{TOP}/{name}", encoding="utf-8") as file:
        return file.read()


def told(program, lines):
    """What the program prints of these lines behind the replies `ok` of the store."""
    ran = subprocess.run([program, "script"], input="".join(f"{it}\n" for it in lines), capture_output=True, text=True, check=True)
    return ran.stdout.removeprefix("ok\n" * ran.stdout.splitlines().count("ok"))


def cells(answer):
    *shown, end = answer.splitlines()
    if end != "end":
        sys.exit(f"docs/promise.py: a scan was answered {end}")
    return [it.split(" ") for it in shown]


def asked(program):
    """The cells of the store, and of each reader their name, their authorizations and the answer to his scan."""
    lines = [it for it in text_of("examples/clinic.txt").splitlines() if it and not it.startswith("#")]
    store = list(takewhile(lambda it: not it.startswith("as "), lines))
    holds = [it.split(" ")[1:] for it in store if it.startswith("setauths ")]
    everything = ",".join(dict.fromkeys(",".join(it for _, it in holds).split(",")))
    table = cells(told(program, [*store, f"setauths root {everything}", f"scan patients {everything}"]))
    readers = []
    for name, auths in holds:
        scan = [f"as {name}", f"scan patients {auths}"]
        answer = told(program, store + scan)
        covered = [" ".join(it[:4]) for it in table if it not in cells(answer)]
        without = [it for it in store if not any(it.startswith(f"insert patients {cell} ") for cell in covered)]
        if told(program, without + scan) != answer or len(without) != len(store) - len(covered):
            sys.exit(f"docs/promise.py: {name} is told something of what they aren't shown")
        readers.append((name, auths.split(","), answer))
    return table, readers


def look():
    """The colours of web/style.css in light and in dark, and its fonts."""
    style = text_of("web/style.css")
    light, dark = (dict(re.findall(r"--([a-z-]+): (#[0-9a-f]+);", it)) for it in re.findall(r":root[^{]*\{([^}]*)\}", style)[:2])
    names = ["paper", "sheet", "ink", "soft", "line", "accent", "accent-soft", "good", "cover-a", "cover-b"]
    fonts = {name: re.search(rf"--{name}: ([^;]*);", style)[1] for name in ("mono", "serif")}
    fonts["sans"] = re.search(r"font: 16px/1.55 ([^;]*);", style)[1]

    def variables(of):
        return " ".join(f"--{name}: {of[name]};" for name in names)

    return f"""svg {{ {variables(light)} font: 14px {fonts["sans"]}; }}
@media (prefers-color-scheme: dark) {{ svg {{ {variables(dark)} }} }}
text {{ fill: var(--ink); }}
.mono {{ font-family: {fonts["mono"]}; font-size: 13px; }}
.small {{ font-size: 12px; }}
.title {{ font: 500 27px {fonts["serif"]}; }}
.name {{ font: 500 18px {fonts["serif"]}; }}
.soft {{ fill: var(--soft); }}
.good {{ fill: var(--good); font-weight: 600; }}
.row {{ font-weight: 600; }}
.held {{ fill: var(--accent); font-size: 12px; text-anchor: middle; }}
.paper {{ fill: var(--paper); }}
.sheet {{ fill: var(--sheet); stroke: var(--line); }}
.chip {{ fill: var(--accent-soft); }}
.rule {{ stroke: var(--line); }}
.hatched {{ fill: url(#hatched); }}"""


def word(x, y, kind, said):
    return f'<text x="{x}" y="{y}" class="{kind}">{escape(said)}</text>'


def box(x, y, width, height, radius, kind):
    return f'<rect x="{x}" y="{y}" width="{width}" height="{height}" rx="{radius}" class="{kind}"/>'


def places(table):
    """Of each row its name and where it is drawn, of each cell where, and where they end."""
    y, rows, lines = ROWS_TOP, [], []
    for at, cell in enumerate(table):
        if at == 0 or cell[0] != table[at - 1][0]:
            y += ROWHEAD
            rows.append((cell[0], y - 8))
        lines.append(y + 18)
        y += ROW
    return rows, lines, y + 8


def ruled(x, width, rows):
    return [f'<line x1="{x}" x2="{x + width}" y1="{y + 6.5}" y2="{y + 6.5}" class="rule"/>' for _, y in rows]


def drawn_table(table, rows, lines, bottom):
    x = EDGE + 16
    yield box(EDGE + 0.5, CARDS_TOP + 0.5, PANEL, bottom - CARDS_TOP + 44, 14, "sheet")
    yield word(x, CARDS_TOP + 32, "name", "The table")
    yield word(x, CARDS_TOP + 62, "soft", f"{len(table)} cells, each with its label")
    yield from ruled(x, PANEL - 32, rows)
    yield from (word(x, y, "mono row soft", name) for name, y in rows)
    for (_, family, qualifier, label, _, value), y in zip(table, lines):
        yield word(x, y, "soft", f"{family} · {qualifier}")
        yield word(x + 128, y, "mono", value)
        yield word(x + 226, y, "small soft", "for everybody") if label == "\\e" else word(x + 226, y, "mono small", label)
    yield f'<line x1="{x}" x2="{x + PANEL - 32}" y1="{bottom + 6.5}" y2="{bottom + 6.5}" class="rule"/>'
    yield word(x, bottom + 29, "small soft", "& in a label wants both words, | one of them")


def drawn_reader(x, reader, table, rows, lines, bottom):
    name, auths, answer = reader
    shown = cells(answer)
    yield box(x + 0.5, CARDS_TOP + 0.5, CARD, bottom - CARDS_TOP + 44, 14, "sheet")
    yield f'<text x="{x + 14}" y="{CARDS_TOP + 32}"><tspan class="name">{escape(name)}</tspan> <tspan class="small soft" dx="2">holds</tspan></text>'
    left = x + 14
    for held in auths:
        width = 14 + 7.4 * len(held)
        yield box(left, CARDS_TOP + 46, round(width, 1), 22, 11, "chip")
        yield word(round(left + width / 2, 1), CARDS_TOP + 61, "mono held", held)
        left = round(left + width + 6, 1)
    yield from ruled(x + 14, CARD - 28, rows)
    for cell, y in zip(table, lines):
        yield word(x + 14, y, "mono", cell[5]) if cell in shown else box(x + 14, y - 12, max(34, 8 * len(cell[5])), 16, 4, "hatched")
    yield f'<line x1="{x + 14}" x2="{x + CARD - 14}" y1="{bottom + 6.5}" y2="{bottom + 6.5}" class="rule"/>'
    yield word(x + 14, bottom + 29, "mono small soft", f"{len(shown)} cells, {len(answer)} bytes")


def picture(table, readers):
    rows, lines, bottom = places(table)
    height = bottom + 44 + 62
    parts = [box(0, 0, WIDTH, height, 16, "paper"), word(EDGE, 52, "title", "One table, three readers")]
    parts.append(word(EDGE, 82, "soft", "Each asks for all that they may see, and gets it. Hatched: stored, but not for this reader."))
    parts += drawn_table(table, rows, lines, bottom)
    for at, reader in enumerate(readers):
        parts += drawn_reader(EDGE + PANEL + GAP + at * (CARD + GAP), reader, table, rows, lines, bottom)
    same = "Without the hatched cells in the store, each is told the same, byte for byte."
    parts.append(f'<text x="{EDGE}" y="{bottom + 80}"><tspan class="good">=</tspan> {same} <tspan class="soft">From a real run (docs/promise.py).</tspan></text>')
    said = "; ".join(f"{name}, who holds {' and '.join(auths)}, gets {', '.join(' '.join([*it[:3], it[5]]) for it in cells(answer))}" for name, auths, answer in readers)
    return "\n".join(
        [
            f'<svg xmlns="http://www.w3.org/2000/svg" viewBox="0 0 {WIDTH} {height}" width="{WIDTH}" height="{height}" role="img" aria-labelledby="title desc">',
            '<title id="title">One table, three readers, and what each sees of it</title>',
            f'<desc id="desc">A table of {len(table)} cells with labels. {escape(said)}. {same}</desc>',
            f"<style>\n{look()}\n</style>",
            '<pattern id="hatched" width="10" height="10" patternUnits="userSpaceOnUse" patternTransform="rotate(45)">'
            '<rect width="10" height="10" style="fill: var(--cover-b)"/><rect width="5" height="10" style="fill: var(--cover-a)"/></pattern>',
            *parts,
            "</svg>",
        ]
    )


def main():
    program = os.environ.get("TABD") or subprocess.run([f"{TOP}/release/program"], capture_output=True, text=True, check=True).stdout.strip()
    print(picture(*asked(program)))


if __name__ == "__main__":
    main()
