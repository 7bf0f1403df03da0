#!/usr/bin/env python3
"""The table of bench/postgres.sh: of each part the median of the seconds, or of the operations a second, that tabd and PostgreSQL took.

Usage: table.py FILE, each line of which is: who, part, seconds, what was counted, parted by tabs
"""
import sys
from collections import defaultdict
from statistics import median

AIM = 5  # times as fast as PostgreSQL
UNLIKE = """\
Not equal between them:
- Durability: neither syncs. PostgreSQL's tables are unlogged, in files in memory; tabd keeps cells in memory until they are saved.
- Labels: tabd parses and judges each one. PostgreSQL is told beforehand which labels the reader's authorizations satisfy.
- Versions: tabd's limit is one here, as PostgreSQL's key has it, which would need other tables for more or for a horizon.
- Deletes: none is measured. tabd's hide older puts that come later; PostgreSQL's remove what is there.
- Writes: each is a transaction, sent ahead of replies; one COPY writes all, checks no older version and is one transaction.
- Reads: tabd's scans await each thousand cells, PostgreSQL's are one reply. A hundred ranges are one statement to it, which doesn't tell
  where each ends; it shows what is committed by then, tabd's session the table as it was opened.
- History: tabd notes each event and reply for its audit, PostgreSQL nothing."""


def main(file):
    seconds, counts = defaultdict(list), defaultdict(set)
    for line in open(file, encoding="utf-8"):
        who, part, spent, count = line.rstrip("\n").split("\t")[:4]
        seconds[part, who].append(float(spent))
        counts[part].add(int(count))
    print(f"{'':28} {'tabd':>11} {'PostgreSQL':>11} {'ratio':>7} {'aim':>9}")
    for part, (count, *others) in counts.items():
        if others:
            sys.exit(f"{part}: they count differently: {count}, {others}")
        ours, theirs = (median(seconds[part.removesuffix(", beside one COPY") if who == "tabd" else part, who]) for who in ("tabd", "postgres"))
        if part.endswith("at once"):
            print(f"{part:28} {count / ours:9.0f}/s {count / theirs:9.0f}/s {theirs / ours:7.2f} {f'>= {AIM}':>9}")
        else:
            print(f"{part:28} {ours:9.3f} s {theirs:9.3f} s {ours / theirs:7.2f} {f'<= {1 / AIM}':>9}")
    print(f"\n{UNLIKE}")


main(sys.argv[1])
