#!/usr/bin/env python3
"""Writes the lines of a script that passing.sh runs, the same ones each time.

script.py TABLE first    a table and its inserts, and one scan of a row that isn't there, which freezes them
script.py TABLE SCANS    so many scans of it

TABLE is one of the names below.
"""
import sys

# name: the columns of the row, the puts of each column, and what a scan asks for
TABLES = {
    "versions": (1, 200_000, ""),
    "columns": (10_000, 1, " [r [r f:q05000"),
    "plain": (10_000, 1, ""),
    "all": (10_000, 1, " [r [r f"),
    "few": (10_000, 5, ""),
    "dozen": (10_000, 12, ""),
    "many": (1_000, 100, ""),
}


def first(columns, puts):
    yield "createtable t time=any\n"
    for time in range(puts):
        for column in range(columns):
            yield f"insert t r f q{column:05} \\e v {time}\n"
    yield "scan t \\0 [z \\0\n"


def main(table, part):
    columns, puts, asked = TABLES[table]
    if part == "first":
        sys.stdout.writelines(first(columns, puts))
    else:
        sys.stdout.write(f"scan t \\0{asked}\n" * int(part))


main(*sys.argv[1:])
