#!/usr/bin/env python3
"""Writes the lines of a script that store.sh runs, the same ones each time.

script.py inserts CELLS        a table, its reader, and CELLS inserts, one to a row, in random order
script.py whole                one scan of the whole table
script.py compaction           a flush and a full compaction
script.py short CELLS SCANS    SCANS scans of ten neighbouring rows each
script.py turns FROM TO        of writes and scans in turn those from FROM up to TO: a flush behind each 500th, and a partial
                               compaction behind each 5000th; the first begins with the table and its reader
"""
import sys

MASK = (1 << 64) - 1
LABELS = ["A", "A&B", "A&(B|C)", "B|D", "D", "A&D", "(A|B)&E", "D&(A|E)"]
LETTERS = "abcdefghijklmnopqrstuvwxyz"
NEIGHBOURS = 10
TURN_ROWS = 20_000


def splitmix64(seed):
    """Random words of 64 bits, without end."""
    while True:
        seed = (seed + 0x9E3779B97F4A7C15) & MASK
        word = ((seed ^ (seed >> 30)) * 0xBF58476D1CE4E5B9) & MASK
        word = ((word ^ (word >> 27)) * 0x94D049BB133111EB) & MASK
        yield word ^ (word >> 31)


def shuffled(count, words):
    """The numbers below count in random order, by Fisher and Yates."""
    order = list(range(count))
    for last in range(count - 1, 0, -1):
        other = next(words) % (last + 1)
        order[last], order[other] = order[other], order[last]
    return order


def letters(count, word):
    """Letters of one word: ten at most, since 26 ^ 10 is less than 2 ^ 48."""
    text = ""
    for _ in range(count):
        word, letter = divmod(word, 26)
        text += LETTERS[letter]
    return text


BEGINNING = "createtable t time=any\nsetauths root A,B\n"


def insert(row, words):
    word = next(words)
    family, word = word % 4, word // 4
    qualifier, word = word % 1000, word // 1000
    label = LABELS[word % len(LABELS)]
    value = letters(10, next(words)) + letters(10, next(words))
    return f"insert t {row:010} f{family:03} q{qualifier:03} {label} {value} 1\n"


def inserts(cells):
    yield BEGINNING
    words = splitmix64(1)
    for row in shuffled(cells, words):
        yield insert(row, words)


def short_scans(cells, scans):
    words = splitmix64(2)
    for _ in range(scans):
        low = next(words) % (cells - NEIGHBOURS + 1)
        yield f"scan t A,B [{low:010} ({low + NEIGHBOURS:010}\n"


def turns(first, end):
    if first == 0:
        yield BEGINNING
    words = splitmix64(3 + first)
    for turn in range(first, end):
        yield insert(next(words) % TURN_ROWS, words)
        low = next(words) % (TURN_ROWS - NEIGHBOURS + 1)
        yield f"scan t A,B [{low:010} ({low + NEIGHBOURS:010}\n"
        if turn % 500 == 499:
            yield "flush t\n"
        if turn % 5000 == 4999:
            yield "compact t partial\n"


PARTS = {
    "inserts": inserts,
    "whole": lambda: ["scan t A,B\n"],
    "compaction": lambda: ["flush t\n", "compact t full\n"],
    "short": short_scans,
    "turns": turns,
}


if __name__ == "__main__":
    sys.stdout.writelines(PARTS[sys.argv[1]](*map(int, sys.argv[2:])))
