#!/usr/bin/env python3
"""Measures users and tables in one run of a built program at each size: phases.py PROGRAM USERS ROUNDS

Gives `PROGRAM script` the lines of a phase through a pipe, waits for all their answers, and looks at the processor's time
and the resident memory before it gives the next phase.
"""
import subprocess
import sys
import threading

PHASES = (("createuser", "u"), ("dropuser", "u"), ("droptable", "t"))


def lines(command, letter, count):
    return "".join(f"{command} {letter}{number:06}\n" for number in range(1, count + 1))


def spent(process):
    """Nanoseconds of the processor so far."""
    with open(f"/proc/{process.pid}/schedstat") as told:
        return int(told.read().split()[0])


def resident(process):
    """Bytes of resident memory."""
    with open(f"/proc/{process.pid}/status") as told:
        return next(int(line.split()[1]) * 1024 for line in told if line.startswith("VmRSS"))


def give(process, text):
    """Gives the lines and waits for their answers, which must be `ok` each."""

    def write():
        process.stdin.write(text)
        process.stdin.flush()

    writer = threading.Thread(target=write)
    writer.start()
    for line in text.splitlines():
        answer = process.stdout.readline()
        if answer != "ok\n":
            sys.exit(f"{line}: {answer}")
    writer.join()


def run(program, tables, users):
    """Nanoseconds a line of each phase, and bytes a table."""
    process = subprocess.Popen([program, "script"], stdin=subprocess.PIPE, stdout=subprocess.PIPE, text=True)
    give(process, "createtable first\n")
    empty = resident(process)
    give(process, lines("createtable", "t", tables))
    found = [(resident(process) - empty) / tables]
    for command, letter in PHASES:
        before = spent(process)
        give(process, lines(command, letter, users))
        found.append((spent(process) - before) / users)
    process.stdin.close()
    if process.wait() != 0:
        sys.exit(f"status {process.returncode}")
    return found


def main():
    program, users, rounds = sys.argv[1], int(sys.argv[2]), int(sys.argv[3])
    if not 1 <= users <= 1000:
        sys.exit("users: 1 to 1000")
    print(f"{'tables':>8} {'µs, createuser':>15} {'µs, dropuser':>15} {'µs, droptable':>15} {'bytes, a table':>15}")
    for tables in (1_000, 10_000, 100_000):
        least = [min(column) for column in zip(*(run(program, tables, users) for _ in range(rounds)))]
        print(f"{tables:8} {least[1] / 1e3:15.2f} {least[2] / 1e3:15.2f} {least[3] / 1e3:15.2f} {least[0]:15.0f}")


main()
