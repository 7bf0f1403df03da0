#!/usr/bin/env python3
"""Runs a program over a script in parts, and prints for each part a line: the seconds of the processor, user and system,
that it took, the KiB of memory that are resident behind it, and the most that were resident meanwhile.

phases.py PART:BYTES .. -- COMMAND..

PART is a file with a part of its input, and BYTES says how long the answers to that part are. Each part is given once all
answers to the one before have come. Linux alone tells such times and memory.
"""
import subprocess
import sys
import threading
import time


def processor_seconds(process):
    """Those of all its threads since it began, by the clock that clock_getcpuclockid names on Linux."""
    return time.clock_gettime(~process.pid << 3 | 2)


def memory(process):
    """KiB that are resident, and the most since the last call."""
    with open(f"/proc/{process.pid}/status") as told:
        fields = dict(line.split(":", 1) for line in told)
    with open(f"/proc/{process.pid}/clear_refs", "w") as peaks:
        peaks.write("5")
    return int(fields["VmRSS"].split()[0]), int(fields["VmHWM"].split()[0])


def give(process, lines):
    process.stdin.write(lines)
    process.stdin.flush()


def answer(process, lines, length):
    """Gives it lines, takes that many bytes of answers, and tells its seconds so far."""
    writer = threading.Thread(target=give, args=(process, lines), daemon=True)
    writer.start()
    while length > 0:
        block = process.stdout.read1(1 << 16)
        if not block:
            sys.exit("it ended before its last answer")
        length -= len(block)
    writer.join()
    return processor_seconds(process)


def phases(parts, command):
    """Gives the parts, each as its lines and the length of its answers, and tells the three numbers of each."""
    process = subprocess.Popen(command, stdin=subprocess.PIPE, stdout=subprocess.PIPE)
    before = 0
    for lines, length in parts:
        now = answer(process, lines, length)
        yield now - before, *memory(process)
        before = now
    process.stdin.close()
    if process.wait() != 0:
        sys.exit("it failed")


def main(words):
    at = words.index("--")
    parts = [word.rsplit(":", 1) for word in words[:at]]
    for numbers in phases([(open(part, "rb").read(), int(length)) for part, length in parts], words[at + 1:]):
        print(*numbers)


if __name__ == "__main__":
    main(sys.argv[1:])
