#!/usr/bin/env python3
"""Says when what of the gate was done, in minutes from its start: .ci/run 2>&1 | bench/minutes.py

Passes each line on as it comes. Behind the last one stands a table of the crates: the minutes at which a crate was proved, and its
tests were, and when all of them, rt ci, the scripts of tests/ and the wrong bodies were done.
"""
import re
import sys
import time

KINDS = {
    "proved": r"rt: (\w+) proved$",
    "tests": r"rt: (\w+): its tests are proved$",
}
# Lines that say that something ended: rt ci counts, and the wrong bodies are told of once all were tried.
ENDS = {"rt ci": r"\d+ passed, \d+ failed$", "scripts and wrong bodies": r"== tests/mutants\.sh$"}
start, at, ends = time.time(), {}, {}
for line in sys.stdin:
    sys.stdout.write(line)
    sys.stdout.flush()
    minutes = (time.time() - start) / 60
    for kind, pattern in KINDS.items():
        found = re.match(pattern, line.rstrip())
        if found:
            at.setdefault(found[1], {})[kind] = minutes
    for name, pattern in ENDS.items():
        if re.match(pattern, line):
            ends.setdefault(name, minutes)
end = (time.time() - start) / 60

print("| crate | " + " | ".join(KINDS) + " |\n|---|" + "---|" * len(KINDS))
for crate, times in sorted(at.items(), key=lambda it: it[1].get("proved", end)):
    print(f"| {crate} | " + " | ".join(f"{times[it]:.1f}" if it in times else "" for it in KINDS) + " |")
last = lambda kind: max((it[kind] for it in at.values() if kind in it), default=0.0)
done = "".join(f"{name} done at {ends[name]:.1f}, " for name in ENDS if name in ends)
print(f"all proved at {last('proved'):.1f}, all tests proved at {last('tests'):.1f}, {done}all at {end:.1f} minutes")
