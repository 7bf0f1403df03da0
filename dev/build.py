#!/usr/bin/env python3
"""Proves and builds the program from a checkout in which little is built; crates that don't stand on each other go side by side.

Usage: build.sh LOG [--keep] [--renew]

What the prover says goes to LOG, and how far it is to standard error. What is left at the end is the program; with --keep the libraries too,
and the work that a next check of each crate begins with. What a build that was stopped had proved, the next one takes. With --renew the
seconds that were measured go to dev/seconds.

A run of `rt` holds the crates below it for as long as it goes on, so each crate is built in a folder of its own, over links to the libraries
that are done, and its library is then moved to its place. What a source that changed meanwhile makes stale, `rt` builds with the program.
"""
import ctypes
import glob
import os
import shutil
import signal
import subprocess
import sys
import time

TOP = os.path.dirname(os.path.dirname(os.path.realpath(__file__)))
RT = f"{TOP}/dev/rt_once"
TABLE = f"{TOP}/dev/seconds"
PROGRAM = "tabd"
PLACE = f"{TOP}/crates/{PROGRAM}/out/build"
# How much more a proof costs for each further processor that it is given: at four it takes twice the time of them.
FURTHER = 1 / 3
# The memory that one process of the prover may take.
GIGABYTES = 3
# A library and the work kept for its next check take about this much more than the library.
WITH_WORK = 2.4
# Behind a library stands this file until a build that keeps nothing is done.
PASSING = "out/passing"


def crate_folder(crate):
    return f"{TOP}/crates/{crate}"


def remove(path):
    if os.path.isdir(path) and not os.path.islink(path):
        shutil.rmtree(path)
    elif os.path.lexists(path):
        os.remove(path)


def read_uses():
    """Of each crate that the program stands on, and itself, the crates that it names."""
    rows = [it.partition("#")[0].partition(":") for it in open(f"{TOP}/crates.txt", encoding="utf-8")]
    named = {row[0].split()[0]: row[2].split() for row in rows if row[1]}
    uses, left = {}, [PROGRAM]
    while left:
        crate = left.pop()
        if crate not in uses:
            uses[crate] = [it for it in named[crate] if it in named]
            left += uses[crate]
    return uses


def below(uses, crate):
    """The crates that the crate stands on."""
    found = set(uses[crate])
    for it in uses[crate]:
        found |= below(uses, it)
    return found


def read_table(crates):
    """Of each crate the processor seconds of its proof by one processor, and the megabytes of its library."""
    rows = [it.split() for it in open(TABLE, encoding="utf-8") if not it.startswith("#")] if os.path.isfile(TABLE) else []
    table = {row[0]: (int(row[1]), int(row[2])) for row in rows}
    return {it: table.get(it) or by_lines(it) for it in crates}


def by_lines(crate):
    """About the same, by the lines of its source, for a crate that the table doesn't have."""
    files = glob.glob(f"{crate_folder(crate)}/src/**/*.rt", recursive=True)
    lines = sum(open(it, "rb").read().count(b"\n") for it in files)
    return 10 + lines // 5, 5 + lines // 8


def lanes_here():
    """As many processors as there is memory for."""
    memory = open("/proc/meminfo", encoding="utf-8").read().partition("MemAvailable:")[2].split()[0]
    return max(1, min(len(os.sched_getaffinity(0)), int(memory) // (GIGABYTES * 1_000_000)))


class Plan:
    """Which crates are done, under way and to come; the clock of a plan goes by the table's seconds."""

    def __init__(self, uses, seconds, lanes, done):
        self.uses, self.seconds, self.lanes = uses, seconds, lanes
        self.done, self.running = set(done), {}
        self.ways = {}
        for crate in sorted(uses, key=lambda it: len(below(uses, it)), reverse=True):
            above = [self.ways[it] for it in uses if crate in uses[it]]
            self.ways[crate] = seconds[crate] + max(above, default=0)

    def copy(self):
        other = Plan(self.uses, self.seconds, self.lanes, self.done)
        other.running = dict(self.running)
        return other

    def cost(self, crate, jobs):
        return self.seconds[crate] * (1 + FURTHER * (jobs - 1))

    def next(self):
        """The crates that can begin now, those with the longest way up first, each with the processors that it gets.

        Each gets one, and the first of them what no other takes. What the whole build waits for longest gets half of all even where others wait."""
        ready = [it for it in self.uses if it not in self.done and it not in self.running and self.done.issuperset(self.uses[it])]
        ready.sort(key=lambda it: -self.ways[it])
        longest = max((self.ways[it] for it in [*ready, *self.running]), default=0)
        idle = self.lanes - sum(jobs for _, jobs in self.running.values())
        found = []
        while ready and idle > 0:
            crate = ready.pop(0)
            least = self.lanes // 2 if self.ways[crate] == longest else 1
            jobs = max(min(least, idle), idle - len(ready), 1)
            found.append((crate, jobs))
            idle -= jobs
        return found

    def begin(self, crate, jobs):
        self.running[crate] = (self.cost(crate, jobs), jobs)

    def end(self, crate):
        del self.running[crate]
        self.done.add(crate)

    def pass_time(self, seconds):
        """Takes what this time does off what is left of those under way."""
        for crate, (left, jobs) in self.running.items():
            self.running[crate] = (max(left - seconds * jobs, 0), jobs)

    def time_left(self):
        """How long the rest takes."""
        plan, time = self.copy(), 0
        while True:
            for crate, jobs in plan.next():
                plan.begin(crate, jobs)
            if not plan.running:
                return time
            crate = min(plan.running, key=lambda it: plan.running[it][0] / plan.running[it][1])
            step = plan.running[crate][0] / plan.running[crate][1]
            plan.pass_time(step)
            plan.end(crate)
            time += step

    def share_done(self):
        """How much of the work is done, in percent."""
        done = sum(self.seconds[it] for it in self.done)
        for crate, (left, jobs) in self.running.items():
            done += self.seconds[crate] * (1 - left / self.cost(crate, jobs))
        return int(100 * done / sum(self.seconds.values()))


class Build:
    """A build under way."""

    def __init__(self, log, keeps):
        self.log, self.keeps = log, keeps
        self.uses = read_uses()
        self.table = read_table(self.uses)
        done = [it for it in self.uses if os.path.isfile(f"{crate_folder(it)}/out/rlib/stamp")]
        self.plan = Plan(self.uses, {it: row[0] for it, row in self.table.items()}, lanes_here(), done)
        self.begun, self.processes, self.starts, self.measured = len(done), {}, {}, {}
        # What the crates took by the clock, and what the plan foresaw of them: at first, as much.
        self.took = self.foreseen = 30.0
        self.told = time.monotonic()

    def say(self, what):
        print(f"tabd: {what}", file=sys.stderr, flush=True)
        self.told = time.monotonic()

    def foretell(self):
        missing = [it for it in self.uses if it not in self.plan.done]
        sizes = [self.table[it][1] for it in missing]
        disk = sum(sizes) * WITH_WORK if self.keeps else sum(sizes) + 2 * max(sizes)
        free = shutil.disk_usage(TOP).free / 1e6
        self.say(
            f"{len(missing)} of {len(self.uses)} crates are to be proved and built: {self.minutes()} on {self.plan.lanes} "
            f"processors, {disk / 1000:.1f} GB of disk" + (f", of which only {free / 1000:.1f} are free" if free < disk else "")
        )

    def minutes(self):
        """How long the rest takes here: as planned, by what the crates that are done took against what was planned of them."""
        minutes = max(1, round(self.plan.time_left() * self.took / self.foreseen / 60))
        return f"about {minutes} minute{'s' * (minutes > 1)}"

    def how_far(self):
        return f"{self.plan.share_done()}% done, {self.minutes()} left"

    def own_folder(self, crate):
        """A folder with the crate and those below, over links to their libraries."""
        at, names = f"{PLACE}/{crate}", {crate} | below(self.uses, crate)
        for it in names:
            for part in ("src", "specs", "proofs"):
                if os.path.isdir(f"{crate_folder(it)}/{part}"):
                    shutil.copytree(f"{crate_folder(it)}/{part}", f"{at}/crates/{it}/{part}")
            if it != crate:
                shutil.copytree(f"{crate_folder(it)}/out/rlib", f"{at}/crates/{it}/out/rlib", copy_function=os.link)
        with open(f"{TOP}/crates.txt", encoding="utf-8") as rows, open(f"{at}/crates.txt", "w", encoding="utf-8") as own:
            own.writelines(it for it in rows if it.partition(":")[0].split()[:1] in [[name] for name in names])
        return f"{at}/crates/{crate}"

    def begin(self, crate, jobs):
        self.plan.begin(crate, jobs)
        self.begun += 1
        self.say(f"proving {crate}, {self.begun} of {len(self.uses)}; {self.how_far()}")
        folder = crate_folder(crate) if crate == PROGRAM else self.own_folder(crate)
        if crate == PROGRAM and not os.path.isdir(f"{folder}/out/incremental"):
            self.mark_passing(crate)
        words = ["run", "--jobs", str(jobs), "--", "--version"] if crate == PROGRAM else ["lib", "--jobs", str(jobs)]
        with open(f"{PLACE}/{crate}.log", "wb") as log:
            how = {"stdin": subprocess.DEVNULL, "stdout": log, "stderr": log, "preexec_fn": end_with_parent}
            self.processes[crate] = subprocess.Popen([RT, *words], cwd=folder, **how)
        self.starts[crate] = time.monotonic(), jobs

    def ended(self):
        """The crates whose proofs have ended since, each with whether it is proved."""
        for crate, process in list(self.processes.items()):
            pid, status, used = os.wait4(process.pid, os.WNOHANG)
            if pid:
                process.returncode = status
                del self.processes[crate]
                started, jobs = self.starts[crate]
                self.took += time.monotonic() - started
                self.foreseen += self.plan.cost(crate, jobs) / jobs
                self.measured[crate] = (used.ru_utime + used.ru_stime) / (1 + FURTHER * (jobs - 1))
                yield crate, status == 0

    def mark_passing(self, crate):
        """Notes, where this build keeps nothing, that what it makes of the crate is to go."""
        if not self.keeps:
            open(f"{crate_folder(crate)}/{PASSING}", "w").close()

    def take_library(self, crate):
        """Moves what was made of the crate to its place."""
        made, out = f"{PLACE}/{crate}/crates/{crate}/out", f"{crate_folder(crate)}/out"
        os.makedirs(out, exist_ok=True)
        self.mark_passing(crate)
        if not self.keeps:
            remove(f"{made}/incremental")
        for name in os.listdir(made):
            remove(f"{out}/{name}")
            os.rename(f"{made}/{name}", f"{out}/{name}")
        remove(f"{PLACE}/{crate}")

    def run(self):
        """Proves and builds all, and returns whether it is proved."""
        self.foretell()
        clock = time.monotonic()
        while PROGRAM not in self.plan.done:
            for crate, jobs in self.plan.next():
                self.begin(crate, jobs)
            time.sleep(0.1)
            self.plan.pass_time((time.monotonic() - clock) * self.foreseen / self.took)
            clock = time.monotonic()
            for crate, is_proved in self.ended():
                if not is_proved:
                    self.write_log(last=crate)
                    return False
                if crate != PROGRAM:
                    self.take_library(crate)
                self.plan.end(crate)
            if clock - self.told > 60:
                self.say(self.how_far())
        self.write_log(last=PROGRAM)
        return True

    def write_log(self, last):
        """Writes what the prover said of the crates that are done, and then of the last one."""
        with open(self.log, "wb") as log:
            for crate in [*(it for it in self.starts if it != last), last]:
                with open(f"{PLACE}/{crate}.log", "rb") as it:
                    log.write(it.read())

    def renew_table(self):
        """Writes what was measured to the table."""
        for crate, seconds in self.measured.items():
            part = "incremental" if crate == PROGRAM else "rlib"
            self.table[crate] = round(seconds), size_of(f"{crate_folder(crate)}/out/{part}")
        rows = sorted((crate, *row) for crate, row in self.table.items())
        with open(TABLE, "w", encoding="utf-8") as table:
            table.write("# crate, processor seconds of its proof by one processor, megabytes of its library (build.sh LOG --renew)\n")
            table.writelines(f"{crate} {seconds} {megabytes}\n" for crate, seconds, megabytes in rows)

    def drop_libraries(self):
        """Removes what builds that keep nothing made, but the program; or where this one keeps all, leaves it."""
        for crate in self.uses:
            out = f"{crate_folder(crate)}/out"
            if os.path.isfile(f"{crate_folder(crate)}/{PASSING}"):
                remove(f"{crate_folder(crate)}/{PASSING}")
                for name in [] if self.keeps else ["rlib", "incremental", f"{PROGRAM}.o"]:
                    remove(f"{out}/{name}")
            if os.path.isdir(out) and not os.listdir(out):
                os.rmdir(out)

    def stop(self):
        """Ends what is under way, and leaves no folder of the build."""
        for process in self.processes.values():
            process.kill()
            process.wait()
        shutil.rmtree(PLACE, ignore_errors=True)
        # (a prover ends with its `rt`, but a moment later)
        time.sleep(0.2 * bool(self.processes))
        shutil.rmtree(PLACE, ignore_errors=True)


def size_of(folder):
    """How many megabytes the files below the folder take."""
    return sum(os.path.getsize(f"{at}/{it}") for at, _, names in os.walk(folder) for it in names) // 1_000_000


def end_with_parent():
    """Has the process that begins be killed as soon as this one ends, however it ends."""
    ctypes.CDLL(None).prctl(1, signal.SIGKILL)


def main(words):
    flags = {it for it in words if it.startswith("--")}
    words = [it for it in words if it not in flags]
    if len(words) != 1 or flags - {"--keep", "--renew"}:
        sys.exit("usage: build.sh LOG [--keep] [--renew]")
    for it in (signal.SIGINT, signal.SIGTERM, signal.SIGHUP):
        signal.signal(it, lambda number, _: sys.exit(128 + number))
    build = Build(os.path.abspath(words[0]), "--keep" in flags)
    try:
        remove(PLACE)
        os.makedirs(PLACE)
        if not build.run():
            return 1
        if "--renew" in flags:
            build.renew_table()
        build.drop_libraries()
        return 0
    finally:
        build.stop()


if __name__ == "__main__":
    sys.exit(main(sys.argv[1:]))
