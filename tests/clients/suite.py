"""The suite by which every client is judged. Each client brings a driver, a program

    DRIVER PLACE USER [SECONDS]

that reads lines of a script (docs/SCRIPT.md) on standard input, does each by the client's calls, and prints its reply as `tabd shell` does,
before it reads the next. PLACE is a port of 127.0.0.1 or the path of a socket file, USER who asks first, SECONDS how long the client waits for
its server. A list of authorizations is a set, and is sent rising. Two lines are the
drivers' own, and print nothing:

    as USER     later lines are this user's, by a connection of their own, which is made with the first request
    hangup      all connections are closed, and the first user asks again

Where a request comes to no reply, the driver prints one of these in place of the rest, and forgets the connection:

    fault closed      it ended, failed or couldn't be made
    fault protocol    what came is none of docs/PROTOCOL.md
    fault timeout     nothing came for so long

A client is right where its driver can't be told from shells (reference.py): all of tests/cases and random scripts (scripts.py) print the same
byte for byte, over a server and over one that is asked for the frames of the proved client and tells what that was told (replay.py); and where
what is told is wrong, cut, slow or nothing, the named fault comes, and never a hang (false_server.py). A driver named with a + behind its name
is judged over servers alone: its client asks other frames for the same.

Usage: suite.py PROGRAM [--scripts N] [--seed S] -- NAME DRIVER-WORDS [-- NAME DRIVER-WORDS]..
"""
import argparse
import concurrent.futures
import difflib
import os
import re
import subprocess
import sys
import tempfile

sys.dont_write_bytecode = True
import false_server  # noqa: E402
import scripts  # noqa: E402
from reference import Server, transcribe  # noqa: E402
from replay import Replay  # noqa: E402

WAIT = 600
NOW = re.compile(rb"\b1[0-9]{12}\b")
passed = failed = 0


def count(good, name, told=""):
    global passed, failed
    if good:
        passed += 1
    else:
        failed += 1
        print(f"FAILED: {name} {str(told)[:1500]}", flush=True)


def drive(words, place, lines, seconds=20):
    """What a driver prints for these lines; what it says on standard error goes on."""
    text = b"".join(line + b"\n" for line in lines)
    ran = subprocess.run([*words, place, "root", str(seconds)], input=text, stdout=subprocess.PIPE, timeout=WAIT)
    return ran.stdout if ran.returncode == 0 else ran.stdout + b"status %d\n" % ran.returncode


def compare(name, title, printed, wanted):
    if printed != wanted:
        lines = [[line[:120].decode("latin-1") for line in text.split(b"\n")] for text in (wanted, printed)]
        count(False, f"{name}: {title}", "\n".join(list(difflib.unified_diff(*lines, "shell", name, n=2, lineterm=""))[:24]))
    else:
        count(True, name)


def masked(text):
    """The text without the server's clock."""
    return NOW.sub(b"<now>", text)


def transcribed(program, folder, lines):
    """The transcripts of scripts, each of which leaves the server as it was."""
    with Server(program, folder) as server:
        return [transcribe(program, folder, server, title, scripts.tidied(it)) for title, it in lines]


def pieces(printed, transcripts, normal=lambda text: text):
    """What was printed for each transcript, as far as the lines before agree in number."""
    found, lines = [], printed.split(b"\n")
    for it in transcripts:
        length = it.text.count(b"\n")
        found.append(normal(b"".join(line + b"\n" for line in lines[:length])))
        lines = lines[length:]
    return found, b"\n".join(lines)


def lines_of(transcripts):
    return [line for it in transcripts for line in [*it.lines, b"hangup"]]


def judge(name, what, printed, transcripts, normal=lambda text: text):
    """Each transcript's text."""
    found, left = pieces(printed, transcripts, normal)
    for it, text in zip(transcripts, found):
        compare(name, f"{what}: {it.title}", text, normal(it.text))
    count(not left, f"{name}: {what}: more is printed", left[:300])


def replayed(name, words, folder, transcripts):
    """The frames of each transcript, and what is printed for its replies."""
    file = os.path.join(folder, "replay.sock")
    with Replay(file, transcripts) as server:
        printed = drive(words, file, lines_of(transcripts))
        wrong = server.finish()
    for title, why in wrong[:5]:
        count(False, f"{name}: the frames of {title}", why)
    count(not wrong, f"{name}: frames", f"{len(wrong)} are wrong")
    judge(name, "replayed", printed, transcripts)


def live(name, words, program, folder, transcripts):
    """Each transcript's text from a server on a port, but for scripts in which it depends on the clock what a marker hides."""
    transcripts = [it for it in transcripts if not any(map(scripts.hides_by_the_clock, it.lines))]
    with Server(program, folder, port=True) as server:
        printed = drive(words, server.place, lines_of(transcripts))
    judge(name, "live", printed, transcripts, masked)


def as_scripts(cases, transcripts):
    """What shells print is what the cases say, where a server can."""
    for case, told in zip(cases, transcripts):
        if not case.is_a_scripts:
            text = b"".join(told.printed[: len(case.lines)])
            compare("shell", f"as a script: {case.title}", text, case.wanted)


def falsehoods(name, words, seconds, experiments):
    """What is wrong: the named fault, and nothing of what came behind it."""
    with false_server.FalseServer(experiments) as server:
        printed = drive(words, str(server.port), server.lines(), seconds)
    parts = printed.split(false_server.BORDER)
    count(len(parts) == len(experiments) + 1, f"{name}: all false servers are asked", printed[-300:])
    for it, text in zip(experiments, parts):
        count(text in it.wanted, f"{name}: {it.title}", f"{text[-200:]} and not {it.wanted}")


def side_by_side(name, *parts):
    """Does the parts, each a function and what it takes, and gives how much of them passed and failed."""
    global passed, failed
    passed = failed = 0
    with concurrent.futures.ThreadPoolExecutor() as pool:
        for part in [pool.submit(*part) for part in parts]:
            try:
                part.result()
            except Exception as fault:  # a part that doesn't come to its end is one failure
                count(False, name, repr(fault))
    return passed, failed


def judged(name, words, program, transcripts):
    """Judges one client by transcripts, in a process of its own."""
    with tempfile.TemporaryDirectory() as folder:
        parts = [(live, name, words, program, folder, transcripts)]
        if not name.endswith("+"):
            parts.append((replayed, name, words, folder, transcripts))
        return side_by_side(name, *parts)


def judged_by_falsehoods(name, words):
    """Judges one client by false servers, in a process of its own."""
    return side_by_side(name, *((falsehoods, name, words, *group) for group in false_server.groups()))


def parse():
    words = sys.argv[1:]
    ends = [at for at, word in enumerate(words) if word == "--"] + [len(words)]
    drivers = [words[low + 1 : high] for low, high in zip(ends, ends[1:])]
    parser = argparse.ArgumentParser()
    parser.add_argument("program")
    parser.add_argument("--scripts", type=int, default=200)
    parser.add_argument("--seed", type=int, default=1)
    return parser.parse_args(words[: ends[0]]), {driver[0]: driver[1:] for driver in drivers}


def main():
    asked, drivers = parse()
    cases, seeds = list(scripts.cases()), range(asked.seed, asked.seed + asked.scripts)
    good = bad = 0
    with tempfile.TemporaryDirectory() as folder, concurrent.futures.ProcessPoolExecutor(2 * len(drivers)) as pool:
        # false servers need no transcript
        parts = [pool.submit(judged_by_falsehoods, name, words) for name, words in drivers.items() if not name.endswith("+")]
        for at in range(0, max(1, len(seeds)), 1000):
            lines = [(case.title, case.lines) for case in cases if at == 0]
            lines += [(f"script {seed}", scripts.Maker(seed).lines()) for seed in seeds[at : at + 1000]]
            transcripts = transcribed(asked.program, folder, lines)
            if at == 0:
                as_scripts(cases, transcripts)
            parts += [pool.submit(judged, name, words, asked.program, transcripts) for name, words in drivers.items()]
            for part in parts:
                good, bad = good + part.result()[0], bad + part.result()[1]
            parts = []
            if len(seeds) > 1000:
                print(f"{at + 1000} scripts: {good} passed, {bad} failed", flush=True)
    good, bad = good + passed, bad + failed
    print(f"{good} passed, {bad} failed")
    sys.exit(1 if bad else 0)


if __name__ == "__main__":
    main()
