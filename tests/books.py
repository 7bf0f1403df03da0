"""Each request for memory refused in turn, alone and with all behind it, over a book's own calls (`apply`, `install`, `rotate`), those of a
shared book, and `serve_shared`, by crates/book_frames. The event is answered 17 or as it always is, and as always where none was refused; what is
asked afterwards is as before where it was answered 17, and as after the whole event where it wasn't. What is handed back is whole: a merge
that couldn't be installed is installed by the next try. At the end all receipts settle, part by part, and no number is missing.

Usage: books.py PROGRAM"""
import sys
import tempfile

from denials import AGAIN, CASES, MANY, SORTED, TABLE, counted, deny_in_turn
from failing import NO_MEMORY, Piped, library

PROGRAM = sys.argv[1]
CLEAN = ["droptable t", "dropuser u"]
ROTATED = ["createuser u", "setauths u A,B", "grant u READ t", "rotate"]
# beside those of tests/denials.py: an act inside a history that was rotated, and one behind it
MORE = [("a second rotation", [*SORTED, *ROTATED], "rotate", TABLE), ("a mutation behind a rotation", [*SORTED, "rotate"], "mutate t k put f q A 2 9 ; del f q A&B 4", TABLE)]


class Pipe:
    """A program that goes from try to try."""

    def __init__(self, folder, preloaded, calls):
        self.program = Piped(PROGRAM, folder, preloaded, calls)

    def fresh(self):
        return self.program

    def close(self):
        return self.program.end()


def is_compaction(event):
    return event.startswith("compact ")


def compactions(pipe, kind):
    """Begin, merge and Install, each request of which is refused in turn: what comes back is merged and installed by the next try."""
    program = pipe.program

    def once(line, at, stays):
        program.ask(*CLEAN, *AGAIN)
        before = program.ask(*TABLE)
        program.control.deny(at, stays)
        answer = program.ask(line)[0]
        failed = program.control.lift() > 0
        between = program.ask("scan t A,B")[0]
        again = program.ask(line)[0] if answer == NO_MEMORY else None
        return before, answer, failed, between, again, program.ask(*TABLE)

    for line in ("compact t partial", "compact t full"):
        right = once(line, 0, 0)
        wrong, refused, tries = [], 0, 0
        for stays in (0, 1):
            at, spared = 0, 0
            while spared < 2:
                at, tries = at + 1, tries + 1
                before, answer, failed, between, again, after = once(line, at, stays)
                spared = 0 if failed else spared + 1
                refused += answer == NO_MEMORY
                good = answer in (b"ok\n", NO_MEMORY) and (failed or answer == b"ok\n") and again in (None, b"ok\n")
                if not (good and before == right[0] and after == right[-1] and between == before[-1]):
                    wrong.append((at, stays, failed, answer, again, after, right[-1]))
        counted.tell(f"{line} in three parts, {kind}", not wrong and refused > 10 and right[0] != right[-1], wrong[:1] or refused)


def calls(folder, preloaded):
    tries = refused = 0
    for kind in ("book", "shared", "served"):
        pipe = Pipe(folder, preloaded, kind)
        for name, before, event, afterwards, *_ in [*CASES, *MORE, MANY]:
            if is_compaction(event) and kind != "served":
                continue
            some = deny_in_turn(kind, pipe, name, before, event, afterwards, step=29 if name == MANY[0] else 1)
            tries, refused = tries + some[0], refused + some[1]
        if kind != "served":
            compactions(pipe, kind)
        ended = pipe.close()
        counted.tell(f"all receipts settle, {kind}", ended == (0, b""), ended)
    counted.tell("memory was refused", refused > 1000, refused)
    print(f"{tries} tries, in {refused} of which an event was refused for memory")


if __name__ == "__main__":
    with tempfile.TemporaryDirectory() as work:
        calls(work, library(work))
    counted.end()
