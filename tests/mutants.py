"""Sees that wrong bodies and turned definitions are refused, many in one check. crates/NAME/must-fail/mutants.md lists those of a
crate, one function each. Mutants of different functions are applied to one copy of the crate, and the prover is asked for these
functions: each must be left unproved, and for what it ensures, not for a name that a proof no longer finds. What a copy
of many doesn't show is tried again, at last alone. A turned definition that no function is proved from is refused by an example of
specs/, or by a lemma for the crates above: their file is named in the function's place. Of each is said by which clause it was refused.

As a control, crates/NAME/must-fail/equal.md lists bodies of the same form that mean the same: each must be proved, so that a refusal says
something of a body's meaning and not only of its form.

mutants.seen keeps of each mutant that was refused the sum of all that its refusal stands on: its entry, its crate, what the crates
below state, this file, the stubs, and the kit; comments left out. Where that sum is still its own it isn't tried again, but for --all."""
import collections
import concurrent.futures
import functools
import glob
import hashlib
import itertools
import os
import queue
import re
import shutil
import subprocess
import sys
import tempfile
import time

from stubs import copy_proof, finish, functions_of, stubs_in, touched_in, twin_in

TOP = os.path.dirname(os.path.dirname(os.path.abspath(__file__)))
# The sums of the mutants that were refused, and where each run leaves those of today: whoever commits them copies them there.
SEEN, SEEN_NOW = f"{TOP}/tests/mutants.seen", f"{TOP}/tests/out/mutants.seen"
# What a copy of a crate gets, so that the prover reads a file of examples or lemmas.
READS = "reads_it"
# A line of a source or a proof that is a comment.
COMMENT = re.compile(r"^ *(?://|--).*\n", re.M)
# An error of a proof that no longer finds a name, or that stands on one that was rejected: it says nothing of the contract.
NAMES = re.compile(r"has no field|is not in scope|has no `|was not admitted|which was rejected, (was|were) not checked")


class Mutant:
    """A wrong body or turned definition: the function that must be refused, and the texts of one file that it replaces."""

    def __init__(self, crate, name, is_equal=False):
        self.crate, self.name, self.function, self.file, self.pairs = crate, name, None, None, []
        # whether it means the same, so that it must be proved
        self.is_equal = is_equal
        # the end of the name of the copy of its function that it is applied to; none where it is the function itself
        self.twin = ""
        # how long the checks of its function took, of a processor, and how many they were
        self.seconds, self.checks = 0, 0

    def spans(self, text):
        """Returns where the texts that it replaces stand in the file's, and what comes there."""
        for old, _ in self.pairs:
            if text.count(old) != 1:
                raise ValueError(f"the text is there {text.count(old)} times: {old}")
        return [(text.index(old), text.index(old) + len(old), new) for old, new in self.pairs]

    def asked(self):
        """Returns the function that the prover is asked for."""
        return self.function + self.twin

    def own(self, text):
        """Returns the function in its file's text that it changes, if it changes nothing else and the function can stand there twice."""
        name, spans = self.function.split("::")[-1], self.spans(text)
        found = [it for it in functions_of(text) if it.name == name and all(it.attributes <= start and end <= it.end for start, end, _ in spans)]
        if len(found) != 1 or found[0].is_of_a_trait or "#[cycle(" in text[found[0].attributes : found[0].head]:
            return None
        return found[0]

    def goes_with(self, other):
        """Returns whether another can be applied to the same copy of the crate: to another function, and to other texts."""
        if self.asked() == other.function:
            return False
        if self.file != other.file or self.twin:
            return True
        text = read(f"{folder(self.crate)}/{self.file}")
        return not any(start < last and first < end for start, end, _ in self.spans(text) for first, last, _ in other.spans(text))

    def turns_a_definition(self):
        """Returns whether it changes what contracts say, so that functions besides its own may be refused for it."""
        return self.file.startswith("specs/")

    def names_a_file(self):
        """Returns whether a file of examples, or of lemmas for the crates above, is named in the place of its function."""
        return self.function.endswith(".antt")

    def __str__(self):
        return f"{self.crate}/{self.name}"


@functools.lru_cache(maxsize=None)
def kit():
    """Returns the folder of the kit."""
    return os.path.dirname(subprocess.run(["rt", "doc"], capture_output=True, text=True, check=True).stdout.strip())


def folder(crate):
    return f"{TOP}/crates/{crate}"


def library(crate):
    return f"{folder(crate)}/out/rlib/{crate}.rlib"


def read(path):
    with open(path, encoding="utf-8") as file:
        return file.read()


def dependencies():
    """Returns what each crate names in crates.txt."""
    rows = [line.partition(":") for line in read(f"{TOP}/crates.txt").splitlines() if ":" in line and line[0] != "#"]
    return {name.split()[0]: named.split() for name, _, named in rows}


def below(crate, named):
    """Returns the crates of the repository below a crate."""
    found = set()
    for it in named[crate]:
        if it in named and it not in found:
            found |= {it} | below(it, named)
    return found


@functools.lru_cache(maxsize=None)
def text_of(crate, parts):
    """Returns the sum of a crate's files in these folders, by path and contents, without the lines that are comments."""
    files = sorted(path for part in parts for path in glob.glob(f"{folder(crate)}/{part}/**", recursive=True) if os.path.isfile(path))
    return sum_of([*(os.path.relpath(it, TOP) for it in files), *(COMMENT.sub("", read(it)) for it in files)])


def sum_of(texts):
    """Returns a sum of some texts."""
    return hashlib.sha256("\0".join(texts).encode()).hexdigest()[:24]


@functools.lru_cache(maxsize=None)
def tools():
    """Returns the sum of what tries them: this file, the stubs, and the kit."""
    version = subprocess.run(["rt", "version"], capture_output=True, text=True, check=True).stdout
    return sum_of([version, read(__file__), read(f"{TOP}/tests/stubs.py")])


def sum_for(mutant, named):
    """Returns the sum of all that the refusal of a mutant stands on. What a crate below states is in its src and specs."""
    entry = [str(mutant), str(mutant.function), str(mutant.file), *(text for pair in mutant.pairs for text in pair)]
    states = [text_of(it, ("src", "specs")) for it in sorted(below(mutant.crate, named))]
    return sum_of([tools(), *entry, text_of(mutant.crate, ("src", "specs", "proofs")), *states])


def seen_before():
    """Returns the sums that were kept, by mutant."""
    return dict(line.split() for line in read(SEEN).splitlines()) if os.path.exists(SEEN) else {}


def note_seen(sums):
    """Leaves the sums of the mutants that are refused."""
    os.makedirs(os.path.dirname(SEEN_NOW), exist_ok=True)
    with open(SEEN_NOW, "w", encoding="utf-8") as file:
        file.writelines(f"{mutant} {it}\n" for mutant, it in sorted(sums.items()))


def mutants_of(crate):
    """Returns the mutants that the crate lists, and the bodies that mean the same."""
    return [it for name, is_equal in (("mutants", False), ("equal", True)) for it in listed_in(crate, name, is_equal)]


def listed_in(crate, name, is_equal):
    """Returns those of one list."""
    found, old = [], None
    path = f"{folder(crate)}/must-fail/{name}.md"
    for line in read(path).splitlines() if os.path.exists(path) else []:
        word, _, rest = line.strip().partition(": ") if line.startswith("    ") else line.partition(" ")
        if word == "##":
            found.append(Mutant(crate, rest, is_equal))
        elif word == "in":
            found[-1].function = rest
        elif word == "file":
            found[-1].file = rest
        elif word == "old":
            old = line[len("    old: "):]
        elif word == "new":
            found[-1].pairs.append((old, line[len("    new: "):]))
    return found


def misfits(mutants):
    """Returns of those mutants that can't be applied why: a file is gone, or a text that they replace doesn't stand there once."""
    found = []
    for mutant in mutants:
        try:
            mutant.spans(read(f"{folder(mutant.crate)}/{mutant.file}"))
        except (OSError, ValueError) as error:
            found.append(f"{mutant}: {error}")
    return found


def batches_of(mutants):
    """Parts mutants into batches. One that turns a definition is alone in its batch. Of several of one function, those behind the first
    are applied to copies of it under other names, or where there can be none, stand in batches of their own. So does each that means the same:
    what it calls is as it is."""
    batches, twins = [], itertools.count(1)
    alone = [[it] for it in mutants if it.turns_a_definition() or it.is_equal]
    for mutant in [it for it in mutants if not it.turns_a_definition() and not it.is_equal]:
        fits = next((it for it in batches if all(other.goes_with(mutant) for other in it)), None)
        if fits is None and batches and mutant.own(read(f"{folder(mutant.crate)}/{mutant.file}")):
            mutant.twin = f"_twin{next(twins)}"
            fits = batches[0]
        if fits is None:
            batches.append([mutant])
        else:
            fits.append(mutant)
    return batches + alone


def words_of(crate, named):
    """Returns the command that checks the crate over the libraries that are built."""
    words = [f"{kit()}/bin/rattle", "check", "--crate-name", crate, "src/lib.rt", "--jobs", "1"]
    words += ["--antt-project", f"{kit()}/rattle/logic/antt-project.json", "--logic-built", f"{kit()}/logic_built"]
    for name in ["std", *named]:
        words += ["--extern", f"{name}={library(name) if os.path.isdir(folder(name)) else f'{kit()}/rlibs/{name}.rlib'}"]
    words += ["-L", f"dependency={kit()}/rlibs"]
    for name in sorted(os.listdir(f"{TOP}/crates")):
        if os.path.isdir(f"{folder(name)}/out/rlib"):
            words += ["-L", f"dependency={folder(name)}/out/rlib"]
    return words


def check(batch, named, kept):
    """Returns what the prover says of a copy of the crate with these mutants in it, how long each function took, and which mutants don't
    compile. What is the same in the next copy it keeps."""
    crate = batch[0].crate
    with tempfile.TemporaryDirectory() as room:
        for part in ("src", "specs", "proofs"):
            if os.path.isdir(f"{folder(crate)}/{part}"):
                shutil.copytree(f"{folder(crate)}/{part}", f"{room}/{part}")
        apply(batch, room)
        words = [*words_of(crate, named), "--incremental", kept, "--progress"]
        for mutant in batch:
            if mutant.names_a_file():
                have_read(mutant, room)
            words += ["--only", READS if mutant.names_a_file() else mutant.asked()]
        said, took = told_by(words, room)
        return said, took, uncompiled_in(batch, said, room)


def uncompiled_in(batch, said, room):
    """Returns those mutants of a copy of a crate whose text stands on a line that the compiler refuses: it then asks for no function."""
    found = re.findall(r"^(src/\S+?):(\d+):\d+: error", said, re.M)
    lines = {(path, read(f"{room}/{path}").splitlines()[int(line) - 1]) for path, line in found}
    return [it for it in batch if any(path == it.file and new in line for path, line in lines for _, new in it.pairs)]


def apply(batch, room):
    """Applies the mutants to a copy of their crate, and puts stubs in the place of the bodies that they aren't about."""
    sources = {os.path.relpath(it, room) for it in glob.glob(f"{room}/src/**/*.rt", recursive=True)}
    texts = {path: read(f"{room}/{path}") for path in sources | {it.file for it in batch}}
    spans = {path: [it for mutant in batch if mutant.file == path and not mutant.twin for it in mutant.spans(text)] for path, text in texts.items()}
    spared = {it.function.split("::")[-1] for it in batch}
    spared |= {name for path in sources for name in touched_in(texts[path], spans[path])}
    for path, text in texts.items():
        puts = spans[path] + (stubs_in(text, spared) if path in sources else [])
        puts += [twin_in(text, mutant.own(text), mutant.spans(text), mutant.twin) for mutant in batch if mutant.file == path and mutant.twin]
        # from the last to the first, so that each stands where it stood
        for start, end, new in sorted(puts, reverse=True):
            text = text[:start] + new + text[end:]
        with open(f"{room}/{path}", "w", encoding="utf-8") as file:
            file.write(text)
    finish(room, spared)
    for mutant in batch:
        copy_proof(room, mutant.crate, mutant.function, mutant.twin)


def have_read(mutant, room):
    """Adds a function to the copy of a crate that names what is added to a file of examples or lemmas, so that the prover reads it."""
    at = mutant.function.removesuffix(".antt").split("/")
    is_stated = at[0] == "specs"
    naming = f"ghost use Rattle.{mutant.crate}.{'.'.join(at)}.{{{READS}}};\n" if is_stated else ""
    using = "" if is_stated else f"#[tactic(auto, using(crate::{'::'.join(at)}::{READS}))]\n"
    with open(f"{room}/{mutant.function}", "a", encoding="utf-8") as file:
        file.write(f"\n{'abbrev ' if is_stated else ''}pub {READS} : {{A : Type 0}} → A → A\n{READS} x = x\n")
    with open(f"{room}/src/{READS}.rt", "w", encoding="utf-8") as file:
        file.write(f"{naming}ghost use Rattle.std.specs.Prelude.{{◌≡◌, true}};\n")
        file.write(f"{using}pub fn {READS}()\n    ensures {{ true ≡ true }}\n{{\n}}\n")
    with open(f"{room}/src/lib.rt", "a", encoding="utf-8") as file:
        file.write(f"\nmod {READS};\n")


def told_by(words, room):
    """Returns what a prover says there, and the seconds of a processor that each function took, with what was read before it."""
    said, took, before = [], {}, 0
    how = {"stdin": subprocess.DEVNULL, "stdout": subprocess.PIPE, "stderr": subprocess.STDOUT, "text": True, "errors": "replace"}
    with subprocess.Popen(words, cwd=room, **how) as ran:
        for line in ran.stdout:
            said.append(line)
            found = re.match(r"checked \w+::(\S+), \d+ of \d+$", line)
            if found:
                now = processor_of(ran.pid)
                took[found[1]], before = now - before, now
    return "".join(said), took


def processor_of(process):
    """Returns the seconds of a processor that a process and those that it waited for have taken, of the system's too."""
    fields = read(f"/proc/{process}/stat").rpartition(")")[2].split()
    return sum(int(it) for it in fields[11:15]) / os.sysconf("SC_CLK_TCK")


def refusal(mutant, said):
    """Returns for what the mutant's function, or the file in its place, was refused, or None; of one that means the same, whether it was
    proved."""
    if mutant.is_equal:
        verdict = re.search(rf"^fn {re.escape(mutant.crate)}::{re.escape(mutant.asked())}: (.*)$", said, re.M)
        return "it means the same" if verdict and verdict[1] == "proved" else None
    if mutant.names_a_file():
        errors = re.findall(rf"^\./{re.escape(mutant.function)}:\S+ error: (.*)$", said, re.M)
        return next((it for it in errors if not NAMES.search(it) and READS not in it), None)
    verdict = re.search(rf"^fn {re.escape(mutant.crate)}::({re.escape(mutant.asked())}): (.*)$", said, re.M)
    if not verdict:
        return None
    # (the folder of a function's proofs may have a + in front)
    proofs = "/".join(rf"\+?{re.escape(it)}" for it in verdict[1].split("::"))
    errors = re.findall(rf"^\./proofs/{proofs}/\S+ error: (.*)$", said, re.M)
    if mutant.turns_a_definition() and verdict[2] != "proved":
        # a lemma on which the function stands, or an example, may fail before it
        errors += re.findall(r"^\./(?:proofs|specs)/\S+ error: (.*)$", said, re.M)
    told = [it for it in errors if not NAMES.search(it)]
    # a goal that nothing answers may be one that only has another name now, where others of its proof have vanished
    if not errors and verdict[2].startswith("no proof: expected answers"):
        told = [verdict[2].partition("; ")[2]]
    return told[0] if told else None


def tried(batch, named, kept):
    """Returns of each mutant for what it was refused. Those that a check of many doesn't show (a wrong function can hide the goals of
    those that call it) are tried together once more, as long as that shows some, and then in halves, at last alone. Where one doesn't
    compile, none is shown: the others are then tried without it."""
    said, took, uncompiled = check(batch, named, kept)
    found = {it: refusal(it, said) for it in batch}
    for mutant in batch:
        mutant.checks += 1
        mutant.seconds += sum(took.values()) if len(batch) == 1 else took.get(mutant.asked(), 0)
    missed = [it for it in batch if not found[it]]
    if len(batch) == 1:
        if missed:
            print("\n".join(said.splitlines()[-40:]), flush=True)
        return found
    apart = uncompiled if 0 < len(uncompiled) < len(batch) else batch[: len(batch) // 2]
    for again in [missed] if len(missed) < len(batch) else [apart, [it for it in batch if it not in apart]]:
        if again:
            found |= tried(again, named, kept)
    return found


def copied(kept):
    """Returns a folder that begins as a copy of what the prover kept: it replaces what it proved, and changes none, so links do."""
    copy = tempfile.TemporaryDirectory()
    how = lambda one, other: os.link(one, other) if one.endswith(".oantt") else shutil.copy2(one, other)
    shutil.copytree(kept.name, copy.name, dirs_exist_ok=True, copy_function=how)
    return copy


class Workers:
    """As many at work at once as there are processors. Of what is left each takes what weighs most."""

    def __init__(self, pool):
        self.pool, self.left, self.numbers, self.begun = pool, queue.PriorityQueue(), itertools.count(), []

    def add(self, weighs, call, *given):
        """Has a worker do the call, once those that weigh more are begun."""
        self.left.put((-weighs, next(self.numbers), call, given))
        self.begun.append(self.pool.submit(self.heaviest))

    def heaviest(self):
        """Does the call that weighs most of those that are left, and returns its result."""
        _, _, call, given = self.left.get()
        return call(*given)

    def results(self):
        """Returns the calls' results as they come, also of those that are added meanwhile."""
        at = 0
        while at < len(self.begun):
            yield self.begun[at].result()
            at += 1


def tried_over(batches, named, kept):
    """Returns of each mutant of some batches for what it was refused, and drops what the prover kept."""
    found = {}
    with kept:
        for batch in batches:
            found |= tried(batch, named, kept.name)
    return found


def tried_of(mutants, named, workers):
    """Returns of the first batch of a crate's mutants for what they were refused, and has the others tried.

    What most checks of a crate have to read first is its lemmas: the first batch has them checked. The other batches of wrong bodies go
    on with what the prover kept, one after another, so that what they call is proved once; each turned definition begins with a copy."""
    crate, (first, *others), kept = mutants[0].crate, batches_of(mutants), tempfile.TemporaryDirectory()
    found = tried(first, named, kept.name)
    for batch in others:
        if batch[0].turns_a_definition():
            workers.add(weight(crate, 1), tried_over, [batch], named, copied(kept))
    bodies = [it for it in others if not it[0].turns_a_definition()]
    workers.add(weight(crate, sum(len(it) for it in bodies)), tried_over, bodies, named, kept)
    return found


def weight(crate, count):
    """Returns about how long so many mutants of a crate take: by how much there is to load and to check, and by how many they are."""
    files = [it for part in ("src", "proofs") for it in glob.glob(f"{folder(crate)}/{part}/**", recursive=True)]
    return sum(read(it).count("\n") for it in files if os.path.isfile(it)) + 200 * count


def are_ready(lists, log):
    """Returns those lists of mutants that can be tried: all, or those whose crate is proved by the output of rt ci that grows there."""
    lines = read(log).splitlines() if log else []
    if not log or lines and re.fullmatch(r"\d+ passed, \d+ failed", lines[-1]):
        return lists
    proved = {found[1] for line in lines if (found := re.match(r"rt: (\w+) (?:proved$|is kept: )", line))}
    return [it for it in lists if it[0].crate in proved]


def clause_of(why):
    """Returns the clause of a contract that a refusal speaks of: its name, or "ensures" where it has none."""
    named = re.findall(r"-clause-(\w+)`", why)
    return " and ".join(dict.fromkeys(named)) or ("ensures" if "`returns" in why else "a lemma or an example")


def verdict_on(mutant, why):
    """Returns what is said of a mutant that was refused so, or not; or of one that means the same."""
    if mutant.is_equal:
        return "proved: it means the same" if why else "NOT PROVED, though it means the same"
    return f"refused by {clause_of(why)}: {why[:120]}" if why else "NOT REFUSED for what it ensures"


def tell(found):
    """Prints of each mutant by what it was refused and how long that took, and returns how many were as they must be and how many weren't."""
    for mutant, why in found.items():
        took = f"{mutant.seconds:.0f} s{f', in {mutant.checks} checks' if mutant.checks > 1 else ''}"
        print(f"{mutant}: {verdict_on(mutant, why)} ({took})")
    refused = sum(bool(why) for why in found.values())
    return refused, len(found) - refused


def fit():
    """Prints which mutants can't be applied, and how many can."""
    listed = [it for crate in dependencies() for it in mutants_of(crate)]
    strays = misfits(listed)
    print("\n".join([*strays, f"{len(listed) - len(strays)} passed, {len(strays)} failed"]))
    return 1 if strays else 0


def main(crates, log, tries_all):
    named, seen = dependencies(), {} if tries_all else seen_before()
    sums = {it: sum_for(it, named) for crate in crates or named for it in mutants_of(crate)}
    if strays := misfits(sums):
        sys.exit("\n".join(strays))
    known = {str(it): of for it, of in sums.items() if seen.get(str(it)) == of}
    left = [found for crate in crates or named if (found := [it for it in sums if it.crate == crate and str(it) not in known])]
    begun = list(left)
    print(f"{len(known)} were seen refused before, with all as it is", flush=True)
    lacking = {it for found in left for it in named[found[0].crate] if os.path.isdir(folder(it)) and not os.path.isdir(library(it))}
    if lacking and not log:
        sys.exit(f"mutants: {', '.join(sorted(lacking))}: not built yet (./tabd builds them)")
    with concurrent.futures.ThreadPoolExecutor(len(os.sched_getaffinity(0))) as pool:
        workers, weighs = Workers(pool), lambda found: weight(found[0].crate, len(found))
        while left:
            ready = are_ready(left, log)
            for found in sorted(ready, key=weighs, reverse=True):
                workers.add(weighs(found), tried_of, found, named[found[0].crate], workers)
            left = [it for it in left if it not in ready]
            time.sleep(5 if left else 0)
        counts = []
        for found in workers.results():
            counts.append(tell(found))
            known |= {str(it): sums[it] for it, why in found.items() if why}
    passed, failed = (sum(them) for them in zip(*counts, (len(sums) - sum(map(len, begun)), 0)))
    note_seen(known | ({it: of for it, of in seen_before().items() if it.split("/")[0] not in crates} if crates else {}))
    took = os.times()
    print(f"{(took.children_user + took.children_system) / 60:.1f} minutes of a processor")
    print(f"{passed} passed, {failed} failed")
    return 1 if failed else 0


if __name__ == "__main__":
    words = [it for it in sys.argv[1:] if it != "--all"]
    behind = words[:1] == ["--behind"]
    sys.exit(fit() if words == ["--fit"] else main(words[2:] if behind else words, words[1] if behind else None, "--all" in sys.argv))
