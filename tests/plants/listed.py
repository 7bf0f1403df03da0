"""The planted faults: what the lists beside this file say. An entry of a list:

    ## a-name
        loses: what a user would lose
        seen by: the tests that see it, as `store power`, or one part of one, as `disk:loads`; or `slows: bench/NAME`, where it changes speed
                 alone, or memory
        tries: how often these tests are run at most, where it is seen by chance; once by default
        file: the file, from the top of the checkout
        old: a text that stands there once; several lines in turn are lines in turn
        new: what comes in its place

In the new text of a file under crates/, `PLANTED` stands for "this fault is on": all of those are built into one program.
"""
import os
import re

HERE = os.path.dirname(os.path.realpath(__file__))
TOP = os.path.dirname(os.path.dirname(HERE))
LISTS = ("program", "client", "around")
SWITCH = "PLANTED"
# What a script runs.
SCRIPT = re.compile(r"/tests/([a-z_]+)\.py")


class Plant:
    """A planted fault. Those of the program are numbered from 1."""

    def __init__(self, name):
        self.name, self.number = name, 0
        self.loses, self.seen, self.slows, self.tries, self.file, self.pairs = "", [], "", 1, "", []

    def is_built_in(self):
        return self.file.startswith("crates/")

    def files(self):
        """Where it is put: the page is joined of the files beside it, so what stands there stands in it too."""
        return [self.file, "web/index.html"] if self.file.startswith("web/") else [self.file]

    def misfit(self, text):
        """Why it can't be planted into this text of its file, or None."""
        for old, new in self.pairs:
            if text.count(old) != 1:
                return f"its text stands there {text.count(old)} times: {old}"
            if self.is_built_in() and SWITCH not in new:
                return f"its new text has no {SWITCH}: {new}"
        return None

    def planted_in(self, text, switch=""):
        """The file's text with the fault in it, on where the switch says."""
        for old, new in self.pairs:
            text = text.replace(old, new.replace(SWITCH, switch))
        return text


def read(path):
    with open(f"{TOP}/{path}", encoding="utf-8") as file:
        return file.read()


def plants_of(text):
    """The entries of a list."""
    found, before = [], None
    for line in text.splitlines():
        if line.startswith("## "):
            found.append(Plant(line[3:]))
        if not found or not line.startswith("    "):
            continue
        word, _, rest = line[4:].partition(":")
        rest = rest[1:]
        plant = found[-1]
        if word in ("old", "new"):
            if word == "old" and before != "old":
                plant.pairs.append(("", ""))
            old, new = plant.pairs[-1]
            if word == "old":
                old = f"{old}\n{rest}" if before == "old" else rest
            else:
                new = f"{new}\n{rest}" if before == "new" else rest
            plant.pairs[-1] = (old, new)
        elif word == "seen by":
            plant.seen = rest.split()
        elif word == "tries":
            plant.tries = int(rest)
        else:
            setattr(plant, word, rest)
        before = word
    return found


def all_plants():
    """All planted faults."""
    found = [plant for name in LISTS for plant in plants_of(read(f"tests/plants/{name}.txt"))]
    for number, plant in enumerate([it for it in found if it.is_built_in()], 1):
        plant.number = number
    return found


def misfits(plants):
    """Of the entries that say too little or too much, or don't fit their file any more, why. Those of the program are put into one text of
    their file one behind the other."""
    names, texts = [plant.name for plant in plants], {}
    for plant in plants:
        try:
            fault = fault_of(plant) or next(filter(None, (plant.misfit(read(path)) for path in plant.files())), None)
            if plant.is_built_in() and not fault:
                text = texts.get(plant.file) or read(plant.file)
                fault = plant.misfit(text) and f"behind others in the same file {plant.misfit(text)}"
                texts[plant.file] = plant.planted_in(text, "is_on")
        except OSError as error:
            fault = str(error)
        if names.count(plant.name) > 1:
            fault = "two have this name"
        if fault:
            yield f"{plant.name}: {fault}"


def fault_of(plant):
    """What an entry says too little or too much, or None."""
    if not plant.loses or not plant.pairs:
        return "it says neither what is lost nor what is replaced" if not plant.pairs else "it doesn't say what is lost"
    if bool(plant.seen) == bool(plant.slows):
        return "it names tests that see it, or else a bench"
    tests = [name.partition(":") for name in plant.seen]
    for path in [f"tests/{name}.sh" for name, _, _ in tests] + ([plant.slows] if plant.slows else []):
        if not os.path.exists(f"{TOP}/{path}"):
            return f"there is no {path}"
    for name, _, part in tests:
        script = read(f"tests/{name}.sh") if part else ""
        if part and not any(f"def {part}()" in read(f"tests/{file}.py") for file in SCRIPT.findall(script)):
            return f"tests/{name}.sh has no part {part}"
    return None
