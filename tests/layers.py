"""Sees how the first lines of the files of specs/ stand to what they import and to docs/DEFINITIONS.md: what is to be believed leads to
nothing that is for proofs, DEFINITIONS says how much each aim asks to believe, README quotes two of these counts, and part IV of DEFINITIONS
lists nothing that is to be believed. And no comment of a source begins with 'The same', and all documents together stay below a limit.

Prints what is wrong, and exits with 1 where something is."""
import functools
import glob
import os
import re
import sys

TOP = os.path.dirname(os.path.dirname(os.path.abspath(__file__)))
# What the first line of a file begins with, from the least to the most that is asked of a reader.
FOR_PROOFS, BY_WHOEVER, BY_ALL = "-- For proofs. ", "-- To be believed by whoever relies on it. ", "-- To be believed. "
# Each aim as docs/DEFINITIONS.md names it, and the files in whose words its contracts are stated.
AIMS = {
    "which replies a run may have": ["tab_history/Legal"],
    "the law of two worlds": ["tab_noninterference/Noninterference"],
    "the same of a server's histories": ["tab_server_law/ServerNoninterference"],
    "where records lie": ["tab_store/Chains"],
    "a book": ["tab_book/Entries", "tab_book/Receipts", "tab_book/Rotating", "tab_book/Telling", "tab_book/Wholeness"],
    "a script": ["tab_prog/Programs"],
    "a served connection": ["tab_work/Unkept"],
}
# Those whose counts of lines README quotes.
QUOTED = ["the same of a server's histories", "a served connection"]
# Files for proofs to which some lead that are to be believed: their first lines are to be changed, or the words moved that are named.
LED_TO = set("""
tab_book/HandedOut tab_codec/Reading tab_core/Bounded tab_core/Holding tab_core/Rotating tab_export/Places tab_help/Explaining
tab_history/Chains tab_history/Rooted tab_image/Conditions tab_image/Loading tab_image/Reading tab_image/Streams
tab_iter/Bags tab_iter/Lists tab_journal/Crashes tab_journal/Reading tab_journal/Spelling tab_journal/Writing tab_key/Encoding
tab_key/RecordSpans tab_key/Same tab_lines/Fields tab_lines/Gives tab_lines/Lines tab_lines/Updates tab_lines/Words tab_loading/Tables
tab_saving/Typed tab_serve/Turns tab_shell/Ahead tab_shell/Readings tab_store/Keeping tab_store/Limits
tab_store/Rightness tab_tablet/Spared tab_tablets/Places tab_tablets/Restored tab_text/Gives tab_text/Reading tab_wire/Asking
tab_wire/FrameReading tab_wire/Heard tab_wire/Requests tab_wire/Taking tab_wire/TalkLaws tab_work/SharedAnswers
""".split())
# All documents together, and how many bytes they may have at most: each fact stands once.
DOCUMENTS = "README.md CHANGELOG.md CONTRIBUTING.md docs/*.md clients/*/README.md bench/README.md examples/*.md packaging/*.md".split()
MOST_BYTES = 180_000
# Files whose first line says neither.
UNSORTED = {"tab_session/LowEnds"}


def read(path):
    with open(path, encoding="utf-8") as file:
        return file.read()


@functools.lru_cache(maxsize=None)
def texts():
    """Returns the text of each file of specs/, by CRATE/FILE."""
    found = glob.glob(f"{TOP}/crates/*/specs/*.antt")
    return {f"{path.split('/')[-3]}/{os.path.basename(path)[:-len('.antt')]}": read(path) for path in found}


@functools.lru_cache(maxsize=None)
def passed_on():
    """Returns which file of another crate a name of a crate's specs/ is passed on from."""
    uses = re.compile(r"^pub use Rattle\.(\w+)\.specs\.(\w+)(?: as (\w+))?$", re.M)
    lists = {name: text for name, text in texts().items() if name.endswith("/Lib")}
    return {f"{name.split('/')[0]}/{it[3] or it[2]}": f"{it[1]}/{it[2]}" for name, text in lists.items() for it in uses.finditer(text)}


def file_of(name):
    """Returns the file that a name stands for, or None for what the sources declare."""
    while name in passed_on():
        name = passed_on()[name]
    return name if name in texts() else None


def named_by(name):
    """Returns the files that a file names."""
    found = re.findall(r"^(?:pub |unfoldable )*use Rattle\.(\w+)\.specs\.(\w+)", texts()[name], re.M)
    return {it for crate, file in found if (it := file_of(f"{crate}/{file}"))}


def below(names):
    """Returns these files and all that they lead to."""
    found, left = set(), list(names)
    while left:
        name = left.pop()
        if name not in found:
            found.add(name)
            left += named_by(name)
    return found


def lines_of(name):
    """Returns how many lines a file has, comments, imports and empty ones aside."""
    return sum(not re.match(r"\s*(--(\s|$)|$)|(pub |unfoldable )*use ", line) for line in texts()[name].splitlines())


def of_class(*beginnings):
    """Returns the files whose first line begins with one of these."""
    return {name for name, text in texts().items() if text.startswith(beginnings)}


def strays():
    """Returns what is wrong with first lines: one says neither; what is to be believed leads to a file that is for proofs, or what is to be
    believed by all to one that isn't. Files of examples and lists of files are neither."""
    sorts = of_class(BY_ALL, BY_WHOEVER, FOR_PROOFS)
    unsorted = {name for name in texts().keys() - sorts if not name.endswith(("Examples", "/Lib"))}
    led_to = below(of_class(BY_ALL, BY_WHOEVER)) & of_class(FOR_PROOFS)
    found = [f"what is to be believed leads to {name}, which is for proofs" for name in sorted(led_to - LED_TO)]
    found += [f"tests/layers.py: nothing that is to be believed leads to {name} any more" for name in sorted(LED_TO - led_to)]
    found += [f"what all have to believe leads to {name}" for name in sorted(below(of_class(BY_ALL)) - of_class(BY_ALL))]
    return found + [f"{name}: does its first line say whether it is to be believed?" for name in sorted(unsorted ^ UNSORTED)]


def miscounts(definitions):
    """Returns which aims DEFINITIONS doesn't say the counts of."""
    rows = [(aim, below(names)) for aim, names in AIMS.items()]
    wanted = [f"| {aim} | {len(files)} | {sum(map(lines_of, files)):,} |" for aim, files in rows]
    return [f"docs/DEFINITIONS.md: it doesn't say: {row}" for row in wanted if row not in definitions]


def misquoted(readme):
    """Returns which counts of lines README doesn't quote."""
    wanted = [f"{sum(map(lines_of, below(AIMS[aim]))):,}" for aim in QUOTED]
    return [f"README.md: it doesn't say that {count} lines are to be believed" for count in wanted if not re.search(rf"\b{count}\b", readme)]


def misplaced(definitions):
    """Returns which files part IV of DEFINITIONS lists, of a crate that it names, though they are to be believed."""
    rows = re.findall(r"^\| (`.*?) \|", definitions[definitions.index("# IV.") :], re.M)
    listed = [(crate, word) for row in rows for words, crate in re.findall(r"((?:`\w+`(?:, | and )?)+) of `(\w+)`", row) for word in re.findall(r"\w+", words)]
    found = {f"{crate}/{word}" for crate, word in listed} & of_class(BY_ALL, BY_WHOEVER)
    return [f"docs/DEFINITIONS.md: part IV lists {name}, which is to be believed" for name in sorted(found)]


def vague():
    """Returns the comments that begin with 'The same': they can't be read without another one."""
    files = sorted(glob.glob(f"{TOP}/crates/*/src/**/*.rt", recursive=True))
    begins = re.compile(r"^\s*//[/!]?\s+The same\b")
    lines = ((path, number, line) for path in files for number, line in enumerate(read(path).splitlines(), 1))
    return [f"{os.path.relpath(path, TOP)}:{number}: a comment begins with 'The same'" for path, number, line in lines if begins.match(line)]


def bulky():
    """Returns what is wrong where all documents together have too many bytes."""
    found = sum(os.path.getsize(path) for words in DOCUMENTS for path in glob.glob(f"{TOP}/{words}"))
    return [f"all documents together have {found:,} bytes, and may have {MOST_BYTES:,}"] if found >= MOST_BYTES else []


def main():
    definitions = read(f"{TOP}/docs/DEFINITIONS.md")
    wrong = strays() + miscounts(definitions) + misquoted(read(f"{TOP}/README.md")) + misplaced(definitions) + vague() + bulky()
    for it in wrong:
        print(it)
    return 1 if wrong else 0


if __name__ == "__main__":
    sys.exit(main())
