"""The page in a browser: typing, faults, readers, the table of cells and readers, each example, two worlds, memory that runs out, a phone's
width, the keyboard alone, the names that a screen reader tells, and that nothing is asked of a network. What it shows is compared with what the
program prints.
Usage: page.py PROGRAM [--picture FILE] [--page FILE]   (--picture: a picture for README is made too)
       page.py PROGRAM --scripts FOLDER   (writes the scripts for page.mjs: those of tests/cases, and 500 random ones, with the program's bytes)"""
import glob
import os
import subprocess
import sys
import time

sys.dont_write_bytecode = True
HERE = os.path.dirname(os.path.realpath(__file__))
sys.path.insert(0, HERE)
TOP = os.path.dirname(HERE)
# of each reader the fields of their column, from the top
COLUMNS = "[...document.querySelectorAll('.reader')].map((head) => [...document.querySelectorAll('#rows tr')].map((row) => row.cells[head.cellIndex]).filter(Boolean))"
# the values that they see; a value stands once in its row, or with the readers' own eyes in the field
VALUES = f"{COLUMNS}.map((column) => column.filter((it) => it.classList.contains('shown')).map((it) => (it.querySelector('.value') ?? it.parentElement.querySelector('.value')).textContent))"


def cells_of(view):
    """The cells that a scan printed, a line each."""
    return [it for it in view.split("\n") if it.count(" ") == 5]


def printed(program, lines, *words):
    """What the program prints, and what it says on standard error."""
    ran = subprocess.run([program, "script", *words], input=lines, capture_output=True, timeout=60, check=True)
    return ran.stdout, ran.stderr


def cases():
    """Each script of tests/cases: its name and its lines."""
    for file in sorted(glob.glob(f"{HERE}/cases/*.txt")):
        scripts = []
        for line in open(file, "rb").read().split(b"\n"):
            if line.startswith(b"# "):
                scripts.append(b"")
            elif line.startswith(b">"):
                scripts[-1] += line[2:] + b"\n"
        for number, lines in enumerate(scripts):
            yield f"{os.path.basename(file)[:-4]}-{number}", lines


def random_scripts(count):
    from interleavings import Store, steps

    for seed in range(1000, 1000 + count):
        store, lines = Store(), []
        for line in steps(seed, 150, store):
            store.ask(line)
            lines.append(line + "\n")
        yield f"random-{seed}", "".join(lines).encode()


def write_scripts(program, folder):
    for name, lines in [*cases(), *random_scripts(500), ("clinic", open(f"{TOP}/examples/clinic.txt", "rb").read())]:
        with open(f"{folder}/{name}.lines", "wb") as to:
            to.write(lines)
        with open(f"{folder}/{name}.wanted", "wb") as to:
            to.write(printed(program, lines)[0])


class Tests:
    """What is seen of the page, and how it went."""

    def __init__(self, program, browser):
        self.program, self.browser, self.passed, self.failed = program, browser, 0, 0

    def count(self, name, holds):
        if holds:
            self.passed += 1
        else:
            self.failed += 1
            print(f"FAILED: {name}")

    def told(self, lines):
        return printed(self.program, lines.encode())[0].decode()

    def lines(self):
        return self.browser.run("document.getElementById('lines').value")

    def views(self):
        """The bytes of each reader's view, as the page was told them."""
        return self.browser.run("state.last.views.map((it) => it.view)")

    def agrees(self, name):
        """Whether all that is shown is what the program prints."""
        run = self.browser.run
        lines = self.lines()
        self.count(f"{name}: the answers are the program's", run("state.last.answers.join('')") == self.told(lines))
        asked = run("state.last.views.map((it) => it.asked)")
        behind = [self.told("\n".join([lines, *it])) for it in asked]
        views = self.views()
        self.count(f"{name}: the views are the program's", len(views) > 0 and all(view and whole.endswith(view) for view, whole in zip(views, behind)))
        wanted = [sorted(it.split(" ")[5] for it in view.split("\n") if it.count(" ") == 5) for view in views]
        self.count(f"{name}: the cells that are shown are those of the views", [sorted(it) for it in run(VALUES)] == wanted)
        root = cells_of(run("state.last.root.view"))
        marks = run(f"{COLUMNS}.map((column) => column.map((it) => it.className))")
        answers = [["shown" if it in cells_of(view) else "covered" if view.endswith("end\n") else "refused" for it in root] for view in views]
        self.count(f"{name}: each mark is what the reader's own scan says of the cell", marks == answers)

    def press(self, *keys):
        for key in keys:
            self.browser.press(key)

    def focused(self):
        return self.browser.run("document.activeElement.getAttribute('aria-label') ?? document.activeElement.textContent.trim()")

    # ---- what is tested
    def beginning(self):
        self.agrees("the clinic")
        covered = self.browser.run(f"{COLUMNS}.map((column) => column.flatMap((it) => [...it.querySelectorAll('.fails')].map((part) => part.textContent)).join())")
        self.count("what fails of each label is marked", covered == ["care,care,diagnosis,care,diagnosis,study", "diagnosis,desk,diagnosis,study", "desk"])
        self.count("what is covered shows no value", "asthma" not in self.browser.run(f"{COLUMNS}[0].map((it) => it.outerHTML).join()"))
        said = self.browser.run(f"{COLUMNS}[1].map((it) => it.textContent)")
        self.count("a mark is told in words, too", said[0] == "\u2713sees it care" and said[1] == "covered care&diagnosis lacks diagnosis")
        self.browser.run("document.querySelector('input[name=eyes][value=own]').click()")
        self.count("with a reader's eyes there is no trace of the rest", self.browser.run("document.querySelectorAll('.covered, .cover').length") == 0)
        told = self.browser.run(f"{COLUMNS}.map((column) => column.map((it) => [it.querySelector('b')?.textContent, it.querySelector('.value')?.textContent]))")
        wanted = [[[it.split(" ")[0], it.split(" ")[5]] for it in cells_of(view)] for view in self.views()]
        rows = max(map(len, wanted))
        self.count("but what each is told, in its order and without a gap", told == [it + [[None, None]] * (rows - len(it)) for it in wanted])
        self.browser.run("document.querySelector('input[name=eyes][value=root]').click()")

    def first_line(self):
        """What is said first, and where the documents are."""
        said = self.browser.run("document.querySelector('header').innerText.trim().split('\\n')[0]")
        self.count("the first line says that it is proved", said.startswith("tabd is proved: "))
        meant = said.removeprefix("tabd is proved: ").removesuffix(".")
        self.count("and what that means, in README's words", meant.startswith("a prover ") and meant in open(f"{TOP}/README.md", encoding="utf-8").read())
        links = self.browser.run("[...document.querySelectorAll('a:not([href^=\"#\"])')].map((it) => [it.getAttribute('href'), it.textContent])")
        self.count("README and documents are linked", {"../README.md", "../docs/THEOREM.md", "../docs/CLAIMS.md", "../docs/SCRIPT.md"} <= {it[0] for it in links})
        self.count("each link is shown as what it is, and its file is there", all(to == text and os.path.isfile(f"{TOP}/web/{to}") for to, text in links))
        self.count("and leads to no other place", all(it.startswith("../") for it, _ in links))

    def typing(self):
        run = self.browser.run
        run("document.getElementById('lines').focus(); document.getElementById('lines').setSelectionRange(1e6, 1e6)")
        self.browser.type("\ninsert patients cleo visit room desk 15")
        self.agrees("typing")
        self.count("what was typed is seen at once", "15" in self.views()[0] and "15" not in self.views()[1])
        self.browser.type("\ninsert patients cleo visit\nbogus \u20ac <b>")
        why = printed(self.program, self.lines().encode(), "--explain")[1].decode().rstrip("\n").split("\n")
        shown = run("document.querySelector('#here .why').textContent")
        self.count("a fault is explained as --explain has it", why[-1].split(": ", 1)[1] == shown)
        self.browser.type("\nscan patients diagnosis")
        self.count("a refusal stands beside its line", run("document.getElementById('answers').lastChild.textContent") == "BadAuthorizations diagnosis")
        self.agrees("faults and refusals")

    def readers(self):
        """By the keyboard alone."""
        run = self.browser.run
        run("document.getElementById('add').focus()")
        self.press("Enter")
        self.count("a reader is added, and their name has the focus", run("state.readers.length") == 4 and self.focused() == "Name of the reader")
        self.browser.type("auditor")
        self.press("Tab", "Tab")
        self.count("one comes to their authorizations by Tab", self.focused() == "Give auditor an authorization")
        for auth in ["desk", "diagnosis"]:
            self.browser.type(auth)
            self.press("Enter")
        self.agrees("a reader")
        self.count("they see what their authorizations satisfy", "acme" in self.views()[3] and "asthma" not in self.views()[3])
        self.browser.press("Tab", shift=True)
        self.count("and back to what they hold", self.focused() == "Take diagnosis from auditor")
        self.press("Enter")
        self.count("which is taken from them", run("state.readers[3].auths.join()") == "desk")
        self.browser.press("Tab", shift=True)
        self.browser.press("Tab", shift=True)
        self.press(" ")
        self.count("and they are removed", run("state.readers.length") == 3)
        run("document.querySelector('.reader .who').focus(); document.querySelector('.reader .who').select()")
        self.browser.type("no name")
        self.count("what is no name is told", "line fault" in run("document.querySelector('.reader .notice').textContent"))

    def columns(self):
        """A row for each cell, a column for each reader."""
        run = self.browser.run
        parts = "[...document.querySelectorAll('#rows tr')].map((row) => ['row', 'column', 'of-label', 'value', 'time'].map((it) => row.cells[0].querySelector(`.${it}`).textContent))"
        cells = [it.split(" ") for it in cells_of(run("state.last.root.view"))]
        wanted = [[row, f"{family} \u00b7 {qualifier}", "for everybody" if label == "\\e" else label, value, f"time {time}"] for row, family, qualifier, label, time, value in cells]
        self.count("each cell stands once, at the left", len(cells) > 6 and run(parts) == wanted)
        told = run("[...document.querySelectorAll('.reader .notice')].map((it) => !it.hidden)")
        self.count("whoever is refused is told so in their head, and nobody else", told == [True, False, False])
        marks = run(f"{COLUMNS}.map((column) => column.map((it) => it.className))")
        self.count("and has no mark but that", set(marks[0]) == {"refused"} and set(marks[1]) == {"shown", "covered"})
        widths = "[...document.querySelectorAll('#board tr')].map((it) => it.cells.length)"
        self.count("each row has a field for each reader", set(run(widths)) == {4})
        run("document.getElementById('add').click()")
        self.browser.type("zoe")
        names = [name for role, name in self.browser.named() if role == "columnheader"]
        self.count("a reader more is a column more, named by them", set(run(widths)) == {5} and names[1:] == ["Reader no name", "Reader nurse", "Reader doctor", "Reader zoe"])
        marks = run(f"{COLUMNS}.map((column) => column.map((it) => it.className))")
        self.count("which is the answer to their scan", marks[3] == ["shown" if it in cells_of(self.views()[3]) else "covered" for it in cells_of(run("state.last.root.view"))])
        run("document.querySelector('.remove').click()")
        self.count("one less is a column less", set(run(widths)) == {4} and run("[...document.querySelectorAll('.who')].map((it) => it.value)") == ["nurse", "doctor", "zoe"])
        self.agrees("a column less")

    def scrolling(self):
        """With many readers and cells the table scrolls inside itself, and its head and first column stay."""
        browser, run = self.browser, self.browser.run
        self.store("createtable t\n" + "".join(f"insert t r{i} f q a{i % 3} v{i}\n" for i in range(40)), ["a1"])
        run("for (let i = 0; i < 9; i++) document.getElementById('add').click()")
        self.agrees("many cells and readers")
        box = "((it) => { const at = document.querySelector(it).getBoundingClientRect(); return [at.left, at.top, at.right, at.bottom].map(Math.round); })"
        for width in [390, 1440]:
            browser.size(width, 900, width < 700)
            run("document.getElementById('board').scrollTo(0, 0)")
            before = [run(f"{box}('{it}')") for it in ["#cell-head", ".reader", "#rows th", "#cell-foot"]]
            run("document.getElementById('board').scrollTo(300, 500)")
            after = [run(f"{box}('{it}')") for it in ["#cell-head", ".reader", "#rows th", "#cell-foot"]]
            self.count(f"the corners stay, {width} wide", before[0] == after[0] and before[3] == after[3])
            self.count(f"the head goes to the side alone, {width} wide", after[1][0] == before[1][0] - 300 and after[1][1] == before[1][1])
            self.count(f"the first column goes up alone, {width} wide", after[2][0] == before[2][0] and after[2][1] == before[2][1] - 500)
            self.count(f"and the page has its width, {width} wide", run("document.documentElement.scrollWidth") <= width)
        run("document.getElementById('board').focus()")
        self.count("by the keyboard, too", self.focused() == "The table of cells and readers")
        browser.size(390, 900, True)
        run("document.getElementById('board').scrollTo(900, 0); document.querySelectorAll('.remove')[4].focus()")
        for key in [False, True, True, True]:
            browser.press("Tab", shift=key)
            cell, board, it = (run(f"{box}('{it}')") for it in ["#cell-head", "#board", ":focus"])
            self.count(f"what has the focus isn't covered: {self.focused()}", cell[2] <= it[0] < board[2])
        browser.size(1280, 1000)

    def store(self, lines, auths):
        """These lines, and one reader, `ann`, to whom these authorizations are typed."""
        run = self.browser.run
        run("[...document.querySelectorAll('.remove')].forEach((it) => it.click()); document.getElementById('add').click()")
        self.browser.type("ann")
        for auth in auths:
            run("document.querySelector('.reader .more').focus()")
            self.browser.type(auth)
            self.press("Enter")
        run("document.getElementById('lines').focus(); document.getElementById('lines').select()")
        self.browser.type(lines)

    def nobody(self):
        """Who can't be a user sees nothing, though root, who then asks in their place, would be shown cells."""
        run = self.browser.run
        values = f"{VALUES}[0].join()"
        for auths, seen in [([], "pub"), (["kept"], "mine,pub")]:
            self.store("createtable t\ninsert t r f a kept mine 1\ninsert t r f q \\e pub 1\nsetauths root kept", auths)
            self.agrees(f"a reader of {auths}")
            self.count(f"a reader of {auths} sees what is theirs", run(values) == seen)
            for name in ["ann b", "", "\u00c4nn"]:
                run("document.querySelector('.reader .who').focus(); document.querySelector('.reader .who').select()")
                self.browser.type(name)
                notice = run("document.querySelector('.reader .notice:not([hidden])')?.textContent")
                self.count(f"'{name}' of {auths} is told to be none", notice == f"createuser {name}: line fault")
                counted = run("document.querySelector('#feet .bytes').textContent")
                self.count(f"'{name}' of {auths} sees nothing", run(values) == "" and counted.startswith("0 cells "))
                self.count(f"'{name}' of {auths} has no cell in their view", self.views() == ["line fault\n"])

    def utf8(self):
        """Authorizations are typed in UTF-8, as at the program's prompt."""
        run = self.browser.run
        spelled = {"\u65e5": "\\xe6\\x97\\xa5", "\u00c4": "\\xc3\\x84", "\U0001f511": "\\xf0\\x9f\\x94\\x91", 'a "b",\\': 'a\\x20"b"\\x2c\\\\'}
        lines = ["createtable t", 'insert t r f q "\u65e5" fault 1', 'insert t r f other ee5|"\\xc4" other 1']
        lines += [f'insert t r f {i} "{it}" {i} 1' for i, it in enumerate(list(spelled.values())[:3])]
        self.store("\n".join(lines), spelled)
        self.agrees("authorizations in UTF-8")
        self.count("each is sent as its bytes", run("state.last.views[0].asked.at(-1)") == "scan t " + ",".join(spelled.values()))
        self.count("and is shown as it was typed", run("state.readers[0].auths") == list(spelled))
        self.count("they see the cells of these bytes, and of no others", run(VALUES) == [["0", "1", "2"]])
        self.count("these parts of labels hold, and no others", run("document.querySelectorAll('#rows .part.holds').length") == 3)
        self.count("what isn't spelled is no word of the lines", not run("state.last.root.asked.at(-1)").count("x65e5"))

    def examples(self):
        run = self.browser.run
        for number, title in enumerate(run("EXAMPLES.map((it) => it.title)")):
            run(f"document.getElementById('examples').children[{number}].click()")
            self.agrees(title)
            faults = run("state.last.answers.filter((it) => /^(line fault|refused)/.test(it)).length")
            self.count(f"{title}: nothing is refused", faults == 0)

    def worlds(self):
        run = self.browser.run
        same = "[...document.querySelectorAll('.same')].map((it) => it.textContent)"
        told = run(same)
        self.count("two worlds are compared from the beginning", told == ["same in World B, byte for byte"] * 2 + ["told otherwise in World B"])
        beside = run("[...document.querySelectorAll('#other-lines .differs')].map((it) => it.textContent)")
        self.count("and the other one's lines stand beside", not run("document.getElementById('other').hidden") and "World B" in beside[0] and len(beside) == 5)
        marked = run("[...document.querySelectorAll('#tint .differs')].map((it) => it.textContent)")
        self.count("what differs is marked in both", marked == ["# World A", "insert patients ann health finding care&diagnosis asthma"])
        places = "['.store', '#other', '#both', '#readers'].map((it) => document.querySelector(it).getBoundingClientRect()).map((it) => [it.left, it.top])"
        store, other, both, readers = run(places)
        self.count("the two stand side by side, and the answers under them", store[0] < other[0] and store[1] == other[1] < both[1] < readers[1])
        compared = "[...document.querySelectorAll('#both-rows tr')].map((it) => [...it.cells].map((cell) => cell.textContent))"
        beginning = run(compared)
        self.count("under them it is said who is told the same bytes", [it[3].split(":")[0] for it in beginning] == ["the same bytes"] * 2 + ["other bytes"])
        self.count("and how many", all(f"{len(view)} bytes" in it[1] for it, view in zip(beginning, self.views())))
        self.count("in each world", beginning[0][1] == beginning[0][2] and beginning[2][1] != beginning[2][2])
        before = self.views()
        run("document.querySelector('input[name=world][value=\"1\"]').click()")
        after = self.views()
        self.agrees("the other world")
        self.count("two worlds are told alike to those who can't see what differs", before[:2] == after[:2] and before[2] != after[2])
        self.count("and the page says so", run(same) == ["same in World A, byte for byte"] * 2 + ["told otherwise in World A"])
        self.count("and of which world the table is", run("document.getElementById('readers-title').textContent") == "What each reader sees of World B")
        self.count("each world keeps its side", run(compared) == beginning and run(places)[0][0] == other[0] and run(places)[1][0] == store[0])
        run("document.getElementById('lines').focus(); document.getElementById('lines').setSelectionRange(1e6, 1e6)")
        self.browser.type("\ninsert patients cleo visit room \\e 15")
        self.count("a difference of one's own is compared too", run(same) == ["told otherwise in World A"] * 3)
        self.count("and under the worlds", all(it[3].startswith("other bytes") for it in run(compared)))
        run("document.querySelector('input[name=world][value=\"0\"]').click()")
        self.count("and stays in its world", self.views() == before and run(same) == ["told otherwise in World B"] * 3)
        run("document.getElementById('pin').click()")
        self.count("what is remembered goes before the other world", run(same) == ["same, byte for byte"] * 3)

    def memory(self):
        run = self.browser.run
        answered = self.views()
        choose = "(bytes) => { const it = document.getElementById('memory'); it.value = bytes; it.dispatchEvent(new Event('change')); }"
        run(f"({choose})('262144')")
        self.count("memory that runs out is told", "Memory ran out" in run("document.getElementById('trouble').textContent") and run("state.last === null"))
        self.count("then nothing is said of the two worlds", run("document.querySelectorAll('.verdict').length") == 0)
        run(f"({choose})('0')")
        self.count("and the page goes on", self.views() == answered and run("document.getElementById('trouble').hidden"))
        run("core.begin = core.begin.bind(core); core.exports = { heap_take: () => { throw new WebAssembly.RuntimeError('unreachable'); } }; core.out = null; answerAll()")
        self.count("a trap is told too", run("state.last === null"))
        run("answerAll()")
        self.count("and the core begins anew", self.views() == answered)

    def covered(self):
        """How many labels stand under the replies, and how many lines don't begin where their replies do."""
        return self.browser.run("""(() => {
            const box = (it) => it.getBoundingClientRect();
            const edge = box(document.getElementById('answers')).left, tint = [...document.getElementById('tint').children];
            const lines = document.getElementById('lines'), answers = document.getElementById('answers').children;
            return [
                [...document.querySelectorAll('#tint .t-label')].filter((it) => box(it).right > edge).length,
                tint.filter((it, i) => !answers[i] || Math.abs(box(it).top - box(answers[i]).top) > 1).length,
                Math.max(0, lines.scrollHeight - lines.clientHeight),
            ];
        })()""")

    def aligned(self):
        """Whether none does, once the page has drawn its new size."""
        until = time.monotonic() + 5
        while self.covered() != [0, 0, 0] and time.monotonic() < until:
            time.sleep(0.02)
        return self.covered() == [0, 0, 0]

    def labels(self):
        browser = self.browser
        browser.run("document.getElementById('examples').children[0].click()")
        for width in [320, 390, 768, 1280]:
            browser.size(width, 900, width < 700)
            browser.wait("document.documentElement.clientWidth > 0")
            self.count(f"no label stands under the replies, {width} wide", self.aligned())
        browser.run("document.getElementById('lines').focus(); document.getElementById('lines').setSelectionRange(1e6, 1e6)")
        browser.type("\nscan patients " + "diagnosis" * 12)
        self.count("nor behind a long refusal", self.aligned())
        browser.size(390, 900, True)
        self.count("on a phone either", self.aligned())

    def phone(self):
        """Nothing is wider than a phone, and what is pressed or typed in is high enough for a finger."""
        browser, run = self.browser, self.browser.run
        low = """[...document.querySelectorAll('button, input, select, textarea, summary, a:not(.skip)')].filter((it) => it.checkVisibility()
            && it.getBoundingClientRect().height < 40).map((it) => it.getAttribute('aria-label') ?? it.textContent)"""
        run("document.querySelectorAll('details').forEach((it) => { it.open = true; })")
        browser.size(390, 844, True)
        for number, eyes in [(0, "root"), (0, "own"), (4, "root")]:
            run(f"document.getElementById('examples').children[{number}].click(); document.querySelector('input[name=eyes][value={eyes}]').click()")
            self.count(f"nothing stands beside a phone's screen: example {number}, {eyes}", run("document.documentElement.scrollWidth") <= 390)
            self.count(f"each control is 40 high: example {number}, {eyes} {run(low)}", run(low) == [])
            inside = run("(() => { const it = document.getElementById('board'); return [it.scrollWidth > it.clientWidth, it.getBoundingClientRect().right <= 390]; })()")
            self.count(f"the table scrolls inside itself: example {number}, {eyes}", inside == [True, True])
        run("document.querySelectorAll('details').forEach((it) => { it.open = false; }); document.getElementById('examples').children[0].click()")

    def around(self):
        browser = self.browser
        for width in [320, 390, 768, 1280]:
            browser.size(width, 900, width < 700)
            self.count(f"nothing stands beside a screen {width} wide", browser.run("document.documentElement.scrollWidth") <= width)
        browser.size(1280, 1000)
        colours = []
        for scheme in ["light", "dark"]:
            browser.scheme(scheme)
            colours.append(browser.run("getComputedStyle(document.body).backgroundColor"))
        self.count("it is light or dark, as the system is", colours[0] != colours[1])
        browser.run("document.getElementById('theme').click()")
        self.count("or as one chooses", browser.run("getComputedStyle(document.body).backgroundColor") == colours[0])
        browser.scheme("light")
        nameless = [role for role, name in browser.named() if role in ("button", "textbox", "radio", "combobox", "region", "columnheader", "rowheader", "link") and not name.strip()]
        self.count(f"each thing has a name ({nameless})", not nameless)
        asked = [it["params"]["request"]["url"] for it in browser.events if it["method"] == "Network.requestWillBeSent"]
        self.count("nothing is asked of a network", all(it.startswith(("file:", "data:", "about:")) for it in asked))
        faults = [it for it in browser.events if it["method"] == "Runtime.exceptionThrown"]
        self.count(f"no script fails {faults}", not faults)


def main():
    program, words = sys.argv[1], sys.argv[2:]
    options = dict(zip(words[::2], words[1::2]))
    if "--scripts" in options:
        write_scripts(program, options["--scripts"])
        return 0
    from browser import Browser

    browser = Browser()
    try:
        tests = Tests(program, browser)
        browser.open("file://" + os.path.realpath(options.get("--page", f"{TOP}/web/index.html")))
        browser.wait("typeof state !== 'undefined' && state.last !== null")
        if "--picture" in options:
            browser.size(1440, 930)
            browser.picture(options["--picture"])
        for test in [tests.first_line, tests.beginning, tests.typing, tests.readers, tests.columns, tests.nobody, tests.utf8, tests.scrolling]:
            test()
        for test in [tests.examples, tests.worlds, tests.memory, tests.labels, tests.phone, tests.around]:
            test()
    finally:
        browser.close()
    print(f"{tests.passed} passed, {tests.failed} failed")
    return tests.failed != 0


if __name__ == "__main__":
    sys.exit(main())
