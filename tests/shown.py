"""What tests/shown.sh tests: what stands on the page beside what it was told. Its last line counts what passed and failed."""
import os
import sys

from browser import Browser
from page import COLUMNS, TOP, Tests


def mark_of(text):
    """The mark of a view: FNV-1a of 32 bits."""
    mark = 0x811C9DC5
    for letter in text:
        mark = (mark ^ ord(letter)) * 0x01000193 % (1 << 32)
    return f"{mark:08x}"


def plural(number, word):
    return f"{number} {word}{'' if number == 1 else 's'}"


class Shown(Tests):
    def bytes_of(self):
        return self.browser.run("[...document.querySelectorAll('#feet .bytes')].map((it) => it.textContent)")

    def counts(self):
        """Of each reader how many cells and bytes, and how many are covered."""
        self.store("createtable t\ninsert t r f a kept one 1\ninsert t r f b other two 2\ninsert t r f q \\e three -5\ninsert t r3 f q \\e five 5\ninsert t r2 f q gone four 4", ["kept"])
        view = self.views()[0]
        self.count("a reader's cells and bytes are counted", self.bytes_of() == [f"3 cells, 2 covered · {len(view)} bytes · {mark_of(view)}"])
        self.count("times keep their signs", "time -5" in self.browser.run("document.getElementById('rows').textContent"))
        whole = self.browser.run(f"{COLUMNS}[0].map((it) => it.outerHTML).join('')")
        self.count("what is covered stands nowhere in the reader's column", not any(it in whole for it in ("two", "four", "r2")) and whole.count("covered ") == 2)
        self.browser.run("document.querySelector('input[name=eyes][value=own]').click()")
        whole = self.browser.run("document.getElementById('board').outerHTML")
        self.count("and with the reader's eyes nowhere in the table", not any(it in whole for it in ("two", "four", "r2", "other", "gone")))
        told = self.browser.run(f"{COLUMNS}[0].map((it) => it.textContent).join()")
        self.count("where what they are told stands", "one" in told and "time -5" in told)
        self.browser.run("document.querySelector('input[name=eyes][value=root]').click()")
        lines = self.lines() + "\nscan t \\0\nscan t kept\nbogus\nsplits t\nrights t\nstatus none\n"
        self.browser.run("document.getElementById('lines').select()")
        self.browser.type(lines)
        answers = self.browser.run("[...document.getElementById('answers').children].map((it) => it.textContent)")
        self.count("a line's answer says how much it shows", answers[-7:] == ["2 cells", "BadAuthorizations kept", "line fault", "0 lines", "2 lines", "NoTable none", ""])
        self.count("lines and faults are counted", self.browser.run("document.getElementById('count').textContent") == f"{len(lines.splitlines()) + 1} lines, 3 refused or at fault")

    def compared(self):
        """What was remembered is compared byte by byte: one letter that differs is told."""
        self.store("createtable t\ninsert t r f a \\e secret 1", [])
        same = "[...document.querySelectorAll('#feet .same')].map((it) => it.textContent)"
        self.browser.run("document.getElementById('pin').click()")
        before = self.bytes_of()
        self.count("what is alike is the same", self.browser.run(same) == ["same, byte for byte"])
        self.browser.run("document.getElementById('lines').select()")
        self.browser.type("createtable t\ninsert t r f a \\e secreT 1")
        self.count("what has its length is another all the same", self.browser.run(same) == ["told otherwise"])
        self.count("and has another mark", self.bytes_of() != before and self.bytes_of()[0].split(" · ")[:2] == before[0].split(" · ")[:2])
        self.store("createtable t\ninsert t r f a secret one 1", ["secret"])
        self.browser.run("document.getElementById('add').click(); document.getElementById('pin').click(); document.querySelector('.remove').click()")
        self.count("who stays is compared with what they were told themselves", self.browser.run(same) == ["same, byte for byte"])

    def markup(self):
        """What looks like markup is text, wherever it comes from."""
        self.store("createtable t\ninsert t <b>r f <i>q \\e <img\\x20src=x\\x20onerror=ran()> 1\n<u>bogus", ["<s>x"])
        found = self.browser.run("['b', 'i', 'u', 's', 'img'].map((it) => document.querySelectorAll(`main ${it}, #board ${it}, #tint ${it}, #here ${it}`).length).join()")
        self.count("markup in a store is text", found == "0,0,0,0,0")
        self.count("which is shown as it is", "<img\\x20src=x" in self.browser.run("document.getElementById('rows').textContent"))
        self.browser.run("document.querySelector('input[name=eyes][value=own]').click()")
        told = self.browser.run(f"{COLUMNS}[0].map((it) => it.textContent).join()")
        made = self.browser.run("document.querySelectorAll('main :is(i, u, s, img, b b, .value b)').length")
        self.count("with the reader's eyes too", "<b>r" in told and "<img\\x20src=x" in told and made == 0)
        self.browser.run("document.querySelector('input[name=eyes][value=root]').click()")

    def worlds_compared(self):
        """Two worlds are compared byte by byte, and what is typed in them is text."""
        run = self.browser.run
        run("document.getElementById('examples').children[4].click()")
        run("document.querySelectorAll('.remove')[2].click(); document.querySelectorAll('.remove')[1].click()")
        verdict = "document.querySelector('#both-rows .verdict').textContent.split(':')[0]"
        for first, second, wanted in [("secret", "secret", "the same bytes"), ("secret", "secreT", "other bytes"), ("<b>secret", "<i>secret", "other bytes")]:
            for world, value in enumerate([first, second]):
                run(f"document.querySelector('input[name=world][value=\"{world}\"]').click()")
                run("document.getElementById('lines').focus(); document.getElementById('lines').select()")
                self.browser.type(f"createtable t\ninsert t r f a \\e {value} 1")
            self.count(f"{first} and {second} are {wanted}", run(verdict) == wanted)
            lacked = run("[...document.querySelectorAll('#other-lines .differs .said, #tint .differs')].map((it) => it.textContent)")
            wanted = [] if first == second else [f"insert t r f a \\e {second} 1", f"only in World A: insert t r f a \\e {first} 1"]
            self.count("the lines that differ are marked", lacked == wanted)
        self.count("and none is markup", run("document.querySelectorAll('main b, main i').length") == 0)
        run("document.getElementById('examples').children[0].click()")

    def tables(self):
        """Of several tables the last is shown, until another is chosen; one that was dropped is none."""
        self.store("createtable t\ncreatetable u\ncreatetable gone\ninsert t r f q \\e one 1\ninsert u r f q \\e two 2\ndroptable gone", [])
        options = "[...document.getElementById('table').options].map((it) => it.value).join()"
        self.count("the tables that there are", self.browser.run(options) == "t,u")
        self.count("the last is shown", "two" in self.views()[0])
        self.browser.run("(() => { const it = document.getElementById('table'); it.value = 't'; it.dispatchEvent(new Event('change')); })()")
        self.count("or the one that is chosen", "one" in self.views()[0] and "two" not in self.views()[0])

    def long_answers(self):
        """An answer that takes more room than there is at first comes whole."""
        self.store(f"createtable t\ninsert t r f q \\e {10_000 * 'v'} 1\n" + 120 * "scan t \\0\n", [])
        told = self.browser.run("state.last.answers.join('')")
        self.count("a long answer comes whole", len(told) > 1_200_000 and told == self.told(self.lines()))

    def limits(self):
        """A limit holds for as long as it is chosen, for each question anew."""
        self.store("createtable t\n" + "insert t r f q \\e v 1", [])
        before, choose = self.views(), "(bytes) => { const it = document.getElementById('memory'); it.value = bytes; it.dispatchEvent(new Event('change')); }"
        self.count("without a limit all is answered", before == ["r f q \\e 1 v\nend\n"])
        for _ in range(2):
            self.browser.run(f"({choose})('262144')")
            self.count("with one memory runs out", self.browser.run("state.last === null"))
            self.browser.run(f"({choose})('0')")
            self.count("and not without it", self.views() == before)


def main():
    browser = Browser()
    try:
        tests = Shown(sys.argv[1], browser)
        browser.open("file://" + os.path.realpath(f"{TOP}/web/index.html"))
        browser.wait("typeof state !== 'undefined' && state.last !== null")
        for test in (tests.counts, tests.compared, tests.markup, tests.worlds_compared, tests.tables, tests.long_answers, tests.limits):
            test()
    finally:
        browser.close()
    print(f"{tests.passed} passed, {tests.failed} failed")
    return tests.failed != 0


if __name__ == "__main__":
    sys.exit(main())
