// Gives the page's core the scripts of a folder, NAME.lines each, and compares its answers with NAME.wanted, byte for byte; and sees what is
// asked for readers and what is drawn of the answers, over a stand-in for the document.
// Usage: node tests/page.mjs PAGE FOLDER   (Node from 24 on, or with --experimental-wasm-memory64)
import { readFileSync, readdirSync } from "node:fs";
import { runInThisContext } from "node:vm";

const [page, folder] = process.argv.slice(2);
const text = readFileSync(page, "utf8");
const scripts = [...text.matchAll(/<script>\n([^]*?)<\/script>/g)].map((it) => it[1]);
const packed = text.match(/<script id="module"[^>]*>([^<]*)</)[1].trim();
// what the page asks of its core, without what it draws
const asking = scripts[0].split("\n// The page: what stands in it")[0];
// what is drawn: its tag, attributes, class and children, which are text or drawn too
globalThis.document = {
  createElement: (tag) => ({
    tag,
    className: "",
    attributes: {},
    children: [],
    setAttribute(name, value) {
      this.attributes[name] = value;
    },
    append(...more) {
      this.children.push(...more);
    },
  }),
};
const page_parts = "{ Core, LacksMemory, askLines, askAll, askLabels, tablesOf, cellsOf, markOf, brief, drawnRows, drawnOwn, drawnLines, drawnBoth, drawnLabel, treeOf, termsIn }";
const { Core, LacksMemory, askLines, askAll, askLabels, tablesOf, cellsOf, markOf, brief, drawnRows, drawnOwn, drawnLines, drawnBoth, drawnLabel, treeOf, termsIn } = runInThisContext(
  `${asking}\n(${page_parts})`,
);
const core = await Core.unpack(packed);

let passed = 0;
let failed = 0;
function count(name, holds) {
  if (holds) passed += 1;
  else {
    failed += 1;
    console.log(`FAILED: ${name}`);
  }
}

for (const file of readdirSync(folder).filter((it) => it.endsWith(".lines"))) {
  const name = file.slice(0, -6);
  const lines = readFileSync(`${folder}/${file}`);
  const wanted = readFileSync(`${folder}/${name}.wanted`);
  count(`${name}: the page's core answers as the program does`, wanted.equals(core.run(lines)));
  // the same line by line, as the page asks: what is told apart is the same bytes
  const { torn, answers } = askLines(core, lines.toString().split("\n"));
  count(`${name}: its answers are told apart`, !torn && answers.join("") === wanted.toString());
}

// memory that runs out is told, and the core goes on
const many = Buffer.from(`createtable t\n${`insert t a b c \\e ${"d".repeat(10000)}\n`.repeat(400)}scan t \\0\n`);
const whole = core.run(many);
const told = (limit, lines) => {
  core.limit = limit;
  try {
    return Buffer.from(core.run(lines)).toString();
  } catch (fault) {
    if (!(fault instanceof LacksMemory)) throw fault;
    return null;
  }
};
count("without memory to begin with there is no answer", told(1 << 16, many) === null);
count("where memory lacks on the way the line is refused", told(1 << 20, many)?.includes("refused 17 NoMemory\n"));
count("and with memory again all is answered as before", told(0, many) === Buffer.from(whole).toString());
const small = Buffer.from("createtable t\n");
count("a limit is that of one question", told(1 << 20, small) === "ok\n" && told(0, many) === Buffer.from(whole).toString());
const instance = core.exports;
let fault = null;
try {
  core.ask(small, () => {
    throw new WebAssembly.RuntimeError("unreachable");
  });
} catch (it) {
  fault = it;
}
count("behind a trap the core begins anew", fault instanceof LacksMemory && core.exports !== instance && told(0, small) === "ok\n");
const long = Buffer.from(`createtable t\n${[..."0123456789"].map((it) => `insert t ${it} b c \\e ${it.repeat(500000)}\n`).join("")}scan t \\0\n`);
const answer = told(0, long)?.split("\n") ?? [];
count("an answer longer than the room for it comes whole", answer.slice(11, 21).every((it, i) => it.endsWith(` ${String(i).repeat(500000)}`)) && answer[21] === "end");
const comment = Buffer.from(`# ${"x".repeat(200000)}\n`);
core.run(comment);
const before = core.exports.memory.buffer.byteLength;
for (let i = 0; i < 100; i++) core.run(comment);
count("a question leaves nothing behind", core.exports.memory.buffer.byteLength === before);

// what each reader is told, whatever stands in the lines before
const store = ["createtable t", "insert t r f q a&b <b>one</b> -1", "insert t r f q a two 2", "insert t r2 f q \\e three 3", "createtable gone", "droptable gone"];
const readers = [
  { name: "ann", auths: ["a", "b"] },
  { name: "bob", auths: ["a"] },
  { name: "no name", auths: [] },
  { name: "eve", auths: [] },
];
const all = askAll(core, store, readers, "t", termsIn(store));
const views = all.views.map((it) => it.view);
const [one, two, three] = ["r f q a&b -1 <b>one</b>\n", "r f q a 2 two\n", "r2 f q \\e 3 three\n"];
count("the lines' answers", all.answers.join("") === "ok\n".repeat(6) && !all.torn);
count("each reader is told what they may read", views[0] === `${two}${one}${three}end\n` && views[1] === `${two}${three}end\n` && views[3] === `${three}end\n`);
count("one who can't be asked for is told why", views[2] === "line fault\n");
count("and root all", all.root.view === `${two}${one}${three}end\n`);
count("the tables that there are", tablesOf(store, all.answers).join() === "t");
const holding = askLabels(core, ["a&b", "a", "b", ""], readers.map((it) => it.auths));
count("which labels hold for whom", holding.map((it) => [...it].sort().join(",")).join(";") === ",a,a&b,b;,a;;");

// what is drawn of it
const textOf = (it) => (typeof it === "string" ? it : it.children.map(textOf).join(""));
const found = (it, kind) => (typeof it === "string" ? [] : [...(it.className.split(" ").includes(kind) ? [it] : []), ...it.children.flatMap((inner) => found(inner, kind))]);
const everything = (it) => (typeof it === "string" ? it : [...Object.values(it.attributes), ...it.children.map(everything)].join(" "));
// of each reader what drawing takes of them, and their fields of the rows
const taken = readers.map((_, i) => {
  const cells = cellsOf(views[i]);
  return { cells, lines: new Set(cells.map((it) => it.line)), isRead: views[i].endsWith("end\n"), holds: (text) => holding[i].has(text) };
});
const rows = drawnRows(cellsOf(all.root.view), taken);
const fields = (i, of = rows) => of.map((it) => it.children[i + 1]);
count("each cell has a row, with a field for each reader", rows.length === 3 && rows.every((it) => it.tag === "tr" && it.children.length === 5));
count("the first of a row of the store is told apart", rows.map((it) => it.className).join() === "first,,first");
const wanted_cells = ["r f · q a two time 2", "r f · q a&b <b>one</b> time -1", "r2 f · q for everybody three time 3"];
count("where it stands, once", rows.map((it) => textOf(it.children[0])).join("; ") === wanted_cells.join("; "));
const [ann, bob, noName, eve] = readers.map((_, i) => fields(i));
const kinds = (column) => column.map((it) => it.className).join();
count("what a reader wasn't told is covered", kinds(ann) === "shown,shown,shown" && kinds(bob) === "shown,covered,shown" && kinds(eve) === "covered,covered,shown");
count("who is refused sees nothing, and nothing is covered", kinds(noName) === "refused,refused,refused");
count("and stands nowhere in their fields", !bob.map(everything).join(" ").includes("one") && !bob.map(everything).join(" ").includes("-1"));
const parts = bob.flatMap((it) => found(it, "covered")).flatMap((it) => found(it, "part"));
count("the part that a reader lacks is marked", parts.map((it) => `${textOf(it)} ${it.className}`).join() === "a part holds,b part fails");
count("and said", bob.map(textOf).join("; ") === "✓sees it a; covered a&b lacks b; ✓sees it ");
const beside = { ...taken[3], cells: cellsOf("r3 f q \\e 4 four\n"), lines: new Set(["r3 f q \\e 4 four"]) };
const more = drawnRows(cellsOf(all.root.view), [taken[0], beside]);
const besides = [0, 1].map((i) => kinds(fields(i, more))).join("; ");
count("what a reader was told beside root's cells comes behind them", besides === "shown,shown,shown,covered; covered,covered,covered,shown");
const own = drawnOwn(taken);
const told_alone = readers.map((_, i) => kinds(fields(i, own))).join("; ");
count("with their own eyes each sees what they were told, without a gap", told_alone === "shown,shown,shown; shown,shown,empty; empty,empty,empty; shown,empty,empty");
count("and of the rest nothing", !fields(1, own).map(everything).join(" ").includes("one") && !fields(3, own).map(everything).join(" ").match(/one|two|covered|nothing/));
count("who is told of no cell has nothing", drawnOwn([{ ...taken[3], cells: [] }]).map((it) => textOf(it.children[1])).join() === "nothing");
count("text is text, and a time keeps its sign", fields(0, own).map(textOf).join("").includes("<b>one</b>") && fields(0, own).map(textOf).join(" ").includes("time -1"));
const drawn = drawnLines(["createtable t", "# <b>"], ["ok\n", ""], new Set(["# <b>"]), "World B");
count("a line that the other world lacks is marked", drawn.map((it) => `${it.className}: ${textOf(it)}`).join("; ") === "line: 1createtable tok; line differs: 2only in World B: # <b>");
const verdict = (one, other) => textOf(drawnBoth("ann", [one, other]).children[3]).split(":")[0];
const verdicts = [["a\nend\n", "a\nend\n"], ["a\nend\n", "b\nend\n"], ["a\n", "a"]].map((it) => verdict(...it)).join();
count("two answers are the same where all their bytes are", verdicts === "the same bytes,other bytes,other bytes");
count("a label that nobody can read is shown", textOf(drawnLabel(treeOf("a&"), "a&", () => false)) === "a&" && textOf(drawnLabel(treeOf(""), "\\e", () => true)) === "for everybody");
// FNV-1a of 32 bits
count("a mark is of the letters", markOf("") === "811c9dc5" && markOf("a") === "e40c292c" && markOf("foobar") === "bf9cf968");
const told_of = (answer, line) => Object.values(brief(answer, line)).join(": ");
count("what is said of a line's answer", [[`${two}${three}end\n`, "scan t a"], [`${two}more\n`, "next 0 1"], ["m\nend\n", "splits t"], ["refused 2 NoTable u\n", "scan u \\0"], ["line fault\n", "bogus"],
  ["tablets 1 sources 2 records 3\n", "status t"], ["ok\n", "flush t"], ["", "as ann"]].map((it) => told_of(...it)).join("; ") ===
  "good: 2 cells; good: 1 cell; good: 1 line; bad: NoTable u; bad: line fault; good: 2 sources, 3 records; good: ok; none: ");
console.log(`${passed} passed, ${failed} failed`);
process.exit(failed ? 1 : 0);
