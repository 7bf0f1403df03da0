// A script, asked line by line: which answers are which line's, what each reader sees, and which parts of a label hold.
// Everything here is asked of the core in lines. What a reader sees is the core's answer to a scan that they make.
"use strict";

const encoder = new TextEncoder();
const decoder = new TextDecoder();

// The answers of each line. Behind each line stands one that closes a session which nobody has: its answer is known, no other line is
// answered so, and nothing changes by it. `torn` where memory lacked, so that the answers can't be told apart.
function askLines(core, lines) {
  const text = lines.join("\n");
  let number = 4294967295;
  while (text.includes(String(number))) number -= 1;
  const asked = lines.map((line) => `${line}\nclose ${number}\n`).join("");
  const told = decoder.decode(core.run(encoder.encode(asked))).split(`refused 15 NoSession ${number}\n`);
  const torn = told.length !== lines.length + 1;
  return { torn, answers: torn ? lines.map(() => "") : told.slice(0, -1) };
}

// Why a line is a fault, in the words of `--explain` behind "line N: ".
function explained(core, number, line) {
  const why = decoder.decode(core.explain(number, encoder.encode(line)));
  return why.replace(/^line \d+: /, "").trimEnd();
}

const authList = (auths) => (auths.length ? auths.map(spellMember).join(",") : "\\0");
const typedList = (auths) => authList(auths.map(bytesOf));

// What is asked for a reader behind the lines of the store: that they are there, hold these authorizations, may read the table, and scan it.
function linesOf(reader, table) {
  const list = typedList(reader.auths);
  return ["as root", `createuser ${reader.name}`, `setauths ${reader.name} ${list}`, `grant ${reader.name} READ ${table}`, `as ${reader.name}`, `scan ${table} ${list}`];
}

// What root is asked to see all: it holds every authorization that a label names.
function linesOfRoot(terms, table) {
  const list = authList(terms);
  return ["as root", `setauths root ${list}`, `grant root READ ${table}`, `scan ${table} ${list}`];
}

// Whether a line before a view's scan was answered as it must be, so that the scan is made by whom it should be. A reader may be there already.
const isAnswered = (line, answer) => answer === (line.startsWith("as ") ? "" : "ok\n") || answer.startsWith("refused 11 UserExists ");

// The store's lines and the views over them, in one run. A view is what the scan was answered; where a line before it was answered otherwise
// than it must be, the scan is somebody else's, and the view is that line's answer.
function askAll(core, lines, readers, table, terms) {
  const groups = table ? [...readers.map((it) => linesOf(it, table)), linesOfRoot(terms, table)] : [];
  const { torn, answers } = askLines(core, [...lines, ...groups.flat()]);
  let at = lines.length;
  const views = groups.map((group) => {
    at += group.length;
    const told = answers.slice(at - group.length, at);
    const other = told.slice(0, -1).find((it, i) => !isAnswered(group[i], it));
    return { asked: group, told, view: other ?? told.at(-1) };
  });
  return { torn, answers: answers.slice(0, lines.length), views: views.slice(0, -1), root: views.at(-1) ?? null };
}

// Which of these labels hold under which authorizations, as the core says it by a scan of a table of its own: a set of labels for each list.
function askLabels(core, labels, lists) {
  if (!labels.length || !lists.length) return lists.map(() => new Set());
  const cells = labels.map((label, i) => `insert parts ${i} f q ${spellWord(label)} v`);
  const scans = lists.flatMap((auths) => [`setauths root ${typedList(auths)}`, `scan parts ${typedList(auths)}`]);
  const { answers } = askLines(core, ["createtable parts", ...cells, ...scans]);
  return lists.map((_, i) => {
    const shown = answers[cells.length + 2 + 2 * i] ?? "";
    return new Set(cellsOf(shown).map((cell) => labels[Number(cell.row)]));
  });
}

// The cells that a scan printed. Each has six words; a line of fewer is no cell.
function cellsOf(view) {
  const cells = [];
  for (const line of view.split("\n")) {
    const [row, family, qualifier, label, time, value] = line.split(" ");
    if (value !== undefined && !line.startsWith("refused ")) cells.push({ line, row, family, qualifier, label, time, value });
  }
  return cells;
}

// The tables that stand behind the lines, by those that were answered with ok.
function tablesOf(lines, answers) {
  const tables = new Set();
  lines.forEach((line, i) => {
    const [command, name] = line.trim().split(/ +/);
    if (!answers[i]?.startsWith("ok")) return;
    if (command === "createtable") tables.add(name);
    if (command === "droptable") tables.delete(name);
  });
  return [...tables];
}
