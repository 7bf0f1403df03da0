// What is drawn of what the core said. Text goes into the page as text, never as markup.
"use strict";

function element(tag, attributes = {}, ...children) {
  const made = document.createElement(tag);
  for (const [name, value] of Object.entries(attributes)) {
    if (name === "class") made.className = value;
    else if (value !== null && value !== false) made.setAttribute(name, value === true ? "" : value);
  }
  made.append(...children);
  return made;
}

const spoken = (text) => element("span", { class: "sr" }, text);
const plural = (count, word) => `${count} ${word}${count === 1 ? "" : "s"}`;

// A short mark of the bytes of a view, so that one sees at a glance whether two are alike. Whether they are is compared byte by byte.
function markOf(text) {
  let mark = 0x811c9dc5;
  for (let i = 0; i < text.length; i++) mark = Math.imul(mark ^ text.charCodeAt(i), 0x01000193) >>> 0;
  return mark.toString(16).padStart(8, "0");
}

// ---- the store's lines
const COMMANDS =
  /^(as|at|createtable|droptable|createuser|dropuser|setauths|grant|revoke|rights|constraints|versions|horizon|insert|delete|mutate|scan|open|next|many|close|flush|compact|begin|merge|install|addsplit|splitsize|splits|status|save|load|rotate)$/;

function tinted(line) {
  if (line.startsWith("#")) return [element("span", { class: "t-note" }, line)];
  const labels = new Set(labelsIn(line).map((it) => it.from));
  const parts = [];
  let isFirst = true;
  for (const word of line.matchAll(/[^ ]+| +/g)) {
    const text = word[0];
    if (text[0] === " ") parts.push(text);
    else if (labels.has(word.index)) parts.push(element("span", { class: "t-label" }, text));
    else if (isFirst && COMMANDS.test(text)) parts.push(element("span", { class: "t-word" }, text));
    else parts.push(text);
    isFirst = isFirst && text[0] === " ";
  }
  return parts;
}

// A line's answer in a word or two: { kind, text }.
function brief(answer, line) {
  const lines = answer.split("\n").filter((it) => it !== "");
  if (!lines.length) return { kind: "none", text: "" };
  const last = lines.at(-1);
  if (last.startsWith("line fault")) return { kind: "bad", text: "line fault" };
  if (last.startsWith("refused") || last.startsWith("fault")) return { kind: "bad", text: last.replace(/^refused \d+ /, "") };
  if (lines.length === 1 && last !== "end" && last !== "more") return { kind: "good", text: last.replace(/^tablets \d+ sources (\d+) records (\d+)$/, "$1 sources, $2 records") };
  const cells = cellsOf(answer).length;
  return { kind: "good", text: /^ *(rights|splits)/.test(line) ? plural(lines.length - 1, "line") : plural(cells, "cell") };
}

// ---- labels
// A label with the parts that fail marked; `holds` says of each part's text whether it does. Without it none is marked.
function drawnLabel(tree, text, holds = null) {
  const out = element("span", { class: "label" });
  const draw = (node, isBad) => {
    if (node.within) out.append("(");
    if (!node.op) out.append(element("span", { class: isBad ? "part fails" : holds?.(node.text) ? "part holds" : "part" }, node.text));
    else
      node.parts.forEach((part, i) => {
        if (i) out.append(element("span", { class: "op" }, node.op), element("wbr"));
        draw(part, isBad && !holds(part.text));
      });
    if (node.within) out.append(")");
  };
  if (tree) draw(tree, holds !== null && !holds(tree.text));
  else out.append(text === "\\e" ? "for everybody" : text);
  return out;
}

// ---- cells and readers
// Of each reader drawing takes a view: { cells, lines, isRead, holds }, which are the cells that they were told, the lines of these as a set,
// whether their scan was answered to its end, and which parts of labels hold for them.
const columnOf = (cell) => [cell.family, cell.qualifier].filter((it) => it !== "\\e").join(" · ");
const treeIn = (cell) => treeOf(readWord(cell.label) ?? "");

// The cells that the table lists: root's, in their order, and behind them what a reader was told beside these.
function listedCells(all, views) {
  const listed = [...all];
  const known = new Set(all.map((it) => it.line));
  for (const { cells } of views) {
    const more = cells.filter((it) => !known.has(it.line));
    listed.push(...more);
    more.forEach((it) => known.add(it.line));
  }
  return listed;
}

// Whether a reader sees a cell, and where they don't what of its label fails. Of the cell nothing else stands here.
function drawnMark(cell, view) {
  const isShown = view.lines.has(cell.line);
  if (!isShown && !view.isRead) return element("td", { class: "refused" }, element("span", { "aria-hidden": "true" }, "–"), spoken("refused"));
  const tree = treeIn(cell);
  const label = cell.label === "\\e" ? [] : [drawnLabel(tree, cell.label, view.holds)];
  if (isShown) return element("td", { class: "shown" }, element("span", { class: "mark", "aria-hidden": "true" }, "✓"), spoken("sees it "), ...label);
  const lacks = lacking(tree, view.holds);
  // (where nothing of the label holds, its marks say it all)
  const isMixed = lacks && termsOf(tree).some((it) => view.holds(it));
  if (lacks) label.push(element("span", { class: isMixed ? "lacks" : "sr" }, ` lacks ${lacks}`));
  return element("td", { class: "covered" }, element("span", { class: "cover", "aria-hidden": "true" }), spoken("covered "), ...label);
}

// The parts of a cell, or what they are called, side by side; on a narrow screen one below the other.
function drawnCell(row, column, label, value, time) {
  const part = (name, ...text) => element("span", { class: name }, ...text);
  return element("div", { class: "cell" }, part("row", row), " ", part("column", column), " ", part("of-label", label), " ", part("value", value), " ", part("time", ...time));
}

// A cell, once, and what it is to each reader.
function drawnRow(cell, views, isFirst) {
  const parts = drawnCell(cell.row, columnOf(cell), drawnLabel(treeIn(cell), cell.label), cell.value, [spoken("time "), cell.time]);
  return element("tr", { class: isFirst ? "first" : null }, element("th", { scope: "row", class: "fixed" }, parts), ...views.map((it) => drawnMark(cell, it)));
}

// The rows for root's eyes: each cell that root was told, and what a reader was told beside these.
const drawnRows = (all, views) => listedCells(all, views).map((cell, i, listed) => drawnRow(cell, views, cell.row !== listed[i - 1]?.row));

// The place-th cell that a reader was told, whole.
function drawnTold(view, place) {
  const cell = view.cells[place];
  if (!cell) return element("td", { class: "empty" }, place === 0 && view.isRead ? "nothing" : "");
  const where = element("span", { class: "where" }, element("b", {}, cell.row), ` ${columnOf(cell)}`);
  const time = element("span", { class: "time" }, spoken("time "), cell.time);
  return element("td", { class: "shown" }, where, element("span", { class: "value" }, cell.value), " ", drawnLabel(treeIn(cell), cell.label, view.holds), " ", time);
}

// The rows for the readers' own eyes: what each is told, one below the other, so that not even a gap tells of the rest.
function drawnOwn(views) {
  const count = views.reduce((most, it) => Math.max(most, it.cells.length), 1);
  const numbers = Array.from({ length: count }, (_, i) => i);
  return numbers.map((i) => element("tr", {}, element("th", { scope: "row", class: "fixed" }, String(i + 1)), ...views.map((it) => drawnTold(it, i))));
}

// A row that says why there are none.
const drawnEmpty = (why, columns) => element("tr", {}, element("td", { class: "empty", colspan: String(columns) }, why));

// ---- two worlds
// A world's lines with what each was answered; `lacked` says which lines the other one has not, and is named `where`.
function drawnLines(lines, answers, lacked, where) {
  return lines.map((line, i) => {
    const { kind, text } = brief(answers[i] ?? "", line);
    const differs = lacked.has(line);
    const number = element("span", { class: "number", "aria-hidden": "true" }, String(i + 1));
    const said = element("span", { class: "said" }, differs ? spoken(`only in ${where}: `) : "", ...tinted(line));
    return element("div", { class: differs ? "line differs" : "line" }, number, said, element("span", { class: `answer ${kind}`, title: text || null }, text));
  });
}

// What a reader is told in each of two worlds, and whether these are the same bytes.
function drawnBoth(name, told) {
  const isSame = told[0] === told[1];
  const cells = told.map((it) => element("td", { class: "bytes" }, `${plural(cellsOf(it).length, "cell")} · ${it.length} bytes · ${markOf(it)}`));
  const said = isSame ? "the same bytes: they can’t tell which world it is" : "other bytes: they can tell";
  return element("tr", {}, element("th", { scope: "row" }, name), ...cells, element("td", {}, element("span", { class: isSame ? "verdict alike" : "verdict otherwise" }, said)));
}
