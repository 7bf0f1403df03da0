// The page: what stands in it, what is asked as one types, and what is drawn of the answers.
"use strict";

const $ = (id) => document.getElementById(id);
// `worlds`: the lines of each world, where the example has two; `beside`: what the other one's readers are told; `differs`: which lines of
// this world the other one lacks
const state = { readers: [], worlds: null, world: 0, table: "", pinned: null, last: null, beside: null, differs: new Set() };
const WORLDS = ["World A", "World B"];
let core = null;

const linesNow = () => $("lines").value.split("\n");
const isWithCovers = () => document.querySelector("input[name=eyes]:checked").value === "root";

// ---- asking
function answerAll() {
  if (!core) return;
  const lines = linesNow();
  const began = performance.now();
  try {
    state.last = ask(lines);
    state.beside = state.worlds && ask(state.worlds[1 - state.world].split("\n"));
    trouble("");
  } catch (fault) {
    if (!(fault instanceof LacksMemory)) throw fault;
    state.last = state.beside = null;
    trouble("Memory ran out before the lines could be answered. Give the question more below, or the store fewer lines: the page goes on as you do.");
  }
  const took = performance.now() - began;
  drawWorlds(lines);
  drawStore(lines, took);
  drawViews();
  document.body.dataset.answered = String(Number(document.body.dataset.answered ?? 0) + 1);
}

function ask(lines) {
  const terms = termsIn(lines);
  let all = askAll(core, lines, [], "", []);
  const tables = tablesOf(lines, all.answers);
  const table = tables.includes(state.table) ? state.table : tables.at(-1) ?? "";
  if (table) all = askAll(core, lines, state.readers, table, terms);
  if (all.torn) throw new LacksMemory("torn");
  const cells = all.root ? cellsOf(all.root.view) : [];
  const labels = [...new Set(cells.flatMap((it) => nodesOf(treeOf(readWord(it.label) ?? "")).map((node) => node.text)))];
  const holding = askLabels(core, labels, state.readers.map((it) => it.auths));
  return { ...all, tables, table, cells, holding };
}

function trouble(text) {
  $("trouble").textContent = text;
  $("trouble").hidden = !text;
}

// ---- drawing the store
function drawStore(lines, took) {
  const answers = state.last?.answers ?? lines.map(() => "");
  const mark = (line) => (state.differs.has(line) ? "differs" : null);
  $("numbers").replaceChildren(...lines.map((it, i) => element("div", { class: mark(it) }, String(i + 1))));
  $("tint").replaceChildren(...lines.map((it) => element("div", { class: mark(it) }, ...tinted(it))));
  $("answers").replaceChildren(
    ...answers.map((it, i) => {
      const { kind, text } = brief(it, lines[i]);
      return element("div", { class: kind, title: text || null }, text);
    }),
  );
  const faults = answers.filter((it) => brief(it, "").kind === "bad").length;
  $("count").textContent = `${plural(lines.length, "line")}${faults ? `, ${faults} refused or at fault` : ""}`;
  $("speed").textContent = state.last ? `All of it was answered anew in ${took < 10 ? took.toFixed(1) : Math.round(took)} ms.` : "";
  align();
  drawHere();
}

// Has each line's number and answer begin where the line does, however many rows of the sheet it takes.
function align() {
  const heights = [...$("tint").children].map((it) => `${it.getBoundingClientRect().height}px`);
  for (const column of [$("numbers"), $("answers")]) [...column.children].forEach((it, i) => (it.style.height = heights[i]));
}

// The other world beside this one, with the lines marked that one of them lacks, and whether the readers are told the same in both.
function drawWorlds(lines) {
  for (const it of ["worlds", "other", "both"]) $(it).hidden = !state.worlds;
  $("main").dataset.world = state.worlds ? String(state.world) : "";
  $("store-title").textContent = state.worlds ? WORLDS[state.world] : "The store";
  $("readers-title").textContent = `What each reader sees${state.worlds ? ` of ${WORLDS[state.world]}` : ""}`;
  state.differs = new Set();
  if (!state.worlds) return;
  const other = state.worlds[1 - state.world].split("\n");
  state.differs = new Set(lines.filter((it) => !other.includes(it)));
  const lacked = new Set(other.filter((it) => !lines.includes(it)));
  $("other-title").textContent = WORLDS[1 - state.world];
  $("other-count").textContent = plural(other.length, "line");
  $("other-lines").replaceChildren(...drawnLines(other, state.beside?.answers ?? [], lacked, WORLDS[1 - state.world]));
  drawCompared();
}

function drawCompared() {
  const views = [state.last?.views ?? [], state.beside?.views ?? []];
  if (state.world === 1) views.reverse();
  const rows = state.readers.map((it, i) => drawnBoth(it.name, views.map((world) => world[i]?.view ?? "")));
  const isTold = state.last?.table && state.beside?.table;
  $("both-rows").replaceChildren(...(isTold ? rows : [drawnEmpty("They can’t be compared: in one of the worlds nothing is told.", 4)]));
}

// The whole answer of the line in which one stands, and why it is a fault.
function drawHere() {
  const at = $("lines").value.slice(0, $("lines").selectionStart).split("\n").length - 1;
  const lines = linesNow();
  const answer = state.last?.answers[at] ?? "";
  [...$("answers").children].forEach((it, i) => it.classList.toggle("at", i === at));
  [...$("numbers").children].forEach((it, i) => it.classList.toggle("at", i === at));
  const parts = [element("span", { class: "place" }, `Line ${at + 1}${state.differs.has(lines[at]) ? `, only in ${WORLDS[state.world]}` : ""}`)];
  if (answer.startsWith("line fault")) {
    parts.push(element("pre", { class: "bad" }, answer.trimEnd()), element("p", { class: "why" }, explained(core, at + 1, lines[at])));
  } else if (answer) {
    parts.push(element("pre", { class: brief(answer, "").kind }, answer.trimEnd()));
  } else {
    parts.push(element("p", { class: "why" }, state.last ? "prints nothing" : "wasn't answered"));
  }
  $("here").replaceChildren(...parts);
}

// ---- drawing the readers
// What each reader was told, as drawing takes it.
function viewsNow() {
  return state.readers.map((reader, i) => {
    const said = state.last?.views[i] ?? null;
    const told = said?.view ?? "";
    const cells = cellsOf(told);
    const holding = state.last?.holding[i] ?? new Set();
    return { said, told, cells, lines: new Set(cells.map((it) => it.line)), isRead: told.endsWith("end\n"), holds: (text) => holding.has(text) };
  });
}

function drawViews() {
  const last = state.last;
  $("tables").hidden = !last || last.tables.length < 2;
  if (last) $("table").replaceChildren(...last.tables.map((it) => element("option", { selected: it === last.table }, it)));
  $("eyes").textContent = isWithCovers()
    ? "✓: they see it. Hatched: there, but not for them; the part of the label that fails is underlined. Only root sees that."
    : "Just what each is told. Of the rest there is no trace.";
  const views = viewsNow();
  drawBoard(views);
  const before = (reader, i) => (state.pinned ? state.pinned.get(reader.id) : state.beside?.views[i]?.view);
  state.readers.forEach((reader, i) => drawReader(reader.column, views[i], before(reader, i)));
  $("asked").textContent = last?.views.map((it) => it.asked.join("\n")).concat(last.root ? [last.root.asked.join("\n")] : []).join("\n\n") ?? "";
  const other = WORLDS[1 - state.world];
  $("pinned").textContent = state.pinned ? "Compared with what was remembered." : state.worlds ? `Compared with what each is told in ${other}.` : "";
}

// The heads stay, so that one goes on typing in them; they are placed anew where the columns are others.
function drawBoard(views) {
  const columns = state.readers.map((it) => it.column);
  const placed = [...$("heads").children].slice(1);
  if (placed.length !== columns.length || !columns.every((it, i) => placed[i] === it.head)) {
    $("heads").replaceChildren($("cell-head"), ...columns.map((it) => it.head));
    $("feet").replaceChildren($("cell-foot"), ...columns.map((it) => it.foot));
  }
  $("cell-head").replaceChildren(isWithCovers() ? drawnCell("Row", "Column", "Label", "Value", ["Time"]) : "No.");
  const rows = !state.last?.table ? [] : isWithCovers() ? drawnRows(state.last.cells, views) : drawnOwn(views);
  const why = state.last ? (state.last.table ? "nothing" : "There is no table yet: createtable T makes one.") : "";
  $("rows").replaceChildren(...(rows.length ? rows : [drawnEmpty(why, 1 + columns.length)]));
  $("board").dataset.eyes = isWithCovers() ? "root" : "own";
  $("board").style.setProperty("--readers", String(columns.length));
}

// What stands above and below a reader's column.
function drawReader(column, view, before) {
  const { said, told, cells, isRead } = view;
  column.notice.hidden = !said || isRead;
  column.notice.textContent = said && !isRead ? noticeOf(said) : "";
  const covered = isWithCovers() && isRead ? state.last.cells.length - cells.length : 0;
  column.bytes.textContent = said ? `${plural(cells.length, "cell")}${covered > 0 ? `, ${covered} covered` : ""} · ${told.length} bytes · ${markOf(told)}` : "";
  const isSame = before === told;
  const where = state.worlds && !state.pinned ? ` in ${WORLDS[1 - state.world]}` : "";
  column.same.textContent = before === undefined || !said ? "" : isSame ? `same${where}, byte for byte` : `told otherwise${where}`;
  column.same.className = column.same.textContent ? `same ${isSame ? "alike" : "otherwise"}` : "same";
}

// What the core told of a view that it refused, at its first refusal.
function noticeOf(view) {
  const at = view.told.findIndex((it) => it.startsWith("line fault"));
  return at < 0 ? view.view.trimEnd() || "nothing was told" : `${view.asked[at]}: line fault`;
}

let nextId = 0;
// Makes a reader's column: their name, and what they hold, at its head.
function makeReader(reader) {
  const head = $("reader").content.firstElementChild.cloneNode(true);
  const find = (it) => head.querySelector(it);
  const [bytes, same] = ["bytes", "same"].map((it) => element("span", { class: it }));
  reader.id = nextId++;
  reader.column = { head, foot: element("td", { class: "foot" }, bytes, same), notice: find(".notice"), bytes, same };
  find(".who").value = reader.name;
  find(".who").addEventListener("input", () => {
    reader.name = find(".who").value;
    drawName(reader);
    answerAll();
  });
  find("form").addEventListener("submit", (event) => {
    event.preventDefault();
    const auth = find(".more").value.trim();
    find(".more").value = "";
    if (!auth || reader.auths.includes(auth)) return;
    reader.auths.push(auth);
    drawAuths(reader);
    answerAll();
  });
  find(".remove").addEventListener("click", () => {
    state.readers.splice(state.readers.indexOf(reader), 1);
    $("add").focus();
    answerAll();
  });
  drawName(reader);
  return reader;
}

function drawName(reader) {
  const { head } = reader.column;
  const name = (part, text) => head.querySelector(part).setAttribute("aria-label", text);
  head.setAttribute("aria-label", `Reader ${reader.name}`);
  head.querySelector(".who").style.width = `${Math.max(3, reader.name.length + 1)}ch`;
  name(".who", "Name of the reader");
  name(".remove", `Remove ${reader.name}`);
  name(".more", `Give ${reader.name} an authorization`);
  drawAuths(reader);
}

// What a reader holds: each can be taken from them.
function drawAuths(reader) {
  const { head } = reader.column;
  const chips = reader.auths.map((auth) => {
    const chip = element("button", { type: "button", class: "chip", "aria-label": `Take ${auth} from ${reader.name}` }, auth, element("span", { "aria-hidden": "true" }, "×"));
    chip.addEventListener("click", () => {
      reader.auths.splice(reader.auths.indexOf(auth), 1);
      drawAuths(reader);
      head.querySelector(".more").focus();
      answerAll();
    });
    return element("li", {}, chip);
  });
  head.querySelector("ul").replaceChildren(...(chips.length ? chips : [element("li", { class: "none" }, "nothing")]));
}

function addReader() {
  const taken = new Set(state.readers.map((it) => it.name));
  let number = state.readers.length + 1;
  while (taken.has(`reader${number}`)) number += 1;
  const reader = makeReader({ name: `reader${number}`, auths: [] });
  state.readers.push(reader);
  answerAll();
  const who = reader.column.head.querySelector(".who");
  who.focus();
  who.select();
}

function remember() {
  state.pinned = new Map(state.readers.map((it, i) => [it.id, state.last?.views[i]?.view ?? ""]));
  drawViews();
  $("pinned").textContent = "Remembered. Each view is compared with it from now on.";
}

// ---- examples and worlds
function choose(index) {
  const example = EXAMPLES[index];
  state.worlds = example.other ? [example.lines, example.other] : null;
  state.world = 0;
  state.table = "";
  state.pinned = null;
  state.readers = example.readers.map((it) => makeReader({ name: it.name, auths: [...it.auths] }));
  [...$("examples").children].forEach((it, i) => it.setAttribute("aria-pressed", String(i === index)));
  $("examples").children[index].scrollIntoView({ block: "nearest", inline: "nearest" });
  $("about").textContent = example.about;
  drawChoice();
  $("lines").value = example.lines;
  $("lines").setSelectionRange(0, 0);
  answerAll();
}

// The choice of the world in which one writes.
function drawChoice() {
  $("worlds").replaceChildren(
    element("span", {}, "Write in"),
    ...WORLDS.map((name, i) => {
      const input = element("input", { type: "radio", name: "world", value: String(i) });
      input.checked = i === state.world;
      input.addEventListener("change", () => enter(i));
      return element("label", {}, input, element("span", {}, name));
    }),
  );
}

// Each world stays as it was left.
function enter(world) {
  state.worlds[state.world] = $("lines").value;
  state.world = world;
  $("lines").value = state.worlds[world];
  answerAll();
}

// ---- colours
const THEMES = ["auto", "light", "dark"];
function setTheme(theme) {
  document.documentElement.dataset.theme = theme;
  $("theme").querySelector("span").textContent = theme[0].toUpperCase() + theme.slice(1);
  $("theme").setAttribute("aria-label", `Colours: ${theme === "auto" ? "as the system has them" : theme}`);
}

// ---- the beginning
async function begin() {
  setTheme("auto");
  $("theme").addEventListener("click", () => setTheme(THEMES[(THEMES.indexOf(document.documentElement.dataset.theme) + 1) % THEMES.length]));
  $("examples").append(...EXAMPLES.map((it, i) => {
    const button = element("button", { type: "button", "aria-pressed": "false" }, it.title);
    button.addEventListener("click", () => choose(i));
    return button;
  }));
  try {
    core = await Core.unpack($("module").textContent.trim());
  } catch (fault) {
    trouble(`This browser can't run the core: it wants WebAssembly with 64-bit memories, as Chrome and Edge have them from 133 on and Firefox from 134 on. (${fault.message})`);
    return;
  }
  $("lines").addEventListener("input", answerAll);
  new ResizeObserver(align).observe($("tint"));
  for (const it of ["keyup", "click", "focus"]) $("lines").addEventListener(it, drawHere);
  $("add").addEventListener("click", addReader);
  $("pin").addEventListener("click", remember);
  $("table").addEventListener("change", () => {
    state.table = $("table").value;
    answerAll();
  });
  $("memory").addEventListener("change", () => {
    core.limit = Number($("memory").value);
    answerAll();
  });
  document.querySelectorAll("input[name=eyes]").forEach((it) => it.addEventListener("change", drawViews));
  choose(0);
}

begin();
