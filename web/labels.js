// Byte words and labels, taken apart for drawing. What holds the core says; nothing here decides what anybody sees.
"use strict";

// The bytes that a word spells, one character a byte; null where it is none.
function readWord(word) {
  if (word === "\\e") return "";
  let bytes = "";
  for (let i = 0; i < word.length; i++) {
    if (word[i] < "!" || word[i] > "~") return null;
    if (word[i] !== "\\") bytes += word[i];
    else if (word[i + 1] === "\\") (bytes += "\\"), (i += 1);
    else if (/^x[0-9a-f]{2}$/.test(word.slice(i + 1, i + 4))) (bytes += String.fromCharCode(parseInt(word.slice(i + 2, i + 4), 16))), (i += 3);
    else return null;
  }
  return bytes;
}

// The bytes of what is typed, in UTF-8, one character a byte.
const bytesOf = (text) => Array.from(encoder.encode(text), (byte) => String.fromCharCode(byte)).join("");

const spellByte = (c) => (c === "\\" ? "\\\\" : c < "!" || c > "~" ? `\\x${c.charCodeAt(0).toString(16).padStart(2, "0")}` : c);
const spellWord = (bytes) => (bytes === "" ? "\\e" : [...bytes].map(spellByte).join(""));
const spellMember = (bytes) => (bytes === "" ? "\\e" : [...bytes].map((c) => (c === "," ? "\\x2c" : spellByte(c))).join(""));

// A label as a tree: { text, op, parts } or { text, term }; null where it is none, or empty.
function treeOf(label) {
  let at = 0;
  function term() {
    const from = at;
    if (label[at] === "(") {
      at += 1;
      const inner = expression();
      if (!inner || label[at] !== ")") return null;
      at += 1;
      return { ...inner, within: true };
    }
    if (label[at] === '"') {
      let name = "";
      for (at += 1; at < label.length && label[at] !== '"'; at++) {
        if (label[at] === "\\") at += 1;
        name += label[at];
      }
      at += 1;
      return { text: label.slice(from, at), term: name };
    }
    while (at < label.length && /[A-Za-z0-9_\-:./]/.test(label[at])) at += 1;
    return at > from ? { text: label.slice(from, at), term: label.slice(from, at) } : null;
  }
  function expression() {
    const from = at;
    const parts = [term()];
    const op = label[at];
    while (parts.at(-1) && (label[at] === "&" || label[at] === "|") && label[at] === op) {
      at += 1;
      parts.push(term());
    }
    if (parts.includes(null)) return null;
    return parts.length === 1 ? parts[0] : { text: label.slice(from, at), op, parts };
  }
  const tree = expression();
  return tree && at === label.length ? tree : null;
}

// The tree and all that it is made of.
const nodesOf = (tree) => (tree ? [tree, ...(tree.parts ?? []).flatMap(nodesOf)] : []);
const termsOf = (tree) => nodesOf(tree).flatMap((node) => (node.op ? [] : [node.term]));

// In words, what is lacking for a label that doesn't hold: `holds` says of each part's text whether it does.
function lacking(tree, holds) {
  if (!tree || holds(tree.text)) return "";
  if (!tree.op) return tree.text;
  if (tree.op === "|") return tree.parts.map((part) => part.text).join(" or ");
  const failing = tree.parts.filter((part) => !holds(part.text));
  return failing.map((part) => (part.op === "|" && failing.length > 1 ? `(${lacking(part, holds)})` : lacking(part, holds))).join(" and ");
}

// The words of a line that are labels, as places in it: { from, to, text }.
function labelsIn(line) {
  const words = [...line.matchAll(/[^ ]+/g)].map((m) => ({ from: m.index, to: m.index + m[0].length, text: m[0] }));
  const command = words[0]?.text;
  if (command === "insert" || command === "delete") return words.slice(5, 6);
  if (command !== "mutate") return [];
  return words.filter((_, i) => i >= 6 && (words[i - 3].text === "put" || words[i - 3].text === "del") && (i === 6 || words[i - 4].text === ";"));
}

// Every term that a label of these lines names.
function termsIn(lines) {
  const terms = new Set();
  for (const line of lines) for (const word of labelsIn(line)) for (const term of termsOf(treeOf(readWord(word.text) ?? ""))) terms.add(term);
  return [...terms].sort();
}
