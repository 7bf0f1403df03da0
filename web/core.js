// The core: the compiled module, the memory that it lends, and the two questions that it is asked.
"use strict";

const NO_MEMORY = 2n ** 64n - 1n;
const FIRST_ROOM = 1 << 20;

// What a run can end with beside its answers.
class LacksMemory extends Error {}

class Core {
  // limit: how many bytes a question may take, or 0 for as many as the browser gives
  constructor(module, limit = 0) {
    this.module = module;
    this.limit = limit;
    this.begin();
  }

  static async unpack(base64, limit) {
    const packed = Uint8Array.from(atob(base64), (c) => c.charCodeAt(0));
    const bytes = await new Response(new Blob([packed]).stream().pipeThrough(new DecompressionStream("gzip"))).arrayBuffer();
    return new Core(await WebAssembly.compile(bytes), limit);
  }

  begin() {
    this.exports = new WebAssembly.Instance(this.module).exports;
    this.out = null;
    this.room = 0;
  }

  // Asks a question of bytes, for as much room as its answer takes. After a trap the module begins anew.
  ask(bytes, question) {
    try {
      if (!this.out) this.makeRoom(FIRST_ROOM);
      let length = this.askOnce(bytes, question);
      if (length !== NO_MEMORY && length > BigInt(this.room)) {
        this.makeRoom(Number(length));
        length = this.askOnce(bytes, question);
      }
      if (length === NO_MEMORY) throw new LacksMemory("no memory");
      return new Uint8Array(this.exports.memory.buffer, this.out, Number(length)).slice();
    } catch (fault) {
      this.begin();
      throw fault instanceof LacksMemory ? fault : new LacksMemory(String(fault));
    }
  }

  askOnce(bytes, question) {
    const at = this.take(bytes.length);
    new Uint8Array(this.exports.memory.buffer, at, bytes.length).set(bytes);
    this.exports.heap_limit(BigInt(this.limit || 2 ** 40));
    const length = question(BigInt(at), BigInt(bytes.length), BigInt(this.out), BigInt(this.room));
    this.exports.heap_limit(BigInt(2 ** 40));
    this.exports.heap_give(BigInt(at));
    return BigInt.asUintN(64, length);
  }

  makeRoom(size) {
    if (this.out) this.exports.heap_give(BigInt(this.out));
    this.out = this.take(size);
    this.room = size;
  }

  take(size) {
    const at = Number(this.exports.heap_take(BigInt(size || 1)));
    if (!at) throw new LacksMemory("no memory");
    return at;
  }

  // The answers to the lines of a script, byte for byte as `tabd script` prints them.
  run(bytes) {
    return this.ask(bytes, (...places) => this.exports.page_run(...places));
  }

  // Why the line with this number is a line fault, as `tabd script --explain` says it; nothing for what is a line.
  explain(number, bytes) {
    return this.ask(bytes, (...places) => this.exports.page_explain(BigInt(number), ...places));
  }
}
