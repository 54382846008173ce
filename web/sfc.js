/**
 * The runtime in a module of WebAssembly: the calls of sfc.h and sfc_tools.h as methods, for pages and for node.
 *
 * Texts are strings or bytes; what is answered are strings. Instants and TIME values are microseconds, exact up to 2^53.
 * Numbers of variables, tasks, programs, steps, transitions and actions count from 0 in the order of the text.
 */

/** @typedef {string | Uint8Array} Text */
/** @typedef {{code: number, text: string}} Told */
/** @typedef {{scans: number, fault: number, place: number, number: number, statement: number}} ProgramState */
/** @typedef {{bytes: Uint8Array, fixed: bigint, handle: bigint, out: bigint, room: number}} Saved */

/** Kinds, as in sfc.h. */
export const KIND = Object.freeze({step: 0, transition: 1, action: 2, variable: 3, task: 4, program: 5});
/** Codes below 0, as in sfc.h and sfc_tools.h. */
export const CODE = Object.freeze({done: 0, closed: -1, noValue: -2, unknown: -3, memory: -4, noLine: -5, short: -6, large: -7});
/** Modes, as in sfc.h. */
export const MODE = Object.freeze({running: 0, halted: 1, ended: 2});
/** In what the fault of a scan is, as in sfc.h. */
export const PLACE = Object.freeze({none: 0, condition: 1, control: 2, body: 3});
/** The condition of a breakpoint that waits for none. */
export const NO_CONDITION = 65535;

const encoder = new TextEncoder(), decoder = new TextDecoder('utf-8', {ignoreBOM: true});
const FIXED = 64, FIRST_ROOM = 65536;

/** @param {Text} text */
const bytesOf = text => typeof text === 'string' ? encoder.encode(text) : text;

/** A resource, or none, in an instance of the module. */
export class Sfc {
  /** @param {WebAssembly.Instance} instance */
  constructor(instance) {
    this.lib = /** @type {any} */ (instance.exports);
    this.room = FIRST_ROOM;
    this.fixed = this.lib.sfc_take(BigInt(FIXED));
    this.handle = this.lib.sfc_take(16n);
    this.out = this.lib.sfc_take(BigInt(this.room));
    this.view().setBigUint64(Number(this.handle), 0n, true);
  }

  /**
   * A new instance, of the module or of its bytes.
   * @param {BufferSource | WebAssembly.Module} from
   */
  static async of(from) {
    const module = from instanceof WebAssembly.Module ? from : await WebAssembly.compile(from);
    return new Sfc(await WebAssembly.instantiate(module, {}));
  }

  view() { return new DataView(this.lib.memory.buffer); }

  /**
   * Calls with the places and lengths of texts, whose memory is given back.
   * @param {Text[]} texts
   * @param {(...words: bigint[]) => number} call
   */
  with(texts, call) {
    const words = [], taken = [];
    for (const text of texts) {
      const bytes = bytesOf(text), at = this.lib.sfc_take(BigInt(bytes.length));
      if (at) taken.push(at);
      words.push(at, BigInt(bytes.length));
      if (at) new Uint8Array(this.lib.memory.buffer, Number(at), bytes.length).set(bytes);
    }
    const code = taken.length === texts.length ? call(...words) : CODE.memory;
    for (const at of taken) this.lib.sfc_give(at);
    return code;
  }

  /**
   * The code and the bytes of a call that answers a text; it is called again where the text is longer than the room for it.
   * @param {(...words: bigint[]) => number} call
   */
  bytes(call) {
    for (;;) {
      const code = call(this.out, BigInt(this.room), this.fixed);
      const needed = Number(this.view().getBigUint64(Number(this.fixed), true));
      if (code !== CODE.short) return {code, bytes: code === CODE.memory ? new Uint8Array() : this.copy(needed)};
      const wider = this.lib.sfc_take(BigInt(needed));
      if (!wider) return {code: CODE.memory, bytes: new Uint8Array()};
      this.lib.sfc_give(this.out);
      [this.out, this.room] = [wider, needed];
    }
  }

  /** @param {number} length */
  copy(length) { return new Uint8Array(this.lib.memory.buffer, Number(this.out), length).slice(); }

  /** @param {(...words: bigint[]) => number} call @returns {Told} */
  told(call) {
    const {code, bytes} = this.bytes(call);
    return {code, text: decoder.decode(bytes)};
  }

  /**
   * A call of sfc_tools.h, by its name without `sfc_`, over these texts.
   * @param {string} name
   * @param {...Text} texts
   * @returns {Told}
   */
  tool(name, ...texts) {
    const call = this.lib[`sfc_${name}`];
    return this.told((...out) => this.with(texts, (...words) => call(...words, ...out)));
  }

  // ---- life

  /** Opens a resource with the conditions of a script. @param {Text} chart @param {Text} [script] */
  open(chart, script = '') {
    return this.with([chart, script], (...words) => this.lib.sfc_open_with(...words, this.handle));
  }

  /** The first fault of a chart. @param {Text} chart */
  check(chart) {
    const code = this.with([chart], (...words) => this.lib.sfc_check(...words, this.fixed));
    const view = this.view(), at = Number(this.fixed);
    return {code, line: code > 0 ? view.getUint32(at, true) : 0, limit: code > 0 ? view.getInt32(at + 4, true) : 0};
  }

  close() { this.lib.sfc_close(this.handle); }

  /** All of the memory, to go back to. @returns {Saved} */
  save() {
    const {fixed, handle, out, room} = this;
    return {bytes: new Uint8Array(this.lib.memory.buffer).slice(), fixed, handle, out, room};
  }

  /** Goes back to what was saved, of this instance or of another one of the same module. @param {Saved} saved */
  restore(saved) {
    const lacking = saved.bytes.length - this.lib.memory.buffer.byteLength;
    if (lacking > 0) this.grow(lacking >> 16);
    const all = new Uint8Array(this.lib.memory.buffer);
    all.set(saved.bytes);
    all.fill(0, saved.bytes.length);
    [this.fixed, this.handle, this.out, this.room] = [saved.fixed, saved.handle, saved.out, saved.room];
  }

  /** @param {number} pages */
  grow(pages) {
    try {
      this.lib.memory.grow(pages);
    } catch {
      this.lib.memory.grow(BigInt(pages)); // where addresses have 64 bits
    }
  }

  // ---- commands and their text

  /** Obeys a line of a script, and tells its lines. @param {Text} line */
  command(line) {
    return this.told((...out) => this.with([line], (...words) => this.lib.sfc_command(this.handle, ...words, ...out)));
  }

  imageText() { return this.told((...out) => this.lib.sfc_image_text(this.handle, ...out)).text; }

  /** @param {number} number */
  explain(number) { return this.told((...out) => this.lib.sfc_explain(number, ...out)).text; }

  // ---- readers

  status() {
    if (this.lib.sfc_status(this.handle, this.fixed)) return null;
    const view = this.view(), at = Number(this.fixed);
    const instant = Number(view.getBigInt64(at, true)), accepted = Number(view.getBigUint64(at + 8, true));
    return {instant, accepted, mode: view.getInt32(at + 16, true)};
  }

  /** @param {number} task */
  task(task) {
    if (this.lib.sfc_task_state(this.handle, task, this.fixed)) return null;
    const view = this.view(), at = Number(this.fixed);
    return {next: Number(view.getBigInt64(at, true)), overruns: Number(view.getBigUint64(at + 8, true))};
  }

  /**
   * How a program stands: the scans of its life, and the fault that ended one since its latest reset, 0 for none. Where that is: `place` is
   * one of PLACE, `number` that of the transition or the action, -1 for none, and `statement` counts from 1 in a body, and is 0 elsewhere.
   * @param {number} program
   * @returns {ProgramState | null}
   */
  program(program) {
    if (this.lib.sfc_program_state(this.handle, program, this.fixed)) return null;
    const view = this.view(), at = Number(this.fixed), int = behind => view.getInt32(at + behind, true);
    return {scans: Number(view.getBigUint64(at, true)), fault: int(8), place: int(12), number: int(16), statement: int(20)};
  }

  /**
   * Steps, transitions or actions of a program, all of a kind.
   * @param {number} program
   * @param {number} kind
   * @param {number} count
   */
  points(program, kind, count) {
    const view = this.view(), at = Number(this.fixed), all = [];
    for (let number = 0; number < count; number++) {
      if (this.lib.sfc_point_state(this.handle, program, kind, number, this.fixed)) break;
      const active = view.getInt32(at + 8, true) !== 0, happened = view.getInt32(at + 12, true) !== 0;
      all.push({elapsed: Number(view.getBigInt64(at, true)), active, happened});
    }
    return all;
  }

  /** All variables, by their numbers. @param {number} count */
  image(count) {
    const at = this.lib.sfc_take(BigInt(count * 16 || 16));
    if (!at) return [];
    const code = this.lib.sfc_image(this.handle, at, BigInt(count)), view = this.view(), from = Number(at);
    const value = k => ({value: Number(view.getBigInt64(from + 16 * k, true)), forced: view.getInt32(from + 16 * k + 8, true) !== 0});
    const all = code ? [] : Array.from({length: count}, (_, k) => value(k));
    this.lib.sfc_give(at);
    return all;
  }

  // ---- names

  /** @param {number} kind @param {number} [program] */
  count(kind, program = 0) { return Math.max(0, this.lib.sfc_count(this.handle, kind, program)); }

  /** @param {number} kind @param {number} [program] */
  names(kind, program = 0) {
    const name = n => this.told((...out) => this.lib.sfc_name(this.handle, kind, program, n, ...out)).text;
    return Array.from({length: this.count(kind, program)}, (_, n) => name(n));
  }
}
