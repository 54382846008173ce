/** What the page shows: a chart, a script, and a place in it, which is a number of lines; and a resource that has been told these lines. */
import {Sfc, KIND, MODE, CODE} from './sfc.js';
import {STRIDE} from './jobs.js';
import {readListing} from './listing.js';
import {readTime, timeText} from './time.js';

/** So many lines are replayed at once; more of them in the worker. */
const AT_ONCE = 1500;
/** A script has at most so many bytes. */
export const LONGEST = 1_048_576;
const MOST_KEPT = 100_000_000;

/** The refusal of a task that isn't due. */
const NOT_DUE = 29;

const isWaiting = line => /\bWHEN\b/i.test(line);
const isRefused = text => text.startsWith('refused ');

export class Play {
  /**
   * @param {WebAssembly.Module} module
   * @param {import('./remote.js').Remote} remote
   */
  constructor(module, remote) {
    this.module = module;
    this.remote = remote;
    this.sfc = null;
    this.doc = {chart: '', script: '', place: 0};
    this.lines = [];
    this.told = [];
    this.kept = [];
    this.names = null;
    this.traps = 0;
    /** Whether it is on its way to a place, so that nothing may be said. */
    this.isMoving = false;
  }

  get place() { return this.doc.place; }

  /** Whether a resource is there. */
  get isOpen() { return this.names !== null; }

  // ---- opening

  /** Opens a chart and a script, and goes to the place: the code of the opening. @param {import('./link.js').Doc} doc */
  async open(doc) {
    this.names = null;
    if (!this.sfc || doc.chart !== this.doc.chart) this.sfc = await Sfc.of(this.module);
    try {
      const code = this.sfc.open(doc.chart, doc.script);
      if (code) return code;
      this.take(doc);
    } catch (error) {
      return this.revive(error, doc);
    }
    await this.go(doc.place);
    return CODE.done;
  }

  take(doc) {
    this.lines = doc.script.split('\n');
    if (this.lines.at(-1) === '') this.lines.pop();
    this.doc = {...doc, place: 0};
    this.told = [];
    this.kept = [{place: 0, saved: this.sfc.save()}];
    const listing = readListing(this.sfc.tool('list', doc.chart).text);
    const programs = this.sfc.names(KIND.program).map((name, number) => this.program(name, number));
    this.names = {listing, programs, variables: this.sfc.names(KIND.variable), tasks: this.sfc.names(KIND.task)};
  }

  program(name, number) {
    const names = kind => this.sfc.names(kind, number);
    return {name, number, steps: names(KIND.step), transitions: names(KIND.transition), actions: names(KIND.action)};
  }

  /** Behind a trap: a new instance, which is told what was told before. */
  async revive(error, doc) {
    this.traps++;
    this.sfc = await Sfc.of(this.module);
    if (this.traps > 3) throw error;
    return this.open(doc);
  }

  // ---- going to a place

  /** Goes to a place of the script. @param {number} place */
  async go(place) {
    const to = Math.max(0, Math.min(place, this.lines.length));
    this.isMoving = true;
    try {
      if (to - this.nearest(to).place > AT_ONCE) await this.goFar(to);
      else this.goNear(to);
      this.traps = 0;
    } catch (error) {
      await this.revive(error, {...this.doc, place: Math.min(to, this.place)});
    } finally {
      this.isMoving = false;
    }
  }

  /** The nearest place before, of those to which the memory can go back, or where it stands. */
  nearest(to) {
    let best = this.place <= to ? {place: this.place, saved: null} : this.kept[0];
    for (const it of this.kept) if (it.place <= to && it.place > best.place) best = it;
    return best;
  }

  goNear(to) {
    const from = this.nearest(to);
    if (from.saved) this.sfc.restore(from.saved);
    for (let k = from.place; k < to; k++) this.hear(k, this.sfc.command(`${this.lines[k]}\n`).text);
    this.doc.place = to;
  }

  async goFar(to) {
    const {chart} = this.doc, script = this.lines.join('\n');
    const done = await this.remote.run({replay: {chart, script, place: to}});
    if (done.code || script !== this.lines.join('\n')) return;
    done.told.forEach((text, k) => { this.told[k] = text; });
    this.kept = [this.kept[0], ...done.kept];
    this.sfc.restore(done.kept.at(-1).saved);
    this.doc.place = to;
  }

  hear(k, text) {
    this.told[k] = text;
    if ((k + 1) % STRIDE || this.kept.some(it => it.place === k + 1)) return;
    if (this.kept.length * this.kept[0].saved.bytes.length > MOST_KEPT) return;
    this.kept.push({place: k + 1, saved: this.sfc.save()});
  }

  // ---- saying lines

  /** Says a line at the place; what came behind it is forgotten, unless the line is refused. @param {string} line */
  async say(line) {
    const script = [...this.lines.slice(0, this.place), line].join('\n');
    if (script.length > LONGEST) return {code: CODE.noLine, text: 'the script is full'};
    if (isWaiting(line)) return this.sayWaiting(line);
    return this.sayNow(line);
  }

  /** The same of a line without a condition, at once. @param {string} line */
  sayNow(line) {
    const told = this.sfc.command(line);
    if (told.code || isRefused(told.text)) return told;
    this.append(line);
    this.hear(this.place - 1, told.text);
    return told;
  }

  /** Puts a line behind the last one, and stays at the place. @param {string} line */
  add(line) { this.lines.push(line); }

  append(line) {
    this.lines.length = this.place;
    this.told.length = this.place;
    this.kept = this.kept.filter(it => it.place <= this.place);
    this.lines.push(line);
    this.doc.place++;
  }

  /** A condition is one of the opening's, so that the chart is opened once more. */
  async sayWaiting(line) {
    const {chart, place} = this.doc, before = {chart, script: this.script, place};
    const lines = [...this.lines.slice(0, place), line];
    const code = await this.open({chart, script: `${lines.join('\n')}\n`, place: lines.length});
    const text = code ? '' : this.told[place];
    if (code || isRefused(text)) await this.open(before);
    return {code, text};
  }

  // ---- how all stands

  /** The whole script. */
  get script() { return this.lines.length ? `${this.lines.join('\n')}\n` : ''; }

  /** The lines that were said, as a script. */
  get said() { return this.lines.slice(0, this.place).map(it => `${it}\n`).join(''); }

  /** The instant of the last line that has one, at the place. */
  get instant() {
    for (let k = this.place - 1; k >= 0; k--) {
      const at = isRefused(this.told[k] ?? '') ? null : readTime(this.lines[k].trim().split(/\s/, 1)[0]);
      if (at !== null) return at;
    }
    return 0;
  }

  status() { return this.sfc.status() ?? {instant: 0, accepted: 0, mode: MODE.ended}; }

  /** The tasks that the last lines haven't scanned at this instant. @param {number} now */
  unscanned(now) {
    const scanned = new Set();
    for (let k = this.place - 1; k >= 0; k--) {
      const [at, word, task] = this.lines[k].trim().split(/\s+/);
      if (word?.toUpperCase() !== 'SCAN' || readTime(at) !== now) break;
      scanned.add(task.toUpperCase());
    }
    return this.names.tasks.filter(it => !scanned.has(it.toUpperCase()));
  }

  /** Scans a task of which a release waits at this instant, or null. @param {number} now */
  scanWaiting(now) {
    for (const task of this.unscanned(now)) {
      const told = this.sayNow(`${timeText(now)} SCAN ${task}`), first = /^refused 30 \S+ (\S+)/.exec(told.text);
      if (first) return this.sayNow(`${timeText(now)} SCAN ${first[1]}`);
      if (told.code !== NOT_DUE) return told;
    }
    return null;
  }

  /** The task whose next release by its interval comes first, and its instant by the script's clock, or null. @param {number} now */
  next(now) {
    const run = this.status().instant;
    let first = null;
    this.names.tasks.forEach((task, number) => {
      const next = this.sfc.task(number)?.next ?? -1;
      if (next >= 0 && (!first || now + next - run < first.at)) first = {task, at: now + next - run};
    });
    return first;
  }

  /**
   * Scans what waits, or else what is due next, where that comes no later than the instant.
   * @param {number} [latest]
   */
  scan(latest = Infinity) {
    const now = this.instant, waiting = this.scanWaiting(now);
    if (waiting) return waiting;
    const next = this.next(now);
    if (!next) return {code: CODE.unknown, text: 'no task is released by an interval'};
    if (next.at > latest) return null;
    const told = this.sayNow(`${timeText(next.at)} SCAN ${next.task}`), first = /^refused 30 \S+ (\S+)/.exec(told.text);
    return first ? this.sayNow(`${timeText(next.at)} SCAN ${first[1]}`) : told;
  }
}
