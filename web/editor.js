/** A text to write: a text area over its own coloured copy, of which only the lines that are seen are there. */
import {piecesOf, WORDS} from './words.js';

/** The height of a line in pixels, as the style has it. */
const LINE = 18;
const MOST_OFFERED = 8, LONGEST_COLOURED = 400_000;

/** The place in a text of a line and a column, both from 1; a character is a column. */
function placeOf(text, line, column) {
  let at = 0;
  for (let k = 1; k < line && at >= 0; k++) at = text.indexOf('\n', at) + 1 || -1;
  if (at < 0) return text.length;
  for (let k = 1; k < column && at < text.length; k++) at += text.codePointAt(at) > 65535 ? 2 : 1;
  return at;
}

export class Editor {
  /**
   * @param {HTMLElement} host
   * @param {'chart' | 'script' | 'tests'} kind
   * @param {string} label
   */
  constructor(host, kind, label) {
    this.kind = kind;
    this.area = host.querySelector('textarea');
    this.area.setAttribute('aria-label', label);
    this.copy = host.querySelector('.copy');
    this.list = host.querySelector('.offered');
    this.faults = [];
    this.current = -1;
    this.names = () => [];
    this.onchange = () => {};
    this.offered = [];
    this.listen();
  }

  listen() {
    this.area.addEventListener('input', () => { this.paint(true); this.offer(false); this.onchange(); });
    this.area.addEventListener('scroll', () => this.paint(false));
    this.area.addEventListener('keydown', event => this.key(event));
    this.area.addEventListener('blur', () => this.close());
    new ResizeObserver(() => this.paint(false)).observe(this.area);
  }

  get text() { return this.area.value; }

  /** @param {string} text */
  set text(text) {
    if (text === this.area.value) return;
    this.area.value = text;
    this.close();
    this.paint(true);
  }

  /** Puts a line behind the last one. Only what is seen is made anew. */
  append(text) {
    this.area.setRangeText(text, this.area.value.length, this.area.value.length);
    this.paint(true);
  }

  // ---- colours

  /** @param {boolean} isNew */
  paint(isNew) {
    if (isNew) this.lines = null;
    if (this.isPainting) return;
    this.isPainting = true;
    requestAnimationFrame(() => { this.isPainting = false; this.repaint(); });
  }

  /** The lines, and the instants of their beginnings in the text. */
  split() {
    if (this.lines) return;
    this.lines = this.text.split('\n');
    this.starts = new Uint32Array(this.lines.length + 1);
    this.lines.forEach((line, k) => { this.starts[k + 1] = this.starts[k] + line.length + 1; });
    this.pieces = this.kind === 'chart' && this.text.length <= LONGEST_COLOURED ? piecesOf(this.text, 'chart') : null;
  }

  repaint() {
    this.split();
    const first = Math.max(0, Math.floor(this.area.scrollTop / LINE) - 2);
    const last = Math.min(this.lines.length, first + Math.ceil(this.area.clientHeight / LINE) + 6);
    const rows = [];
    for (let k = first; k < last; k++) rows.push(this.row(k));
    this.copy.replaceChildren(...rows);
    this.copy.style.transform = `translate(${-this.area.scrollLeft}px, ${first * LINE - this.area.scrollTop}px)`;
  }

  row(k) {
    const row = document.createElement('div'), from = this.starts[k], line = this.lines[k];
    row.className = k === this.current ? 'row now' : 'row';
    const pieces = this.piecesIn(from, line), marked = this.marksIn(k);
    let at = from;
    const put = (to, name) => {
      if (to <= at) return;
      const span = document.createElement('span');
      span.textContent = line.slice(at - from, to - from);
      span.className = name;
      row.append(span);
      at = to;
    };
    for (const it of this.cut(pieces, marked)) {
      put(Math.max(it.from, at), '');
      put(Math.min(it.to, from + line.length), it.name);
    }
    put(from + line.length, '');
    row.append('\n');
    return row;
  }

  /** The pieces of a line that begins at this place. A script's lines stand for themselves. */
  piecesIn(from, line) {
    if (this.pieces) return this.pieces.filter(it => it.to > from && it.from < from + line.length);
    return piecesOf(line, this.kind).map(it => ({...it, from: it.from + from, to: it.to + from}));
  }

  /** Pieces with the faulty ones in front of the others. */
  cut(pieces, marked) {
    if (!marked.length) return pieces;
    const others = pieces.filter(it => !marked.some(m => it.from < m.to && m.from < it.to));
    return [...others, ...marked].sort((a, b) => a.from - b.from);
  }

  marksIn(k) {
    return this.faults.filter(it => it.line === k + 1).map(it => {
      const from = placeOf(this.text, it.line, it.column), to = Math.min(this.starts[k] + this.lines[k].length, from + it.length);
      return {from: Math.min(from, to - 1), to: Math.max(to, from), name: it.isWarning ? 'warned' : 'faulty'};
    });
  }

  /** Shows these faults. @param {import('./reports.js').Fault[]} faults */
  mark(faults) {
    this.faults = faults;
    this.area.setAttribute('aria-invalid', String(faults.some(it => !it.isWarning)));
    this.paint(false);
  }

  /** Shows a line, from 0, as the one at which all stands. Nothing is measured where the text isn't seen. */
  point(line, isSeen) {
    if (this.current === line) return;
    this.current = line;
    if (!isSeen) return;
    const top = line * LINE, from = this.area.scrollTop, height = this.area.clientHeight;
    const isHidden = top < from || top + LINE > from + height;
    if (isHidden && document.activeElement !== this.area) this.area.scrollTop = Math.max(0, top - height / 2);
    this.paint(false);
  }

  /** Puts the caret at a fault. */
  visit({line, column, length}) {
    const from = placeOf(this.text, line, column);
    this.area.focus();
    this.area.setSelectionRange(from, from + length);
    this.area.scrollTop = Math.max(0, (line - 1) * LINE - this.area.clientHeight / 2);
  }

  // ---- completion

  key(event) {
    if (event.key === ' ' && event.ctrlKey) {
      event.preventDefault();
      this.offer(true);
    } else if (!this.list.hidden && this.keyInList(event.key)) {
      event.preventDefault();
    }
  }

  keyInList(key) {
    const count = this.offered.length;
    if (key === 'ArrowDown') this.pick((this.picked + 1) % count);
    else if (key === 'ArrowUp') this.pick((this.picked + count - 1) % count);
    else if (key === 'Enter' || key === 'Tab') this.accept(this.picked);
    else if (key === 'Escape') this.close();
    else return false;
    return true;
  }

  /** The part of a word before the caret. */
  front() {
    const end = this.area.selectionStart;
    return /[A-Za-z_][\w.]*$/.exec(this.text.slice(Math.max(0, end - 80), end))?.[0] ?? '';
  }

  offer(isAsked) {
    const front = this.front(), low = front.toLowerCase();
    const fits = it => it.toLowerCase().startsWith(low) && it.length > front.length;
    const all = front.length < (isAsked ? 0 : 2) ? [] : [...new Set([...this.names(), ...WORDS[this.kind]])];
    this.offered = all.filter(fits).slice(0, MOST_OFFERED);
    if (!this.offered.length) return this.close();
    const items = this.offered.map((name, k) => this.item(name, k));
    this.list.replaceChildren(...items);
    this.list.hidden = false;
    this.put();
    this.pick(0);
  }

  item(name, k) {
    const item = document.createElement('li');
    item.id = `${this.kind}-offered-${k}`;
    item.setAttribute('role', 'option');
    item.textContent = name;
    item.addEventListener('mousedown', event => { event.preventDefault(); this.accept(k); });
    return item;
  }

  put() {
    const lines = this.text.slice(0, this.area.selectionStart).split('\n');
    const left = lines.at(-1).length * this.width() - this.area.scrollLeft, top = lines.length * LINE - this.area.scrollTop;
    this.list.style.left = `${Math.max(0, Math.min(left, this.area.clientWidth - 140))}px`;
    this.list.style.top = `${top + 8}px`;
  }

  /** The width of a character. */
  width() {
    this.ruler ??= document.createElement('canvas').getContext('2d');
    this.ruler.font = getComputedStyle(this.area).font;
    return this.ruler.measureText('0').width;
  }

  pick(k) {
    this.picked = k;
    [...this.list.children].forEach((it, n) => it.setAttribute('aria-selected', String(n === k)));
    this.area.setAttribute('aria-activedescendant', this.list.children[k].id);
  }

  accept(k) {
    const front = this.front(), end = this.area.selectionStart;
    this.area.setRangeText(this.offered[k], end - front.length, end, 'end');
    this.close();
    this.paint(true);
    this.onchange();
  }

  close() {
    this.list.hidden = true;
    this.area.removeAttribute('aria-activedescendant');
  }
}
