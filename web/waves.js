/** Signals of a Value Change Dump, drawn over time. */
import {timeText} from './time.js';

const ROW = 24, HEAD = 22, LABELS = 150, MOST_ROWS = 400;

/** @typedef {{name: string, kind: string, times: number[], values: (number | string)[]}} Signal */

/** @param {string} text @returns {{signals: Signal[], end: number}} */
export function readDump(text) {
  const byId = new Map(), scopes = [];
  let at = 0;
  const change = (id, value) => {
    const signal = byId.get(id);
    if (!signal) return;
    if (signal.times.at(-1) === at) signal.values[signal.values.length - 1] = value;
    else { signal.times.push(at); signal.values.push(value); }
  };
  for (const line of text.split('\n')) {
    const first = line[0];
    if (first === '#') at = Number(line.slice(1));
    else if (first === '0' || first === '1') change(line.slice(1), Number(first));
    else if (first === 'b') { const [bits, id] = line.slice(1).split(' '); change(id, signed(bits, byId.get(id)?.width)); }
    else if (first === 's') { const [word, id] = line.slice(1).split(' '); change(id, word); }
    else if (first === '$') declare(line, scopes, byId);
  }
  return {signals: [...byId.values()].filter(isShown), end: at};
}

function signed(bits, width) {
  const value = Number.parseInt(bits, 2) || 0;
  return bits.length === width && bits[0] === '1' ? value - 2 ** width : value;
}

const signalOf = (name, kind, width) => ({name, kind: kind === 'wire' && width === 1 ? 'bit' : kind, width, times: [], values: []});

function declare(line, scopes, byId) {
  const [word, kind, second, id, name] = line.split(' ');
  if (word === '$scope') scopes.push(second);
  else if (word === '$upscope') scopes.pop();
  else if (word === '$var') byId.set(id, signalOf([...scopes.slice(1), name].join('.'), kind, Number(second)));
}

const HIDDEN = /\.(forced|T|Q|A|overruns)$|^mode\.|\.scan$/;
const isShown = ({name}) => !HIDDEN.test(name) || name.endsWith('steps.active');

/** Which part of a signal is at an instant: the last change that isn't later. */
function indexAt(times, at) {
  let low = 0, high = times.length;
  while (low < high) {
    const middle = (low + high) >> 1;
    if (times[middle] <= at) low = middle + 1;
    else high = middle;
  }
  return low - 1;
}

export class Waves {
  /** @param {HTMLCanvasElement} canvas @param {HTMLElement} told what a screen reader is told */
  constructor(canvas, told) {
    this.canvas = canvas;
    this.told = told;
    this.signals = [];
    [this.from, this.to, this.end, this.now] = [0, 1, 1, 0];
    canvas.addEventListener('wheel', event => this.wheel(event), {passive: false});
    canvas.addEventListener('keydown', event => this.key(event));
    new ResizeObserver(() => this.draw()).observe(canvas.parentElement);
    matchMedia('(prefers-color-scheme: dark)').addEventListener('change', () => this.draw());
  }

  wheel(event) {
    event.preventDefault();
    this.zoom(event.deltaY < 0 ? 0.7 : 1.4, this.share(event));
  }

  share(event) { return Math.max(0, Math.min(1, (event.offsetX - LABELS) / (this.canvas.clientWidth - LABELS))); }

  key(event) {
    const act = {
      '+': () => this.zoom(0.7, 0.5), '-': () => this.zoom(1.4, 0.5), 0: () => this.fit(),
      ArrowLeft: () => this.move(-0.2), ArrowRight: () => this.move(0.2),
    }[event.key];
    if (!act) return;
    event.preventDefault();
    act();
  }

  /** @param {string} text @param {number} now the run instant of the place @param {Set<string>} times the variables that are TIME */
  show(text, now, times) {
    const {signals, end} = readDump(text), isWhole = this.from === 0 && this.to === this.end;
    signals.sort((a, b) => Number(b.kind === 'string') - Number(a.kind === 'string'));
    this.signals = signals.slice(0, MOST_ROWS);
    this.end = Math.max(end, 1);
    this.now = now;
    this.times = times;
    this.told.textContent = this.signals.map(it => `${it.name} ${it.values.at(-1) ?? ''}`).join(', ');
    if (isWhole || this.to > this.end) this.fit();
    else this.draw();
  }

  fit() {
    [this.from, this.to] = [0, this.end];
    this.draw();
  }

  zoom(by, at) {
    const middle = this.from + (this.to - this.from) * at, span = Math.max(1000, (this.to - this.from) * by);
    this.from = Math.max(0, middle - span * at);
    this.to = Math.min(this.end, this.from + span);
    this.draw();
  }

  move(by) {
    const span = this.to - this.from, from = Math.max(0, Math.min(this.end - span, this.from + span * by));
    [this.from, this.to] = [from, from + span];
    this.draw();
  }

  // ---- drawing

  draw() {
    const {canvas} = this, width = canvas.parentElement.clientWidth, ratio = devicePixelRatio;
    const height = HEAD + this.signals.length * ROW + 4;
    if (!width) return;
    canvas.width = width * ratio;
    canvas.height = height * ratio;
    canvas.style.height = `${height}px`;
    const pen = canvas.getContext('2d'), style = getComputedStyle(canvas);
    this.colours = Object.fromEntries(['ink', 'soft', 'line', 'on', 'mark'].map(it => [it, style.getPropertyValue(`--${it}`)]));
    pen.scale(ratio, ratio);
    pen.font = `12px ${style.fontFamily}`;
    pen.textBaseline = 'middle';
    this.scale(pen, width, height);
    this.signals.forEach((it, k) => this.row(pen, it, HEAD + k * ROW, width));
  }

  x(at, width) { return LABELS + (at - this.from) / (this.to - this.from || 1) * (width - LABELS - 8); }

  scale(pen, width, height) {
    const rough = (this.to - this.from) / Math.max(2, (width - LABELS) / 110), power = 10 ** Math.floor(Math.log10(rough || 1));
    const step = [1, 2, 5, 10].map(it => it * power).find(it => it >= rough);
    pen.strokeStyle = this.colours.line;
    for (let at = Math.ceil(this.from / step) * step; at <= this.to; at += step) {
      const x = Math.round(this.x(at, width)) + 0.5;
      pen.beginPath();
      pen.moveTo(x, HEAD - 6);
      pen.lineTo(x, height);
      pen.stroke();
      pen.fillStyle = this.colours.soft;
      pen.fillText(timeText(Math.round(at)).slice(2), Math.min(x + 3, width - 50), 9);
    }
    const now = this.x(this.now, width);
    pen.fillStyle = this.colours.mark;
    if (now >= LABELS) pen.fillRect(now, 0, 1.5, height);
  }

  row(pen, signal, top, width) {
    pen.fillStyle = this.colours.ink;
    pen.fillText(fitted(signal.name, 21), 4, top + ROW / 2);
    pen.strokeStyle = this.colours.line;
    pen.strokeRect(LABELS - 0.5, top + 0.5, width, ROW);
    if (signal.kind === 'bit') this.bits(pen, signal, top, width);
    else this.words(pen, signal, top, width);
  }

  /** Changes that fall on one column of the picture are drawn once. */
  *parts({times, values}, width) {
    let k = Math.max(0, indexAt(times, this.from));
    while (k < times.length && times[k] < this.to) {
      const from = Math.max(LABELS, this.x(times[k], width));
      let next = k + 1;
      while (next < times.length && this.x(times[next], width) < from + 1) next++;
      const to = Math.min(this.x(next < times.length ? times[next] : Math.min(this.to, this.end), width), width - 8);
      yield {from, to, value: values[next - 1], isDense: next > k + 1};
      k = next;
    }
  }

  bits(pen, signal, top, width) {
    pen.fillStyle = this.colours.on;
    for (const {from, to, value, isDense} of this.parts(signal, width)) {
      if (isDense) pen.fillRect(from, top + 4, 1, ROW - 8);
      if (value) pen.fillRect(from, top + 4, Math.max(1, to - from), ROW - 8);
      else pen.fillRect(from, top + ROW - 5, Math.max(1, to - from), 1);
    }
  }

  words(pen, signal, top, width) {
    const textOf = value => this.times.has(signal.name) ? timeText(value) : String(value);
    for (const {from, to, value} of this.parts(signal, width)) {
      pen.fillStyle = this.colours.soft;
      pen.fillRect(from, top + 3, 1, ROW - 6);
      pen.fillStyle = this.colours.ink;
      const room = Math.floor((to - from - 6) / 7.3);
      if (room >= 2) pen.fillText(fitted(textOf(value), room), from + 4, top + ROW / 2);
    }
  }
}

const fitted = (text, room) => text.length <= room ? text : `${text.slice(0, Math.max(1, room - 1))}…`;
