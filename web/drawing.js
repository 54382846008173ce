/** The chart as the program draws it: put into the page once, and then marked by the ids and classes that sfc_drawing has. */
import {KIND} from './sfc.js';
import {typeOf} from './listing.js';
import {timeText} from './time.js';

const DRAWN = 'image/svg+xml';
/** The faults of sfc_program_state_t, by their numbers. */
const FAULTS = ['', 'DivZero', 'Range', 'TwoTimed', 'SdWhileSl', 'SlWhileSd'];

/** A drawing without its style: the page has one of its own for it, since its policy allows no other. @param {string} text */
const parse = text => new DOMParser().parseFromString(text.replace(/<style>[^<]*<\/style>/, ''), DRAWN).documentElement;

/** What of an instance is drawn, by the numbers of things. */
class Instance {
  constructor(root, program, listing) {
    const find = id => root.querySelector(`[id="${CSS.escape(`${program.name}-${id}`)}"]`);
    const type = typeOf(listing, listing.instances[program.number]);
    const numbers = new Map(program.actions.map((name, n) => [name.toLowerCase(), n]));
    this.program = program;
    this.steps = program.steps.map(name => find(`step-${name}`));
    this.times = this.steps.map(it => it?.querySelector('.time'));
    this.transitions = program.transitions.map((_, n) => find(`transition-${n + 1}`));
    this.bodies = program.actions.map(name => find(`action-${name}`));
    this.rows = type.steps.flatMap((step, n) => step.actions.map((name, k) => (
      {step: n, action: numbers.get(name.toLowerCase()), name, element: find(`step-${step.name}-${k + 1}`)})));
    this.heading = root.querySelector(`[id="${CSS.escape(program.name)}"] > text.n`);
    this.front = this.heading?.textContent.replace(/, scans .*/, '') ?? '';
  }

  /** @param {import('./sfc.js').Sfc} sfc */
  mark(sfc, forced) {
    const {number, steps, transitions, actions} = this.program;
    this.markHeading(sfc.program(number));
    const ofSteps = sfc.points(number, KIND.step, steps.length), ofActions = sfc.points(number, KIND.action, actions.length);
    sfc.points(number, KIND.transition, transitions.length).forEach((it, n) => set(this.transitions[n], 'fired', it.happened));
    ofSteps.forEach((it, n) => this.markStep(n, it));
    ofActions.forEach((it, n) => set(this.bodies[n], 'ran', it.happened));
    for (const row of this.rows) {
      set(row.element, 'ran', Boolean(ofSteps[row.step]?.active && ofActions[row.action]?.happened));
      const name = row.name.toLowerCase(), own = `${this.program.name.toLowerCase()}.${name}`;
      set(row.element, 'forced', forced.has(own) || forced.has(name));
    }
  }

  markHeading(state) {
    if (!this.heading || !state) return;
    const fault = state.fault ? `, fault ${FAULTS[state.fault]}` : '', text = `${this.front}, scans ${state.scans}${fault}`;
    if (this.heading.textContent !== text) this.heading.textContent = text;
    set(this.heading, 'faulted', state.fault !== 0);
  }

  markStep(n, {active, elapsed}) {
    set(this.steps[n], 'on', active);
    const time = this.times[n], text = active ? timeText(elapsed) : '';
    if (time && time.textContent !== text) time.textContent = text;
  }
}

function set(element, name, is) {
  if (element && element.classList.contains(name) !== is) element.classList.toggle(name, is);
}

export class Drawing {
  /** @param {HTMLElement} host */
  constructor(host) {
    this.host = host;
    this.instances = [];
    this.svg = null;
  }

  /** Puts a drawing of the program instances in place of the one that is there. @param {string} text */
  show(text, names) {
    const parsed = parse(text);
    if (parsed.localName !== 'svg') return this.clear('');
    this.svg = document.importNode(parsed, true);
    this.svg.setAttribute('role', 'group');
    this.svg.setAttribute('aria-label', 'The chart. Arrow keys go from step to step; Enter sets a breakpoint.');
    this.host.replaceChildren(this.svg);
    this.host.classList.remove('empty');
    this.instances = names.programs.map(program => new Instance(this.svg, program, names.listing));
    this.points = this.instances.flatMap(it => this.pointsOf(it));
    this.points.forEach((it, k) => this.open(it, k === 0));
    this.showBeginning();
    return this.svg;
  }

  /** Scrolls to where the first initial step is seen. */
  showBeginning() {
    const first = this.svg.querySelector('.initial'), host = this.host.getBoundingClientRect();
    if (!first) return;
    const at = first.getBoundingClientRect();
    this.host.scrollTo(Math.max(0, this.host.scrollLeft + at.left + at.width / 2 - host.left - host.width / 2), 0);
  }

  /** @param {string} note */
  clear(note) {
    this.svg = null;
    this.instances = [];
    this.points = [];
    this.host.textContent = note;
    this.host.classList.add('empty');
    return null;
  }

  pointsOf({program, steps, transitions, rows, bodies}) {
    const point = (element, kind, name) => ({element, program: program.name, number: program.number, kind, name});
    const points = [
      ...steps.map((it, n) => point(it, 'STEP', program.steps[n])),
      ...transitions.map((it, n) => point(it, 'TRANSITION', String(n + 1))),
      ...rows.map(it => point(it.element, 'ACTION', it.name)),
      ...bodies.map((it, n) => point(it, 'ACTION', program.actions[n])),
    ].filter(it => it.element);
    return points.sort((a, b) => (a.element.compareDocumentPosition(b.element) & Node.DOCUMENT_POSITION_FOLLOWING ? -1 : 1));
  }

  open({element}, isFirst) {
    element.classList.add('point');
    element.setAttribute('tabindex', isFirst ? '0' : '-1');
    element.setAttribute('role', 'button');
    element.setAttribute('aria-label', element.querySelector(':scope > title').textContent);
  }

  /** The point to which an element of the drawing belongs. @param {EventTarget | null} target */
  pointAt(target) {
    const element = target instanceof Element ? target.closest('.point') : null;
    return element ? this.points.find(it => it.element === element) ?? null : null;
  }

  /** Goes to a point so many further on. */
  step(from, by) {
    const k = this.points.indexOf(from), to = this.points[Math.max(0, Math.min(this.points.length - 1, k + by))];
    if (!to || to === from) return;
    from.element.setAttribute('tabindex', '-1');
    to.element.setAttribute('tabindex', '0');
    to.element.focus();
    to.element.scrollIntoView({block: 'nearest', inline: 'nearest'});
  }

  /** Marks how all stands. @param {import('./sfc.js').Sfc} sfc @param {Set<string>} forced the names of forced variables */
  mark(sfc, forced) {
    for (const it of this.instances) it.mark(sfc, forced);
  }

  /** Marks enabled transitions, as WHY tells them: pairs of a program's name and a number from 1. @param {Set<string>} enabled */
  markEnabled(enabled) {
    for (const {program, transitions} of this.instances) {
      transitions.forEach((it, n) => set(it, 'enabled', enabled.has(`${program.name} ${n + 1}`)));
    }
  }

  /** Marks what was never reached, by ids, and meanwhile not what is cleared; null marks none. @param {Set<string> | null} ids */
  markNever(ids) {
    this.host.classList.toggle('covered', ids !== null);
    for (const {element} of this.points) set(element, 'never', Boolean(ids?.has(element.id)));
  }

  /** Marks breakpoints. @param {Map<string, string>} set_ conditions by program, kind and name */
  markPoints(set_) {
    for (const it of this.points) {
      const condition = set_.get(keyOf(it));
      set(it.element, 'broken', condition !== undefined);
      set(it.element, 'waits', Boolean(condition));
    }
  }
}

/** The ids of what a drawing shows as never reached. @param {string} text */
export function idsOfNever(text) {
  return new Set(Array.from(parse(text).querySelectorAll('.never[id]'), it => it.id));
}

/** A point as one text. */
export const keyOf = ({program, kind, name}) => `${program} ${kind} ${name}`.toLowerCase();
