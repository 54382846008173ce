/** What is asked and told beside the chart and the variables: breakpoints, forces, and what a transition waits for. */
import {keyOf} from './drawing.js';
import {button, field, showPopover} from './popover.js';
import {valueText} from './variables.js';

const HOVER = 160;
const byId = id => /** @type {any} */ (document.getElementById(id));

export class Pointing {
  /** @param {object} page */
  constructor(page) {
    this.page = page;
    this.listen(byId('drawing'));
  }

  /** @param {HTMLElement} host */
  listen(host) {
    const pointAt = event => this.page.drawing.pointAt(event.target);
    host.addEventListener('click', event => this.askBreak(pointAt(event)));
    host.addEventListener('mouseover', event => this.hover(pointAt(event)));
    host.addEventListener('mouseleave', () => this.hover(null));
    host.addEventListener('focusin', event => this.hover(pointAt(event)));
    host.addEventListener('focusout', () => this.hover(null));
    host.addEventListener('keydown', event => this.key(event, pointAt(event)));
  }

  key(event, point) {
    const by = {ArrowDown: 1, ArrowRight: 1, ArrowUp: -1, ArrowLeft: -1}[event.key];
    if (!point) return;
    if (by) this.page.drawing.step(point, by);
    else if (event.key === 'Enter' || event.key === ' ') this.askBreak(point);
    else return;
    event.preventDefault();
  }

  /** @param {ReturnType<import('./drawing.js').Drawing['pointAt']>} point */
  askBreak(point) {
    if (!point || !this.page.play.isOpen) return;
    const condition = this.page.points?.get(keyOf(point)), words = `${point.program} ${point.kind} ${point.name}`;
    const when = field('Only when (may be left out)', condition ?? '', 'Count >= 10');
    const behind = () => when.input.value.trim() && ` WHEN ${when.input.value.trim()}`;
    const set = button('Break here', () => this.page.say(`BREAK ${words}${behind()}`));
    when.input.addEventListener('keydown', event => { if (event.key === 'Enter') set.click(); });
    const choices = document.createElement('div');
    choices.className = 'choices';
    choices.append(set);
    if (condition !== undefined) choices.append(button('Remove', () => this.page.say(`UNBREAK ${words}`)));
    showPopover(point.element, `Breakpoint: ${words}`, [when.label, choices]);
  }

  askForce(variable, anchor, isForced) {
    const choices = document.createElement('div'), content = [choices];
    choices.className = 'choices';
    const force = value => this.page.say(`FORCE ${variable.name} ${value}`);
    if (variable.type === 'BOOL') choices.append(button('TRUE', () => force('TRUE')), button('FALSE', () => force('FALSE')));
    else content.unshift(this.forceField(variable, choices, force));
    if (isForced) choices.append(button('Release', () => this.page.say(`RELEASE ${variable.name}`)));
    showPopover(anchor, `Force ${variable.name}`, content);
  }

  forceField(variable, choices, force) {
    const {names, sfc} = this.page.play, k = names.variables.indexOf(variable.name), now = sfc.image(names.variables.length)[k];
    const {label, input} = field(`Value, ${variable.type}`, valueText(now?.value ?? 0, variable.type));
    const set = button('Force', () => force(input.value.trim()));
    input.addEventListener('keydown', event => { if (event.key === 'Enter') set.click(); });
    choices.append(set);
    return label;
  }

  hover(point) {
    clearTimeout(this.hovering);
    if (!point) byId('waits').hidden = true;
    else this.hovering = setTimeout(() => this.showWaits(point), HOVER);
  }

  /** @param {NonNullable<ReturnType<import('./drawing.js').Drawing['pointAt']>>} point */
  async showWaits(point) {
    const isAsked = point.kind === 'TRANSITION' && this.page.play.isOpen;
    const text = isAsked ? await this.waitsOf(point) : point.element.getAttribute('aria-label');
    const waits = byId('waits'), host = byId('chart').getBoundingClientRect(), at = point.element.getBoundingClientRect();
    if (!point.element.isConnected) return;
    point.element.setAttribute('aria-describedby', 'waits');
    waits.textContent = text;
    waits.hidden = false;
    waits.style.left = `${Math.max(4, Math.min(at.left - host.left, host.width - waits.offsetWidth - 8))}px`;
    const below = at.bottom - host.top + 6;
    waits.style.top = `${below + waits.offsetHeight > host.height ? Math.max(4, at.top - host.top - waits.offsetHeight - 6) : below}px`;
  }

  /** What a transition waits for, as WHY tells it. */
  async waitsOf({program, name}) {
    const {why, play} = this.page, isNow = why.place === play.place && why.doc === play.doc;
    const known = isNow ? why.blocks.get(`${program} ${name}`) : undefined;
    return known ?? (await this.page.ask(`WHY ${program} ${name}`)).trimEnd();
  }
}
