/** The variables: inputs as switches and numbers, all others to read, each to force. */
import {timeText} from './time.js';

export const valueText = (value, type) => type === 'BOOL' ? (value ? 'TRUE' : 'FALSE') : type === 'TIME' ? timeText(value) : String(value);

const make = (name, properties = {}, ...children) => {
  const element = document.createElement(name);
  for (const [key, value] of Object.entries(properties)) {
    if (key in element && key !== 'list') element[key] = value;
    else element.setAttribute(key, value);
  }
  element.append(...children);
  return element;
};

/** A row of a variable. */
class Row {
  constructor(variable, actions) {
    this.variable = variable;
    this.isInput = variable.location.toUpperCase().startsWith('%I');
    this.actions = actions;
    this.shown = null;
    this.value = make('output', {className: 'value'});
    this.control = this.isInput ? this.input() : this.value;
    this.force = make('button', {className: 'force', type: 'button', textContent: 'F', title: `Force ${variable.name}`});
    this.force.setAttribute('aria-label', `Force ${variable.name}`);
    this.force.setAttribute('aria-pressed', 'false');
    this.force.addEventListener('click', () => actions.force(variable, this.force, this.isForced));
    const title = `${variable.name} ${variable.location} ${variable.type}`;
    const name = make('span', {className: 'name', textContent: variable.name, title});
    const location = make('span', {className: 'location', textContent: variable.location || variable.type});
    this.element = make('li', {className: 'variable'}, name, location, this.control, this.force);
    this.element.dataset.name = variable.name;
  }

  input() { return this.variable.type === 'BOOL' ? this.switch() : this.number(); }

  switch() {
    const button = make('button', {type: 'button', className: 'switch'});
    button.setAttribute('role', 'switch');
    button.setAttribute('aria-label', this.variable.name);
    const isOn = () => button.getAttribute('aria-checked') === 'true';
    button.addEventListener('click', () => this.actions.input(this.variable, isOn() ? 'FALSE' : 'TRUE'));
    return button;
  }

  number() {
    const field = make('input', {type: 'text', className: 'number', autocomplete: 'off', spellcheck: false});
    field.setAttribute('aria-label', `${this.variable.name}, ${this.variable.type}`);
    field.addEventListener('change', () => this.actions.input(this.variable, field.value.trim()));
    return field;
  }

  /** @param {{value: number, forced: boolean}} state */
  show({value, forced}) {
    const text = valueText(value, this.variable.type), shown = `${text} ${forced}`;
    if (shown === this.shown) return;
    this.shown = shown;
    this.isForced = forced;
    this.element.classList.toggle('forced', forced);
    this.element.classList.toggle('on', text === 'TRUE');
    this.force.setAttribute('aria-pressed', String(forced));
    if (this.control === this.value) this.value.textContent = text;
    else if (this.variable.type === 'BOOL') this.showSwitch(text);
    else if (document.activeElement !== this.control) this.control.value = text;
  }

  showSwitch(text) {
    this.control.setAttribute('aria-checked', String(text === 'TRUE'));
    this.control.textContent = text;
  }
}

export class Variables {
  /** @param {HTMLElement} host @param {{input: Function, force: Function}} actions */
  constructor(host, actions) {
    this.host = host;
    this.actions = actions;
    this.rows = [];
  }

  /** @param {import('./listing.js').Variable[]} variables */
  show(variables) {
    this.rows = variables.map(it => new Row(it, this.actions));
    const inputs = this.rows.filter(it => it.isInput), others = this.rows.filter(it => !it.isInput);
    const group = (name, rows) => rows.length ? [make('h3', {textContent: name}), make('ul', {}, ...rows.map(it => it.element))] : [];
    this.host.replaceChildren(...group('Inputs', inputs), ...group('Outputs and other variables', others));
  }

  /** @param {{value: number, forced: boolean}[]} image */
  mark(image) { image.forEach((it, k) => this.rows[k]?.show(it)); }

  /** The names of those that are forced. */
  forced(image) { return new Set(this.rows.filter((_, k) => image[k]?.forced).map(it => it.variable.name.toLowerCase())); }
}
