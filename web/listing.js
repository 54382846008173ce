/**
 * What a listing of `sfcmon list` says of variables, steps and tasks, line by line. It is a layout of the program's own, so nothing is
 * judged here.
 */

/** @typedef {{name: string, type: string, location: string}} Variable */
/** @typedef {{variables: Variable[], steps: {name: string, actions: string[]}[], transitions: number}} ProgramType */

const VARIABLE = /^ +(\w+)(?: AT (%\w+(?:\.\d+)?))? : (\w+)/;

/** @returns {ProgramType} */
const emptyType = () => ({variables: [], steps: [], transitions: 0});

class Reader {
  constructor() {
    /** @type {Map<string, ProgramType>} */
    this.types = new Map();
    /** @type {Variable[]} */
    this.globals = [];
    this.tasks = [];
    this.instances = [];
    this.type = null;
    this.into = null;
    this.step = null;
  }

  /** @param {string} line */
  take(line) {
    const found = /^ *(?:INITIAL_)?(\w+)/.exec(line);
    if (!found) return;
    if (this.into && found[1] !== 'END_VAR') this.variable(line);
    else this.word(found[1], line);
  }

  variable(line) {
    const found = VARIABLE.exec(line);
    if (found) this.into.push({name: found[1], type: found[3], location: found[2] ?? ''});
  }

  word(word, line) {
    if (this.step && word !== 'END_STEP') this.step.actions.push(word);
    else if (word === 'VAR') this.into = this.type.variables;
    else if (word === 'VAR_GLOBAL') this.into = this.globals;
    else if (word === 'VAR_EXTERNAL') this.into = [];
    else if (word === 'END_VAR') this.into = null;
    else if (word === 'END_STEP') this.step = null;
    else this.element(word, line);
  }

  element(word, line) {
    if (word === 'STEP') this.type.steps.push(this.step = {name: /STEP (\w+)/.exec(line)[1], actions: []});
    else if (word === 'TRANSITION') this.type.transitions++;
    else if (word === 'TASK') this.task(line);
    else if (word === 'PROGRAM') this.program(line);
  }

  program(line) {
    const instance = /^ +PROGRAM (\w+) (?:WITH (\w+) )?: (\w+)/.exec(line);
    if (instance) this.instances.push({name: instance[1], task: instance[2] ?? '', type: instance[3]});
    else this.types.set(/PROGRAM (\w+)/.exec(line)[1].toLowerCase(), this.type = emptyType());
  }

  task(line) {
    const interval = /INTERVAL := (T#\w+(?:\.\d+ms)?)/.exec(line);
    this.tasks.push({name: /TASK (\w+)/.exec(line)[1], interval: interval ? interval[1] : ''});
  }
}

/** @param {string} text */
export function readListing(text) {
  const reader = new Reader();
  for (const line of text.split('\n')) reader.take(line);
  const {types, globals, tasks, instances} = reader;
  const ownOf = it => (types.get(it.type.toLowerCase()) ?? emptyType()).variables;
  const own = instances.flatMap(it => ownOf(it).map(variable => ({...variable, name: `${it.name}.${variable.name}`})));
  return {types, tasks, instances, variables: [...globals, ...own]};
}

/** The type of a program instance's chart. */
export const typeOf = (listing, instance) => listing.types.get(instance.type.toLowerCase()) ?? emptyType();
