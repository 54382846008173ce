/** The chart, the script and the tests as texts, and where the program finds faults in them. */
import {Editor} from './editor.js';
import {readReports} from './reports.js';

const KINDS = ['chart', 'script', 'tests'];
const LABELS = {chart: 'The chart', script: 'The script: a command on each line, behind its instant', tests: 'Tests of the chart'};
const REST = 250, MOST_SHOWN = 20;

export class Texts {
  /**
   * @param {import('./remote.js').Remote} remote
   * @param {{edited: (kind: string) => void, checked: (good: {chart: boolean, script: boolean}) => void,
   *   failed: (error: Error) => void}} listener
   */
  constructor(remote, listener) {
    this.remote = remote;
    this.listener = listener;
    const editorOf = kind => new Editor(document.querySelector(`#panel-${kind} .editor`), kind, LABELS[kind]);
    this.editors = Object.fromEntries(KINDS.map(kind => [kind, editorOf(kind)]));
    this.version = 0;
    this.timer = 0;
    for (const kind of KINDS) this.editors[kind].onchange = () => this.edited(kind);
  }

  edited(kind) {
    this.version++;
    this.listener.edited(kind);
    clearTimeout(this.timer);
    this.timer = setTimeout(() => this.check(), REST);
  }

  /** Looks for faults, and tells which texts have none. */
  async check() {
    try {
      await this.look();
    } catch (error) {
      this.listener.failed(error);
    }
  }

  async look() {
    clearTimeout(this.timer);
    const version = ++this.version, {chart, script, tests} = this.editors;
    const inChart = await this.faults('why_chart', chart.text);
    const isGood = !inChart.length;
    const inScript = isGood ? await this.faults('why_script', chart.text, script.text) : [];
    const inTests = isGood && tests.text.trim() ? await this.faults('why_tests', chart.text, tests.text) : [];
    if (version !== this.version) return;
    this.show('chart', inChart);
    this.show('script', inScript);
    this.show('tests', inTests);
    this.listener.checked({chart: isGood, script: isGood && !inScript.some(it => !it.isWarning)});
  }

  async faults(name, ...texts) {
    const {code, text} = await this.remote.tool(name, ...texts);
    return code ? [] : readReports(text);
  }

  show(kind, faults) {
    this.editors[kind].mark(faults);
    const shown = faults.slice(0, MOST_SHOWN).flatMap(it => this.report(kind, it));
    document.getElementById(`faults-${kind}`).replaceChildren(...shown);
    const tab = document.getElementById(`tab-${kind}`), count = faults.filter(it => !it.isWarning).length;
    tab.querySelector('.count')?.remove();
    if (!count) return;
    const badge = document.createElement('span');
    badge.className = 'count';
    badge.textContent = String(count);
    badge.title = 'faults';
    tab.append(badge);
  }

  report(kind, fault) {
    const head = document.createElement('button');
    head.type = 'button';
    head.className = fault.isWarning ? 'warning' : 'fault';
    head.textContent = `${fault.line}:${fault.column}: ${fault.title}`;
    head.addEventListener('click', () => this.editors[kind].visit(fault));
    return [head, ...fault.details.map(text => {
      const detail = document.createElement('p');
      detail.textContent = text;
      return detail;
    })];
  }
}
