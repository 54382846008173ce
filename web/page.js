/** The page: what is clicked becomes a line of the script, and how all stands behind it is shown. */
import {EXAMPLES, MODULE, WORKER} from './assets.js';
import {CODE, MODE} from './sfc.js';
import {Play} from './play.js';
import {Run} from './run.js';
import {Remote} from './remote.js';
import {Texts} from './texts.js';
import {Drawing, idsOfNever} from './drawing.js';
import {Pointing} from './pointing.js';
import {Variables} from './variables.js';
import {Waves} from './waves.js';
import {makeTabs} from './tabs.js';
import {button, closePopover, showPopover} from './popover.js';
import {enabledOf, readPoints, readWhy} from './asking.js';
import {showLines, showTold} from './results.js';
import {fromBase64, readLink, unpack, writeLink} from './link.js';
import {openFiles, saveFile} from './files.js';
import {listen, liveChart, liveMode, tellRun} from './live.js';
import {timeText} from './time.js';

const REST = 150, LONG_REST = 800, LONG = 200_000;
const MODES = {[MODE.running]: 'running', [MODE.halted]: 'halted', [MODE.ended]: 'ended'};
const KEYS = [['S', 'Scan'], ['R', 'Run, or pause'], ['H', 'Halt'], ['N', 'Single'], ['G', 'Go'], ['[ and ]', 'back and forward'],
  ['Ctrl+Space', 'names and words, in a text'], ['arrow keys', 'from element to element of the chart'], ['Enter', 'a breakpoint there'],
  ['?', 'this list']];
const byId = id => /** @type {any} */ (document.getElementById(id));

class Page {
  /** @param {WebAssembly.Module} module */
  constructor(module) {
    this.remote = new Remote(module, WORKER);
    this.play = new Play(module, this.remote);
    this.run = new Run(this.play, {moved: () => this.moved(), ended: told => this.runEnded(told), failed: error => this.runFailed(error)});
    this.texts = new Texts(this.remote, {
      edited: kind => this.edited(kind), checked: good => this.checked(good), failed: error => this.checkFailed(error),
    });
    this.drawing = new Drawing(byId('drawing'));
    this.pointing = new Pointing(this);
    this.variables = new Variables(byId('variables'), {
      input: (variable, value) => this.say(`INPUT ${variable.name} ${value}`),
      force: (variable, anchor, isForced) => this.pointing.askForce(variable, anchor, isForced),
    });
    this.waves = new Waves(byId('waves'), byId('waves-told'));
    this.textTabs = makeTabs(byId('tab-chart').parentElement, () => this.syncScript());
    this.resultTabs = makeTabs(byId('tab-output').parentElement, () => this.showResults());
    this.why = {place: -1, blocks: new Map()};
    this.drawn = '';
    this.last = Promise.resolve();
    this.listen();
  }

  // ---- what is clicked and typed

  listen() {
    const on = (id, act) => byId(id).addEventListener('click', act);
    on('scan', () => this.act(() => this.play.scan()));
    on('run', () => this.toggleRun());
    on('halt', () => this.say('STOP'));
    on('go', () => this.say('GO'));
    on('single', () => this.single());
    on('reset', () => this.say(`RESET ${byId('program').value}`));
    on('back', () => this.goTo(this.play.place - 1));
    on('forward', () => this.goTo(this.play.place + 1));
    on('share', () => this.share());
    on('help', () => this.help());
    on('open', () => byId('file').click());
    on('save-chart', () => saveFile('page.chart', this.texts.editors.chart.text));
    on('save-script', () => saveFile('page.script', this.texts.editors.script.text));
    byId('slider').addEventListener('input', () => this.goTo(Number(byId('slider').value)));
    byId('speed').addEventListener('change', () => { this.run.speed = Number(byId('speed').value); });
    byId('example').addEventListener('change', () => this.example(byId('example').value));
    byId('file').addEventListener('change', () => this.openFiles());
    document.addEventListener('keydown', event => this.key(event));
    addEventListener('hashchange', () => this.follow());
    for (const kind of ['chart', 'script', 'tests']) this.texts.editors[kind].names = () => this.names;
  }

  key(event) {
    const target = /** @type {HTMLElement} */ (event.target);
    if (event.ctrlKey || event.altKey || event.metaKey || target.closest('textarea, input, select, .popover')) return;
    const id = {s: 'scan', r: 'run', h: 'halt', n: 'single', g: 'go', '[': 'back', ']': 'forward', '?': 'help'}[event.key.toLowerCase()];
    if (!id) return;
    event.preventDefault();
    byId(id).click();
  }

  // ---- lines

  /** Does something that says lines, when what was asked before is done. @param {() => any} act */
  act(act) {
    if (this.isBusy) return this.texts.check().then(() => this.act(act)).catch(error => this.notice(String(error), true));
    this.last = this.last.then(async () => {
      if (!this.play.isOpen) return;
      const {place} = this.play;
      let told = null;
      try {
        told = await act();
      } catch (error) {
        await this.play.revive(error, {...this.play.doc, script: this.play.script, place});
        this.notice('The module was stopped; a new one has replayed the script.', true);
      }
      if (told) this.tell(told);
      this.moved();
    }).catch(error => this.notice(String(error), true));
    return this.last;
  }

  /** Says a command at the instant of now. @param {string} words */
  say(words) {
    if (this.live === 'look') return this.notice('This run is only looked at.', true);
    if (this.live) return tellRun(words).then(wrong => this.notice(wrong || `Said: ${words}`, Boolean(wrong)));
    return this.act(async () => {
      const line = `${timeText(this.run.instant)} ${words}`, told = await this.play.say(line);
      return told.code === CODE.noLine ? this.faultOf(line) : told;
    });
  }

  /** What the program says of a line that is no command. @param {string} line */
  async faultOf(line) {
    const {text} = await this.remote.tool('why_script', this.play.doc.chart, `${line}\n`), [head, ...rest] = text.split('\n');
    const mend = rest.find(it => it.startsWith('  mend:')) ?? rest.find(it => it.startsWith('  expected:')) ?? '';
    return {code: CODE.noLine, text: `${head.replace(/^script:\d+:\d+: /, '')}${mend}`};
  }

  tell({code, text}) {
    const line = text.split('\n', 1)[0], meaning = code > 0 ? /^ {2}meaning: (.*)$/m.exec(this.play.sfc.explain(code)) : null;
    this.notice(meaning ? `${line}: ${meaning[1]}` : line, code !== CODE.done);
  }

  /** @param {string} text @param {boolean} [isBad] */
  notice(text, isBad = false) {
    const notice = byId('notice');
    notice.textContent = text;
    notice.title = text;
    notice.classList.toggle('bad', isBad);
  }

  single() {
    const name = byId('task').value, task = this.play.names.listing.tasks.find(it => it.name === name);
    return this.say(`SINGLE ${name} ${task?.interval || 'T#0s'}`);
  }

  goTo(place) {
    this.stopRun();
    this.notice('');
    this.wanted = place;
    return this.act(async () => {
      if (this.wanted !== place) return; // the slider has gone on
      await this.play.go(place);
    });
  }

  // ---- running

  toggleRun() {
    if (this.run.isRunning) this.stopRun();
    else if (this.play.isOpen) this.act(() => { this.run.start(); });
  }

  stopRun() {
    this.run.stop();
    byId('run').setAttribute('aria-pressed', 'false');
  }

  runEnded(told) {
    this.stopRun();
    if (told) this.tell(told);
    else this.notice('A breakpoint was hit: the resource is halted.');
    this.moved();
  }

  runFailed(error) {
    this.stopRun();
    this.act(() => { throw error; });
  }

  // ---- texts

  /** The names of the last chart that had no fault, which one that is being written mostly has. */
  get names() {
    if (!this.known) return [];
    const {programs, tasks, variables} = this.known;
    const inPrograms = programs.flatMap(it => [it.name, ...it.steps, ...it.transitions, ...it.actions]);
    return [...variables, ...variables.map(it => it.split('.').at(-1)), ...tasks, ...inPrograms].filter(Boolean);
  }

  edited(kind) {
    this.stopRun();
    this.busy(true);
    if (kind === 'tests') return;
    byId('example').value = '';
  }

  /** @param {{chart: boolean, script: boolean}} good */
  checked({chart, script}) {
    this.last = this.last.then(() => chart && script ? this.load() : this.unload(chart)).catch(error => this.notice(String(error), true));
  }

  checkFailed(error) {
    this.unload(false);
    this.notice(`The texts can't be looked at: ${error}`, true);
  }

  async load() {
    const {chart, script} = this.texts.editors, place = this.firstPlace ?? this.play.place;
    this.firstPlace = null;
    if (this.play.isOpen && chart.text === this.play.doc.chart && script.text === this.play.script) return this.afterLoad();
    const code = await this.play.open({chart: chart.text, script: script.text, place});
    if (code) return this.checkFailed(new Error(`the chart isn't opened: ${code}`));
    await this.draw();
    this.afterLoad();
  }

  /** @param {boolean} is */
  busy(is) {
    this.isBusy = is;
    document.querySelector('main').setAttribute('aria-busy', String(is));
  }

  afterLoad() {
    if (byId('mode').dataset.mode === 'faulty') this.notice('');
    this.busy(false);
    this.known = this.play.names;
    byId('drawing').classList.remove('stale');
    this.enable(true);
    this.moved();
    this.showResults();
  }

  unload(isChart) {
    this.busy(false);
    this.play.names = null;
    this.enable(false);
    byId('mode').dataset.mode = 'faulty';
    byId('mode').textContent = isChart ? 'faulty script' : 'faulty chart';
    this.notice(isChart ? 'A line of the script is no command.' : 'The chart has faults; they are told below its text.', true);
  }

  async draw() {
    const {chart} = this.play.doc, {names} = this.play;
    if (chart === this.drawn) return;
    const {code, text} = await this.remote.tool('draw_after', chart, '');
    this.drawn = chart;
    if (code) this.drawing.clear('The drawing is too large.');
    else this.drawing.show(text, names);
    this.variables.show(names.listing.variables);
    const fill = (id, all) => byId(id).replaceChildren(...all.map(it => new Option(it, it)));
    fill('task', names.tasks);
    fill('program', names.programs.map(it => it.name));
    byId('task').hidden = names.tasks.length < 2;
    byId('program').hidden = names.programs.length < 2;
  }

  /** Puts texts in the place of those that are there. */
  put({chart, script = '', tests = '', place = 0}) {
    this.stopRun();
    this.busy(true);
    closePopover();
    const {editors} = this.texts;
    [editors.chart.text, editors.script.text, editors.tests.text] = [chart, script, tests];
    this.firstPlace = place;
    return this.texts.check();
  }

  example(name) {
    const found = EXAMPLES.find(it => it.name === name);
    if (found) this.put({...found, place: found.script.split('\n').length}).then(() => { byId('example').value = name; });
  }

  async openFiles() {
    const texts = await openFiles(byId('file').files), {editors} = this.texts;
    byId('file').value = '';
    const script = texts.chart ? '' : editors.script.text;
    await this.put({chart: editors.chart.text, script, ...texts});
  }

  /** The script as it stands now in its editor, where that is seen. */
  syncScript() {
    const {script} = this.texts.editors, wanted = this.play.script;
    if (!this.play.isOpen || this.isBusy || this.textTabs?.current() !== 'script' || script.text === wanted) return;
    if (wanted.startsWith(script.text)) script.append(wanted.slice(script.text.length));
    else script.text = wanted;
  }

  // ---- links

  async share() {
    const {chart, script} = this.texts.editors, {isOpen, place} = this.play;
    const link = await writeLink({chart: chart.text, script: isOpen ? this.play.script : script.text, place});
    history.replaceState(null, '', link);
    const isCopied = await navigator.clipboard?.writeText(location.href).then(() => true, () => false);
    this.notice(`The address is now this chart, this script and this place${isCopied ? '; it was copied.' : '.'}`);
  }

  async follow() {
    const doc = await readLink(location.hash);
    if (doc) await this.put(doc);
    else if (location.hash.length > 1) this.notice('The link has no chart that can be read.', true);
    return Boolean(doc);
  }

  help() {
    const rows = KEYS.map(([key, what]) => { const row = document.createElement('p'); row.textContent = `${key}: ${what}`; return row; });
    showPopover(byId('help'), 'Keys', [...rows, button('Close', () => byId('help').focus())]);
  }

  // ---- how all stands

  enable(is) {
    for (const it of document.querySelectorAll('#transport button, #slider')) it.disabled = !is;
    byId('drawing').classList.toggle('stale', !is);
    if (is) this.enableByMode();
  }

  enableByMode() {
    const mode = this.play.status().mode, {place, lines} = this.play;
    byId('halt').disabled = mode !== MODE.running;
    byId('go').disabled = byId('single').disabled = mode !== MODE.halted;
    byId('back').disabled = place === 0;
    byId('forward').disabled = place >= lines.length;
  }

  /** Shows how all stands at the place. */
  moved() {
    if (!this.play.isOpen) return;
    const {play} = this, {sfc, place, lines, names} = play, status = play.status(), image = sfc.image(names.variables.length);
    const slider = byId('slider');
    slider.max = String(lines.length);
    slider.value = String(place);
    byId('where').textContent = `${place} of ${lines.length}`;
    byId('clock').textContent = timeText(status.instant);
    byId('mode').dataset.mode = byId('mode').textContent = MODES[status.mode];
    byId('run').setAttribute('aria-pressed', String(this.run.isRunning));
    this.variables.mark(image);
    this.drawing.mark(sfc, this.variables.forced(image));
    this.enableByMode();
    this.texts.editors.script.point(place - 1, this.textTabs.current() === 'script');
    if (this.resultTabs.current() === 'output') showTold(byId('output'), play.told, place);
    clearTimeout(this.rest);
    this.rest = setTimeout(() => this.rested(), lines.length * 16 > LONG ? LONG_REST : REST);
  }

  /** What takes longer is shown when nothing has moved for a while. */
  async rested() {
    if (!this.play.isOpen) return;
    this.syncScript();
    if (this.resultTabs.current() !== 'output') this.showResults();
    const {place, said, doc} = this.play, points = /^\S+\s+BREAK\s/im.test(said);
    const [why, set] = await Promise.all([this.ask('WHY'), points ? this.ask('POINTS') : '']);
    if (this.play.place !== place || this.play.doc !== doc) return;
    this.why = {place, doc, blocks: readWhy(why)};
    this.drawing.markEnabled(enabledOf(this.why.blocks));
    this.drawing.markPoints(this.points = readPoints(set));
  }

  /** What the prompt answers behind the lines that were said. @param {string} question */
  async ask(question) { return (await this.remote.tool('ask', this.play.doc.chart, this.play.said, question)).text; }

  async showResults() {
    const name = this.resultTabs?.current();
    if (!this.play.isOpen || !name) return;
    const {chart} = this.play.doc, {script} = this.play;
    if (name === 'output') showTold(byId('output'), this.play.told, this.play.place);
    if (name === 'image') showLines(byId('image'), this.play.sfc.imageText());
    if (name === 'waves') await this.showWaves(chart, script);
    if (name === 'coverage') await this.showCoverage(chart, script);
    else this.drawing.markNever(null);
    if (name === 'outcome') await this.showOutcome(chart);
  }

  /** The report, and in the chart what was never reached, as long as the report is seen. */
  async showCoverage(chart, script) {
    const tool = name => this.remote.tool(name, chart, script), [report, drawn] = await Promise.all([tool('cover'), tool('draw_cover')]);
    showLines(byId('coverage'), report.text);
    const isSeen = this.resultTabs.current() === 'coverage' && this.play.doc?.chart === chart;
    this.drawing.markNever(isSeen ? idsOfNever(drawn.text) : null);
  }

  async showWaves(chart, script) {
    const times = new Set(this.play.names.listing.variables.filter(it => it.type === 'TIME').map(it => it.name));
    const {text} = await this.remote.tool('wave', chart, script);
    if (this.play.isOpen) this.waves.show(text, this.play.status().instant, times);
  }

  async showOutcome(chart) {
    const tests = this.texts.editors.tests.text;
    if (!tests.trim()) return showLines(byId('outcome'), 'There are no tests: write them in Tests, or open a file .sfctest.');
    const {code, text} = await this.remote.tool('test', chart, tests);
    showLines(byId('outcome'), code ? 'The tests have a fault, which is told below their text.' : text);
  }

  // ---- a run that is shown

  /** Shows a run: the texts are its own, and its commands come by themselves. */
  async showRun() {
    document.body.dataset.live = this.live;
    for (const kind of ['chart', 'script']) this.texts.editors[kind].area.readOnly = true;
    await this.put({chart: await liveChart()});
    listen(lines => this.hear(lines), () => this.notice('The run has ended.'));
  }

  /** Commands of the run. Who has gone back stays there. @param {string[]} lines */
  hear(lines) {
    return this.act(() => {
      for (const line of lines) {
        const told = this.play.place < this.play.lines.length ? this.play.add(line) : this.play.sayNow(line);
        if (told?.code) return told;
      }
      return null;
    });
  }

  // ---- the beginning

  async start() {
    byId('example').replaceChildren(new Option('', ''), ...EXAMPLES.map(it => new Option(it.name, it.name)));
    this.enable(false);
    this.live = liveMode();
    if (this.live) return this.showRun();
    if (await this.follow()) return;
    const isBad = byId('notice').textContent;
    await this.put({...EXAMPLES.find(it => it.name === 'mixing') ?? EXAMPLES[0]});
    byId('example').value = 'mixing';
    if (isBad) this.last = this.last.then(() => this.notice(isBad, true));
  }
}

async function begin() {
  try {
    const module = await WebAssembly.compile(await unpack(fromBase64(MODULE)));
    await new Page(module).start();
  } catch (error) {
    byId('notice').textContent = `This browser can't run the page: ${error}`;
    byId('notice').classList.add('bad');
  }
}

begin();
