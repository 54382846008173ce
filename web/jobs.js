/** What the worker does, and the page itself where it can have no worker: calls of the module that take long. */
import {Sfc} from './sfc.js';

/** After so many lines of a long replay the memory is kept, to go back to. */
export const STRIDE = 1000;
/** So many bytes of kept memory at the most. */
const MOST_KEPT = 100_000_000;

/** Lines that are said one after the other, from an opening on, in an instance that has done nothing else. */
function replay(sfc, {chart, script, place}) {
  const code = sfc.open(chart, script);
  if (code) return {code, told: [], kept: []};
  const lines = script.split('\n'), count = Math.min(place, lines.length), told = [], kept = [];
  const stride = Math.max(STRIDE, Math.ceil(count * sfc.lib.memory.buffer.byteLength / MOST_KEPT));
  for (let k = 0; k < count; k++) {
    told.push(sfc.command(`${lines[k]}\n`).text);
    if ((k + 1) % stride === 0) kept.push({place: k + 1, saved: sfc.save()});
  }
  return {code, told, kept: [...kept, {place: count, saved: sfc.save()}]};
}

/** A caller of the module that makes a new instance behind a trap. */
export class Jobs {
  /** @param {WebAssembly.Module} module */
  constructor(module) {
    this.module = module;
    this.sfc = null;
  }

  /** @param {{name: string, texts?: string[], replay?: object}} job */
  async run(job) {
    if (job.replay) return replay(await Sfc.of(this.module), job.replay);
    this.sfc ??= await Sfc.of(this.module);
    try {
      return this.sfc.tool(job.name, ...job.texts);
    } catch (error) {
      this.sfc = null;
      throw error;
    }
  }
}
