/** The worker, as seen from the page. */
import {Jobs} from './jobs.js';

/** Jobs in a worker, or in the page where there is none. */
export class Remote {
  /**
   * @param {WebAssembly.Module} module
   * @param {string} source the text of the worker
   */
  constructor(module, source) {
    this.waiting = new Map();
    this.number = 0;
    this.here = new Jobs(module);
    this.worker = Remote.start(source);
    if (!this.worker) return;
    this.worker.onmessage = ({data}) => this.settle(data);
    this.worker.onerror = event => { event.preventDefault(); this.giveUp(); };
    this.worker.postMessage({module});
  }

  static start(source) {
    try {
      const address = URL.createObjectURL(new Blob([source], {type: 'text/javascript'}));
      return new Worker(address);
    } catch {
      return null;
    }
  }

  settle({number, result, error}) {
    const {done, fail} = this.waiting.get(number);
    this.waiting.delete(number);
    if (error) fail(new Error(error));
    else done(result);
  }

  /** Does here what the worker leaves undone. */
  giveUp() {
    this.worker = null;
    for (const {job, done, fail} of this.waiting.values()) this.here.run(job).then(done, fail);
    this.waiting.clear();
  }

  /** @param {object} job */
  run(job) {
    if (!this.worker) return this.here.run(job);
    const number = ++this.number;
    return new Promise((done, fail) => {
      this.waiting.set(number, {job, done, fail});
      this.worker.postMessage({number, job});
    });
  }

  /** A call of sfc_tools.h, by its name without `sfc_`. @param {string} name @param {...string} texts */
  tool(name, ...texts) { return this.run({name, texts}); }
}
