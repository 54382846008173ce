/** The worker: jobs come as messages, one after the other, and are answered by their numbers. */
import {Jobs} from './jobs.js';

let jobs = null, last = Promise.resolve();

const buffersOf = answer => answer.kept?.map(it => it.saved.bytes.buffer) ?? [];

async function answer({number, job}) {
  try {
    const result = await jobs.run(job);
    self.postMessage({number, result}, buffersOf(result));
  } catch (error) {
    self.postMessage({number, error: String(error)});
  }
}

self.onmessage = ({data}) => {
  if (data.module) jobs = new Jobs(data.module);
  else last = last.then(() => answer(data));
};
