// told.mjs MODULE: what the module tells of charts and scripts. Each line of standard input is a case as JSON: texts in base64, by name, and the
// calls that are wanted. Of each call the code, the sum and the length of what it told come out, as JSON by the names of the calls.
import fs from 'node:fs';
import crypto from 'node:crypto';
import readline from 'node:readline';
import {Sfc} from '../../web/sfc.js';

const QUESTIONS = Buffer.from('WHY\nSHOW\nIMAGE\nPOINTS\nTRACE 5\n');
const sfc = await Sfc.of(fs.readFileSync(process.argv[2]));

const tool = (name, ...texts) => sfc.bytes((...out) => sfc.with(texts, (...words) => sfc.lib[`sfc_${name}`](...words, ...out)));
const said = ({code, bytes}) => `${code} ${crypto.createHash('md5').update(bytes).digest('hex')} ${bytes.length}`;

/** The lines that the commands of a script tell one by one, and the image behind them. */
function lines(chart, script) {
  const code = sfc.open(chart, script), parts = [];
  for (let from = 0; !code && from < script.length;) {
    const end = script.indexOf(10, from), to = end < 0 ? script.length : end + 1;
    const say = (...out) => sfc.with([script.subarray(from, to)], (...words) => sfc.lib.sfc_command(sfc.handle, ...words, ...out));
    parts.push(sfc.bytes(say).bytes);
    from = to;
  }
  if (!code) parts.push(sfc.bytes((...out) => sfc.lib.sfc_image_text(sfc.handle, ...out)).bytes);
  sfc.close();
  return {code, bytes: Buffer.concat(parts)};
}

const CALLS = {
  lines: ({chart, script}) => lines(chart, script),
  play: ({chart, script}) => tool('play', chart, script),
  list: ({chart}) => tool('list', chart),
  draw: ({chart}) => tool('draw', chart),
  draw_after: ({chart, script}) => tool('draw_after', chart, script),
  wave: ({chart, script}) => tool('wave', chart, script),
  cover: ({chart, script}) => tool('cover', chart, script),
  draw_cover: ({chart, script}) => tool('draw_cover', chart, script),
  test: ({chart, tests}) => tool('test', chart, tests),
  why_chart: ({chart}) => tool('why_chart', chart),
  why_script: ({chart, script}) => tool('why_script', chart, script),
  why_tests: ({chart, tests}) => tool('why_tests', chart, tests),
  ask: ({chart, script}) => tool('ask', chart, script, QUESTIONS),
};

for await (const line of readline.createInterface({input: process.stdin})) {
  const {calls, ...texts} = JSON.parse(line);
  for (const name of Object.keys(texts)) texts[name] = Buffer.from(texts[name], 'base64');
  const told = {};
  for (const name of calls) told[name] = said(CALLS[name](texts));
  console.log(JSON.stringify(told));
}
