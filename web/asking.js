/** Questions that the prompt of `sfcmon debug` answers behind a script: WHY and POINTS, taken apart by transitions and points. */

/**
 * @param {string} text what WHY has told
 * @returns {Map<string, string>} the lines of each transition, by the program's name and its number
 */
export function readWhy(text) {
  const blocks = new Map();
  let key = '';
  for (const line of text.split('\n')) {
    const head = /^(\S+) TRANSITION (\d+)/.exec(line);
    if (head) key = `${head[1]} ${head[2]}`;
    if (key && line) blocks.set(key, blocks.has(key) ? `${blocks.get(key)}\n${line}` : line);
  }
  return blocks;
}

/** Those that are enabled. @param {Map<string, string>} blocks */
export function enabledOf(blocks) {
  const isEnabled = text => /(?<! not) enabled$/.test(text.split('\n', 1)[0]);
  return new Set([...blocks].filter(([, text]) => isEnabled(text)).map(([key]) => key));
}

/** @param {string} text what POINTS has told @returns {Map<string, string>} the condition of each, or nothing, by program, kind and name */
export function readPoints(text) {
  const points = new Map();
  for (const [, program, kind, name, condition] of text.matchAll(/ BREAK (\S+) (STEP|TRANSITION|ACTION) (\S+)(?: WHEN (.*))?$/gm)) {
    points.set(`${program} ${kind} ${name}`.toLowerCase(), condition ?? '');
  }
  return points;
}
