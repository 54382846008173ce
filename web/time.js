/** Durations and instants, as scripts have them. */

const UNITS = [['d', 86400e6], ['h', 3600e6], ['m', 60e6], ['s', 1e6]];
const UNIT = {d: 86400e6, h: 3600e6, m: 60e6, s: 1e6, ms: 1e3};

/** The TIME text of microseconds. @param {number} micros */
export function timeText(micros) {
  let rest = Math.abs(Math.round(micros));
  const parts = [];
  for (const [name, size] of UNITS) {
    const count = Math.floor(rest / size);
    rest -= count * size;
    if (count) parts.push(`${count}${name}`);
  }
  if (rest) parts.push(`${rest / 1000}ms`);
  return `T#${micros < 0 ? '-' : ''}${parts.join('_') || '0s'}`;
}

/** The microseconds of a duration that isn't negative, or null. @param {string} word */
export function readTime(word) {
  const text = /^(?:t|time)#((?:[0-9][0-9_.]*(?:ms|d|h|m|s)_?)+)$/i.exec(word);
  if (!text) return null;
  let sum = 0;
  for (const [, number, unit] of text[1].matchAll(/([0-9][0-9_.]*)(ms|d|h|m|s)/gi)) {
    sum += Number(number.replaceAll('_', '')) * UNIT[unit.toLowerCase()];
  }
  return Number.isFinite(sum) ? Math.round(sum) : null;
}
