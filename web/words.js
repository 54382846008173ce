/** Words of charts, scripts and tests, for colours and completion. What is right or wrong says the program alone. */

const of = text => text.split(' ');
const CHART = of('PROGRAM END_PROGRAM VAR VAR_EXTERNAL VAR_GLOBAL END_VAR CONSTANT AT STEP INITIAL_STEP END_STEP TRANSITION END_TRANSITION '
  + 'FROM TO PRIORITY ACTION END_ACTION IF THEN ELSIF ELSE END_IF CONFIGURATION END_CONFIGURATION RESOURCE END_RESOURCE ON TASK INTERVAL '
  + 'SINGLE WITH '
  + 'BOOL INT DINT TIME TRUE FALSE AND OR XOR NOT MOD');
const SCRIPT = of('SCAN INPUT FORCE RELEASE RESET READ STOP GO SINGLE BREAK UNBREAK WHEN STEP TRANSITION ACTION EPOCH END TRUE FALSE '
  + 'AND OR NOT');
const TESTS = of('TEST RUN UNTIL WITHIN EXPECT ACTIVE NEVER ALWAYS INPUT FORCE RELEASE SCAN EVERY AT LET INCLUDE FAULT REFUSED RESET STOP '
  + 'GO SINGLE TRUE FALSE AND OR NOT');

export const WORDS = {chart: CHART, script: SCRIPT, tests: TESTS};
const SETS = Object.fromEntries(Object.entries(WORDS).map(([kind, words]) => [kind, new Set(words)]));

const COMMON = [
  String.raw`(?<time>\b(?:T|TIME)#[-\w.]+)`, String.raw`(?<located>%[A-Za-z]+[\d.]*)`,
  String.raw`(?<number>\b(?:(?:D?INT|BOOL)#)?[-+]?\d[\d_]*\b)`, String.raw`(?<word>[A-Za-z_]\w*)`,
].join('|');
const TOKENS = {
  chart: new RegExp(String.raw`(?<comment>\(\*[\s\S]*?(?:\*\)|$)|\{[^}]*(?:\}|$))|${COMMON}`, 'gi'),
  script: new RegExp(String.raw`(?<comment>^[ \t]*;.*$)|${COMMON}`, 'gim'),
};

/** Pieces of a text: each from where to where, and of which kind. @param {string} text @param {'chart' | 'script' | 'tests'} kind */
export function piecesOf(text, kind) {
  const pieces = [];
  for (const found of text.matchAll(TOKENS[kind === 'chart' ? 'chart' : 'script'])) {
    const name = Object.keys(found.groups).find(it => found.groups[it] !== undefined);
    if (name === 'word' && !SETS[kind].has(found[0].toUpperCase())) continue;
    pieces.push({from: found.index, to: found.index + found[0].length, name});
    if (kind === 'tests' && found[0].toUpperCase() === 'TEST') break; // its name stands behind it
  }
  return pieces;
}
