// What tests/editors.sh does with what it has made: editors.js TOP WORK.
'use strict';
const fs = require('fs');
const path = require('path');
const { tokenize } = require('./grammar.js');

const [top, work] = process.argv.slice(2);
let passed = 0;
let failed = 0;
function judge(title, found, wanted) {
  if (JSON.stringify(found) === JSON.stringify(wanted)) {
    passed += 1;
  } else {
    failed += 1;
    console.log(`not as it should be: ${title}\n  found  ${JSON.stringify(found)}\n  wanted ${JSON.stringify(wanted)}`);
  }
}
function lines(file) {
  const text = fs.readFileSync(file, 'utf8');
  return text === '' ? [] : text.replace(/\n$/, '').split('\n');
}

// ---- the problem matcher

const extension = JSON.parse(fs.readFileSync(path.join(top, 'editors/vscode/package.json'), 'utf8'));
const pattern = extension.contributes.problemMatchers[0].pattern;
const matcher = new RegExp(pattern.regexp);
function matched(line) {
  const found = matcher.exec(line);
  return found && [pattern.file, pattern.line, pattern.column, pattern.code, pattern.message].map((group) => found[group]);
}
for (const name of fs.readdirSync(work).filter((one) => one.endsWith('.out')).sort()) {
  const stem = name.slice(0, -4);
  const wanted = lines(path.join(work, `${stem}.want`));
  const found = lines(path.join(work, name)).map(matched).filter((one) => one);
  judge(`the problem matcher on ${stem}`, found, wanted.length ? [wanted] : []);

  // ---- the errorformat of Vim
  const vim = path.join(work, `${stem}.vim`);
  if (fs.existsSync(vim)) {
    const names = lines(path.join(work, `${stem}.names`));
    const told = lines(vim).map((line, place) => ({ ...JSON.parse(line), name: names[place] })).filter((one) => one.valid)
      .map((one) => [path.basename(one.name), String(one.lnum), String(one.col), one.nr > 0 ? `${one.nr} ${one.text}` : one.text]);
    const [file, line, column, fault, word] = wanted;
    judge(`the errorformat on ${stem}`, told, wanted.length ? [[path.basename(file), line, column, `${fault}: ${word}`]] : []);
  }
}

// ---- the grammars

const grammars = {};
for (const one of extension.contributes.grammars) {
  grammars[one.scopeName] = JSON.parse(fs.readFileSync(path.join(top, 'editors/vscode', one.path), 'utf8'));
  judge(`the name of ${one.scopeName}`, grammars[one.scopeName].scopeName, one.scopeName);
}
for (const one of extension.contributes.languages) {
  judge(`${one.id} has its settings`, typeof JSON.parse(fs.readFileSync(path.join(top, 'editors/vscode', one.configuration), 'utf8')), 'object');
}
const RESERVED = new Set(`ACTION AND AT BOOL CONFIGURATION DINT ELSE ELSIF END_ACTION END_CONFIGURATION END_IF END_PROGRAM END_RESOURCE
  END_STEP END_TRANSITION END_VAR FALSE FROM IF INITIAL_STEP INT MOD NOT ON OR PROGRAM RESOURCE STEP TASK THEN TIME TO TRANSITION TRUE
  VAR VAR_EXTERNAL VAR_GLOBAL WITH XOR`.split(/\s+/));
const COMMANDS = new Set('SCAN INPUT FORCE RELEASE RESET READ BREAK UNBREAK STOP GO SINGLE EPOCH END'.split(' '));
// Each word of a text that isn't in a comment has the scope that its kind asks for.
function wrongWords(tokens, isChart) {
  const wrong = [];
  for (const { text, scope, line, place } of tokens) {
    const word = text.trim().toUpperCase();
    if (word === '' || scope.startsWith('comment') || scope.startsWith('meta.preprocessor')) continue;
    const isReserved = isChart ? RESERVED.has(word) : place > 0 && COMMANDS.has(word) && /^\s*[Tt]#\S+\s+$/.test(line.slice(0, place));
    const asks = isReserved ? /^(keyword|storage|constant\.language)/
      : /^(T|TIME)#/.test(word) ? /^constant\.numeric\.duration/
      : /^%/.test(word) ? /^constant\.numeric\.location/
      : /^(D?INT#)?[0-9-][0-9A-F#_]*$/.test(word) && word !== '-' ? /^constant\.numeric/
      : /^[A-Z_][A-Z0-9_.]*$/.test(word) ? /^(variable|entity|keyword\.other|constant\.language|keyword\.operator\.word|keyword\.control|storage)/
      : /^[:;,().]+$/.test(word) ? /^$/ : /^keyword\.operator/;
    if (!asks.test(scope)) wrong.push([text, scope, line]);
  }
  return wrong;
}
for (const name of fs.readdirSync(path.join(top, 'examples')).sort()) {
  const isChart = name.endsWith('.chart');
  if (!isChart && !name.endsWith('.script')) continue;
  const text = fs.readFileSync(path.join(top, 'examples', name), 'utf8');
  const tokens = tokenize(grammars, isChart ? 'source.sfc-chart' : 'source.sfc-script', text);
  judge(`the scopes of ${name}`, wrongWords(tokens, isChart), []);
  judge(`the bytes of ${name}`, tokens.map((one) => one.text).join(''), text.replace(/\n/g, ''));
}
// In a test each line begins with a word of its own or a command, behind its instant.
for (const name of fs.readdirSync(path.join(top, 'examples')).filter((one) => one.endsWith('.sfctest')).sort()) {
  const text = fs.readFileSync(path.join(top, 'examples', name), 'utf8');
  const tokens = tokenize(grammars, 'source.sfc-test', text);
  judge(`the bytes of ${name}`, tokens.map((one) => one.text).join(''), text.replace(/\n/g, ''));
  const heads = tokens.filter((one) => /^\s*(\+?T#\S+\s+)?$/.test(one.line.slice(0, one.place)) && one.text.trim());
  judge(`the heads of ${name}`, heads.filter((one) => !/^(keyword\.control|comment|constant\.numeric\.duration)/.test(one.scope)), []);
}
// A few lines, with the scope of each word.
function scopes(scope, line) {
  return tokenize(grammars, scope, line).filter((one) => one.text.trim() && one.scope).map((one) => `${one.text.trim()} ${one.scope}`);
}
judge('an association', scopes('source.sfc-chart', '  Valve(sl, t#3s, Door); (* IF *)'), ['Valve variable.other.sfc', 'sl keyword.other.qualifier.sfc',
  't#3s constant.numeric.duration.sfc', 'Door variable.other.sfc', '(* comment.block.sfc', 'IF comment.block.sfc', '*) comment.block.sfc']);
judge('a comment of two lines', scopes('source.sfc-chart', '(* STEP\nEND_STEP *) step S:'), ['(* comment.block.sfc', 'STEP comment.block.sfc',
  'END_STEP comment.block.sfc', '*) comment.block.sfc', 'step keyword.control.sfc', 'S entity.name.function.sfc']);
judge('a transition', scopes('source.sfc-chart', 'TRANSITION N (PRIORITY := 1) FROM N TO S := n >= INT#-5;'), ['TRANSITION keyword.control.sfc',
  'N variable.other.sfc', 'PRIORITY keyword.other.sfc', ':= keyword.operator.sfc', '1 constant.numeric.sfc', 'FROM keyword.control.sfc',
  'N variable.other.sfc', 'TO keyword.control.sfc', 'S variable.other.sfc', ':= keyword.operator.sfc', 'n variable.other.sfc',
  '>= keyword.operator.sfc', 'INT#-5 constant.numeric.typed.sfc']);
judge('a declaration', scopes('source.sfc-chart', 'Go AT %IX0.1 : bool := true;'), ['Go variable.other.sfc', 'AT storage.modifier.sfc',
  '%IX0.1 constant.numeric.location.sfc', 'bool storage.type.sfc', ':= keyword.operator.sfc', 'true constant.language.boolean.sfc']);
judge('a breakpoint', scopes('source.sfc-script', 't#0s break P STEP Full WHEN Level > 5'), ['t#0s constant.numeric.duration.sfc-script',
  'break keyword.control.sfc-script', 'P variable.other.sfc-script', 'STEP keyword.other.sfc-script', 'Full variable.other.sfc-script',
  'WHEN keyword.control.sfc-script', 'Level variable.other.sfc', '> keyword.operator.sfc', '5 constant.numeric.sfc']);
judge('a comment of a script', scopes('source.sfc-script', '  ; T#0s SCAN Main'), ['; comment.line.semicolon.sfc-script',
  'T#0s comment.line.semicolon.sfc-script', 'SCAN comment.line.semicolon.sfc-script', 'Main comment.line.semicolon.sfc-script']);

judge('a line of a test', scopes('source.sfc-test', '+T#1s always IN P Pump AND S.T > T#2s FOR T#3s'), ['+T#1s constant.numeric.duration.sfc-test',
  'always keyword.control.sfc-test', 'IN keyword.other.sfc-test', 'P variable.other.sfc-test', 'Pump variable.other.sfc', 'AND keyword.operator.word.sfc',
  'S variable.other.sfc', 'T variable.other.sfc', '> keyword.operator.sfc', 'T#2s constant.numeric.duration.sfc', 'FOR keyword.other.sfc-test',
  'T#3s constant.numeric.duration.sfc']);
judge('a refusal of a test', scopes('source.sfc-test', 'EXPECT REFUSED 29 SCAN Main'), ['EXPECT keyword.control.sfc-test',
  'REFUSED keyword.other.sfc-test', '29 constant.numeric.sfc-script', 'SCAN variable.other.sfc-script', 'Main variable.other.sfc-script']);

console.log(`${passed} passed, ${failed} failed`);
process.exit(failed ? 1 : 0);
