// As much of a reader of TextMate grammars as the grammars of editors/ ask for: matches with captures, and begins with ends.
'use strict';

function regex(text) {
  const ignores = text.startsWith('(?i)');
  return new RegExp(ignores ? text.slice(4) : text, ignores ? 'giu' : 'gu');
}

// The rules of a list, in order, with those that it includes.
function rules(grammars, scope, patterns) {
  const found = [];
  for (const one of patterns) {
    if (!one.include) {
      if (one.patterns && !one.begin) found.push(...rules(grammars, scope, one.patterns));
      else found.push({ rule: one, scope });
    } else if (one.include.startsWith('#')) {
      found.push(...rules(grammars, scope, [grammars[scope].repository[one.include.slice(1)]]));
    } else {
      found.push(...rules(grammars, one.include, grammars[one.include].patterns));
    }
  }
  return found;
}

function matchAt(text, line, place) {
  const one = regex(text);
  one.lastIndex = place;
  return one.exec(line);
}

// The tokens of what a match has matched: its captures have scopes of their own.
function captured(match, captures, name) {
  const tokens = [];
  let rest = match[0];
  for (const key of Object.keys(captures || {})) {
    const text = match[Number(key)];
    const at = text === undefined ? -1 : rest.indexOf(text);
    if (at < 0) continue;
    if (at > 0) tokens.push({ text: rest.slice(0, at), scope: name || '' });
    tokens.push({ text, scope: captures[key].name });
    rest = rest.slice(at + text.length);
  }
  if (rest) tokens.push({ text: rest, scope: name || '' });
  return tokens;
}

// The tokens of a text, each with its scope (empty where it has none), its line and where it stands there.
function tokenize(grammars, scope, text) {
  const tokens = [];
  const stack = [{ end: null, name: '', list: rules(grammars, scope, grammars[scope].patterns) }];
  for (const line of text.split('\n')) {
    let place = 0;
    const add = (found) => {
      for (const one of found) {
        for (const piece of one.text.split(/(\s+)/).filter((part) => part)) {
          const { scope: name } = one;
          tokens.push({ text: piece, scope: name, line, place });
          place += piece.length;
        }
      }
    };
    for (let turns = 0; turns < 10000; turns += 1) {
      const open = stack[stack.length - 1];
      let best = open.end ? { match: matchAt(open.end, line, place), end: true } : { match: null };
      for (const { rule, scope: of } of open.list) {
        const match = matchAt(rule.match || rule.begin, line, place);
        if (match && (!best.match || match.index < best.match.index)) best = { match, rule, of };
      }
      if (!best.match) break;
      if (best.match.index > place) add([{ text: line.slice(place, best.match.index), scope: open.name }]);
      if (best.end) {
        add(captured(best.match, null, open.name));
        stack.pop();
        if (best.match[0] === '') break;
      } else if (best.rule.begin) {
        add(captured(best.match, best.rule.beginCaptures, best.rule.name));
        stack.push({ end: best.rule.end, name: best.rule.name || '', list: rules(grammars, best.of, best.rule.patterns || []) });
      } else {
        add(captured(best.match, best.rule.captures, best.rule.name));
      }
    }
    if (place < line.length) add([{ text: line.slice(place), scope: stack[stack.length - 1].name }]);
  }
  return tokens;
}

module.exports = { tokenize };
