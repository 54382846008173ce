// parts.mjs: the parts of the page that need no page: times, links, listings, states, reports, dumps. The last line is 'N passed, M failed'.
import {readTime, timeText} from '../../web/time.js';
import {readLink, writeLink} from '../../web/link.js';
import {readListing} from '../../web/listing.js';
import {readReports} from '../../web/reports.js';
import {readDump} from '../../web/waves.js';
import {enabledOf, readPoints, readWhy} from '../../web/asking.js';
import {piecesOf} from '../../web/words.js';
import {PLACE, Sfc} from '../../web/sfc.js';

let passed = 0, failed = 0;

/** Whether two values are the same. */
function same(what, found, wanted) {
  const [a, b] = [JSON.stringify(found), JSON.stringify(wanted)];
  if (a === b) passed++;
  else { failed++; console.log(`not as it should be: ${what}: ${a} for ${b}`); }
}

const TIMES = [[0, 'T#0s'], [90061001500, 'T#1d_1h_1m_1s_1.5ms'], [200000, 'T#200ms'], [1, 'T#0.001ms'], [-1500, 'T#-1.5ms'], [3.6e9, 'T#1h']];
for (const [micros, text] of TIMES) {
  same(`the text of ${micros}`, timeText(micros), text);
  if (micros >= 0) same(`the time of ${text}`, readTime(text), micros);
}
same('1.5s', readTime('TIME#1.5s'), 1500000);
for (const word of ['', 'T#', '5s', 'T#5', 'T#s', 'T#5s x', 'SCAN']) same(`the time of ${word}`, readTime(word), null);

const doc = {chart: 'PROGRAM é </script>', script: 'T#0s SCAN Main\n', place: 1};
same('a link', await readLink(await writeLink(doc)), doc);
for (const link of ['', '#', '#a', '#%ff', '#AAAA', `#${'A'.repeat(4_000_000)}`, 'x'.repeat(100)]) {
  same(`a link ${link.slice(0, 9)}`, await readLink(link), null);
}

const listing = readListing(`PROGRAM A
  VAR
    n : INT := INT#0;
  END_VAR
  INITIAL_STEP Begin:
    Lamp(N);
    Count(P1);
  END_STEP
  TRANSITION FROM Begin TO Begin
    := TRUE;
  END_TRANSITION
END_PROGRAM
CONFIGURATION c
  RESOURCE r ON plc
    VAR_GLOBAL
      Lamp AT %QX0.1 : BOOL := FALSE;
    END_VAR
    TASK Main(INTERVAL := T#10ms, PRIORITY := 1);
    PROGRAM A1 WITH Main : A;
    PROGRAM A2 WITH Main : A;
  END_RESOURCE
END_CONFIGURATION
`);
same('variables', listing.variables.map(it => `${it.name} ${it.type} ${it.location}`), ['Lamp BOOL %QX0.1', 'A1.n INT ', 'A2.n INT ']);
same('tasks', listing.tasks, [{name: 'Main', interval: 'T#10ms'}]);
same('associations', listing.types.get('a').steps, [{name: 'Begin', actions: ['Lamp', 'Count']}]);

// A program whose fault is in a body, laid out as sfc.h has sfc_program_state_t.
const memory = new WebAssembly.Memory({initial: 1});
const state = (_, program, at) => {
  const view = new DataView(memory.buffer, Number(at), 24);
  view.setBigUint64(0, 7n, true);
  [1, 3, 2, 4].forEach((n, k) => view.setInt32(8 + 4 * k, n, true));
  return program === 0 ? 0 : -3;
};
const module = new Sfc(/** @type {any} */ ({exports: {memory, sfc_take: () => 64n, sfc_program_state: state}}));
same('how a program stands', module.program(0), {scans: 7, fault: 1, place: PLACE.body, number: 2, statement: 4});
same('a program that is not there', module.program(1), null);

const [fault] = readReports('chart:4:3: 4 Syntax: END_STEP\n    4 |   END_STEP\n      |   ^^^^^^^^\n  in: step Ready\n  mend: ;\n');
const details = ['in: step Ready', 'mend: ;'];
same('a report', fault, {line: 4, column: 3, length: 8, title: '4 Syntax: END_STEP', details, isWarning: false});
same('no fault', readReports('no fault\n'), []);

const why = readWhy('P TRANSITION 1 Begin enabled\n  step A is active\nP TRANSITION 2 not enabled\n');
same('WHY', [...why], [['P 1', 'P TRANSITION 1 Begin enabled\n  step A is active'], ['P 2', 'P TRANSITION 2 not enabled']]);
const points = readPoints('T#0s BREAK P STEP A WHEN n = INT#0\nT#0s BREAK P TRANSITION 2\n');
same('POINTS', [...points], [['p step a', 'n = INT#0'], ['p transition 2', '']]);

const head = '$scope module Cpu $end\n$var wire 1 ! Lamp $end\n$var integer 16 " n $end\n$upscope $end\n';
const dump = readDump(`${head}#0\n1!\nb1111111111111111 "\n#5\n0!\n`);
same('a dump', dump.signals.map(it => [it.name, it.times, it.values]), [['Lamp', [0, 5], [1, 0]], ['n', [0], [-1]]]);
same('colours', piecesOf('STEP A: (* STEP *) T#1s', 'chart').map(it => it.name), ['word', 'comment', 'time']);
same('colours of a title', piecesOf('TEST let it scan', 'tests').length, 1);
same('enabled', [...enabledOf(why)], ['P 1']);

console.log(`${passed} passed, ${failed} failed`);
process.exit(failed ? 1 : 0);
