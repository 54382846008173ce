/** Reports of `sfcmon why`, taken apart into places. */

/** @typedef {{line: number, column: number, length: number, title: string, details: string[], isWarning: boolean}} Fault */

const HEAD = /^(?:chart|script|tests):(\d+):(\d+): (.*)$/;

/** @returns {Fault} */
function faultOf([, line, column, title]) {
  return {line: Number(line), column: Number(column), length: 1, title, details: [], isWarning: title.startsWith('warning ')};
}

/** @param {string} text @returns {Fault[]} */
export function readReports(text) {
  const faults = [];
  for (const line of text.split('\n')) {
    const head = HEAD.exec(line), last = faults.at(-1);
    if (head) faults.push(faultOf(head));
    else if (last && /^ +\| +\^+$/.test(line)) last.length = line.trim().replace(/[^^]/g, '').length;
    else if (last && /^ {2}[a-z]/.test(line)) last.details.push(line.trim());
  }
  return faults;
}
