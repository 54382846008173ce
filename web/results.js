/** What the run has told, the image, the coverage and the outcome of tests, as lines. */

const MOST_ENTRIES = 150;

function lineOf(text) {
  const line = document.createElement('span');
  const refused = /^refused |^ {2}\S+ (fault|skipped) /.test(text), failed = /^FAILED /.test(text);
  line.className = refused ? 'refused' : failed ? 'failed' : / hit$/.test(text) ? 'hit' : /^ok /.test(text) ? 'good' : '';
  line.textContent = `${text}\n`;
  return line;
}

/** @param {HTMLElement} host @param {string} text */
export function showLines(host, text) { host.replaceChildren(...text.replace(/\n$/, '').split('\n').map(lineOf)); }

/** What the last lines up to the place have told. @param {HTMLElement} host @param {string[]} told @param {number} place */
export function showTold(host, told, place) {
  const from = Math.max(0, place - MOST_ENTRIES), front = from ? `; ${from} lines before\n` : '';
  showLines(host, front + told.slice(from, place).join(''));
  if (place) host.lastElementChild.classList.add('now');
  host.parentElement.scrollTop = host.parentElement.scrollHeight;
}
