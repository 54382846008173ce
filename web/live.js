/** A run that share/python/panel.py serves: its chart, its commands as they come, and what is said to it. */

/** How the page shows a run: `look` or `control`, or nothing where it shows none. */
export const liveMode = () => document.querySelector('meta[name=live]')?.getAttribute('content') ?? '';

/** The chart of the run. */
export async function liveChart() { return (await fetch('chart')).text(); }

/**
 * Hears the lines that the run has accepted, and those that come.
 * @param {(lines: string[]) => void} take
 * @param {() => void} ended
 */
export function listen(take, ended) {
  const source = new EventSource('events');
  source.onmessage = ({data}) => {
    const lines = JSON.parse(data);
    take(lines.filter(it => it !== null));
    if (!lines.includes(null)) return;
    source.close();
    ended();
  };
}

/** Says a command without its instant to the run: what is wrong, or nothing. @param {string} words */
export async function tellRun(words) {
  const {ok, status} = await fetch('say', {method: 'POST', body: words});
  return ok ? '' : status === 403 ? 'This run is only looked at.' : 'The run has ended.';
}
