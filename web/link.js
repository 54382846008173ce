/** A chart, a script and a place as the part of an address behind its sharp sign. */

/** @typedef {{chart: string, script: string, place: number}} Doc */

/** No more than this is read of a link, packed or not. */
const MOST = 3_200_000;

async function through(bytes, stream) {
  const reader = new Blob([bytes]).stream().pipeThrough(stream).getReader();
  const parts = [];
  for (let size = 0; ;) {
    const {done, value} = await reader.read();
    if (done) return new Blob(parts).arrayBuffer();
    size += value.length;
    if (size > MOST) throw new RangeError('the text is too long');
    parts.push(value);
  }
}

/** Bytes that gzip has packed. @param {Uint8Array} bytes */
export const unpack = bytes => through(bytes, new DecompressionStream('gzip'));

const isText = it => typeof it === 'string';
const isPlace = it => Number.isSafeInteger(it) && it >= 0;

/** The bytes of a text in base64. @param {string} text */
export const fromBase64 = text => Uint8Array.from(atob(text), it => it.charCodeAt(0));

function toBase64(bytes) {
  let text = '';
  for (let from = 0; from < bytes.length; from += 32768) text += String.fromCharCode(...bytes.subarray(from, from + 32768));
  return btoa(text);
}

/** @param {Doc} doc */
export async function writeLink({chart, script, place}) {
  const bytes = new TextEncoder().encode(JSON.stringify([chart, script, place]));
  const packed = await through(bytes, new CompressionStream('gzip'));
  return `#${toBase64(new Uint8Array(packed)).replaceAll('+', '-').replaceAll('/', '_').replaceAll('=', '')}`;
}

/** What a link says, or null where it says nothing. @param {string} link @returns {Promise<Doc | null>} */
export async function readLink(link) {
  if (link.length < 2 || link.length > MOST) return null;
  try {
    const bytes = fromBase64(link.slice(1).replaceAll('-', '+').replaceAll('_', '/'));
    const text = new TextDecoder('utf-8', {fatal: true}).decode(await unpack(bytes));
    const [chart, script, place] = JSON.parse(text);
    return isText(chart) && isText(script) && isPlace(place) ? {chart, script, place} : null;
  } catch {
    return null;
  }
}
