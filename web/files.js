/** Files to save and to open. */

/** @param {string} name @param {string} text */
export function saveFile(name, text) {
  const link = document.createElement('a'), address = URL.createObjectURL(new Blob([text], {type: 'text/plain'}));
  link.href = address;
  link.download = name;
  document.body.append(link);
  link.click();
  link.remove();
  setTimeout(() => URL.revokeObjectURL(address), 10_000);
}

/** Which text a file is, by its name. @param {string} name */
const kindOf = name => name.endsWith('.script') ? 'script' : name.endsWith('.sfctest') ? 'tests' : 'chart';

/** The texts of files, by what they are. @param {Iterable<File>} files */
export async function openFiles(files) {
  const texts = {};
  for (const file of files) texts[kindOf(file.name)] = await file.text();
  return texts;
}
