// The page: what is dropped, chosen or pasted is drawn by the worker, and laid out.
import { Drawing, wipe } from './drawing.js';
import { Dump } from './dump.js';
import { Kind } from './library.js';
import { Picture } from './picture.js';
import { search } from './search.js';
import { Table } from './table.js';
import { Value } from './value.js';

/** The number of bytes up to which an input is read. */
const LONGEST = 16777215;
/** How many lines are said of an input at most. */
const MOST_SAID = 400;
/** After how many milliseconds the page says what it does, and how often it says it anew. */
const [SOON, AGAIN] = [500, 1000];
const NUMBER = new Intl.NumberFormat('en');

const part = (id) => document.getElementById(id);
const [said, name, copied, panes, found] = ['said', 'name', 'copied', 'panes', 'found'].map(part);
const [typed, files, all, busy] = ['typed', 'files', 'all', 'busy'].map(part);
const dump = new Dump(part('where'), part('dump'));
const value = new Value(part('content'), part('value'),
  [part('copy-value'), part('copy-bytes')], copy);
const table = new Table(part('table'), part('list'), (item) => {
  dump.draw(picture, item, table);
  value.draw(picture, item, table.isShown(item));
});
const drawing = new Drawing((reason) => {
  clear();
  refuse(`Nothing can be drawn: ${reason}.`);
});
let picture = null;
/** The files that were given together, of which one is drawn: no bytes of theirs. */
let given = [];
/** Counts what the page was asked for, so that what is late isn't shown. */
let turn = 0;
let asked = '';
let stopped = () => {};

/** Returns a paragraph of a class, with a text. */
function paragraph(className, text) {
  const element = document.createElement('p');
  element.className = className;
  element.textContent = text;
  return element;
}

/** Puts a text on the clipboard, and says so. */
async function copy(text) {
  copied.textContent = '';
  try {
    await navigator.clipboard.writeText(text);
    copied.textContent = 'copied';
  } catch {
    copied.textContent = 'The browser doesn\u2019t allow it';
  }
}

/** Returns the command as code, with a button that copies it. */
function command(line) {
  const element = paragraph('command', '');
  const code = document.createElement('code');
  const button = document.createElement('button');
  code.textContent = line.trim();
  button.type = 'button';
  button.textContent = 'Copy';
  button.setAttribute('aria-label', 'Copy the command');
  button.addEventListener('click', () => copy(line.trim()));
  element.append(code, button);
  return element;
}

/** Says what is done, once it lasts: words that are made anew, and a button that ends it. Returns a
 * function that says that it is done. */
function busyWith(words, stop) {
  const begun = performance.now();
  const tell = () => {
    part('doing').textContent = `${words}: ${Math.round((performance.now() - begun) / 1000)} s`;
    busy.hidden = false;
  };
  let timer = setTimeout(() => {
    tell();
    timer = setInterval(tell, AGAIN);
  }, SOON);
  const end = () => {
    clearTimeout(timer);
    clearInterval(timer);
    busy.hidden = true;
    part('doing').textContent = '';
    stopped = () => {};
  };
  stopped = () => {
    end();
    stop();
  };
  return end;
}

/** Shows nothing, and overwrites the bytes of what was shown. */
function clear() {
  turn += 1;
  stopped();
  drawing.stop();
  if (picture) wipe(picture.found);
  picture = null;
  said.replaceChildren();
  for (const element of [name, copied, found]) element.textContent = '';
  table.clear();
  dump.clear();
  value.clear();
  part('wanted').value = '';
  asked = '';
  all.setAttribute('aria-pressed', 'false');
  for (const element of [name, panes, part('copy'), all, part('find')]) element.hidden = true;
  part('clear').disabled = true;
}

/** Forgets the files and the typed text too. */
function forget() {
  clear();
  typed.value = '';
  keep([]);
  drawing.end();
}

/** Says why nothing is drawn. */
function refuse(words) {
  said.append(paragraph('words', words));
  part('clear').disabled = false;
}

/** Says what an input is. */
function say() {
  const lines = picture.said;
  said.append(...lines.slice(0, MOST_SAID).map(({ kind, line }) => (kind === Kind.COMMAND
    ? command(line) : paragraph(kind === Kind.HEADING ? 'heading' : 'words', line))));
  const more = lines.length - MOST_SAID;
  if (more > 0) said.append(paragraph('words', `and ${NUMBER.format(more)} lines more`));
}

/** Lays out what the worker has found. */
function layOut(result, isAll) {
  picture = new Picture(result);
  say();
  part('copy').hidden = false;
  part('clear').disabled = false;
  panes.hidden = picture.count === 0;
  part('find').hidden = picture.count === 0;
  all.hidden = !isAll && !picture.undrawn;
  all.setAttribute('aria-pressed', String(isAll));
  if (picture.count) table.draw(picture);
}

/** Draws an input, which is overwritten afterwards, and goes to its first row if it may. */
async function show(input, title, { go = false, isAll = false } = {}) {
  clear();
  const mine = turn;
  name.textContent = title;
  name.hidden = false;
  if (input.length > LONGEST) {
    refuse('more than 16,777,215 bytes');
    return;
  }
  part('clear').disabled = false;
  const words = `Drawing ${NUMBER.format(input.length)} bytes`;
  const end = busyWith(words, () => {
    drawing.stop();
    refuse('Stopped: nothing is drawn.');
  });
  try {
    const result = await drawing.draw(input, isAll);
    if (mine !== turn || !result) return;
    layOut(result, isAll);
    if (go && picture.count) table.focus();
  } catch (error) {
    if (mine === turn) refuse(`Nothing can be drawn: ${error.message}.`);
  } finally {
    if (mine === turn) end();
  }
}

/** Draws a file. */
async function showFile(file) {
  clear();
  const mine = turn;
  if (file.size > LONGEST) {
    show(new Uint8Array(LONGEST + 1), file.name);
    return;
  }
  try {
    const input = new Uint8Array(await file.arrayBuffer());
    if (mine === turn) show(input, file.name, { go: document.activeElement !== files });
    else input.fill(0);
  } catch {
    if (mine !== turn) return;
    clear();
    refuse(`${file.name} can\u2019t be read.`);
  }
}

/** Takes files, of which the first is drawn. */
function keep(taken) {
  given = [...taken];
  files.replaceChildren(...given.map((file, at) => new Option(file.name, String(at))));
  part('several').hidden = given.length < 2;
}

/** Draws the first of these files, and lists them. */
function showFiles(taken) {
  typed.value = '';
  keep(taken);
  showFile(given[0]);
}

function showText(text, go) {
  keep([]);
  show(new TextEncoder().encode(text), 'Text', { go });
}

/** Draws what is dropped or pasted. */
function take(transfer, event) {
  const hasFiles = transfer.files.length > 0;
  const text = hasFiles ? '' : transfer.getData('text/plain');
  if (!hasFiles && !text) return;
  // What is pasted into the field of the search is looked for.
  if (!hasFiles && event.target === part('wanted')) return;
  event.preventDefault();
  if (hasFiles) {
    showFiles(transfer.files);
  } else {
    typed.value = '';
    showText(text, true);
  }
}

/** Looks for what stands in the field, from the selected row on. */
async function look(isBack) {
  const text = part('wanted').value;
  const mine = turn;
  let isStopped = false;
  const end = busyWith('Searching', () => { isStopped = true; });
  found.textContent = '';
  const index = await search(picture, text, table.current, {
    isBack, isFirst: text !== asked, isStopped: () => isStopped || mine !== turn,
  });
  if (mine !== turn) return;
  end();
  asked = text;
  if (index === null) found.textContent = 'Stopped';
  else if (index < 0) found.textContent = text.trim() ? 'No row has it' : '';
  else {
    table.select(index, false);
    found.textContent = `At offset ${picture.item(index).offset}`;
  }
}

document.addEventListener('dragover', (event) => {
  event.preventDefault();
  document.body.classList.add('over');
});
document.addEventListener('dragleave', (event) => {
  if (!event.relatedTarget) document.body.classList.remove('over');
});
document.addEventListener('drop', (event) => {
  event.preventDefault();
  document.body.classList.remove('over');
  take(event.dataTransfer, event);
});
document.addEventListener('paste', (event) => take(event.clipboardData, event));
part('file').addEventListener('change', ({ target }) => {
  if (target.files.length) showFiles(target.files);
  // So that the same file can be chosen again.
  target.value = '';
});
files.addEventListener('change', () => showFile(given[Number(files.value)]));
typed.addEventListener('input', ({ target }) => {
  if (target.value) showText(target.value, false);
  else clear();
});
part('clear').addEventListener('click', forget);
part('copy').addEventListener('click', () => copy(picture.text));
part('stop').addEventListener('click', () => stopped());
all.addEventListener('click', async () => {
  const isAll = all.getAttribute('aria-pressed') !== 'true';
  const { undrawn } = picture;
  const shown = show(picture.input.slice(), name.textContent, { go: true, isAll });
  const mine = turn;
  await shown;
  const isSame = mine === turn && isAll && picture?.undrawn === undrawn;
  if (isSame) copied.textContent = 'There are no more rows';
});
part('wanted').addEventListener('keydown', (event) => {
  if (event.key === 'Enter') {
    event.preventDefault();
    look(event.shiftKey);
  } else if (event.key === 'Escape') {
    table.focus();
  }
});
part('next').addEventListener('click', () => look(false));
part('before').addEventListener('click', () => look(true));
part('list').addEventListener('keydown', (event) => {
  if (event.key !== '/') return;
  event.preventDefault();
  part('wanted').focus();
});
// What the browser keeps of a page that is left has no bytes of a key.
addEventListener('pagehide', forget);

// What stands there until the script runs.
clear();
try {
  drawing.begin();
} catch (error) {
  refuse(`Nothing can be drawn: ${error.message}.`);
}
