// Makes what is packed and not in the repository while `npm pack` packs, and removes it again:
// links.js follow|restore. These are files in the place of the links of this folder, which
// `npm pack` leaves out, the module in base64, and the package as a module of CommonJS. Where git
// makes no links, as on Windows, a file that has the path of another stands in the place of each:
// it is followed, too.
import fs from 'node:fs';
import path from 'node:path';
import { fileURLToPath } from 'node:url';

const here = path.dirname(fileURLToPath(import.meta.url));
const list = path.join(here, '.links.json');
/** The path that a link of this folder has, to a file in one above it. */
const PATH = /^(?:\.\.\/)+[\w./-]+$/;

/** Returns what is in the place of a file: the path that a link has, if it is one or stands for
 * one, and whether it is one. */
function linkAt(name) {
  const file = path.join(here, name);
  const stat = fs.lstatSync(file);
  if (stat.isSymbolicLink()) return { name, target: fs.readlinkSync(file), isLink: true };
  const said = stat.isFile() && stat.size < 256 ? fs.readFileSync(file, 'latin1') : '';
  return { name, target: PATH.test(said) ? said : null, isLink: false };
}

const text = (name) => fs.readFileSync(path.join(here, name), 'utf8');

/** Returns a statement of what a module of this folder exports, for a file that is no module. */
function block(name) {
  const names = [];
  const export_ = /^export (?:\{ (.*) \};\n|(?=(?:const|class|(?:async )?function) (\w+)))/gm;
  const body = text(`${name}.js`)
    .replace(export_, (_, list, one) => (names.push(list ?? one), ''))
    .replace(/^import (\{.*\}) from '\.\/(\w+)\.js';$/gm, 'const $1 = $$$2;');
  if (/^(import|export)\b/m.test(body)) throw new Error(`${name}.js imports or exports otherwise`);
  return `const $${name} = (() => {\n${body}return { ${names.join(', ')} };\n})();\n`;
}

/** Returns the package as a module of CommonJS. */
const common = () => `'use strict';
// Made by links.js of the modules beside this file.
${['module', 'library', 'api'].map(block).join('')}
const name = require('node:path').join(__dirname, 'sec1.wasm');
$module.provide({ name, read: () => require('node:fs').readFileSync(name) });
module.exports = $api;
`;

/** Returns the module of the functions in base64. */
const inlined = () =>
  `export default '${fs.readFileSync(path.join(here, 'sec1.wasm')).toString('base64')}';\n`;

/** What is made, by its name. */
const MADE = {
  'index.cjs': common, 'index.d.cts': () => text('index.d.ts'), 'sec1.wasm.js': inlined,
};

/** Makes what was there before. */
function restore() {
  for (const { name, target, isLink } of JSON.parse(fs.readFileSync(list, 'utf8'))) {
    const file = path.join(here, name);
    fs.rmSync(file, { force: true });
    if (isLink) fs.symlinkSync(target, file);
    else fs.writeFileSync(file, target);
  }
  for (const name of Object.keys(MADE)) fs.rmSync(path.join(here, name), { force: true });
  fs.rmSync(list);
}

/** Puts a file in the place of each link. */
function follow() {
  const found = fs.readdirSync(here).map(linkAt).filter((it) => it.target !== null);
  const files = found.map(({ name, target }) => {
    const file = path.join(here, target);
    if (!fs.existsSync(file)) throw new Error(`${name} leads to ${target}, where nothing is`);
    return fs.readFileSync(file);
  });
  // First of all, so that no link is lost if this is interrupted.
  fs.writeFileSync(list, JSON.stringify(found));
  for (const [at, { name }] of found.entries()) {
    const file = path.join(here, name);
    fs.rmSync(file);
    fs.writeFileSync(file, files[at]);
  }
  for (const [name, made] of Object.entries(MADE)) fs.writeFileSync(path.join(here, name), made());
}

if (fs.existsSync(list)) restore();
if (process.argv[2] === 'follow') follow();
