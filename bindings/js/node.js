// The package for Node: the first call reads the module from the file beside this one.
import fs from 'node:fs';

import { provide } from './module.js';

const url = new URL('./sec1.wasm', import.meta.url);
provide({ name: url, read: () => fs.readFileSync(url) });
export * from './api.js';
