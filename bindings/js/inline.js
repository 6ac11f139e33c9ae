// The package with the module inside, in base64: nothing is fetched or read.
import { provide } from './module.js';
import digits from './sec1.wasm.js';

const name = 'sec1.wasm.js';
provide({ name, read: () => Uint8Array.from(atob(digits), (it) => it.charCodeAt(0)) });
export * from './api.js';
