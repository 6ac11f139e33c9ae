// The package for browsers: `ready` fetches the module from the file beside this one.
import { provide } from './module.js';

const url = new URL('./sec1.wasm', import.meta.url);

async function fetched() {
  const response = await fetch(url);
  if (!response.ok) throw new Error(`${url}: ${response.status} ${response.statusText}`);
  return new Uint8Array(await response.arrayBuffer());
}

provide({ name: url, fetch: fetched });
export * from './api.js';
