// Prints a table of the microseconds of a call of this package, and of the nearest ones of
// `node:crypto` and of two packages where they are installed: the fastest of 200 samples, or of as
// many as are asked for, of 50 calls each, taken in turn. Debian has the packages as node-asn1.js
// and node-elliptic, which a node that isn't Debian's finds by NODE_PATH=/usr/share/nodejs.
//
//   node cost.js [SAMPLES]
import crypto from 'node:crypto';
import fs from 'node:fs';
import { createRequire } from 'node:module';

import { EcPrivateKey, Point } from '../node.js';

const SAMPLES = Number(process.argv[2] ?? 200);
const CALLS = 50;

/** Returns what a package of this name exports, or null. */
function installed(name) {
  try {
    return createRequire(import.meta.url)(name);
  } catch {
    return null;
  }
}

const der = fs.readFileSync(new URL('data/p256.der', import.meta.url));
const cut = der.subarray(0, 60);
const key = EcPrivateKey.fromDer(der);
const { publicKey } = key;
const point = new Point(publicKey, 32);
const form = { format: 'der', type: 'sec1' };
const peer = crypto.createPrivateKey({ key: der, ...form });
// ECPrivateKey as RFC 5915 section 3 defines it.
const asn1 = installed('asn1.js')?.define('ECPrivateKey', function define() {
  this.seq().obj(
    this.key('version').int(),
    this.key('privateKey').octstr(),
    this.key('parameters').explicit(0).optional().objid(),
    this.key('publicKey').explicit(1).optional().bitstr(),
  );
});
const parsed = asn1?.decode(der, 'der');
const curve = installed('elliptic') && new (installed('elliptic').ec)('p256').curve;
const decoded = curve?.decodePoint(publicKey);

/** Makes a call, which throws. */
function refused(call) {
  try {
    call();
  } catch {
    return;
  }
  throw new Error('it is accepted');
}

// This package, asn1.js, elliptic, node:crypto.
const TABLE = {
  'read a key': [
    () => EcPrivateKey.fromDer(der), asn1 && (() => asn1.decode(der, 'der')), null,
    () => crypto.createPrivateKey({ key: der, ...form }),
  ],
  'refuse one that is cut': [
    () => refused(() => EcPrivateKey.fromDer(cut)),
    asn1 && (() => refused(() => asn1.decode(cut, 'der'))), null,
    () => refused(() => crypto.createPrivateKey({ key: cut, ...form })),
  ],
  'write a key': [
    () => key.toDer(), asn1 && (() => asn1.encode(parsed, 'der')), null, () => peer.export(form),
  ],
  'read a point': [
    () => new Point(publicKey, 32), null, curve && (() => curve.decodePoint(publicKey)), null,
  ],
  'compress a point': [
    () => point.compress(), null, curve && (() => decoded.encodeCompressed()),
    () => crypto.ECDH.convertKey(publicKey, 'prime256v1', null, null, 'compressed'),
  ],
};

/** Returns the microseconds of a call. */
function sample(call) {
  const begin = process.hrtime.bigint();
  for (let round = 0; round < CALLS; round += 1) call();
  return Number(process.hrtime.bigint() - begin) / CALLS / 1000;
}

const least = Object.values(TABLE).map((calls) => calls.map(() => Infinity));
for (let round = 0; round < SAMPLES; round += 1) {
  for (const [row, calls] of Object.values(TABLE).entries()) {
    for (const [at, call] of calls.entries()) {
      if (call) least[row][at] = Math.min(least[row][at], sample(call));
    }
  }
}
console.log('| | this package | asn1.js | elliptic | `node:crypto` |\n|---|---|---|---|---|');
for (const [row, name] of Object.keys(TABLE).entries()) {
  const cells = least[row].map((it) => (it < Infinity ? it.toFixed(1) : ''));
  console.log(`| ${name} | ${cells.join(' | ')} |`);
}
