// SHA-256, as FIPS 180-4 has it: a browser has one of its own only where a page comes over a safe connection.

const root = (x, power) => Math.floor((x ** power % 1) * 2 ** 32);
const primes = (() => {
  const found = [];
  for (let n = 2; found.length < 64; n++) if (found.every(p => n % p)) found.push(n);
  return found;
})();
const START = primes.slice(0, 8).map(p => root(p, 1 / 2)), CONSTANTS = primes.map(p => root(p, 1 / 3));
const turn = (x, n) => (x >>> n) | (x << (32 - n));

function block(state, w) {
  for (let k = 16; k < 64; k++) {
    const a = w[k - 15], b = w[k - 2];
    w[k] = w[k - 16] + (turn(a, 7) ^ turn(a, 18) ^ (a >>> 3)) + w[k - 7] + (turn(b, 17) ^ turn(b, 19) ^ (b >>> 10));
  }
  let [a, b, c, d, e, f, g, h] = state;
  for (let k = 0; k < 64; k++) {
    const one = (h + (turn(e, 6) ^ turn(e, 11) ^ turn(e, 25)) + ((e & f) ^ (~e & g)) + CONSTANTS[k] + w[k]) | 0;
    const two = ((turn(a, 2) ^ turn(a, 13) ^ turn(a, 22)) + ((a & b) ^ (a & c) ^ (b & c))) | 0;
    [h, g, f, e, d, c, b, a] = [g, f, e, (d + one) | 0, c, b, a, (one + two) | 0];
  }
  [a, b, c, d, e, f, g, h].forEach((x, k) => { state[k] += x; });
}

// Returns the checksum of bytes, or of a text as UTF-8, in hexadecimal digits.
export function sha256(content) {
  const bytes = typeof content === 'string' ? new TextEncoder().encode(content) : content;
  const padded = new DataView(new ArrayBuffer((((bytes.length + 8) >> 6) + 1) << 6));
  new Uint8Array(padded.buffer).set(bytes);
  padded.setUint8(bytes.length, 0x80);
  padded.setBigUint64(padded.byteLength - 8, BigInt(bytes.length) * 8n);
  const state = Uint32Array.from(START), w = new Int32Array(64);
  for (let at = 0; at < padded.byteLength; at += 64) {
    for (let k = 0; k < 16; k++) w[k] = padded.getInt32(at + 4 * k);
    block(state, w);
  }
  return [...state].map(x => x.toString(16).padStart(8, '0')).join('');
}
