// What is packed in the page's one file, as bytes: the modules, the examples and the page's script.
// The script, which has this module too, is unpacked by loader.js.

// The browser has it; the checker of types doesn't know it.
/** @type {any} */
const { DecompressionStream: Inflating } = globalThis;

/** @param {string} id */
export const textOf = id => document.getElementById(id)?.textContent ?? "";

// The digits of base 85, as Python has them but for the full stop, which stands for <.
const DIGITS =
  "0123456789ABCDEFGHIJKLMNOPQRSTUVWXYZabcdefghijklmnopqrstuvwxyz!#$%&()*+-;.=>?@^_`{|}~";
const LAST_DIGIT = "~";

/** The bytes of such a text: each five digits are four bytes, the first digit the highest.
    @param {string} text */
export function bytesOfDigits(text) {
  const missing = (5 - (text.length % 5)) % 5;
  const whole = text + LAST_DIGIT.repeat(missing);
  const values = new Uint8Array(128);
  for (const [value, it] of [...DIGITS].entries()) values[it.charCodeAt(0)] = value;
  const words = new DataView(new ArrayBuffer((whole.length / 5) * 4));
  let word = 0;
  for (let at = 0; at < whole.length; at++) {
    word = word * 85 + values[whole.charCodeAt(at)];
    if (at % 5 === 4) {
      words.setUint32(((at - 4) / 5) * 4, word);
      word = 0;
    }
  }
  return new Uint8Array(words.buffer, 0, words.byteLength - missing);
}

/** @param {Uint8Array} packed */
export async function inflated(packed) {
  const stream = new Blob([packed]).stream().pipeThrough(new Inflating("gzip"));
  return new Uint8Array(await new Response(stream).arrayBuffer());
}
