// What the page's one file holds besides its code: the modules, the text of the worker, a session
// and examples. `tools/web --pack` puts each into an element of its own, which the browser doesn't
// run. The page's code is in such an element too, and loader.js runs it.

import { bytesOfDigits, inflated, textOf } from "./unpacking.js";

/** @typedef {import("./session.js").Session} Session */

/** @param {Element} it */
function copyOf(it) {
  return /** @type {Element} */ (it.cloneNode(true));
}

// The page as it was when it was opened: a module's script runs once all is there, and loader.js
// leaves nothing of its own.
const opened = copyOf(document.documentElement);

/** @param {string} base64 */
const bytesOf = base64 => Uint8Array.from(atob(base64), it => it.charCodeAt(0));

// The browser has it; the checker of types doesn't know it.
/** @type {any} */
const { CompressionStream: Deflating } = globalThis;

/** @param {Uint8Array} bytes @returns {Promise<string>} */
async function deflated(bytes) {
  const stream = new Blob([bytes]).stream().pipeThrough(new Deflating("gzip"));
  const packed = await new Response(stream).blob();
  const reader = new FileReader();
  return new Promise((resolve, reject) => {
    reader.onload = () => resolve(String(reader.result).replace(/^[^,]*,/, ""));
    reader.onerror = () => reject(reader.error);
    reader.readAsDataURL(packed);
  });
}

/** @type {Map<string, Promise<WebAssembly.Module>>} */
const compiled = new Map();

/** The compiled module of a program; it is compiled once.
    @param {string} program @returns {Promise<WebAssembly.Module>} */
export function packedModule(program) {
  const known = compiled.get(program);
  if (known) return known;
  const packed = bytesOfDigits(textOf(`${program}.wasm`));
  const made = inflated(packed).then(it => WebAssembly.compile(it));
  compiled.set(program, made);
  return made;
}

/** @type {string | null} */
let workerAddress = null;

export function newWorker() {
  workerAddress ??= URL.createObjectURL(
    new Blob([textOf("machine-worker.js")], { type: "text/javascript" }),
  );
  return new Worker(workerAddress);
}

/** A session as a text, and back.
    @param {Session} session */
export async function textOfSession({ files, ...session }) {
  const packed = Object.entries(files).map(async ([name, it]) => [name, await deflated(it)]);
  const held = { ...session, files: Object.fromEntries(await Promise.all(packed)) };
  return JSON.stringify(held);
}

/** @param {string} text @returns {Promise<Session>} */
export const sessionOfText = text => withFiles(JSON.parse(text));

/** @param {any} held @returns {Promise<Session>} */
async function withFiles({ files, ...session }) {
  const found = Object.entries(files).map(
    async ([name, it]) => [name, await inflated(bytesOf(it))]
  );
  return { ...session, files: Object.fromEntries(await Promise.all(found)) };
}

// The session in the file, as its text: it may be the key of an example.
export const packedText = () => textOf("session");

/** What the page showed as it was saved, or null.
    @returns {import("./kept.js").Shown | null} */
export const packedShown = () => JSON.parse(textOf("shown") || "null");

/**
 * An example: what it is called in a link, and in the menu.
 * @typedef {{key: string, title: string, open: () => Promise<Session>}} Example
 */

/** @type {Promise<any[]> | null} the sessions of the examples, once one is asked for */
let sessions = null;

/** @param {number} at */
async function openExample(at) {
  sessions ??= inflated(bytesOf(textOf("sessions")))
    .then(it => JSON.parse(new TextDecoder().decode(it)));
  return withFiles((await sessions)[at]);
}

/** The examples in the file, in order.
    @type {Example[]} */
export const EXAMPLES = JSON.parse(textOf("examples") || "[]").map(
  (/** @type {any} */ it, /** @type {number} */ at) => ({ ...it, open: () => openExample(at) }));

export function packedSession() {
  const { example, ...held } = JSON.parse(packedText());
  return EXAMPLES.find(it => it.key === example)?.open() ?? withFiles(held);
}

/** The text of this page's file with another session in it, and what is shown of it.
    @param {Session} session @param {import("./kept.js").Shown | null} shown */
export async function pageWith(session, shown = null) {
  const page = copyOf(opened), held = /** @type {Element} */ (page.querySelector("#session"));
  const beside = page.querySelector("#shown") ?? copyOf(held);
  beside.id = "shown";
  held.after(beside);
  // `<` can't stand in an element as itself: it may begin its end
  held.textContent = (await textOfSession(session)).replaceAll("<", "\\u003c");
  beside.textContent = JSON.stringify(shown).replaceAll("<", "\\u003c");
  return `<!DOCTYPE html>\n${page.outerHTML}\n`;
}
