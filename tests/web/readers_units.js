// What the page makes of files: test_readers.py compares it with what explore makes of them.

import { kindOf } from "/given.js";
import { loadedOf } from "/loading.js";
import { FileError } from "/options.js";
import { symbolFile } from "/symbol-files.js";

const bytesOf = base64 => Uint8Array.from(atob(base64), it => it.charCodeAt(0));

const symbolsAsLists = symbols =>
  symbols.map(it => [it.name, it.value, it.isConstant, it.isRelocatable]);

function loadedAsLists(base64) {
  try {
    const { title, bytes, start, symbols, remark } = loadedOf("it", bytesOf(base64));
    return [title, [...bytes], start, symbolsAsLists(symbols), remark];
  } catch (error) {
    if (error instanceof FileError) return error.message;
    throw error;
  }
}

/** What each file puts into core, or why it puts nothing there. */
export const loadedFiles = files => files.map(loadedAsLists);

/** The symbols of each text. */
export const symbolsInTexts = texts => texts.map(it => {
  const { kind, symbols, skipped } = symbolFile(it);
  return [kind, symbolsAsLists(symbols), skipped];
});

/** What each file is, by its name and its bytes. */
export const kindsOfFiles = files => files.map(([name, it]) => kindOf({ name, bytes: bytesOf(it) }));
