// The stored sessions, as tests/stored_sessions.py reads them, and runs of a module by the page's
// host.
import fs from "node:fs";
import path from "node:path";
import { Host, readerOf, zeros } from "../../web/host.js";

const bytes = text => Buffer.from(text, "base64");

// The sessions of a kind, `.session` or `.search`, in the file that the check in
// tests/checks/web_programs.py writes.
export function sessionsIn(file, kind) {
  return JSON.parse(fs.readFileSync(file))[kind].map(({ lines, expected, ...session }) => ({
    ...session,
    lines: bytes(lines),
    expected: { ...expected, output: bytes(expected.output), error: bytes(expected.error) },
  }));
}

// A file's reader, as the host asks for it.
function opened(folder, name) {
  if (name === "/dev/zero") return zeros;
  try {
    return readerOf(fs.readFileSync(path.resolve(folder, name)));
  } catch {
    return null;   // a folder too: the program says the same of it as of no file
  }
}

// A host that has the module's program run on the session's arguments and files.
export function hostOf(module, program, { folder, args }, { read, write, heap }) {
  const open = name => opened(folder, name);
  return new Host(module, { args: [program, ...args], read, write, open, heap });
}

export const linesOf = bytes =>
  (bytes.toString("latin1").match(/[^\n]*\n|[^\n]+/g) ?? []).map(it => Buffer.from(it, "latin1"));

// A reader that gives a line, or the next part of one, at each read. `next` is called before each
// line.
export function lineByLine(lines, next = () => {}) {
  let at = 0, line = Buffer.alloc(0);
  return most => {
    if (line.length === 0) {
      next(at);
      line = lines[at++] ?? Buffer.alloc(0);
    }
    const part = line.subarray(0, most);
    line = line.subarray(most);
    return part;
  };
}

// How the program ends on the input of a session, which is all there, or comes as in the page: line
// by line, while the module waits.
export async function run(module, program, session, waits) {
  const written = { 1: [], 2: [] };
  const reader = waits ? lineByLine(linesOf(session.lines)) : readerOf(session.lines);
  const host = hostOf(module, program, session, {
    read: waits ? async most => reader(most) : reader,
    write: (descriptor, bytes) => written[descriptor].push(bytes),
  });
  const status = await host.run();
  return { status, output: Buffer.concat(written[1]), error: Buffer.concat(written[2]) };
}

export const isSame = (one, other) =>
  one.status === other.status && one.output.equals(other.output) && one.error.equals(other.error);

export const compiled = file => new WebAssembly.Module(fs.readFileSync(file));

// Counts what passes and fails; says what fails.
export class Counts {
  passed = 0;
  failed = 0;

  holds(isRight, otherwise) {
    if (isRight) this.passed += 1;
    else this.failed += 1;
    if (!isRight) console.log(otherwise);
  }

  end() {
    console.log(`${this.passed} passed, ${this.failed} failed`);
    process.exitCode = this.failed > 0 ? 1 : 0;
  }
}
