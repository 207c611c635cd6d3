// sessions.mjs PROGRAM FILE.wasm SESSIONS.json: every stored session of this file by the module of
// the program pdp11 or search: output, exit status and standard error byte for byte. search must
// end those of both programs as pdp11 does, with its own name on standard error, and the sessions
// NAME.search too; it is given line by line, as in the page. disassemble gets its crate's stdin,
// whatever the sessions are. The last line is 'N passed, M failed'.
import fs from "node:fs";
import { Counts, compiled, isSame, run, sessionsIn } from "./stored.mjs";

const [program, file, stored] = process.argv.slice(2);

function asSearch({ expected, ...session }) {
  const error = expected.error.toString("latin1").replace("pdp11: ", "search: ");
  return { ...session, expected: { ...expected, error: Buffer.from(error, "latin1") } };
}

function ofDisassemble() {
  const folder = new URL("../../crates/disassemble/", import.meta.url);
  const [lines, output] = ["stdin", "stdout"].map(it => fs.readFileSync(new URL(it, folder)));
  const expected = { status: 0, output, error: Buffer.alloc(0) };
  return { name: "crates/disassemble/stdin", folder: ".", lines, args: [], expected };
}

function sessions() {
  if (program === "disassemble") return [ofDisassemble()];
  const found = sessionsIn(stored, ".session");
  if (program === "pdp11") return found;
  const own = sessionsIn(stored, ".search");
  return [...found.filter(it => it.isOfBoth).map(asSearch), ...own];
}

const module = compiled(file);
const counts = new Counts();
for (const session of sessions()) {
  let why = "";
  try {
    const ended = await run(module, program, session, program === "search");
    if (!isSame(ended, session.expected)) why = `status ${ended.status}, or other bytes`;
  } catch (error) {
    why = `${error}`;
  }
  counts.holds(why === "", `${session.name} by ${program}.wasm: ${why}`);
}
counts.end();
