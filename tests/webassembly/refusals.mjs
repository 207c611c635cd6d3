// refusals.mjs PROGRAM FILE.wasm SESSIONS.json: the stored sessions of this file with requests for
// memory refused by the host's heap: each request past the start alone, of the start each 64th, and
// with limits on the memory all that lie past them. A run must write nothing and end with status 4
// and 'refused 1 NoMemory', or answer some lines `refused 1 NoMemory` and the others as without
// those lines. The last line is 'N passed, M failed'.
import { Counts, compiled, hostOf, lineByLine, linesOf, sessionsIn } from "./stored.mjs";

const [program, file, stored] = process.argv.slice(2);
const REFUSED = "refused 1 NoMemory\n";
const STEP_AT_START = 64, STEP_OF_LIMITS = 65536;
const module = compiled(file);
const counts = new Counts();

// Runs lines one by one: what was written since the last line is the reply to it.
async function answered(session, lines, heap) {
  const replies = [], written = { 1: [], 2: [] };
  const start = { requests: 0, end: 0 };
  const taken = () => Buffer.concat(written[1].splice(0)).toString("latin1");
  const read = lineByLine(lines, at => {
    if (at > 0) replies.push(taken());
    else Object.assign(start, { requests: host.heap.requests, end: host.heap.end });
  });
  const write = (descriptor, bytes) => written[descriptor].push(bytes);
  const host = hostOf(module, program, session, { read, write, heap });
  const status = await host.run();
  const error = Buffer.concat(written[2]).toString("latin1");
  return { status, error, replies, rest: taken(), start, heap: host.heap };
}

// Whether a run in which a request was refused is as it must be.
async function isRight(session, lines, ended) {
  if (ended.status === 4) {
    const isSilent = ended.replies.length === 0 && ended.rest === "";
    return isSilent && ended.error === `${program}: ${REFUSED}`;
  }
  const kept = lines.filter((_, at) => ended.replies[at] !== REFUSED);
  const wanted = await answered(session, kept, {});
  const replies = ended.replies.filter(it => it !== REFUSED);
  return ended.status === 0 && ended.error === "" && ended.rest === ""
    && ended.replies.length === lines.length && replies.join("") === wanted.replies.join("");
}

let refusedLines = 0;

async function tryRefusing(session, lines, heap, what) {
  const ended = await answered(session, lines, heap);
  refusedLines += ended.replies.filter(it => it === REFUSED).length;
  const isGood = await isRight(session, lines, ended);
  counts.holds(isGood, `${session.name} by ${program}.wasm: not right with ${what}`);
}

async function tryEach(session, isFirst) {
  const lines = linesOf(session.lines);
  const ample = await answered(session, lines, {});
  const { requests, end } = ample.start;
  const refused = [];
  if (isFirst) for (let it = 1; it <= requests; it += STEP_AT_START) refused.push(it);
  for (let it = requests + 1; it <= ample.heap.requests; it += 1) refused.push(it);
  for (const it of refused) {
    const isRefused = number => number === it;
    await tryRefusing(session, lines, { isRefused }, `request ${it} refused`);
  }
  for (let limit = end; limit < ample.heap.end; limit += STEP_OF_LIMITS) {
    await tryRefusing(session, lines, { limit }, `the memory limited to ${limit} bytes`);
  }
}

const sessions = sessionsIn(stored, ".session");
for (const session of sessions) await tryEach(session, session === sessions[0]);
counts.holds(refusedLines > 0, "no line was refused memory");
counts.end();
