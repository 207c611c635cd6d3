// wasm.mjs FILE.wasm TURNS TIMES: runs the lines of standard input, and then TURNS turns, by a
// module of pdp11, each time in a new instance. Writes the seconds of each run of the turns, as JSON.
import fs from "node:fs";
import { Host, readerOf } from "../web/host.js";

const [file, turns, times] = process.argv.slice(2);
const module = new WebAssembly.Module(fs.readFileSync(file));
const lines = fs.readFileSync(0);
const question = readerOf.bind(null, Buffer.from(`regs ${turns}\n`));

async function seconds() {
  const parts = [readerOf(lines), question(), () => new Uint8Array()];
  const starts = [];
  const read = most => {
    const found = parts[0](most);
    if (found.length > 0 || parts.length === 1) return found;
    parts.shift();
    starts.push(performance.now());
    return parts[0](most);
  };
  const host = new Host(module, { args: ["pdp11"], read, write: () => {} });
  const status = await host.run();
  if (status !== 0) throw new Error(`status ${status}`);
  return (starts[1] - starts[0]) / 1000;
}

const found = [];
for (let time = 0; time < times; time += 1) found.push(await seconds());
console.log(JSON.stringify(found));
