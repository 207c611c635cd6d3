// host.mjs NAME IGNORED [ARGS]: runs release/NAME.wasm with the arguments, the streams and the
// files of this process, and ends with the program's status. The host is the page's (web/host.js),
// except that it reads and writes file descriptors, and waits in each call. IGNORED is a digit,
// hexadecimal, whose bits say which signals are ignored, or empty. No proof covers it.
import fs from "node:fs";
import os from "node:os";
import { Host } from "../../web/host.js";

const ERROR = 2;                        // standard error
const INPUT_OR_OUTPUT_ERROR = 5;        // of Linux's errno
const ARGUMENTS_OF_NODE = 4;            // node, this file, NAME, IGNORED
const SIGNALS = ["SIGHUP", "SIGINT", "SIGQUIT"];   // by the bits of IGNORED
const PAUSE_MILLISECONDS = 2;
const STOPPED = 1;                      // the exit status if there is no status of the program

const pause = new Int32Array(new SharedArrayBuffer(4));

// The arguments as bytes, since node's own lose what isn't UTF-8. Only Linux has the bytes.
function argumentsAsBytes() {
  const given = process.argv.slice(ARGUMENTS_OF_NODE);
  let bytes;
  try {
    bytes = fs.readFileSync("/proc/self/cmdline");
  } catch {
    return given.map(it => Buffer.from(it));
  }
  const all = bytes.toString("latin1").split("\0").slice(0, -1);
  return all.slice(all.length - given.length).map(it => Buffer.from(it, "latin1"));
}

class HostOfDescriptors extends Host {
  // The result of a call of the system, or -1 and errno if it fails. It is made again if a signal
  // cut it off, or if a descriptor that another process made non-blocking isn't ready.
  system(call) {
    for (;;) {
      try {
        return call();
      } catch (error) {
        if (error.code === "EAGAIN") Atomics.wait(pause, 0, 0, PAUSE_MILLISECONDS);
        else if (error.code !== "EINTR") return this.fails(numberOf(error));
      }
    }
  }

  imports() {
    return {
      ...super.imports(),
      read: (descriptor, address, count) => {
        const to = this.bytes(address, count);
        return BigInt(this.system(() => fs.readSync(descriptor, to, 0, to.length, null)));
      },
      write: (descriptor, address, count) => {
        const from = this.bytes(address, count);
        return BigInt(this.system(() => fs.writeSync(descriptor, from, 0, from.length, null)));
      },
      open: address => this.system(() => fs.openSync(this.nameAt(Number(address)), "r")),
      close: descriptor => this.system(() => (fs.closeSync(descriptor), 0)),
    };
  }

  // A copy, since node takes no name in a memory that can grow.
  nameAt(address) {
    const memory = new Uint8Array(this.exports.memory.buffer);
    return Buffer.from(memory.subarray(address, memory.indexOf(0, address)));
  }

  argumentInto(at, address, count) {
    if (at >= this.args.length) return -1n;
    const argument = this.args[at];
    this.bytes(address, count).set(argument.subarray(0, Number(count)));
    return BigInt(argument.length);
  }
}

function numberOf(error) {
  return os.constants.errno[error.code] ?? INPUT_OR_OUTPUT_ERROR;
}

function ignoreSignals(digit) {
  const bits = parseInt(digit, 16);
  SIGNALS.filter((_, bit) => bits & (1 << bit)).forEach(it => process.on(it, () => {}));
}

function run(name) {
  const file = new URL(`../../release/${name}.wasm`, import.meta.url);
  const module = new WebAssembly.Module(fs.readFileSync(file));
  const host = new HostOfDescriptors(module, { args: [Buffer.from(name), ...argumentsAsBytes()] });
  host.begin();
  return host.exports.program_main();
}

const [name = "host.mjs", ignored = ""] = process.argv.slice(2);
try {
  ignoreSignals(ignored);
  process.exit(run(name));
} catch (error) {
  try {
    fs.writeSync(ERROR, `${name}: node can't run it: ${error.message}\n`);
  } catch {
    // there is no one to tell
  }
  process.exit(STOPPED);
}
