// Tests of links that hold edits. Each throws if something isn't so.

import { sumOf } from "/kept.js";
import { LinkError, doneOfText, editsOfLink, textOfDone, wordsOfLink } from "/links.js";

function equal(found, wanted) {
  const [left, right] = [found, wanted].map(it => JSON.stringify(it));
  if (left !== right) throw new Error(`${left} isn't ${right}`);
}

const edit = (line, event) => ({ line, event });
const linesOf = changes => changes.map(it => it.map(({ line }) => line));
const SUM = sumOf(["a session"]);
const allOn = changes => ({ changes, off: [] });

async function refusal(fragment) {
  try {
    await editsOfLink(fragment);
  } catch (error) {
    if (error instanceof LinkError) return error.message;
    throw error;
  }
  throw new Error(`this was taken: ${fragment}`);
}

/** Only an event that a later line names has its number in the text. */
export function test_edits_as_a_text() {
  const changes = [[edit("at 5  key 101", "28"), edit("at 6 key 15", "29")],
    [edit("alter 28 7 key 102")], [edit("disk 0 101")]];
  const text = textOfDone(allOn(changes));
  equal(text, "at-5-key-101~28_at-6-key-15.alter-28-7-key-102.disk-0-101");
  const { changes: again, off } = doneOfText(text);
  equal(off, []);
  equal(linesOf(again), [["at 5 key 101", "at 6 key 15"], ["alter 28 7 key 102"], ["disk 0 101"]]);
  equal(again[0][0].event, "28");
  if (Number(again[0][1].event) < 2 ** 32) throw new Error("the program may give this number");
  equal(doneOfText(textOfDone(allOn([]))), allOn([]));
}

/** What is off stands among what is on, and may name an event of what is on or off. */
export function test_edits_that_are_off_as_a_text() {
  const off = [{ change: [edit("at 7 tick", "4294967296"), edit("alter 4294967296 8 tick")], place: 0 },
    { change: [edit("alter 28 6 key 103")], place: 1 }, { change: [edit("disk 0 1")], place: 9 }];
  const changes = [[edit("at 5 key 101", "28")], [edit("disk 0 101"), edit("disk 1 7")]];
  const text = textOfDone({ changes, off });
  equal(text, "~at-7-tick~4294967296_alter-4294967296-8-tick.at-5-key-101~28.~alter-28-6-key-103."
    + "disk-0-101_disk-1-7.~disk-0-1");
  const again = doneOfText(text);
  equal(linesOf(again.changes), linesOf(changes));
  equal(again.off.map(it => it.place), [0, 1, 2]);
  equal(linesOf(again.off.map(it => it.change)), linesOf(off.map(it => it.change)));
  equal([again.off[0].change[0].event, again.changes[0][0].event], ["4294967296", "28"]);
}

/** A long text is packed, and what is read is what was written. */
export async function test_links_hold_short_and_long_edits() {
  for (const count of [0, 1, 10, 1000]) {
    const changes = Array.from({ length: count }, (_, at) => [edit(`at ${at} key 101`, `${at}`)]);
    const words = await wordsOfLink("ledger", SUM, allOn(changes));
    equal(words.startsWith(count > 10 ? "packed=" : "edits="), true);
    const found = await editsOfLink(`#${words}&turn=5`);
    equal([found.key, found.isOf(SUM), found.isOf(sumOf(["another"]))], ["ledger", true, false]);
    equal(linesOf(found.done.changes), linesOf(changes));
  }
  equal(await editsOfLink("#turn=5&from=0&turns=10&core=2000"), null);
}

/** Each link that lacks its end, or has another character somewhere, is refused in words. */
export async function test_broken_links_are_refused() {
  const short = await wordsOfLink("ledger", SUM, allOn([[edit("alter 15 127165 key 66")]]));
  const many = Array.from({ length: 100 }, (_, at) => [edit(`at ${at * at} key 101`, `${at}`)]);
  const long = await wordsOfLink("ledger", SUM, allOn(many));
  for (const words of [short, long]) {
    const begin = words.indexOf(".", words.indexOf(".") + 1) + 1;
    for (let at = begin; at < words.length; at += 7) {
      equal(await refusal(words.slice(0, at)), "it was cut or changed on its way");
      const other = words[at] === "1" ? "2" : "1";
      equal(await refusal(words.slice(0, at) + other + words.slice(at + 1)),
        "it was cut or changed on its way");
    }
  }
  for (const held of ["", "ledger", "ledger.1.2", "ledger.1.2.3", "...."]) {
    equal(typeof await refusal(`edits=${held}`), "string");
  }
  const question = "regs-5", check = sumOf([question]).split("-")[0];
  equal(await refusal(`edits=ledger.1.${check}.${question}`), "it has what is no edit");
  const off = "~regs-5", other = sumOf([off]).split("-")[0];
  equal(await refusal(`edits=ledger.1.${other}.${off}`), "it has what is no edit");
}

/** What would be unpacked to very much is given up; so is a link that would be too long. */
export async function test_links_are_limited() {
  const stream = new Blob(["a".repeat(2_000_000)]).stream()
    .pipeThrough(new CompressionStream("deflate-raw"));
  const bytes = new Uint8Array(await new Response(stream).arrayBuffer());
  const base64 = btoa(String.fromCharCode(...bytes)).replaceAll("+", "-").replaceAll("/", "_");
  equal(await refusal(`packed=ledger.1.2.${base64}`), "its edits are too long");
  let said = "";
  const random = at => (at * 2654435761 >>> 0) % 1_000_000_000;
  const many = Array.from({ length: 8_000 }, (_, at) => [edit(`at ${random(at)} key 101`)]);
  await wordsOfLink("ledger", SUM, allOn(many)).catch(error => { said = error.message; });
  equal(/bytes, and a link has|too long/.test(said), true);
}
