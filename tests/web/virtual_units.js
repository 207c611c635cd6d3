// Tests of what the panels ask of virtual addresses. Each throws if something isn't so.

import { placesAt, wordsAt } from "/cursor.js";
import { physicalOf, unreadOf } from "/replies.js";

function equal(found, wanted) {
  const [left, right] = [found, wanted].map(it => JSON.stringify(it));
  if (left !== right) throw new Error(`${left} isn't ${right}`);
}

/** A machine whose words at the user's addresses up to 76, and at the last two, are these
    addresses. Each lies 20000 above its address. */
function machine() {
  const asked = [];
  const isThere = address => address < 0o100 || address >= 0o177774;
  const digits = number => number.toString(8).padStart(6, "0");
  const replyTo = line => {
    const [word, , mode, first, count = "1"] = line.split(" "), address = parseInt(first, 8);
    if (mode !== "user") return "refused 10 BadLine";
    const words = Array.from({ length: Number(count) }, (_, at) => address + 2 * at);
    if (words.at(-1) > 0o177776) return "refused 8 CountOutOfRange";
    const gone = words.find(it => !isThere(it));
    if (word === "translate") {
      return gone === undefined ? `translate ${digits(address + 0o20000)}`
        : "translate abort length";
    }
    return gone === undefined ? ["virtual", ...words.map(digits)].join(" ")
      : `virtual abort length at ${digits(gone)}`;
  };
  const ask = async lines => {
    asked.push(...lines);
    return lines.map(replyTo);
  };
  return { ask, asked };
}

const USER = { turn: 9, space: "user", core: 0o200000 };

export function test_replies_about_virtual_addresses() {
  equal([physicalOf("translate 020012"), physicalOf("translate abort length")], [0o20012, null]);
  equal(["virtual 000011 000022", "virtual abort non-resident at 020000",
    "virtual timeout at 160000", "virtual device at 177560"].map(unreadOf),
  [null, 0o20000, 0o160000, 0o177560]);
}

export async function test_words_up_to_the_first_that_can_not_be_read() {
  const { ask, asked } = machine();
  equal(await wordsAt(ask, USER, 0o70, 2), [0o70, 0o72]);
  equal(await wordsAt(ask, USER, 0o74, 24), [0o74, 0o76]);
  equal(await wordsAt(ask, USER, 0o100, 3), []);
  equal(asked, ["virtual 9 user 70 2", "virtual 9 user 74 24", "virtual 9 user 74 2",
    "virtual 9 user 100 3"]);
}

export async function test_words_go_on_after_the_last_address() {
  const { ask } = machine();
  equal(await wordsAt(ask, USER, 0o177774, 3), [0o177774, 0o177776, 0]);
  equal(await placesAt(ask, USER, 0o177774, 3), []);
  equal(await placesAt(ask, { ...USER, core: 0o1000000 }, 0o177774, 3),
    [0o217774, 0o217776, 0o20000]);
}

export async function test_places_as_far_as_they_are_core() {
  const { ask } = machine();
  equal(await placesAt(ask, USER, 0o72, 8), [0o20072, 0o20074, 0o20076]);
  equal(await placesAt(ask, { ...USER, core: 0o20074 }, 0o72, 8), [0o20072]);
}

/** At an odd address, and in a mode that has no pages, there are no words: nothing is asked. */
export async function test_addresses_without_words() {
  const { ask, asked } = machine();
  const none = [await wordsAt(ask, USER, 0o71, 3), await placesAt(ask, USER, 0o71, 3),
    await wordsAt(ask, { ...USER, space: null }, 0, 3),
    await placesAt(ask, { ...USER, space: null }, 0, 3)];
  equal([none, asked], [[[], [], [], []], []]);
}
