// Tests of the bar that says how far machines at work are. Each throws if something isn't so.

import { WorkBar } from "/work.js";

const work = what => ({ done: 1, all: 2, what });

const after = milliseconds => new Promise(it => setTimeout(it, milliseconds));

function shown() {
  const [place, text] = ["work", "work-text"].map(it => document.getElementById(it));
  return place.hidden ? "" : text.textContent;
}

function equal(found, wanted) {
  if (found !== wanted) throw new Error(`${found} isn't ${wanted}`);
}

export async function test_a_machine_that_ends_leaves_the_work_of_another() {
  document.body.innerHTML =
    '<div id="work" hidden><progress id="bar"></progress><span id="work-text"></span></div>';
  const bar = new WorkBar(), [old, now] = [{ name: "run" }, { name: "run" }];
  bar.show(old, work("turns of the old run"));
  bar.show(now, work("turns"));
  equal(shown(), "");
  bar.show(old, null);
  await after(500);
  equal(shown(), "1 of 2 turns");
  bar.show(now, null);
  await after(400);
  equal(shown(), "");
}
