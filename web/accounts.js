// What a word, a register or a printed byte is made of, in the panel of Why: its lines, each with
// its turn, and the path over the timeline.

import { MOST_STEPS, MadeOf, nameOfMade } from "./made.js";
import { make } from "./page.js";
import { questionOf } from "./questions.js";

// So many levels are drawn further to the right; and so many times more steps are followed.
const [DEEPEST, INDENT, MORE] = [8, 12, 4];

/**
 * @typedef {import("./made.js").Made} Made
 * @typedef {import("./made.js").MadeThing} MadeThing
 * @typedef {import("./path.js").PathStep} PathStep
 * @typedef {import("./reasons.js").Answer} Answer
 * @typedef {{run: import("./run.js").Run, past: import("./past.js").Past}} OldPast
 */

/** A text as a sentence.
    @param {string} text */
const sentence = text => `${text[0].toUpperCase()}${text.slice(1)}.`;

export class MadeQuestion {
  /** @param {import("./app.js").App} app @param {MadeThing} thing @param {OldPast | null} old
      the old past, if the question is about that */
  constructor(app, thing, old = null, most = MOST_STEPS) {
    this.app = app;
    this.thing = thing;
    this.old = old;
    this.most = most;
    /** @type {MadeOf | null} what was found so far of this past */
    this.found = null;
  }

  get name() {
    return nameOfMade(this.thing);
  }

  /** The machine that is asked. */
  get run() {
    return this.old?.run ?? this.app.session.run;
  }

  /** The line that asks what it is before a turn.
      @param {number} turn */
  line(turn) {
    const { thing, app: { session: { end } } } = this;
    if (thing.kind === "byte") return `text ${end}`;
    return thing.kind === "register" ? `regs ${turn}` : questionOf(this.run.past, thing, turn);
  }

  /** The same question about another past. */
  anew() {
    return new MadeQuestion(this.app, this.thing, null, this.most);
  }

  /** The same question, of which more steps are followed. */
  further() {
    const question = new MadeQuestion(this.app, this.thing, this.old, this.most * MORE);
    question.found = this.found;
    return question;
  }

  /** @param {import("./cursor.js").Ask} ask @param {number} turn @returns {Promise<Answer>} */
  async answer(ask, turn) {
    const { panels, session: { contents, end } } = this.app, { thing, old, run } = this;
    this.found ??= new MadeOf({ thing, turn, end, past: old?.past ?? run.past,
      options: contents.arguments,
      turnsInWords: (it, turns) => panels.turnsInWords(it, turns) });
    const made = await this.found.answer(ask, this.most);
    return { turn: made.turn, inside: this.inside(made), path: pathOf(made) };
  }

  /** @param {Made} made @returns {HTMLElement[]} */
  inside({ first, lines, isCut, ends, left, isLimited }) {
    const list = accountOf(this.app, [first, ...lines], "Steps back");
    const cut = isCut ? ["further lines aren't shown; what follows counts all steps"] : [];
    const more = make("button", { type: "button", onclick: () => this.goFurther() },
      "Follow further");
    const unfollowed = left ? [make("p", {}, `${sentence(left)} `, isLimited ? more : "")] : [];
    return [...[...cut, ...ends].map(it => make("p", {}, sentence(it))), ...unfollowed, list];
  }

  goFurther() {
    const { reasons } = this.app;
    return reasons.attempt(() => reasons.show(this.further(), reasons.turn));
  }
}

/** Lines as a list. What each ends with leads to its turn, if it has one.
    @param {import("./app.js").App} app
    @param {{text: string, turn: number | null, depth?: number, head?: string}[]} lines
    @param {string} label */
export function accountOf(app, lines, label) {
  const items = lines.map(({ text, turn, depth = 0, head = "" }) => {
    const step = turn === null ? text : app.linkTo(turn, text);
    const made = make("li", { "aria-level": depth + 1 }, head, step);
    made.style.marginLeft = `${INDENT * Math.min(depth, DEEPEST)}px`;
    return made;
  });
  return make("ul", { class: "account", "aria-label": label }, ...items);
}

/** The steps of a path, each with the number of the one that is made of it.
    @param {Made} made @returns {PathStep[]} */
const pathOf = ({ first, lines }) => [
  { ...first, above: -1 },
  ...lines.map(({ turn, lane, above }) => ({ turn, lane, above: above + 1 })),
];
