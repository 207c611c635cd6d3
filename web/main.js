// Begins: the page's parts are bound to what they do, and the session in the page is opened.

import { App } from "./app.js";
import { takeChosen, takeDrops } from "./files.js";
import { forgetSession } from "./kept.js";
import { List } from "./lists.js";
import { keepLook } from "./look.js";
import { choice, element, field, onSubmit } from "./page.js";
import { LAST_TURN } from "./replies.js";
import { listLanes } from "./signs.js";

/** Whether a key is struck with another that makes it the browser's.
    @param {KeyboardEvent} event */
const hasOther = ({ altKey, ctrlKey, metaKey }) => altKey || ctrlKey || metaKey;

/** @param {string} id @param {() => void} act */
function onClick(id, act) {
  const it = element(id);
  it.addEventListener("click", () => it.ariaDisabled !== "true" && act());
}

/** The field's form does this with its value, which is trimmed.
    @param {string} id @param {string} name @param {(value: string) => void} act */
function onForm(id, name, act) {
  onSubmit(id, () => act(field(name).value.trim()));
}

/** @param {App} app */
function bindFiles(app) {
  const chooser = field("files");
  onClick("open", () => chooser.click());
  takeChosen(chooser, files => app.opening.openFiles(files));
  onClick("own", () => app.opening.openOwn());
  onClick("save", () => app.opening.saveSession());
  onClick("save-page", () => app.opening.savePage());
  takeDrops(document.body, files => app.opening.openFiles(files));
}

/** @param {App} app */
function bindTurns(app) {
  onForm("turn-form", "turn", value => {
    if (/^\d{1,10}$/.test(value) && Number(value) <= LAST_TURN) app.goTo(Number(value));
    else app.say(`A turn is a number from 0 to ${LAST_TURN}.`);
  });
  /** @type {NodeListOf<HTMLElement>} */
  const buttons = document.querySelectorAll("[data-key]");
  for (const it of buttons) {
    const key = it.dataset.key ?? "";
    it.addEventListener("click", event => app.view.timeline.act(key, event.shiftKey));
  }
  document.body.addEventListener("keydown", event => {
    const at = event.target instanceof Element ? event.target : null;
    const isFree = at === document.body || at?.closest(".link");
    if (!isFree || hasOther(event) || event.key === " ") return;
    if (app.view.timeline.act(event.key, event.shiftKey)) event.preventDefault();
  });
}

/** @param {App} app */
function bindEdits(app) {
  onForm("edit-form", "line", line => line && app.edits.do(line));
  onForm("memory-form", "address", value => {
    if (/^[0-7]{1,6}$/.test(value)) app.goTo(app.view.timeline.cursor, parseInt(value, 8));
    else app.say("An address of core is an octal number of at most six digits.");
  });
  onForm("keep-form", "keep-name", name => app.pasts.keep(name));
  onForm("event-form", "event-value", () => app.events.add());
  onForm("find-form", "find-what", () => app.finder.find(1));
  onClick("find-before", () => app.finder.find(-1));
  onClick("step-over", () => app.stepping.over());
  onClick("step-out", () => app.stepping.out());
  onClick("sit", () => app.console.sit());
  onForm("watch-form", "watch", value => app.watched.addNamed(value));
  onClick("undo", () => app.edits.undo());
  onClick("redo", () => app.edits.redo());
  bindUndoKeys();
  onClick("stop", () => app.stop());
}

/** The legend opens by `?`, where no text is typed, and closes by Escape; `m` goes to where a note
    is written.
    @param {App} app */
function bindHelp(app) {
  const help = /** @type {HTMLDetailsElement} */ (element("help"));
  addEventListener("keydown", event => {
    const { key, target } = event;
    const types = target instanceof Element && target.matches("input, select, [role=textbox]");
    if (key === "?" && !types) help.open = !help.open;
    else if (key === "m" && !types && !hasOther(event)) app.notes.write();
    else if (key === "Escape" && help.open) help.open = false;
    else return;
    event.preventDefault();
  });
}

/** Ctrl+Z undoes; with shift, or as Ctrl+Y, it makes again. A field has an undo of its own as long
    as what was typed there isn't entered. */
function bindUndoKeys() {
  /** @type {Map<EventTarget | null, string>} what stood in a field before that */
  const before = new Map();
  addEventListener("beforeinput", ({ target }) => {
    if (target instanceof HTMLInputElement && !before.has(target)) before.set(target, target.value);
  });
  addEventListener("submit", ({ target }) => {
    for (const it of /** @type {HTMLFormElement} */ (target).elements) before.delete(it);
  });
  addEventListener("keydown", event => {
    const { target } = event, key = event.key.toLowerCase(), old = before.get(target);
    const isAsked = (event.ctrlKey || event.metaKey) && !event.altKey && ["y", "z"].includes(key);
    const hasOwn = target instanceof HTMLInputElement && target.value !== (old ?? target.value);
    if (!isAsked || hasOwn) return;
    event.preventDefault();
    element(key === "y" || event.shiftKey ? "redo" : "undo").click();
  });
}

/** Lines and numbers are typed into fields: the browser has nothing to say of them. */
function quietFields() {
  for (const it of document.querySelectorAll("input:not(#note-text)")) {
    Object.assign(it, { autocomplete: "off", autocapitalize: "off", spellcheck: false });
  }
}

function begin() {
  quietFields();
  const app = new App();
  bindFiles(app);
  bindTurns(app);
  bindEdits(app);
  listLanes();
  bindHelp(app);
  keepLook(choice("look"), () => app.view.timeline.draw());
  /** @type {NodeListOf<HTMLElement>} */
  const lists = document.querySelectorAll("[data-list]");
  for (const it of lists) new List(it);
  for (const name of ["popstate", "hashchange"]) {
    addEventListener(name, () => app.linking.follow(location.hash));
  }
  addEventListener("beforeunload", event => app.edits.areUnsaved() && event.preventDefault());
  app.attempt(async () => {
    try {
      await app.linking.openFirst(location.hash);
    } catch (error) {
      forgetSession();
      throw error;
    }
    document.documentElement.dataset.state = "ready";
  });
  return app;
}

begin();
