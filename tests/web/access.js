// What of the page, as it is drawn now, isn't as WCAG 2.2 AA has it. A check returns a list of what
// is wrong, in words.

const [TEXT, LARGE, LINE] = [4.5, 3, 3];
const CONTROLS = "a[href], button, input, select, textarea, summary, [tabindex]";

/** Red, green, blue and alpha of a colour as the browser computes it. */
function partsOf(colour) {
  const [red, green, blue, alpha = 1] = colour.match(/[\d.]+/g).map(Number);
  return [red, green, blue, alpha];
}

/** A colour laid over another one. */
const over = ([...top], below) =>
  [0, 1, 2].map(it => top[it] * top[3] + below[it] * (1 - top[3])).concat(1);

/** What is drawn behind an element: its own ground, and those of what it is in. */
function groundOf(element) {
  if (!element) return [255, 255, 255, 1];
  const own = partsOf(getComputedStyle(element).backgroundColor);
  return own[3] === 1 ? own : over(own, groundOf(element.parentElement));
}

function luminance(colour) {
  const [red, green, blue] = colour.slice(0, 3).map(it => it / 255)
    .map(it => it <= 0.04045 ? it / 12.92 : ((it + 0.055) / 1.055) ** 2.4);
  return 0.2126 * red + 0.7152 * green + 0.0722 * blue;
}

function contrast(one, other) {
  const [low, high] = [luminance(one), luminance(other)].sort((a, b) => a - b);
  return (high + 0.05) / (low + 0.05);
}

const nameOf = it => `${it.localName}${it.id && `#${it.id}`}${
  typeof it.className === "string" && it.className && `.${it.className}`} ${
  (it.textContent ?? "").trim().slice(0, 30)}`.trim();

const isDrawn = it => it.checkVisibility({ visibilityProperty: true }) && !it.closest(".unseen");
const isDisabled = it => it.closest(":disabled, [aria-disabled=true]") !== null;

/** The least contrast that a text of this style may have. */
function leastOf({ fontSize, fontWeight }) {
  const size = parseFloat(fontSize);
  return size >= 24 || size >= 18.66 && Number(fontWeight) >= 700 ? LARGE : TEXT;
}

function textFault(element, style = getComputedStyle(element)) {
  const ground = groundOf(element);
  const found = contrast(over(partsOf(style.color), ground), ground);
  return found < leastOf(style) ? [`${nameOf(element)}: ${found.toFixed(2)}`] : [];
}

/** Texts, and what stands in fields, whose contrast is too low. */
function lowTexts() {
  const all = [...document.body.querySelectorAll("*")].filter(it => isDrawn(it) && !isDisabled(it));
  const hasText = it => it.localName !== "option" && it.localName !== "script"
    && [...it.childNodes].some(at => at.nodeType === 3 && at.data.trim());
  const holders = all.filter(it => it.placeholder);
  return [
    ...all.filter(it => hasText(it) || it.matches("input, select")).flatMap(it => textFault(it)),
    ...holders.flatMap(it => textFault(it, getComputedStyle(it, "::placeholder"))),
  ];
}

/** Edges of controls that are hardly seen, where no other ground marks the control. */
function lowEdges() {
  const all = [...document.querySelectorAll("button:not(.link), input, select")]
    .filter(it => isDrawn(it) && !isDisabled(it) && it.type !== "checkbox");
  return all.flatMap(it => {
    const { borderTopWidth, borderTopColor } = getComputedStyle(it);
    const outside = groundOf(it.parentElement), edge = over(partsOf(borderTopColor), outside);
    const marked = parseFloat(borderTopWidth) ? edge : groundOf(it);
    const found = contrast(marked, outside);
    return found < LINE ? [`${nameOf(it)}: ${found.toFixed(2)}`] : [];
  });
}

/** Colours that the canvas draws lines and marks with, and that its ground hides. */
function lowMarks(names) {
  const style = getComputedStyle(document.querySelector("#timeline canvas"));
  const probe = document.body.appendChild(document.createElement("i"));
  const colourOf = name => {
    probe.style.color = style.getPropertyValue(`--${name}`);
    return partsOf(getComputedStyle(probe).color);
  };
  const ground = groundOf(document.querySelector("#timeline"));
  const found = names.map(it => [it, contrast(colourOf(it), ground)]);
  probe.remove();
  return found.filter(([, it]) => it < LINE).map(([name, it]) => `${name}: ${it.toFixed(2)}`);
}

/** Headings that skip a level, or a page without its one first heading. */
function headings() {
  const all = [...document.querySelectorAll("h1, h2, h3, h4, h5, h6")].filter(isDrawn);
  const levels = all.map(it => Number(it.localName[1]));
  const skipped = all.filter((_, at) => levels[at] > (levels[at - 1] ?? 0) + 1).map(nameOf);
  const firsts = levels.filter(it => it === 1).length;
  return firsts === 1 ? skipped : [...skipped, `${firsts} first headings`];
}

/** Pictures without a text that aren't hidden from a screen reader. */
const pictures = () => [...document.querySelectorAll("img, svg, canvas, video, audio, [role=img]")]
  .filter(it => !it.closest("[aria-hidden=true]") && !it.ariaLabel && !it.getAttribute("alt"))
  .map(nameOf);

/** What lies beyond the edges of the page, or is cut in a control. */
function lost() {
  const { scrollWidth, clientWidth } = document.documentElement;
  const wide = scrollWidth > clientWidth ? [`the page is ${scrollWidth} wide`] : [];
  const all = [...document.querySelectorAll("button, select, summary, label, h1, h2, h3, p")]
    .filter(it => isDrawn(it) && !it.closest(".scroll, .marks, pre"));
  const outside = all.filter(it => {
    const { left, right } = it.getBoundingClientRect();
    return left < -1 || right > clientWidth + 1;
  });
  const cut = all.filter(it => it.localName === "button" && it.scrollWidth > it.clientWidth + 1);
  return [...wide, ...outside.map(it => `outside: ${nameOf(it)}`), ...cut.map(nameOf)];
}

/** Elements of these ids whose text no screen reader is told of when it changes. */
const untold = ids => ids.filter(id => {
  const it = document.getElementById(id);
  return !it?.closest("[role=status], [role=alert], [role=log], [aria-live=polite], output");
});

/** What the keyboard goes to, in the order of the page. */
const focusable = () => [...document.querySelectorAll(CONTROLS)]
  .filter(it => it.tabIndex >= 0 && isDrawn(it) && !it.closest(":disabled"));

/** Where the focus is among these, and what is wrong with how it is shown. */
function focusNow() {
  const it = document.activeElement, { event } = it.dataset;
  // a mark may be drawn anew when the focus comes to it
  const at = window.wanted.findIndex(one => one === it || event && one.dataset.event === event);
  if (at < 0) return [at, []];
  const { outlineStyle, outlineWidth, outlineColor } = getComputedStyle(it);
  const isMarked = outlineStyle !== "none" && parseFloat(outlineWidth) >= 2
    && contrast(partsOf(outlineColor), groundOf(it.parentElement)) >= LINE;
  const { left, right, top, bottom } = it.getBoundingClientRect();
  const isInSight = right > 0 && bottom > 0 && left < innerWidth && top < innerHeight;
  return [at, [...isMarked ? [] : [`not marked: ${nameOf(it)}`],
    ...isInSight ? [] : [`out of sight: ${nameOf(it)}`]]];
}

/** Puts the focus at the first control. Returns how many there are. */
function beginFocus() {
  window.wanted = focusable();
  window.wanted[0].focus();
  return window.wanted.length;
}

window.access = {
  lowTexts, lowEdges, lowMarks, headings, pictures, lost, untold, beginFocus, focusNow,
};
