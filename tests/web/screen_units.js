// Tests of the terminal's screen. Each throws if something isn't so.

import { Screen } from "/screen.js";

function equal(found, wanted) {
  const [left, right] = [found, wanted].map(it => JSON.stringify(it));
  if (left !== right) throw new Error(`${left} isn't ${right}`);
}

const bytesOf = text => [...text].map(it => it.charCodeAt(0));
const screenOf = text => new Screen().print(bytesOf(text));
const linesOf = text => screenOf(text).text.split("\n");
/** The lines that aren't empty, by their numbers. */
const shown = text => Object.fromEntries(linesOf(text).map((it, at) => [at, it])
  .filter(([, it]) => it));

export function test_screen_of_plain_text() {
  equal(shown("A2 =\r\n5\rB\b\x07\x7f"), { 0: "A2 =", 1: "B" });
  equal(shown("a\tb\t\tc"), { 0: "a       b               c" });
  equal(linesOf("").length, 24);
  const many = Array.from({ length: 30 }, (_, at) => `${at}`).join("\r\n");
  equal([linesOf(many)[0], linesOf(many)[23]], ["6", "29"]);
  equal(linesOf("x".repeat(100))[0].length, 80);
  equal(shown("\xc1\xc2"), { 0: "AB" });
}

/** Each place of the screen is reached by ESC Y, and no other place is changed. */
export function test_screen_of_a_vt52() {
  for (let row = 0; row < 24; row += 5) {
    for (let column = 0; column < 80; column += 13) {
      const place = String.fromCharCode(0o40 + row, 0o40 + column);
      equal(shown(`\x1bY${place}X`), { [row]: `${" ".repeat(column)}X` });
    }
  }
  equal(shown("\x1bY%%X\x1bA1\x1bB\x1bB2\x1bD\x1bDy\x1bCz\x1bHh"),
    { 0: "h", 4: "      1", 5: "     X", 6: "      y2z" });
  equal(shown("abc\r\ndef\r\nghi\x1bY!!\x1bK"), { 0: "abc", 1: "d", 2: "ghi" });
  equal(shown("abc\r\ndef\r\nghi\x1bY!!\x1bJ"), { 0: "abc", 1: "d" });
  equal(shown("abc\x1bH\x1bIx"), { 0: "x", 1: "abc" });
  equal(shown("\x1b=a\x1bZb\x1bFc"), { 0: "abc" });
}

export function test_screen_of_a_vt100() {
  equal(shown("\x1b[5;7HX\x1b[2A1\x1b[H\x1b[1mb\x1b[0m"), { 0: "b", 2: "       1", 4: "      X" });
  equal(shown("abc\x1b[2D\x1b[K"), { 0: "a" });
  equal(shown("abc\x1b[2D\x1b[1K"), { 0: "  c" });
  equal(shown("abc\r\ndef\x1b[1;2H\x1b[J"), { 0: "a" });
  equal(shown("abc\r\ndef\x1b[2;2H\x1b[1J"), { 1: "  f" });
  equal(shown("abc\r\ndef\x1b[2Jx"), { 1: "   x" });
  equal(shown("abc\x1b[?7h\x1b(Bd"), { 0: "abcd" });
  equal(shown("\x1b[2J\x1b[?2l\x1bY!!x\x1b<\x1bY!!"), { 1: " x!!" });
  equal(shown("\x1b[Ha\x1bDb\x1bEc\x1bMd"), { 0: "a", 1: " d", 2: "c" });
}
