// A terminal's screen of 24 lines of 80 characters: what stands on it after bytes were printed. It
// is a VT52, and from the first ESC [ on a VT100, as far as both move the cursor and erase. A line
// that is longer goes on in its last place.

const [LINES, COLUMNS, TAB] = [24, 80, 8];
const ESC = 0o33;
// Further bytes that belong to these of a VT100, and aren't shown.
const TAKES_ONE = new Set(["(", ")", "#"]);

const blank = () => Array.from({ length: COLUMNS }, () => " ");
/** @param {number} value @param {number} most */
const within = (value, most) => Math.max(0, Math.min(most, value));

export class Screen {
  constructor() {
    /** @type {string[][]} */
    this.lines = Array.from({ length: LINES }, blank);
    this.row = 0;
    this.column = 0;
    this.isVt100 = false;
    /** The bytes of a sequence that isn't ended, after its ESC; null outside of one.
        @type {string | null} */
    this.sequence = null;
  }

  /** @param {Iterable<number>} bytes */
  print(bytes) {
    for (const byte of bytes) this.take(byte & 0o177);
    return this;
  }

  /** The lines as a text, without spaces at their ends. */
  get text() {
    return this.lines.map(it => it.join("").trimEnd()).join("\n");
  }

  /** @param {number} byte */
  take(byte) {
    if (byte === ESC) this.sequence = "";
    else if (byte < 0o40) this.control(byte);
    else if (byte === 0o177) return;
    else if (this.sequence === null) this.put(String.fromCharCode(byte));
    else this.goOn(String.fromCharCode(byte));
  }

  /** @param {string} character */
  put(character) {
    this.lines[this.row][this.column] = character;
    this.column = within(this.column + 1, COLUMNS - 1);
  }

  /** @param {number} byte */
  control(byte) {
    if (byte === 0o10) this.move(0, -1);
    else if (byte === 0o11) {
      this.column = within(this.column + TAB - this.column % TAB, COLUMNS - 1);
    } else if (byte >= 0o12 && byte <= 0o14) this.lineFeed();
    else if (byte === 0o15) this.column = 0;
  }

  /** @param {number} rows @param {number} columns */
  move(rows, columns) {
    this.goTo(this.row + rows, this.column + columns);
  }

  /** @param {number} row @param {number} column */
  goTo(row, column) {
    this.row = within(row, LINES - 1);
    this.column = within(column, COLUMNS - 1);
  }

  lineFeed() {
    if (this.row < LINES - 1) this.row += 1;
    else this.lines = [...this.lines.slice(1), blank()];
  }

  lineBack() {
    if (this.row > 0) this.row -= 1;
    else this.lines = [blank(), ...this.lines.slice(0, -1)];
  }

  /** Erases characters from one place up to before another, counted from the screen's first.
      @param {number} from @param {number} to */
  erase(from, to) {
    for (let at = from; at < to; at++) this.lines[Math.floor(at / COLUMNS)][at % COLUMNS] = " ";
  }

  get place() {
    return this.row * COLUMNS + this.column;
  }

  // Sequences

  /** A further byte of a sequence.
      @param {string} character */
  goOn(character) {
    const sequence = this.sequence + character;
    this.sequence = sequence;
    if (sequence === "[") this.isVt100 = true;
    const isOpen = sequence[0] === "Y" ? !this.isVt100 && sequence.length < 3
      : sequence[0] === "[" ? !/^\[[^@-~]*[@-~]$/.test(sequence)
        : TAKES_ONE.has(sequence[0]) && sequence.length < 2;
    if (isOpen) return;
    this.sequence = null;
    if (sequence[0] === "[") this.ofVt100(sequence.slice(1, -1), sequence.slice(-1));
    else this.ofOne(sequence);
  }

  /** @param {string} sequence */
  ofOne(sequence) {
    const [, row = 0, column = 0] = [...sequence].map(it => it.charCodeAt(0) - 0o40);
    const acts = this.isVt100 ? this.scrolling() : this.moves();
    if (sequence === "<") this.isVt100 = true;
    else if (sequence[0] === "Y" && !this.isVt100) this.goTo(row, column);
    else acts.get(sequence)?.();
  }

  /** What one letter after ESC does on a VT52. */
  moves() {
    return new Map([
      ["A", () => this.move(-1, 0)], ["B", () => this.move(1, 0)], ["C", () => this.move(0, 1)],
      ["D", () => this.move(0, -1)], ["H", () => this.goTo(0, 0)], ["I", () => this.lineBack()],
      ["J", () => this.erase(this.place, LINES * COLUMNS)],
      ["K", () => this.erase(this.place, (this.row + 1) * COLUMNS)],
    ]);
  }

  /** What it does on a VT100. */
  scrolling() {
    return new Map([
      ["D", () => this.lineFeed()], ["M", () => this.lineBack()],
      ["E", () => {
        this.column = 0;
        this.lineFeed();
      }],
    ]);
  }

  /** @param {string} numbers @param {string} end the letter that ends the sequence */
  ofVt100(numbers, end) {
    const [first = 0, second = 0] = numbers.split(";").map(it => parseInt(it, 10) || 0);
    const count = Math.max(1, first), line = this.row * COLUMNS;
    const erased = {
      J: [[this.place, LINES * COLUMNS], [0, this.place + 1], [0, LINES * COLUMNS]],
      K: [[this.place, line + COLUMNS], [line, this.place + 1], [line, line + COLUMNS]],
    };
    if (end === "H" || end === "f") this.goTo(first - 1, second - 1);
    else if (end === "A") this.move(-count, 0);
    else if (end === "B") this.move(count, 0);
    else if (end === "C") this.move(0, count);
    else if (end === "D") this.move(0, -count);
    else if (end === "l" && numbers === "?2") this.isVt100 = false;
    else if (end === "J" || end === "K") {
      const [from, to] = erased[end][first] ?? [0, 0];
      this.erase(from, to);
    }
  }
}
