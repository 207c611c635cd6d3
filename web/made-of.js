// Made of made_of.py and assembler.py in src/nezdrab/analysis by tools/web --tables: change these,
// and make this one again.

/**
 * What the results of an instruction are made of: `low` and `high` the bytes that it stores, and
 * `codes` N, Z, V and C. Each letter stands for a part of the operands, by its place in LETTERS; no
 * letter is a constant, and KEPT isn't written. A copy changes no bit.
 * @typedef {{low: string, high: string, codes: string[], isCopy: boolean, isByte: boolean}} Row
 */

export const KEPT = "-";
export const LETTERS = "sSdDrCN";

/** @param {string} low @param {string} high @param {string} codes @returns {Row} */
const row = (low, high, codes, isCopy = false, isByte = false) =>
  ({ low, high, codes: codes.split(","), isCopy, isByte });

export const MOVED = row("s", "S", "S,sS,,-", true);
export const XOR = row("sd", "SD", "SD,sSdD,,-");
/** The rows of MUL, DIV, ASH and ASHC, by bits 11 to 9. */
export const EXTENDED = [
  row("sSr", "sSr", "sSr,sSr,,sSr"), // MUL
  row("sSr", "sSr", "sSr,sSr,sSr,sSr"), // DIV
  row("sr", "sr", "sr,sr,sr,sr"), // ASH
  row("sr", "sr", "sr,sr,sr,sr"), // ASHC
];

/** The rows of the other instructions with operands: each from one value of the upper ten bits of a
    word to another.
    @type {[number, number, Row][]} */
const ROWS = [
  [0o3, 0o3, row("D", "d", "D,D,,")], // SWAB
  [0o50, 0o50, row("", "", ",,,")], // CLR
  [0o51, 0o51, row("d", "D", "D,dD,,")], // COM
  [0o52, 0o52, row("d", "dD", "dD,dD,dD,-")], // INC
  [0o53, 0o53, row("d", "dD", "dD,dD,dD,-")], // DEC
  [0o54, 0o54, row("d", "dD", "dD,dD,dD,dD")], // NEG
  [0o55, 0o55, row("dC", "dDC", "dDC,dDC,dDC,dDC")], // ADC
  [0o56, 0o56, row("dC", "dDC", "dDC,dDC,dDC,dDC")], // SBC
  [0o57, 0o57, row("-", "-", "D,dD,,")], // TST
  [0o60, 0o60, row("dD", "DC", "C,dDC,dC,d")], // ROR
  [0o61, 0o61, row("dC", "dD", "D,dDC,D,D")], // ROL
  [0o62, 0o62, row("dD", "D", "D,dD,dD,d")], // ASR
  [0o63, 0o63, row("d", "dD", "D,dD,D,D")], // ASL
  [0o67, 0o67, row("N", "N", "-,N,,-")], // SXT
  [0o100, 0o177, row("s", "S", "S,sS,,-", true)], // MOV
  [0o200, 0o277, row("-", "-", "sSdD,sSdD,sSdD,sSdD")], // CMP
  [0o300, 0o377, row("-", "-", "SD,sSdD,,-")], // BIT
  [0o400, 0o477, row("sd", "SD", "SD,sSdD,,-")], // BIC
  [0o500, 0o577, row("sd", "SD", "SD,sSdD,,-")], // BIS
  [0o600, 0o677, row("sd", "sSdD", "sSdD,sSdD,sSdD,sSdD")], // ADD
  [0o1050, 0o1050, row("", "-", ",,,", false, true)], // CLR
  [0o1051, 0o1051, row("d", "-", "d,d,,", false, true)], // COM
  [0o1052, 0o1052, row("d", "-", "d,d,d,-", false, true)], // INC
  [0o1053, 0o1053, row("d", "-", "d,d,d,-", false, true)], // DEC
  [0o1054, 0o1054, row("d", "-", "d,d,d,d", false, true)], // NEG
  [0o1055, 0o1055, row("dC", "-", "dC,dC,dC,dC", false, true)], // ADC
  [0o1056, 0o1056, row("dC", "-", "dC,dC,dC,dC", false, true)], // SBC
  [0o1057, 0o1057, row("-", "-", "d,d,,", false, true)], // TST
  [0o1060, 0o1060, row("dC", "-", "C,dC,dC,d", false, true)], // ROR
  [0o1061, 0o1061, row("dC", "-", "d,dC,d,d", false, true)], // ROL
  [0o1062, 0o1062, row("d", "-", "d,d,d,d", false, true)], // ASR
  [0o1063, 0o1063, row("d", "-", "d,d,d,d", false, true)], // ASL
  [0o1100, 0o1177, row("s", "-", "s,s,,-", true, true)], // MOV
  [0o1200, 0o1277, row("-", "-", "sd,sd,sd,sd", false, true)], // CMP
  [0o1300, 0o1377, row("-", "-", "sd,sd,,-", false, true)], // BIT
  [0o1400, 0o1477, row("sd", "-", "sd,sd,,-", false, true)], // BIC
  [0o1500, 0o1577, row("sd", "-", "sd,sd,,-", false, true)], // BIS
  [0o1600, 0o1677, row("sd", "sSdD", "sSdD,sSdD,sSdD,sSdD")], // ADD
];

/** The row of an instruction with one or two operands, except the extended arithmetic, XOR and
    those of the previous mode; for a word of another kind null.
    @param {number} word */
export const rowOf = word =>
  ROWS.find(([first, last]) => word >> 6 >= first && word >> 6 <= last)?.[2] ?? null;

/** The names of instructions, in the syntax of MACRO-11. */
export const MNEMONICS = new Set((""
  + "ADC ADCB ADD ASH ASHC ASL ASLB ASR ASRB BCC BCS BEQ BGE BGT BHI BHIS BIC BICB BIS BISB "
  + "BIT BITB BLE BLO BLOS BLT BMI BNE BPL BPT BR BVC BVS CALL CCC CLC CLN CLR CLRB CLV CLZ "
  + "CMP CMPB COM COMB DEC DECB DIV EMT HALT INC INCB IOT JMP JSR MARK MFPI MOV MOVB MTPI MUL "
  + "NEG NEGB NOP RESET RETURN ROL ROLB ROR RORB RTI RTS RTT SBC SBCB SCC SEC SEN SEV SEZ SOB "
  + "SUB SWAB SXT TRAP TST TSTB WAIT XOR").split(" "));
