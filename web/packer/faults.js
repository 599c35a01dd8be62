// Where a text is refused: the line with the fault's place, and the statement that has it. `mmquery` says the same of a
// statement by query/program/refusals.py, by another algorithm; tests/repository/test_faults.py compares the two.

import { Byte, closeOf, isComment, textAt } from "./bytes.js";
import { visible } from "./visible.js";

/**
 * What the program says of a text that it refuses. Line and column count from 1, in bytes.
 * @typedef {{ line: number, column: number, code: string }} Refusal
 */

/**
 * A refusal with what stands there: a part of the line, each byte as one sign, at which of these signs the fault is,
 * and the statement, such as `in 'id'`, or nothing where that can't be told.
 * @typedef {Refusal & { text: string, caret: number, statement: string }} Fault
 */

/**
 * What each code means, and what to do; `unknown` is for another code.
 * @typedef {{ faults: Record<string, [string, string]>, unknown: [string, string] }} Meanings
 */

const REFUSAL = /^refused ([1-9][0-9]{0,9}):([1-9][0-9]{0,9}) (E[0-9]{2})\n$/;
const LABEL = /^[A-Za-z0-9._-]+$/;
/** Signs of a line that are shown before the fault's place, and after it. */
const SIGNS_BEFORE = 60;
const SIGNS_AFTER = 60;
/** The fault of a text that is too long, which is nowhere in it. */
export const TOO_LONG = "E00";

/** Whether a report is a refusal. */
export function isRefusal(/** @type {Uint8Array} */ report) {
    return REFUSAL.test(textAt(report, 0, report.length));
}

/**
 * The refusal that a report is.
 * @param {Uint8Array} report
 * @returns {Refusal}
 */
export function refusalOf(report) {
    const match = REFUSAL.exec(textAt(report, 0, report.length));
    if (!match) throw new Error("a refusal that isn't whole");
    return { line: Number(match[1]), column: Number(match[2]), code: match[3] };
}

/**
 * A refusal with what stands in the text there.
 * @param {Uint8Array} data
 * @param {Refusal} refusal
 * @returns {Fault}
 */
export function faultOf(data, refusal) {
    let start = 0;
    for (let line = 1; line < refusal.line; line++) start = data.indexOf(Byte.newline, start) + 1;
    const place = Math.min(data.length, start + refusal.column - 1);
    const newline = data.indexOf(Byte.newline, place);
    const end = newline < 0 ? data.length : newline;
    const from = Math.max(start, place - SIGNS_BEFORE);
    const to = Math.min(end, place + SIGNS_AFTER);
    const [isCut, isCutAfter] = [from > start, to < end];
    const signs = Array.from(data.subarray(from, to), (byte) => visible(String.fromCharCode(byte))).join("");
    return {
        ...refusal,
        text: `${isCut ? "\u2026" : ""}${signs}${isCutAfter ? "\u2026" : ""}`,
        caret: place - from + (isCut ? 1 : 0),
        statement: refusal.code === TOO_LONG ? "" : statementAt(data, place),
    };
}

/**
 * A fault in one line: the place as compilers write it, the statement where it is known, what the code means and what to
 * do.
 * @param {string} name of the database
 * @param {Fault} fault
 * @param {Meanings} tables
 */
export function explained(name, { line, column, code, statement }, { faults, unknown }) {
    const [meaning, advice] = Object.hasOwn(faults, code) ? faults[code] : unknown;
    const place = statement === "" ? "" : ` ${statement}`;
    return `${name}:${line}:${column}: refused ${code}${place}: ${meaning}; ${advice}`;
}

/**
 * Which statement has a place, such as `in 'id'`; empty where that can't be told.
 * @param {Uint8Array} data
 * @param {number} place
 */
function statementAt(data, place) {
    const word = firstWordOfStatement(data, place);
    if (LABEL.test(word)) return `in '${word}'`;
    return ["$c", "$v", "$d"].includes(word) ? `in a ${word} statement` : "";
}

/**
 * The first word of the statement that has a place; empty in a comment between statements.
 * @param {Uint8Array} data
 * @param {number} place
 */
function firstWordOfStatement(data, place) {
    let first = -1; // where the first word of the statement begins, as far as the text was read
    let at = 0;
    while (at < place) {
        if (isComment(data, at) && at + 1 < place) {
            const end = closeOf(data, at + 2) + 2;
            if (end > place) return first < 0 ? "" : wordAt(data, first, at);
            at = end;
        } else if (isEnd(data, at) && at + 1 < place) {
            first = -1;
            at += 2;
        } else {
            if (first < 0 && data[at] > Byte.space) first = at;
            at++;
        }
    }
    return first < 0 ? wordAt(data, place, data.length) : wordAt(data, first, data.length);
}

/** Whether a statement ends in what begins at a place: `$.`, `${` or `$}`. */
function isEnd(/** @type {Uint8Array} */ data, /** @type {number} */ place) {
    const sign = data[place + 1];
    return data[place] === Byte.dollar && (sign === Byte.dot || sign === Byte.openBrace || sign === Byte.closeBrace);
}

/**
 * The word that begins at a place, up to white space.
 * @param {Uint8Array} data
 * @param {number} start
 * @param {number} most where it ends at the latest
 */
function wordAt(data, start, most) {
    let end = start;
    while (end < most && data[end] > Byte.space) end++;
    return textAt(data, start, end);
}
