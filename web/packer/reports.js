// Reads the report that the program's core writes, with the matrix in form 2 and the citations, beside the text it is
// of. Its bytes are proved, so marks and citations aren't compared with one another. Still a line that hasn't its form,
// or whose label isn't that of the text, is never taken for an answer.

import { Kind } from "./assertions.js";
import { columnsIn, lowestOf } from "./bits.js";
import { Byte, Cutter, Numbers, isSame, textAt } from "./bytes.js";

/** @typedef {import("./text.js").Text} Text */

/** Of which report a page is packed: all typecodes, since chains may lead over other assertions than those of one. */
export const PACKED_REPORT = /** @type {const} */ ({ only: null, report: "matrix,citations,statements", form: 2 });

/** A report that isn't as it has to be. */
export class OddReport extends Error {}

/** @param {number} byte */
function isDigit(byte) {
    return byte >= Byte.zero && byte < Byte.zero + 10;
}

/** Reads the lines of a report. */
class Lines {
    /** @param {Uint8Array} bytes */
    constructor(bytes) {
        this.bytes = bytes;
        this.place = 0;
    }

    /** Where the next line ends. */
    get end() {
        const end = this.bytes.indexOf(Byte.newline, this.place);
        if (end < 0) throw new OddReport("a report is cut off");
        return end;
    }

    /** The next line, as a text. */
    next() {
        const { end } = this;
        const line = textAt(this.bytes, this.place, end);
        this.place = end + 1;
        return line;
    }

    /**
     * Reads a line that has to be this one.
     * @param {string} wanted
     */
    pass(wanted) {
        const line = this.next();
        if (line !== wanted) throw new OddReport(`a report has '${line.slice(0, 80)}' where '${wanted}' has to stand`);
    }

    /** Reads the end of a line. */
    passEnd() {
        if (this.bytes[this.place++] !== Byte.newline) throw new OddReport("a line of a report is too long");
    }

    /** Reads a number and the colon after it. */
    number() {
        let number = 0;
        const first = this.place;
        for (; isDigit(this.bytes[this.place]); this.place++) number = 10 * number + this.bytes[this.place] - Byte.zero;
        if (this.place === first || this.bytes[this.place++] !== Byte.colon) throw new OddReport("a line lacks a number");
        return number;
    }

    /** Reads a label and the colon after it. Returns where it ends. */
    label() {
        let end = this.place;
        while (end < this.bytes.length && this.bytes[end] > Byte.space && this.bytes[end] !== Byte.colon) end++;
        if (this.bytes[end] !== Byte.colon) throw new OddReport("a line of a report has no label");
        return end;
    }
}

/**
 * What is asked for of a page: which axioms it has, and what cites. The program is asked besides for sections in a form.
 * @typedef {object} PageRequest
 * @property {string | null} only the typecode of the axioms, or null for all
 * @property {boolean} essential
 * @property {boolean} open
 */

/** On which axioms each theorem rests, and what it cites. Assertions are numbers, in file order. */
export class Dependence {
    /** @param {Text} text */
    constructor(text) {
        this.text = text;
        /** The assertions of rows and of columns. */
        this.theorems = new Uint32Array(0);
        this.axioms = new Uint32Array(0);
        /** Of each assertion its row and its column, or -1. */
        this.rowOf = new Int32Array(text.size).fill(-1);
        this.columnOf = new Int32Array(text.size).fill(-1);
        /** The rows, `rowWords` numbers of 32 bits each; column c is bit c % 32 of number c / 32. */
        this.rowWords = 0;
        this.bits = new Uint32Array(0);
        /** The assertions that row r cites, in file order, are `cited` from `starts[r]` to `starts[r + 1]`. */
        this.starts = new Uint32Array(1);
        this.cited = new Uint32Array(0);
    }

    /** @param {number} row */
    citedBy(row) {
        return this.cited.subarray(this.starts[row], this.starts[row + 1]);
    }

    /** @param {number} row */
    row(row) {
        return this.bits.subarray(row * this.rowWords, (row + 1) * this.rowWords);
    }

    /** What each assertion is, for the block `kinds`. */
    kinds() {
        const kinds = new Uint8Array(this.text.size);
        for (let number = 0; number < kinds.length; number++) {
            const isProved = this.text.isProved(number);
            if (this.rowOf[number] >= 0) kinds[number] = Kind.theorem;
            else if (this.columnOf[number] >= 0) kinds[number] = isProved ? Kind.openColumn : Kind.column;
            else kinds[number] = isProved ? Kind.otherOpen : Kind.otherAxiom;
        }
        return kinds;
    }

    /** How many theorems rest on each axiom. */
    users() {
        const users = new Uint32Array(this.axioms.length);
        for (let start = 0; start < this.bits.length; start += this.rowWords) {
            for (let word = 0; word < this.rowWords; word++) {
                const first = 32 * word;
                for (let bits = this.bits[start + word]; bits !== 0; bits &= bits - 1) users[first + lowestOf(bits)]++;
            }
        }
        return users;
    }
}

/** Reads the report of a text. */
class Reader {
    /**
     * @param {Text} text
     * @param {PageRequest} request
     */
    constructor(text, request) {
        this.text = text;
        this.request = request;
        this.cutter = new Cutter();
        this.found = new Dependence(text);
        this.putIntoRowsAndColumns();
    }

    /** Axioms, and open theorems where these count as axioms, are columns. */
    putIntoRowsAndColumns() {
        const { text, found } = this;
        const theorems = new Numbers();
        const axioms = new Numbers();
        for (let number = 0; number < text.size; number++) {
            if (text.isProved(number) && !text.isOpen(number)) {
                found.rowOf[number] = theorems.size;
                theorems.push(number);
            } else {
                found.columnOf[number] = axioms.size;
                axioms.push(number);
            }
        }
        found.theorems = theorems.taken();
        found.axioms = axioms.taken();
    }

    /**
     * The first symbol of an assertion.
     * @param {number} number
     */
    typecode(number) {
        const { data, assertions } = this.text;
        this.cutter.cut(data, assertions.formulas.items[number], assertions.formulaEnds.items[number]);
        return textAt(data, this.cutter.starts[0], this.cutter.ends[0]);
    }

    /**
     * Reads the label of a row, which has to be that of the theorem.
     * @param {Lines} lines
     * @param {number} row
     */
    passLabel(lines, row) {
        const end = lines.label();
        const { labels, labelEnds } = this.text.assertions;
        const number = this.found.theorems[row];
        if (!isSame(lines.bytes, lines.place, end, this.text.data, labels.items[number], labelEnds.items[number])) {
            throw new OddReport(`a report has no line of '${this.text.label(number)}' where it belongs`);
        }
        lines.place = end + 1;
    }

    /**
     * Reads the head of a report, whose numbers have to be those of the text.
     * @param {Lines} lines
     */
    passHead(lines) {
        const { text, found, request } = this;
        lines.pass("mmdepend 2");
        lines.pass(`axioms ${found.axioms.length}`);
        if (request.open) lines.pass(`open ${found.axioms.filter((axiom) => text.isProved(axiom)).length}`);
        lines.pass(`theorems ${found.theorems.length}`);
    }

    /**
     * Reads the matrix.
     * @param {Lines} lines
     */
    readMatrix(lines) {
        const { found } = this;
        lines.pass("matrix");
        const axioms = found.axioms.length;
        const theorems = found.theorems.length;
        found.rowWords = Math.ceil(axioms / 32);
        found.bits = new Uint32Array(theorems * found.rowWords);
        const digits = Math.ceil(axioms / 4);
        const view = new DataView(lines.bytes.buffer, lines.bytes.byteOffset, lines.bytes.length);
        for (let row = 0; row < theorems; row++) {
            this.passLabel(lines, row);
            if (lines.place + digits >= view.byteLength) throw new OddReport("a report is cut off");
            readDigits(view, lines.place, digits, found.bits, row * found.rowWords);
            lines.place += digits;
            lines.passEnd();
        }
    }

    /**
     * Passes the matrix: each row has label, colon, digits and a line feed.
     * @param {Lines} lines
     */
    passMatrix(lines) {
        const { labels, labelEnds } = this.text.assertions;
        const { theorems, axioms } = this.found;
        lines.pass("matrix");
        const digits = Math.ceil(axioms.length / 4);
        for (let row = 0; row < theorems.length; row++) {
            lines.place += labelEnds.items[theorems[row]] - labels.items[theorems[row]] + digits + 2;
        }
    }

    /**
     * Reads the citations.
     * @param {Lines} lines
     */
    readCitations(lines) {
        const { found, text } = this;
        const report = lines.bytes;
        lines.pass("citations");
        const theorems = found.theorems.length;
        const starts = new Numbers();
        const cited = new Numbers();
        const labels = text.byLabel;
        for (let row = 0; row < theorems; row++) {
            starts.push(cited.size);
            this.passLabel(lines, row);
            const count = lines.number();
            let { place } = lines;
            let before = -1;
            while (report[place] !== Byte.newline) {
                const first = place;
                while (report[place] > Byte.space) place++;
                const number = labels.find(report, first, place);
                if (number <= before || number >= found.theorems[row]) {
                    throw new OddReport("a report names what isn't before a theorem, or isn't in order");
                }
                cited.push(number);
                before = number;
                if (report[place] === Byte.space) place++;
            }
            if (cited.size - starts.items[row] !== count) throw new OddReport("a report counts citations otherwise");
            lines.place = place + 1;
        }
        starts.push(cited.size);
        found.starts = starts.taken();
        found.cited = cited.taken();
    }
}

/**
 * The same with fewer columns.
 * @param {Dependence} found
 * @param {(axiom: number) => boolean} isKept
 */
function withColumns(found, isKept) {
    const axioms = found.axioms.filter(isKept);
    const made = Object.assign(new Dependence(found.text), found, { axioms, rowWords: Math.ceil(axioms.length / 32) });
    made.columnOf = new Int32Array(found.text.size).fill(-1);
    axioms.forEach((axiom, column) => (made.columnOf[axiom] = column));
    made.bits = new Uint32Array(found.theorems.length * made.rowWords);
    const there = Array.from(found.axioms, (axiom) => made.columnOf[axiom]);
    for (let row = 0; row < found.theorems.length; row++) {
        for (const column of columnsIn(found.row(row))) {
            const kept = there[column];
            if (kept >= 0) made.bits[row * made.rowWords + (kept >>> 5)] |= 1 << (kept & 31);
        }
    }
    return made;
}

/** Of each byte the four bits of its digit, the first column the lowest; 16 where it's none. */
const DIGITS = new Uint8Array(256).fill(16);
for (let digit = 0; digit < 16; digit++) {
    DIGITS[digit.toString(16).charCodeAt(0)] =
        ((digit & 8) >> 3) | ((digit & 4) >> 1) | ((digit & 2) << 1) | ((digit & 1) << 3);
}

/** Four digits of which none has a bit: most of a matrix is that. */
const NONE = 0x30303030;

/**
 * Puts the digits of a row into its bits, which are 0.
 * @param {DataView} report
 * @param {number} place
 * @param {number} digits
 * @param {Uint32Array} bits
 * @param {number} start
 */
function readDigits(report, place, digits, bits, start) {
    let all = 0;
    for (let word = 0; 8 * word < digits; word++) {
        const first = place + 8 * word;
        const end = Math.min(first + 8, place + digits);
        if (end === first + 8 && report.getInt32(first) === NONE && report.getInt32(first + 4) === NONE) continue;
        let marks = 0;
        for (let at = first; at < end; at++) {
            const four = DIGITS[report.getUint8(at)];
            all |= four;
            marks |= four << (4 * (at - first));
        }
        bits[start + word] = marks;
    }
    if (all > 15) throw new OddReport("a row of a report has a sign that is no digit");
}

/**
 * What each theorem of a text cites. The marks are left out.
 * @param {Text} text
 * @param {PageRequest} request
 * @param {Uint8Array} report
 * @returns {Dependence}
 */
export function readCitations(text, request, report) {
    const reader = new Reader(text, request);
    const lines = new Lines(report);
    reader.passHead(lines);
    reader.passMatrix(lines);
    reader.readCitations(lines);
    return reader.found;
}

/**
 * On which axioms each theorem of a text rests, and what it cites, by the matrix in form 2 and by the citations, both
 * of all typecodes. Of the columns those of the typecode that is wanted are kept.
 * @param {Text} text
 * @param {PageRequest} request
 * @param {Uint8Array} report
 * @returns {Dependence}
 */
export function readReport(text, request, report) {
    const reader = new Reader(text, request);
    const lines = new Lines(report);
    reader.passHead(lines);
    reader.readMatrix(lines);
    reader.readCitations(lines);
    lines.pass("statements");
    lines.place = text.sectionEnd;
    lines.pass("end");
    const { only } = request;
    return only === null ? reader.found : withColumns(reader.found, (axiom) => reader.typecode(axiom) === only);
}
