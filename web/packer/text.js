// What a database says. The statements come of the section `statements` of the program's report, whose bytes are proved;
// comments and headings of the text, where they stand between the assertions.

import { Byte, Lists, Numbers, Words, afterComment, closeOf, isComment, isSame, textAt } from "./bytes.js";
import { floatingItem, otherItem } from "./codes.js";

/** How the lines begin that enclose the title of a part, a chapter, a section and a subsection. */
const DECORATIONS = ["####", "#*#*", "=-=-", "-.-."];
const DECORATION_LENGTH = 4;
/** How many lines a title has at most. */
const MOST_LINES = 4;
const Sign = { a: 0x61, d: 0x64, e: 0x65, f: 0x66, j: 0x6a, o: 0x6f, p: 0x70, t: 0x74, v: 0x76 };
const SECTION = "\nstatements\n";

/**
 * A heading: `first` is the number of the first assertion after it, `end` that of the first one after its chapter,
 * lower chapters included. Its comment stands from `start` to `stop`, and below its title from `below`.
 * @typedef {object} Header
 * @property {number} level from 0
 * @property {string} number such as `2.6.1`
 * @property {string} title
 * @property {number} first
 * @property {number} end
 * @property {number} start
 * @property {number} below
 * @property {number} stop
 */

/** Statements of one kind: where the label and the formula of each stand in the report. */
export class Statements {
    constructor() {
        this.labels = new Numbers();
        this.labelEnds = new Numbers();
        this.formulas = new Numbers();
        this.formulaEnds = new Numbers();
    }

    get size() {
        return this.labels.size;
    }

    /**
     * @param {number} label
     * @param {number} labelEnd
     * @param {number} formula
     * @param {number} formulaEnd
     */
    push(label, labelEnd, formula, formulaEnd) {
        this.labels.push(label);
        this.labelEnds.push(labelEnd);
        this.formulas.push(formula);
        this.formulaEnds.push(formulaEnd);
    }
}

/** A stretch for each assertion; 0 and 0 where there is none. */
class Stretches {
    constructor() {
        this.starts = new Numbers();
        this.ends = new Numbers();
    }

    /**
     * @param {number} start
     * @param {number} end
     */
    push(start, end) {
        this.starts.push(start);
        this.ends.push(end);
    }

    /**
     * @param {number} number
     * @returns {[number, number]}
     */
    of(number) {
        return [this.starts.items[number], this.ends.items[number]];
    }
}

/** What a database says: statements, comments and headings in file order, by their places. */
export class Text {
    /**
     * @param {Uint8Array} source the bytes of the database
     * @param {Uint8Array} data those of the report, in which labels, symbols and pairs stand
     */
    constructor(source, data) {
        this.source = source;
        this.data = data;
        /** The `$a` and `$p` statements, the letter of each, and where each begins and ends in the database. */
        this.assertions = new Statements();
        this.letters = new Numbers();
        this.places = new Numbers();
        this.ends = new Numbers();
        /**
         * The `$e` that are mandatory for some assertion, each once, in the order of the lines that tell them; their
         * numbers by their labels; and of each assertion its `$e`.
         */
        this.hypotheses = new Statements();
        this.hypothesesByLabel = new Words(data);
        this.essential = new Lists();
        /** The `$f` that are mandatory for some assertion, in the order of the lines; and in one that agrees with each. */
        this.toldFloating = new Statements();
        this.floating = new Statements();
        /** The mandatory hypotheses of each assertion in order, as items of `$f` of `toldFloating` and of `$e`. */
        this.frames = new Lists();
        /** All `$f` of the database, by their places there, and their numbers by their labels. */
        this.allFloating = new Statements();
        this.allFloatingByLabel = new Words(source);
        /** Of each assertion the pairs of variables that must be distinct, each behind a `$d`. */
        this.pairs = new Stretches();
        /** Of each theorem its dummy variables, and the pairs of which one is a dummy. */
        this.dummies = new Stretches();
        this.dummyPairs = new Stretches();
        /** Where the section ends in the report. */
        this.sectionEnd = 0;
        /** The comment before each assertion, in the database; 0 and 0 where there is none. */
        this.comments = new Numbers();
        this.commentEnds = new Numbers();
        /** How many headings stand before each assertion. */
        this.headersBefore = new Numbers();
        /** @type {Header[]} */
        this.headers = [];
        /** @type {string | null} */
        this.typesetting = null;
    }

    /** How many assertions there are. */
    get size() {
        return this.assertions.size;
    }

    /**
     * Whether an assertion is a `$p`.
     * @param {number} number
     */
    isProved(number) {
        return this.letters.items[number] !== Sign.a;
    }

    /**
     * Whether it is a theorem that is left open, and counts as an axiom.
     * @param {number} number
     */
    isOpen(number) {
        return this.letters.items[number] === Sign.o;
    }

    /** @param {number} number */
    label(number) {
        return textAt(this.data, this.assertions.labels.items[number], this.assertions.labelEnds.items[number]);
    }

    /** The assertions by their labels. */
    get byLabel() {
        if (!this.knownLabels) {
            this.knownLabels = new Words(this.data);
            const { labels, labelEnds } = this.assertions;
            for (let number = 0; number < this.size; number++) {
                this.knownLabels.add(labels.items[number], labelEnds.items[number]);
            }
        }
        return this.knownLabels;
    }
}

/** The report isn't one of the database; reading ended at `place` of it. */
export class UnreadableText extends Error {
    /** @param {number} place */
    constructor(place) {
        super(`the statements can't be read from byte ${place} of the report`);
        this.place = place;
    }
}

/**
 * An order of numbers from 0 that agrees with the orders of parts of them. What a part has anew stands before what comes
 * next in it, or last.
 */
class Order {
    constructor() {
        /** Of each number those before and after it; behind them all stands -1. */
        this.before = new Map([[-1, -1]]);
        this.after = new Map([[-1, -1]]);
        /** @type {number[]} */
        this.waiting = [];
    }

    /**
     * Adds the next number of a part.
     * @param {number} number
     */
    add(number) {
        if (this.after.has(number)) this.settle(number);
        else this.waiting.push(number);
    }

    /** Ends a part. */
    end() {
        this.settle(-1);
    }

    /**
     * Puts those that wait before a number.
     * @param {number} number
     */
    settle(number) {
        for (const each of this.waiting) {
            const before = this.before.get(number) ?? -1;
            this.after.set(before, each);
            this.before.set(each, before);
            this.after.set(each, number);
            this.before.set(number, each);
        }
        this.waiting.length = 0;
    }

    /** All numbers in order. */
    *[Symbol.iterator]() {
        for (let at = this.after.get(-1) ?? -1; at >= 0; at = this.after.get(at) ?? -1) yield at;
    }
}

/** The order of the parts of a line. */
const Part = { hypotheses: 0, pairs: 1, dummies: 2, dummyPairs: 3 };
const PART_COUNT = 4;

/** Reads the lines of the section. */
class Section {
    /** @param {Text} text */
    constructor(text) {
        this.text = text;
        this.bytes = text.data;
        this.place = sectionIn(text.data);
        this.toldFloatingByLabel = new Words(text.data);
        this.order = new Order();
        /** Where each part of a line but the hypotheses begins and ends; 0 and 0 where there is none. */
        this.starts = new Uint32Array(PART_COUNT);
        this.ends = new Uint32Array(PART_COUNT);
    }

    /** Reads all lines, up to the one that ends the report. */
    read() {
        const { bytes, text } = this;
        for (;;) {
            const end = bytes.indexOf(Byte.newline, this.place);
            if (end < 0) throw new UnreadableText(this.place);
            const colon = bytes.indexOf(Byte.colon, this.place);
            if (colon < 0 || colon >= end) break;
            this.readLine(colon, end);
            this.place = end + 1;
        }
        text.sectionEnd = this.place;
        text.floating = inOrder(text.toldFloating, this.order);
    }

    /**
     * Reads a line, whose label ends at a place.
     * @param {number} labelEnd
     * @param {number} end
     */
    readLine(labelEnd, end) {
        const { text, bytes, place: label } = this;
        const letter = bytes[labelEnd + 1];
        if (letter !== Sign.a && letter !== Sign.p && letter !== Sign.o) throw new UnreadableText(labelEnd);
        this.place = labelEnd + 2;
        const start = this.number();
        const stop = this.number();
        this.passColon();
        const before = text.size === 0 ? 0 : text.ends.items[text.size - 1];
        const isInside = before <= start && start < stop && stop <= text.source.length;
        if (!isInside || !this.isLabel(label, labelEnd, start)) throw new UnreadableText(label);
        text.letters.push(letter);
        text.places.push(start);
        text.ends.push(stop);
        const formula = this.readParts(end, letter === Sign.a ? Sign.a : Sign.p);
        text.assertions.push(label, labelEnd, formula, end);
    }

    /**
     * Whether the word that begins at a place of the database is this label.
     * @param {number} label
     * @param {number} labelEnd
     * @param {number} start
     */
    isLabel(label, labelEnd, start) {
        const { source } = this.text;
        const end = start + labelEnd - label;
        const isWord = source[end] <= Byte.space || source[end] === Byte.dollar;
        return isWord && isSame(this.bytes, label, labelEnd, source, start, end);
    }

    /** Reads a colon. */
    passColon() {
        if (this.bytes[this.place++] !== Byte.colon) throw new UnreadableText(this.place - 1);
    }

    /** Reads a colon and a number. */
    number() {
        this.passColon();
        const first = this.place;
        let number = 0;
        for (; this.bytes[this.place] >= Byte.zero && this.bytes[this.place] < Byte.zero + 10; this.place++) {
            number = 10 * number + this.bytes[this.place] - Byte.zero;
        }
        if (this.place === first) throw new UnreadableText(first);
        return number;
    }

    /**
     * Reads what stands behind the places of a line. Returns where the formula begins.
     * @param {number} end of the line
     * @param {number} last the letter of the keyword before the formula
     */
    readParts(end, last) {
        const { text, bytes } = this;
        let stage = Part.hypotheses;
        const { starts, ends } = this;
        starts.fill(0);
        ends.fill(0);
        for (;;) {
            const keyword = this.place + 1;
            const isKeyword = bytes[this.place] === Byte.space && bytes[keyword] === Byte.dollar;
            if (!isKeyword || bytes[keyword + 2] !== Byte.space || keyword + 3 >= end) throw new UnreadableText(keyword);
            const letter = bytes[keyword + 1];
            const first = keyword + 3;
            const next = this.afterPart(first, end);
            const part = letter === last ? -1 : partOf(letter, stage);
            if ((part < stage || next === end) !== (letter === last && next === end)) throw new UnreadableText(keyword);
            if (letter === last) {
                text.essential.end();
                text.frames.end();
                this.order.end();
                text.pairs.push(starts[Part.pairs], ends[Part.pairs]);
                text.dummies.push(starts[Part.dummies], ends[Part.dummies]);
                text.dummyPairs.push(starts[Part.dummyPairs], ends[Part.dummyPairs]);
                return first;
            }
            stage = part;
            if (part === Part.hypotheses) this.addHypothesis(letter, first, next);
            else {
                if (part === Part.dummies) starts[part] = first;
                else if (ends[part] === 0) starts[part] = keyword;
                ends[part] = next;
            }
            this.place = next;
        }
    }

    /**
     * Where the part that begins at a place ends: before the next keyword, or with the line.
     * @param {number} place
     * @param {number} end
     */
    afterPart(place, end) {
        while (place < end && this.bytes[place] !== Byte.dollar) place++;
        return place === end ? end : place - 1;
    }

    /**
     * Adds a hypothesis: its label, and behind it its symbols.
     * @param {number} letter
     * @param {number} first
     * @param {number} end
     */
    addHypothesis(letter, first, end) {
        const { text, bytes } = this;
        let labelEnd = first;
        while (labelEnd < end && bytes[labelEnd] !== Byte.space) labelEnd++;
        if (labelEnd === end) throw new UnreadableText(first);
        const isEssential = letter === Sign.e;
        const statements = isEssential ? text.hypotheses : text.toldFloating;
        const number = (isEssential ? text.hypothesesByLabel : this.toldFloatingByLabel).add(first, labelEnd);
        if (number === statements.size) statements.push(first, labelEnd, labelEnd + 1, end);
        text.frames.push(isEssential ? otherItem(number) : floatingItem(number));
        if (isEssential) text.essential.push(number);
        else this.order.add(number);
    }
}

/**
 * Statements in an order.
 * @param {Statements} statements
 * @param {Iterable<number>} order
 */
function inOrder({ labels, labelEnds, formulas, formulaEnds }, order) {
    const found = new Statements();
    for (const at of order) {
        found.push(labels.items[at], labelEnds.items[at], formulas.items[at], formulaEnds.items[at]);
    }
    return found;
}

/**
 * Which part of a line a keyword begins, where parts up to a stage were read; -1 for no part.
 * @param {number} letter
 * @param {number} stage
 */
function partOf(letter, stage) {
    if (letter === Sign.f || letter === Sign.e) return Part.hypotheses;
    if (letter === Sign.v) return stage < Part.dummies ? Part.dummies : -1;
    if (letter !== Sign.d) return -1;
    return stage < Part.dummies ? Part.pairs : Part.dummyPairs;
}

/**
 * Where the lines of the section begin.
 * @param {Uint8Array} report
 */
function sectionIn(report) {
    // From the end, since what stands before the section is longer.
    for (let place = report.length; place > 0; ) {
        place = report.lastIndexOf(Byte.newline, place - 1);
        if (report[place + SECTION.length - 1] !== Byte.newline) continue;
        if (textAt(report, place, place + SECTION.length) === SECTION) return place + SECTION.length;
    }
    throw new UnreadableText(report.length);
}

/** Reads what stands between the assertions: comments and headings. */
class Gaps {
    /** @param {Text} text */
    constructor(text) {
        this.text = text;
        this.data = text.source;
        /** The comment that was read last, if nothing came after it. */
        this.comment = 0;
        this.commentEnd = 0;
        this.counters = [0, 0, 0, 0];
        /** How many assertions stand before. */
        this.passed = 0;
    }

    /** Reads all of them. */
    read() {
        const { text } = this;
        let place = 0;
        for (; this.passed < text.size; this.passed++) {
            this.readGap(place, text.places.items[this.passed]);
            text.comments.push(this.comment);
            text.commentEnds.push(this.commentEnd);
            text.headersBefore.push(text.headers.length);
            this.comment = this.commentEnd = 0;
            place = text.ends.items[this.passed];
        }
        this.readGap(place, this.data.length);
        closeChapters(text);
    }

    /**
     * Reads a gap. A comment within a statement isn't about what comes after it.
     * @param {number} place
     * @param {number} end
     */
    readGap(place, end) {
        const { data } = this;
        let isWithin = false;
        let word = place;
        while (place < end) {
            if (data[place] <= Byte.space) {
                place++;
            } else if (isComment(data, place)) {
                const close = closeOf(data, place + 2);
                if (!isWithin) this.addComment(place + 2, close);
                place = close + 2;
            } else {
                const sign = data[place] === Byte.dollar ? data[place + 1] : 0;
                isWithin = sign !== Byte.dot && sign !== Byte.openBrace && sign !== Byte.closeBrace;
                this.comment = this.commentEnd = 0;
                if (sign === Sign.f) this.addFloating(word, place + 2, end);
                word = place;
                if (sign > 0) place += 2;
                else while (place < end && data[place] > Byte.space) place++;
            }
        }
    }

    /**
     * Adds a `$f`, whose label begins at a place.
     * @param {number} label
     * @param {number} formula where what is behind the keyword begins
     * @param {number} end
     */
    addFloating(label, formula, end) {
        const { data, text } = this;
        let labelEnd = label;
        while (data[labelEnd] > Byte.space) labelEnd++;
        let close = data.indexOf(Byte.dollar, formula);
        while (close >= 0 && close < end && data[close + 1] === Byte.open) {
            close = data.indexOf(Byte.dollar, afterComment(data, close));
        }
        const number = text.allFloatingByLabel.add(label, labelEnd);
        if (number === text.allFloating.size) text.allFloating.push(label, labelEnd, formula, close);
    }

    /**
     * Adds a comment, what stands between `$(` and `$)`.
     * @param {number} start
     * @param {number} end
     */
    addComment(start, end) {
        const { data, text } = this;
        let place = start;
        while (place < end && data[place] <= Byte.space) place++;
        if (place < end && data[place] === Byte.dollar) {
            const sign = data[place + 1];
            const isSpecial = (sign === Sign.j || sign === Sign.t) && data[place + 2] <= Byte.space;
            if (isSpecial && sign === Sign.t) text.typesetting ??= textAt(data, place + 2, end);
            if (isSpecial) return;
        }
        const level = levelAt(data, place, end);
        const heading = level < 0 ? null : headingAt(data, place, end, level);
        if (heading) this.addHeader({ level, start, stop: end, ...heading });
        else {
            this.comment = start;
            this.commentEnd = end;
        }
    }

    /** @param {{ level: number, title: string, start: number, below: number, stop: number }} heading */
    addHeader(heading) {
        const { text, counters } = this;
        const { level } = heading;
        this.comment = this.commentEnd = 0;
        counters[level]++;
        counters.fill(0, level + 1);
        const number = counters.slice(0, level + 1).join(".");
        text.headers.push({ ...heading, number, first: this.passed, end: this.passed });
    }
}

/**
 * The level of the line that encloses a title and begins at a place, or -1.
 * @param {Uint8Array} data
 * @param {number} place
 * @param {number} end
 */
function levelAt(data, place, end) {
    if (end - place < DECORATION_LENGTH || !isDecoration(data[place])) return -1;
    return DECORATIONS.indexOf(textAt(data, place, place + DECORATION_LENGTH));
}

/**
 * Whether a byte is one of `#*=.-`.
 * @param {number} byte
 */
function isDecoration(byte) {
    return byte === Byte.hash || byte === Byte.star || byte === Byte.equals || byte === Byte.dot || byte === Byte.dash;
}

/**
 * The place after the rest of a line that encloses a title; -1 if something else stands there.
 * @param {Uint8Array} data
 * @param {number} place
 * @param {number} end
 */
function afterDecoration(data, place, end) {
    while (place < end && isDecoration(data[place])) place++;
    while (place < end && isBlank(data[place])) place++;
    if (place === end) return end;
    return data[place] === Byte.newline ? place + 1 : -1;
}

/**
 * Whether a byte is a space, a tab or a carriage return.
 * @param {number} byte
 */
function isBlank(byte) {
    return byte === Byte.space || byte === Byte.tab || byte === Byte.carriageReturn;
}

/**
 * The heading whose first line begins at a place: its title, and where the text below it begins. Null if it is none.
 * @param {Uint8Array} data
 * @param {number} place
 * @param {number} end
 * @param {number} level
 */
function headingAt(data, place, end, level) {
    const first = afterDecoration(data, place, end);
    let line = first;
    for (let lines = 1; lines <= MOST_LINES && line >= 0; lines++) {
        const newline = data.indexOf(Byte.newline, line);
        if (newline < 0 || newline >= end) return null;
        line = newline + 1;
        let closing = line;
        while (closing < end && (data[closing] === Byte.space || data[closing] === Byte.tab)) closing++;
        const below = levelAt(data, closing, end) === level ? afterDecoration(data, closing, end) : -1;
        if (below < 0) continue;
        const title = textAt(data, first, line).trim().split(/\s+/).join(" ");
        return { title, below };
    }
    return null;
}

/**
 * Says of each header where its chapter ends.
 * @param {Text} text
 */
function closeChapters(text) {
    const ends = new Array(4).fill(text.size);
    for (const header of text.headers.slice().reverse()) {
        header.end = ends[header.level];
        ends.fill(header.first, header.level);
    }
}

/**
 * What a database says, by its bytes and by the program's report of it, which has the section `statements`.
 * UnreadableText where the report isn't one of the database.
 * @param {Uint8Array} source
 * @param {Uint8Array} report
 * @returns {Text}
 */
export function readText(source, report) {
    const text = new Text(source, report);
    new Section(text).read();
    new Gaps(text).read();
    return text;
}
