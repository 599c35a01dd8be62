// Packs the steps of proofs, so that a page has them in few bytes. codes.js says how.

import { Byte, Cutter, Numbers, Words, Writer, afterComment, closeOf, wordFrom } from "./bytes.js";
import {
    PROOFS_IN_BLOCK,
    Code,
    FREQUENT,
    KINDS,
    Recent,
    codeOf,
    floatingItem,
    hasNumber,
    isFloating,
    isMarked,
    kindOf,
    numberOf,
    otherItem,
} from "./codes.js";
import { UnreadableText } from "./text.js";

/** @typedef {import("./reports.js").Dependence} Dependence */
/** @typedef {import("./text.js").Text} Text */
/** @typedef {import("./blocks.js").BlockSink} BlockSink */

const Letter = { A: 0x41, T: 0x54, U: 0x55, Y: 0x59, Z: 0x5a };
/** How many letters can be the last of a number, and how many can stand before it. */
const LASTS = Letter.T - Letter.A + 1;
const FIRSTS = Letter.Y - Letter.U + 1;

// While a proof is packed, a step is one number: its byte, and below that, in as many bits as there are for `KINDS`, the
// kind of its typecode.
const KIND_BITS = 2;
const KIND_MASK = KINDS - 1;
const MARKED = 1 << KIND_BITS;

/**
 * A step that isn't marked.
 * @param {number} kind
 * @param {number} code
 */
function stepOf(kind, code) {
    return (code << (KIND_BITS + 1)) | kind;
}

/**
 * The byte of a step.
 * @param {number} step
 */
function byteOf(step) {
    return step >>> KIND_BITS;
}

/** Which kind each typecode is of. */
class Kinds {
    /** @param {Text} text */
    constructor(text) {
        this.cutter = new Cutter();
        const { source, allFloating } = text;
        this.codes = new Words(source);
        this.floating = new Uint8Array(allFloating.size);
        for (let number = 0; number < allFloating.size; number++) {
            this.cutter.cut(source, allFloating.formulas.items[number], allFloating.formulaEnds.items[number]);
            const code = this.codes.add(this.cutter.starts[0], this.cutter.ends[0]);
            this.floating[number] = kindOf(code);
        }
        this.assertions = this.ofStatements(text.data, text.assertions);
        this.hypotheses = this.ofStatements(text.data, text.hypotheses);
    }

    /**
     * The kind of each statement, by the first symbol.
     * @param {Uint8Array} data
     * @param {import("./text.js").Statements} statements
     */
    ofStatements(data, { size, formulas }) {
        const kinds = new Uint8Array(size);
        for (let number = 0; number < size; number++) {
            const start = formulas.items[number];
            let end = start;
            while (data[end] > Byte.space) end++;
            kinds[number] = kindOf(this.codes.find(data, start, end));
        }
        return kinds;
    }
}

/** The mandatory hypotheses of assertions, in which `$f` have the numbers of those of the database. */
class Frames {
    /** @param {Text} text */
    constructor({ data, toldFloating, allFloatingByLabel, frames }) {
        this.frames = frames;
        const numbers = new Uint32Array(toldFloating.size);
        for (let at = 0; at < toldFloating.size; at++) {
            const number = allFloatingByLabel.find(data, toldFloating.labels.items[at], toldFloating.labelEnds.items[at]);
            if (number < 0) throw new UnreadableText(toldFloating.labels.items[at]);
            numbers[at] = number;
        }
        /** The items of one assertion after the other. */
        this.items = frames.row
            .taken()
            .map((item) => (isFloating(item) ? floatingItem(numbers[numberOf(item)]) : item));
    }

    /** How many assertions there are. */
    get size() {
        return this.frames.size;
    }

    /**
     * The items of an assertion.
     * @param {number} number
     */
    of(number) {
        const { starts } = this.frames;
        return this.items.subarray(starts.items[number], starts.items[number + 1]);
    }
}

/** The labels that are often used, as items, each with its code. */
class Frequent {
    /**
     * @param {Dependence} dependence
     * @param {Frames} frames
     * @param {Kinds} kinds
     */
    constructor({ text, cited }, frames, kinds) {
        const floating = new Uint32Array(text.allFloating.size);
        const assertions = new Uint32Array(text.size);
        for (let at = 0; at < cited.length; at++) assertions[cited[at]]++;
        for (let at = 0; at < frames.items.length; at++) {
            const item = frames.items[at];
            if (isFloating(item)) floating[numberOf(item)]++;
        }
        /** Of each kind the labels, the most used first. What is of no `$f`'s typecode is mostly cited once. */
        this.labels = [1, 2, 3].map((kind) => {
            const found = [
                ...labelsOf(floating, kinds.floating, kind, floatingItem),
                ...labelsOf(assertions, kinds.assertions, kind, otherItem),
            ];
            found.sort(([one, often], [other, less]) => less - often || one - other);
            return found.slice(0, FREQUENT).map(([label]) => label);
        });
        /** Of each item its code, or 0. */
        this.codes = new Uint8Array(otherItem(Math.max(text.size, text.allFloating.size)) + 1);
        for (const labels of this.labels) labels.forEach((label, at) => (this.codes[label] = Code.frequent + at));
    }

    /** The block that has them. */
    block() {
        const writer = new Writer();
        for (const labels of this.labels) {
            writer.number(labels.length);
            for (const label of labels) writer.number(label);
        }
        return writer.taken();
    }
}

/**
 * The labels of a kind that are used, as items, each with how often.
 * @param {Uint32Array} counts
 * @param {Uint8Array} kinds
 * @param {number} kind
 * @param {(number: number) => number} itemOf
 * @returns {[number, number][]}
 */
function labelsOf(counts, kinds, kind, itemOf) {
    /** @type {[number, number][]} */
    const found = [];
    for (let number = 0; number < counts.length; number++) {
        if (counts[number] > 0 && kinds[number] === kind) found.push([itemOf(number), counts[number]]);
    }
    return found;
}

/** Stands for a `$e` among numbers of assertions; no text has as many. */
const NO_ASSERTION = 0xffffffff;

/** Packs the proofs of a database, block by block. */
export class ProofPacker {
    /** @param {Dependence} dependence */
    constructor(dependence) {
        this.dependence = dependence;
        this.text = dependence.text;
        this.kinds = new Kinds(this.text);
        this.frames = new Frames(this.text);
        this.frequent = new Frequent(dependence, this.frames, this.kinds);
        this.streams = Array.from({ length: KINDS + Code.recent }, () => new Writer());
        /**
         * What has a number of its own in a proof: first its `$e`, as `NO_ASSERTION`, and then assertions. Of each `$e`
         * and assertion its number, where it has one.
         */
        this.own = new Numbers();
        this.places = new Uint32Array(this.text.size);
        this.hypothesisPlaces = new Uint32Array(this.text.hypotheses.size);
        /** The steps for which the numbers of a compressed proof stand, and what each has beside its code. */
        this.labels = new Numbers();
        this.labelNumbers = new Numbers();
        /** The steps of a proof; and the numbers of those that have one. */
        this.steps = new Numbers();
        this.numbers = new Numbers();
        /** For each number of a repeated step the marked one, and of each marked one its kind. */
        this.marked = new Numbers();
        this.markedKinds = new Numbers();
        this.recent = Array.from({ length: KINDS }, () => new Recent());
    }

    /**
     * Packs what is needed to read proofs.
     * @param {BlockSink} blocks
     */
    packFrames(blocks) {
        blocks.set("proof-floating", packFloating(this.text));
        blocks.set("proof-frames", packFrames(this.text, this.frames));
        blocks.set("proof-labels", this.frequent.block());
    }

    /**
     * The first block of which all proofs stand behind a part of the text.
     * @param {number} part from 0 to 1
     */
    blockBehind(part) {
        const { theorems } = this.dependence;
        const { places } = this.text;
        const place = part * this.text.source.length;
        let block = 0;
        while (block * PROOFS_IN_BLOCK < theorems.length && places.items[theorems[block * PROOFS_IN_BLOCK]] < place) block++;
        return block;
    }

    /**
     * Packs the steps of proofs, from one block on to before another one.
     * @param {number} first
     * @param {number} end
     * @param {BlockSink} blocks
     */
    packSteps(first, end, blocks) {
        const { length } = this.dependence.theorems;
        for (let block = first; block < end && block * PROOFS_IN_BLOCK < length; block++) {
            for (let row = block * PROOFS_IN_BLOCK; row < Math.min(length, (block + 1) * PROOFS_IN_BLOCK); row++) this.pack(row);
            blocks.set(`proof-steps-${block}`, this.taken());
        }
    }

    /**
     * Packs the proof of a theorem.
     * @param {number} row
     */
    pack(row) {
        const { text, dependence } = this;
        const number = dependence.theorems[row];
        for (const each of [this.labels, this.labelNumbers, this.own]) each.size = 0;
        for (const each of [this.steps, this.numbers, this.marked, this.markedKinds, ...this.recent]) each.size = 0;
        this.setOwn(row, number);
        const { source } = text;
        const end = text.ends.items[number] - 2;
        const place = wordFrom(source, proofIn(source, text.places.items[number]), end);
        // Each step has a byte of the text at least.
        this.steps.reserve(end - place);
        this.marked.reserve(end - place);
        if (source[place] === Byte.open) this.packCompressed(number, place + 1, end);
        else this.packWords(place, end);
        this.putStreams();
    }

    /**
     * Finds what has a number of its own in the proof of a theorem: its `$e`, and what it cites and isn't often used.
     * @param {number} row
     * @param {number} theorem
     */
    setOwn(row, theorem) {
        const { own, places, frequent, text, dependence } = this;
        for (const hypothesis of text.essential.of(theorem)) {
            this.hypothesisPlaces[hypothesis] = own.size;
            own.push(NO_ASSERTION);
        }
        for (const cited of dependence.citedBy(row)) {
            if (frequent.codes[otherItem(cited)] > 0) continue;
            places[cited] = own.size;
            own.push(cited);
        }
    }

    /**
     * Packs a compressed proof: collects its labels, hypotheses first, and then reads its letters.
     * @param {number} theorem
     * @param {number} start behind the bracket
     * @param {number} end
     */
    packCompressed(theorem, start, end) {
        const { source } = this.text;
        for (const item of this.frames.of(theorem)) this.addHypothesis(item);
        let place = wordFrom(source, start, end);
        while (source[place] !== Byte.close) place = wordFrom(source, this.addWord(place), end);
        this.packLetters(place + 1, end);
    }

    /**
     * Packs the letters of a compressed proof: a number is a label's step, or repeats a marked one.
     * @param {number} start
     * @param {number} end
     */
    packLetters(start, end) {
        const { source } = this.text;
        const { size, items } = this.labels;
        let base = 0;
        let place = start;
        while (place < end) {
            const letter = source[place++];
            if (letter < Letter.A) {
                if (letter > Byte.space) place = afterComment(source, place - 1);
            } else if (letter <= Letter.T) {
                const number = LASTS * base + letter - Letter.A;
                if (number < size) this.put(items[number], this.labelNumbers.items[number]);
                else this.repeat(this.marked.items[number - size]);
                base = 0;
            } else if (letter <= Letter.Y) base = FIRSTS * base + letter - Letter.U + 1;
            else this.mark();
        }
    }

    /**
     * Packs a proof in words: each word's label is put as a step at once, so `labels` only hands it over.
     * @param {number} start
     * @param {number} end
     */
    packWords(start, end) {
        const { source } = this.text;
        const { labels, labelNumbers } = this;
        for (let place = start; place < end; ) {
            place = wordFrom(source, this.addWord(place), end);
            this.put(labels.items[--labels.size], labelNumbers.items[--labelNumbers.size]);
        }
    }

    /**
     * @param {number} step
     * @param {number} number
     */
    put(step, number) {
        this.steps.items[this.steps.size++] = step;
        if (hasNumber(codeOf(byteOf(step)))) this.numbers.push(number);
    }

    /** Marks the step before, which may be marked already or be a repeated one. */
    mark() {
        const last = this.steps.size - 1;
        const step = this.steps.items[last];
        const code = codeOf(byteOf(step));
        const kind = step & KIND_MASK;
        if (code === Code.far) this.marked.push(this.markedKinds.size - 1 - this.numbers.items[this.numbers.size - 1]);
        else if (code >= Code.recent && code < Code.frequent) this.marked.push(this.recent[kind].items[0]);
        else if (isMarked(byteOf(step))) this.marked.push(this.markedKinds.size - 1);
        else {
            this.steps.items[last] |= MARKED;
            this.recent[kind].use(this.markedKinds.size);
            this.marked.push(this.markedKinds.size);
            this.markedKinds.push(kind);
        }
    }

    /**
     * Puts a marked step once more.
     * @param {number} marked
     */
    repeat(marked) {
        const kind = this.markedKinds.items[marked];
        const at = this.recent[kind].use(marked);
        if (at >= 0) this.put(stepOf(kind, Code.recent + at), 0);
        else this.put(stepOf(kind, Code.far), this.markedKinds.size - 1 - marked);
    }

    /**
     * Adds a mandatory hypothesis of the theorem to the labels.
     * @param {number} item
     */
    addHypothesis(item) {
        const number = numberOf(item);
        if (isFloating(item)) this.addLabel(this.kinds.floating[number], item);
        else this.add(this.kinds.hypotheses[number], Code.own, this.hypothesisPlaces[number]);
    }

    /**
     * @param {number} kind
     * @param {number} item
     */
    addLabel(kind, item) {
        const code = this.frequent.codes[item];
        this.add(kind, code, item);
    }

    /**
     * @param {number} kind
     * @param {number} code
     * @param {number} number
     */
    add(kind, code, number) {
        this.labels.push(stepOf(kind, code));
        this.labelNumbers.push(number);
    }

    /**
     * Adds what a word of a proof names to the labels. Returns where the word ends.
     * @param {number} start
     */
    addWord(start) {
        const { text, kinds } = this;
        const { source } = text;
        let end = start;
        while (source[end] > Byte.space) end++;
        const assertion = text.byLabel.find(source, start, end);
        if (assertion >= 0) this.addAssertion(assertion);
        else {
            const floating = text.allFloatingByLabel.find(source, start, end);
            if (floating >= 0) this.addLabel(kinds.floating[floating], floatingItem(floating));
            else this.addHypothesis(otherItem(text.hypothesesByLabel.find(source, start, end)));
        }
        return end;
    }

    /** @param {number} assertion */
    addAssertion(assertion) {
        const { own, places } = this;
        const kind = this.kinds.assertions[assertion];
        const place = places[assertion];
        const isOwn = place < own.size && own.items[place] === assertion;
        if (isOwn) this.add(kind, Code.own, place);
        else this.addLabel(kind, otherItem(assertion));
    }

    /** Adds the steps of a proof to the streams, the last one first. */
    putStreams() {
        const { streams, numbers } = this;
        const { items, size } = this.steps;
        for (let kind = 0; kind < KINDS; kind++) streams[kind].reserve(size);
        for (let at = size - 1; at >= 0; at--) {
            const step = items[at];
            const byte = byteOf(step);
            const stream = streams[step & KIND_MASK];
            stream.bytes[stream.size++] = byte;
            if (hasNumber(codeOf(byte))) streams[KINDS + codeOf(byte)].number(numbers.items[--numbers.size]);
        }
    }

    /** The block of the proofs since the last one. */
    taken() {
        const writer = new Writer();
        const parts = this.streams.map((stream) => stream.taken());
        for (const part of parts) writer.number(part.length);
        for (const part of parts) writer.stretch(part, 0, part.length);
        return writer.taken();
    }
}

/**
 * Where a proof begins in a statement `$p`: behind its `$=`.
 * @param {Uint8Array} data
 * @param {number} place of the label
 */
function proofIn(data, place) {
    for (let at = data.indexOf(Byte.dollar, place); ; at = data.indexOf(Byte.dollar, at + 2)) {
        if (data[at + 1] === Byte.equals) return at + 2;
        if (data[at + 1] === Byte.open) at = closeOf(data, at + 2);
    }
}

/**
 * The `$f` as lines: label, typecode and variable.
 * @param {Text} text
 */
function packFloating({ source, allFloating }) {
    const writer = new Writer();
    for (let number = 0; number < allFloating.size; number++) {
        if (number > 0) writer.push(Byte.newline);
        writer.stretch(source, allFloating.labels.items[number], allFloating.labelEnds.items[number]);
        writer.push(Byte.space);
        writer.words(source, allFloating.formulas.items[number], allFloating.formulaEnds.items[number]);
    }
    return writer.taken();
}

/**
 * Of each assertion its mandatory `$f`: twice their number, and the gaps between them. Where one stands behind a `$e`
 * the first number is one more, and for each `$f` follows how many `$e` stand before it.
 * @param {Text} text
 * @param {Frames} frames
 */
function packFrames(text, frames) {
    const writer = new Writer();
    for (let number = 0; number < frames.size; number++) {
        const frame = frames.of(number);
        const essential = text.essential.of(number).length;
        const floating = frame.length - essential;
        const isMixed = frame.subarray(floating).some(isFloating);
        writer.number(2 * floating + (isMixed ? 1 : 0));
        let expected = 0;
        for (const item of frame) {
            if (!isFloating(item)) continue;
            writer.number(numberOf(item) - expected);
            expected = numberOf(item) + 1;
        }
        if (!isMixed) continue;
        let before = 0;
        for (const item of frame) {
            if (isFloating(item)) writer.number(before);
            else before++;
        }
    }
    return writer.taken();
}
