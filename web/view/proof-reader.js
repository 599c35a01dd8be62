// Reads the steps of proofs from the blocks of the page, as codes.js and proof-packer.js of the packer say.

import {
    PROOFS_IN_BLOCK,
    Code,
    FREQUENT,
    KINDS,
    Recent,
    codeOf,
    floatingItem,
    hasNumber,
    isFloating,
    isMarked,
    isRepeated,
    kindOf,
    numberOf,
    otherItem,
} from "../packer/codes.js";
import { Damaged, Lists, NumberReader, Texts, startsOf, textOf } from "./decode.js";
import { firstWord } from "./model.js";

/** @typedef {import("./model.js").Model} Model */
/** @typedef {import("./turns.js").Turns} Turns */

/** A proof with more steps isn't read. */
export const MOST_STEPS = 1_000_000;

/** What a step is. */
export const Step = { floating: 0, hypothesis: 1, assertion: 2, repeated: 3 };

/**
 * The steps of a proof in order: of each what it is, and the number of the `$f`, the `$e`, the assertion, or the step
 * that is repeated.
 * @typedef {{ what: Uint8Array, numbers: Uint32Array }} Steps
 */

/** A proof has more than `MOST_STEPS`. */
export class TooManySteps extends Error {}

/** The mandatory `$f` of each assertion, read as packFrames of packer/proof-packer.js writes them. */
class FloatingFrames {
    /**
     * @param {Uint8Array} block
     * @param {number} size how many assertions there are
     * @param {number} floatingCount how many `$f` there are
     */
    constructor(block, size, floatingCount) {
        const numbers = new NumberReader(block);
        const sizes = new Uint32Array(size);
        /** @type {number[]} */
        const items = [];
        /**
         * For an assertion in which a `$f` stands behind a `$e`: before each of its `$f` how many `$e`.
         * @type {Map<number, number[]>}
         */
        this.behind = new Map();
        for (let assertion = 0; assertion < size; assertion++) {
            const head = numbers.next();
            sizes[assertion] = head >>> 1;
            let expected = 0;
            for (let left = sizes[assertion]; left > 0; left--) {
                const number = expected + numbers.next();
                if (number >= floatingCount) throw new Damaged("a frame names what isn't there");
                items.push(number);
                expected = number + 1;
            }
            if (head % 2 === 1) this.behind.set(assertion, Array.from({ length: head >>> 1 }, () => numbers.next()));
        }
        this.floating = new Lists(startsOf(sizes), Uint32Array.from(items));
    }
}

/** A block of steps: its streams, and where in them the proofs begin that were passed. */
class StepBlock {
    /** @param {Uint8Array} block */
    constructor(block) {
        const numbers = new NumberReader(block);
        const sizes = Array.from({ length: KINDS + Code.recent }, () => numbers.next());
        const starts = startsOf(sizes);
        const streams = block.subarray(numbers.place);
        this.streams = sizes.map((_, at) => streams.subarray(starts[at], starts[at + 1]));
        /** @type {number[][]} */
        this.places = [this.streams.map(() => 0)];
    }
}

/** A place in each stream of a block. Whoever reads has one for himself, since he waits now and then, and others read. */
class Cursor {
    /**
     * @param {StepBlock} block
     * @param {number} proof one whose places are known
     */
    constructor({ streams, places }, proof) {
        this.streams = streams.map((stream, at) => new NumberReader(stream, places[proof][at]));
    }

    get places() {
        return this.streams.map(({ place }) => place);
    }

    /** @param {number} kind */
    byte(kind) {
        const stream = this.streams[kind];
        if (stream.place >= stream.block.length) throw new Damaged("a proof ends too early");
        return stream.block[stream.place++];
    }

    /** @param {number} code */
    number(code) {
        return hasNumber(code) ? this.streams[KINDS + code].next() : 0;
    }
}

/** The proofs of a page. */
export class Proofs {
    /** @param {Model} model */
    constructor(model) {
        this.model = model;
        /** @type {Promise<void> | undefined} */
        this.loading = undefined;
        this.floating = new Texts("", 0);
        this.frames = new FloatingFrames(new Uint8Array(0), 0, 0);
        /** The typecodes that `$f` have, each with its number. */
        this.codes = new Map();
        /**
         * Of each kind the labels that are often used, as items.
         * @type {number[][]}
         */
        this.frequent = [];
        /** @type {Set<number>} */
        this.isFrequent = new Set();
        /** @type {Map<number, Promise<StepBlock>>} */
        this.stepBlocks = new Map();
        /** @type {Map<number, number[]>} Of assertions the kinds of their hypotheses. */
        this.kinds = new Map();
    }

    /** Whether the page has proofs. */
    get areThere() {
        return this.model.blocks.has("proof-labels");
    }

    /** Reads what all proofs need. */
    load() {
        this.loading ??= this.loadAll();
        return this.loading;
    }

    async loadAll() {
        const names = ["proof-floating", "proof-frames", "proof-labels"];
        const [floating, frames, labels] = await Promise.all(names.map((name) => this.model.blocks.load(name)));
        const text = textOf(floating);
        this.floating = new Texts(text, text === "" ? 0 : text.split("\n").length);
        for (let number = 0; number < this.floating.size; number++) {
            const code = this.floatingAt(number).code;
            if (!this.codes.has(code)) this.codes.set(code, this.codes.size);
        }
        this.frames = new FloatingFrames(frames, this.model.size, this.floating.size);
        const numbers = new NumberReader(labels);
        this.frequent = Array.from({ length: KINDS }, (_, kind) => {
            const length = kind === 0 ? 0 : numbers.next();
            if (length > FREQUENT) throw new Damaged("more labels are often used than there can be");
            return Array.from({ length }, () => numbers.next());
        });
        this.isFrequent = new Set(this.frequent.flat());
    }

    /**
     * What a `$f` says.
     * @param {number} number
     */
    floatingAt(number) {
        const [label, code, variable] = this.floating.at(number).split(" ");
        if (variable === undefined) throw new Damaged("a `$f` has no variable");
        return { label, code, variable };
    }

    /**
     * What a `$f` says, as a formula.
     * @param {number} number
     */
    floatingFormula(number) {
        const { code, variable } = this.floatingAt(number);
        return `${code} ${variable}`;
    }

    /**
     * The mandatory hypotheses of an assertion in order, as items.
     * @param {number} assertion
     */
    frameOf(assertion) {
        const floating = Array.from(this.frames.floating.of(assertion), floatingItem);
        const essential = Array.from(this.model.hypotheses.of(assertion), otherItem);
        const behind = this.frames.behind.get(assertion);
        if (!behind) return [...floating, ...essential];
        /** @type {number[]} */
        const frame = [];
        let taken = 0;
        floating.forEach((item, at) => {
            while (taken < Math.min(behind[at], essential.length)) frame.push(essential[taken++]);
            frame.push(item);
        });
        return [...frame, ...essential.slice(taken)];
    }

    /**
     * The kind of a formula, by its typecode.
     * @param {string} formula
     */
    kindOf(formula) {
        return kindOf(this.codes.get(firstWord(formula)) ?? -1);
    }

    /**
     * The kinds of the hypotheses of an assertion.
     * @param {number} assertion
     */
    kindsOf(assertion) {
        let kinds = this.kinds.get(assertion);
        if (!kinds) {
            const { hypothesisFormulas } = this.model;
            kinds = this.frameOf(assertion).map((item) => {
                if (isFloating(item)) return this.kindOf(this.floatingAt(numberOf(item)).code);
                return this.kindOf(hypothesisFormulas.at(numberOf(item)));
            });
            this.kinds.set(assertion, kinds);
        }
        return kinds;
    }

    /**
     * What has a number of its own in the proof of a theorem: its `$e`, and what it cites and isn't often used.
     * @param {number} theorem
     */
    ownOf(theorem) {
        const own = Array.from(this.model.hypotheses.of(theorem), (number) => ({ what: Step.hypothesis, number }));
        for (const number of this.model.cited.of(this.model.rowOf[theorem])) {
            if (!this.isFrequent.has(otherItem(number))) own.push({ what: Step.assertion, number });
        }
        return own;
    }

    /**
     * The block of this number.
     * @param {number} number
     */
    stepBlock(number) {
        let block = this.stepBlocks.get(number);
        if (!block) {
            block = this.model.blocks.load(`proof-steps-${number}`).then((bytes) => new StepBlock(bytes));
            this.stepBlocks.set(number, block);
        }
        return block;
    }

    /**
     * The steps of a theorem's proof. TooManySteps where they are too many.
     * @param {number} theorem
     * @param {Turns} turns
     * @returns {Promise<Steps>}
     */
    async steps(theorem, turns) {
        await this.load();
        const row = this.model.rowOf[theorem];
        const first = row - (row % PROOFS_IN_BLOCK);
        const block = await this.stepBlock(first / PROOFS_IN_BLOCK);
        const { places } = block;
        let proof = Math.min(row % PROOFS_IN_BLOCK, places.length - 1);
        const cursor = new Cursor(block, proof);
        while (first + proof < row) {
            await new Backward(this, cursor, this.model.theorems[first + proof], false).read(turns);
            places[++proof] = cursor.places;
        }
        const backward = new Backward(this, cursor, theorem, true);
        await backward.read(turns);
        places[proof + 1] = cursor.places;
        return backward.forward();
    }
}

/** Reads a proof from its last step to its first. */
class Backward {
    /**
     * @param {Proofs} proofs
     * @param {Cursor} cursor which stands where the proof begins
     * @param {number} theorem
     * @param {boolean} isKept whether the steps are wanted
     */
    constructor(proofs, cursor, theorem, isKept) {
        this.proofs = proofs;
        this.cursor = cursor;
        this.isKept = isKept;
        this.own = proofs.ownOf(theorem);
        /** The kinds of what comes, the next one last. */
        this.expected = [proofs.kindOf(proofs.model.formulas.at(theorem))];
        /** @type {number[]} Of each step its kind, and its byte and number. */
        this.kinds = [];
        /** @type {number[]} */
        this.bytes = [];
        /** @type {number[]} */
        this.numbers = [];
    }

    /** @param {Turns} turns */
    async read(turns) {
        const { expected, cursor } = this;
        let kind;
        for (let steps = 0; (kind = expected.pop()) !== undefined; steps++) {
            const byte = cursor.byte(kind);
            const code = codeOf(byte);
            const number = cursor.number(code);
            const { what, number: label } = isRepeated(code) ? NO_LABEL : this.labelled(kind, code, number);
            if (what === Step.assertion) for (const each of this.proofs.kindsOf(label)) expected.push(each);
            if (this.isKept) {
                this.kinds.push(kind);
                this.bytes.push(byte);
                this.numbers.push(number);
                if (steps + expected.length >= MOST_STEPS) throw new TooManySteps();
            }
            if (turns.isOver(steps)) await turns.next();
        }
    }

    /**
     * What a label is, by its code. Damaged where there is no such label.
     * @param {number} kind
     * @param {number} code
     * @param {number} number
     */
    labelled(kind, code, number) {
        const { own, proofs } = this;
        if (code === Code.own && number < own.length) return own[number];
        const item = code === Code.label ? number : proofs.frequent[kind][code - Code.frequent];
        const { size } = isFloating(item) ? proofs.floating : proofs.model;
        // The item itself is compared: one that isn't there, or has more than 32 bits, isn't less.
        if (item < floatingItem(size)) {
            return { what: isFloating(item) ? Step.floating : Step.assertion, number: numberOf(item) };
        }
        throw new Damaged("a proof names what isn't there");
    }

    /**
     * The steps from the first to the last.
     * @returns {Steps}
     */
    forward() {
        const size = this.kinds.length;
        const what = new Uint8Array(size);
        const numbers = new Uint32Array(size);
        const marked = new Marked();
        for (let step = 0; step < size; step++) {
            const at = size - 1 - step;
            const kind = this.kinds[at];
            const code = codeOf(this.bytes[at]);
            if (isRepeated(code)) {
                what[step] = Step.repeated;
                numbers[step] = marked.repeated(kind, code, this.numbers[at]);
            } else {
                const found = this.labelled(kind, code, this.numbers[at]);
                what[step] = found.what;
                numbers[step] = found.number;
            }
            if (isMarked(this.bytes[at])) marked.add(kind, step);
        }
        return { what, numbers };
    }
}

/** What a step has in place of a label that repeats another one. */
const NO_LABEL = { what: Step.repeated, number: 0 };

/** The steps that are repeated later. */
class Marked {
    constructor() {
        /** @type {number[]} */
        this.steps = [];
        this.recent = Array.from({ length: KINDS }, () => new Recent());
    }

    /**
     * @param {number} kind
     * @param {number} step
     */
    add(kind, step) {
        this.recent[kind].use(this.steps.length);
        this.steps.push(step);
    }

    /**
     * The step that is repeated.
     * @param {number} kind
     * @param {number} code
     * @param {number} number
     */
    repeated(kind, code, number) {
        const recent = this.recent[kind];
        const marked = code === Code.far ? this.steps.length - 1 - number : recent.items[code - Code.recent];
        recent.use(marked);
        return this.steps[marked];
    }
}
