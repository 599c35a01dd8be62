// The symbols of a database: which are variables, and which variables a statement has.

import { Cutter, Lists, Numbers, Words, Writer } from "./bytes.js";

/** @typedef {import("./text.js").Statements} Statements */
/** @typedef {import("./text.js").Text} Text */

export class Vocabulary {
    /** @param {Text} text */
    constructor(text) {
        this.text = text;
        this.words = new Words(text.data);
        this.cutter = new Cutter();
        /** The variables that have a `$f`, in order of these; and of each symbol the typecode, as a symbol, or -1. */
        this.variables = new Numbers();
        this.typecodes = new Int32Array(0);
        /** The symbols of formulas, as they first appear, the typecodes included. */
        this.used = new Numbers();
        this.isUsed = new Uint8Array(0);
        this.readFloating();
    }

    readFloating() {
        const { text, cutter } = this;
        const { formulas, formulaEnds } = text.floating;
        for (let number = 0; number < text.floating.size; number++) {
            cutter.cut(text.data, formulas.items[number], formulaEnds.items[number]);
            const code = this.words.add(cutter.starts[0], cutter.ends[0]);
            const variable = this.words.add(cutter.starts[1], cutter.ends[1]);
            this.makeRoom();
            if (this.typecodes[variable] < 0) this.variables.push(variable);
            this.typecodes[variable] = code;
        }
    }

    /** Makes room for what is known of each symbol. */
    makeRoom() {
        if (this.words.size <= this.typecodes.length) return;
        const size = 2 * this.words.size + 64;
        const typecodes = new Int32Array(size).fill(-1);
        typecodes.set(this.typecodes);
        const isUsed = new Uint8Array(size);
        isUsed.set(this.isUsed);
        this.typecodes = typecodes;
        this.isUsed = isUsed;
    }

    /** How many symbols are known. */
    get size() {
        return this.words.size;
    }

    /** @param {number} symbol */
    at(symbol) {
        return this.words.at(symbol);
    }

    /**
     * The formulas of statements as lines, and the variables of each, as they appear, typecodes aside.
     * @param {Statements} statements
     * @returns {{ lines: Uint8Array, variables: Lists }}
     */
    read(statements) {
        const { cutter, words } = this;
        const { data } = this.text;
        const lines = new Writer();
        const variables = new Lists();
        const seen = new Stamps();
        for (let number = 0; number < statements.size; number++) {
            if (number > 0) lines.push(0x0a);
            const size = cutter.cut(data, statements.formulas.items[number], statements.formulaEnds.items[number]);
            lines.stretch(data, statements.formulas.items[number], statements.formulaEnds.items[number]);
            seen.begin(words.size + size);
            for (let at = 0; at < size; at++) {
                const symbol = words.add(cutter.starts[at], cutter.ends[at]);
                this.use(symbol);
                if (at > 0 && this.typecodes[symbol] >= 0 && seen.isNew(symbol)) variables.push(symbol);
            }
            variables.end();
        }
        return { lines: lines.taken(), variables };
    }

    /** @param {number} symbol */
    use(symbol) {
        this.makeRoom();
        if (this.isUsed[symbol]) return;
        this.isUsed[symbol] = 1;
        this.used.push(symbol);
    }
}

/** A set of numbers that is often emptied. */
export class Stamps {
    constructor() {
        this.stamps = new Uint32Array(64);
        this.turn = 0;
    }

    /**
     * Empties the set, of numbers below `size`.
     * @param {number} size
     */
    begin(size) {
        if (size > this.stamps.length) {
            const stamps = new Uint32Array(2 * size);
            stamps.set(this.stamps);
            this.stamps = stamps;
        }
        this.turn++;
    }

    /**
     * Adds a number; whether it wasn't there.
     * @param {number} number
     */
    isNew(number) {
        if (this.stamps[number] === this.turn) return false;
        this.stamps[number] = this.turn;
        return true;
    }
}
