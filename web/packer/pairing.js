// Which assertion of one database is which of another, as `mmquery compare` finds it: by its label, or by its
// statement where that has another label. A statement is the formula, the `$e` in order, the pairs of its variables
// that must be distinct, and the typecodes of its variables.

import { Cutter, isSame, textAt } from "./bytes.js";

/** @typedef {import("./reports.js").Dependence} Dependence */
/** @typedef {import("./text.js").Statements} Statements */
/** @typedef {import("./text.js").Text} Text */

/** One of two databases. */
export class Side {
    /**
     * @param {Text} text
     * @param {Dependence} dependence
     */
    constructor(text, dependence) {
        this.text = text;
        this.dependence = dependence;
        this.cutter = new Cutter();
        /** @type {Map<string, string>} */
        this.typecodes = new Map();
        for (let number = 0; number < text.floating.size; number++) {
            const [code, variable] = this.symbols(text.floating, number);
            this.typecodes.set(variable, code);
        }
    }

    /**
     * The words of a stretch.
     * @param {number} start
     * @param {number} end
     */
    words(start, end) {
        const { cutter } = this;
        const size = cutter.cut(this.text.data, start, end);
        return Array.from({ length: size }, (_, at) => textAt(this.text.data, cutter.starts[at], cutter.ends[at]));
    }

    /**
     * The symbols of a statement, the typecode first.
     * @param {Statements} statements
     * @param {number} number
     */
    symbols(statements, number) {
        return this.words(statements.formulas.items[number], statements.formulaEnds.items[number]);
    }

    /**
     * The symbols of an assertion as a text.
     * @param {number} number
     */
    formula(number) {
        return this.symbols(this.text.assertions, number).join(" ");
    }

    /**
     * The `$e` of an assertion.
     * @param {number} number
     */
    essential(number) {
        return this.text.essential.of(number);
    }

    /**
     * The pairs of an assertion's variables that must be distinct, sorted.
     * @param {number} number
     */
    pairs(number) {
        const symbols = this.words(...this.text.pairs.of(number)).filter((word) => word !== "$d");
        const pairs = [];
        for (let at = 0; at < symbols.length; at += 2) {
            const [one, other] = [symbols[at], symbols[at + 1]];
            pairs.push(one < other ? `${one} ${other}` : `${other} ${one}`);
        }
        return pairs.sort();
    }

    /**
     * What an assertion says, as a text that is the same for two databases exactly where it says the same.
     * @param {number} number
     */
    statement(number) {
        const { text, typecodes } = this;
        const all = [this.symbols(text.assertions, number)];
        for (const hypothesis of this.essential(number)) all.push(this.symbols(text.hypotheses, hypothesis));
        const variables = new Set(all.flat().filter((symbol) => typecodes.has(symbol)));
        const codes = [...variables].map((variable) => `${variable} ${typecodes.get(variable)}`);
        const formulas = all.map((symbols) => symbols.join(" "));
        return [...formulas, "$d", ...this.pairs(number), "$f", ...codes.sort()].join("\n");
    }

    /**
     * What a theorem cites; nothing for an axiom.
     * @param {number} number
     */
    cites(number) {
        const row = this.dependence.rowOf[number];
        return row < 0 ? new Uint32Array(0) : this.dependence.citedBy(row);
    }
}

/**
 * Which assertions of one kind of NEW are which of OLD; all are numbers, in file order.
 * @typedef {object} Pairing
 * @property {Map<number, number>} origin for those of NEW the one of OLD
 * @property {Map<number, number>} renamed those whose statement had another label in OLD
 * @property {number[]} changed those with the same label and another statement
 * @property {number[]} added
 * @property {number[]} gone of OLD
 */

/** Pairs the assertions of two databases. */
export class Pairer {
    /**
     * @param {Side} old
     * @param {Side} now
     */
    constructor(old, now) {
        this.old = old;
        this.now = now;
        this.otherVariables = new Set([...otherVariables(old, now), ...otherVariables(now, old)]);
        /** Of each assertion of NEW the one of OLD with its label, or -1. */
        this.sameLabel = new Int32Array(now.text.size);
        const { labels, labelEnds } = now.text.assertions;
        for (let number = 0; number < now.text.size; number++) {
            const label = old.text.byLabel.find(now.text.data, labels.items[number], labelEnds.items[number]);
            this.sameLabel[number] = label;
        }
    }

    /**
     * Whether two assertions have the same statement. Most are written alike.
     * @param {number} old
     * @param {number} now
     */
    isSame(old, now) {
        if (this.isWrittenAlike(old, now) && this.hasSameVariables(now)) return true;
        return this.old.statement(old) === this.now.statement(now);
    }

    /**
     * Whether formula, hypotheses and pairs stand in both reports by the same bytes.
     * @param {number} old
     * @param {number} now
     */
    isWrittenAlike(old, now) {
        const before = stretchesOf(this.old, old);
        const after = stretchesOf(this.now, now);
        if (before.length !== after.length) return false;
        return before.every(([start, end], at) =>
            isSame(this.old.text.data, start, end, this.now.text.data, after[at][0], after[at][1]),
        );
    }

    /**
     * Whether what an assertion is written with has the same typecodes in both.
     * @param {number} now
     */
    hasSameVariables(now) {
        if (this.otherVariables.size === 0) return true;
        const words = stretchesOf(this.now, now).flatMap(([start, end]) => this.now.words(start, end));
        return !words.some((word) => this.otherVariables.has(word));
    }

    /**
     * What an assertion of NEW cites, by the numbers of OLD; null where it cites what OLD hasn't.
     * @param {number} now
     */
    citedBefore(now) {
        const cited = Array.from(this.now.cites(now), (number) => this.sameLabel[number]);
        return cited.includes(-1) ? null : cited;
    }

    /**
     * Pairs the theorems or the axioms.
     * @param {boolean} isProved
     * @returns {Pairing}
     */
    pair(isProved) {
        const old = numbersOfKind(this.old.text, isProved);
        const now = numbersOfKind(this.now.text, isProved);
        /** @type {Map<number, number>} */
        const origin = new Map();
        const before = (/** @type {number} */ number) => {
            const other = this.sameLabel[number];
            return other >= 0 && this.old.text.isProved(other) === isProved ? other : -1;
        };
        for (const number of now) {
            const other = before(number);
            if (other >= 0 && this.isSame(other, number)) origin.set(number, other);
        }
        const kept = new Set(origin.values());
        const left = now.filter((number) => !origin.has(number));
        const renamed = this.renames(old.filter((number) => !kept.has(number)), left);
        for (const [number, other] of renamed) origin.set(number, other);
        const taken = new Set(renamed.values());
        const isChanged = (/** @type {number} */ number) => before(number) >= 0 && !taken.has(before(number));
        const changed = left.filter((number) => !origin.has(number) && isChanged(number));
        for (const number of changed) origin.set(number, before(number));
        const found = new Set(origin.values());
        return {
            origin,
            renamed,
            changed,
            added: left.filter((number) => !origin.has(number)),
            gone: old.filter((number) => !found.has(number)),
        };
    }

    /**
     * Those of NEW with a statement of OLD: of several first those that cite the same, then the others in file order.
     * @param {number[]} old
     * @param {number[]} now
     */
    renames(old, now) {
        const candidates = new Candidates();
        for (const number of old) {
            candidates.add(this.old.statement(number), Array.from(this.old.cites(number)), number);
        }
        /** @type {Map<number, number>} */
        const found = new Map();
        const left = [];
        for (const number of now) {
            const statement = this.now.statement(number);
            const cited = this.citedBefore(number);
            const other = cited === null ? -1 : candidates.take(candidates.citing, withCited(statement, cited));
            if (other < 0) left.push({ number, statement });
            else found.set(number, other);
        }
        for (const { number, statement } of left) {
            const other = candidates.take(candidates.all, statement);
            if (other >= 0) found.set(number, other);
        }
        return found;
    }
}

/** Assertions by their statements, and by what they cite besides; those of each in file order. */
class Candidates {
    constructor() {
        /** @type {Map<string, Queue>} */
        this.all = new Map();
        /** @type {Map<string, Queue>} */
        this.citing = new Map();
        /** @type {Set<number>} */
        this.taken = new Set();
    }

    /**
     * @param {string} statement
     * @param {number[]} cited
     * @param {number} number
     */
    add(statement, cited, number) {
        for (const [map, key] of /** @type {[Map<string, Queue>, string][]} */ ([
            [this.all, statement],
            [this.citing, withCited(statement, cited)],
        ])) {
            const queue = map.get(key);
            if (queue) queue.numbers.push(number);
            else map.set(key, { numbers: [number], next: 0 });
        }
    }

    /**
     * The first one of a key that wasn't taken, or -1.
     * @param {Map<string, Queue>} map
     * @param {string} key
     */
    take(map, key) {
        const queue = map.get(key);
        while (queue && queue.next < queue.numbers.length) {
            const number = queue.numbers[queue.next++];
            if (this.taken.has(number)) continue;
            this.taken.add(number);
            return number;
        }
        return -1;
    }
}

/**
 * Numbers of which those before `next` were taken.
 * @typedef {{ numbers: number[], next: number }} Queue
 */

/**
 * A statement and what is cited, as a text.
 * @param {string} statement
 * @param {number[]} cited
 */
function withCited(statement, cited) {
    return `${statement}\n$=\n${cited.sort((one, other) => one - other).join(" ")}`;
}

/**
 * The variables that another database has not, or with another typecode.
 * @param {Side} one
 * @param {Side} other
 */
function otherVariables(one, other) {
    return [...one.typecodes.keys()].filter((name) => other.typecodes.get(name) !== one.typecodes.get(name));
}

/**
 * @param {Text} text
 * @param {boolean} isProved
 */
function numbersOfKind(text, isProved) {
    const all = Array.from({ length: text.size }, (_, number) => number);
    return all.filter((number) => text.isProved(number) === isProved);
}

/**
 * Where formula, hypotheses and pairs of an assertion stand.
 * @param {Side} side
 * @param {number} number
 * @returns {[number, number][]}
 */
function stretchesOf(side, number) {
    const { assertions, hypotheses, pairs } = side.text;
    /** @type {[number, number][]} */
    const found = [[assertions.formulas.items[number], assertions.formulaEnds.items[number]]];
    for (const index of side.essential(number)) {
        found.push([hypotheses.formulas.items[index], hypotheses.formulaEnds.items[index]]);
    }
    found.push(pairs.of(number));
    return found;
}
