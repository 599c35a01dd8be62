// What the page shows of an older release: what is new, gone, renamed and changed, and which theorems came to rest on an
// axiom or no longer do, each with its reason.

import { columnsIn } from "./bits.js";
import { Numbers } from "./bytes.js";
import { inJson } from "./blocks.js";
import { Pairer } from "./pairing.js";
import { visible } from "./visible.js";

/** @typedef {import("./pairing.js").Side} Side */

/** Why theorems of one database rest on an axiom and those of another don't. */
class Reasons {
    /**
     * @param {Side} here
     * @param {Side} other
     * @param {Int32Array} there of each assertion the one of the other database, or -1
     * @param {number} axiom
     */
    constructor(here, other, there, axiom) {
        this.here = here;
        this.other = other;
        this.there = there;
        this.far = distances(here, axiom);
        /** @type {Map<number, [number, number]>} */
        this.known = new Map();
    }

    /**
     * Whether the other database lacks a citation.
     * @param {number} citing
     * @param {number} cited
     */
    isNew(citing, cited) {
        const user = this.there[citing];
        const used = this.there[cited];
        return user < 0 || used < 0 || !this.other.cites(user).includes(used);
    }

    /**
     * The first citation on a shortest chain that the other database lacks: what cites, and what it cites. If it has
     * all, the last one: the axiom is none there.
     * @param {number} theorem
     * @returns {[number, number]}
     */
    why(theorem) {
        const passed = [];
        let number = theorem;
        let found = this.known.get(number);
        while (!found) {
            passed.push(number);
            const next = this.following(number);
            if (this.far[next] === 1 || this.isNew(number, next)) found = [number, next];
            else {
                number = next;
                found = this.known.get(number);
            }
        }
        for (const each of passed) this.known.set(each, found);
        return found;
    }

    /**
     * What is next on a shortest chain: of several the first that is cited.
     * @param {number} number
     */
    following(number) {
        const wanted = this.far[number] - 1;
        const next = this.here.cites(number).find((cited) => this.far[cited] === wanted);
        if (next === undefined) throw new Error("a chain of citations has no end");
        return next;
    }
}

/**
 * For each assertion that rests on an axiom one more than how many citations a shortest chain to it has; 0 for others.
 * @param {Side} side
 * @param {number} axiom
 */
function distances(side, axiom) {
    const { dependence, text } = side;
    const { cited, starts, theorems } = dependence;
    const far = new Uint32Array(text.size);
    far[axiom] = 1;
    for (let row = 0; row < theorems.length; row++) {
        let least = 0;
        for (let index = starts[row]; index < starts[row + 1]; index++) {
            const each = far[cited[index]];
            if (each > 0 && (least === 0 || each < least)) least = each;
        }
        if (least > 0) far[theorems[row]] = least + 1;
    }
    return far;
}

/** Two databases side by side. */
export class Comparison {
    /**
     * @param {Side} old
     * @param {Side} now
     */
    constructor(old, now) {
        this.old = old;
        this.now = now;
        const pairer = new Pairer(old, now);
        this.axioms = pairer.pair(false);
        this.theorems = pairer.pair(true);
        /** Of each assertion of NEW the same one of OLD, and the other way round, or -1. */
        this.toOld = this.pairsOf(pairer.sameLabel);
        this.toNew = new Int32Array(old.text.size).fill(-1);
        this.toOld.forEach((was, number) => {
            if (was >= 0) this.toNew[was] = number;
        });
        /**
         * For axioms of NEW the theorems of NEW that came to rest on them, for those of OLD the ones of OLD that left.
         */
        this.gained = Array.from(now.dependence.axioms, () => new Numbers());
        this.lost = Array.from(old.dependence.axioms, () => new Numbers());
        this.compareRows();
    }

    /**
     * A label that stands for an axiom in one and a theorem in the other is its own.
     * @param {Int32Array} sameLabel
     */
    pairsOf(sameLabel) {
        const taken = new Set([...this.axioms.renamed.values(), ...this.theorems.renamed.values()]);
        const isNamed = namedBy(this.now);
        const wasNamed = namedBy(this.old);
        const found = new Int32Array(this.now.text.size).fill(-1);
        sameLabel.forEach((was, number) => {
            if (was >= 0 && isNamed[number] && wasNamed[was] && !taken.has(was)) found[number] = was;
        });
        for (const { origin } of [this.axioms, this.theorems]) for (const [number, was] of origin) found[number] = was;
        return found;
    }

    /** Finds which marks theorems of both gained and lost. */
    compareRows() {
        const old = this.old.dependence;
        const now = this.now.dependence;
        const columnOf = Array.from(old.axioms, (axiom) => {
            const number = this.toNew[axiom];
            return number < 0 ? -1 : now.columnOf[number];
        });
        const was = Array.from(now.axioms, (axiom) => (this.toOld[axiom] < 0 ? -1 : old.columnOf[this.toOld[axiom]]));
        for (let row = 0; row < now.theorems.length; row++) {
            const theorem = this.toOld[now.theorems[row]];
            const before = theorem < 0 ? -1 : old.rowOf[theorem];
            if (before < 0) continue;
            const moved = new Uint32Array(now.rowWords);
            for (const column of columnsIn(old.row(before))) {
                const there = columnOf[column];
                if (there < 0) this.lost[column].push(before);
                else moved[there >>> 5] |= 1 << (there & 31);
            }
            const marks = now.row(row);
            const came = marks.map((bits, word) => bits & ~moved[word]);
            const went = moved.map((bits, word) => bits & ~marks[word]);
            for (const column of columnsIn(came)) this.gained[column].push(row);
            for (const column of columnsIn(went)) this.lost[was[column]].push(before);
        }
    }
}

/**
 * Which assertions the reports of a database name: theorems, columns, and what is cited.
 * @param {Side} side
 */
function namedBy(side) {
    const { rowOf, columnOf, cited } = side.dependence;
    const found = new Uint8Array(side.text.size);
    for (let number = 0; number < found.length; number++) {
        if (rowOf[number] >= 0 || columnOf[number] >= 0) found[number] = 1;
    }
    for (const number of cited) found[number] = 1;
    return found;
}

/** Makes the block of a comparison. Assertions of NEW are given by their numbers, those of OLD by labels. */
class Difference {
    /** @param {Comparison} comparison */
    constructor(comparison) {
        this.comparison = comparison;
        this.old = comparison.old;
        this.now = comparison.now;
        this.chapterOf = new Map(this.now.text.headers.map(({ title }, at) => [title, at]));
    }

    /**
     * What is gone: label, formula, the chapter of NEW with the title of its chapter or -1, and that title.
     * @param {number[]} numbers
     */
    gone(numbers) {
        const { text } = this.old;
        return numbers.map((number) => {
            const title = text.headers[text.headersBefore.items[number] - 1]?.title ?? "";
            return [text.label(number), this.old.formula(number), this.chapterOf.get(title) ?? -1, visible(title)];
        });
    }

    /**
     * For axioms of NEW: its number, and of each theorem that came to rest on it three numbers: its own, and those of
     * what cites and is cited anew.
     */
    gained() {
        const { comparison, old, now } = this;
        const { axioms, theorems } = now.dependence;
        return Array.from(axioms).flatMap((axiom, column) => {
            const rows = comparison.gained[column].taken();
            if (rows.length === 0) return [];
            const reasons = new Reasons(now, old, comparison.toOld, axiom);
            return [[axiom, Array.from(rows, (row) => [theorems[row], ...reasons.why(theorems[row])])]];
        });
    }

    /**
     * For axioms of OLD: its label, its number in NEW or -1, and of each theorem that no longer rests on it its number,
     * and the labels in OLD of what cited and was cited.
     */
    lost() {
        const { comparison, old, now } = this;
        const { axioms, theorems } = old.dependence;
        return Array.from(axioms).flatMap((axiom, column) => {
            const rows = comparison.lost[column].taken().sort();
            if (rows.length === 0) return [];
            const reasons = new Reasons(old, now, comparison.toNew, axiom);
            const shifts = Array.from(rows, (row) => {
                const why = reasons.why(theorems[row]).map((number) => old.text.label(number));
                return [comparison.toNew[theorems[row]], ...why];
            });
            return [[old.text.label(axiom), comparison.toNew[axiom], shifts]];
        });
    }

    /**
     * The block; `name` is how the page calls OLD.
     * @param {string} name
     */
    block(name) {
        const { axioms, theorems } = this.comparison;
        const byNumber = (/** @type {number} */ one, /** @type {number} */ other) => one - other;
        const renamed = [...axioms.renamed, ...theorems.renamed].sort(([one], [other]) => one - other);
        return inJson({
            name: visible(name),
            added: [...axioms.added, ...theorems.added].sort(byNumber),
            changed: [...axioms.changed, ...theorems.changed].sort(byNumber),
            renamed: renamed.map(([number, was]) => [number, this.old.text.label(was)]),
            goneAxioms: this.gone(axioms.gone),
            goneTheorems: this.gone(theorems.gone),
            gained: this.gained(),
            lost: this.lost(),
        });
    }
}

/**
 * The block of what became of OLD in NEW.
 * @param {Side} old
 * @param {Side} now
 * @param {string} name how the page calls OLD
 */
export function packDifference(old, now, name) {
    return new Difference(new Comparison(old, now)).block(name);
}
