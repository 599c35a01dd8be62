// The conditions of distinct variables as lines to be packed.
//
// The line of an assertion has three fields, separated by tabs: the groups of variables that must be distinct, the
// dummy variables of the proof, and for each of these itself and those from which it must be distinct; `*` instead if
// that are all other variables. Groups are separated by `$`, variables by spaces.

import { Byte, Numbers, Writer } from "./bytes.js";
import { Groups } from "./groups.js";
import { Stamps } from "./symbols.js";

/** @typedef {import("./bytes.js").Lists} Lists */
/** @typedef {import("./symbols.js").Vocabulary} Vocabulary */
/** @typedef {import("./text.js").Text} Text */

/** Variables are their numbers as symbols. */
export class Conditions {
    /**
     * @param {Vocabulary} vocabulary
     * @param {Lists} ofAssertions the variables of each formula
     * @param {Lists} ofHypotheses the variables of each `$e`
     */
    constructor(vocabulary, ofAssertions, ofHypotheses) {
        this.vocabulary = vocabulary;
        this.text = vocabulary.text;
        this.ofAssertions = ofAssertions;
        this.ofHypotheses = ofHypotheses;
        this.seen = new Stamps();
        /** The variables of an assertion: those of formula and hypotheses, and those that only the proof has. */
        this.mandatory = new Numbers();
        this.dummies = new Numbers();
        /** The variables of each pair, one behind the other: mandatory ones, and those of which one is a dummy. */
        this.pairs = new Numbers();
        this.dummyPairs = new Numbers();
        /** All variables in the order in which they are told, and of each its place there. */
        this.ordered = new Uint32Array(0);
        this.ranks = new Uint32Array(0);
        /** The mandatory variables of an assertion in that order, and of each variable its place among its kind. */
        this.inOrder = new Numbers();
        this.placeOf = new Uint32Array(0);
        this.groups = new Groups();
    }

    /** The lines of all assertions. */
    lines() {
        const { text, vocabulary, pairs, dummyPairs, dummies } = this;
        for (let number = 0; number < text.size; number++) this.readDummies(number);
        this.ordered = orderOf(vocabulary);
        // A variable that is none of any assertion has no `$f` here, and is told last.
        this.ranks = new Uint32Array(vocabulary.size).fill(this.ordered.length);
        this.ordered.forEach((variable, at) => (this.ranks[variable] = at));
        this.placeOf = new Uint32Array(vocabulary.size);
        const writer = new Writer();
        for (let number = 0; number < text.size; number++) {
            if (number > 0) writer.push(Byte.newline);
            if (!this.hasAny(number)) continue;
            this.readVariables(number);
            this.readPairs(text.pairs.of(number), pairs);
            this.readPairs(text.dummyPairs.of(number), dummyPairs);
            if (pairs.size > 0) this.putGroups(writer);
            if (dummies.size === 0) continue;
            writer.push(Byte.tab);
            this.putList(writer, dummies.taken());
            writer.push(Byte.tab);
            if (this.areAll()) writer.push(Byte.star);
            else this.putStars(writer);
        }
        return writer.taken();
    }

    /**
     * Whether an assertion has pairs or dummy variables.
     * @param {number} number
     */
    hasAny(number) {
        const { pairs, dummies } = this.text;
        return pairs.ends.items[number] > 0 || dummies.ends.items[number] > 0;
    }

    /**
     * Finds the variables of an assertion and of its proof.
     * @param {number} number
     */
    readVariables(number) {
        const { seen, mandatory, vocabulary, text } = this;
        seen.begin(vocabulary.size);
        mandatory.size = 0;
        for (const hypothesis of text.essential.of(number)) this.addMandatory(this.ofHypotheses.of(hypothesis));
        this.addMandatory(this.ofAssertions.of(number));
        this.readDummies(number);
    }

    /** @param {Uint32Array} variables */
    addMandatory(variables) {
        for (let at = 0; at < variables.length; at++) {
            if (this.seen.isNew(variables[at])) this.mandatory.push(variables[at]);
        }
    }

    /**
     * Finds the dummy variables of an assertion.
     * @param {number} number
     */
    readDummies(number) {
        const { dummies } = this;
        const [start, end] = this.text.dummies.of(number);
        dummies.size = 0;
        for (let place = start; place < end; ) place = this.readVariable(place, end, dummies);
    }

    /**
     * Finds the pairs of a stretch, in which each stands behind a `$d`.
     * @param {[number, number]} stretch
     * @param {Numbers} pairs
     */
    readPairs([start, end], pairs) {
        pairs.size = 0;
        for (let place = start; place < end; ) {
            const first = this.afterWord(place, end) + 1;
            const second = this.readVariable(first, end, pairs);
            place = this.readVariable(second, end, pairs);
        }
    }

    /**
     * Adds the variable that begins at a place to a row. Returns where the next word begins.
     * @param {number} place
     * @param {number} end
     * @param {Numbers} row
     */
    readVariable(place, end, row) {
        const last = this.afterWord(place, end);
        row.push(this.vocabulary.words.add(place, last));
        return last + 1;
    }

    /**
     * Where the word ends that begins at a place.
     * @param {number} place
     * @param {number} end
     */
    afterWord(place, end) {
        const { data } = this.text;
        while (place < end && data[place] > Byte.space) place++;
        return place;
    }

    /** Whether each dummy variable must be distinct from all other variables. */
    areAll() {
        const mandatory = this.mandatory.size;
        const dummies = this.dummies.size;
        return this.dummyPairs.size / 2 === dummies * mandatory + (dummies * (dummies - 1)) / 2;
    }

    /**
     * Adds the groups: each pair is in one, and each two variables of a group are a pair.
     * @param {Writer} writer
     */
    putGroups(writer) {
        const { pairs, inOrder, placeOf } = this;
        this.putInOrder();
        for (let at = 0; at < pairs.size; at++) pairs.items[at] = placeOf[pairs.items[at]];
        let isFirst = true;
        this.groups.cover(inOrder.size, pairs, (group) => {
            if (!isFirst) writer.push(Byte.dollar);
            isFirst = false;
            this.putList(writer, group.map((place) => inOrder.items[place]));
        });
    }

    /** Puts the mandatory variables in order. */
    putInOrder() {
        const { mandatory, inOrder, placeOf, ranks, ordered } = this;
        inOrder.size = 0;
        for (let at = 0; at < mandatory.size; at++) inOrder.push(ranks[mandatory.items[at]]);
        const items = inOrder.items.subarray(0, inOrder.size).sort();
        for (let place = 0; place < items.length; place++) {
            const variable = ordered[items[place]];
            items[place] = variable;
            placeOf[variable] = place;
        }
    }

    /**
     * Adds for each dummy variable itself and those from which it must be distinct.
     * @param {Writer} writer
     */
    putStars(writer) {
        const { dummies, dummyPairs, ranks, placeOf } = this;
        /** @type {Map<number, number[]>} */
        const others = new Map(Array.from(dummies.taken(), (dummy) => [dummy, []]));
        // Dummy variables that are told last stand in their own order.
        for (let at = 0; at < dummies.size; at++) placeOf[dummies.items[at]] = at;
        const compare = (/** @type {number} */ one, /** @type {number} */ other) =>
            ranks[one] - ranks[other] || placeOf[one] - placeOf[other];
        for (let at = 0; at < dummyPairs.size; at += 2) {
            const one = dummyPairs.items[at];
            const other = dummyPairs.items[at + 1];
            others.get(one)?.push(other);
            others.get(other)?.push(one);
        }
        let isFirst = true;
        for (const [dummy, distinct] of others) {
            if (!isFirst) writer.push(Byte.dollar);
            isFirst = false;
            this.putList(writer, [dummy, ...distinct.sort(compare)]);
        }
    }

    /**
     * Adds variables.
     * @param {Writer} writer
     * @param {ArrayLike<number>} variables
     */
    putList(writer, variables) {
        const { data } = this.text;
        const { starts, ends } = this.vocabulary.words;
        for (let at = 0; at < variables.length; at++) {
            if (at > 0) writer.push(Byte.space);
            writer.stretch(data, starts.items[variables[at]], ends.items[variables[at]]);
        }
    }
}

/**
 * The variables in the order of typecodes, as they appear, and then of `$f` statements.
 * @param {Vocabulary} vocabulary
 */
function orderOf({ variables, typecodes }) {
    const ordered = Array.from(variables.taken());
    const codes = [...new Set(ordered.map((variable) => typecodes[variable]))];
    const codeRanks = new Map(codes.map((code, at) => [code, at]));
    const rankOf = (/** @type {number} */ variable) => codeRanks.get(typecodes[variable]) ?? 0;
    return Uint32Array.from(ordered.sort((one, other) => rankOf(one) - rankOf(other)));
}
