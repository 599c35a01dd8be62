// Carries out the steps of a proof: finds what each of them says. Nothing is believed of the steps: what the last one
// says has to be the theorem, and what is used for a hypothesis has to be that hypothesis.
//
// A formula is a text in which a space stands before each symbol, so that what replaces a variable may be empty.

import { isFloating, numberOf } from "../packer/codes.js";
import { Step } from "./proof-reader.js";

/** @typedef {import("./proof-reader.js").Proofs} Proofs */
/** @typedef {import("./proof-reader.js").Steps} Steps */
/** @typedef {import("./turns.js").Turns} Turns */

/** The formulas of a proof have no more signs together, those included that hypotheses ask for. */
export const MOST_SIGNS = 20_000_000;

/** The steps don't prove the theorem. */
export class OtherFormula extends Error {}

/** The formulas have more than `MOST_SIGNS`. */
export class TooManySigns extends Error {}

/**
 * A formula in which variables are to be replaced: what stands before the first of them, and behind each.
 * @typedef {{ texts: string[], variables: number[] }} Template
 */

/**
 * What an assertion asks for and gives: the formula of each mandatory hypothesis, and whether it is a `$e`; and its own.
 * @typedef {{ given: Template[], areEssential: boolean[], formula: Template }} Rule
 */

/** The steps of a proof with what they say. */
export class Derivation {
    /**
     * @param {Proofs} proofs
     * @param {Steps} steps
     */
    constructor(proofs, steps) {
        this.proofs = proofs;
        this.model = proofs.model;
        this.steps = steps;
        /** @type {string[]} What each step says; nothing for one that is repeated. */
        this.formulas = [];
        /** @type {string[]} Of each formula what stands behind its typecode. */
        this.bodies = [];
        this.signs = 0;
        /** @type {number[]} The steps that step i uses are `used` from `starts[i]` to `starts[i + 1]`. */
        this.used = [];
        this.starts = new Uint32Array(steps.what.length + 1);
        /** @type {Map<number, Rule>} */
        this.rules = new Map();
    }

    /**
     * Carries out all steps.
     * @param {number} theorem
     * @param {Turns} turns
     */
    async run(theorem, turns) {
        /** @type {number[]} */
        const stack = [];
        const { what, numbers } = this.steps;
        for (let step = 0; step < what.length; step++) {
            const formula = this.saidBy(step, stack);
            if (what[step] !== Step.assertion) this.spend(formula.length);
            this.formulas.push(formula);
            this.bodies.push(withoutTypecode(formula));
            this.starts[step + 1] = this.used.length;
            stack.push(what[step] === Step.repeated ? numbers[step] : step);
            if (turns.isOver(step)) await turns.next();
        }
        const last = this.formulas[stack[0]];
        if (stack.length !== 1 || last !== ` ${this.model.formulas.at(theorem)}`) throw new OtherFormula();
    }

    /**
     * What a step says; nothing for one that is repeated.
     * @param {number} step
     * @param {number[]} stack
     */
    saidBy(step, stack) {
        const number = this.steps.numbers[step];
        switch (this.steps.what[step]) {
            case Step.floating:
                return ` ${this.proofs.floatingFormula(number)}`;
            case Step.hypothesis:
                return ` ${this.model.hypothesisFormulas.at(number)}`;
            case Step.assertion:
                return this.applied(number, stack);
            default:
                return "";
        }
    }

    /** @param {number} signs */
    spend(signs) {
        this.signs += signs;
        if (this.signs > MOST_SIGNS) throw new TooManySigns();
    }

    /**
     * What a step says that applies an assertion to the last steps of the stack, which are taken.
     * @param {number} assertion
     * @param {number[]} stack
     */
    applied(assertion, stack) {
        const { given, formula } = this.ruleOf(assertion);
        if (stack.length < given.length) throw new OtherFormula();
        const used = stack.splice(stack.length - given.length);
        const bodies = used.map((step) => this.bodies[step]);
        given.forEach((template, at) => {
            if (this.replaced(template, bodies) !== this.formulas[used[at]]) throw new OtherFormula();
        });
        for (const step of used) this.used.push(step);
        return this.replaced(formula, bodies);
    }

    /**
     * A formula with its variables replaced.
     * @param {Template} template
     * @param {string[]} bodies of each hypothesis what stands behind the typecode
     */
    replaced({ texts, variables }, bodies) {
        // Each text takes time, though it be empty.
        let signs = texts.length;
        for (const variable of variables) signs += bodies[variable].length;
        for (const text of texts) signs += text.length;
        this.spend(signs);
        let formula = texts[0];
        for (let at = 0; at < variables.length; at++) formula += bodies[variables[at]] + texts[at + 1];
        return formula;
    }

    /**
     * @param {number} assertion
     * @returns {Rule}
     */
    ruleOf(assertion) {
        const known = this.rules.get(assertion);
        if (known) return known;
        const { model, proofs } = this;
        const frame = proofs.frameOf(assertion);
        const places = new Map();
        frame.forEach((item, at) => {
            if (isFloating(item)) places.set(proofs.floatingAt(numberOf(item)).variable, at);
        });
        const given = frame.map((item) => {
            const number = numberOf(item);
            const said = isFloating(item) ? proofs.floatingFormula(number) : model.hypothesisFormulas.at(number);
            return templateOf(said, places);
        });
        const areEssential = frame.map((item) => !isFloating(item));
        const rule = { given, areEssential, formula: templateOf(model.formulas.at(assertion), places) };
        this.rules.set(assertion, rule);
        return rule;
    }

    /**
     * The steps that a step uses.
     * @param {number} step
     */
    usedBy(step) {
        return this.used.slice(this.starts[step], this.starts[step + 1]);
    }

    /**
     * The steps that a step uses for the `$e` of what it applies.
     * @param {number} step
     */
    essentialUsedBy(step) {
        const { what, numbers } = this.steps;
        if (what[step] !== Step.assertion) return [];
        const { areEssential } = this.ruleOf(numbers[step]);
        return this.usedBy(step).filter((_, at) => areEssential[at]);
    }

    /** The steps that aren't repeated ones. */
    get all() {
        return Array.from(this.formulas.keys()).filter((step) => this.steps.what[step] !== Step.repeated);
    }

    /** The essential steps: the last one, and those that these use for the `$e` of what they apply. */
    get essential() {
        const size = this.formulas.length;
        const isEssential = new Uint8Array(size);
        const last = size - 1;
        isEssential[this.steps.what[last] === Step.repeated ? this.steps.numbers[last] : last] = 1;
        for (let step = last; step >= 0; step--) {
            if (isEssential[step]) for (const used of this.essentialUsedBy(step)) isEssential[used] = 1;
        }
        return Array.from(isEssential.keys()).filter((step) => isEssential[step] === 1);
    }

    /**
     * What a step says, as formulas are written elsewhere.
     * @param {number} step
     */
    formula(step) {
        return this.formulas[step].slice(1);
    }
}

/**
 * What stands behind the typecode of a formula.
 * @param {string} formula
 */
function withoutTypecode(formula) {
    const space = formula.indexOf(" ", 1);
    return space < 0 ? "" : formula.slice(space);
}

/**
 * @param {string} formula
 * @param {Map<string, number>} places of variables
 * @returns {Template}
 */
function templateOf(formula, places) {
    const texts = [""];
    /** @type {number[]} */
    const variables = [];
    for (const symbol of formula.split(" ")) {
        const place = places.get(symbol);
        if (place === undefined || (texts.length === 1 && texts[0] === "")) texts[texts.length - 1] += ` ${symbol}`;
        else {
            variables.push(place);
            texts.push("");
        }
    }
    return { texts, variables };
}
