// What the views of theorems and axioms have in common: the head with comment, hypotheses, formula and conditions.

import { Flag } from "../packer/assertions.js";
import { LONGEST_FORMULA, element, put, withCommas } from "./elements.js";
import { readComment } from "./markup.js";

/** @typedef {import("./elements.js").Child} Child */
/** @typedef {import("./elements.js").Elements} Elements */
/** @typedef {import("./model.js").Model} Model */

export class Statements {
    /**
     * @param {Model} model
     * @param {Elements} elements
     */
    constructor(model, elements) {
        this.model = model;
        this.elements = elements;
    }

    /**
     * Kind, label, comment, hypotheses, formula, conditions and place of an assertion.
     * @param {number} number
     * @param {string} comment
     * @returns {Child[]}
     */
    head(number, comment) {
        const { model, elements } = this;
        const formula = elements.shortFormula(model.formulas.at(number), true, LONGEST_FORMULA);
        const title = element(
            "div",
            { class: "title" },
            element("p", { class: "kind" }, model.kindName(number)),
            element("h1", { tabindex: -1 }, model.labels.at(number)),
            this.neighbours(number),
        );
        return [
            title,
            ...this.discouragements(number),
            ...(comment === "" ? [] : [elements.comment(readComment(comment), { id: "comment" })]),
            ...this.hypotheses(number),
            element("div", { class: "statement", id: "statement" }, formula),
            ...this.conditions(number),
            this.whereabouts(number),
        ];
    }

    /**
     * What is discouraged, as the comment says.
     * @param {number} number
     */
    discouragements(number) {
        const flags = this.model.flags[number];
        const told = [];
        if (flags & Flag.usage) told.push(element("li", { class: "discouraged" }, "New usage is discouraged"));
        if (flags & Flag.modification) {
            told.push(element("li", { class: "discouraged" }, "Proof modification is discouraged"));
        }
        return told.length > 0 ? [element("ul", { class: "discouragements", "aria-label": "Discouraged" }, ...told)] : [];
    }

    /** @param {number} number */
    hypotheses(number) {
        const { model, elements } = this;
        const given = model.hypotheses.of(number);
        if (given.length === 0) return [];
        const make = (/** @type {number} */ index) =>
            element(
                "li",
                { class: "line" },
                elements.label(model.hypothesisLabels.at(index)),
                " ",
                elements.shortFormula(model.hypothesisFormulas.at(index), true, LONGEST_FORMULA),
            );
        const name = given.length === 1 ? "Hypothesis" : "Hypotheses";
        const heading = element("h2", { class: "small" }, name);
        const list = elements.inSteps(element("ol", { class: "lines" }), given, make);
        return [element("div", { class: "hypotheses" }, heading, list)];
    }

    /**
     * The conditions of distinct variables, and those of the proof's dummy variables apart.
     * @param {number} number
     */
    conditions(number) {
        const conditions = this.model.conditions(number);
        if (!conditions) return [];
        const { groups, dummies, proofGroups, areAll } = conditions;
        const made = element("div", { class: "conditions", id: "conditions" });
        if (groups.length > 0) {
            const name = groups.length === 1 ? "Distinct variable group" : "Distinct variable groups";
            made.append(element("h2", { class: "small" }, name), this.elements.groups(groups));
            made.lastElementChild?.setAttribute("id", "mandatory-groups");
        }
        if (dummies.length > 0) {
            const name = dummies.length === 1 ? "Dummy variable of the proof" : "Dummy variables of the proof";
            const shown = areAll ? this.dummies(dummies) : this.stars(proofGroups);
            made.append(element("h2", { class: "small" }, name), shown);
        }
        return [made];
    }

    /**
     * Dummy variables that must be distinct from all others.
     * @param {string[]} dummies
     */
    dummies(dummies) {
        const made = element("p", { id: "dummies" }, this.elements.variables(dummies));
        const text =
            dummies.length === 1
                ? " — distinct from all other variables"
                : " — distinct from one another and from all other variables";
        made.append(element("span", { class: "hint" }, text));
        return made;
    }

    /**
     * A star for each dummy variable: it, and those from which it must be distinct.
     * @param {string[][]} groups
     */
    stars(groups) {
        const make = (/** @type {string[]} */ [dummy, ...others]) => {
            const item = element("li", {}, this.elements.variable(dummy));
            const text = others.length > 0 ? " — distinct from " : " — without conditions";
            put(item, [element("span", { class: "hint" }, text), ...this.elements.variables(others)]);
            return item;
        };
        return this.elements.inSteps(element("ul", { class: "stars", id: "stars" }), groups, make);
    }

    /**
     * Links to the statements before and after, theorems and axioms alike.
     * @param {number} number
     */
    neighbours(number) {
        const { model, elements } = this;
        const nav = element("nav", { class: "neighbours", "aria-label": "Neighbouring statements" });
        /** @type {(other: number, rel: string, which: string) => void} */
        const put = (other, rel, which) => {
            if (other < 0 || other === model.size) return;
            const text = `${which} statement: ${model.labels.at(other)}`;
            nav.append(elements.link(other, { rel, "aria-label": text }));
        };
        put(number - 1, "prev", "Previous");
        put(number + 1, "next", "Next");
        return nav;
    }

    /** @param {number} number */
    whereabouts(number) {
        const { model } = this;
        const row = model.rowOf[number];
        const column = model.columnOf[number];
        const parts = [`Line ${withCommas(model.lines[number])}`];
        if (row >= 0) parts.push(`theorem ${withCommas(row + 1)} of ${withCommas(model.theorems.length)}`);
        if (column >= 0) parts.push(`axiom ${withCommas(column + 1)} of ${withCommas(model.axioms.length)}`);
        const made = element("p", { class: "place", id: "place" }, parts.join(" · "));
        const path = model.chapters.pathAt(number);
        if (path.length > 0) made.append(" · ", this.elements.path(path));
        return made;
    }

    /**
     * What cites an assertion.
     * @param {number} number
     */
    citedBy(number) {
        const citers = this.model.citersOf(number);
        const list = citers.length > 0 ? this.elements.labels(citers) : null;
        return this.elements.section(
            "cited-by",
            `Cited by ${withCommas(citers.length)}`,
            list ?? this.elements.hint("No proof of this database cites it."),
        );
    }
}
