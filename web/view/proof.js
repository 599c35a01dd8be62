// The view of a theorem's proof: its steps, each with what it uses, what it applies, and what it says.

import { LONGEST_FORMULA, counted, element, withCommas } from "./elements.js";
import { Damaged } from "./decode.js";
import { Derivation, MOST_SIGNS, OtherFormula, TooManySigns } from "./derivation.js";
import { MOST_STEPS, Proofs, Step, TooManySteps } from "./proof-reader.js";
import { Abandoned, Turns } from "./turns.js";

/** @typedef {import("./elements.js").Child} Child */
/** @typedef {import("./elements.js").Elements} Elements */
/** @typedef {import("./model.js").Model} Model */

/** So many steps are shown at first, and more at a time. */
const FIRST_STEPS = 40;
const MORE_STEPS = 500;

export class ProofView {
    /**
     * @param {Model} model
     * @param {Elements} elements
     */
    constructor(model, elements) {
        this.model = model;
        this.elements = elements;
        this.proofs = new Proofs(model);
    }

    /**
     * The section of a theorem's proof, which comes as soon as it was read.
     * @param {number} theorem
     */
    render(theorem) {
        if (!this.proofs.areThere) return "";
        const holder = element("div", { "aria-busy": "true" }, this.elements.hint("The proof is being read."));
        this.fill(holder, theorem);
        return this.elements.section("proof", "Proof", holder);
    }

    /**
     * Puts into the section what it has once the proof was read, or why that can't be shown.
     * @param {HTMLElement} holder
     * @param {number} theorem
     */
    async fill(holder, theorem) {
        await new Promise((resume) => setTimeout(resume)); // until it is part of the page
        try {
            holder.replaceChildren(...(await this.contentOf(holder, theorem)));
            holder.setAttribute("aria-busy", "false");
        } catch (error) {
            if (error instanceof Abandoned) return;
            holder.replaceChildren(element("p", { class: "note" }, reasonOf(error)));
            holder.setAttribute("aria-busy", "false");
        }
    }

    /**
     * What the section has once the proof was read: how many steps there are, the steps, and where some only build
     * formulas a button that shows these too.
     * @param {HTMLElement} holder the proof is read only as long as this is part of the page
     * @param {number} theorem
     * @returns {Promise<Child[]>}
     */
    async contentOf(holder, theorem) {
        const turns = new Turns(() => holder.isConnected);
        const steps = await this.proofs.steps(theorem, turns);
        const derivation = new Derivation(this.proofs, steps);
        await derivation.run(theorem, turns);
        const { all, essential } = derivation;
        const list = element("div");
        const put = (/** @type {boolean} */ areAll) => {
            list.replaceChildren(areAll ? this.list(derivation, all, true) : this.list(derivation, essential, false));
        };
        put(false);
        if (all.length === essential.length) return [this.summary(all.length, 0), list];
        const button = element("button", { type: "button", class: "ask", "aria-pressed": "false" });
        button.append(`All ${counted(all.length, "step")}`);
        button.addEventListener("click", () => {
            const areAll = button.getAttribute("aria-pressed") === "false";
            button.setAttribute("aria-pressed", String(areAll));
            put(areAll);
        });
        const summary = this.summary(essential.length, all.length - essential.length);
        summary.append(" ", button);
        return [summary, list];
    }

    /**
     * How many steps there are.
     * @param {number} shown how many of them are shown at first
     * @param {number} others how many steps only build formulas
     */
    summary(shown, others) {
        const summary = counted(shown, "step");
        const more = others === 0 ? "." : `, and ${counted(others, "other")}, which only build formulas.`;
        return this.elements.hint(`${summary}${more}`, { id: "proof-told" });
    }

    /**
     * Steps as a list, numbered from 1.
     * @param {Derivation} derivation
     * @param {number[]} steps
     * @param {boolean} areAll whether all that a step uses is in the list
     */
    list(derivation, steps, areAll) {
        const numberOf = new Map(steps.map((step, at) => [step, at + 1]));
        const make = (/** @type {number} */ step) => {
            const used = areAll ? derivation.usedBy(step) : derivation.essentialUsedBy(step);
            const numbers = used.map((each) => String(numberOf.get(each)));
            return this.line(derivation, step, numberOf.get(step) ?? 0, numbers);
        };
        const list = element("ol", { class: "lines steps", "aria-label": "Steps" });
        return this.elements.inParts(list, steps, FIRST_STEPS, MORE_STEPS, make);
    }

    /**
     * A step: its number, those of the steps that it uses, what it applies, and what it says.
     * @param {Derivation} derivation
     * @param {number} step
     * @param {number} number
     * @param {string[]} used
     */
    line(derivation, step, number, used) {
        const hidden = (/** @type {string} */ text) => element("span", { class: "hidden" }, text);
        const from = used.length === 0 ? "" : [hidden(" from "), used.join(", ")];
        return element(
            "li",
            { class: "line step" },
            element("span", { class: "number" }, hidden("Step "), String(number)),
            " ",
            element("span", { class: "from" }, ...from),
            " ",
            this.applied(derivation, step),
            " ",
            this.elements.shortFormula(derivation.formula(step), true, LONGEST_FORMULA),
        );
    }

    /**
     * What a step applies: a link to an assertion, or the label of a hypothesis.
     * @param {Derivation} derivation
     * @param {number} step
     */
    applied({ steps }, step) {
        const number = steps.numbers[step];
        if (steps.what[step] === Step.assertion) return this.elements.link(number);
        const isFloating = steps.what[step] === Step.floating;
        const label = isFloating ? this.proofs.floatingAt(number).label : this.model.hypothesisLabels.at(number);
        return this.elements.label(label);
    }
}

/**
 * Why no steps are shown.
 * @param {unknown} error
 */
function reasonOf(error) {
    if (error instanceof TooManySteps) return `It has more than ${withCommas(MOST_STEPS)} steps, too many to be shown here.`;
    if (error instanceof TooManySigns) {
        return `Its formulas have more than ${withCommas(MOST_SIGNS)} signs together, too many to be shown here.`;
    }
    if (error instanceof OtherFormula) {
        return "The steps that were read don't prove this formula. The page is at fault, so no steps are shown.";
    }
    if (error instanceof Damaged) return `The page is at fault, so no steps are shown: ${error.message}.`;
    return `The proof couldn't be read: ${String(error)}`;
}
