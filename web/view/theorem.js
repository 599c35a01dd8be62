// The view of one theorem: on what it rests and why, what it does without, what it cites, what cites it.

import { MOST_AT_ONCE, counted, element, withCommas } from "./elements.js";
import { GROUPS, Group } from "./model.js";
import { ProofView } from "./proof.js";

/** @typedef {import("./elements.js").Child} Child */
/** @typedef {import("./elements.js").Colours} Colours */
/** @typedef {import("./elements.js").Elements} Elements */
/** @typedef {import("./model.js").Model} Model */
/** @typedef {import("./statement-head.js").Statements} Statements */

export class TheoremView {
    /**
     * @param {Model} model
     * @param {Elements} elements
     * @param {Statements} statements
     * @param {Colours} colours
     */
    constructor(model, elements, statements, colours) {
        this.model = model;
        this.elements = elements;
        this.statements = statements;
        this.colours = colours;
        this.proof = new ProofView(model, elements);
    }

    /**
     * @param {number} number
     * @param {string} comment
     * @param {Child[]} since what came of it since an older release
     * @returns {Child[]}
     */
    render(number, comment, since) {
        const columns = this.model.columnsOf(this.model.rowOf[number]);
        const byGroup = GROUPS.map((_, group) => columns.filter((column) => this.model.groupOf[column] === group));
        return [
            ...this.statements.head(number, comment),
            this.glance(columns, byGroup),
            ...since,
            this.proof.render(number),
            this.restsOn(number, columns, byGroup),
            this.avoids(number, columns),
            this.cites(number),
            this.statements.citedBy(number),
        ];
    }

    /**
     * For each group how many of its axioms the theorem rests on, with a strip that shows which, in file order.
     * @param {number[]} columns
     * @param {number[][]} byGroup
     */
    glance(columns, byGroup) {
        const tiles = this.model.groups
            .map((group, index) => ({ group, index }))
            .filter(({ index }) => this.model.groupSizes[index] > 0)
            .map(({ group, index }) => {
                const share = `${withCommas(byGroup[index].length)} of ${withCommas(this.model.groupSizes[index])}`;
                const strip = element("canvas", { class: "strip", width: 300, height: 14, "aria-hidden": "true" });
                this.drawStrip(strip, index, columns);
                return this.elements.tile(byGroup[index].length, group.name.toLowerCase(), share, group.key, strip);
            });
        return element("ul", { class: "glance", id: "glance", "aria-label": "Rests on, in numbers" }, ...tiles);
    }

    /**
     * Draws the axioms of a group from the left to the right, with a bar for each that is marked.
     * @param {HTMLCanvasElement} strip
     * @param {number} group
     * @param {number[]} marked
     */
    drawStrip(strip, group, marked) {
        const columns = Array.from(this.model.axioms.keys()).filter((column) => this.model.groupOf[column] === group);
        const isMarked = new Set(marked);
        const pen = /** @type {CanvasRenderingContext2D} */ (strip.getContext("2d"));
        pen.fillStyle = this.colours.of("--picture-ground");
        pen.fillRect(0, 0, strip.width, strip.height);
        pen.fillStyle = this.colours.ofGroup(group);
        columns.forEach((column, index) => {
            if (!isMarked.has(column)) return;
            const from = Math.floor((index * strip.width) / columns.length);
            const to = Math.floor(((index + 1) * strip.width) / columns.length);
            const gap = to - from > 3 ? 1 : 0; // between bars that are wide enough for one
            pen.fillRect(from, 0, Math.max(1, to - from - gap), strip.height);
        });
    }

    /**
     * @param {number} number
     * @param {number[]} columns
     * @param {number[][]} byGroup
     */
    restsOn(number, columns, byGroup) {
        const made = this.elements.section("rests-on", `Rests on ${withCommas(columns.length)}`);
        if (columns.length === 0) made.append(element("p", {}, "It rests on no axiom."));
        this.model.groups.forEach((group, index) => {
            const part = byGroup[index];
            if (part.length === 0) return;
            const fold = this.elements.foldOf(
                group.name,
                part.length,
                () => this.elements.inSteps(element("ul", { class: "lines" }), part, (column) => this.axiomLine(number, column)),
                index !== Group.syntax || part.length === columns.length || part.some((column) => isChainOpen(column)),
            );
            fold.classList.add("group", `of-${group.key}`);
            fold.dataset.group = group.key;
            made.append(fold);
        });
        return made;
    }

    /**
     * An axiom on which a theorem rests, with a button that shows why.
     * @param {number} theorem
     * @param {number} column
     */
    axiomLine(theorem, column) {
        const axiom = this.model.axioms[column];
        const label = this.model.labelOfColumn(column);
        const holder = element("div", { id: `why-${column}`, class: "why" });
        const states = { "aria-expanded": "false", "aria-controls": holder.id, "aria-label": `Why ${label}?` };
        const button = element("button", { type: "button", class: "ask", ...states }, "why");
        const put = (/** @type {boolean} */ isOpen) => {
            button.setAttribute("aria-expanded", String(isOpen));
            holder.replaceChildren(...(isOpen ? this.chain(theorem, axiom) : []));
        };
        button.addEventListener("click", () => {
            const isOpen = button.getAttribute("aria-expanded") === "false";
            keepChain(column, isOpen);
            put(isOpen);
        });
        if (isChainOpen(column)) put(true);
        return this.elements.line(axiom, button, holder);
    }

    /**
     * A shortest chain, each step a link.
     * @param {number} theorem
     * @param {number} axiom
     */
    chain(theorem, axiom) {
        const chain = this.model.chain(theorem, axiom);
        return [
            this.elements.hint(`A shortest chain, ${counted(chain.length - 1, "citation")}; each cites the next:`),
            this.elements.inSteps(element("ol", { class: "lines chain" }), chain, (number) => this.elements.line(number)),
        ];
    }

    /**
     * The axioms before a theorem on which it doesn't rest: those of the first group that has some.
     * @param {number} number
     * @param {number[]} columns
     */
    avoids(number, columns) {
        const { model } = this;
        const group = model.firstGroup;
        const isMarked = new Set(columns);
        /** @type {number[]} */
        const avoided = [];
        model.axioms.forEach((axiom, column) => {
            if (axiom < number && model.groupOf[column] === group && !isMarked.has(column)) avoided.push(axiom);
        });
        const name = model.groups[group].name.toLowerCase();
        return this.elements.section(
            "avoids",
            `Does without ${withCommas(avoided.length)}`,
            this.elements.hint(`The ${name} that stand before it and on which it doesn't rest.`),
            avoided.length > 0 ? this.elements.labels(avoided) : "",
        );
    }

    /** @param {number} number */
    cites(number) {
        const cited = this.model.citedBy(number);
        const made = this.elements.section("cites", `Cites ${withCommas(cited.length)}`);
        /** @type {[string, number[]][]} */
        const parts = [
            ["Theorems", cited.filter((other) => this.model.rowOf[other] >= 0)],
            ["Axioms", cited.filter((other) => this.model.rowOf[other] < 0)],
        ];
        for (const [name, list] of parts) {
            if (list.length === 0) continue;
            made.append(this.elements.foldOf(name, list.length, () => this.elements.lines(list, MOST_AT_ONCE), true));
        }
        return made;
    }
}

/**
 * The columns whose chains are open. They are kept with the entry of the browser's history, so that whoever follows a
 * chain and goes back finds it open.
 * @returns {number[]}
 */
function openChains() {
    const why = window.history.state?.why;
    return Array.isArray(why) ? why : [];
}

/** @param {number} column */
function isChainOpen(column) {
    return openChains().includes(column);
}

/**
 * @param {number} column
 * @param {boolean} isOpen
 */
function keepChain(column, isOpen) {
    const others = openChains().filter((other) => other !== column);
    window.history.replaceState({ why: isOpen ? [...others, column] : others }, "");
}
