// The view of one axiom: what rests on it, and what falls if it is dropped together with others.

import { Kind } from "../packer/assertions.js";
import { counted, element, percent, put, withCommas } from "./elements.js";

/** @typedef {import("./elements.js").Child} Child */
/** @typedef {import("./elements.js").Elements} Elements */
/** @typedef {import("./model.js").Model} Model */
/** @typedef {import("./statement-head.js").Statements} Statements */

/** How many axioms to drop are offered at a time. */
const OFFERED = 60;

export class AxiomView {
    /**
     * @param {Model} model
     * @param {Elements} elements
     * @param {Statements} statements
     * @param {(axiom: number, others: number[]) => void} onTick
     */
    constructor(model, elements, statements, onTick) {
        this.model = model;
        this.elements = elements;
        this.statements = statements;
        this.onTick = onTick;
    }

    /**
     * @param {number} number
     * @param {string} comment
     * @param {number[]} others columns that are dropped, too
     * @param {Child[]} since what came of it since an older release
     * @returns {Child[]}
     */
    render(number, comment, others, since) {
        const column = this.model.columnOf[number];
        const head = [...this.statements.head(number, comment), ...this.leftOpen(number)];
        const citedBy = this.statements.citedBy(number);
        if (column < 0) {
            const label = this.model.labels.at(number);
            const only = `This page has only the marks of typecode ${this.model.facts.only}`;
            const note = `${only}; it doesn't tell what rests on ${label}.`;
            return [...head, element("p", { class: "note" }, note), ...since, citedBy];
        }
        return [...head, ...since, this.users(column), this.dropping(column, others), citedBy];
    }

    /**
     * What there is of a proof that is left open.
     * @param {number} number
     */
    leftOpen(number) {
        const kind = this.model.kinds[number];
        if (kind !== Kind.openColumn && kind !== Kind.otherOpen) return [];
        const sign = element("code", {}, "?");
        return [element("p", { class: "note", id: "left-open" }, "Its proof is ", sign, ": it is left open.")];
    }

    /** @param {number} column */
    users(column) {
        const users = this.model.usersOf[column];
        const all = this.model.theorems.length;
        const bar = this.elements.bar(users, all, `large of-${this.model.groupKey(column)}`);
        const list = () => this.elements.byChapter(this.theoremsWhere(this.model.restsOnAny([column]), 1));
        return this.elements.section(
            "users",
            `${counted(users, "theorem rests", "theorems rest")} on it`,
            element("p", {}, `Of ${counted(all, "theorem")}, ${percent(users, all)}. `, bar),
            users > 0 ? this.elements.fold("Which, by chapter", list) : "",
        );
    }

    /**
     * The theorems for which a list has a value.
     * @param {Uint8Array} values
     * @param {number} wanted
     */
    theoremsWhere(values, wanted) {
        const found = [];
        for (let row = 0; row < values.length; row++) if (values[row] === wanted) found.push(this.model.theorems[row]);
        return found;
    }

    /**
     * @param {number} column
     * @param {number[]} others
     */
    dropping(column, others) {
        const ticked = new Set([column, ...others]);
        const result = element("div", { id: "falls" });
        const show = () => result.replaceChildren(...this.falls([...ticked]));
        const list = element("ul", { class: "ticks", id: "ticks" });
        const status = element("p", { class: "hint", role: "status", id: "ticks-told" });
        const find = element("input", {
            type: "search",
            id: "ticks-find",
            placeholder: "label",
            autocomplete: "off",
            spellcheck: "false",
            "aria-controls": "ticks",
        });
        const onTick = () => {
            this.onTick(
                this.model.axioms[column],
                [...ticked].filter((one) => one !== column).map((one) => this.model.axioms[one]),
            );
            show();
        };
        const offer = () => this.offer(find.value, column, ticked, list, status, onTick);
        find.addEventListener("input", offer);
        offer();
        show();
        const fields = element(
            "fieldset",
            {},
            element("legend", {}, "Drop these, too"),
            element("p", {}, element("label", { for: "ticks-find" }, "Find "), find),
            list,
            status,
        );
        return this.elements.section("dropping", `If ${this.model.labelOfColumn(column)} is dropped`, fields, result);
    }

    /**
     * Offers axioms to be ticked: those that are, and those whose labels have the words.
     * @param {string} typed
     * @param {number} column
     * @param {Set<number>} ticked
     * @param {HTMLElement} list
     * @param {HTMLElement} status
     * @param {() => void} onTick
     */
    offer(typed, column, ticked, list, status, onTick) {
        const words = typed.trim().toLowerCase();
        const others = this.candidates(words).filter((other) => other !== column && !ticked.has(other));
        const kept = [...ticked].filter((other) => other !== column).sort((one, other) => one - other);
        const offered = [...kept, ...others.slice(0, OFFERED)];
        list.replaceChildren();
        put(list, offered.map((other) => this.tick(other, ticked, onTick)));
        const all = counted(others.length, "axiom");
        status.textContent =
            others.length > OFFERED ? `${withCommas(OFFERED)} of ${all} shown: type to find others.` : `${all} shown.`;
    }

    /**
     * A box for an axiom.
     * @param {number} other
     * @param {Set<number>} ticked
     * @param {() => void} onTick
     */
    tick(other, ticked, onTick) {
        const label = this.model.labelOfColumn(other);
        const box = element("input", { type: "checkbox", value: label, id: `tick-${other}` });
        box.checked = ticked.has(other);
        box.addEventListener("change", () => {
            if (box.checked) ticked.add(other);
            else ticked.delete(other);
            onTick();
        });
        const name = element("span", { class: `label of-${this.model.groupKey(other)}` }, label);
        const users = element("span", { class: "hint" }, withCommas(this.model.usersOf[other]));
        return element("li", {}, element("label", { for: box.id }, box, name, " ", users));
    }

    /**
     * The columns whose labels have the words: axioms first, syntax last, each in file order.
     * @param {string} words
     */
    candidates(words) {
        const found = [];
        for (let column = 0; column < this.model.axioms.length; column++) {
            if (this.model.labelOfColumn(column).toLowerCase().includes(words)) found.push(column);
        }
        return found.sort((one, other) => this.model.groupOf[one] - this.model.groupOf[other] || one - other);
    }

    /**
     * What falls if these columns are dropped, and what is left.
     * @param {number[]} columns
     */
    falls(columns) {
        const falls = this.model.restsOnAny(columns);
        const fallen = this.theoremsWhere(falls, 1);
        const left = this.theoremsWhere(falls, 0);
        const inOrder = [...columns].sort((one, other) => one - other);
        const names = inOrder.map((column) => this.model.labelOfColumn(column));
        const number = `${withCommas(fallen.length)} of ${counted(falls.length, "theorem")}`;
        const fold = (/** @type {string} */ id, /** @type {string} */ name, /** @type {number[]} */ numbers) => {
            const made = this.elements.foldOf(name, numbers.length, () => this.elements.byChapter(numbers));
            made.id = id;
            return made;
        };
        return [
            element(
                "p",
                { class: "verdict", role: "status", id: "verdict" },
                `Without ${names.join(", ")}: `,
                element("strong", {}, `${number} ${fallen.length === 1 ? "falls" : "fall"}`),
                `, ${withCommas(left.length)} ${left.length === 1 ? "is" : "are"} left. `,
                this.elements.bar(fallen.length, falls.length, "large of-fallen"),
            ),
            fold("fallen", "What falls, by chapter", fallen),
            fold("left", "What is left, by chapter", left),
        ];
    }
}
