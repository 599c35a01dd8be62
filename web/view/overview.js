// The view of the whole database: the matrix as a picture, counts over the file, axioms by their users, chapters.

import { Colours, MOST_AT_ONCE, counted, element, percent, put, withCommas } from "./elements.js";
import { Counts, Picture } from "./picture.js";
import { Plot } from "./plot.js";

/** @typedef {import("./elements.js").Child} Child */
/** @typedef {import("./elements.js").Elements} Elements */
/** @typedef {import("./model.js").Model} Model */
/** @typedef {import("./types.js").Chapter} Chapter */

/** So many axioms are listed at first, where the page is wide and where it is narrow. */
const FIRST_AXIOMS = 40;
const FIRST_AXIOMS_NARROW = 12;
const NARROW = "(max-width: 40rem)";

export class Overview {
    /**
     * @param {Model} model
     * @param {Elements} elements
     * @param {(number: number) => void} open
     */
    constructor(model, elements, open) {
        this.model = model;
        this.elements = elements;
        this.open = open;
        this.colours = new Colours();
        this.group = "all";
        this.sorting = "file";
        /** @type {Counts | undefined} */
        this.madeCounts = undefined;
        /** @type {Picture | undefined} */
        this.picture = undefined;
        /** @type {Plot | undefined} */
        this.plot = undefined;
    }

    /**
     * How many axioms of each group each theorem rests on, and how many theorems rest on each axiom. They are made when they
     * are asked for first.
     */
    get counts() {
        this.madeCounts ??= new Counts(this.model);
        return this.madeCounts;
    }

    redraw() {
        this.colours.forget();
        this.picture?.refresh();
        this.plot?.refresh();
    }

    render() {
        const { model } = this;
        /** @type {Child[]} */
        const parts = [element("h1", { tabindex: -1 }, model.facts.title), this.summary()];
        if (model.theorems.length > 0 && model.axioms.length > 0) parts.push(this.pictureSection(), this.plotSection());
        if (model.axioms.length > 0) parts.push(this.axiomSection());
        if (model.chapters.list.length > 0) parts.push(this.chapterSection());
        return parts;
    }

    summary() {
        const { model } = this;
        const legend = model.groups
            .map((group, index) => ({ ...group, size: model.groupSizes[index] }))
            .filter((group) => group.size > 0)
            .map((group) =>
                element(
                    "li",
                    {},
                    element("span", { class: `swatch of-${group.key}`, "aria-hidden": "true" }),
                    element("strong", {}, withCommas(group.size)),
                    ` ${group.name.toLowerCase()} `,
                    element("span", { class: "hint" }, `(${group.hint})`),
                ),
            );
        const number = counted(model.theorems.length, "theorem, which rests", "theorems, which rest");
        const lead = `${number} on ${withCommas(model.usedAxioms)} of ${counted(model.axioms.length, "axiom")}:`;
        const list = element("ul", { class: "legend" }, ...legend);
        const made = element("div", {}, element("p", { class: "lead", id: "lead" }, lead), list);
        if (model.facts.legend.length > 0) made.append(this.variablesLegend());
        if (model.isCompared) {
            made.append(element("p", {}, element("a", { href: "#difference" }, "What is new, gone and renamed")));
        }
        return made;
    }

    /** The classes of variables in their colours, as the `$t` comment names them. */
    variablesLegend() {
        return element(
            "p",
            { class: "hint", id: "variables-legend" },
            "Colours of variables: ",
            ...this.elements.pieces(this.model.facts.legend),
        );
    }

    /**
     * The columns of a group, or all of them.
     * @param {string} group
     */
    columnsOfGroup(group) {
        const { model } = this;
        return Array.from(model.axioms.keys()).filter((column) => group === "all" || model.groupKey(column) === group);
    }

    /** The columns of the picture, in the order that is chosen. */
    chosenColumns() {
        const columns = this.columnsOfGroup(this.group);
        return this.sorting === "users" ? this.byUsers(columns) : columns;
    }

    /**
     * Columns with the most users first.
     * @param {number[]} columns
     */
    byUsers(columns) {
        const { usersOf } = this.model;
        return columns.sort((one, other) => usersOf[other] - usersOf[one] || one - other);
    }

    /**
     * A choice among some values.
     * @param {string} id
     * @param {string} label
     * @param {[string, string][]} values each with its name
     * @param {string} chosen
     * @param {(value: string) => void} onChoice
     */
    choice(id, label, values, chosen, onChoice) {
        const options = values.map(([value, name]) => {
            return element("option", { value, selected: value === chosen }, name);
        });
        const select = element("select", { id }, ...options);
        select.addEventListener("change", () => onChoice(select.value));
        return element("label", {}, `${label} `, select);
    }

    /** @returns {[string, string][]} */
    groupChoices() {
        const groups = this.model.groups.filter((_, index) => this.model.groupSizes[index] > 0);
        return [["all", "all"], ...groups.map((group) => /** @type {[string, string]} */ ([group.key, group.name]))];
    }

    pictureSection() {
        const status = element("p", { class: "told", id: "picture-told", role: "status" });
        status.textContent = "Point at the picture, or move the cross with the arrow keys.";
        const picture = new Picture(
            this.model,
            this.counts,
            this.colours,
            (row, column) => status.replaceChildren(...this.tellCell(row, column)),
            (row, column, isAxiom) => this.open(isAxiom ? this.model.axioms[column] : this.model.theorems[row]),
        );
        this.picture = picture;
        picture.setColumns(this.chosenColumns());
        const keys = this.elements.hint(
            "Theorems go down and axioms across, both in file order. " +
                "The more of the cells of a dot are marked, the stronger it is. " +
                "Double-click, pinch, or + and − zoom; drag moves; " +
                "the arrow keys move the cross (with Shift, far), " +
                "Enter opens its theorem, Shift+Enter its axiom, 0 shows all. " +
                "The wheel zooms once the picture has the focus.",
            { id: "picture-keys" },
        );
        const controls = this.pictureControls(picture);
        return this.elements.section("picture", "The matrix", keys, controls, picture.canvas, status);
    }

    /** @param {Picture} picture */
    pictureControls(picture) {
        const button = (/** @type {string} */ name, /** @type {string} */ sign, /** @type {() => void} */ action) =>
            element("button", { type: "button", "aria-label": name, title: name, onclick: action }, sign);
        return element(
            "div",
            { class: "controls" },
            this.choice("picture-group", "Columns", this.groupChoices(), this.group, (group) => {
                this.group = group;
                picture.setColumns(this.chosenColumns());
            }),
            this.choice(
                "picture-order",
                "Order",
                [
                    ["file", "of the file"],
                    ["users", "most users first"],
                ],
                this.sorting,
                (sorting) => {
                    this.sorting = sorting;
                    picture.setColumns(this.chosenColumns());
                },
            ),
            button("Zoom in", "+", () => picture.zoom(1.8)),
            button("Zoom out", "−", () => picture.zoom(1 / 1.8)),
            button("Show the whole matrix", "Whole", () => picture.showAll()),
        );
    }

    /**
     * What there is to say of a cell.
     * @param {number} row
     * @param {number} column
     */
    tellCell(row, column) {
        const { model } = this;
        const theorem = model.theorems[row];
        const isMarked = model.isMarked(row, column);
        const path = model.chapters.pathAt(theorem, model.chapters.listLevel).map((chapter) => chapter.title);
        return [
            this.elements.link(theorem),
            isMarked ? element("strong", {}, " rests on ") : " doesn't rest on ",
            this.elements.link(model.axioms[column]),
            element("span", { class: "hint" }, path.length > 0 ? ` — ${path.join(" › ")}` : ""),
        ];
    }

    plotSection() {
        const status = element("p", { class: "told", id: "plot-told", role: "status" });
        status.textContent = "Point at the plot, or use the arrow keys.";
        const plot = new Plot(
            this.model,
            this.counts,
            this.colours,
            (row) => status.replaceChildren(...this.tellCounts(row)),
            (row) => this.open(this.model.theorems[row]),
        );
        this.plot = plot;
        const keys = this.elements.hint(
            "From the first theorem of the file, at the left, to the last: " +
                "coloured, the mean by groups; the dots above, the most. " +
                "The chapters below have the numbers. The arrow keys move, Enter opens the theorem.",
            { id: "plot-keys" },
        );
        return this.elements.section("plot", "On how many axioms theorems rest", keys, plot.canvas, status);
    }

    /** @param {number} row */
    tellCounts(row) {
        const { model } = this;
        const parts = model.groups
            .map((group, index) => ({ name: group.name.toLowerCase(), number: this.counts.byGroup[index][row] }))
            .filter((part) => part.number > 0)
            .map((part) => `${withCommas(part.number)} ${part.name}`);
        return [
            this.elements.link(model.theorems[row]),
            ` rests on ${withCommas(this.counts.totals[row])}: ${parts.join(", ")}`,
        ];
    }

    axiomSection() {
        const body = element("tbody");
        const more = element("div");
        const atFirst = window.matchMedia(NARROW).matches ? FIRST_AXIOMS_NARROW : FIRST_AXIOMS;
        const add = (/** @type {number[]} */ columns, /** @type {number} */ from, /** @type {number} */ to) => {
            put(body, columns.slice(from, to).map((column) => this.axiomRow(column)));
            more.replaceChildren();
            const left = columns.length - to;
            if (left <= 0) return;
            const next = () => add(columns, to, to + MOST_AT_ONCE);
            const button = element("button", { type: "button", class: "more", onclick: next });
            const all = `Show all ${withCommas(columns.length)}`;
            button.textContent = left <= MOST_AT_ONCE ? all : `Show ${withCommas(MOST_AT_ONCE)} more`;
            more.append(button);
        };
        const fill = (/** @type {string} */ group) => {
            body.replaceChildren();
            add(this.byUsers(this.columnsOfGroup(group)), 0, atFirst);
        };
        const first = this.groupChoices()[1][0];
        fill(first);
        const choice = this.choice("axioms-group", "Show", this.groupChoices(), first, fill);
        const heads = [
            element("th", { scope: "col", role: "columnheader" }, "Axiom"),
            element("th", { scope: "col", role: "columnheader", class: "right" }, "Theorems"),
            element("th", { scope: "col", role: "columnheader" }, "Share"),
            element("th", { scope: "col", role: "columnheader" }, "Formula"),
        ];
        const head = element("thead", { role: "rowgroup" }, element("tr", { role: "row" }, ...heads));
        body.setAttribute("role", "rowgroup");
        const table = element("table", { id: "axioms-table", role: "table" }, head, body);
        const region = { class: "wide", role: "region", "aria-labelledby": "axioms-heading", tabindex: 0 };
        return this.elements.section(
            "axioms",
            "Axioms by how many theorems rest on them",
            element("div", { class: "controls" }, choice),
            element("div", region, table),
            more,
        );
    }

    /** @param {number} column */
    axiomRow(column) {
        const number = this.model.axioms[column];
        const users = this.model.usersOf[column];
        const all = this.model.theorems.length;
        const bar = this.elements.bar(users, all, `of-${this.model.groupKey(column)}`);
        const share = element("span", { class: "hint" }, percent(users, all));
        return element(
            "tr",
            { role: "row" },
            element("th", { scope: "row", role: "rowheader" }, this.elements.link(number)),
            element("td", { class: "right", role: "cell" }, withCommas(users)),
            element("td", { class: "share", role: "cell" }, bar, share),
            element("td", { role: "cell" }, this.elements.whole(number)),
        );
    }

    chapterSection() {
        const roots = this.model.chapters.roots;
        return this.elements.section(
            "chapters",
            "Chapters",
            this.elements.hint("Each with its theorems, the mean of the axioms on which these rest, and the most."),
            this.chapterTree(roots, roots.length === 1),
        );
    }

    /**
     * Chapters as folds; the lowest ones are links alone.
     * @param {Chapter[]} chapters
     * @returns {HTMLElement}
     */
    chapterTree(chapters, areOpen = false) {
        const make = (/** @type {Chapter} */ chapter) => {
            const line = this.chapterLine(chapter);
            if (chapter.children.length === 0) return element("li", { class: "leaf" }, ...line);
            const children = chapter.children.map((index) => this.model.chapters.list[index]);
            return element("li", {}, this.elements.fold(line, () => this.chapterTree(children), areOpen));
        };
        return this.elements.inSteps(element("ul", { class: "tree" }), chapters, make);
    }

    /**
     * A chapter with its numbers.
     * @param {Chapter} chapter
     * @returns {Child[]}
     */
    chapterLine(chapter) {
        const { totals } = this.counts;
        const { firstRow, endRow, theorems } = this.model.rowsOf(chapter.first, chapter.end);
        let sum = 0;
        let most = 0;
        for (let row = firstRow; row < endRow; row++) {
            sum += totals[row];
            most = Math.max(most, totals[row]);
        }
        const parts = [counted(theorems, "theorem")];
        if (theorems > 0) parts.push(`mean ${(sum / theorems).toFixed(1)}`, `most ${withCommas(most)}`);
        return [
            element("span", { class: "chapter-number" }, chapter.number),
            " ",
            this.elements.chapterLink(chapter),
            " ",
            element("span", { class: "number" }, parts.join(" · ")),
        ];
    }
}
