// What became of the database since an older release: of all of it, of a chapter, and of one assertion.

import { counted, element, withCommas } from "./elements.js";

/** @typedef {import("./elements.js").Child} Child */
/** @typedef {import("./elements.js").Elements} Elements */
/** @typedef {import("./model.js").Model} Model */
/** @typedef {import("./types.js").Chapter} Chapter */
/** @typedef {import("./types.js").Difference} Difference */

/** What a theorem gained or lost: an axiom, and the citation that is the reason.
 * @typedef {{ axiom: Child, isGain: boolean, why: Child[] }} Shift */

export class DifferenceView {
    /**
     * @param {Model} model
     * @param {Elements} elements
     * @param {Difference} difference
     */
    constructor(model, elements, difference) {
        this.model = model;
        this.elements = elements;
        this.difference = difference;
        this.added = new Set(difference.added);
        this.changed = new Set(difference.changed);
        this.renamed = new Map(difference.renamed);
        /** @type {Map<number, Shift[]>} */
        this.shifts = new Map();
        for (const [axiom, shifts] of difference.gained) {
            for (const [theorem, citing, cited] of shifts) {
                const why = [elements.link(citing), " now cites ", elements.link(cited)];
                this.addShift(theorem, { axiom: elements.link(axiom), isGain: true, why });
            }
        }
        for (const [label, axiom, shifts] of difference.lost) {
            for (const [theorem, citing, cited] of shifts) {
                const shown = axiom >= 0 ? elements.link(axiom) : elements.mention(label);
                const why = [elements.mention(citing), " no longer cites ", elements.mention(cited)];
                this.addShift(theorem, { axiom: shown, isGain: false, why });
            }
        }
    }

    /**
     * @param {number} theorem
     * @param {Shift} shift
     */
    addShift(theorem, shift) {
        const known = this.shifts.get(theorem);
        if (known) known.push(shift);
        else this.shifts.set(theorem, [shift]);
    }

    /** The overview of the difference. */
    render() {
        const { difference, model } = this;
        const isTheorem = (/** @type {number} */ number) => model.rowOf[number] >= 0;
        const title = `Since ${difference.name}`;
        const added = difference.added.filter(isTheorem);
        const axioms = difference.added.filter((number) => !isTheorem(number));
        const shifted = [...this.shifts.keys()].sort((one, other) => one - other);
        const { renamed } = difference;
        return [
            element("h1", { tabindex: -1 }, title),
            this.elements.hint(`What ${model.facts.file} has otherwise than ${difference.name}.`),
            this.glance(axioms.length, added.length, shifted.length),
            this.axiomSection(axioms),
            this.shiftSection("gained", "Axioms that theorems gained", this.gainedFolds()),
            this.shiftSection("lost", "Axioms that theorems lost", this.lostFolds()),
            this.listSection("added", "New theorems", added.length, () => this.elements.lines(added)),
            this.listSection("renamed", "Renamed", renamed.length, () => this.renamedList(renamed)),
            this.listSection("changed", "Changed statements", difference.changed.length, () =>
                this.elements.lines(difference.changed),
            ),
            this.listSection("gone", "Gone theorems", difference.goneTheorems.length, () =>
                this.goneList(difference.goneTheorems),
            ),
            this.byChapter(),
        ];
    }

    /**
     * How much differs, of each kind.
     * @param {number} axioms
     * @param {number} added
     * @param {number} shifted
     */
    glance(axioms, added, shifted) {
        const { difference } = this;
        const gone = difference.goneTheorems.length;
        const tiles = [
            this.elements.tile(axioms, "new axioms", "definitions and syntax included", axioms > 0 ? "fallen" : ""),
            this.elements.tile(difference.goneAxioms.length, "axioms gone", "or theorems now"),
            this.elements.tile(added, "new theorems", `${withCommas(gone)} gone`),
            this.elements.tile(difference.renamed.length, "renamed", "the same statement, another label"),
            this.elements.tile(difference.changed.length, "changed", "the same label, another statement"),
            this.elements.tile(shifted, "theorems", "gained or lost an axiom"),
        ];
        return element("ul", { class: "glance", id: "glance", "aria-label": "In numbers" }, ...tiles);
    }

    /** @param {number[]} axioms */
    axiomSection(axioms) {
        const made = this.elements.section("new-axioms", "Axioms new and gone");
        const { goneAxioms } = this.difference;
        if (axioms.length + goneAxioms.length === 0) made.append(this.elements.hint("None."));
        if (axioms.length > 0) {
            made.append(this.elements.foldOf("New", axioms.length, () => this.elements.lines(axioms), true));
        }
        if (goneAxioms.length > 0) {
            made.append(this.elements.foldOf("Gone", goneAxioms.length, () => this.goneList(goneAxioms), true));
        }
        return made;
    }

    /**
     * @param {string} id
     * @param {string} name
     * @param {number} number
     * @param {() => Child} make
     */
    listSection(id, name, number, make) {
        if (number === 0) return this.elements.section(id, name, this.elements.hint("None."));
        const list = this.elements.fold("Which", make, number <= 50);
        return this.elements.section(id, `${name}: ${withCommas(number)}`, list);
    }

    /**
     * @param {string} id
     * @param {string} name
     * @param {HTMLElement[]} folds
     */
    shiftSection(id, name, folds) {
        const made = this.elements.section(id, name, folds);
        if (folds.length === 0) made.append(this.elements.hint("None."));
        return made;
    }

    gainedFolds() {
        return this.difference.gained.map(([axiom, shifts]) =>
            this.elements.fold(this.shiftTitle(this.elements.link(axiom), shifts.length), () => {
                const lines = shifts.map(([theorem, citing, cited]) =>
                    this.shiftLine(theorem, [this.elements.link(citing), " now cites ", this.elements.link(cited)]),
                );
                return element("ul", { class: "lines" }, lines);
            }),
        );
    }

    lostFolds() {
        return this.difference.lost.map(([label, axiom, shifts]) =>
            this.elements.fold(
                this.shiftTitle(axiom >= 0 ? this.elements.link(axiom) : this.elements.mention(label), shifts.length),
                () => {
                    const lines = shifts.map(([theorem, citing, cited]) =>
                        this.shiftLine(theorem, [this.elements.mention(citing), " no longer cites ", this.elements.mention(cited)]),
                    );
                    return element("ul", { class: "lines" }, lines);
                },
            ),
        );
    }

    /**
     * @param {Child} axiom
     * @param {number} number
     * @returns {Child[]}
     */
    shiftTitle(axiom, number) {
        return [axiom, " ", element("span", { class: "number" }, counted(number, "theorem"))];
    }

    /**
     * @param {number} theorem
     * @param {Child[]} why
     */
    shiftLine(theorem, why) {
        const shown = theorem >= 0 ? this.elements.link(theorem) : "";
        return element("li", { class: "line" }, shown, element("span", { class: "reason" }, "since ", ...why));
    }

    /** @param {[number, string][]} renamed */
    renamedList(renamed) {
        const lines = renamed.map(([number, was]) => {
            const before = element("span", { class: "hint" }, "was ", this.elements.label(was, "code"), " ");
            return this.elements.line(number, before);
        });
        return element("ul", { class: "lines" }, lines);
    }

    /** @param {[string, string, number, string][]} gone */
    goneList(gone) {
        const lines = gone.map(([label, formula, , title]) => {
            const name = element("code", { class: "label gone" }, label);
            const chapter = element("span", { class: "hint" }, title);
            return element("li", { class: "line" }, name, " ", this.elements.formula(formula), chapter);
        });
        return element("ul", { class: "lines" }, lines);
    }

    /** Of each chapter what came and went. */
    byChapter() {
        const { model } = this;
        const made = this.elements.section("by-chapter", "By chapter");
        const lines = model.listStretches
            .map((stretch) => ({ stretch, changes: this.changesIn(stretch.first, stretch.end, [stretch.chapter]) }))
            .filter(({ changes }) => changes.length > 0)
            .map(({ stretch, changes }) => {
                const chapter = model.chapters.list[stretch.chapter];
                const name = chapter ? this.elements.chapterLink(chapter, true) : stretch.title;
                const numbers = element("span", { class: "number" }, changes.join(" · "));
                return element("li", { class: "line" }, name, " ", numbers);
            });
        made.append(lines.length > 0 ? element("ul", { class: "lines" }, lines) : this.elements.hint("None."));
        return made;
    }

    /**
     * What came and went among some assertions and in some chapters, in words.
     * @param {number} first
     * @param {number} end
     * @param {number[]} chapters
     */
    changesIn(first, end, chapters) {
        const { difference } = this;
        const isIn = (/** @type {number} */ number) => number >= first && number < end;
        const isInChapter = (/** @type {number} */ chapter) => chapters.includes(chapter);
        const gone = [...difference.goneAxioms, ...difference.goneTheorems].filter(([, , at]) => isInChapter(at));
        /** @type {[number, string][]} */
        const parts = [
            [difference.added.filter(isIn).length, "new"],
            [gone.length, "gone"],
            [difference.renamed.filter(([number]) => isIn(number)).length, "renamed"],
            [difference.changed.filter(isIn).length, "changed"],
            [[...this.shifts.keys()].filter(isIn).length, "gained or lost an axiom"],
        ];
        return parts.filter(([number]) => number > 0).map(([number, name]) => `${withCommas(number)} ${name}`);
    }

    /**
     * What became of one assertion.
     * @param {number} number
     * @returns {Child[]}
     */
    sinceOf(number) {
        const lines = [];
        if (this.added.has(number)) lines.push(element("p", {}, "It is new."));
        const was = this.renamed.get(number);
        if (was !== undefined) {
            lines.push(element("p", {}, "Its label was ", this.elements.label(was, "code"), "."));
        }
        if (this.changed.has(number)) lines.push(element("p", {}, "Its statement has changed."));
        const shifts = (this.shifts.get(number) ?? []).map(({ axiom, isGain, why }) =>
            element(
                "li",
                { class: "line" },
                element("span", { class: isGain ? "gain" : "loss" }, isGain ? "gained" : "lost"),
                copied(axiom),
                element("span", { class: "reason" }, "since ", ...why.map(copied)),
            ),
        );
        if (shifts.length > 0) lines.push(element("ul", { class: "lines" }, shifts));
        if (lines.length === 0) return [];
        return [this.elements.section("since", `Since ${this.difference.name}`, ...lines)];
    }

    /**
     * What became of a chapter.
     * @param {Chapter} chapter
     * @returns {Child[]}
     */
    sinceOfChapter(chapter) {
        const lower = this.model.chapters.list.filter((other) => this.model.chapters.path(other).includes(chapter));
        const inIt = lower.map((other) => other.index);
        const changes = this.changesIn(chapter.first, chapter.end, inIt);
        if (changes.length === 0) return [];
        const isIn = (/** @type {number} */ number) => number >= chapter.first && number < chapter.end;
        const { difference } = this;
        const made = this.elements.section("since", `Since ${difference.name}`, element("p", {}, changes.join(" · ")));
        const put = (/** @type {string} */ name, /** @type {number} */ number, /** @type {() => Child} */ make) => {
            if (number > 0) made.append(this.elements.foldOf(name, number, make));
        };
        const added = difference.added.filter(isIn);
        const renamed = difference.renamed.filter(([number]) => isIn(number));
        const gone = [...difference.goneAxioms, ...difference.goneTheorems].filter(([, , at]) => inIt.includes(at));
        const shifted = [...this.shifts.keys()].filter(isIn).sort((one, other) => one - other);
        put("New", added.length, () => this.elements.lines(added));
        put("Gone", gone.length, () => this.goneList(gone));
        put("Renamed", renamed.length, () => this.renamedList(renamed));
        put("Gained or lost an axiom", shifted.length, () => this.elements.labels(shifted));
        return [made];
    }
}

/**
 * A child that may stand in another place, too.
 * @param {Child} child
 */
function copied(child) {
    return typeof child === "string" ? child : child.cloneNode(true);
}
