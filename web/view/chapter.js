// The view of one chapter: what it says and states, which axioms come in there, how many of its theorems rest on each.

import { counted, element, percent, withCommas } from "./elements.js";
import { readComment } from "./markup.js";

/** @typedef {import("./elements.js").Child} Child */
/** @typedef {import("./elements.js").Elements} Elements */
/** @typedef {import("./model.js").Model} Model */
/** @typedef {import("./overview.js").Overview} Overview */
/** @typedef {import("./types.js").Chapter} Chapter */

/** So many statements and axioms are shown at first. */
const FIRST_STATEMENTS = 100;
const FIRST_SHARES = 20;
const LEVELS = ["Part", "Chapter", "Section", "Subsection"];

export class ChapterView {
    /**
     * @param {Model} model
     * @param {Elements} elements
     * @param {Overview} overview
     */
    constructor(model, elements, overview) {
        this.model = model;
        this.elements = elements;
        this.overview = overview;
        this.watched = model.facts.watched.map((label) => model.columnOf[model.numberOf(label) ?? 0]);
    }

    /**
     * @param {Chapter} chapter
     * @param {string} text what its comment says below the title
     * @param {Child[]} since what came of it since an older release
     * @returns {Child[]}
     */
    render(chapter, text, since) {
        const { firstRow, endRow } = this.model.rowsOf(chapter.first, chapter.end);
        /** @type {Child[]} */
        const parts = [this.head(chapter)];
        if (text !== "") parts.push(this.elements.comment(readComment(text), { id: "chapter-text" }));
        parts.push(this.glance(chapter, firstRow, endRow));
        return [
            ...parts,
            ...since,
            ...this.lower(chapter),
            this.comingIn(firstRow, endRow),
            this.shares(firstRow, endRow),
            this.statements(chapter),
        ];
    }

    /** @param {Chapter} chapter */
    head(chapter) {
        const { chapters } = this.model;
        const above = chapters.path(chapter).slice(0, -1);
        const nav = element("nav", { class: "neighbours", "aria-label": "Neighbouring chapters" });
        /** @type {(other: Chapter | undefined, rel: string, which: string) => void} */
        const put = (other, rel, which) => {
            if (!other) return;
            const link = this.elements.chapterLink(other);
            link.textContent = other.number;
            link.rel = rel;
            link.setAttribute("aria-label", `${which} chapter: ${other.number} ${other.title}`);
            nav.append(link);
        };
        put(chapters.list[chapter.index - 1], "prev", "Previous");
        put(chapters.list[chapter.index + 1], "next", "Next");
        const kind = element("p", { class: "kind" }, `${LEVELS[chapter.level]} ${chapter.number}`);
        const title = element("div", { class: "title" }, kind, element("h1", { tabindex: -1 }, chapter.title), nav);
        const path = element("p", { class: "place", id: "place" });
        if (above.length > 0) path.append(this.elements.path(above));
        return element("div", {}, title, path);
    }

    /**
     * How many statements the chapter has, and on how many axioms a theorem of it rests at most.
     * @param {Chapter} chapter
     * @param {number} firstRow
     * @param {number} endRow
     */
    glance(chapter, firstRow, endRow) {
        const all = this.model.theorems.length;
        const theorems = endRow - firstRow;
        const others = chapter.end - chapter.first - theorems;
        const share = `${percent(theorems, all)} of all theorems`;
        const tiles = [
            this.elements.tile(theorems, theorems === 1 ? "theorem" : "theorems", share),
            this.elements.tile(others, "axioms and definitions", "that are stated here, syntax included"),
        ];
        if (theorems > 0) {
            const heaviest = this.overview.counts.heaviest(firstRow, endRow);
            const most = this.overview.counts.totals[heaviest];
            const link = this.elements.link(this.model.theorems[heaviest]);
            tiles.push(this.elements.tile(most, "axioms at most", "on which a theorem of it rests:", "", link));
        }
        return element("ul", { class: "glance", id: "glance", "aria-label": "In numbers" }, ...tiles);
    }

    /** @param {Chapter} chapter */
    lower(chapter) {
        const children = chapter.children.map((index) => this.model.chapters.list[index]);
        if (children.length === 0) return [];
        return [this.elements.section("lower", "In it", this.overview.chapterTree(children))];
    }

    /**
     * The axioms on which a theorem of the chapter rests, and none before it.
     * @param {number} firstRow
     * @param {number} endRow
     */
    comingIn(firstRow, endRow) {
        const { model } = this;
        /** @type {number[]} */
        const columns = [];
        model.firstUsers.forEach((row, column) => {
            if (row >= firstRow && row < endRow) columns.push(column);
        });
        const made = this.elements.section("coming-in", `Axioms that come in here: ${withCommas(columns.length)}`);
        if (columns.length === 0) {
            made.append(this.elements.hint("Its theorems rest on no axiom on which none before it rests."));
            return made;
        }
        model.groups.forEach((group, index) => {
            const part = columns.filter((column) => model.groupOf[column] === index);
            if (part.length === 0) return;
            const lines = () => element("ul", { class: "lines" }, part.map((column) => this.comingLine(column)));
            const fold = this.elements.foldOf(group.name, part.length, lines, part.length <= FIRST_SHARES);
            fold.classList.add("group", `of-${group.key}`);
            fold.dataset.group = group.key;
            made.append(fold);
        });
        return made;
    }

    /** @param {number} column */
    comingLine(column) {
        const first = this.model.theorems[this.model.firstUsers[column]];
        const hint = element("span", { class: "hint first-user" }, "first in ", this.elements.link(first));
        return this.elements.line(this.model.axioms[column], "", hint);
    }

    /**
     * How many theorems of the chapter rest on each axiom: on the watched ones, and on those of the first group.
     * @param {number} firstRow
     * @param {number} endRow
     */
    shares(firstRow, endRow) {
        const { model } = this;
        const theorems = endRow - firstRow;
        const inGroup = Array.from(model.axioms.keys()).filter((column) => {
            return model.groupOf[column] === model.firstGroup && !this.watched.includes(column);
        });
        const used = inGroup
            .map((column) => ({ column, users: model.usersAmong(column, firstRow, endRow) }))
            .filter(({ users }) => users > 0)
            .sort((one, other) => other.users - one.users || one.column - other.column);
        const watched = this.watched.map((column) => ({ column, users: model.usersAmong(column, firstRow, endRow) }));
        const rows = [...watched, ...used];
        const name = model.groups[model.firstGroup].name.toLowerCase();
        const first = watched.length > 0 ? ", the watched ones first" : "";
        const list = element("ul", { class: "lines shares" });
        const put = (/** @type {number} */ end) => {
            for (const { column, users } of rows.slice(list.children.length, end)) {
                list.append(this.shareLine(column, users, theorems));
            }
        };
        put(FIRST_SHARES + watched.length);
        const made = this.elements.section(
            "shares",
            `On what its ${counted(theorems, "theorem")} ${theorems === 1 ? "rests" : "rest"}`,
            this.elements.hint(`How many rest on each of the ${name}${first}.`),
            list,
        );
        if (list.children.length < rows.length) {
            const button = element("button", { type: "button", class: "more" }, `Show all ${withCommas(rows.length)}`);
            button.addEventListener("click", () => {
                const first = list.children.length;
                put(rows.length);
                button.remove();
                list.children[first].querySelector("a")?.focus();
            });
            made.append(button);
        }
        return made;
    }

    /**
     * @param {number} column
     * @param {number} users
     * @param {number} theorems
     */
    shareLine(column, users, theorems) {
        const isWatched = this.watched.includes(column);
        return element(
            "li",
            { class: isWatched ? "line watched" : "line", "data-users": users },
            this.elements.link(this.model.axioms[column]),
            element("span", { class: "right" }, withCommas(users)),
            this.elements.bar(users, theorems, `of-${this.model.groupKey(column)}`),
            element("span", { class: "hint" }, percent(users, theorems), isWatched ? " · watched" : ""),
        );
    }

    /** @param {Chapter} chapter */
    statements(chapter) {
        const numbers = Array.from({ length: chapter.end - chapter.first }, (_, index) => chapter.first + index);
        const list = numbers.length > 0 ? this.elements.lines(numbers, FIRST_STATEMENTS) : null;
        return this.elements.section(
            "states",
            `States ${withCommas(numbers.length)}`,
            list ?? this.elements.hint("It states nothing."),
        );
    }
}
