// Makes the elements of the page. Text becomes text nodes and never markup.

import { Kind } from "../packer/assertions.js";
import { GROUPS } from "./model.js";

/** @typedef {import("./markup.js").Comment} Comment */
/** @typedef {import("./markup.js").Part} Part */
/** @typedef {import("./model.js").Model} Model */
/** @typedef {import("./symbols.js").Run} Run */
/** @typedef {import("./symbols.js").Symbols} Symbols */
/** @typedef {import("./types.js").Chapter} Chapter */
/** @typedef {import("./types.js").Conditions} Conditions */
/** @typedef {import("./types.js").Piece} Piece */

/** @typedef {string | Node} Child */
/** @typedef {Child | Child[]} Children one or several */
/** @typedef {string | number | boolean | null | undefined | ((event: any) => void)} Value */

/**
 * An element with attributes and children; an attribute `onclick` and the like is a listener. What may have any number of
 * children is given them as a list: a call has no room for as many arguments.
 * @template {keyof HTMLElementTagNameMap} K
 * @param {K} name
 * @param {Record<string, Value>} attributes
 * @param {Children[]} children
 * @returns {HTMLElementTagNameMap[K]}
 */
export function element(name, attributes = {}, ...children) {
    const made = document.createElement(name);
    for (const [key, value] of Object.entries(attributes)) {
        if (typeof value === "function") made.addEventListener(key.slice(2), value);
        else if (value === true) made.setAttribute(key, "");
        else if (value !== false && value !== undefined && value !== null) made.setAttribute(key, String(value));
    }
    put(made, children.flat());
    return made;
}

/**
 * Puts children behind those that an element has.
 * @param {Element} parent
 * @param {Child[]} children
 */
export function put(parent, children) {
    for (const child of children) parent.append(child);
}

/**
 * The element of the page with this name.
 * @param {string} id
 * @returns {HTMLElement}
 */
export function byId(id) {
    const found = document.getElementById(id);
    if (!found) throw new Error(`the page has no ${id}`);
    return found;
}

/** With more hypotheses than this only their number stands in a line. */
export const MOST_GIVEN = 3;
/** A label with more letters may be broken at the end of a line. */
const LONGEST_WHOLE_LABEL = 20;
/** A formula with more signs is cut in lists of what was found. */
const LONGEST_FOUND = 240;
/** A formula with more signs is cut: steps can double it again and again. None of set.mm is as long. */
export const LONGEST_FORMULA = 25_000;
/** So many labels or lines are shown at first. */
const FIRST_LABELS = 300;
const FIRST_LINES = 100;
/** So many more lines the button shows. */
const MORE_LINES = 500;
/** So many entries of other lists are made at a time: a database may have any number of anything. */
export const MOST_AT_ONCE = 2000;
const MOST_LABELS_AT_ONCE = 50_000;

/** The elements that are made of the tags of a definition; other names are classes. */
const TAG_ELEMENTS = new Set(["sub", "sup", "b", "i", "u", "small"]);

/**
 * A whole number with separators, as English writes it.
 * @param {number} number
 */
export function withCommas(number) {
    return number.toLocaleString("en");
}

/**
 * A number with the word for what is counted.
 * @param {number} number
 * @param {string} one
 */
export function counted(number, one, many = `${one}s`) {
    return `${withCommas(number)} ${number === 1 ? one : many}`;
}

/**
 * A share in percent, in which only none is 0 and only all is 100.
 * @param {number} part
 * @param {number} whole
 */
export function percent(part, whole) {
    if (part === 0 || whole === 0) return "0 %";
    if (part === whole) return "100 %";
    const share = (100 * part) / whole;
    if (share < 0.1) return "< 0.1 %";
    if (share > 99.9) return "> 99.9 %";
    return `${share.toFixed(1)} %`;
}

/**
 * A formula that a screen reader reads as the database spells it, which tells its symbols apart.
 * @param {HTMLElement} made
 * @param {string} spelling
 */
function spelled(made, spelling) {
    made.setAttribute("role", "math");
    made.setAttribute("aria-label", spelling);
    return made;
}

/**
 * The classes of a label: one that isn't long stays in one line.
 * @param {string} label
 */
export function classesOfLabel(label) {
    return label.length <= LONGEST_WHOLE_LABEL ? "label look-whole" : "label";
}

export class Elements {
    /**
     * @param {Model} model
     * @param {Symbols} symbols
     */
    constructor(model, symbols) {
        this.model = model;
        this.symbols = symbols;
    }

    /** @param {number} number */
    address(number) {
        const isTheorem = this.model.kinds[number] === Kind.theorem;
        return `#${isTheorem ? "theorem" : "axiom"}=${this.model.labels.at(number)}`;
    }

    /**
     * A label that is no link, such as that of a hypothesis.
     * @param {string} label
     * @param {"span" | "code"} name
     */
    label(label, name = "span") {
        return element(name, { class: classesOfLabel(label) }, label);
    }

    /**
     * A link to an assertion, with the colour of its group.
     * @param {number} number
     * @param {Record<string, Value>} attributes
     */
    link(number, attributes = {}) {
        const column = this.model.columnOf[number];
        const colour = column < 0 ? "" : ` of-${this.model.groupKey(column)}`;
        const label = this.model.labels.at(number);
        const classes = `${classesOfLabel(label)}${colour}`;
        return element("a", { href: this.address(number), class: classes, ...attributes }, label);
    }

    /**
     * A link to a chapter.
     * @param {Chapter} chapter
     */
    chapterLink(chapter, isNumbered = false) {
        const text = isNumbered ? `${chapter.number} ${chapter.title}` : chapter.title;
        return element("a", { href: `#chapter=${chapter.number}` }, text);
    }

    /**
     * The chapters down to one, as links.
     * @param {Chapter[]} path
     */
    path(path) {
        const made = element("span", { class: "path" });
        path.forEach((chapter, index) => made.append(index > 0 ? " › " : "", this.chapterLink(chapter)));
        return made;
    }

    /**
     * A bar that shows a part of a whole.
     * @param {number} part
     * @param {number} whole
     */
    bar(part, whole, classes = "") {
        const filled = element("span");
        filled.style.width = `${(100 * part) / Math.max(1, whole)}%`;
        return element("span", { class: `bar ${classes}` }, filled);
    }

    /**
     * A small remark.
     * @param {string} text
     * @param {Record<string, Value>} attributes
     */
    hint(text, attributes = {}) {
        return element("p", { class: "hint", ...attributes }, text);
    }

    /**
     * A section with a heading.
     * @param {string} id
     * @param {string} title
     * @param {Children[]} children
     */
    section(id, title, ...children) {
        const heading = element("h2", { id: `${id}-heading` }, title);
        return element("section", { id, "aria-labelledby": heading.id }, heading, ...children);
    }

    emptyFormula() {
        return element("span", { class: this.symbols.isOn ? "formula math" : "formula" });
    }

    /**
     * A formula, its symbols as they are shown. With `isExplained` each tells its spelling when it is pointed at.
     * @param {string} text
     */
    formula(text, isExplained = false) {
        const made = this.emptyFormula();
        const isTold = this.putRuns(made, this.symbols.runs(text), isExplained);
        return isTold ? spelled(made, text) : made;
    }

    /**
     * A formula, or its beginning where it is longer than that: as much as fits into a line or two, unless more is said.
     * @param {string} text
     */
    shortFormula(text, isExplained = false, longest = LONGEST_FOUND) {
        if (text.length <= longest) return this.formula(text, isExplained);
        const space = text.lastIndexOf(" ", longest);
        const made = this.formula(text.slice(0, space < 0 ? longest : space), isExplained);
        made.append(" …");
        return made;
    }

    /**
     * Adds what is shown. Returns whether the spelling of a symbol is told.
     * @param {HTMLElement} made
     * @param {Run[]} runs
     * @param {boolean} isExplained
     */
    putRuns(made, runs, isExplained) {
        let plain = "";
        let isAnyTold = false;
        for (const { text, tags, symbol, isAlike } of runs) {
            const isTold = symbol !== "" && (isAlike || (isExplained && symbol !== text));
            if (tags === "" && !isTold) {
                plain += text;
                continue;
            }
            const node = this.tagged(text, tags);
            if (isTold) node.title = symbol;
            isAnyTold ||= isTold;
            if (isAlike) node.classList.add("alike");
            made.append(plain, node);
            plain = "";
        }
        made.append(plain);
        return isAnyTold;
    }

    /**
     * A text in elements for its tags.
     * @param {string} text
     * @param {string} tags
     */
    tagged(text, tags) {
        const names = tags === "" ? [] : tags.split(" ");
        const classes = names.filter((name) => !TAG_ELEMENTS.has(name)).map((name) => `look-${name}`);
        let made = element("span", { class: classes.length > 0 ? classes.join(" ") : null }, text);
        for (const name of names.filter((other) => TAG_ELEMENTS.has(other)).reverse()) {
            made = element(/** @type {"span"} */ (name), {}, made);
        }
        return made;
    }

    /**
     * Pieces of the `$t` comment.
     * @param {Piece[]} pieces
     */
    pieces(pieces) {
        return pieces.map(([text, tags]) => this.tagged(text, tags));
    }

    /**
     * One variable, as it is shown.
     * @param {string} variable
     */
    variable(variable) {
        const made = this.emptyFormula();
        const runs = this.symbols.runsOf(variable, false).filter((run) => run.text.trim() !== "");
        const isTold = this.putRuns(made, runs.map((run) => ({ ...run, text: run.text.trim() })), true);
        return isTold ? spelled(made, variable) : made;
    }

    /**
     * Variables with commas between them.
     * @param {string[]} variables
     * @returns {Child[]}
     */
    variables(variables) {
        const shown = variables.slice(0, MOST_AT_ONCE);
        const made = shown.flatMap((variable, index) => [index > 0 ? ", " : "", this.variable(variable)]);
        const left = variables.length - shown.length;
        return left > 0 ? [...made, `, and ${withCommas(left)} more`] : made;
    }

    /**
     * Groups of distinct variables, each as a list.
     * @param {string[][]} groups
     */
    groups(groups) {
        const make = (/** @type {string[]} */ group) => {
            return element("li", { class: "group-of-variables" }, this.variables(group));
        };
        return this.inSteps(element("ul", { class: "variables" }), groups, make);
    }

    /**
     * A line of a list: an assertion with its formula, and more before and after it.
     * @param {number} number
     * @param {Child} before
     * @param {Child} after
     */
    line(number, before = "", after = "") {
        return element("li", { class: "line" }, this.link(number), " ", before, this.whole(number), after);
    }

    /**
     * A formula below its hypotheses, in one line: these with `&` between them, then `=>`. A mark says that there are
     * conditions of distinct variables, and shows them.
     * @param {number} number
     */
    whole(number) {
        const made = element("span", { class: "whole" });
        const given = this.model.hypotheses.of(number);
        if (given.length > MOST_GIVEN) made.append(element("span", { class: "hint" }, `${given.length} hypotheses`));
        else {
            given.forEach((index, place) => {
                if (place > 0) made.append(element("span", { class: "sign" }, " & "));
                made.append(this.shortFormula(this.model.hypothesisFormulas.at(index), false, LONGEST_FORMULA));
            });
        }
        if (given.length > 0) made.append(element("span", { class: "sign" }, " ⇒ "));
        const formula = this.shortFormula(this.model.formulas.at(number), false, LONGEST_FORMULA);
        formula.classList.add("said");
        made.append(formula);
        if (this.model.hasConditions(number)) made.append(" ", this.conditionsMark(number));
        return made;
    }

    /**
     * A button that shows the conditions of distinct variables of an assertion.
     * @param {number} number
     */
    conditionsMark(number) {
        const label = this.model.labels.at(number);
        const shown = element("span", { class: "shown-conditions" });
        const button = element(
            "button",
            {
                type: "button",
                class: "distinct",
                "aria-expanded": "false",
                "aria-label": `Distinct variables of ${label}`,
                title: "It has conditions of distinct variables",
            },
            "$d",
        );
        button.addEventListener("click", () => {
            const isOpen = button.getAttribute("aria-expanded") === "true";
            button.setAttribute("aria-expanded", String(!isOpen));
            const groups = this.model.conditions(number)?.groups ?? [];
            shown.replaceChildren(...(isOpen ? [] : ["distinct: ", this.groups(groups)]));
        });
        return element("span", { class: "marked-conditions" }, button, shown);
    }

    /**
     * Labels one after the other. Of a long list the first ones, and a button for the rest.
     * @param {ArrayLike<number>} numbers
     */
    labels(numbers, limit = FIRST_LABELS) {
        const list = element("ul", { class: "labels" });
        const make = (/** @type {number} */ number) => element("li", {}, this.link(number), " ");
        return this.inParts(list, numbers, limit, MOST_LABELS_AT_ONCE, make);
    }

    /**
     * Lines one below the other. Of a long list the first ones, and a button for more.
     * @param {ArrayLike<number>} numbers
     */
    lines(numbers, limit = FIRST_LINES) {
        const list = element("ul", { class: "lines" });
        return this.inParts(list, numbers, limit, MORE_LINES, (number) => this.line(number));
    }

    /**
     * Fills a list: with the first entries, and on demand with more.
     * @template Entry
     * @param {HTMLElement} list
     * @param {ArrayLike<Entry>} entries
     * @param {(entry: Entry) => Node} make
     */
    inSteps(list, entries, make) {
        return this.inParts(list, entries, MOST_AT_ONCE, MOST_AT_ONCE, make);
    }

    /**
     * The same, with how many come first, and how many then.
     * @template Entry
     * @param {HTMLElement} list
     * @param {ArrayLike<Entry>} entries
     * @param {number} limit
     * @param {number} step
     * @param {(entry: Entry) => Node} make
     * @returns {HTMLElement}
     */
    inParts(list, entries, limit, step, make) {
        let shown = 0;
        const put = (/** @type {number} */ end) => {
            const part = document.createDocumentFragment();
            for (; shown < Math.min(end, entries.length); shown++) part.append(make(entries[shown]));
            list.append(part);
        };
        put(limit);
        if (shown === entries.length) return list;
        const button = element("button", { type: "button", class: "more" });
        const name = () => {
            const left = entries.length - shown;
            button.textContent = left <= step ? `Show all ${withCommas(entries.length)}` : `Show ${withCommas(step)} more`;
        };
        button.addEventListener("click", () => {
            const first = shown;
            put(shown + step);
            if (shown === entries.length) button.remove();
            else name();
            list.children[first].querySelector("a")?.focus();
        });
        name();
        return element("div", {}, list, button);
    }

    /**
     * What can be opened: its content is made when that happens first.
     * @param {Children} summary
     * @param {() => Children} make
     */
    fold(summary, make, isOpen = false) {
        const made = element("details", {}, element("summary", {}, summary));
        const fill = () => {
            if (made.open && made.children.length === 1) put(made, [make()].flat());
        };
        made.addEventListener("toggle", fill);
        if (isOpen) {
            made.open = true;
            fill();
        }
        return made;
    }

    /**
     * What can be opened, with a name and how many it has.
     * @param {string} name
     * @param {number} number
     * @param {() => Children} make
     */
    foldOf(name, number, make, isOpen = false) {
        const title = element("span", { class: "title" }, name);
        const size = element("span", { class: "number" }, withCommas(number));
        return this.fold([title, " ", size], make, isOpen);
    }

    /**
     * Theorems by the chapters in which they are: a fold for each that has some.
     * @param {number[]} numbers
     */
    byChapter(numbers) {
        const found = [];
        let from = 0;
        for (const stretch of this.model.listStretches) {
            let to = from;
            while (to < numbers.length && numbers[to] < stretch.end) to++;
            if (to > from) found.push({ stretch, part: numbers.slice(from, to) });
            from = to;
        }
        return this.inSteps(element("div", { class: "chapters" }), found, ({ stretch, part }) => {
            const title = [
                element("span", { class: "path" }, stretch.path.slice(0, -1).map((name) => `${name} › `)),
                element("span", { class: "title" }, stretch.title),
                " ",
                element("span", { class: "number" }, `${withCommas(part.length)} of ${withCommas(stretch.theorems)}`),
                this.bar(part.length, stretch.theorems),
            ];
            return this.fold(title, () => this.labels(part, 1000));
        });
    }

    /**
     * A comment with its markup: paragraphs, and who did what and when.
     * @param {Comment} comment
     * @param {Record<string, Value>} attributes
     */
    comment({ paragraphs, credits }, attributes = {}) {
        const made = element("div", { class: "comment", ...attributes });
        for (const parts of paragraphs) made.append(element("div", { class: "paragraph" }, this.parts(parts)));
        if (credits.length > 0) {
            const items = credits.map(({ what, who, date }) => element("li", {}, `${what} by ${who}, ${date}`));
            made.append(element("ul", { class: "credits", "aria-label": "Contributors and dates" }, items));
        }
        return made;
    }

    /**
     * @param {Part[]} parts
     * @returns {Child[]}
     */
    parts(parts) {
        return parts.map((part) => {
            switch (part.type) {
                case "text":
                    return part.text;
                case "math":
                    return this.mathematics(part.formula);
                case "label":
                    return this.mention(part.label);
                case "address":
                    return element("a", { href: part.address, rel: "noreferrer noopener" }, part.address);
                case "reference":
                    return this.reference(part.author, part.page);
                case "emphasis":
                    return element("em", {}, part.text);
                case "element":
                    return element(/** @type {"div"} */ (part.name), {}, this.parts(part.children));
            }
        });
    }

    /**
     * Mathematics in a comment: its first symbol may be a variable.
     * @param {string} formula
     */
    mathematics(formula) {
        const made = this.emptyFormula();
        const isLong = formula.length > LONGEST_FORMULA;
        const shown = isLong ? formula.slice(0, formula.lastIndexOf(" ", LONGEST_FORMULA)) : formula;
        const isTold = this.putRuns(made, this.symbols.runs(shown, false), false);
        if (isLong) made.append(" …");
        return isTold ? spelled(made, shown) : made;
    }

    /**
     * A label that a comment names, or that an older release had: a link, if something has it here.
     * @param {string} label
     */
    mention(label) {
        const number = this.model.numberOf(label);
        return number === undefined ? this.label(label, "code") : this.link(number);
    }

    /**
     * A reference to a book or article: it leads to the bibliography, where the database names one, and its page to all
     * that name it. Without a bibliography it finds these itself.
     * @param {string} author
     * @param {string} page
     */
    reference(author, page) {
        const { bibliography } = this.model.facts;
        const all = `#search=${encodeURIComponent(`[${author}]`)}`;
        const address = bibliography === null ? all : `${bibliography}#${encodeURIComponent(author)}`;
        const link = element("a", { href: address, rel: bibliography === null ? null : "noreferrer noopener" }, author);
        const made = element("span", { class: "reference" }, "[", link, "]");
        if (page === "") return made;
        const title = `All that name ${author}`;
        made.append(" ", bibliography === null ? page : element("a", { href: all, title }, page));
        return made;
    }

    /**
     * A tile with a number.
     * @param {number} number
     * @param {string} name
     * @param {string} hint
     * @param {Child} more
     */
    tile(number, name, hint, key = "", more = "") {
        return element(
            "li",
            { class: key === "" ? "tile" : `tile of-${key}` },
            element("strong", {}, withCommas(number)),
            element("span", {}, name),
            element("span", { class: "hint" }, hint),
            more,
        );
    }
}

/** The colours of the style sheet, for what is drawn. */
export class Colours {
    constructor() {
        /** @type {Map<string, string>} */
        this.known = new Map();
    }

    forget() {
        this.known.clear();
    }

    /** @param {string} name */
    of(name) {
        let known = this.known.get(name);
        if (known === undefined) {
            known = getComputedStyle(document.documentElement).getPropertyValue(name).trim();
            this.known.set(name, known);
        }
        return known;
    }

    /**
     * Red, green and blue of a colour that is written as #rrggbb.
     * @param {string} name
     */
    parts(name) {
        const signs = this.of(name);
        return [1, 3, 5].map((at) => parseInt(signs.slice(at, at + 2), 16));
    }

    /** @param {number} group */
    ofGroup(group) {
        return this.of(`--group-${GROUPS[group].key}`);
    }
}
