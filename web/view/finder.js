// The field of the search with what was found, and the view of all that was found.

import { MOST_GIVEN, byId, classesOfLabel, element, withCommas } from "./elements.js";
import { plainText } from "./markup.js";
import { Search, placesOf } from "./search.js";

/** @typedef {import("./elements.js").Child} Child */
/** @typedef {import("./elements.js").Elements} Elements */
/** @typedef {import("./model.js").Model} Model */
/** @typedef {import("./symbols.js").Symbols} Symbols */
/** @typedef {import("./types.js").Found} Found */

/** How many of what was found are shown below the field, in the view at first, and more at a time. */
const MOST_OFFERED = 24;
const FIRST_IN_VIEW = 100;
const MORE_IN_VIEW = 1000;
/** Letters before a word that was found: in one line, which may be a telephone's, and in several. */
const LETTERS_BEFORE = 20;
const LETTERS_BEFORE_IN_SEVERAL = 60;
/** So many letters of a comment are shown at the most. */
const LONGEST_EXCERPT = 240;
/** A label with more letters is cut below the field. */
const LONGEST_LABEL = 240;
/** The first half of a sign such as 𝐴, where the second one is cut off. */
const HALF = /[\ud800-\udbff]$/;

export class Finder {
    /**
     * @param {Model} model
     * @param {Elements} elements
     * @param {Symbols} symbols
     * @param {(address: string) => void} go
     * @param {AbortSignal} signal ends what listens
     */
    constructor(model, elements, symbols, go, signal) {
        this.model = model;
        this.elements = elements;
        this.search = new Search(model, symbols);
        this.go = go;
        this.input = /** @type {HTMLInputElement} */ (byId("search"));
        this.results = byId("results");
        this.found = byId("found");
        this.active = -1;
        /** @type {Found[]} */
        this.best = [];
        this.total = 0;
        this.listen(signal);
    }

    /** Empties the field, which another database takes over. */
    end() {
        this.close();
        this.input.value = this.found.textContent = "";
        this.input.disabled = true;
        delete this.input.dataset.ready;
    }

    /** Makes the texts ready, and finds again what was typed meanwhile. */
    async prepare() {
        if (this.search.isWhole) return;
        await this.search.prepare();
        if (this.input.disabled) return;
        this.input.dataset.ready = "whole";
        if (!this.results.hidden) this.find();
    }

    /** @param {AbortSignal} signal */
    listen(signal) {
        this.input.disabled = false;
        this.input.addEventListener("focus", () => this.prepare(), { signal });
        this.input.addEventListener("input", () => this.find(), { signal });
        this.input.addEventListener("keydown", (event) => this.onKey(event), { signal });
        const submit = (/** @type {Event} */ event) => {
            event.preventDefault();
            this.choose(Math.max(0, this.active));
        };
        byId("search-form").addEventListener("submit", submit, { signal });
        const closeOutside = (/** @type {Event} */ event) => {
            if (!(event.target instanceof Element) || !event.target.closest("#search-form")) this.close();
        };
        document.addEventListener("keydown", (event) => this.onSlash(event), { signal });
        document.addEventListener("pointerdown", closeOutside, { signal });
    }

    /**
     * Goes to the field, where `/` is typed elsewhere.
     * @param {KeyboardEvent} event
     */
    onSlash(event) {
        const isTyping = event.target instanceof Element && event.target.matches("input, select, textarea");
        if (event.key !== "/" || isTyping || event.ctrlKey || event.altKey || event.metaKey) return;
        event.preventDefault();
        this.input.focus();
        this.input.select();
    }

    find() {
        const began = performance.now();
        const answer = this.search.find(this.input.value);
        this.total = answer.total;
        this.best = this.search.best(answer, MOST_OFFERED);
        this.active = -1;
        this.input.removeAttribute("aria-activedescendant");
        const items = this.best.map((item, index) => this.result(item, index, answer.words));
        const all = `Show all ${withCommas(this.total)}`;
        if (this.total > this.best.length) items.push(this.option(items.length, { class: "all" }, all));
        this.results.replaceChildren(...items);
        this.results.hidden = items.length === 0;
        this.input.setAttribute("aria-expanded", String(items.length > 0));
        this.found.textContent = answer.words.length === 0 ? "" : this.summary(answer.total);
        // Read by the test of the page.
        this.input.dataset.took = (performance.now() - began).toFixed(1);
    }

    /** @param {number} total */
    summary(total) {
        return `${withCommas(total)} found${this.search.isWhole ? "" : " so far"}`;
    }

    /**
     * One of what was found: its label, its kind and its formula, or what its comment says around the first word.
     * @param {Found} found
     * @param {number} index
     * @param {string[]} words
     */
    result({ number, where }, index, words) {
        const label = this.model.labels.at(number);
        const said = where === "comment" ? (this.model.knownComment(number) ?? "") : "";
        const text = element("span", { class: "text" });
        if (said !== "") text.append(...this.excerpt(said, words, LETTERS_BEFORE));
        else text.append(...this.formulas(number));
        const name = element("span", { class: classesOfLabel(label) }, marked(cut(label), words));
        const kind = element("span", { class: "kind" }, this.model.kindName(number).toLowerCase());
        return this.option(index, { "data-label": label }, name, kind, text);
    }

    /**
     * The formula of an assertion, and before it its hypotheses: without these it would say more than it does.
     * @param {number} number
     */
    formulas(number) {
        const { model, elements } = this;
        const given = model.hypotheses.of(number);
        /** @type {Child[]} */
        const parts = [];
        if (given.length > MOST_GIVEN) {
            parts.push(element("span", { class: "hint" }, `${withCommas(given.length)} hypotheses`));
        } else {
            given.forEach((index, at) => {
                const sign = element("span", { class: "sign" }, at > 0 ? " & " : "");
                parts.push(sign, elements.shortFormula(model.hypothesisFormulas.at(index)));
            });
        }
        if (given.length > 0) parts.push(element("span", { class: "sign" }, " ⇒ "));
        return [...parts, elements.shortFormula(model.formulas.at(number))];
    }

    /**
     * A line below the field.
     * @param {number} index
     * @param {Record<string, string>} more its other attributes
     * @param {...Child} children
     */
    option(index, more, ...children) {
        const state = { role: "option", id: `result-${index}`, "aria-selected": "false" };
        const does = { onclick: () => this.choose(index), onpointermove: () => this.activate(index) };
        return element("li", { ...state, ...does, ...more }, ...children);
    }

    /** @param {number} index */
    activate(index) {
        if (index === this.active) return;
        this.results.children[this.active]?.setAttribute("aria-selected", "false");
        this.active = index;
        const chosen = this.results.children[index];
        chosen.setAttribute("aria-selected", "true");
        chosen.scrollIntoView({ block: "nearest" });
        this.input.setAttribute("aria-activedescendant", chosen.id);
    }

    /** @param {KeyboardEvent} event */
    onKey(event) {
        const number = this.results.children.length;
        if (event.key === "Escape") {
            if (this.results.hidden) this.input.value = "";
            this.close();
        } else if (event.key === "ArrowDown" && number > 0) {
            this.open();
            this.activate((this.active + 1) % number);
        } else if (event.key === "ArrowUp" && number > 0) {
            this.open();
            this.activate((this.active + number - (this.active < 0 ? 0 : 1)) % number);
        } else return;
        event.preventDefault();
    }

    open() {
        this.results.hidden = false;
        this.input.setAttribute("aria-expanded", "true");
    }

    close() {
        this.results.hidden = true;
        this.results.children[this.active]?.setAttribute("aria-selected", "false");
        this.active = -1;
        this.input.setAttribute("aria-expanded", "false");
        this.input.removeAttribute("aria-activedescendant");
    }

    /**
     * Goes to a result, or, with the index behind the last one, to the view of all that is found.
     * @param {number} index
     */
    choose(index) {
        const item = this.best[index];
        if (!item && this.total === 0) return;
        this.close();
        this.found.textContent = "";
        if (item) this.go(this.elements.address(item.number));
        else this.go(`#search=${encodeURIComponent(this.input.value.trim())}`);
    }

    /**
     * The view of all that is found for some words.
     * @param {string} typed
     * @returns {Promise<Child[]>}
     */
    async render(typed) {
        await this.prepare();
        const answer = this.search.find(typed);
        const numbers = this.search.all(answer);
        const list = element("ul", { class: "lines found" });
        const make = (/** @type {number} */ number) => this.foundLine(number, answer.words);
        const summary = `${withCommas(numbers.length)} found for “${typed}”: labels first, then formulas, then comments.`;
        return [
            element("h1", { tabindex: -1 }, `Search: ${typed}`),
            element("p", { class: "lead", id: "found-told", role: "status" }, summary),
            numbers.length > 0 ? this.elements.inParts(list, numbers, FIRST_IN_VIEW, MORE_IN_VIEW, make) : "",
        ];
    }

    /**
     * @param {number} number
     * @param {string[]} words
     */
    foundLine(number, words) {
        const line = this.elements.line(number);
        const said = this.model.knownComment(number) ?? "";
        const isSaid = words.some((word) => said.toLowerCase().includes(word));
        if (isSaid) {
            const excerpt = this.excerpt(said, words, LETTERS_BEFORE_IN_SEVERAL);
            line.append(element("p", { class: "hint said-there" }, ...excerpt));
        }
        return line;
    }

    /**
     * What a comment says around the first word that was found.
     * @param {string} comment
     * @param {string[]} words
     * @param {number} before how many letters before it, at most
     */
    excerpt(comment, words, before) {
        const text = plainText(comment, (formula) => this.search.symbols.textOf(formula));
        return marked(around(text, words, before), words);
    }
}

/**
 * A label, without the end of a very long one.
 * @param {string} label
 */
function cut(label) {
    return label.length > LONGEST_LABEL ? `${label.slice(0, LONGEST_LABEL)}…` : label;
}

/**
 * As much of a text as fits into a line, from a little before the first word that is in it.
 * @param {string} text
 * @param {string[]} words
 * @param {number} before
 */
function around(text, words, before) {
    const small = text.toLowerCase();
    const places = words.map((word) => small.indexOf(word)).filter((place) => place >= 0);
    const at = places.reduce((first, place) => Math.min(first, place), places[0] ?? 0);
    const space = text.indexOf(" ", Math.max(0, at - before));
    const from = at <= before ? 0 : space >= 0 && space < at ? space + 1 : at;
    const end = from + LONGEST_EXCERPT;
    const cut = text.slice(from, end).replace(HALF, "");
    return `${from > 0 ? "…" : ""}${cut}${end < text.length ? "…" : ""}`;
}

/**
 * A text in which the words that were found are marked.
 * @param {string} text
 * @param {string[]} words
 * @returns {Child[]}
 */
function marked(text, words) {
    /** @type {Child[]} */
    const parts = [];
    let place = 0;
    for (const [start, end] of placesOf(text, words)) {
        parts.push(text.slice(place, start), element("mark", {}, text.slice(start, end)));
        place = end;
    }
    return [...parts, text.slice(place)];
}
