// The page of a database: shows the view that the address names.

import { AxiomView } from "./axiom.js";
import { ChapterView } from "./chapter.js";
import { DifferenceView } from "./difference.js";
import { Elements, byId, counted, element } from "./elements.js";
import { Finder } from "./finder.js";
import { Overview } from "./overview.js";
import { Statements } from "./statement-head.js";
import { Symbols, infixSymbols } from "./symbols.js";
import { TheoremView } from "./theorem.js";

/** @typedef {import("./elements.js").Child} Child */
/** @typedef {import("./model.js").Model} Model */

/** Under this name the browser keeps whether symbols are shown as the database writes them. */
const KEPT = "mmdepend-spelling";

/**
 * A view: its title and what is in it.
 * @typedef {{ name: string, parts: Child[] }} View
 */

class Page {
    /** @param {Model} model */
    constructor(model) {
        this.model = model;
        this.main = byId("main");
        const infix = infixSymbols(model.formulasOfAxioms(), model.typecodeOf);
        this.symbols = new Symbols(model.facts, model.typecodeOf, infix);
        this.elements = new Elements(model, this.symbols);
        this.overview = new Overview(model, this.elements, (number) => this.go(this.elements.address(number)));
        const statements = new Statements(model, this.elements);
        this.theorem = new TheoremView(model, this.elements, statements, this.overview.colours);
        this.axiom = new AxiomView(model, this.elements, statements, (axiom, others) => this.keepTicks(axiom, others));
        this.chapter = new ChapterView(model, this.elements, this.overview);
        /** Ends what listens to the page, once another database takes its place. */
        this.ending = new AbortController();
        const { signal } = this.ending;
        this.finder = new Finder(model, this.elements, this.symbols, (address) => this.go(address), signal);
        /** @type {DifferenceView | null} */
        this.difference = null;
        this.turn = 0;
        this.prepareSpelling();
        this.fillFooter();
        this.listen();
    }

    /** @param {string} address */
    go(address) {
        if (window.location.hash === address) this.show(false);
        else window.location.hash = address;
    }

    /**
     * Ticked axioms stand in the address, so that it can be passed on.
     * @param {number} axiom
     * @param {number[]} others
     */
    keepTicks(axiom, others) {
        const more = others.length > 0 ? `&with=${others.map((number) => this.model.labels.at(number)).join(",")}` : "";
        history.replaceState(null, "", `${this.elements.address(axiom)}${more}`);
    }

    /**
     * The view that the address names.
     * @returns {Promise<View>}
     */
    async view() {
        const words = new URLSearchParams(window.location.hash.slice(1).replace(/\+/g, "%2B"));
        const label = words.get("theorem") ?? words.get("axiom");
        const chapter = words.get("chapter");
        const typed = words.get("search");
        if (label !== null) return this.assertion(label, words.get("with") ?? "");
        if (chapter !== null) return this.chapterOf(chapter);
        if (typed !== null) return { name: `Search: ${typed}`, parts: await this.finder.render(typed) };
        if (words.has("difference")) return this.differenceView();
        return { name: "", parts: this.overview.render() };
    }

    /**
     * @param {string} label
     * @param {string} ticked
     * @returns {Promise<View>}
     */
    async assertion(label, ticked) {
        const { model } = this;
        const number = model.numberOf(label);
        if (number === undefined) return this.notFound("neither a theorem nor an axiom", label);
        const comment = await model.comment(number);
        const since = (await this.since())?.sinceOf(number) ?? [];
        if (model.rowOf[number] >= 0) return { name: label, parts: this.theorem.render(number, comment, since) };
        const named = ticked.split(",").filter((other) => other !== "");
        const columns = named.map((other) => model.columnOf[model.numberOf(other) ?? -1] ?? -1);
        const unknown = named.filter((_, at) => columns[at] < 0);
        const parts = this.axiom.render(number, comment, columns.filter((column) => column >= 0), since);
        return { name: label, parts: [...parts, ...this.unknown(unknown)] };
    }

    /**
     * @param {string} wanted
     * @returns {Promise<View>}
     */
    async chapterOf(wanted) {
        const chapter = this.model.chapters.find(wanted);
        if (!chapter) return this.notFound("no chapter", wanted);
        const text = await this.model.chapterText(chapter.index);
        const since = (await this.since())?.sinceOfChapter(chapter) ?? [];
        return { name: `${chapter.number} ${chapter.title}`, parts: this.chapter.render(chapter, text, since) };
    }

    /** What is new, gone and renamed, if the page compares with an older release. */
    async since() {
        if (!this.model.isCompared && !this.difference) return null;
        this.difference ??= new DifferenceView(this.model, this.elements, await this.model.difference());
        return this.difference;
    }

    /** @returns {Promise<View>} */
    async differenceView() {
        const difference = await this.since();
        if (!difference) return this.notFound("no older release beside it for", "difference");
        return { name: `Since ${difference.difference.name}`, parts: difference.render() };
    }

    /**
     * Tells of labels in the address that are no axioms.
     * @param {string[]} labels
     */
    unknown(labels) {
        if (labels.length === 0) return [];
        const names = labels.flatMap((label, at) => [at > 0 ? ", " : "", element("code", {}, label)]);
        const text = "The address names what is no axiom of this database, and isn't given up here: ";
        return [element("p", { class: "note", id: "unknown", role: "status" }, text, names, ".")];
    }

    /**
     * @param {string} what
     * @param {string} wanted
     * @returns {View}
     */
    notFound(what, wanted) {
        const parts = [
            element("h1", { tabindex: -1 }, "Not found"),
            element("p", {}, `This database has ${what} `, element("code", {}, wanted), "."),
            element("p", {}, element("a", { href: "#" }, "To the overview")),
        ];
        return { name: "Not found", parts };
    }

    /**
     * The view that stands under an address of which no view could be made, so that none of another one stays there.
     * @param {unknown} error
     * @returns {View}
     */
    failed(error) {
        const parts = [
            element("h1", { tabindex: -1 }, "This can't be shown"),
            element("p", {}, "This is a fault of the page, or the browser has too little memory for it."),
            element("p", {}, element("code", {}, String(error))),
            element("p", {}, element("a", { href: "#" }, "To the overview")),
        ];
        return { name: "Not shown", parts };
    }

    /** @param {boolean} isFirst */
    async show(isFirst) {
        const turn = ++this.turn;
        const { name, parts } = await this.view().catch((error) => this.failed(error));
        if (turn !== this.turn) return; // another address was opened meanwhile
        const { title } = this.model.facts;
        this.main.replaceChildren(...parts);
        this.main.setAttribute("aria-busy", "false");
        document.title = name === "" ? title : `${name} — ${title}`;
        if (name === "") byId("home").setAttribute("aria-current", "page");
        else byId("home").removeAttribute("aria-current");
        if (isFirst) return;
        window.scrollTo(0, 0);
        this.main.querySelector("h1")?.focus({ preventScroll: true });
    }

    /** Shows the same view again, as far down as before. */
    async showAgain() {
        const { scrollY } = window;
        await this.show(true);
        window.scrollTo(0, scrollY);
    }

    listen() {
        const { signal } = this.ending;
        window.addEventListener("popstate", () => this.show(false), { signal });
        const skip = (/** @type {Event} */ event) => {
            event.preventDefault();
            this.main.querySelector("h1")?.focus();
        };
        byId("skip").addEventListener("click", skip, { signal });
        const redraw = () => {
            this.overview.redraw();
            if (window.location.hash.length > 1) this.showAgain();
        };
        window.matchMedia("(prefers-color-scheme: dark)").addEventListener("change", redraw, { signal });
    }

    /** Ends it: it shows nothing more, and hears nothing. */
    end() {
        this.turn++;
        this.ending.abort();
        this.finder.end();
        byId("spelling").hidden = true;
        byId("made").replaceChildren();
    }

    /** The switch between the symbols and the spelling of the database. */
    prepareSpelling() {
        const button = byId("spelling");
        if (!this.symbols.areDefined) return;
        try {
            this.symbols.isOn = window.localStorage.getItem(KEPT) !== "written";
        } catch (error) {
            // Where nothing is kept, the symbols are shown.
        }
        button.hidden = false;
        button.setAttribute("aria-pressed", String(!this.symbols.isOn));
        const { signal } = this.ending;
        button.addEventListener("click", () => this.changeSpelling(button), { signal });
    }

    /** @param {HTMLElement} button */
    changeSpelling(button) {
        this.symbols.isOn = !this.symbols.isOn;
        button.setAttribute("aria-pressed", String(!this.symbols.isOn));
        try {
            window.localStorage.setItem(KEPT, this.symbols.isOn ? "shown" : "written");
        } catch (error) {
            // It holds until the page is closed, then.
        }
        this.showAgain();
    }

    fillFooter() {
        const { facts } = this.model;
        const options = [];
        if (facts.only) options.push(`--only ${facts.only}`);
        if (facts.essential) options.push("--essential");
        if (facts.open) options.push("--open");
        byId("made").append(
            `Made by ${facts.maker} from ${facts.file}, ${counted(facts.bytes, "byte")}`,
            options.length > 0 ? `, with ${options.join(" ")}` : "",
            ".",
        );
        if (facts.sha256 === null) return;
        byId("made").append(" SHA-256 of the database: ", element("code", {}, facts.sha256), ".");
    }
}

/**
 * Shows a database. The texts for its search are made ready while nobody waits for them. Returns what ends it.
 * @param {Model} model
 */
export async function present(model) {
    const page = new Page(model);
    await page.show(true);
    performance.mark("shown");
    document.documentElement.dataset.state = "shown";
    if ("requestIdleCallback" in window) window.requestIdleCallback(() => page.finder.prepare());
    else setTimeout(() => page.finder.prepare());
    return () => page.end();
}
