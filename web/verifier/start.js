// The page that verifies: the view at its start, and how it comes from a file to the page of a database.

import { Blocks, textOf } from "../view/decode.js";
import { byId, counted, element } from "../view/elements.js";
import { Model, isLater } from "../view/model.js";
import { present } from "../view/router.js";
import { TooLong, Unfit, chosen } from "./chosen.js";
import { Stopped, addressOf, canShare } from "./helpers.js";
import { Saving } from "./saving.js";
import { Verification } from "./verification.js";
import { TOO_LONG } from "../packer/faults.js";
import { visible } from "../packer/visible.js";

/** @typedef {import("../view/elements.js").Child} Child */
/** @typedef {import("../packer/reports.js").PageRequest} PageRequest */
/** @typedef {import("./types.js").Chosen} Chosen */
/** @typedef {import("./types.js").Fault} Fault */
/** @typedef {import("./types.js").PackedBlocks} PackedBlocks */
/** @typedef {import("./types.js").Reply} Reply */
/** @typedef {import("./verification.js").Tools} Tools */

/** What the page is called until it has a database. */
const TITLE = document.title;

/** The blocks that the workers made. A block that is read at the start leaves them then. */
class MadeBlocks {
    /** @param {PackedBlocks} blocks */
    constructor(blocks) {
        this.blocks = blocks;
    }

    /** @param {string} name */
    has(name) {
        return this.blocks.has(name);
    }

    /** @param {string} name */
    get(name) {
        const block = this.blocks.get(name);
        if (!block) throw new Error(`the block ${name} is missing`);
        if (!isLater(name)) this.blocks.delete(name);
        return block;
    }

    /** @param {string} name */
    async load(name) {
        return this.get(name);
    }
}

/**
 * A text in which what stands in backquotes is code.
 * @param {string} text
 * @returns {Child[]}
 */
function withCode(text) {
    return text.split("`").map((part, at) => (at % 2 === 0 ? part : element("code", {}, part)));
}

/** The view at the start: what is chosen, how far it is, and why it goes no further. */
class Start {
    /** @param {Tools} tools */
    constructor(tools) {
        this.tools = tools;
        this.main = byId("main");
        this.form = /** @type {HTMLFormElement} */ (byId("start"));
        this.same = byId("same");
        this.input = /** @type {HTMLInputElement} */ (byId("file"));
        this.drop = byId("drop");
        this.pair = byId("pair");
        this.work = byId("work");
        this.status = byId("told");
        this.progress = /** @type {HTMLProgressElement} */ (byId("progress"));
        this.answer = byId("answer");
        /** @type {File[]} */
        this.files = [];
        /** @type {Verification | null} */
        this.running = null;
        /** Counts what was begun, so that what was cancelled ends where it next looks. */
        this.turn = 0;
        /** What ends the page of a database, when another one is chosen. */
        this.endPage = () => {};
        /** Whether the page of a database is shown, in place of the view at the start. */
        this.isPageShown = false;
        /** The view at the start, which comes back for another database. */
        this.parts = Array.from(this.main.childNodes);
        this.listen();
    }

    listen() {
        this.input.addEventListener("change", () => this.take(Array.from(this.input.files ?? [])));
        this.form.addEventListener("submit", (event) => {
            event.preventDefault();
            this.verifyPair();
        });
        byId("cancel").addEventListener("click", () => this.cancel());
        byId("skip").addEventListener("click", (event) => {
            event.preventDefault();
            if (!this.isPageShown) this.main.querySelector("h1")?.focus();
        });
        document.addEventListener("dragover", (event) => {
            event.preventDefault();
            this.drop.classList.add("over");
        });
        document.addEventListener("dragleave", () => this.drop.classList.remove("over"));
        document.addEventListener("drop", (event) => {
            event.preventDefault();
            this.drop.classList.remove("over");
            const files = Array.from(event.dataTransfer?.files ?? []);
            if (files.length === 0) return;
            this.startOver();
            this.take(files);
        });
        this.same.addEventListener("click", () => this.take(this.files));
    }

    /** Goes back to the view at the start, whatever was shown or done; the options are those that were chosen last. */
    startOver() {
        if (this.isPageShown) {
            this.endPage();
            this.endPage = () => {};
            this.isPageShown = false;
            history.replaceState(null, "", window.location.pathname + window.location.search);
            this.main.replaceChildren(...this.parts);
            byId("home").textContent = document.title = TITLE;
            byId("more").replaceChildren();
            document.documentElement.dataset.state = "start";
        }
        this.turn++;
        this.end();
        this.status.textContent = "";
        this.answer.replaceChildren();
    }

    /** Shows the view at the start, from where the same files can be verified with other options. */
    offerAgain() {
        this.startOver();
        const names = this.files.map((file) => visible(file.name)).join(" and ");
        this.same.textContent = `Verify ${names} again`;
        this.same.hidden = names === "";
        this.main.querySelector("h1")?.focus();
    }

    /** @returns {PageRequest} what the form asks for */
    get request() {
        const fields = new FormData(this.form);
        const only = String(fields.get("only") ?? "").trim();
        return { only: only === "" ? null : only, essential: fields.has("essential"), open: fields.has("open") };
    }

    /**
     * Takes files: one is verified at once, of two it is asked which is older.
     * @param {File[]} files
     */
    take(files) {
        this.answer.replaceChildren();
        this.pair.hidden = true;
        this.same.hidden = true;
        this.files = files;
        if (files.length === 1) this.verify(files);
        else if (files.length === 2) this.askWhichIsOlder();
        else if (files.length > 2) this.say("Too many files", element("p", {}, "Choose one, or two to compare them."));
    }

    askWhichIsOlder() {
        const older = this.files[0].lastModified <= this.files[1].lastModified ? 0 : 1;
        const choices = this.files.map((file, at) => {
            const date = new Date(file.lastModified).toLocaleDateString();
            const button = element("input", { type: "radio", name: "older", value: at, checked: at === older });
            const size = counted(file.size, "byte");
            return element("label", {}, button, ` ${visible(file.name)}, ${size}, changed on ${date}`);
        });
        byId("choices").replaceChildren(...choices);
        this.pair.hidden = false;
        this.pair.querySelector("input")?.focus();
    }

    verifyPair() {
        if (this.pair.hidden) return;
        const older = Number(new FormData(this.form).get("older"));
        this.verify([this.files[1 - older], this.files[older]]);
    }

    /**
     * Verifies a database, and an older release of it where there are two files, and shows it.
     * @param {File[]} files
     */
    async verify(files) {
        const turn = ++this.turn;
        const { request } = this;
        this.begin();
        try {
            /** @type {Chosen[]} */
            const all = [];
            const { isShared } = this.tools;
            for (const file of files) all.push(await chosen(file, isShared, (text) => this.tell(text, null)));
            if (turn !== this.turn) return;
            this.running = new Verification(this.tools, request, all, (text, part) => this.tell(text, part));
            const blocks = await this.running.run();
            if (turn !== this.turn) return;
            await this.show(blocks, request, all[0]);
        } catch (error) {
            if (turn === this.turn) this.explain(error, visible(files[0].name));
        }
    }

    begin() {
        this.answer.replaceChildren();
        this.form.hidden = true;
        this.work.hidden = false;
        this.tell("Reading", 0);
        byId("cancel").focus();
    }

    /** Shows the form again. */
    end() {
        this.running?.cancel();
        this.running = null;
        this.form.hidden = false;
        this.pair.hidden = true;
        this.work.hidden = true;
        this.input.value = "";
    }

    cancel() {
        this.turn++;
        this.end();
        this.status.textContent = "Cancelled.";
        this.input.focus();
    }

    /**
     * Tells what is done, and how much of it, from 0 to 1; null if that isn't known.
     * @param {string} text
     * @param {number | null} part
     */
    tell(text, part) {
        if (this.status.textContent !== text) this.status.textContent = text;
        if (part === null) this.progress.removeAttribute("value");
        else this.progress.value = part;
    }

    /**
     * @param {PackedBlocks} blocks
     * @param {PageRequest} request
     * @param {Chosen} database
     */
    async show(blocks, request, database) {
        const model = new Model(new MadeBlocks(blocks));
        this.isPageShown = true;
        byId("home").textContent = model.facts.title;
        const saving = new Saving(this.tools, request, database, () => this.offerAgain());
        byId("more").replaceChildren(...saving.parts());
        this.endPage = await present(model);
        this.main.querySelector("h1")?.focus({ preventScroll: true });
    }

    /**
     * Says something in place of an answer, with a heading.
     * @param {string} heading
     * @param {Child[]} parts
     */
    say(heading, ...parts) {
        const title = element("h2", { tabindex: -1 }, heading);
        this.answer.replaceChildren(title, ...parts);
        title.focus();
    }

    /**
     * Says why there is no page.
     * @param {unknown} error
     * @param {string} name
     */
    explain(error, name) {
        const current = this.running?.current.name ?? name;
        this.end();
        this.status.textContent = "";
        if (error instanceof Unfit) this.sayUnfit(error.message);
        else if (error instanceof TooLong) this.sayMeaning(`${current} is refused`, "The text", TOO_LONG);
        else if (error instanceof Stopped) this.sayStop(error.reply, current);
        else if (error instanceof RangeError) this.sayNoMemory(current);
        else this.sayFailure(String(error));
    }

    /**
     * @param {Reply} reply
     * @param {string} name
     */
    sayStop(reply, name) {
        if (reply.stage === "refused") this.sayFault(reply.fault, name);
        else if (reply.stage === "memory") this.sayNoMemory(name);
        else if (reply.stage === "lacking") this.say("There is nothing to show", element("p", {}, reply.message));
        else this.sayFailure(reply.stage === "failed" ? reply.message : reply.stage);
    }

    /** @param {string} message */
    sayUnfit(message) {
        this.say("This file can't be verified", element("p", {}, message));
    }

    /** @param {string} name */
    sayNoMemory(name) {
        this.say(
            "There is too little memory",
            element("p", {}, `To verify ${name} takes more memory than the browser gives, or than a text of its length gets.`),
            element("p", {}, "The core can have 256 MB and 64 bytes for each byte of the text, and 4 GB at most."),
            element("p", {}, "So nothing is known of it. Close other pages, or use the program."),
        );
    }

    /** @param {string} message */
    sayFailure(message) {
        this.say(
            "The page failed",
            element("p", {}, "This is a fault of the page or of the browser, and says nothing of the database."),
            element("p", {}, element("code", {}, message)),
        );
    }

    /**
     * Says where a database is refused, and shows the line.
     * @param {Fault} fault
     * @param {string} name
     */
    sayFault(fault, name) {
        const { line, column, code, statement, text, caret } = fault;
        const place = `Line ${line}, column ${column}${statement === "" ? "" : `, ${statement}`}`;
        const shown = element("pre", { class: "fault", tabindex: 0, role: "group", "aria-label": "The line" });
        const sign = text.slice(caret, caret + 1);
        shown.append(text.slice(0, caret), sign === "" ? "" : element("mark", {}, sign), text.slice(caret + 1), "\n");
        shown.append(element("span", { class: "caret", "aria-hidden": "true" }, `${" ".repeat(caret)}^`));
        this.sayMeaning(`${name} is refused`, place, code, shown);
    }

    /**
     * Says that a database is refused, what the code means and what to do.
     * @param {string} heading
     * @param {string} place
     * @param {string} code
     * @param {Child[]} parts
     */
    sayMeaning(heading, place, code, ...parts) {
        const { faults, unknown } = this.tools.tables;
        const [meaning, advice] = Object.hasOwn(faults, code) ? faults[code] : unknown;
        this.say(
            heading,
            element("p", {}, `${place}: `, element("strong", {}, code), ", ", ...withCode(meaning), "."),
            ...parts,
            element("p", {}, "What to do: ", ...withCode(advice), "."),
        );
    }
}

/** What the page has for its work, out of its own blocks. */
async function tools() {
    const blocks = new Blocks();
    const load = (/** @type {string} */ name) => blocks.load(name);
    const [script, module, tables] = await Promise.all(["worker", "module", "tables"].map(load));
    const address = addressOf(script);
    return { address, module, tables: JSON.parse(textOf(tables)), isShared: await canShare(address) };
}

async function begin() {
    if (typeof WebAssembly !== "object") throw new Error("there is no WebAssembly");
    new Start(await tools());
    byId("start").hidden = false;
    document.documentElement.dataset.state = "start";
}

begin().catch((error) => {
    byId("answer").append(
        element("h2", {}, "This page can't work here"),
        element("p", {}, "It needs a browser of 2023 or later, with WebAssembly allowed."),
        element("p", {}, element("code", {}, String(error))),
    );
    document.documentElement.dataset.state = "failed";
    throw error;
});
