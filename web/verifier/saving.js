// What stands below the page of a database: its reports to be saved, and the way to another database.

import { element } from "../view/elements.js";
import { reportFor } from "./verification.js";

/** @typedef {import("../packer/reports.js").PageRequest} PageRequest */
/** @typedef {import("./types.js").Chosen} Chosen */
/** @typedef {import("./types.js").ReportName} ReportName */
/** @typedef {import("./verification.js").Tools} Tools */

/** The reports, and what each has. */
const REPORTS = [
    { name: "all", has: "matrix, counts and usage" },
    { name: "matrix", has: "which theorem rests on which axiom" },
    { name: "counts", has: "on how many axioms each theorem rests" },
    { name: "usage", has: "which theorems rest on each axiom" },
    { name: "citations", has: "what each proof cites" },
];

/**
 * How a saved report is called.
 * @param {string} name of the database
 * @param {string} report
 * @param {number} form
 */
function fileName(name, report, form) {
    const base = name.replace(/\.gz$/, "").replace(/\.mm$/, "");
    return `${base}.${report}${form === 2 ? ".form2" : ""}.txt`;
}

export class Saving {
    /**
     * @param {Tools} tools
     * @param {PageRequest} request
     * @param {Chosen} database
     * @param {() => void} begin shows the view at the start
     */
    constructor(tools, request, database, begin) {
        this.tools = tools;
        this.begin = begin;
        this.request = request;
        this.database = database;
        this.report = element("select", { id: "report" });
        for (const { name, has } of REPORTS) this.report.append(element("option", { value: name }, `${name}: ${has}`));
        this.form = element("select", { id: "form" });
        for (const form of [1, 2]) this.form.append(element("option", { value: form }, `form ${form}`));
        this.button = element("button", { type: "button", id: "save", onclick: () => this.save() }, "Save");
        this.status = element("span", { role: "status", id: "saved" });
        /** The address of the report that was saved last. */
        this.address = "";
    }

    parts() {
        const fields = element(
            "p",
            { class: "saving" },
            element("label", { for: "report" }, "Report"),
            this.report,
            element("label", { for: "form", class: "hidden" }, "Form"),
            this.form,
            this.button,
            this.status,
        );
        const name = "Another database, or other options";
        const again = element("button", { type: "button", id: "again", onclick: () => this.begin() }, name);
        const left = this.request.open ? ", but those that are left open" : "";
        const verified = `The core checked every proof of ${this.database.name} on this machine${left}.`;
        return [element("p", { id: "verified" }, verified), fields, element("p", {}, again)];
    }

    async save() {
        const report = /** @type {ReportName} */ (this.report.value);
        const form = this.form.value === "2" ? 2 : 1;
        this.button.disabled = true;
        this.status.textContent = "The report is being written.";
        try {
            const { request, tools, database } = this;
            const blob = await reportFor(tools, request, database.file, report, form);
            if (this.address !== "") URL.revokeObjectURL(this.address);
            this.address = URL.createObjectURL(blob);
            element("a", { href: this.address, download: fileName(database.name, report, form) }).click();
            this.status.textContent = "";
        } catch (error) {
            this.status.textContent = "The report can't be written: there is too little memory.";
        }
        this.button.disabled = false;
    }
}
