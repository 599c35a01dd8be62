// Verifies a database, and one beside it where it is to be compared, and makes the blocks of the page.

import { Helper } from "./helpers.js";

/** @typedef {import("../packer/reports.js").PageRequest} PageRequest */
/** @typedef {import("./types.js").Chosen} Chosen */
/** @typedef {import("./types.js").Contents} Contents */
/** @typedef {import("./types.js").PackedBlocks} PackedBlocks */
/** @typedef {import("./types.js").ReportName} ReportName */
/** @typedef {import("./types.js").Tables} Tables */
/** @typedef {import("./types.js").Reply} Reply */

/**
 * What the page has for its work.
 * @typedef {object} Tools
 * @property {string} address of the workers' script
 * @property {Uint8Array} module
 * @property {Tables} tables
 * @property {boolean} isShared whether workers can read what the browser holds
 */

/** A run of the program's core over one or two databases. */
export class Verification {
    /**
     * @param {Tools} tools
     * @param {PageRequest} request
     * @param {Chosen[]} files that of the page, and then the older release
     * @param {(text: string, part: number | null) => void} tell is told what is done, and how much of it
     */
    constructor(tools, request, files, tell) {
        this.tools = tools;
        this.request = request;
        this.files = files;
        this.tell = tell;
        /** The file that is verified now. */
        this.current = files[0];
        /** How much memory the module had at most, in bytes. */
        this.memory = 0;
        /** @type {Set<Helper>} */
        this.helpers = new Set();
    }

    /**
     * Does it all. Stopped where there is no answer; `current` is the database of which that is said.
     * @returns {Promise<PackedBlocks>}
     */
    async run() {
        /** @type {Uint8Array[]} */
        const reports = [];
        for (const each of this.files) reports.push(await this.verify(each));
        this.current = this.files[0];
        this.tell("Making the index", null);
        const { maker, entities } = this.tools.tables;
        const { files, request } = this;
        const packer = this.helper(() => {});
        const task = { task: /** @type {const} */ ("pack"), files, reports, request, maker, entities };
        const { blocks } = await packer.ask(task, "packed", reports.map((report) => report.buffer));
        this.end(packer);
        return blocks;
    }

    /**
     * Verifies a database in a worker, which is ended then, since its memory is needed.
     * @param {Chosen} chosen
     * @returns {Promise<Uint8Array>}
     */
    async verify(chosen) {
        this.current = chosen;
        const { name, file } = chosen;
        const prover = this.helper((reply) => this.hear(name, reply));
        const { module } = this.tools;
        const reply = await prover.ask({ task: "verify", file, module, request: this.request }, "verified");
        this.end(prover);
        this.memory = Math.max(this.memory, reply.memory);
        return reply.report;
    }

    /**
     * @param {string} name
     * @param {Reply} reply
     */
    hear(name, reply) {
        if (reply.stage === "reading") this.tell(`Reading ${name}`, reply.part);
        else this.tell(`Checking every proof of ${name}`, null);
    }

    /** @param {(reply: Reply) => void} tell */
    helper(tell) {
        const made = new Helper(this.tools.address, tell);
        this.helpers.add(made);
        return made;
    }

    /** @param {Helper} helper */
    end(helper) {
        helper.end();
        this.helpers.delete(helper);
    }

    /** Ends all that runs. */
    cancel() {
        for (const helper of this.helpers) helper.end();
        this.helpers.clear();
    }
}

/**
 * A report of the program, for a file that was accepted. Stopped where there is no answer.
 * @param {Tools} tools
 * @param {PageRequest} request
 * @param {Contents} file
 * @param {ReportName} report
 * @param {1 | 2} form
 * @returns {Promise<Blob>}
 */
export async function reportFor(tools, request, file, report, form) {
    const helper = new Helper(tools.address, () => {});
    try {
        const ask = { task: /** @type {const} */ ("save"), file, module: tools.module, request, report, form };
        const reply = await helper.ask(ask, "saved");
        return reply.report instanceof Blob ? reply.report : new Blob([reply.report], { type: "text/plain" });
    } finally {
        helper.end();
    }
}
