// What a page needs beside its blocks: what it says of its making, the sides of a comparison, and why there is no page.

import { packDifference } from "./difference.js";
import { readReport } from "./reports.js";
import { Side } from "./pairing.js";
import { visible } from "./visible.js";

/** @typedef {import("./blocks.js").About} About */
/** @typedef {import("./blocks.js").BlockSink} BlockSink */
/** @typedef {import("./reports.js").PageRequest} PageRequest */
/** @typedef {import("./text.js").Text} Text */

/** Something that the page of a database needs and the database lacks; the message is a sentence for the reader. */
export class NoAnswer extends Error {
    /**
     * @param {string} name of the database
     * @param {string} lack such as `has no axiom`
     */
    constructor(name, lack) {
        super(`${visible(name)} ${lack}.`);
        this.lack = lack;
    }
}

/**
 * A database as the page calls it, with what its report says.
 * @typedef {{ name: string, side: Side }} Named
 */

/**
 * What is wished of a page beside its database.
 * @typedef {object} Wishes
 * @property {string} maker which program makes it
 * @property {string} [title] else it is the name of the file
 * @property {string[]} [watched] labels of axioms that each chapter speaks of first
 */

/**
 * What the page says of its making, without signs that no screen shows.
 * @param {string} name how the page calls the file
 * @param {number} bytes how many the file has
 * @param {string | null} sha256
 * @param {PageRequest} request
 * @param {Wishes} wishes
 * @returns {About}
 */
export function aboutPage(name, bytes, sha256, { only, essential, open }, { maker, title = name, watched = [] }) {
    return {
        title: visible(title),
        file: visible(name),
        bytes,
        sha256,
        maker: visible(maker),
        only: only && visible(only),
        essential,
        open,
        watched,
    };
}

/**
 * A text beside what its report says of marks and citations. NoAnswer where a page would have nothing to show.
 * @param {string} name how the page calls the file
 * @param {Text} text
 * @param {PageRequest} request
 * @param {Uint8Array} report that of the program with matrix, citations and statements, in form 2 and of all typecodes
 */
export function sideOf(name, text, request, report) {
    const dependence = readReport(text, request, report);
    if (dependence.axioms.length === 0 && request.only !== null) {
        throw new NoAnswer(name, `has no axiom of typecode '${visible(request.only)}'`);
    }
    if (text.size === 0) throw new NoAnswer(name, "has neither axioms nor theorems");
    return new Side(text, dependence);
}

/**
 * Packs what became of an older release.
 * @param {Named} older
 * @param {Named} now
 * @param {BlockSink} blocks
 */
export function packComparison(older, now, blocks) {
    for (const { name, side } of [older, now]) {
        if (side.dependence.axioms.length === 0) throw new NoAnswer(name, "has no axiom to compare");
    }
    blocks.set("against", packDifference(older.side, now.side, older.name));
}
