// The blocks of small texts, for tests: the reports of these are made here.

import { encoded } from "../packer/bytes.js";
import { packReports, packText } from "../packer/blocks.js";
import { readReport } from "../packer/reports.js";
import { readText } from "../packer/text.js";
import { Model } from "../view/model.js";

/** In place of the signs that HTML names: none. */
export const NO_ENTITIES = { named: {}, numbers: {}, none: [] };
export const PLAIN = { only: null, essential: false, open: false };

/**
 * What theorems cite that cite nothing: those of which `said` has a `$p`.
 * @param {Record<string, string>} said
 * @returns {Record<string, string[]>}
 */
function citesNothing(said) {
    const theorems = Object.keys(said).filter((label) => said[label].includes("$p"));
    return Object.fromEntries(theorems.map((label) => [label, []]));
}

/**
 * The report of a text, in which each label has `said` behind its places, and cites what `cites` has.
 * @param {string} text
 * @param {Record<string, string>} said
 */
export function reportOf(text, said, cites = citesNothing(said)) {
    const labels = Object.keys(said);
    const axioms = labels.filter((label) => !cites[label]);
    const theorems = labels.filter((label) => cites[label]);
    const marks = new Map(axioms.map((label) => [label, new Set([label])]));
    for (const label of theorems) marks.set(label, new Set(cites[label].flatMap((other) => [...(marks.get(other) ?? [])])));
    /** @param {string} label */
    const digitsOf = (label) => {
        let digits = "";
        for (let at = 0; at < axioms.length; at += 4) {
            const four = [0, 1, 2, 3].map((more) => (marks.get(label)?.has(axioms[at + more]) ? 8 >> more : 0));
            digits += four.reduce((sum, bit) => sum + bit).toString(16);
        }
        return digits;
    };
    const places = new Map(Array.from(text.matchAll(/(?<=^|\s)(\S+) \$[ap]/g), ({ 1: label, index }) => [label, index]));
    const lines = labels.map((label) => {
        const place = places.get(label);
        return `${label}:${cites[label] ? "p" : "a"}:${place}:${text.indexOf("$.", place) + 2}:${said[label]}`;
    });
    return [
        ...["mmdepend 2", `axioms ${axioms.length}`, `theorems ${theorems.length}`, "matrix"],
        ...theorems.map((label) => `${label}:${digitsOf(label)}`),
        "citations",
        ...theorems.map((label) => `${label}:${cites[label].length}:${cites[label].join(" ")}`),
        ...["statements", ...lines, "end", ""],
    ].join("\n");
}

/**
 * The blocks of a text.
 * @param {string} text
 * @param {Record<string, string>} said
 * @param {Record<string, string[]>} cites
 */
export function blocksOf(text, said, cites) {
    const report = encoded(reportOf(text, said, cites));
    const read = readText(encoded(text), report);
    const about = { title: "t", file: "x.mm", bytes: 1, sha256: null, maker: "x", watched: [], ...PLAIN };
    /** @type {Map<string, Uint8Array>} */
    const blocks = new Map();
    packText(read, about, NO_ENTITIES, blocks);
    packReports(readReport(read, PLAIN, report), blocks);
    return blocks;
}

/**
 * The model that blocks give.
 * @param {Map<string, Uint8Array>} blocks
 */
export function modelOf(blocks) {
    /** @param {string} name */
    const get = (name) => /** @type {Uint8Array} */ (blocks.get(name));
    return new Model({ has: (name) => blocks.has(name), get, load: async (name) => get(name) });
}
