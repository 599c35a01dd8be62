// Puts the blocks of a database into the one file of its page.

import { Fnv, encoded } from "./bytes.js";

/**
 * The page without its data: texts, and between them, at the odd places, the names of what is put there, `title` and
 * `data`. web/build makes it, with style, script and policy.
 * @typedef {string[]} Shell
 */

/** How many signs a line of a block has. */
const WIDTH = 120;
const ESCAPES = new Map([
    ["&", "&amp;"],
    ["<", "&lt;"],
    [">", "&gt;"],
    ['"', "&quot;"],
    ["'", "&#x27;"],
]);

/**
 * A text as HTML has it, between tags and in attributes.
 * @param {string} text
 */
function escaped(text) {
    return text.replace(/[&<>"']/g, (sign) => /** @type {string} */ (ESCAPES.get(sign)));
}

/**
 * A block in its element. Deflated and in base64, nothing of it can end an element of the page.
 * @param {string} name
 * @param {string} signs in base64
 * @param {string} page the number of the page
 */
function holder(name, signs, page) {
    const lines = [];
    for (let at = 0; at < signs.length; at += WIDTH) lines.push(signs.slice(at, at + WIDTH));
    const attributes = `type="application/octet-stream" id="data-${name}" data-page="${page}"`;
    return `<script ${attributes}>\n${lines.join("\n")}\n</script>`;
}

/**
 * A number of the page, by all its blocks. Each of them has it, so that none can be taken for one of another page.
 * @param {Iterable<string>} blocks in base64
 */
function pageNumber(blocks) {
    let sum = Fnv.first;
    for (const signs of blocks) {
        const bytes = encoded(signs);
        for (let at = 0; at < bytes.length; at++) sum = Math.imul(sum ^ bytes[at], Fnv.prime);
    }
    return (sum >>> 0).toString(16).padStart(8, "0");
}

/**
 * How hard a block is deflated, by the levels of zlib: proofs hardly get smaller where it takes four times as long.
 * @param {string} name
 */
export function levelOf(name) {
    return name.startsWith("proof-") ? 6 : 9;
}

/**
 * The page of a database.
 * @param {Shell} shell
 * @param {string} title without signs that no screen shows
 * @param {Map<string, string>} blocks deflated, in base64
 */
export function pageFile(shell, title, blocks) {
    const page = pageNumber(blocks.values());
    const data = Array.from(blocks, ([name, signs]) => holder(name, signs, page)).join("\n");
    /** @type {Record<string, string>} */
    const parts = { title: escaped(title), data };
    return shell.map((part, at) => (at % 2 === 0 ? part : parts[part])).join("");
}
