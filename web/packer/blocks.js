// Packs what the page shows into blocks of bytes; decode.js and model.js of the view read them. Two kinds of blocks are
// made elsewhere: `proof-..` by proof-packer.js, and `against` by difference.js.
//
// A number is written seven bits at a time, the lowest first; each byte but the last has its highest bit set. A text has
// one line for each entry. The blocks `comments-0` and so on have the comments of `COMMENTS_IN_BLOCK` assertions each, and are read
// when they are needed.

import { lowestOf } from "./bits.js";
import { Byte, Writer, encoded } from "./bytes.js";
import { flagsOf, putLine } from "./comments.js";
import { Conditions } from "./conditions.js";
import { ProofPacker } from "./proof-packer.js";
import { Vocabulary } from "./symbols.js";
import { readTypesetting } from "./typesetting.js";
import { visible } from "./visible.js";

/** @typedef {import("./reports.js").Dependence} Dependence */
/** @typedef {import("./text.js").Text} Text */
/** @typedef {import("./typesetting.js").Entities} Entities */
/** @typedef {import("../view/types.js").Piece} Piece */

/**
 * What the page says of its making.
 * @typedef {object} About
 * @property {string} title
 * @property {string} file
 * @property {number} bytes
 * @property {string | null} sha256
 * @property {string} maker
 * @property {string | null} only
 * @property {boolean} essential
 * @property {boolean} open
 * @property {string[]} watched
 */

/**
 * What takes blocks by their names, such as a map.
 * @typedef {{ set: (name: string, block: Uint8Array) => unknown }} BlockSink
 */

/** How many comments are in a block. */
const COMMENTS_IN_BLOCK = 512;
/** How many characters of a chapter's title the page shows, with that which says that it is cut. */
const LONGEST_TITLE = 160;

/**
 * A value in JSON, every sign in ASCII.
 * @param {unknown} value
 */
export function inJson(value) {
    const text = JSON.stringify(value);
    const escaped = (/** @type {string} */ sign) => `\\u${sign.charCodeAt(0).toString(16).padStart(4, "0")}`;
    return encoded(text.replace(/[\x7f-\uffff]/g, escaped));
}

/** @param {number} bits */
function countBits(bits) {
    let number = bits - ((bits >>> 1) & 0x55555555);
    number = (number & 0x33333333) + ((number >>> 2) & 0x33333333);
    return Math.imul((number + (number >>> 4)) & 0x0f0f0f0f, 0x01010101) >>> 24;
}

/** Packs the rows of a matrix, each as what differs from an earlier row, and how far above it that is. */
class MatrixPacker {
    /** @param {Dependence} dependence */
    constructor(dependence) {
        this.dependence = dependence;
        /** How many columns each row has. */
        this.sizes = new Uint32Array(dependence.theorems.length);
        this.above = new Writer();
        this.lengths = new Writer();
        this.gaps = new Writer();
        /** The row from which the fewest columns differ, how many these are, and how far above it is; 0 is none. */
        this.fewest = 0;
        this.distance = 0;
    }

    pack() {
        const { dependence } = this;
        for (let row = 0; row < dependence.theorems.length; row++) {
            this.begin(row);
            this.tryRow(row, row - 1);
            this.tryRow(row, row - 2);
            for (const cited of dependence.citedBy(row)) this.tryRow(row, dependence.rowOf[cited]);
            this.put(row);
        }
    }

    /** @param {number} row */
    begin(row) {
        const { bits, rowWords } = this.dependence;
        this.fewest = this.distance = 0;
        for (let word = row * rowWords; word < (row + 1) * rowWords; word++) this.fewest += countBits(bits[word]);
        this.sizes[row] = this.fewest;
    }

    /**
     * @param {number} row
     * @param {number} candidate
     */
    tryRow(row, candidate) {
        if (candidate < 0 || Math.abs(this.sizes[row] - this.sizes[candidate]) >= this.fewest) return;
        const { bits, rowWords } = this.dependence;
        const start = row * rowWords;
        const other = candidate * rowWords;
        let number = 0;
        for (let word = 0; word < rowWords && number < this.fewest; word++) {
            number += countBits(bits[start + word] ^ bits[other + word]);
        }
        if (number >= this.fewest) return;
        this.fewest = number;
        this.distance = row - candidate;
    }

    /** @param {number} row */
    put(row) {
        const { bits, rowWords } = this.dependence;
        const start = row * rowWords;
        this.above.number(this.distance);
        this.lengths.number(this.fewest);
        let expected = 0;
        for (let word = 0; word < rowWords; word++) {
            let left = bits[start + word];
            if (this.distance > 0) left ^= bits[start + word - this.distance * rowWords];
            for (; left !== 0; left &= left - 1) {
                const column = word * 32 + lowestOf(left);
                this.gaps.number(column - expected);
                expected = column + 1;
            }
        }
    }
}

/**
 * The matrix, the number of users of each column, and the citations.
 * @param {Dependence} dependence
 * @param {BlockSink} blocks
 */
export function packMarks(dependence, blocks) {
    const packer = new MatrixPacker(dependence);
    packer.pack();
    const users = new Writer();
    for (const number of dependence.users()) users.number(number);
    const lengths = new Writer();
    const gaps = new Writer();
    for (let row = 0; row < dependence.theorems.length; row++) {
        const cited = dependence.citedBy(row); // in file order, as the text is
        lengths.number(cited.length);
        let expected = 0;
        for (const number of cited) {
            gaps.number(number - expected);
            expected = number + 1;
        }
    }
    blocks.set("kinds", dependence.kinds());
    blocks.set("row-above", packer.above.taken());
    blocks.set("row-lengths", packer.lengths.taken());
    blocks.set("row-gaps", packer.gaps.taken());
    blocks.set("users", users.taken());
    blocks.set("cited-lengths", lengths.taken());
    blocks.set("cited-gaps", gaps.taken());
}

/**
 * The labels of statements as lines.
 * @param {Text} text
 * @param {import("./text.js").Statements} statements
 */
function packLabels(text, statements) {
    const writer = new Writer();
    for (let number = 0; number < statements.size; number++) {
        if (number > 0) writer.push(Byte.newline);
        writer.stretch(text.data, statements.labels.items[number], statements.labelEnds.items[number]);
    }
    return writer.taken();
}

/**
 * The line of each assertion, as the gap to that of the one before.
 * @param {Text} text
 */
function packPlaces(text) {
    const writer = new Writer();
    let place = 0;
    for (let number = 0; number < text.size; number++) {
        const label = text.places.items[number];
        writer.number(newlinesIn(text.source, place, label) + (number === 0 ? 1 : 0));
        place = label;
    }
    return writer.taken();
}

/**
 * How many lines end in a stretch.
 * @param {Uint8Array} data
 * @param {number} start
 * @param {number} end
 */
function newlinesIn(data, start, end) {
    let count = 0;
    for (let place = start; place < end; place++) if (data[place] === Byte.newline) count++;
    return count;
}

/**
 * Of each assertion how many `$e` it has, and the gaps between their numbers. Those of open blocks come again, so gaps
 * are from the first one of the assertion before.
 * @param {Text} text
 */
function packHypotheses(text) {
    const lengths = new Writer();
    const gaps = new Writer();
    let first = 0;
    for (let index = 0; index < text.size; index++) {
        const active = text.essential.of(index);
        lengths.number(active.length);
        active.forEach((number, at) => {
            if (at > 0) gaps.number(number - active[at - 1] - 1);
            else gaps.number(number >= first ? 2 * (number - first) : 2 * (first - number) - 1);
        });
        if (active.length > 0) first = active[0];
    }
    return { lengths: lengths.taken(), gaps: gaps.taken() };
}

/**
 * A title, cut where it is too long to be shown whole.
 * @param {string} title
 */
function shortened(title) {
    return title.length <= LONGEST_TITLE ? title : `${title.slice(0, LONGEST_TITLE - 1).trimEnd()}\u2026`;
}

/**
 * Each header: level, number, title, first assertion, and the one after the last.
 * @param {Text} text
 */
function chaptersOf(text) {
    return text.headers.map(({ level, number, title, first, end }) => [
        level,
        number,
        visible(shortened(title)) || "(no title)",
        first,
        end,
    ]);
}

/**
 * How symbols are shown, and which of them look like one that comes earlier.
 * @param {Text} text
 * @param {Vocabulary} vocabulary
 * @param {Entities} entities
 */
function symbolsOf(text, vocabulary, entities) {
    const typesetting = readTypesetting(text.typesetting, entities);
    const used = Array.from(vocabulary.used.taken(), (symbol) => vocabulary.at(symbol));
    const known = new Set(used);
    const shown = [...typesetting.symbols].filter(([name]) => known.has(name));
    const piecesOf = new Map(shown);
    const looks = new Set();
    const alike = [];
    for (const name of used) {
        /** @type {Piece[]} */
        const pieces = piecesOf.get(name) ?? [[name, ""]];
        const seen = pieces.map(([written, tags]) => [written.trim(), tags]).filter(([written]) => written !== "");
        const look = JSON.stringify(seen);
        if (looks.has(look)) alike.push(name);
        looks.add(look);
    }
    return { symbols: shown, alike, legend: typesetting.legend, bibliography: typesetting.bibliography };
}

/**
 * What stands in the text beside comments.
 * @param {Text} text
 * @param {About} about
 * @param {Entities} entities
 * @param {BlockSink} blocks
 */
function packStatements(text, about, entities, blocks) {
    const vocabulary = new Vocabulary(text);
    const formulas = vocabulary.read(text.assertions);
    const given = vocabulary.read(text.hypotheses);
    const variables = Array.from(vocabulary.variables.taken(), (variable) => [
        vocabulary.at(variable),
        vocabulary.at(vocabulary.typecodes[variable]),
    ]);
    const facts = {
        ...about,
        hypotheses: text.hypotheses.size,
        commentsInBlock: COMMENTS_IN_BLOCK,
        chapters: chaptersOf(text),
        variables,
        ...symbolsOf(text, vocabulary, entities),
    };
    const { lengths, gaps } = packHypotheses(text);
    blocks.set("facts", inJson(facts));
    blocks.set("labels", packLabels(text, text.assertions));
    blocks.set("formulas", formulas.lines);
    blocks.set("conditions", new Conditions(vocabulary, formulas.variables, given.variables).lines());
    blocks.set("lines", packPlaces(text));
    blocks.set("hypothesis-labels", packLabels(text, text.hypotheses));
    blocks.set("hypothesis-formulas", given.lines);
    blocks.set("hypothesis-lengths", lengths);
    blocks.set("hypothesis-gaps", gaps);
}

/**
 * The comments block by block, the flags of each, and the texts below the titles of chapters.
 * @param {Text} text
 * @param {BlockSink} blocks
 */
function packComments(text, blocks) {
    const { source: data, comments, commentEnds } = text;
    const flags = new Uint8Array(text.size);
    const writer = new Writer();
    for (let number = 0; number < text.size; number++) {
        if (number % COMMENTS_IN_BLOCK > 0) writer.push(Byte.newline);
        const start = comments.items[number];
        const end = commentEnds.items[number];
        flags[number] = flagsOf(data, start, end);
        putLine(writer, data, start, end);
        const isLast = number % COMMENTS_IN_BLOCK === COMMENTS_IN_BLOCK - 1 || number === text.size - 1;
        if (isLast) blocks.set(`comments-${Math.floor(number / COMMENTS_IN_BLOCK)}`, writer.taken());
    }
    text.headers.forEach(({ below, stop }, at) => {
        if (at > 0) writer.push(Byte.newline);
        let start = below;
        let end = stop;
        while (start < end && data[start] <= Byte.space) start++;
        while (start < end && data[end - 1] <= Byte.space) end--;
        putLine(writer, data, start, end);
    });
    blocks.set("flags", flags);
    blocks.set("chapter-texts", writer.taken());
}

/**
 * Packs what the text alone gives.
 * @param {Text} text
 * @param {About} about
 * @param {Entities} entities
 * @param {BlockSink} blocks
 */
export function packText(text, about, entities, blocks) {
    packStatements(text, about, entities, blocks);
    packComments(text, blocks);
}

/**
 * Packs what the reports give.
 * @param {Dependence} dependence
 * @param {BlockSink} blocks
 */
export function packReports(dependence, blocks) {
    packMarks(dependence, blocks);
    const proofs = new ProofPacker(dependence);
    proofs.packFrames(blocks);
    proofs.packSteps(0, Infinity, blocks);
}
