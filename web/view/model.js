// What the page knows: assertions, marks, citations, chapters. The marks are those that the program wrote; nothing here
// computes on what a theorem rests.

import { Flag, Kind } from "../packer/assertions.js";
import { columnsIn, lowestOf } from "../packer/bits.js";
import { Chapters } from "./chapters.js";
import { Lists, NumberReader, Texts, numbersOf, startsOf, textOf } from "./decode.js";

/** @typedef {import("./types.js").Conditions} Conditions */
/** @typedef {import("./types.js").Difference} Difference */
/** @typedef {import("./types.js").Facts} Facts */
/** @typedef {import("./types.js").Stretch} Stretch */

/**
 * What gives the blocks of data: `load` those that are read when they are needed, `get` the others.
 * @typedef {object} BlockSource
 * @property {(name: string) => boolean} has
 * @property {(name: string) => Uint8Array} get
 * @property {(name: string) => Promise<Uint8Array>} load
 */

/** The groups of axioms, in the order in which they are shown. */
export const GROUPS = [
    { key: "axiom", one: "Axiom", name: "Axioms", hint: "labels that begin with ax-" },
    { key: "definition", one: "Definition", name: "Definitions", hint: "labels that begin with df-" },
    { key: "logic", one: "Logical axiom", name: "Other logical axioms", hint: "of typecode |-" },
    { key: "open", one: "Open theorem", name: "Open theorems", hint: "no proof yet" },
    { key: "syntax", one: "Syntax", name: "Syntax", hint: "of other typecodes than |-" },
];
export const Group = { axiom: 0, definition: 1, logic: 2, open: 3, syntax: 4 };

/**
 * Whether a block is read only when it is needed.
 * @param {string} name
 */
export function isLater(name) {
    return /^(?:comments-|proof-)/.test(name) || name === "chapter-texts" || name === "against";
}

/** The database. Assertions are numbers from 0, in file order; theorems have a row, axioms a column. */
export class Model {
    /** @param {BlockSource} blocks */
    constructor(blocks) {
        this.blocks = blocks;
        /** @type {Facts} */
        this.facts = JSON.parse(textOf(blocks.get("facts")));
        this.kinds = blocks.get("kinds");
        this.flags = blocks.get("flags");
        this.size = this.kinds.length;
        this.labels = this.texts("labels", this.size);
        this.formulas = this.texts("formulas", this.size);
        this.conditionLines = this.texts("conditions", this.size);
        this.hypothesisLabels = this.texts("hypothesis-labels", this.facts.hypotheses);
        this.hypothesisFormulas = this.texts("hypothesis-formulas", this.facts.hypotheses);
        this.lines = numbersOf(blocks.get("lines"));
        for (let number = 1; number < this.size; number++) this.lines[number] += this.lines[number - 1];
        this.typecodeOf = new Map(this.facts.variables);
        this.usersOf = numbersOf(blocks.get("users"));
        this.rowOf = new Int32Array(this.size).fill(-1);
        this.columnOf = new Int32Array(this.size).fill(-1);
        const { theorems, axioms } = this.numberRowsAndColumns();
        this.theorems = theorems;
        this.axioms = axioms;
        this.hypotheses = readHypotheses(blocks);
        this.rowWords = Math.ceil(this.axioms.length / 32);
        this.bits = this.readRows(blocks);
        this.cited = Lists.fromGaps(blocks.get("cited-lengths"), blocks.get("cited-gaps"));
        this.groupOf = new Uint8Array(this.axioms.length);
        this.groupSizes = GROUPS.map(() => 0);
        this.groups = this.putIntoGroups();
        this.chapters = new Chapters(this.facts.chapters, this.size);
        this.listStretches = this.stretches(this.chapters.listLevel);
        /** @type {Map<string, number> | undefined} */
        this.numbers = undefined;
        /** @type {(Texts | undefined)[]} */
        this.commentBlocks = new Array(Math.ceil(this.size / this.facts.commentsInBlock));
        /** @type {Lists | undefined} */
        this.citers = undefined;
        /** @type {Int32Array | undefined} */
        this.knownFirstUsers = undefined;
        /** @type {Texts | undefined} */
        this.chapterTexts = undefined;
        /** @type {Difference | undefined} */
        this.knownDifference = undefined;
    }

    /**
     * @param {string} name
     * @param {number} size
     */
    texts(name, size) {
        return new Texts(textOf(this.blocks.get(name)), size);
    }

    /** Theorems have a row each and axioms a column, both in file order; -1 is none. */
    numberRowsAndColumns() {
        const theorems = [];
        const axioms = [];
        for (let number = 0; number < this.size; number++) {
            const kind = this.kinds[number];
            if (kind === Kind.theorem) this.rowOf[number] = theorems.push(number) - 1;
            if (kind === Kind.column || kind === Kind.openColumn) this.columnOf[number] = axioms.push(number) - 1;
        }
        return { theorems: Uint32Array.from(theorems), axioms: Uint32Array.from(axioms) };
    }

    /**
     * The rows of the matrix, `rowWords` numbers of 32 bits each; column c is bit c % 32 of number c / 32. Each is written as
     * what differs from the row that is so many rows `above` it, as MatrixPacker of packer/blocks.js writes it; 0 is none.
     * @param {BlockSource} blocks
     */
    readRows(blocks) {
        const words = this.rowWords;
        const bits = new Uint32Array(this.theorems.length * words);
        const above = new NumberReader(blocks.get("row-above"));
        const lengths = new NumberReader(blocks.get("row-lengths"));
        const gaps = new NumberReader(blocks.get("row-gaps"));
        for (let row = 0; row < this.theorems.length; row++) {
            const start = row * words;
            const distance = above.next();
            if (distance > 0) bits.copyWithin(start, start - distance * words, start - (distance - 1) * words);
            let column = -1;
            for (let left = lengths.next(); left > 0; left--) {
                column += 1 + gaps.next();
                bits[start + (column >>> 5)] ^= 1 << (column & 31);
            }
        }
        return bits;
    }

    putIntoGroups() {
        const codes = Array.from(this.axioms, (number) => firstWord(this.formulas.at(number)));
        const hasLogic = codes.includes("|-");
        this.axioms.forEach((number, column) => {
            const label = this.labels.at(number);
            let group = codes[column] === "|-" || !hasLogic ? Group.logic : Group.syntax;
            if (label.startsWith("ax-")) group = Group.axiom;
            if (label.startsWith("df-")) group = Group.definition;
            if (this.kinds[number] === Kind.openColumn) group = Group.open;
            this.groupOf[column] = group;
            this.groupSizes[group]++;
        });
        // Where no label tells axioms and definitions apart, the logical ones are simply the axioms.
        const groups = GROUPS.map((group) => ({ ...group }));
        if (!this.groupSizes[Group.axiom] && !this.groupSizes[Group.definition]) {
            groups[Group.logic].name = "Axioms and definitions";
            groups[Group.logic].one = "Axiom";
            if (!hasLogic) groups[Group.logic].hint = "all of them";
        }
        return groups;
    }

    /** The formulas of all axioms. */
    *formulasOfAxioms() {
        for (let number = 0; number < this.size; number++) {
            const kind = this.kinds[number];
            if (kind === Kind.column || kind === Kind.otherAxiom) yield this.formulas.at(number);
        }
    }

    /** How many axioms there are on which a theorem rests. */
    get usedAxioms() {
        return this.usersOf.reduce((number, users) => number + (users > 0 ? 1 : 0), 0);
    }

    /** The group of axioms that matter first: those called so, or else the other logical ones. */
    get firstGroup() {
        return this.groupSizes[Group.axiom] > 0 ? Group.axiom : Group.logic;
    }

    /**
     * The stretches of the file between headings, with the rows of the theorems in them.
     * @param {number} level
     * @returns {Stretch[]}
     */
    stretches(level) {
        const stretches = this.chapters.stretches(level);
        return stretches.map((stretch) => ({ ...stretch, ...this.rowsOf(stretch.first, stretch.end) }));
    }

    /**
     * The rows of the theorems among some assertions.
     * @param {number} first
     * @param {number} end
     */
    rowsOf(first, end) {
        const firstRow = this.rowsBefore(first);
        const endRow = this.rowsBefore(end);
        return { firstRow, endRow, theorems: endRow - firstRow };
    }

    /**
     * How many theorems stand before an assertion.
     * @param {number} number
     */
    rowsBefore(number) {
        let low = 0;
        let high = this.theorems.length;
        while (low < high) {
            const middle = (low + high) >>> 1;
            if (this.theorems[middle] < number) low = middle + 1;
            else high = middle;
        }
        return low;
    }

    /**
     * The assertion with a label, or undefined.
     * @param {string} label
     */
    numberOf(label) {
        this.numbers ??= new Map(Array.from({ length: this.size }, (_, number) => [this.labels.at(number), number]));
        return this.numbers.get(label);
    }

    /** @param {number} column */
    labelOfColumn(column) {
        return this.labels.at(this.axioms[column]);
    }

    /** @param {number} column */
    groupKey(column) {
        return GROUPS[this.groupOf[column]].key;
    }

    /**
     * @param {number} row
     * @param {number} column
     */
    isMarked(row, column) {
        return ((this.bits[row * this.rowWords + (column >>> 5)] >>> (column & 31)) & 1) === 1;
    }

    /**
     * The columns on which a theorem rests.
     * @param {number} row
     */
    columnsOf(row) {
        return columnsIn(this.bits.subarray(row * this.rowWords, (row + 1) * this.rowWords));
    }

    /**
     * Of each theorem whether it has a mark under any of the columns.
     * @param {number[]} columns
     */
    restsOnAny(columns) {
        const falls = new Uint8Array(this.theorems.length);
        for (const column of columns) {
            const shift = column & 31;
            let word = column >>> 5;
            for (let row = 0; row < falls.length; row++) {
                falls[row] |= (this.bits[word] >>> shift) & 1;
                word += this.rowWords;
            }
        }
        return falls;
    }

    /**
     * How many theorems of some rows rest on an axiom.
     * @param {number} column
     * @param {number} firstRow
     * @param {number} endRow
     */
    usersAmong(column, firstRow, endRow) {
        let users = 0;
        const shift = column & 31;
        const word = column >>> 5;
        for (let row = firstRow; row < endRow; row++) users += (this.bits[row * this.rowWords + word] >>> shift) & 1;
        return users;
    }

    /** For each column the first row that is marked, or -1. */
    get firstUsers() {
        if (!this.knownFirstUsers) {
            const first = new Int32Array(this.axioms.length).fill(-1);
            let left = this.usedAxioms;
            const seen = new Uint32Array(this.rowWords);
            for (let row = 0; row < this.theorems.length && left > 0; row++) {
                for (let word = 0; word < this.rowWords; word++) {
                    let fresh = this.bits[row * this.rowWords + word] & ~seen[word];
                    seen[word] |= fresh;
                    while (fresh !== 0) {
                        first[word * 32 + lowestOf(fresh)] = row;
                        fresh &= fresh - 1;
                        left--;
                    }
                }
            }
            this.knownFirstUsers = first;
        }
        return this.knownFirstUsers;
    }

    /**
     * The assertions that a theorem cites.
     * @param {number} number
     * @returns {number[]}
     */
    citedBy(number) {
        const row = this.rowOf[number];
        return row < 0 ? [] : Array.from(this.cited.of(row));
    }

    /**
     * The theorems that cite an assertion.
     * @param {number} number
     */
    citersOf(number) {
        this.citers ??= this.turnCitations();
        return this.citers.of(number);
    }

    turnCitations() {
        const { starts: from, items: cited } = this.cited;
        const sizes = new Uint32Array(this.size);
        for (let index = 0; index < cited.length; index++) sizes[cited[index]]++;
        const starts = startsOf(sizes);
        const free = starts.slice();
        const items = new Uint32Array(cited.length);
        for (let row = 0; row < this.theorems.length; row++) {
            for (let index = from[row]; index < from[row + 1]; index++) {
                items[free[cited[index]]++] = this.theorems[row];
            }
        }
        return new Lists(starts, items);
    }

    /**
     * A shortest chain of citations from a theorem to an axiom on which it rests, both included. Each theorem in it is
     * marked under the axiom. Of several shortest chains it is the one whose next assertion stands first.
     * @param {number} theorem
     * @param {number} axiom
     */
    chain(theorem, axiom) {
        const column = this.columnOf[axiom];
        const steps = new Uint32Array(theorem + 1); // of the shortest chain from here, with both ends; 0 is none
        const following = new Uint32Array(theorem + 1);
        steps[axiom] = 1;
        for (let row = 0; row <= this.rowOf[theorem]; row++) {
            if (!this.isMarked(row, column)) continue;
            const number = this.theorems[row];
            for (const cited of this.cited.of(row)) {
                if (steps[cited] > 0 && (steps[number] === 0 || steps[cited] + 1 < steps[number])) {
                    steps[number] = steps[cited] + 1;
                    following[number] = cited;
                }
            }
        }
        if (steps[theorem] === 0) return [];
        const chain = [theorem];
        while (chain[chain.length - 1] !== axiom) chain.push(following[chain[chain.length - 1]]);
        return chain;
    }

    /**
     * What an assertion is, in a word.
     * @param {number} number
     */
    kindName(number) {
        if (this.kinds[number] === Kind.theorem) return "Theorem";
        if (this.kinds[number] === Kind.openColumn || this.kinds[number] === Kind.otherOpen) return "Open theorem";
        const column = this.columnOf[number];
        return column < 0 ? "Axiom" : this.groups[this.groupOf[column]].one;
    }

    /**
     * The conditions of distinct variables of an assertion, or null if it has neither these nor dummy variables.
     * @param {number} number
     * @returns {Conditions | null}
     */
    conditions(number) {
        const line = this.conditionLines.at(number);
        if (line === "") return null;
        const [groups, dummies = "", others = ""] = line.split("\t");
        const areAll = others === "*";
        return {
            groups: groupsOf(groups),
            dummies: dummies === "" ? [] : dummies.split(" "),
            proofGroups: areAll ? [] : groupsOf(others),
            areAll,
        };
    }

    /**
     * Whether an assertion's user has to heed conditions of distinct variables.
     * @param {number} number
     */
    hasConditions(number) {
        const { text, starts } = this.conditionLines;
        const start = starts[number];
        return start < starts[number + 1] - 1 && text[start] !== "\t";
    }

    /**
     * Reads the comments of a block.
     * @param {number} block
     */
    async loadComments(block) {
        const known = this.commentBlocks[block];
        if (known) return known;
        const size = Math.min(this.facts.commentsInBlock, this.size - block * this.facts.commentsInBlock);
        const texts = new Texts(textOf(await this.blocks.load(`comments-${block}`)), size);
        this.commentBlocks[block] = texts;
        return texts;
    }

    /**
     * The comment of an assertion, as one line.
     * @param {number} number
     */
    async comment(number) {
        if (!(this.flags[number] & Flag.comment)) return "";
        return (await this.loadComments(Math.floor(number / this.facts.commentsInBlock))).at(number % this.facts.commentsInBlock);
    }

    /**
     * The comment of an assertion if its block has been read, otherwise undefined.
     * @param {number} number
     */
    knownComment(number) {
        return this.commentBlocks[Math.floor(number / this.facts.commentsInBlock)]?.at(number % this.facts.commentsInBlock);
    }

    /**
     * The text below the title of a chapter, as one line.
     * @param {number} index
     */
    async chapterText(index) {
        const block = await this.blocks.load("chapter-texts");
        this.chapterTexts ??= new Texts(textOf(block), this.chapters.list.length);
        return this.chapterTexts.at(index);
    }

    /** Whether the page compares with an older release. */
    get isCompared() {
        return this.blocks.has("against");
    }

    /**
     * What is new, gone and renamed since the older release.
     * @returns {Promise<Difference>}
     */
    async difference() {
        const known = this.knownDifference ?? JSON.parse(textOf(await this.blocks.load("against")));
        this.knownDifference = known;
        return known;
    }
}

/**
 * The hypotheses of each assertion, as `packHypotheses` of blocks.js writes them: the first gap is from the first
 * hypothesis of the assertion before, and odd where it goes back.
 * @param {BlockSource} blocks
 */
function readHypotheses(blocks) {
    const starts = startsOf(numbersOf(blocks.get("hypothesis-lengths")));
    const items = numbersOf(blocks.get("hypothesis-gaps"));
    let first = 0;
    for (let index = 0; index + 1 < starts.length; index++) {
        for (let item = starts[index]; item < starts[index + 1]; item++) {
            const gap = items[item];
            if (item > starts[index]) items[item] = items[item - 1] + 1 + gap;
            else items[item] = first += gap % 2 ? -(gap + 1) / 2 : gap / 2;
        }
    }
    return new Lists(starts, items);
}

/**
 * Groups of variables, written as conditions.js of the packer writes them.
 * @param {string} text
 */
function groupsOf(text) {
    return text === "" ? [] : text.split("$").map((group) => group.split(" "));
}

/** @param {string} text */
export function firstWord(text) {
    const end = text.indexOf(" ");
    return end < 0 ? text : text.slice(0, end);
}
