// Finds assertions by label, formula in both spellings, and comment. Several words may stand in any order.

import { Texts } from "./decode.js";
import { firstWord } from "./model.js";
import { plain } from "./symbols.js";
import { SLICE } from "./turns.js";

/** @typedef {import("./model.js").Model} Model */
/** @typedef {import("./symbols.js").Symbols} Symbols */
/** @typedef {import("./types.js").Found} Found */

/** Where a word was found, as bits. */
const In = { label: 1, formula: 2, comment: 4 };

/**
 * What each word adds to the rank of an assertion, by the best place where it was found. A word in a label is worth more
 * than two in formulas.
 */
const WordRank = { wholeLabel: 40, beginsLabel: 24, inLabel: 16, inFormula: 6, inComment: 0 };
/**
 * What a formula adds in which several words stand side by side, and one that is just what was typed: once, and again for
 * each word after the first. Where one word was typed, a label that has it comes before the formula that it is, since 16
 * is more than 6 + 9. Where there were several, the formula comes before a label that has them all, since for each of
 * the others it adds 6 + 18 and a label 16.
 */
const FormulaRank = { sideBySide: 8, isTyped: 9, isTypedMore: 18 };
/** A phrase in quotes, or a word. Quotes that stand alone are symbols. */
const QUERY_WORD = /(?<!\S)"(\S|\S[^"]*\S)"(?!\S)|\S+/g;
/** Of so many words it is known where they are: as one is typed, each of its beginnings is one. */
const MOST_KNOWN_WORDS = 24;
/** Of assertions of the same rank the shorter comes first, up to this length; then in file order. */
const LONGEST_COMPARED = 4095;

/** Lines that are searched; the first one is that of assertion `first`. */
class Lines {
    /**
     * @param {Texts} texts in small letters
     * @param {number} first
     */
    constructor(texts, first) {
        this.texts = texts;
        this.first = first;
    }

    /**
     * Sets a bit for each line with a word.
     * @param {string} word
     * @param {Uint8Array} masks
     * @param {number} bit
     */
    mark(word, masks, bit) {
        const { text, starts, size } = this.texts;
        let line = 0;
        let place = text.indexOf(word);
        while (place >= 0 && line < size) {
            line = this.texts.lineAt(place, line);
            masks[this.first + line] |= bit;
            line++;
            place = line < size ? text.indexOf(word, starts[line]) : -1;
        }
    }

    /**
     * Whether the first field of the line of an assertion, up to a tab, is a text, all of it or from a place on.
     * @param {number} number
     * @param {string} wanted
     * @param {number} place
     */
    begins(number, wanted, place) {
        const { text, starts } = this.texts;
        const start = starts[number - this.first];
        return [0, place].some((at) => {
            const after = text[start + at + wanted.length] ?? "\n";
            return text.startsWith(wanted, start + at) && (after === "\t" || after === "\n");
        });
    }

    /**
     * Whether the line of an assertion has a word.
     * @param {number} number
     * @param {string} word
     */
    has(number, word) {
        const line = number - this.first;
        return line >= 0 && line < this.texts.size && this.texts.at(line).includes(word);
    }
}

/**
 * What was found: `keys` has a number for each assertion, the better the smaller; `masks` of each different word where
 * these assertions have it.
 * @typedef {object} Answer
 * @property {string[]} words
 * @property {Uint8Array[]} masks
 * @property {number} total
 * @property {Float64Array} keys
 */

export class Search {
    /**
     * @param {Model} model
     * @param {Symbols} symbols
     */
    constructor(model, symbols) {
        this.model = model;
        this.symbols = symbols;
        this.size = model.size;
        this.labels = new Lines(new Texts(model.labels.text.toLowerCase(), this.size), 0);
        /** @type {Lines[]} */
        this.formulas = [];
        /** @type {Lines[]} */
        this.shown = [];
        /** How many letters the typecode of each formula has, in both spellings. */
        this.codeSizes = { written: new Uint32Array(this.size), shown: new Uint32Array(this.size) };
        /** @type {Lines[]} */
        this.comments = [];
        this.isWhole = false;
        /** @type {Map<string, Uint8Array>} */
        this.known = new Map();
        /** @type {Promise<void> | undefined} */
        this.preparing = undefined;
    }

    /** Makes the texts ready, a little at a time. */
    prepare() {
        this.preparing ??= this.prepareAll();
        return this.preparing;
    }

    async prepareAll() {
        const { commentsInBlock } = this.model.facts;
        let began = performance.now();
        const rest = async () => {
            if (performance.now() - began < SLICE) return;
            await new Promise((resume) => setTimeout(resume));
            began = performance.now();
        };
        for (let first = 0; first < this.size; first += commentsInBlock) {
            this.addFormulas(first, Math.min(this.size, first + commentsInBlock));
            await rest();
        }
        this.known.clear();
        for (let first = 0; first < this.size; first += commentsInBlock) {
            const texts = await this.model.loadComments(first / commentsInBlock);
            this.comments.push(new Lines(new Texts(texts.text.toLowerCase(), texts.size), first));
            await rest();
        }
        this.known.clear();
        this.isWhole = true;
    }

    /**
     * Adds formulas with their hypotheses, in both spellings.
     * @param {number} first
     * @param {number} end
     */
    addFormulas(first, end) {
        const { model, symbols } = this;
        const written = [];
        const shown = [];
        for (let number = first; number < end; number++) {
            const all = [model.formulas.at(number)];
            const code = firstWord(all[0]);
            this.codeSizes.written[number] = code.length;
            this.codeSizes.shown[number] = symbols.keyOf(code).length;
            for (const index of model.hypotheses.of(number)) all.push(model.hypothesisFormulas.at(index));
            written.push(all.map(squeezed).join("\t"));
            shown.push(all.map((formula) => symbols.keyOfFormula(formula)).join("\t"));
        }
        this.formulas.push(new Lines(new Texts(written.join("\n"), end - first), first));
        this.shown.push(new Lines(new Texts(shown.join("\n"), end - first), first));
    }

    /**
     * Of each word where assertions have it. Of those that lack one of the words this may be missing, and so may be the
     * words behind one that leaves none.
     * @param {string[]} words in small letters
     */
    masksOfAll(words) {
        const left = new Uint8Array(this.size).fill(1);
        /** @type {Uint8Array[]} */
        const masks = [];
        for (const word of words) {
            if (!left.includes(1)) break;
            const mask = this.masksOf(word, left);
            for (let number = 0; number < this.size; number++) if (mask[number] === 0) left[number] = 0;
            masks.push(mask);
        }
        return { masks, left };
    }

    /**
     * Of each assertion where it has a word; of those that aren't `left` it needn't say so. Where few are left, or have a
     * beginning of the word, only these are looked at.
     * @param {string} word in small letters
     * @param {Uint8Array} left
     * @returns {Uint8Array}
     */
    masksOf(word, left) {
        const known = this.known.get(word);
        if (known) return known;
        const before = this.known.get(word.slice(0, -1));
        if (before && this.isWhole && isSparse(before)) return this.keep(word, this.masksAmong(before, word));
        if (this.isWhole && isSparse(left)) return this.masksAmong(left, word);
        const masks = new Uint8Array(this.size);
        const shown = plain(word);
        this.labels.mark(word, masks, In.label);
        for (const lines of this.formulas) lines.mark(squeezed(word), masks, In.formula);
        if (shown !== "") for (const lines of this.shown) lines.mark(shown, masks, In.formula);
        for (const lines of this.comments) lines.mark(word, masks, In.comment);
        return this.keep(word, masks);
    }

    /**
     * Keeps where a word is, for the next letters that are typed.
     * @param {string} word
     * @param {Uint8Array} masks
     */
    keep(word, masks) {
        if (this.known.size >= MOST_KNOWN_WORDS) this.known.delete([...this.known.keys()][0]);
        this.known.set(word, masks);
        return masks;
    }

    /**
     * Of some assertions where they have a word.
     * @param {Uint8Array} among not 0 for those that are looked at
     * @param {string} word
     */
    masksAmong(among, word) {
        const masks = new Uint8Array(this.size);
        const written = squeezed(word);
        const shown = plain(word);
        for (let number = 0; number < this.size; number++) {
            if (among[number]) masks[number] = this.maskOf(number, word, written, shown);
        }
        return masks;
    }

    /**
     * Where one assertion has a word.
     * @param {number} number
     * @param {string} word
     * @param {string} written without spaces
     * @param {string} shown the same in plain letters
     */
    maskOf(number, word, written, shown) {
        const block = Math.floor(number / this.model.facts.commentsInBlock);
        let mask = this.labels.has(number, word) ? In.label : 0;
        if (this.formulas[block]?.has(number, written)) mask |= In.formula;
        else if (shown !== "" && this.shown[block]?.has(number, shown)) mask |= In.formula;
        if (this.comments[block]?.has(number, word)) mask |= In.comment;
        return mask;
    }

    /**
     * Which formulas have the words side by side, in one of the spellings.
     * @param {string} written the words without spaces
     * @param {string} shown the same in plain letters
     * @returns {Uint8Array}
     */
    phrase(written, shown) {
        const masks = new Uint8Array(this.size);
        for (const lines of this.formulas) lines.mark(written, masks, In.formula);
        if (shown !== "") for (const lines of this.shown) lines.mark(shown, masks, In.formula);
        return masks;
    }

    /**
     * Whether the formula of an assertion is just what was typed, with its typecode or without.
     * @param {number} number
     * @param {string} written what was typed, without spaces
     * @param {string} shown the same in plain letters
     */
    isExact(number, written, shown) {
        const block = Math.floor(number / this.model.facts.commentsInBlock);
        const { written: size, shown: shownSize } = this.codeSizes;
        return (
            (this.formulas[block]?.begins(number, written, size[number]) ?? false) ||
            (this.shown[block]?.begins(number, shown, shownSize[number]) ?? false)
        );
    }

    /**
     * What is found for a text as it was typed.
     * @param {string} typed
     * @returns {Answer}
     */
    find(typed) {
        const words = wordsOf(typed);
        const different = [...new Set(words)];
        const { masks, left } = this.masksOfAll(different);
        const keys = new Float64Array(this.size);
        if (words.length === 0 || !left.includes(1)) return { words, masks, total: 0, keys: keys.subarray(0, 0) };
        const written = squeezed(words.join(""));
        const shown = plain(written);
        const phrase = words.length > 1 ? this.phrase(written, shown) : masks[0];
        let total = 0;
        for (let number = 0; number < this.size; number++) {
            if (!left[number]) continue;
            let rank = this.rankOf(number, different, masks);
            if (phrase[number] & In.formula) {
                if (words.length > 1) rank += FormulaRank.sideBySide;
                if (this.isExact(number, written, shown)) {
                    rank += FormulaRank.isTyped + FormulaRank.isTypedMore * (different.length - 1);
                }
            }
            keys[total++] = this.keyOf(number, rank, masks);
        }
        return { words, masks, total, keys: keys.subarray(0, total) };
    }

    /**
     * How well an assertion was found, by where it has each word.
     * @param {number} number
     * @param {string[]} words
     * @param {Uint8Array[]} masks
     */
    rankOf(number, words, masks) {
        let rank = 0;
        for (let index = 0; index < masks.length; index++) {
            const mask = masks[index][number];
            if (mask & In.label) rank += this.rankOfLabel(number, words[index]);
            else rank += mask & In.formula ? WordRank.inFormula : WordRank.inComment;
        }
        return rank;
    }

    /**
     * A number that is the smaller, the better an assertion was found: by rank, then by length with hypotheses, then in
     * file order.
     * @param {number} number
     * @param {number} rank
     * @param {Uint8Array[]} masks
     */
    keyOf(number, rank, masks) {
        const isInLabel = masks.some((mask) => mask[number] & In.label);
        const { starts } = isInLabel ? this.model.labels : this.model.formulas;
        let size = starts[number + 1] - starts[number];
        if (!isInLabel) {
            const { hypotheses, hypothesisFormulas } = this.model;
            for (const index of hypotheses.of(number)) {
                size += hypothesisFormulas.starts[index + 1] - hypothesisFormulas.starts[index];
            }
        }
        const length = Math.min(LONGEST_COMPARED, size);
        const mostOfWord = WordRank.wholeLabel + FormulaRank.isTypedMore;
        const most = mostOfWord * masks.length + FormulaRank.sideBySide + FormulaRank.isTyped;
        return ((most - rank) * (LONGEST_COMPARED + 1) + length) * this.size + number;
    }

    /**
     * @param {number} number
     * @param {string} word
     */
    rankOfLabel(number, word) {
        const { text, starts } = this.labels.texts;
        if (!text.startsWith(word, starts[number])) return WordRank.inLabel;
        const length = starts[number + 1] - starts[number] - 1; // behind it is a line feed
        return length === word.length ? WordRank.wholeLabel : WordRank.beginsLabel;
    }

    /**
     * The best of an answer, the best first.
     * @param {Answer} answer
     * @param {number} limit
     * @returns {Found[]}
     */
    best(answer, limit) {
        /** @type {number[]} */
        const best = [];
        for (const key of answer.keys) {
            if (best.length === limit && key >= best[limit - 1]) continue;
            let index = best.length;
            while (index > 0 && best[index - 1] > key) index--;
            best.splice(index, 0, key);
            if (best.length > limit) best.pop();
        }
        return best.map((key) => this.found(key, answer.masks));
    }

    /**
     * All of an answer, the best first.
     * @param {Answer} answer
     */
    all(answer) {
        return Array.from(answer.keys.slice().sort(), (key) => key % this.size);
    }

    /**
     * @param {number} key
     * @param {Uint8Array[]} masks
     * @returns {Found}
     */
    found(key, masks) {
        const number = key % this.size;
        if (masks.some((mask) => mask[number] & In.label)) return { number, where: "label" };
        return { number, where: masks.every((mask) => mask[number] & In.formula) ? "formula" : "comment" };
    }
}

/**
 * The words and the phrases in quotes of a text as it was typed, in small letters.
 * @param {string} typed
 */
export function wordsOf(typed) {
    return Array.from(typed.toLowerCase().matchAll(QUERY_WORD), ([word, phrase]) => (phrase ?? word).replace(/\s+/g, " "));
}

/**
 * Where words stand in a text, from its beginning to its end; of those that begin at one place the longest.
 * @param {string} text
 * @param {string[]} words in small letters
 * @returns {[number, number][]}
 */
export function placesOf(text, words) {
    const small = text.toLowerCase();
    // Of each word the next place, so that the text is gone through once for each.
    const left = [...new Set(words)].map((word) => ({ word, at: -1 }));
    /** @type {[number, number][]} */
    const places = [];
    for (let place = 0; ; ) {
        let [start, end] = [small.length, 0];
        for (const each of left) {
            if (each.at < place) each.at = indexOrEnd(small, each.word, place);
            const isLonger = each.at === start && each.at + each.word.length > end;
            if (each.at < start || isLonger) [start, end] = [each.at, each.at + each.word.length];
        }
        if (start >= small.length) return places;
        places.push([start, end]);
        place = end;
    }
}

/**
 * Where a word stands in a text from a place on, or where the text ends.
 * @param {string} text
 * @param {string} word
 * @param {number} place
 */
function indexOrEnd(text, word, place) {
    const found = text.indexOf(word, place);
    return found < 0 ? text.length : found;
}

/**
 * A formula or a part of it in small letters, without spaces.
 * @param {string} text
 */
export function squeezed(text) {
    return text.toLowerCase().replace(/\s+/g, "");
}

/**
 * Whether less than an eighth of the numbers isn't 0.
 * @param {Uint8Array} masks
 */
function isSparse(masks) {
    let number = 0;
    for (const mask of masks) number += mask === 0 ? 0 : 1;
    return number * 8 < masks.length;
}
