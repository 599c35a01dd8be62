// How symbols are shown: as the `$t` comment of the database says, or as they are written there.

/** @typedef {import("./types.js").Facts} Facts */
/** @typedef {import("./types.js").Piece} Piece */

/**
 * A stretch of a formula that is shown in one way.
 * @typedef {object} Run
 * @property {string} text
 * @property {string} tags names of tags, separated by spaces
 * @property {string} symbol as the database writes it
 * @property {boolean} isAlike it looks like an earlier symbol
 */

/** The colours of variables of which no definition says another one, by their typecodes in turn. */
const HUES = ["blue", "red", "purple", "green"];

/** Symbols that a browser would break inside, such as |->, and up to which length they are kept in one line. */
const BREAKABLE = /[-/?].|[|]./;
const LONGEST_WHOLE_SYMBOL = 12;

/**
 * Between some symbols is a space, though their definitions have none: ∃𝑦 𝑦 ∈ 𝑥, ∃𝑥 ∈ 𝐴 𝐵 = 𝑥, ∃𝑥 ∈ 𝐴 ∀𝑦. A symbol that
 * joins what stands on both sides is left as it is defined: 𝐹:𝐴⟶𝐵.
 */
const ENDS_TERM = /^[\p{L}\p{N})\]}]/u; // of the last sign
const BEGINS_PREFIX = /^[\p{Sm}\p{So}]/u;
const LETTERS = /^[\p{L}\p{N}]{2}/u;
const LETTER = /^[\p{L}\p{N}]/u;
const QUANTIFIER = /^[∀∃]/;
/** What would become one sign with what stands before it, and hide what that is: a sign of its own comes between. */
const JOINS_BEFORE = /^[\p{M}\p{Emoji_Modifier}\p{Regional_Indicator}\u1160-\u11ff\ud7b0-\ud7ff]/u;
const HOLDER = "\u25cc";
const BINDER = /^[∀∃∪∩∏∑σ℩]/; // of keys, so that Σ is σ

export class Symbols {
    /**
     * @param {Facts} facts
     * @param {Map<string, string>} typecodeOf
     * @param {Set<string>} infix the symbols that stand between what they join
     */
    constructor(facts, typecodeOf, infix = new Set()) {
        this.typecodeOf = typecodeOf;
        this.infix = infix;
        /** @type {Map<string, Piece[]>} */
        this.definitions = new Map(facts.symbols.map(([symbol, pieces]) => [symbol, apart(pieces)]));
        this.alike = new Set(facts.alike);
        const codes = [...new Set(typecodeOf.values())];
        this.hueOf = new Map(codes.map((code, index) => [code, HUES[index % HUES.length]]));
        this.isOn = this.definitions.size > 0;
        /** @type {Map<string, string>} */
        this.keys = new Map();
    }

    /** Whether the database says how its symbols are shown. */
    get areDefined() {
        return this.definitions.size > 0;
    }

    /**
     * The runs of one symbol. `isFirst` is whether it is a typecode, which is no variable.
     * @param {string} symbol
     * @param {boolean} isFirst
     * @returns {Run[]}
     */
    runsOf(symbol, isFirst) {
        const defined = this.isOn ? this.definitions.get(symbol) : undefined;
        if (defined) {
            const isAlike = this.alike.has(symbol);
            return defined.map(([text, tags]) => ({ text, tags, symbol, isAlike: isAlike && text.trim() !== "" }));
        }
        const code = isFirst ? undefined : this.typecodeOf.get(symbol);
        const isWhole = BREAKABLE.test(symbol) && symbol.length <= LONGEST_WHOLE_SYMBOL;
        const tags = [code === undefined ? "" : this.hueOf.get(code) ?? "", isWhole ? "whole" : ""];
        const isAlike = this.isOn && this.alike.has(symbol);
        return [{ text: symbol, tags: tags.filter(Boolean).join(" "), symbol, isAlike }];
    }

    /**
     * The runs of a formula, its symbols separated by single spaces. `hasTypecode` is whether the first one is a
     * typecode.
     * @param {string} formula
     * @returns {Run[]}
     */
    runs(formula, hasTypecode = true) {
        /** @type {Run[]} */
        const runs = [];
        const space = { text: " ", tags: "", symbol: "", isAlike: false };
        const symbols = formula.split(" ");
        symbols.forEach((symbol, index) => {
            const isWritten = !this.isOn || !this.definitions.has(symbol);
            const more = this.runsOf(symbol, hasTypecode && index === 0);
            const before = runs[runs.length - 1]?.text ?? "";
            const isClose = index > 0 && this.isOn && this.areClose(symbols, index, before, more[0].text);
            if ((isWritten && index > 0) || isClose) runs.push(space);
            runs.push(...more);
            if (isWritten && this.isOn) runs.push(space);
        });
        return runs;
    }

    /**
     * How a formula without typecode is shown, as plain text.
     * @param {string} formula
     */
    textOf(formula) {
        const texts = this.runs(formula, false).map((run) => run.text);
        return texts.join("").trim();
    }

    /**
     * Whether a symbol would be hard to tell from the one before, if there were no space between them.
     * @param {string[]} symbols
     * @param {number} index
     * @param {string} before what is shown just before it
     * @param {string} text what it begins with
     */
    areClose(symbols, index, before, text) {
        const last = Array.from(before).pop() ?? "";
        if (!ENDS_TERM.test(last)) return false;
        if (BEGINS_PREFIX.test(text)) return !this.infix.has(symbols[index]);
        if (LETTERS.test(text) && LETTER.test(before)) return true;
        if (!LETTER.test(text)) return false;
        if (LETTERS.test(before) || this.isBound(symbols, index)) return true;
        const code = this.typecodeOf.get(symbols[index]);
        const isSame = code !== undefined && code === this.typecodeOf.get(symbols[index - 1]);
        return isSame && index > 1 && QUANTIFIER.test(this.keyOf(symbols[index - 2]));
    }

    /**
     * Whether the symbols before are such as ∀𝑥 ∈ 𝐴.
     * @param {string[]} symbols
     * @param {number} index
     */
    isBound(symbols, index) {
        if (index < 4 || this.keyOf(symbols[index - 2]) !== "∈") return false;
        return this.typecodeOf.has(symbols[index - 3]) && BINDER.test(this.keyOf(symbols[index - 4]));
    }

    /**
     * What of a symbol is compared with what is typed: its shown spelling in small and plain letters, without spaces.
     * @param {string} symbol
     */
    keyOf(symbol) {
        let key = this.keys.get(symbol);
        if (key === undefined) {
            const pieces = this.definitions.get(symbol);
            key = plain(pieces ? pieces.map(([text]) => text).join("") : symbol);
            this.keys.set(symbol, key);
        }
        return key;
    }

    /**
     * The shown spelling of a formula, as it is compared with what is typed.
     * @param {string} formula
     */
    keyOfFormula(formula) {
        let key = "";
        for (const symbol of formula.split(" ")) key += this.keyOf(symbol);
        return key;
    }
}

/**
 * The pieces of a definition, which join nothing that stands before them.
 * @param {Piece[]} pieces
 * @returns {Piece[]}
 */
function apart(pieces) {
    const isJoined = JOINS_BEFORE.test(pieces.map(([text]) => text).join(""));
    return isJoined ? [[HOLDER, ""], ...pieces] : pieces;
}

/**
 * The symbols that stand between variables in a formula that builds another one, such as `-->` in `wff F : A --> B`.
 * @param {Iterable<string>} formulas with their typecodes
 * @param {Map<string, string>} typecodeOf
 */
export function infixSymbols(formulas, typecodeOf) {
    const codes = new Set(typecodeOf.values());
    /** @type {Set<string>} */
    const found = new Set();
    for (const formula of formulas) {
        const symbols = formula.split(" ");
        if (!codes.has(symbols[0])) continue;
        for (let at = 2; at + 1 < symbols.length; at++) {
            const isBetween = typecodeOf.has(symbols[at - 1]) && typecodeOf.has(symbols[at + 1]);
            if (isBetween && !typecodeOf.has(symbols[at])) found.add(symbols[at]);
        }
    }
    return found;
}

/**
 * A text in small letters without spaces, the letters of mathematics as plain ones: 𝑥 as x, 𝜑 as φ.
 * @param {string} text
 */
export function plain(text) {
    return text.normalize("NFKC").toLowerCase().replace(/\s+/g, "");
}
