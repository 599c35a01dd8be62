// How a `$t` comment says that symbols are shown: `althtmldef`, by Unicode, and `htmlvarcolor`; and where references are
// explained, `htmlbibliography`. Nothing of a `$t` comment becomes markup: what is shown is made of pieces of text and
// the names of a few tags, and an address is kept only if it is that of a page.

import { visible } from "./visible.js";

/** @typedef {import("../view/types.js").Piece} Piece */

/**
 * What HTML's named signs stand for, and the numbers that stand for something else than they say.
 * @typedef {object} Entities
 * @property {Record<string, string>} named with the semicolon, where there is one
 * @property {Record<string, string>} numbers
 * @property {number[]} none numbers that stand for nothing
 */

const TAG = /<(\/?)([A-Za-z]+)((?:\s[^<>]*)?)>/g;
/** A name, and its value where it has one. */
const ATTRIBUTE = /([A-Za-z]+)(?:\s*=\s*("[^"]*"|'[^']*'|[^\s"'>]+))?/g;
const REFERENCE = /&(#[0-9]+;?|#[xX][0-9a-fA-F]+;?|[^\t\n\f <&#;]{1,32};?)/g;
/** The tags that are kept, and by which name. */
const TAGS = new Map([
    ["i", "i"],
    ["em", "i"],
    ["b", "b"],
    ["strong", "b"],
    ["u", "u"],
    ["sub", "sub"],
    ["sup", "sup"],
    ["small", "small"],
    ["big", "big"],
]);
/** Tags that group. */
const STYLED_TAGS = ["span", "font"];
/** @type {Map<string, number[]>} */
const NAMED = new Map([
    ["blue", [0, 0, 255]],
    ["red", [255, 0, 0]],
    ["green", [0, 128, 0]],
    ["purple", [128, 0, 128]],
    ["fuchsia", [255, 0, 255]],
    ["magenta", [255, 0, 255]],
    ["orange", [255, 165, 0]],
    ["gray", [128, 128, 128]],
    ["grey", [128, 128, 128]],
    ["black", [0, 0, 0]],
]);
/** @type {[number, string][]} Up to which angle of the circle of colours, in degrees, which hue reaches. */
const CIRCLE = [
    [15, "red"],
    [65, "orange"],
    [180, "green"],
    [265, "blue"],
    [345, "purple"],
    [361, "red"],
];
/** The address of a page: on the web, or beside the page of the database. */
const PAGE_ADDRESS = /^(?:https?:\/\/[\w.-]+(?::[0-9]+)?(?:\/[\w.~-]+)*\/)?[\w][\w.-]*\.html?$/;
/** Signs that a definition shows, or those of the address of a page; a longer one isn't used. */
const LONGEST_DEFINITION = 200;
const LARGEST_CODE_POINT = 0x10ffff;

/**
 * The statements of a `$t` comment as lists of words, quotes included; remarks are left out.
 * @param {string} text
 * @returns {Generator<string[]>}
 */
function* statementsOf(text) {
    /** @type {string[]} */
    let words = [];
    for (const word of tokensOf(text)) {
        if (word === ";") {
            yield words;
            words = [];
        } else if (!word.startsWith("/*")) words.push(word);
    }
}

/**
 * The tokens of a `$t` comment: a remark, a quoted text (a doubled quote in it stands for one), a sign, or a word.
 * @param {string} text
 * @returns {Generator<string>}
 */
function* tokensOf(text) {
    const plain = /[^\s;+'"]+/y;
    const lastRemarkEnd = text.lastIndexOf("*/");
    let place = 0;
    while (place < text.length) {
        const sign = text[place];
        let end = place + 1;
        if (sign === "'" || sign === '"') {
            end = quoteEnd(text, place);
            if (end > 0) yield text.slice(place, end);
            else end = place + 1;
        } else if (sign === ";" || sign === "+") yield sign;
        else if (!/\s/.test(sign)) {
            const isRemark = text.startsWith("/*", place) && place + 2 <= lastRemarkEnd;
            const remarkEnd = isRemark ? text.indexOf("*/", place + 2) : -1;
            plain.lastIndex = place;
            end = remarkEnd < 0 ? place + (plain.exec(text)?.[0].length ?? 1) : remarkEnd + 2;
            yield text.slice(place, end);
        }
        place = end;
    }
}

/**
 * The place after the quoted text that begins at a place; 0 if it isn't closed. If only a doubled quote could close it,
 * the first of the last two does.
 * @param {string} text
 * @param {number} place
 */
function quoteEnd(text, place) {
    const quote = text[place];
    let end = 0;
    for (let at = text.indexOf(quote, place + 1); at >= 0; at = text.indexOf(quote, at + 2)) {
        end = at + 1;
        if (text[at + 1] !== quote) break;
    }
    return end;
}

/** @param {string} word */
function isQuoted(word) {
    return word[0] === "'" || word[0] === '"';
}

/**
 * What a quoted text stands for.
 * @param {string} word
 */
function unquoted(word) {
    return word.slice(1, -1).replaceAll(word[0] + word[0], word[0]);
}

/**
 * The text of quoted texts with `+` between them; null if it's something else.
 * @param {string[]} words
 */
function joined(words) {
    const isRight = words.every((word, at) => (at % 2 === 0 ? isQuoted(word) : word === "+"));
    if (words.length % 2 === 0 || !isRight) return null;
    return words.filter((_, at) => at % 2 === 0).map(unquoted).join("");
}

/**
 * The hue of a colour such as `#C3C`; null for black and what isn't known.
 * @param {string} written
 */
function hue(written) {
    const colour = written.trim().toLowerCase();
    const match = /^#([0-9a-f]{3}|[0-9a-f]{6})$/.exec(colour);
    const wide = match ? (match[1].length === 6 ? match[1] : match[1].replace(/./g, "$&$&")) : "";
    const rgb = match ? [0, 2, 4].map((at) => parseInt(wide.slice(at, at + 2), 16)) : NAMED.get(colour);
    if (!rgb) return null;
    const [red, green, blue] = rgb;
    const high = Math.max(...rgb);
    const low = Math.min(...rgb);
    if (high - low < 32) return high >= 64 ? "gray" : null;
    let angle = 60 * ((red - green) / (high - low)) + 240;
    if (high === red) {
        angle = (60 * ((green - blue) / (high - low))) % 360;
        if (angle < 0) angle += 360;
    } else if (high === green) angle = 60 * ((blue - red) / (high - low)) + 120;
    return CIRCLE.find(([end]) => angle < end)?.[1] ?? null;
}

/**
 * The names that are kept of a tag; null if the tag is text.
 * @param {string} tag
 * @param {string} attributes
 * @returns {string[] | null}
 */
function namesOf(tag, attributes) {
    const kept = TAGS.get(tag);
    if (kept !== undefined) return [kept];
    if (!STYLED_TAGS.includes(tag)) return null;
    const names = [];
    for (const match of attributes.matchAll(ATTRIBUTE)) {
        if (match[2] === undefined) continue;
        const key = match[1].toLowerCase();
        const value = match[2].replace(/^["']+|["']+$/g, "");
        if (key === "color") names.push(hue(value));
        else if (key === "size" && /^[+-][1-9]$/.test(value)) names.push(value[0] === "+" ? "big" : "small");
        else if (key === "style") for (const name of styleNames(value)) names.push(name);
    }
    return names.flatMap((name) => name ?? []);
}

/**
 * The names that are kept of an attribute `style`.
 * @param {string} style
 */
function styleNames(style) {
    /** @type {(string | null)[]} */
    const names = [];
    for (const declaration of style.toLowerCase().split(";")) {
        const colon = declaration.indexOf(":");
        const key = (colon < 0 ? declaration : declaration.slice(0, colon)).trim();
        const value = colon < 0 ? "" : declaration.slice(colon + 1);
        if (key === "color") names.push(hue(value));
        else if (key === "text-decoration") {
            if (value.includes("overline")) names.push("overline");
            if (value.includes("underline")) names.push("u");
        } else if (key === "border-bottom") names.push(value.includes("dotted") ? "dotted" : "u");
    }
    return names;
}

/** Makes the pieces of definitions. */
class Definitions {
    /** @param {Entities} entities */
    constructor(entities) {
        this.named = new Map(Object.entries(entities.named));
        this.numbers = new Map(Object.entries(entities.numbers).map(([number, text]) => [Number(number), text]));
        this.none = new Set(entities.none);
    }

    /**
     * A text in which references such as `&forall;` are what they stand for.
     * @param {string} text
     */
    unescaped(text) {
        return text.replace(REFERENCE, (_, name) => this.meaning(name));
    }

    /**
     * What a reference stands for.
     * @param {string} name without the `&`
     */
    meaning(name) {
        if (name[0] === "#") {
            const isHexadecimal = name[1] === "x" || name[1] === "X";
            const digits = name.replace(/;$/, "").slice(isHexadecimal ? 2 : 1);
            return this.ofNumber(parseInt(digits, isHexadecimal ? 16 : 10));
        }
        const known = this.named.get(name);
        if (known !== undefined) return known;
        for (let end = name.length - 1; end > 1; end--) {
            const beginning = this.named.get(name.slice(0, end));
            if (beginning !== undefined) return beginning + name.slice(end);
        }
        return `&${name}`;
    }

    /** @param {number} number */
    ofNumber(number) {
        const other = this.numbers.get(number);
        if (other !== undefined) return other;
        if ((number >= 0xd800 && number <= 0xdfff) || number > LARGEST_CODE_POINT) return "\ufffd";
        return this.none.has(number) ? "" : String.fromCodePoint(number);
    }

    /**
     * The pieces of a definition. Tags that don't fit together end where the definition ends.
     * @param {string} markup
     * @returns {Piece[]}
     */
    pieces(markup) {
        /** @type {Piece[]} */
        const made = [];
        const open = new OpenTags();
        const add = (/** @type {string} */ written) => {
            const text = visible(this.unescaped(written).replace(/[\xa0\n]/g, " "));
            if (text === "") return;
            const { tags } = open;
            const last = made[made.length - 1];
            if (last && last[1] === tags) last[0] += text;
            else made.push([text, tags]);
        };
        let place = 0;
        for (const match of markup.matchAll(TAG)) {
            const { index = 0 } = match;
            const name = match[2].toLowerCase();
            const names = namesOf(name, match[3]);
            const isClosing = match[1] !== "";
            if (names === null || (isClosing && !open.has(name))) continue; // it is text, with what is around it
            add(markup.slice(place, index));
            place = index + match[0].length;
            if (isClosing) open.close(name);
            else open.open(name, names);
        }
        add(markup.slice(place));
        return made;
    }
}

/** The tags that are open at a place of a definition. */
class OpenTags {
    constructor() {
        /** @type {{ name: string, names: string[] }[]} */
        this.stack = [];
        /** How many of each tag are open, and how many that are kept under each name. */
        this.tagCounts = new Map();
        this.nameCounts = new Map();
    }

    /**
     * The names that are kept of the open tags, as they came, with a space between them.
     * @returns {string}
     */
    get tags() {
        return [...this.nameCounts.keys()].join(" ");
    }

    /** @param {string} name */
    has(name) {
        return this.tagCounts.has(name);
    }

    /**
     * @param {string} name
     * @param {string[]} names
     */
    open(name, names) {
        this.stack.push({ name, names });
        change(this.tagCounts, name, 1);
        for (const kept of names) change(this.nameCounts, kept, 1);
    }

    /**
     * Closes the last tag of a name, and those that were opened after it.
     * @param {string} name
     */
    close(name) {
        for (let tag = this.stack.pop(); tag; tag = tag.name === name ? undefined : this.stack.pop()) {
            change(this.tagCounts, tag.name, -1);
            for (const kept of tag.names) change(this.nameCounts, kept, -1);
        }
    }
}

/**
 * Changes a count; what there is none of has no count.
 * @param {Map<string, number>} counts
 * @param {string} name
 * @param {number} by
 */
function change(counts, name, by) {
    const count = (counts.get(name) ?? 0) + by;
    if (count === 0) counts.delete(name);
    else counts.set(name, count);
}

/**
 * Whether the pieces show something, and aren't too long.
 * @param {Piece[]} pieces
 */
function isShown(pieces) {
    const signs = pieces.reduce((sum, [text]) => sum + [...text].length, 0);
    return signs <= LONGEST_DEFINITION && pieces.some(([text]) => text.trim() !== "");
}

/**
 * What a `$t` comment says: how symbols are shown, the classes of variables, and which page explains references.
 * @typedef {{ symbols: Map<string, Piece[]>, legend: Piece[], bibliography: string | null }} Typesetting
 */

/**
 * The address of a page, or null where a text is none.
 * @param {string} text
 */
function pageAt(text) {
    return text.length <= LONGEST_DEFINITION && PAGE_ADDRESS.test(text) ? text : null;
}

/**
 * Reads the body of a `$t` comment. A later definition of a symbol replaces one before. What isn't a statement of the
 * kind that is wanted is passed over.
 * @param {string | null} text
 * @param {Entities} entities
 * @returns {Typesetting}
 */
export function readTypesetting(text, entities) {
    const definitions = new Definitions(entities);
    /** @type {Typesetting} */
    const found = { symbols: new Map(), legend: [], bibliography: null };
    for (const words of statementsOf(text ?? "")) {
        if (words[0] === "htmlvarcolor") found.legend = definitions.pieces(joined(words.slice(1)) ?? "");
        if (words[0] === "htmlbibliography") found.bibliography = pageAt(joined(words.slice(1)) ?? "");
        const said = joined(words.slice(3));
        if (words[0] !== "althtmldef" || words[2] !== "as" || said === null) continue;
        const symbol = isQuoted(words[1]) ? unquoted(words[1]) : words[1];
        const pieces = definitions.pieces(said);
        if (isShown(pieces)) found.symbols.set(symbol, pieces);
        else found.symbols.delete(symbol);
    }
    return found;
}
