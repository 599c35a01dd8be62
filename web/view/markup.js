// Reads the markup of a comment: what it is made of, as plain data. Nothing of the text is markup for the browser.

import { LINE_END, PARAGRAPH_END } from "../packer/comment-ends.js";

/**
 * A part of a comment. `element` has one of the names of ELEMENTS.
 * @typedef {{ type: "text", text: string }
 *     | { type: "math", formula: string }
 *     | { type: "label", label: string }
 *     | { type: "address", address: string }
 *     | { type: "reference", author: string, page: string }
 *     | { type: "emphasis", text: string }
 *     | ElementPart} Part
 */

/**
 * @typedef {{ type: "element", name: string, children: Part[] }} ElementPart
 */

/**
 * Who did what, and when.
 * @typedef {{ what: string, who: string, date: string }} Credit
 */

/**
 * A comment: paragraphs, and what is told apart from them.
 * @typedef {object} Comment
 * @property {Part[][]} paragraphs
 * @property {Credit[]} credits
 */

/** (Contributed by NM, 12-Aug-2004.) and the like. */
const DEEDS = "Contributed|Revised|Proof (?:shortened|revised|modified)|Shortened|Modified|Proposed|Renamed|Suggested";
/** Its parts have a greatest length, so that no comment takes more time than its length says. */
const CREDIT = new RegExp(
    String.raw`(?<!\S)\(((?:${DEEDS})(?: and [a-z ]{1,40})?) by\s{1,9}([^()]{0,200}?),?\s{1,9}` +
        String.raw`(\d{1,2}-[A-Z][a-z]{2}-\d{4})\.?\)(?!\S)`,
    "g",
);
/** What packer/comments.js reads as flags, which the head of a statement shows. */
const DISCOURAGED = /(?<!\S)\((?:New usage|Proof modification) is discouraged\.\)(?!\S)/g;

/** What isn't plain text in a comment. */
const SPECIAL = new RegExp(
    [
        /``|`((?:[^`]|``)*)`/, // mathematics
        /~~|~\s*(\S+)/, // a label, or an address
        /\[\[|\[([A-Z][^\s[\]]*)\](\s+pp?\.\s+[0-9ivxlIVXL][0-9ivxlIVXL-]*)?/, // a reference with its page
        /(?<![A-Za-z0-9])_([^\s_](?:[^_]*[^\s_])?)_(?![A-Za-z0-9])/, // emphasis
        /<(\/?)([A-Za-z]+)(?![A-Za-z])([^<>]*)>/, // a tag
        new RegExp(`[${PARAGRAPH_END}${LINE_END}]`),
    ]
        .map((pattern) => pattern.source)
        .join("|"),
    "g",
);

/** A page of the site that metamath.exe makes of a database (`~ mmtheorems.html#here`): it isn't here, so it is named. */
const SITE_PAGE = /^mm[\w.-]*\.html(?:#\S*)?$/;

/** The tags within `<HTML>` that are kept, and the elements that the page makes of them. */
const ELEMENTS = new Map(
    Object.entries({
        sub: "sub",
        sup: "sup",
        i: "em",
        em: "em",
        b: "strong",
        strong: "strong",
        u: "u",
        tt: "code",
        code: "code",
        small: "small",
        ul: "ul",
        ol: "ol",
        li: "li",
        p: "p",
        pre: "pre",
        br: "br",
        table: "table",
        tr: "tr",
        td: "td",
        th: "th",
        caption: "caption",
        center: "div",
        blockquote: "blockquote",
    }),
);
/** Which elements are closed by another one of these, and in which they have to stand. */
const CLOSED_BY = new Map([
    ["li", { closes: ["li"], within: ["ul", "ol"] }],
    ["tr", { closes: ["td", "th", "tr"], within: ["table"] }],
    ["td", { closes: ["td", "th"], within: ["tr"] }],
    ["th", { closes: ["td", "th"], within: ["tr"] }],
    ["caption", { closes: [], within: ["table"] }],
]);
/** So many elements may be within one another; what would be in more is text. */
const DEEPEST = 40;
/** What is decoded in a comment with markup. Those of `$t` are all of HTML's: see typesetting.js of the packer. */
const ENTITIES = new Map(Object.entries({ lt: "<", gt: ">", amp: "&", quot: '"', nbsp: "\u00a0" }));

/** So many signs of a comment are read; what is behind them is left out. The longest one of set.mm has less than a sixth. */
export const LONGEST_COMMENT = 400_000;

/**
 * A comment up to that length.
 * @param {string} line
 */
function shortened(line) {
    return line.length <= LONGEST_COMMENT ? line : `${line.slice(0, LONGEST_COMMENT)} …`;
}

/**
 * Reads a comment.
 * @param {string} line as comments.js of the packer writes it
 * @returns {Comment}
 */
export function readComment(line) {
    /** @type {Credit[]} */
    const credits = [];
    const body = shortened(line)
        .replace(CREDIT, (_, what, who, date) => {
            credits.push({ what, who, date });
            return "";
        })
        .replace(DISCOURAGED, "");
    const reader = new Reader();
    reader.read(body);
    const paragraphs = reader.paragraphs.map(closeUp).filter((paragraph) => paragraph.some(isSeen));
    return { paragraphs, credits };
}

/**
 * A comment as plain text, in one line and with all that it says.
 * @param {string} line as comments.js of the packer writes it
 * @param {(formula: string) => string} shown how mathematics is shown
 */
export function plainText(line, shown) {
    const reader = new Reader();
    reader.read(shortened(line));
    return reader.paragraphs.map((paragraph) => saidBy(closeUp(paragraph), shown)).join(" ");
}

/**
 * @param {Part[]} parts
 * @param {(formula: string) => string} shown
 * @returns {string}
 */
function saidBy(parts, shown) {
    return parts
        .map((part) => {
            if (part.type === "math") return shown(part.formula);
            if (part.type === "label") return part.label;
            if (part.type === "address") return part.address;
            if (part.type === "reference") return `[${part.author}] ${part.page}`.trim();
            return part.type === "element" ? ` ${saidBy(part.children, shown)} ` : part.text;
        })
        .join("");
}

/** What has to be separated by spaces in a comment. */
const APART = ["math", "label", "address"];
/** Spaces before punctuation and closing signs, and after opening ones. */
const BEFORE_CLOSING = /^\s+(?=[.,;:!?)\]’”]|["'](?![\w(]))/;
const AFTER_OPENING = /((?:^|[\s(])["']|[([])\s+$/;

/**
 * Takes away the spaces that separate mathematics and labels from brackets and punctuation around them.
 * @param {Part[]} parts
 * @returns {Part[]}
 */
function closeUp(parts) {
    const isApart = (/** @type {Part | undefined} */ part) => part !== undefined && APART.includes(part.type);
    return parts.map((part, index) => {
        if (part.type === "element") return { ...part, children: closeUp(part.children) };
        if (part.type !== "text") return part;
        let { text } = part;
        if (isApart(parts[index - 1])) text = text.replace(BEFORE_CLOSING, "");
        if (isApart(parts[index + 1])) text = text.replace(AFTER_OPENING, "$1");
        return { type: "text", text };
    });
}

/** @param {Part} part */
function isSeen(part) {
    return part.type !== "text" || part.text.trim() !== "";
}

/** Builds the parts of a comment from its beginning. */
class Reader {
    constructor() {
        /** @type {Part[][]} */
        this.paragraphs = [[]];
        /** @type {ElementPart[]} */
        this.open = [];
        this.isMarkup = false;
    }

    /** Where the next part goes. */
    get children() {
        const inner = this.open[this.open.length - 1];
        return inner ? inner.children : this.paragraphs[this.paragraphs.length - 1];
    }

    /** @param {string} body */
    read(body) {
        let place = 0;
        for (const match of body.matchAll(SPECIAL)) {
            this.text(body.slice(place, match.index));
            place = (match.index ?? 0) + match[0].length;
            this.special(match);
        }
        this.text(body.slice(place));
    }

    /** @param {string} text */
    text(text) {
        if (text === "") return;
        const shown = this.isMarkup ? text.replace(/&(\w+);/g, decoded) : text;
        const last = this.children[this.children.length - 1];
        if (last && last.type === "text") last.text += shown;
        else this.children.push({ type: "text", text: shown });
    }

    /** @param {RegExpMatchArray} match */
    special(match) {
        const [whole, math, label, author, page, emphasis, slash, tag, more] = match;
        if (whole === "``" || whole === "~~" || whole === "[[") this.text(whole[0]);
        else if (whole === PARAGRAPH_END) this.paragraph();
        else if (whole === LINE_END) this.text("\n");
        else if (math !== undefined) this.math(math);
        else if (label !== undefined) this.label(whole, label);
        else if (author !== undefined) this.children.push({ type: "reference", author, page: (page ?? "").trim() });
        else if (emphasis !== undefined) this.children.push({ type: "emphasis", text: emphasis });
        else this.tag(whole, slash, tag.toLowerCase(), more);
    }

    /** Begins a paragraph, unless an element is open. */
    paragraph() {
        if (this.open.length === 0) this.paragraphs.push([]);
        else this.text(" ");
    }

    /** @param {string} math */
    math(math) {
        const formula = math.replace(/``/g, "`").split(/\s+/).filter(Boolean).join(" ");
        if (formula === "") this.text("`" + math + "`");
        else this.children.push({ type: "math", formula });
    }

    /**
     * @param {string} whole
     * @param {string} label
     */
    label(whole, label) {
        if (/^https?:/i.test(label)) this.children.push({ type: "address", address: label.replace(/~~/g, "~") });
        else if (/^[\w.-]+$/.test(label) && !SITE_PAGE.test(label)) this.children.push({ type: "label", label });
        else this.text(SITE_PAGE.test(label) ? label : whole);
    }

    /**
     * A tag: outside of `<HTML>` it is text, and so is each that isn't kept.
     * @param {string} whole
     * @param {string} slash
     * @param {string} name
     * @param {string} more
     */
    tag(whole, slash, name, more) {
        if (name === "html" && more === "") {
            this.isMarkup = slash === "";
            if (!this.isMarkup) this.open = [];
            return;
        }
        if (!this.isMarkup) this.text(whole);
        else if (name === "a") this.anchor(slash, more);
        else if (!ELEMENTS.has(name)) this.text(whole);
        else if (slash) this.close(name);
        else this.begin(whole, name);
    }

    /**
     * Of a link only its address is kept, if it can be followed from here.
     * @param {string} slash
     * @param {string} more
     */
    anchor(slash, more) {
        const address = /^\s+href\s*=\s*["']?(https?:[^"'\s]+)["']?\s*$/i.exec(more);
        if (slash || !address) return;
        this.children.push({ type: "address", address: address[1] }, { type: "text", text: " " });
    }

    /**
     * @param {string} whole
     * @param {string} name
     */
    begin(whole, name) {
        if (this.open.length >= DEEPEST) return this.text(whole);
        const rule = CLOSED_BY.get(name);
        if (rule) {
            while (this.open.length > 0 && rule.closes.includes(this.open[this.open.length - 1].name)) this.open.pop();
            const inner = this.open[this.open.length - 1]?.name ?? "";
            if (!rule.within.includes(inner)) {
                if (!["td", "th", "li"].includes(name) || inner === "") return this.text(whole);
                if (name !== "li" && inner !== "table") return this.text(whole);
                this.push(name === "li" ? "ul" : "tr");
            }
        }
        const element = ELEMENTS.get(name) ?? "span";
        if (element === "br") this.children.push({ type: "element", name: "br", children: [] });
        else this.push(element);
    }

    /** @param {string} name */
    push(name) {
        /** @type {ElementPart} */
        const part = { type: "element", name, children: [] };
        this.children.push(part);
        this.open.push(part);
    }

    /** @param {string} name */
    close(name) {
        const element = ELEMENTS.get(name);
        const at = this.open.map((part) => part.name).lastIndexOf(element ?? "");
        if (at >= 0) this.open.length = at;
    }
}

/**
 * What an entity stands for; one that isn't known stays.
 * @param {string} whole
 * @param {string} name
 */
function decoded(whole, name) {
    return ENTITIES.get(name) ?? whole;
}
