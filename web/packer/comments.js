// Comments as lines to be packed, and the flags that are read of them. What markup a comment has is left as it is:
// markup.js of the view reads it.
//
// White space becomes single spaces, but PARAGRAPH_END stands between paragraphs, and LINE_END between the lines of
// preformatted text, which is what stands within `<PRE>`.

import { Flag } from "./assertions.js";
import { Byte, encoded, isSame, textAt } from "./bytes.js";
import { LINE_END, PARAGRAPH_END } from "./comment-ends.js";
import { visible } from "./visible.js";

/** @typedef {import("./bytes.js").Writer} Writer */

/**
 * The four words of each sentence that has a flag: the first may follow other signs, and the last have more after it.
 */
const SENTENCES = [
    { words: ["(New", "usage", "is", "discouraged.)"], flag: Flag.usage },
    { words: ["(Proof", "modification", "is", "discouraged.)"], flag: Flag.modification },
].map(({ words, flag }) => ({ words: words.map(encoded), flag }));
const LAST = SENTENCES[0].words[3];
const OPENING = encoded("<pre");
const CLOSING = encoded("</pre>");
const [PARAGRAPH_END_BYTE] = encoded(PARAGRAPH_END);

/**
 * The flags of a comment.
 * @param {Uint8Array} data
 * @param {number} start
 * @param {number} end
 */
export function flagsOf(data, start, end) {
    let found = 0;
    let place = start;
    while (place < end) {
        if (data[place] <= Byte.space) {
            place++;
            continue;
        }
        found |= Flag.comment;
        const first = place;
        while (place < end && data[place] > Byte.space) place++;
        const size = Math.min(place - first, LAST.length);
        if (isSame(data, first, first + size, LAST, 0, LAST.length)) found |= flagAt(data, start, first);
    }
    return found;
}

/**
 * The flag whose sentence the words before a place begin, or 0.
 * @param {Uint8Array} data
 * @param {number} start of the comment
 * @param {number} place of the last word
 */
function flagAt(data, start, place) {
    const sentence = SENTENCES.find(({ words }) => {
        let last = place;
        return [2, 1, 0].every((at) => {
            while (last > start && data[last - 1] <= Byte.space) last--;
            let first = last;
            while (first > start && data[first - 1] > Byte.space) first--;
            const from = at === 0 ? Math.max(first, last - words[0].length) : first;
            const isThis = isSame(data, from, last, words[at], 0, words[at].length);
            last = first;
            return isThis;
        });
    });
    return sentence?.flag ?? 0;
}

/**
 * Adds a comment as one line, without signs that no screen shows.
 * @param {Writer} writer
 * @param {Uint8Array} data
 * @param {number} start
 * @param {number} end
 */
export function putLine(writer, data, start, end) {
    if (!data.subarray(start, end).includes(OPENING[0])) {
        putPlainLine(writer, data, start, end);
        return;
    }
    const first = writer.size;
    let place = start;
    for (;;) {
        const found = preformattedAfter(data, place, end);
        const before = writer.size;
        if (before > first) writer.push(Byte.space);
        const begun = writer.size;
        putPlainLine(writer, data, place, found ? found.start : end);
        if (writer.size === begun) writer.size = before;
        if (!found) break;
        if (writer.size > first) writer.push(Byte.space);
        putPreformatted(writer, data, found);
        place = found.end;
    }
}

/**
 * Adds a comment without preformatted text: its words, with PARAGRAPH_END between those of different paragraphs.
 * @param {Writer} writer
 * @param {Uint8Array} data
 * @param {number} start
 * @param {number} end
 */
function putPlainLine(writer, data, start, end) {
    writer.reserve(end - start + 1);
    const { bytes } = writer;
    let { size } = writer;
    let place = start;
    let isFirst = true;
    while (place < end) {
        let newlines = 0;
        for (; place < end && data[place] <= Byte.space; place++) if (data[place] === Byte.newline) newlines++;
        if (place === end) break;
        if (!isFirst) bytes[size++] = newlines > 1 ? PARAGRAPH_END_BYTE : Byte.space;
        isFirst = false;
        while (place < end && data[place] > Byte.space) bytes[size++] = data[place++];
    }
    writer.size = size;
}

/**
 * Preformatted text: where its tag begins and ends, and where its content and it end.
 * @typedef {{ start: number, tagEnd: number, contentEnd: number, end: number }} Preformatted
 */

/**
 * The next preformatted text of a comment at or after a place, or null.
 * @param {Uint8Array} data
 * @param {number} place
 * @param {number} end
 * @returns {Preformatted | null}
 */
function preformattedAfter(data, place, end) {
    let start = tagAfter(data, place, end, OPENING);
    while (start >= 0 && isWordByte(data[start + OPENING.length])) start = tagAfter(data, start + 1, end, OPENING);
    if (start < 0) return null;
    let tagEnd = start;
    while (tagEnd < end && data[tagEnd] !== Byte.more) tagEnd++;
    if (tagEnd++ === end) return null; // as no other one is closed either
    const contentEnd = tagAfter(data, tagEnd, end, CLOSING);
    if (contentEnd < 0) return { start, tagEnd, contentEnd: end, end };
    return { start, tagEnd, contentEnd, end: contentEnd + CLOSING.length };
}

/**
 * Where a tag begins next, in capitals or not, or -1.
 * @param {Uint8Array} data
 * @param {number} place
 * @param {number} end
 * @param {Uint8Array} tag in small letters
 */
function tagAfter(data, place, end, tag) {
    const last = end - tag.length;
    let start = data.indexOf(tag[0], place);
    while (start >= 0 && start <= last) {
        let size = 1;
        while (size < tag.length && smallLetter(data[start + size]) === tag[size]) size++;
        if (size === tag.length) return start;
        start = data.indexOf(tag[0], start + 1);
    }
    return -1;
}

/** @param {number} byte */
function smallLetter(byte) {
    return byte >= 0x41 && byte <= 0x5a ? byte | 0x20 : byte;
}

/**
 * Whether a byte is a letter, a digit or `_`.
 * @param {number} byte
 */
function isWordByte(byte) {
    const small = smallLetter(byte);
    return (small >= 0x61 && small <= 0x7a) || (byte >= 0x30 && byte <= 0x39) || byte === 0x5f;
}

/**
 * Adds preformatted text, with LINE_END between its lines. There a form feed of the text becomes a space, as it is the
 * same byte as PARAGRAPH_END; within the tag it stays.
 * @param {Writer} writer
 * @param {Uint8Array} data
 * @param {Preformatted} found
 */
function putPreformatted(writer, data, found) {
    const lines = textAt(data, found.tagEnd, found.contentEnd).split("\n");
    const kept = lines.map((line) => withoutTabs(line).trimEnd()).join(LINE_END);
    const content = kept.replaceAll("\f", " ").replaceAll("\r", "");
    const whole = textAt(data, found.start, found.tagEnd) + content + textAt(data, found.contentEnd, found.end);
    const shown = (/** @type {string} */ text) => text.split(LINE_END).map(visible).join(LINE_END);
    writer.text(whole.split(PARAGRAPH_END).map(shown).join(PARAGRAPH_END));
}

/**
 * A line with spaces for each tab, up to the next eighth column; a carriage return begins the columns anew.
 * @param {string} line
 */
function withoutTabs(line) {
    if (!line.includes("\t")) return line;
    let made = "";
    let column = 0;
    for (const sign of line) {
        if (sign === "\t") {
            made += " ".repeat(8 - (column % 8));
            column = 0;
            continue;
        }
        made += sign;
        column = sign === "\r" ? 0 : column + 1;
    }
    return made;
}
