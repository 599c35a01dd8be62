// The files that are dropped or chosen.

import { visible } from "../packer/visible.js";
import { GZIP, MOST_DATABASE_BYTES, MOST_TIMES, mostUnpacked } from "../limits.js";

/** @typedef {import("./types.js").Chosen} Chosen */

/** What else files may be compressed by, and how these begin. */
const OTHERS = [
    { name: "bzip2", signs: [0x42, 0x5a, 0x68] },
    { name: "xz", signs: [0xfd, 0x37, 0x7a, 0x58, 0x5a, 0x00] },
    { name: "zip", signs: [0x50, 0x4b, 0x03, 0x04] },
    { name: "zstd", signs: [0x28, 0xb5, 0x2f, 0xfd] },
];
/** How files begin that are no text, though the first bytes could be some. */
const DOCUMENT = /^%PDF-/;
/** Bytes that no text has. */
const NO_TEXT = /[\x00-\x08\x0e-\x1f\x7f]/;
/** How a member of a file begins that is compressed by gzip; behind that come flags, of which these are never set. */
const MEMBER = [...GZIP, 0x08];
const RESERVED_FLAGS = 0xe0;
/** How often a member may seem to begin where none does. */
const MOST_TRIES = 64;
/** How a report begins, or a refusal; neither is ever the beginning of a database that is accepted. */
const REPORT = /^(?:mmdepend [0-9]+|refused [^ \n]+ E[^ \n]*)(?:\n|$)/;

/** A file that can't be taken; the message is for the reader. */
export class Unfit extends Error {}

/** A file whose text is longer than the program takes. */
export class TooLong extends Error {}

/**
 * The database that a file is, unpacked where it is compressed by gzip. The file is read once, and all that is done later
 * is done with what was read: it may be changed in place meanwhile, and then what is shown would be another text than the
 * one that was verified. Unfit where it is none, TooLong where it has too many bytes.
 * @param {File} file
 * @param {boolean} isShared whether workers can read what the browser holds
 * @param {(part: string) => void} tell is told what takes time
 * @returns {Promise<Chosen>}
 */
export async function chosen(file, isShared, tell) {
    const name = visible(file.name);
    if (file.size > MOST_DATABASE_BYTES) throw new TooLong();
    const bytes = await bytesOfChosen(file, name);
    const begins = (/** @type {number[]} */ signs) => signs.every((sign, at) => bytes[at] === sign);
    const other = OTHERS.find(({ signs }) => begins(signs));
    if (other) throw new Unfit(`${name} is compressed by ${other.name}, which no browser unpacks. Unpack it first.`);
    const first = new TextDecoder("latin1").decode(bytes.subarray(0, 100));
    if (REPORT.test(first)) throw new Unfit(`${name} is a report of the program, where the database is wanted.`);
    if (begins(GZIP)) {
        tell(`Unpacking ${name}`);
        const text = await unpacked(bytes, name);
        return { name, file: isShared ? text : await bytesOfChosen(text, name) };
    }
    if (NO_TEXT.test(first) || DOCUMENT.test(first)) {
        throw new Unfit(`${name} is no text: it begins with bytes that no database has. A database is a file .mm.`);
    }
    return { name, file: isShared ? new Blob([bytes]) : bytes };
}

/**
 * The bytes of a file, or of what the browser holds. Unfit where it can't be read.
 * @param {Blob} file
 * @param {string} name
 */
async function bytesOfChosen(file, name) {
    try {
        return new Uint8Array(await file.arrayBuffer());
    } catch (error) {
        if (error instanceof RangeError) throw error;
        throw new Unfit(`${name} can't be read. It may be a folder, or have been changed or removed.`);
    }
}

/**
 * The text that a file was compressed from by gzip, held by the browser and not by the page. The file may have several
 * members, one behind the other. Browsers unpack one, and don't say where it ends, so the places are tried where another
 * one could begin. Unfit where it is damaged, or the text is too long for the size of the file.
 * @param {Uint8Array} bytes
 * @param {string} name
 */
async function unpacked(bytes, name) {
    const most = Math.min(MOST_DATABASE_BYTES, mostUnpacked(bytes.length));
    try {
        return await joined(bytes, name, most);
    } catch (error) {
        if (!(error instanceof TooLong) || most === MOST_DATABASE_BYTES) throw error;
        throw new Unfit(`The text of ${name} is more than ${MOST_TIMES} times as long as the file. Unpack it first.`);
    }
}

/**
 * The texts of all members, one behind the other. TooLong where there are more than so many bytes.
 * @param {Uint8Array} bytes
 * @param {string} name
 * @param {number} most
 */
async function joined(bytes, name, most) {
    const whole = await inflated(bytes, most);
    if (whole) return whole;
    const places = memberPlaces(bytes);
    /** @type {Blob[]} */
    const parts = [];
    let size = 0;
    let start = 0;
    let tries = 0;
    for (const end of places) {
        const part = await inflated(bytes.subarray(start, end), most - size);
        if (part) {
            parts.push(part);
            size += part.size;
            start = end;
        } else if (++tries > MOST_TRIES) break;
    }
    if (start < bytes.length) throw new Unfit(`${name} can't be unpacked: the compressed file is damaged.`);
    return new Blob(parts);
}

/**
 * Where members could begin behind the first one, and where the last one ends.
 * @param {Uint8Array} bytes
 */
function* memberPlaces(bytes) {
    for (let at = bytes.indexOf(MEMBER[0], 1); at >= 0; at = bytes.indexOf(MEMBER[0], at + 1)) {
        const isMember = MEMBER.every((byte, more) => bytes[at + more] === byte);
        if (isMember && (bytes[at + MEMBER.length] & RESERVED_FLAGS) === 0) yield at;
    }
    yield bytes.length;
}

/**
 * What one member was compressed from, or null where it is no whole one. TooLong where that has more than so many bytes.
 * @param {Uint8Array} member
 * @param {number} most
 */
async function inflated(member, most) {
    const Inflater = /** @type {{ new (format: string): ReadableWritablePair<Uint8Array, BufferSource> }} */ (
        /** @type {any} */ (globalThis).DecompressionStream
    );
    let size = 0;
    const counter = new TransformStream({
        transform(part, controller) {
            size += part.length;
            if (size > most) controller.error(new TooLong());
            else controller.enqueue(part);
        },
    });
    try {
        const given = new Blob([member]).stream();
        return await new Response(given.pipeThrough(new Inflater("gzip")).pipeThrough(counter)).blob();
    } catch (error) {
        if (size > most) throw new TooLong();
        return null;
    }
}
