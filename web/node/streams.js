// Files and standard streams in Node: what can't be read or written ends the program with its status.

import * as fs from "node:fs";
import { READING_LIMIT } from "../library.js";
import { Exit, Status } from "../statuses.js";

/** How many bytes are read or written at a time. */
const PIECE = 1 << 22;
const STDIN = 0;
export const STDOUT = 1;
export const STDERR = 2;

/** Ends the program with a status and a text on standard error. */
export class Ending extends Error {
    /**
     * @param {number} status
     * @param {string} text
     */
    constructor(status, text) {
        super(text);
        this.status = status;
        this.text = text;
    }
}

/**
 * Whether a call of the system or of Node failed in this way.
 * @param {unknown} error
 * @param {string} code
 */
export function failedBy(error, code) {
    return error instanceof Error && /** @type {{ code?: string }} */ (error).code === code;
}

/** Waits for a moment. */
function pause() {
    Atomics.wait(new Int32Array(new SharedArrayBuffer(4)), 0, 0, 2);
}

/**
 * Repeats a call of the system while the other end isn't ready.
 * @param {() => number} call
 */
function whenReady(call) {
    for (;;) {
        try {
            return call();
        } catch (error) {
            if (!failedBy(error, "EAGAIN")) throw error;
            pause();
        }
    }
}

/**
 * Writes all bytes.
 * @param {number} file
 * @param {Uint8Array} bytes
 */
export function writeAll(file, bytes) {
    for (let at = 0; at < bytes.length; ) {
        const from = at;
        const count = Math.min(PIECE, bytes.length - from);
        try {
            at += whenReady(() => fs.writeSync(file, bytes, from, count));
        } catch (error) {
            throw new Ending(Exit.failed, "mmdepend: writing failed\n");
        }
    }
}

/**
 * Reads into an array, and tells how many bytes came; 0 at the end.
 * @param {number} file
 * @param {Uint8Array} into
 * @param {number} at
 */
function readInto(file, into, at) {
    try {
        return whenReady(() => fs.readSync(file, into, at, Math.min(PIECE, into.length - at), null));
    } catch (error) {
        if (failedBy(error, "EOF")) return 0;
        throw new Ending(Exit.failed, "mmdepend: reading failed\n");
    }
}

/**
 * Whether a name is that of the standard input.
 * @param {string | null} name
 */
export function isInput(name) {
    return name === null || name === "-";
}

/**
 * Opens what is to be read.
 * @param {string | null} name `null` or `-` is the standard input
 */
export function opened(name) {
    if (name === null || isInput(name)) return STDIN;
    try {
        return fs.openSync(name);
    } catch (error) {
        throw new Ending(Exit.failed, "mmdepend: cannot open the file\n");
    }
}

/**
 * The bytes of a file, up to the limit of a text, in pieces.
 * @param {string | null} name `null` or `-` is the standard input
 */
export function piecesOf(name) {
    return piecesIn(opened(name));
}

/**
 * The bytes of a file that was opened, up to the limit of a text, in pieces.
 * @param {number} file
 */
export function piecesIn(file) {
    const pieces = [];
    for (let size = 0; size < READING_LIMIT; ) {
        const piece = new Uint8Array(Math.min(PIECE, READING_LIMIT - size));
        let filled = 0;
        while (filled < piece.length) {
            const count = readInto(file, piece, filled);
            if (count === 0) return [...pieces, piece.subarray(0, filled)];
            filled += count;
        }
        pieces.push(piece);
        size += filled;
    }
    return pieces;
}

/**
 * Puts pieces one behind the other.
 * @param {Uint8Array[]} pieces
 * @param {Uint8Array} into
 */
export function join(pieces, into) {
    let at = 0;
    for (const piece of pieces) {
        into.set(piece, at);
        at += piece.length;
    }
    pieces.length = 0;
}

/**
 * How many bytes pieces have together.
 * @param {Uint8Array[]} pieces
 */
export function sizeOf(pieces) {
    return pieces.reduce((sum, piece) => sum + piece.length, 0);
}

/** How the program ends where there is too little memory. */
export function outOfMemory() {
    return new Ending(Status.noMemory, "mmdepend: out of memory\n");
}
