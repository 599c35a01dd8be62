// The proved core for programs of others, under Node: index.js of the package for npm, beside which the module lies.

import { readFileSync } from "node:fs";
import { READING_LIMIT, against as compared, compile, report as answered, version as versionOf } from "./library.js";
import { refusalOf } from "./packer/faults.js";
import { Status } from "./statuses.js";

/** @typedef {import("./node/types.js").Request} Request */

/** The database has a fault. Line and column count from 1, in bytes. `side` is the one of two that has it. */
export class Refused extends Error {
    /**
     * @param {Uint8Array} refusal what the module wrote
     * @param {"old" | "new" | null} [side]
     */
    constructor(refusal, side = null) {
        super(new TextDecoder().decode(refusal).trim());
        const { line, column, code } = refusalOf(side === null ? refusal : refusal.subarray(SIDE_LENGTH));
        this.name = "Refused";
        this.line = line;
        this.column = column;
        this.code = code;
        this.side = side;
    }
}

/** How many bytes `old ` and `new ` have. */
const SIDE_LENGTH = 4;

/** What a request may have, and that of a comparison. */
const FIELDS = ["report", "only", "form", "essential", "open"];
const FIELDS_OF_TWO = ["only", "essential", "open"];
/** A longer text is refused so, whatever stands in it. */
const MOST_BYTES = READING_LIMIT - 1;
const TOO_LONG = new TextEncoder().encode("refused 1:1 E00\n");

/** @type {{ module?: Promise<WebAssembly.Module> }} */
const compiled = {};

/** The module, compiled at its first use. */
function core() {
    return (compiled.module ??= compile(readFileSync(new URL("./mmdepend.wasm", import.meta.url))));
}

/**
 * Verifies a database, and gives the bytes of its report. Throws Refused if it has a fault, a TypeError if what is requested
 * isn't there, and a RangeError if memory runs out. The text is copied at the call.
 * @param {Uint8Array} text
 * @param {Partial<Request>} [request]
 * @returns {Promise<Uint8Array>}
 */
export async function report(text, request = {}) {
    if (![undefined, 1, 2].includes(request.form)) throw new TypeError("there is no such form");
    const said = fieldsOf(request, FIELDS);
    const copy = copyOf(text);
    if (copy.length > MOST_BYTES) throw new Refused(TOO_LONG);
    const answer = await answered(await core(), copy.length, (bytes) => bytes().set(copy), said);
    if (answer.status === Status.refused) throw new Refused(answer.report);
    return reportIn(answer, copy.length);
}

/**
 * Verifies two databases, and gives the bytes that say what the one has and the other hasn't, as the program writes them for
 * `--against`. Throws Refused if one has a fault, a TypeError if what is requested isn't there, and a RangeError if memory
 * runs out. The texts are copied at the call.
 * @param {Uint8Array} oldText
 * @param {Uint8Array} newText
 * @param {Partial<Pick<Request, "only" | "essential" | "open">>} [request]
 * @returns {Promise<Uint8Array>}
 */
export async function against(oldText, newText, request = {}) {
    const said = fieldsOf(request, FIELDS_OF_TWO);
    const copies = [copyOf(oldText), copyOf(newText)];
    const [before, after] = copies.map((copy) => ({
        size: copy.length,
        fill: (/** @type {() => Uint8Array} */ bytes) => bytes().set(copy.subarray(0, READING_LIMIT)),
    }));
    const answer = await compared(await core(), before, after, said);
    if (answer.status === Status.refused) {
        throw new Refused(answer.report, answer.report[0] === "o".charCodeAt(0) ? "old" : "new");
    }
    return reportIn(answer, before.size + after.size);
}

/**
 * A copy of a text, before anything is waited for: whose text it is may fill it anew then. Of a text that is too long it
 * has as much as shows that.
 * @param {Uint8Array} text
 */
function copyOf(text) {
    if (!(text instanceof Uint8Array)) throw new TypeError("the database is no Uint8Array");
    return new Uint8Array(text.subarray(0, READING_LIMIT));
}

/**
 * What a request says. A TypeError where it says more than there is to say.
 * @param {object} request
 * @param {string[]} fields
 */
function fieldsOf(request, fields) {
    const unknown = Object.keys(request).find((name) => !fields.includes(name));
    if (unknown !== undefined) throw new TypeError(`a request has no field '${unknown}'`);
    return Object.fromEntries(Object.entries(request).filter(([, value]) => value !== undefined));
}

/**
 * The bytes of an answer that isn't a refusal.
 * @param {import("./node/types.js").Answer} answer
 * @param {number} size the bytes of all texts
 */
function reportIn(answer, size) {
    if (answer.status === Status.noMemory) {
        throw new RangeError(`out of memory: ${answer.memory} bytes are too few for texts of ${size}`);
    }
    if (answer.status !== Status.accepted) throw new TypeError("there is no such section, form or typecode");
    return answer.report.slice();
}

/**
 * The version, and the logic in which it was proved.
 * @returns {Promise<string>}
 */
export async function version() {
    return versionOf(await core());
}
