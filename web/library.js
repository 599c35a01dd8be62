// One run of the proved library, in Node or in a page. The module has no import: it works in memory that is lent to it,
// and here that memory is made. It calls nothing, and an instance serves one run alone.

import { Status } from "./statuses.js";

/** @typedef {import("./node/types.js").Answer} Answer */
/** @typedef {import("./node/types.js").Request} Request */

// begin sections: made by `python3 -m tables`; change crates/mm_library instead
/** The sections of a report, each with its bit; `all` are those where none is named. */
const BITS = { all: 7, matrix: 1, counts: 2, usage: 4, citations: 8, proofs: 32, statements: 16 };
/**
 * What the program is asked without options.
 * @type {Request}
 */
const PLAIN = { only: null, report: "all", form: 1, essential: false, open: false };
// end sections
/** The names of sections, and `all`. */
export const PARTS = /** @type {(keyof typeof BITS)[]} */ (Object.keys(BITS));
/** The memory of a module grows by pages, up to 2^16 of them. */
export const MEMORY_PAGE = 65536;
const MOST_PAGES = 65536;
/** The module is lent memory in units of so many bytes, and from a multiple of them on, as `mmdepend.h` says. */
export const UNIT = 16;
/**
 * How many bytes of output are tried first for each byte of the text, by the sections and in both forms: a bit more than
 * those of set.mm have.
 */
const SHARES = {
    matrix: [2.75, 0.75],
    counts: [0.05, 0.05],
    usage: [2, 2],
    citations: [0.25, 0.25],
    statements: [0.5, 0.5],
};
/** Of the arguments that the module writes to, three of eight bytes: the room's two, and a length. */
const WRITTEN = 24;
/** The longest text, and one byte more: the module refuses such a text, and reads nothing behind it. */
export const READING_LIMIT = 2147483648;

/** There is no more memory. */
class Exhausted extends Error {}

/**
 * Compiles the module.
 * @param {BufferSource} bytes
 * @returns {Promise<WebAssembly.Module>}
 */
export async function compile(bytes) {
    const module = await WebAssembly.compile(bytes);
    if (WebAssembly.Module.imports(module).length > 0) throw new Error("the module has imports");
    return module;
}

/**
 * Bytes up to the next multiple.
 * @param {number} bytes
 * @param {number} multiple
 */
function upTo(bytes, multiple) {
    return Math.ceil(bytes / multiple) * multiple;
}

/** The memory of an instance: below `free` it is taken. */
class Memory {
    /**
     * @param {WebAssembly.Memory} memory
     * @param {number} most how many bytes it may have
     */
    constructor(memory, most) {
        this.memory = memory;
        this.most = Math.min(most, MOST_PAGES * MEMORY_PAGE);
        // The module's own data and its stack come first.
        this.free = memory.buffer.byteLength;
    }

    /**
     * Makes sure that there is memory up to a place. Where that can't be had, `most` is what there is.
     * @param {number} end
     */
    reach(end) {
        if (end > this.most) throw new Exhausted();
        const lacking = Math.ceil((end - this.memory.buffer.byteLength) / MEMORY_PAGE);
        if (lacking <= 0 || this.grows(lacking)) return;
        for (let pages = lacking >>> 1; pages > 0; pages >>>= 1) this.grows(pages);
        this.most = this.memory.buffer.byteLength;
        throw new Exhausted();
    }

    /**
     * Whether memory could be made larger by so many pages.
     * @param {number} pages
     */
    grows(pages) {
        try {
            this.memory.grow(pages);
            return true;
        } catch (error) {
            return false;
        }
    }

    /**
     * Takes memory, and tells where it begins: at a whole unit.
     * @param {number} size
     */
    take(size) {
        const at = this.free;
        this.reach(at + size);
        this.free = upTo(at + size, UNIT);
        return at;
    }

    /**
     * The bytes from a place on. Memory that grows moves, so they are asked for each time.
     * @param {number} at
     * @param {number} size
     */
    bytes(at, size) {
        return new Uint8Array(this.memory.buffer, at, size);
    }
}

/**
 * How many bytes of room are tried first: with the databases that there are, it is enough.
 * @param {number} size the text's bytes
 */
function firstRoom(size) {
    return upTo(6 * size + 16 * MEMORY_PAGE, MEMORY_PAGE);
}

/**
 * How many bytes of output are tried first. What two texts differ in is as long as their statements at the most, if they
 * are versions of one database.
 * @param {number} size the bytes of all texts
 * @param {Request} request
 * @param {boolean} ofTwo whether two texts are compared
 */
function firstOutput(size, { report, form }, ofTwo) {
    const bits = ofTwo ? BITS.statements : bitsOf(report);
    const sections = /** @type {(keyof typeof SHARES)[]} */ (Object.keys(SHARES)).filter((name) => bits & BITS[name]);
    return upTo(size * sections.reduce((sum, name) => sum + SHARES[name][form - 1], 0) + MEMORY_PAGE, MEMORY_PAGE);
}

/**
 * The sections of these names, as bits. A name that there isn't is none, and the module answers that.
 * @param {string} names
 */
function bitsOf(names) {
    const bits = names.split(",").map((name) => (Object.hasOwn(BITS, name) ? BITS[/** @type {keyof typeof BITS} */ (name)] : 0));
    return bits.includes(0) ? 0 : bits.reduce((all, bit) => all | bit, 0);
}

/**
 * A text: how many bytes it has, and what puts it into the array that `bytes()` gives; to be asked for again after each
 * wait, since memory may have moved.
 * @typedef {{ size: number, fill: (bytes: () => Uint8Array) => void | Promise<void> }} Text
 */

class Run {
    /**
     * @param {WebAssembly.Instance} instance
     * @param {Request} request
     * @param {number} most how many bytes of memory it may take
     */
    constructor(instance, request, most) {
        /** @type {{ at: number, size: number }[]} */
        this.texts = [];
        this.exports = /** @type {Record<string, Function>} */ (/** @type {unknown} */ (instance.exports));
        this.request = request;
        this.memory = new Memory(/** @type {WebAssembly.Memory} */ (instance.exports.memory), most);
    }

    /**
     * Puts the texts and the typecode into memory: of each text what is read of it.
     * @param {Text[]} texts
     */
    async load(texts) {
        const { memory } = this;
        this.written = memory.take(WRITTEN);
        for (const { size } of texts) {
            const read = Math.min(size, READING_LIMIT);
            this.texts.push({ at: memory.take(read), size: read });
        }
        const name = new TextEncoder().encode(this.request.only ?? "");
        this.only = memory.take(name.length);
        this.onlySize = name.length;
        memory.bytes(this.only, name.length).set(name);
        for (const [index, { fill }] of texts.entries()) {
            const { at, size } = this.texts[index];
            await fill(() => memory.bytes(at, size));
        }
    }

    /** How many bytes the texts have together. */
    get size() {
        return this.texts.reduce((sum, { size }) => sum + size, 0);
    }

    /** The three numbers that the module writes. */
    numbers() {
        return new BigUint64Array(this.memory.memory.buffer, this.written, WRITTEN / 8);
    }

    /**
     * One call of the module, with so many bytes of room and of output.
     * @param {number} room
     * @param {number} output
     */
    call(room, output) {
        const { memory, request } = this;
        const at = upTo(memory.free, MEMORY_PAGE);
        const out = at + room;
        memory.reach(out + output);
        this.numbers().set([BigInt(at), BigInt(room / UNIT), 0n]);
        const written = /** @type {number} */ (this.written);
        const ofTwo = this.texts.length === 2;
        const status = Number(
            this.exports[ofTwo ? "mmdepend_against" : "mmdepend_report"](
                BigInt(written),
                ...this.texts.flatMap(({ at: text, size }) => [BigInt(text), BigInt(size)]),
                BigInt(/** @type {number} */ (this.only)),
                BigInt(/** @type {number} */ (this.onlySize)),
                request.only === null ? 0 : 1,
                ...(ofTwo ? [] : [bitsOf(request.report), request.form]),
                request.essential ? 1 : 0,
                request.open ? 1 : 0,
                BigInt(out),
                BigInt(output),
                BigInt(written + 16),
            ),
        );
        const [, , report] = Array.from(this.numbers(), Number);
        return { status, out, report };
    }

    /** How many bytes there can be for room and output, in whole pages. */
    get left() {
        const left = this.memory.most - upTo(this.memory.free, MEMORY_PAGE);
        return left - (left % MEMORY_PAGE);
    }

    /**
     * Calls the module with more memory until that is enough, or there is no more. Each time the room is a third
     * larger, up to all that the output leaves. The output is given less than was meant at first where the room needs
     * it: the module says then how much it needs.
     * @param {number} room
     * @returns {Answer}
     */
    answer(room) {
        let output = firstOutput(this.size, this.request, this.texts.length === 2);
        let needed = MEMORY_PAGE;
        let tooSmall = 0;
        for (;;) {
            const { left } = this;
            output = Math.max(needed, Math.min(output, left - room));
            room = Math.min(room, left - output);
            if (room <= tooSmall) throw new Exhausted();
            const called = this.tried(room, output);
            if (called === null) continue;
            if (called.status === Status.outTooShort) output = needed = upTo(called.report, MEMORY_PAGE);
            else if (called.status === Status.noMemory) {
                tooSmall = room;
                room = upTo((room * 4) / 3, MEMORY_PAGE);
            } else return this.answered(called);
        }
    }

    /**
     * One call, or null where there was less memory than was thought.
     * @param {number} room
     * @param {number} output
     */
    tried(room, output) {
        const { left } = this;
        try {
            return this.call(room, output);
        } catch (error) {
            if (error instanceof Exhausted && this.left < left) return null;
            throw error;
        }
    }

    /**
     * @param {{ status: number, out: number, report: number }} called
     * @returns {Answer}
     */
    answered({ status, out, report: size }) {
        return {
            status: /** @type {Answer["status"]} */ (status),
            report: this.memory.bytes(out, size),
            memory: this.memory.memory.buffer.byteLength,
        };
    }
}

/**
 * Verifies a text and writes its report.
 * @param {WebAssembly.Module} module
 * @param {number} size the text's bytes
 * @param {(bytes: () => Uint8Array) => void | Promise<void>} fill puts the text into the array that `bytes()` gives; to be
 *     asked for again after each wait, since memory may have moved
 * @param {Partial<Request>} request what isn't said is as in the program without options
 * @param {{ room?: number, most?: number }} [limits] how many bytes of room are tried first, and how many bytes of memory
 *     the module may take
 * @returns {Promise<Answer>}
 */
export function report(module, size, fill, request, limits = {}) {
    return answered(module, [{ size, fill }], request, limits);
}

/**
 * Verifies two texts and writes what the one has and the other hasn't; or if one has a fault, the refusal of the first that
 * has, after the word `old` or `new`. Of the request `report` and `form` are of no meaning.
 * @param {WebAssembly.Module} module
 * @param {Text} oldText
 * @param {Text} newText
 * @param {Partial<Request>} request what isn't said is as in the program without options
 * @param {{ room?: number, most?: number }} [limits] as those of `report`
 * @returns {Promise<Answer>}
 */
export function against(module, oldText, newText, request, limits = {}) {
    return answered(module, [oldText, newText], request, limits);
}

/**
 * One run of the module on one text or two.
 * @param {WebAssembly.Module} module
 * @param {Text[]} texts
 * @param {Partial<Request>} request
 * @param {{ room?: number, most?: number }} limits
 * @returns {Promise<Answer>}
 */
async function answered(module, texts, request, limits) {
    const whole = { ...PLAIN, ...request };
    const instance = await WebAssembly.instantiate(module, {});
    const run = new Run(instance, whole, limits.most ?? Infinity);
    try {
        await run.load(texts);
        return run.answer(limits.room ?? firstRoom(texts.reduce((sum, { size }) => sum + size, 0)));
    } catch (error) {
        if (!(error instanceof Exhausted)) throw error;
        const none = new Uint8Array(0);
        return { status: Status.noMemory, report: none, memory: run.memory.memory.buffer.byteLength };
    }
}

/**
 * The version's text, as the program prints it after its name.
 * @param {WebAssembly.Module} module
 * @returns {Promise<string>}
 */
export async function version(module) {
    const instance = await WebAssembly.instantiate(module, {});
    const exports = /** @type {Record<string, Function>} */ (/** @type {unknown} */ (instance.exports));
    const memory = /** @type {WebAssembly.Memory} */ (instance.exports.memory);
    const at = memory.buffer.byteLength;
    memory.grow(1);
    const size = Number(exports.mmdepend_version(BigInt(at), BigInt(MEMORY_PAGE)));
    return new TextDecoder().decode(new Uint8Array(memory.buffer, at, size));
}
