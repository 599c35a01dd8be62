// Reads the blocks of data that stand in the page.

/** A block of the page isn't what the packer writes. */
export class Damaged extends Error {}

/** The blocks of the page, by their names. Each is deflated and written in base64; once read, it leaves the page. */
export class Blocks {
    constructor() {
        /** @type {Map<string, Uint8Array>} */
        this.known = new Map();
        /** @type {Map<string, Promise<Uint8Array>>} */
        this.coming = new Map();
    }

    /**
     * Whether there is a block of this name.
     * @param {string} name
     */
    has(name) {
        return this.known.has(name) || document.getElementById(`data-${name}`) !== null;
    }

    /**
     * A block that has been read.
     * @param {string} name
     */
    get(name) {
        const block = this.known.get(name);
        if (!block) throw new Error(`the block ${name} is missing`);
        return block;
    }

    /**
     * Reads a block, if that isn't done yet.
     * @param {string} name
     */
    load(name) {
        let promise = this.coming.get(name);
        if (!promise) {
            promise = readBlock(name).then((block) => {
                this.known.set(name, block);
                return block;
            });
            this.coming.set(name, promise);
        }
        return promise;
    }

    /**
     * Reads all blocks but those that are read when they are needed. Damaged where they aren't all of one page.
     * @param {(name: string) => boolean} isLater
     */
    async loadFirst(isLater) {
        /** @type {HTMLElement[]} */
        const holders = Array.from(document.querySelectorAll("script[id^='data-']"));
        const pages = new Set(holders.map((holder) => holder.dataset.page));
        if (pages.size > 1) throw new Damaged("the blocks of several pages are mixed");
        const names = holders.map((holder) => holder.id.slice(5));
        await Promise.all(names.filter((name) => !isLater(name)).map((name) => this.load(name)));
    }
}

/**
 * What inflates, as browsers of 2023 and later have it.
 * @type {{ new (format: string): ReadableWritablePair<Uint8Array, BufferSource> }}
 */
const Inflating = /** @type {any} */ (globalThis).DecompressionStream;

/**
 * The bytes of a block.
 * @param {string} name
 * @returns {Promise<Uint8Array>}
 */
async function readBlock(name) {
    const holder = document.getElementById(`data-${name}`);
    if (!holder) throw new Error(`the block ${name} is missing`);
    const packed = fromBase64(holder.textContent ?? "");
    holder.remove();
    const stream = new Blob([packed]).stream().pipeThrough(new Inflating("deflate"));
    return new Uint8Array(await new Response(stream).arrayBuffer());
}

/**
 * The bytes that a text in base64 stands for; some browsers have a function for it.
 * @param {string} signs
 * @returns {Uint8Array}
 */
function fromBase64(signs) {
    const known = /** @type {{ fromBase64?: (signs: string) => Uint8Array }} */ (/** @type {unknown} */ (Uint8Array));
    if (known.fromBase64) return known.fromBase64(signs);
    return Uint8Array.from(atob(signs), (sign) => sign.charCodeAt(0));
}

/**
 * The text of a block.
 * @param {Uint8Array} block
 */
export function textOf(block) {
    return new TextDecoder().decode(block);
}

/** A block that is a list of numbers, read from a place on. Damaged where it ends within a number. */
export class NumberReader {
    /** @param {Uint8Array} block */
    constructor(block, place = 0) {
        this.block = block;
        this.place = place;
    }

    next() {
        let number = 0;
        let scale = 1;
        for (;;) {
            const byte = this.block[this.place++];
            number += (byte & 0x7f) * scale;
            if (byte < 0x80) return number;
            if (byte === undefined) throw new Damaged("a block ends too early");
            scale *= 0x80;
        }
    }
}

/**
 * All numbers of a block.
 * @param {Uint8Array} block
 */
export function numbersOf(block) {
    let size = 0;
    for (let place = 0; place < block.length; place++) size += block[place] < 0x80 ? 1 : 0;
    const numbers = new Uint32Array(size);
    let place = 0;
    for (let index = 0; index < size; index++) {
        let byte = block[place++];
        let number = byte & 0x7f;
        for (let shift = 7; byte >= 0x80; shift += 7) {
            byte = block[place++];
            number |= (byte & 0x7f) << shift;
        }
        numbers[index] = number;
    }
    return numbers;
}

/** Lists of numbers that stand one behind the other: list i is `items` from `starts[i]` to `starts[i + 1]`. */
export class Lists {
    /**
     * @param {Uint32Array} starts
     * @param {Uint32Array} items
     */
    constructor(starts, items) {
        this.starts = starts;
        this.items = items;
    }

    /** @param {number} index */
    of(index) {
        return this.items.subarray(this.starts[index], this.starts[index + 1]);
    }

    /**
     * Lists of rising numbers, of which the lengths and the gaps are given.
     * @param {Uint8Array} lengths
     * @param {Uint8Array} gaps
     */
    static fromGaps(lengths, gaps) {
        const starts = startsOf(numbersOf(lengths));
        const items = numbersOf(gaps);
        for (let list = 0; list + 1 < starts.length; list++) {
            for (let item = starts[list] + 1; item < starts[list + 1]; item++) items[item] += items[item - 1] + 1;
        }
        return new Lists(starts, items);
    }
}

/** The lines of a text, cut out when they are asked for. */
export class Texts {
    /**
     * @param {string} text
     * @param {number} size how many lines it has
     */
    constructor(text, size) {
        this.text = text;
        this.size = size;
        this.starts = new Uint32Array(size + 1);
        let place = 0;
        for (let line = 1; line < size; line++) {
            place = text.indexOf("\n", place) + 1;
            this.starts[line] = place;
        }
        this.starts[size] = text.length + 1;
    }

    /** @param {number} line */
    at(line) {
        return this.text.slice(this.starts[line], this.starts[line + 1] - 1);
    }

    /**
     * The line in which a place of the text is; it isn't above a known one.
     * @param {number} place
     */
    lineAt(place, known = 0) {
        let low = known;
        let step = 1; // larger each time, since it is often one of the next lines
        while (low + step < this.size && this.starts[low + step] <= place) {
            low += step;
            step *= 2;
        }
        let high = Math.min(this.size, low + step);
        while (high - low > 1) {
            const middle = (low + high) >>> 1;
            if (this.starts[middle] <= place) low = middle;
            else high = middle;
        }
        return low;
    }
}

/**
 * Where lists of these lengths begin, and where the last one ends.
 * @param {ArrayLike<number>} sizes
 */
export function startsOf(sizes) {
    const starts = new Uint32Array(sizes.length + 1);
    for (let index = 0; index < sizes.length; index++) starts[index + 1] = starts[index] + sizes[index];
    return starts;
}
