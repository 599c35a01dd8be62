// Lists of bytes and of numbers that grow, and words in bytes.
//
// A text is an array of bytes, and what stands in it a stretch: the place of its first byte, and that after its last.
// A word is bytes above 0x20; comments, from `$(` to `$)`, may stand between words.

export const Byte = {
    tab: 0x09,
    newline: 0x0a,
    carriageReturn: 0x0d,
    space: 0x20,
    hash: 0x23,
    dollar: 0x24,
    open: 0x28,
    close: 0x29,
    star: 0x2a,
    dash: 0x2d,
    dot: 0x2e,
    zero: 0x30,
    colon: 0x3a,
    equals: 0x3d,
    more: 0x3e,
    openBrace: 0x7b,
    closeBrace: 0x7d,
};

/** The hash FNV-1a, of 32 bits. */
export const Fnv = { first: 0x811c9dc5, prime: 0x01000193 };
/** How much a list or a table holds at first. */
const FIRST_CAPACITY = 1 << 10;
/** A stretch of more bytes is copied by a call of the system; of fewer, that takes longer than to copy them one by one. */
const LONG = 256;

/** A growing list of numbers from 0 to 2^32 - 1. */
export class Numbers {
    constructor() {
        this.items = new Uint32Array(FIRST_CAPACITY);
        this.size = 0;
    }

    /** @param {number} number */
    push(number) {
        if (this.size === this.items.length) {
            const items = new Uint32Array(2 * this.size);
            items.set(this.items);
            this.items = items;
        }
        this.items[this.size++] = number;
    }

    /**
     * Makes room for so many numbers more.
     * @param {number} more
     */
    reserve(more) {
        if (this.size + more <= this.items.length) return;
        const items = new Uint32Array(Math.max(2 * this.items.length, this.size + more));
        items.set(this.items.subarray(0, this.size));
        this.items = items;
    }

    /** Only the numbers that are there, in no more room than they need. */
    taken() {
        return this.items.slice(0, this.size);
    }
}

/** Lists of numbers that are made one after the other: list i is `items` from `starts[i]` to `starts[i + 1]`. */
export class Lists {
    constructor() {
        this.starts = new Numbers();
        this.starts.push(0);
        this.row = new Numbers();
    }

    /** How many lists there are. */
    get size() {
        return this.starts.size - 1;
    }

    /**
     * Adds a number to the list that is being made.
     * @param {number} number
     */
    push(number) {
        this.row.push(number);
    }

    /** Ends the list that is being made. */
    end() {
        this.starts.push(this.row.size);
    }

    /**
     * Adds a whole list.
     * @param {ArrayLike<number>} numbers
     */
    add(numbers) {
        for (let index = 0; index < numbers.length; index++) this.row.push(numbers[index]);
        this.end();
    }

    /** @param {number} index */
    of(index) {
        return this.row.items.subarray(this.starts.items[index], this.starts.items[index + 1]);
    }
}

const ENCODER = new TextEncoder();
const DECODER = new TextDecoder("latin1");

/**
 * The bytes of a text in UTF-8.
 * @param {string} text
 */
export function encoded(text) {
    return ENCODER.encode(text);
}

/** Bytes that are written one after the other. */
export class Writer {
    constructor(capacity = FIRST_CAPACITY) {
        this.bytes = new Uint8Array(capacity);
        this.size = 0;
    }

    /**
     * Makes room for so many bytes more.
     * @param {number} more
     */
    reserve(more) {
        if (this.size + more <= this.bytes.length) return;
        const bytes = new Uint8Array(Math.max(2 * this.bytes.length, this.size + more));
        bytes.set(this.bytes.subarray(0, this.size));
        this.bytes = bytes;
    }

    /** @param {number} byte */
    push(byte) {
        this.reserve(1);
        this.bytes[this.size++] = byte;
    }

    /**
     * Adds a number as blocks have it: seven bits at a time, the lowest first; each byte but the last has its highest
     * bit set.
     * @param {number} number from 0 to 2^32 - 1
     */
    number(number) {
        this.reserve(5);
        while (number >= 0x80) {
            this.bytes[this.size++] = (number & 0x7f) | 0x80;
            number >>>= 7;
        }
        this.bytes[this.size++] = number;
    }

    /**
     * Adds a stretch as it is.
     * @param {Uint8Array} data
     * @param {number} start
     * @param {number} end
     */
    stretch(data, start, end) {
        this.reserve(end - start);
        const { bytes } = this;
        let { size } = this;
        if (end - start > LONG) bytes.set(data.subarray(start, end), size);
        else for (let place = start; place < end; place++) bytes[size++] = data[place];
        this.size += end - start;
    }

    /**
     * Adds the words of a stretch, one space between them.
     * @param {Uint8Array} data
     * @param {number} start
     * @param {number} end
     */
    words(data, start, end) {
        this.reserve(end - start + 1);
        const { bytes } = this;
        const first = this.size;
        let size = first;
        let place = start;
        while (place < end) {
            if (data[place] <= Byte.space) place++;
            else if (isComment(data, place)) place = afterComment(data, place);
            else {
                if (size > first) bytes[size++] = Byte.space;
                while (place < end && data[place] > Byte.space) bytes[size++] = data[place++];
            }
        }
        this.size = size;
    }

    /**
     * Adds a text in UTF-8.
     * @param {string} text
     */
    text(text) {
        const bytes = encoded(text);
        this.stretch(bytes, 0, bytes.length);
    }

    /** Takes what is there, in no more room than it needs, and begins anew. */
    taken() {
        const bytes = this.bytes.slice(0, this.size);
        this.size = 0;
        return bytes;
    }
}

/** Cuts stretches into words: `starts` and `ends` have their places until the next one is cut. */
export class Cutter {
    constructor() {
        this.starts = new Uint32Array(FIRST_CAPACITY);
        this.ends = new Uint32Array(FIRST_CAPACITY);
    }

    /**
     * How many words a stretch has; their places are kept.
     * @param {Uint8Array} data
     * @param {number} start
     * @param {number} end
     */
    cut(data, start, end) {
        let size = 0;
        let place = start;
        while (place < end) {
            if (data[place] <= Byte.space) place++;
            else if (isComment(data, place)) place = afterComment(data, place);
            else {
                if (size === this.starts.length) this.grow();
                this.starts[size] = place;
                while (place < end && data[place] > Byte.space) place++;
                this.ends[size++] = place;
            }
        }
        return size;
    }

    grow() {
        for (const name of /** @type {const} */ (["starts", "ends"])) {
            const larger = new Uint32Array(2 * this[name].length);
            larger.set(this[name]);
            this[name] = larger;
        }
    }
}

/**
 * Whether a comment begins at a place.
 * @param {Uint8Array} data
 * @param {number} place
 */
export function isComment(data, place) {
    return data[place] === Byte.dollar && data[place + 1] === Byte.open;
}

/**
 * The place after a comment that begins at a place; that after the text if it isn't closed.
 * @param {Uint8Array} data
 * @param {number} place
 */
export function afterComment(data, place) {
    return Math.min(data.length, closeOf(data, place + 2) + 2);
}

/**
 * The place of the next word of a stretch, or its end.
 * @param {Uint8Array} data
 * @param {number} place
 * @param {number} end
 */
export function wordFrom(data, place, end) {
    while (place < end) {
        if (data[place] <= Byte.space) place++;
        else if (isComment(data, place)) place = afterComment(data, place);
        else return place;
    }
    return end;
}

/**
 * The place of the first `$)`, or that after the text.
 * @param {Uint8Array} data
 * @param {number} place
 */
export function closeOf(data, place) {
    const { length } = data;
    while (place < length && !(data[place] === Byte.dollar && data[place + 1] === Byte.close)) place++;
    return place;
}

/**
 * A stretch as a text, a character for each byte. The bytes are ASCII.
 * @param {Uint8Array} data
 * @param {number} start
 * @param {number} end
 */
export function textAt(data, start, end) {
    return DECODER.decode(data.subarray(start, end));
}

/**
 * Whether two stretches have the same bytes.
 * @param {Uint8Array} data
 * @param {number} start
 * @param {number} end
 * @param {Uint8Array} other
 * @param {number} otherStart
 * @param {number} otherEnd
 */
export function isSame(data, start, end, other, otherStart, otherEnd) {
    if (end - start !== otherEnd - otherStart) return false;
    for (let place = start, there = otherStart; place < end; place++, there++) {
        if (data[place] !== other[there]) return false;
    }
    return true;
}

/** Different words of a text, numbered from 0 as they are added. */
export class Words {
    /** @param {Uint8Array} data */
    constructor(data) {
        this.data = data;
        this.starts = new Numbers();
        this.ends = new Numbers();
        this.table = new Int32Array(FIRST_CAPACITY).fill(-1);
    }

    get size() {
        return this.starts.size;
    }

    /** @param {number} number */
    at(number) {
        return textAt(this.data, this.starts.items[number], this.ends.items[number]);
    }

    /**
     * The number of a word of some bytes, or -1.
     * @param {Uint8Array} bytes
     * @param {number} start
     * @param {number} end
     */
    find(bytes, start, end) {
        return this.table[this.seatOf(bytes, start, end)];
    }

    /**
     * The number of a word of the text; it is added if it is new.
     * @param {number} start
     * @param {number} end
     */
    add(start, end) {
        const seat = this.seatOf(this.data, start, end);
        if (this.table[seat] >= 0) return this.table[seat];
        const number = this.size;
        this.table[seat] = number;
        this.starts.push(start);
        this.ends.push(end);
        if (2 * this.size > this.table.length) this.grow();
        return number;
    }

    /**
     * Where in the table a word is, or would be.
     * @param {Uint8Array} bytes
     * @param {number} start
     * @param {number} end
     */
    seatOf(bytes, start, end) {
        const { table, data } = this;
        const starts = this.starts.items;
        const ends = this.ends.items;
        const last = table.length - 1;
        let seat = hashOf(bytes, start, end) & last;
        for (;;) {
            const number = table[seat];
            if (number < 0 || isSame(bytes, start, end, data, starts[number], ends[number])) return seat;
            seat = (seat + 1) & last;
        }
    }

    grow() {
        this.table = new Int32Array(2 * this.table.length).fill(-1);
        const last = this.table.length - 1;
        for (let number = 0; number < this.size; number++) {
            let seat = hashOf(this.data, this.starts.items[number], this.ends.items[number]) & last;
            while (this.table[seat] >= 0) seat = (seat + 1) & last;
            this.table[seat] = number;
        }
    }
}

/**
 * @param {Uint8Array} bytes
 * @param {number} start
 * @param {number} end
 */
function hashOf(bytes, start, end) {
    let hash = Fnv.first;
    for (let place = start; place < end; place++) hash = Math.imul(hash ^ bytes[place], Fnv.prime);
    return (hash ^ (hash >>> 15)) >>> 0;
}
