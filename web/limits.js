// What a text may cost, and what is unpacked. `mmquery` has the same limits, in query/program/unpacking.py and
// query/platform/limits.py.

/** The program refuses longer texts. */
export const MOST_DATABASE_BYTES = 2_147_483_647;
/** How a file begins that is compressed by gzip. */
export const GZIP = [0x1f, 0x8b];
/** How many times as long as a compressed file its text may be, besides some bytes that are free. */
export const MOST_TIMES = 100;
const FREE_TEXT = 1 << 24;
/**
 * How many bytes of memory a text may take for each byte of it, besides some that are free; and below how many seconds, in
 * the same way. set.mm takes 0.12 of its 2.9 GB, and 2 of its 216 seconds.
 */
const MEMORY_TIMES = 64;
const FREE_MEMORY = 256_000_000;
export const MEGABYTE = 1_000_000;
const SECONDS_FOR_MEGABYTE = 5;
const FREE_SECONDS = 10;

/**
 * How many bytes may be unpacked of a file of so many: a few bytes can be made to unpack to gigabytes.
 * @param {number} size
 */
export function mostUnpacked(size) {
    return MOST_TIMES * size + FREE_TEXT;
}

/**
 * How many bytes of memory a text of so many may take to be verified: a small one can be made to take very much.
 * @param {number} size
 */
export function mostMemory(size) {
    return MEMORY_TIMES * size + FREE_MEMORY;
}

/**
 * How many seconds of the processor it may take.
 * @param {number} size
 */
export function mostSeconds(size) {
    return FREE_SECONDS + Math.ceil((SECONDS_FOR_MEGABYTE * size) / MEGABYTE);
}
