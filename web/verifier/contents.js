// The text of a database, as the page and its workers hand it on.

/** @typedef {import("./types.js").Contents} Contents */

/**
 * How many bytes a text has.
 * @param {Contents} file
 */
export function sizeOf(file) {
    return file instanceof Uint8Array ? file.length : file.size;
}
