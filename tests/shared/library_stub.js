// Stands for web/library.js where there is no module. Its `module` has the answers of the program to requests over
// texts of known sizes: a line of JSON that says where each answer stands after it, and then the answers.

/** @typedef {Record<string, { status: number, start: number, end: number }>} Known */

/** @param {Uint8Array} bytes */
export async function compile(bytes) {
    const end = bytes.indexOf(0x0a);
    return { known: JSON.parse(new TextDecoder().decode(bytes.subarray(0, end))), answers: bytes.subarray(end + 1) };
}

/**
 * Puts the text into an array, and answers what is known of a text of this size.
 * @param {{ known: Known, answers: Uint8Array }} module
 * @param {number} size
 * @param {(text: () => Uint8Array) => unknown} fill
 * @param {Partial<import("../../web/node/types.js").Request>} request
 */
export async function report({ known, answers }, size, fill, request) {
    const text = new Uint8Array(size);
    await fill(() => text);
    const { report: name = "all", form = 1, only = null, essential = false, open = false } = request;
    const found = known[JSON.stringify([size, name, form, only, essential, open])];
    if (!found) return { status: 4, report: new Uint8Array(0), memory: size };
    return { status: found.status, report: answers.subarray(found.start, found.end), memory: size };
}
