// The SHA-256 of a text, by the platform.

/**
 * The SHA-256 of some bytes, in hexadecimal; null where there is none to be had, as in a page that came by plain HTTP.
 * @param {Uint8Array} bytes
 * @returns {Promise<string | null>}
 */
export async function sumOf(bytes) {
    const subtle = globalThis.crypto?.subtle;
    if (!subtle) return null;
    const sum = new Uint8Array(await subtle.digest("SHA-256", bytes));
    return Array.from(sum, (byte) => byte.toString(16).padStart(2, "0")).join("");
}
