// Deflates the blocks of a page in Node: other threads do that, while more blocks are made.

import { promisify } from "node:util";
import { deflate } from "node:zlib";
import { levelOf } from "../packer/page-file.js";

const asDeflated = promisify(deflate);

/** Takes blocks as they come, as a map would. */
export class Deflating {
    constructor() {
        /** @type {Map<string, Promise<string>>} */
        this.coming = new Map();
    }

    /**
     * @param {string} name
     * @param {Uint8Array} block
     */
    set(name, block) {
        this.coming.set(name, deflated(block, levelOf(name)));
    }

    /** All of them in base64, in the order in which they came. */
    async blocks() {
        /** @type {Map<string, string>} */
        const blocks = new Map();
        for (const [name, signs] of this.coming) blocks.set(name, await signs);
        return blocks;
    }
}

/**
 * @param {Uint8Array} block
 * @param {number} level
 */
async function deflated(block, level) {
    // All in one piece: after each piece the other thread waits for this one.
    const chunkSize = block.length + (block.length >>> 8) + 64;
    return (await asDeflated(block, { level, chunkSize })).toString("base64");
}
