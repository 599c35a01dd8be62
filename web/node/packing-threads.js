// Threads beside the main one that pack parts of a page. They share the bytes of the text and of its report, and each
// reads them: that takes less time than to hand over what was read.

import { webcrypto } from "node:crypto";
import { Worker, parentPort, workerData } from "node:worker_threads";
import { Deflating } from "./deflating.js";
import { aboutPage } from "../packer/page-facts.js";
import { packText } from "../packer/blocks.js";
import { ProofPacker } from "../packer/proof-packer.js";
import { readCitations } from "../packer/reports.js";
import { sumOf } from "../packer/sum.js";
import { readText } from "../packer/text.js";

/** @typedef {import("../packer/page-facts.js").Wishes} Wishes */
/** @typedef {import("../packer/reports.js").PageRequest} PageRequest */
/** @typedef {import("../packer/typesetting.js").Entities} Entities */

/**
 * What a thread is asked for once the text is verified: what stands in the text, `name` being how the page calls it; or
 * the proofs behind a part of it.
 * @typedef {{ name: string, request: PageRequest, report: Uint8Array, wishes: Wishes, entities: Entities }} TextTask
 * @typedef {{ request: PageRequest, report: Uint8Array, behind: number }} ProofTask
 */

/**
 * Bytes that threads can share.
 * @param {number} size
 */
export function shared(size) {
    return new Uint8Array(new SharedArrayBuffer(size));
}

/**
 * A thread that packs a part of the page of a text. It is started before the text is verified.
 * @template {TextTask | ProofTask} Task
 */
export class Packing {
    /**
     * @param {keyof typeof PACKERS} part
     * @param {Uint8Array} source the bytes of the text, which are shared
     */
    constructor(part, source) {
        this.worker = new Worker(new URL(import.meta.url), { workerData: { part, source } });
        /** @type {Promise<Map<string, string>>} */
        this.blocks = new Promise((resolve, reject) => {
            this.worker.on("message", resolve);
            this.worker.on("error", reject);
        });
        this.blocks.catch(() => {}); // it may fail before somebody waits for it
    }

    /**
     * Has the part packed. The blocks come deflated and in base64.
     * @param {Task} task whose report is shared
     */
    pack(task) {
        this.worker.postMessage(task);
        return this.blocks;
    }

    /** Ends it, whatever it does. */
    end() {
        return this.worker.terminate();
    }
}

/**
 * What packs each part, once it is asked for.
 * @type {Record<"text" | "proofs", (source: Uint8Array, asked: Promise<any>, blocks: Deflating) => Promise<void>>}
 */
const PACKERS = { text: packTextPart, proofs: packProofPart };

/** What the thread does: waits for its task, and hands over the blocks. */
export async function packWhenAsked() {
    // Node 18 has it under this name alone.
    globalThis.crypto ??= /** @type {Crypto} */ (webcrypto);
    const { part, source } = /** @type {{ part: keyof typeof PACKERS, source: Uint8Array }} */ (workerData);
    const blocks = new Deflating();
    await PACKERS[part](source, new Promise((resolve) => parentPort.once("message", resolve)), blocks);
    parentPort.postMessage(await blocks.blocks());
}

/**
 * @param {Uint8Array} source
 * @param {Promise<TextTask>} asked
 * @param {Deflating} blocks
 */
async function packTextPart(source, asked, blocks) {
    const sum = sumOf(source.slice()); // of bytes that aren't shared, while the text is verified
    const { name, request, report, wishes, entities } = await asked;
    packText(readText(source, report), aboutPage(name, source.length, await sum, request, wishes), entities, blocks);
}

/**
 * @param {Uint8Array} source
 * @param {Promise<ProofTask>} asked
 * @param {Deflating} blocks
 */
async function packProofPart(source, asked, blocks) {
    const { request, report, behind } = await asked;
    // The main thread sees that the marks agree.
    const proofs = new ProofPacker(readCitations(readText(source, report), request, report));
    proofs.packSteps(proofs.blockBehind(behind), Infinity, blocks);
}
