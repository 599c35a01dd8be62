// What works beside the page, each time in a worker of its own: verifies a text, or packs texts and reports into
// blocks.

import { compile, report } from "../library.js";
import { mostMemory } from "../limits.js";
import { sizeOf } from "./contents.js";
import { faultOf, refusalOf } from "../packer/faults.js";
import { NoAnswer, aboutPage, packComparison, sideOf } from "../packer/page-facts.js";
import { packReports, packText } from "../packer/blocks.js";
import { PACKED_REPORT } from "../packer/reports.js";
import { sumOf } from "../packer/sum.js";
import { readText } from "../packer/text.js";
import { Status } from "../statuses.js";

/** @typedef {import("../packer/reports.js").PageRequest} PageRequest */
/** @typedef {import("./types.js").Ask} Ask */
/** @typedef {import("./types.js").Chosen} Chosen */
/** @typedef {import("./types.js").Contents} Contents */
/** @typedef {import("./types.js").PackedBlocks} PackedBlocks */
/** @typedef {import("./types.js").Reply} Reply */
/** @typedef {import("../packer/typesetting.js").Entities} Entities */
/** @typedef {import("../node/types.js").Request} Request */

/** How many bytes of a file are read at a time. */
const STEP = 1 << 22;

/**
 * The worker's own side.
 * @type {{ onmessage: (event: { data: Ask }) => void, postMessage: (reply: Reply, transfer?: Transferable[]) => void }}
 */
const here = /** @type {any} */ (globalThis);

/** There is no more memory. */
class NoMemory extends Error {}

/**
 * The bytes of a file.
 * @param {Contents} file
 */
async function bytesOf(file) {
    return file instanceof Uint8Array ? file : new Uint8Array(await file.arrayBuffer());
}

/**
 * Puts a file into the array that `bytes` gives, part by part, and tells how far it is.
 * @param {Contents} file
 * @param {() => Uint8Array} bytes
 */
async function fill(file, bytes) {
    const size = sizeOf(file);
    for (let place = 0; place < size; place += STEP) {
        here.postMessage({ stage: "reading", part: place / size });
        const part = await bytesOf(file.slice(place, place + STEP));
        bytes().set(part, place);
    }
    here.postMessage({ stage: "checking" });
}

/**
 * Has the module write a report of a file. What it answers stays in its memory.
 * @param {Uint8Array} module
 * @param {Contents} file
 * @param {Request} request
 */
async function acceptedReport(module, file, request) {
    const compiled = await compile(module);
    const most = mostMemory(sizeOf(file));
    const answer = await report(compiled, sizeOf(file), (bytes) => fill(file, bytes), request, { most });
    if (answer.status === Status.noMemory) throw new NoMemory();
    if (answer.status === Status.accepted) return answer;
    if (answer.status !== Status.refused) throw new Error(`the module answers ${answer.status}`);
    const refusal = refusalOf(answer.report);
    here.postMessage({ stage: "refused", fault: faultOf(await bytesOf(file), refusal) });
    return null;
}

/**
 * Verifies a file, and tells the report of which the page is packed.
 * @param {{ file: Contents, module: Uint8Array, request: PageRequest }} asked
 */
async function verify({ file, module, request }) {
    const answer = await acceptedReport(module, file, { ...request, ...PACKED_REPORT });
    if (!answer) return;
    const written = answer.report.slice();
    here.postMessage({ stage: "verified", report: written, memory: answer.memory }, [written.buffer]);
}

/**
 * Writes a report of a file to be saved.
 * @param {Extract<Ask, { task: "save" }>} asked
 */
async function save({ file, module, request, report: name, form }) {
    const answer = await acceptedReport(module, file, { ...request, report: name, form });
    if (!answer) return;
    if (file instanceof Blob) {
        here.postMessage({ stage: "saved", report: new Blob([answer.report], { type: "text/plain" }) });
    } else {
        const bytes = answer.report.slice();
        here.postMessage({ stage: "saved", report: bytes }, [bytes.buffer]);
    }
}

/**
 * Packs files, that of the page and then the older release, with the reports of them.
 * @param {Extract<Ask, { task: "pack" }>} asked
 */
async function pack({ files, reports, request, maker, entities }) {
    const databases = [];
    /** @type {ReturnType<typeof sumOf> | undefined} */
    let sum;
    for (const [at, { name, file }] of files.entries()) {
        const data = await bytesOf(file);
        sum ??= sumOf(data); // of the first one: it is made while the texts are read
        databases.push({ name, side: sideOf(name, readText(data, reports[at]), request, reports[at]) });
    }
    const [now, older] = databases;
    const { text, dependence } = now.side;
    const about = aboutPage(now.name, text.source.length, (await sum) ?? null, request, { maker });
    /** @type {PackedBlocks} */
    const blocks = new Map();
    packText(text, about, entities, blocks);
    packReports(dependence, blocks);
    if (older) packComparison(older, now, blocks);
    here.postMessage({ stage: "packed", blocks }, [...blocks.values()].map((block) => block.buffer));
}

/**
 * Looks whether what the browser holds can be read here.
 * @param {Blob} blob
 */
async function look(blob) {
    await bytesOf(blob);
    here.postMessage({ stage: "seen" });
}

/** @param {Ask} asked */
async function answer(asked) {
    if (asked.task === "look") await look(asked.blob);
    else if (asked.task === "verify") await verify(asked);
    else if (asked.task === "save") await save(asked);
    else await pack(asked);
}

/**
 * Tells why there is no answer. Browsers say by a RangeError that there is no room for an array.
 * @param {unknown} error
 */
function tellError(error) {
    if (error instanceof NoAnswer) here.postMessage({ stage: "lacking", message: error.message });
    else if (error instanceof NoMemory || error instanceof RangeError) here.postMessage({ stage: "memory" });
    else here.postMessage({ stage: "failed", message: String(error) });
}

/** One task after the other. */
const tasks = { last: Promise.resolve() };
here.onmessage = ({ data }) => {
    tasks.last = tasks.last.then(() => answer(data)).catch(tellError);
};
