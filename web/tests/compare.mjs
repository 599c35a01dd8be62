// Compares the module with the program, text by text. Usage: node compare.mjs MODULE PROGRAM COUNT SEED FILE..
//
// For each file: all parts of a report in both forms, with options drawn by lot, and with rooms that are too small. Then
// COUNT texts that are mutated from the files of less than a megabyte. The last line is `N passed, M failed`.

import { spawnSync } from "node:child_process";
import * as fs from "node:fs";
import { basename } from "node:path";
import { PARTS, compile, report } from "../library.js";
import { Status } from "../statuses.js";

const [, , modulePath, program, count, seed, ...files] = process.argv;
const module = await compile(fs.readFileSync(modulePath));
const TYPECODES = [null, null, "|-", "wff", "é", ""];
const SIGNS = [" $.", "$(", "$)", " ${ ", " $} ", "$[ x $]", "\xff", "\t", " ? ", "$d x y $.", "$=", "Z", "(", ")", "\r\n"];
/** Texts of fewer bytes are also tried with little memory, and with changes, many times each. */
const SMALL = 1 << 20;
const runs = { passed: 0, failed: 0 };

/** Numbers by lot, the same each time: the linear congruential generator of Knuth's MMIX. */
class Lot {
    /** @param {bigint} seed */
    constructor(seed) {
        this.state = seed;
    }

    /** @param {number} below */
    number(below) {
        this.state = BigInt.asUintN(64, this.state * 6364136223846793005n + 1442695040888963407n);
        // The lower bits repeat soon.
        return Number((this.state >> 32n) % BigInt(below));
    }

    /**
     * @template T
     * @param {readonly T[]} list
     * @returns {T}
     */
    one(list) {
        return list[this.number(list.length)];
    }
}

const lot = new Lot(BigInt(seed));

/** A request by lot. */
function drawn() {
    return {
        report: Array.from({ length: 1 + lot.number(3) }, () => lot.one(PARTS)).join(","),
        only: lot.one(TYPECODES),
        form: /** @type {1 | 2} */ (1 + lot.number(2)),
        essential: lot.number(3) === 0,
        open: lot.number(3) === 0,
    };
}

/** @param {import("../node/types.js").Request} request */
function words({ report: part, only, form, essential, open }) {
    return [
        "--report",
        part,
        "--form",
        String(form),
        ...(only === null ? [] : [`--only=${only}`]),
        ...(essential ? ["--essential"] : []),
        ...(open ? ["--open"] : []),
    ];
}

/**
 * What the program says.
 * @param {Uint8Array} text
 * @param {import("../node/types.js").Request} request
 */
function answerOf(text, request) {
    const run = spawnSync(program, words(request), { input: text, maxBuffer: 1 << 30 });
    return { status: run.status, output: run.stdout };
}

/**
 * Compares one run; with `limits` the module may also say that memory ran out.
 * @param {string} name
 * @param {Uint8Array} text
 * @param {import("../node/types.js").Request} request
 * @param {{ room?: number, most?: number }} [limits]
 */
async function compared(name, text, request, limits) {
    const want = answerOf(text, request);
    const got = await report(module, text.length, (bytes) => bytes().set(text), request, limits);
    const isSame = got.status === want.status && Buffer.compare(want.output, got.report) === 0;
    const isGivenUp = limits?.most !== undefined && got.status === Status.noMemory && got.report.length === 0;
    if (isSame || isGivenUp) {
        runs.passed++;
        return;
    }
    runs.failed++;
    console.log(`differs: ${name} ${words(request).join(" ")}: ${got.status} and ${want.status}`);
    fs.writeFileSync(`differs-${runs.failed}.mm`, text);
}

/**
 * A text with a few places changed.
 * @param {Buffer} whole
 */
function mutated(whole) {
    let text = whole;
    for (let times = 1 + lot.number(3); times > 0; times--) {
        const at = lot.number(text.length + 1);
        const how = lot.number(5);
        const rest = text.subarray(at);
        const sign = Buffer.from(lot.one(SIGNS), "latin1");
        if (how === 0) text = Buffer.concat([text.subarray(0, at), text.subarray(at + lot.number(12))]);
        else if (how === 1) text = Buffer.concat([text.subarray(0, at), sign, rest]);
        else if (how === 2) text = Buffer.concat([text.subarray(0, at), Buffer.from([lot.number(256)]), rest.subarray(1)]);
        else if (how === 3) text = text.subarray(0, at);
        else {
            const from = lot.number(text.length + 1);
            text = Buffer.concat([text.subarray(0, at), text.subarray(from, from + lot.number(80)), rest]);
        }
    }
    return text;
}

const texts = files.map((path) => ({ name: basename(path), text: fs.readFileSync(path) }));
for (const { name, text } of texts) {
    const plain = { only: null, essential: false, open: false };
    for (const part of PARTS) {
        await compared(name, text, { ...plain, report: part, form: 1 });
        await compared(name, text, { ...drawn(), report: part, form: 2 });
    }
    await compared(name, text, { ...plain, report: "matrix,citations,statements", form: 2 });
    await compared(name, text, drawn(), { room: 65536 });
}
const small = texts.filter(({ text }) => text.length < SMALL);
for (const { name, text } of small) {
    for (let most = 0; most < 64; most++) await compared(name, text, drawn(), { room: 4096, most: most * 262144 });
}
for (let k = 0; k < Number(count); k++) {
    const { name, text } = lot.one(small);
    const changed = mutated(text);
    await compared(`${name}, changed`, changed, drawn());
}
console.log(`${runs.passed} passed, ${runs.failed} failed`);
process.exitCode = runs.failed > 0 ? 1 : 0;
