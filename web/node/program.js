// The program in Node: reads the words of the command line, the database and the module, and writes what the module wrote.

import { isMainThread } from "node:worker_threads";
import { inflateRawSync } from "node:zlib";
import { readWords } from "./command-line.js";
import { against, compile, report as reportOn, version } from "../library.js";
import { mostMemory } from "../limits.js";
import { packWhenAsked } from "./packing-threads.js";
import { encoded } from "../packer/bytes.js";
import { page } from "./page-command.js";
import { Exit, Status } from "../statuses.js";
import {
    Ending, STDERR, STDOUT, failedBy, isInput, join, opened, outOfMemory, piecesIn, piecesOf, sizeOf, writeAll,
} from "./streams.js";

/**
 * What `web/build` puts into the one file of the program, each deflated and in base64: the module, and what the command
 * `page` has besides.
 * @typedef {{ module: string, shell: string, tables: string }} Assets
 */

/** @param {string} asset */
function inflated(asset) {
    return inflateRawSync(Buffer.from(asset, "base64"));
}

/** @param {string} asset */
function fromJson(asset) {
    return JSON.parse(new TextDecoder().decode(inflated(asset)));
}

/** @typedef {Extract<import("./command-line.js").Line, { ends: "run" }>} RunLine */

/**
 * The text that pieces make, for the library.
 * @param {Uint8Array[]} pieces
 * @returns {import("../library.js").Text}
 */
function textOf(pieces) {
    return { size: sizeOf(pieces), fill: (bytes) => join(pieces, bytes()) };
}

/**
 * What is said of the file of a line.
 * @param {WebAssembly.Module} module
 * @param {RunLine} line
 */
function reported(module, { request, file }) {
    const { size, fill } = textOf(piecesOf(file));
    return reportOn(module, size, fill, request, { most: mostMemory(size) });
}

/**
 * What is said of the file of a line and of the one that it is compared with, and behind that the report on the file
 * where it is asked for and neither has a fault.
 * @param {WebAssembly.Module} module
 * @param {RunLine} line
 */
async function compared(module, { request, against: old, andReport, file }) {
    if (isInput(old) && isInput(file)) {
        throw new Ending(Exit.invalid, "mmdepend: only one of two databases can be the standard input\n");
    }
    // Both are opened before either is read, as the program does.
    const files = [opened(old), opened(file)];
    const [oldPieces, newPieces] = files.map((each) => piecesIn(each));
    // A text gives its pieces up once it is put into the module's memory.
    const [oldText, newText] = [oldPieces, andReport ? [...newPieces] : newPieces].map(textOf);
    const differences = await against(module, oldText, newText, request, { most: mostMemory(oldText.size + newText.size) });
    if (!andReport || differences.status !== Status.accepted) return differences;
    const { size, fill } = textOf(newPieces);
    const report = await reportOn(module, size, fill, request, { most: mostMemory(size) });
    return report.status === Status.accepted ? { ...report, report: joined([differences.report, report.report]) } : report;
}

/**
 * Pieces one behind the other.
 * @param {Uint8Array[]} pieces
 */
function joined(pieces) {
    const bytes = new Uint8Array(sizeOf(pieces));
    join(pieces, bytes);
    return bytes;
}

/**
 * The program, given its words; returns its status.
 * @param {readonly string[]} words
 * @param {Assets} assets
 */
async function status(words, assets) {
    const bytes = inflated(assets.module);
    if (words[0] === "page") {
        return page(words.slice(1), { module: bytes, shell: fromJson(assets.shell), tables: fromJson(assets.tables) });
    }
    const module = await compile(bytes);
    const line = readWords(words, await version(module));
    if (line.ends === "help") {
        writeAll(STDOUT, encoded(line.text));
        return 0;
    }
    if (line.ends === "misread") throw new Ending(Exit.invalid, line.text);
    if (line.andReport && line.against === null) {
        throw new Ending(Exit.invalid, "mmdepend: --and-report needs --against\n");
    }
    const answer = line.against === null ? await reported(module, line) : await compared(module, line);
    if (answer.status === Status.noMemory) throw outOfMemory();
    writeAll(STDOUT, answer.report);
    return answer.status;
}

/**
 * How the program ends after an error. Node says by a RangeError that there is no room for an array, and by a code that
 * there is none for what another thread makes.
 * @param {unknown} error
 */
function endingOf(error) {
    if (error instanceof Ending) return error;
    if (error instanceof RangeError || failedBy(error, "ERR_WORKER_OUT_OF_MEMORY")) return outOfMemory();
    throw error;
}

/**
 * Runs the program on the words that Node was given. In another thread than the main one it packs a text.
 * @param {Assets} assets
 */
export async function main(assets) {
    if (!isMainThread) {
        await packWhenAsked();
        return;
    }
    try {
        process.exitCode = await status(process.argv.slice(2), assets);
    } catch (error) {
        const ending = endingOf(error);
        process.exitCode = ending.status;
        try {
            writeAll(STDERR, encoded(ending.text));
        } catch (failed) {
            // There is nobody to tell.
        }
    }
}
