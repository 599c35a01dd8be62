// A program that is built for this system, in place of the module: it takes a third of the time.

import { spawnSync } from "node:child_process";
import { READING_LIMIT } from "../library.js";
import { isRefusal } from "../packer/faults.js";
import { visible } from "../packer/visible.js";
import { Exit, Status } from "../statuses.js";
import { Ending, failedBy, outOfMemory } from "./streams.js";

/** @typedef {import("./types.js").Request} Request */

/**
 * What the program says of a text: its status, as the module has it too, and what it wrote.
 * @typedef {{ status: number, report: Uint8Array }} Said
 */

/**
 * The words by which the program is asked for a report of its standard input.
 * @param {Request} request
 */
function wordsFor({ report, only, form, essential, open }) {
    const words = [`--report=${report}`, `--form=${form}`];
    if (only !== null) words.push(`--only=${only}`);
    if (essential) words.push("--essential");
    if (open) words.push("--open");
    return words;
}

/**
 * What a run of the program may take: seconds of the processor, and bytes of memory.
 * @typedef {{ seconds: number, memory: number }} Allowed
 */

/** How a shell limits seconds and kilobytes, where the system can, and becomes the program. */
const LIMITED = 'ulimit -S -t "$1" 2>/dev/null; ulimit -v "$2" 2>/dev/null; shift 2; exec "$@"';
/** By which status a shell says that it can't become a program. */
const NO_PROGRAM = [126, 127];

/**
 * The command that runs the program with these limits. Windows has no such shell.
 * @param {string} path
 * @param {string[]} words
 * @param {Allowed} allowed
 * @returns {[string, string[]]}
 */
function limited(path, words, { seconds, memory }) {
    if (process.platform === "win32") return [path, words];
    const kilobytes = Math.ceil(memory / 1024);
    return ["/bin/sh", ["-c", LIMITED, "sh", String(seconds), String(kilobytes), path, ...words]];
}

/**
 * What the program at a path says of a text. An Ending with status 3 where it gives no answer.
 * @param {string} path
 * @param {Uint8Array} data
 * @param {Request} request
 * @param {Allowed} allowed
 * @returns {Said}
 */
export function answerOf(path, data, request, allowed) {
    const limits = { input: data, maxBuffer: Math.min(READING_LIMIT, allowed.memory) };
    const { status, signal, stdout, stderr, error } = spawnSync(...limited(path, wordsFor(request), allowed), limits);
    if (failedBy(error, "ENOBUFS")) throw outOfMemory();
    if (signal === "SIGXCPU") {
        const why = `not judged: the text needs more than ${allowed.seconds} seconds of the processor (--limit-time)`;
        throw new Ending(Exit.failed, `mmdepend: ${why}\n`);
    }
    if (status !== null && NO_PROGRAM.includes(status)) throw new Ending(Exit.failed, `mmdepend: ${visible(path)} can't be run\n`);
    // A program that ends before it has read all of the text says more by its status.
    if (error && !failedBy(error, "EPIPE")) throw new Ending(Exit.failed, `mmdepend: ${visible(path)} can't be run\n`);
    if (status === null || !isAnswer(status, stdout)) throw new Ending(Exit.failed, `mmdepend: ${why(path, status, stderr)}\n`);
    return { status, report: stdout };
}

/**
 * Whether a status and what came with it are an answer; a report is read later.
 * @param {number} status
 * @param {Uint8Array} out
 */
function isAnswer(status, out) {
    if (status === Status.refused) return isRefusal(out);
    return status === Status.accepted || status === Status.noMemory;
}

/**
 * Why there is no answer.
 * @param {string} path
 * @param {number | null} status null where a signal ended it
 * @param {Uint8Array} said what it wrote to its standard error
 */
function why(path, status, said) {
    const last = new TextDecoder().decode(said).trim().split("\n").pop() || "";
    const ending = status === null ? "was ended by a signal" : `ended with status ${status}`;
    return `${visible(path)} ${ending}${last && `: ${visible(last)}`}`;
}
