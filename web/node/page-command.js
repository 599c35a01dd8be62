// The command `page` in Node: one HTML file that shows a whole database, or one beside an older release of it.

import { basename } from "node:path";
import { parseArgs } from "node:util";
import { setFlagsFromString } from "node:v8";
import { gunzipSync } from "node:zlib";
import { Deflating } from "./deflating.js";
import { READING_LIMIT, compile, report } from "../library.js";
import { GZIP, MEGABYTE, MOST_TIMES, mostMemory, mostSeconds, mostUnpacked } from "../limits.js";
import { encoded } from "../packer/bytes.js";
import { explained, faultOf, refusalOf } from "../packer/faults.js";
import { pageFile } from "../packer/page-file.js";
import { NoAnswer, packComparison, sideOf } from "../packer/page-facts.js";
import { packMarks } from "../packer/blocks.js";
import { ProofPacker } from "../packer/proof-packer.js";
import { OddReport, PACKED_REPORT } from "../packer/reports.js";
import { UnreadableText, readText } from "../packer/text.js";
import { visible } from "../packer/visible.js";
import { Packing, shared } from "./packing-threads.js";
import { answerOf } from "./native-program.js";
import { Exit, Status } from "../statuses.js";
import { Ending, STDOUT, failedBy, join, outOfMemory, piecesOf, sizeOf, writeAll } from "./streams.js";

/** @typedef {import("../packer/page-file.js").Shell} Shell */
/** @typedef {import("../packer/reports.js").PageRequest} PageRequest */
/** @typedef {import("./packing-threads.js").ProofTask} ProofTask */
/** @typedef {import("./packing-threads.js").TextTask} TextTask */
/** @typedef {import("./native-program.js").Said} Said */
/** @typedef {import("./types.js").Request} Request */
/** @typedef {import("./types.js").Tables} Tables */

/**
 * What the command works with.
 * @typedef {{ module: Uint8Array, shell: Shell, tables: Tables }} Tools
 */

/**
 * What verifies a text, the module or a program, and what is said of faults.
 * @typedef {{ judge: (data: Uint8Array, request: Request) => Promise<Said>, tables: Tables }} Core
 */

/**
 * How the command line calls a database, and how the page does.
 * @typedef {{ word: string, name: string }} Naming
 */

/**
 * What the words ask for.
 * @typedef {object} Asked
 * @property {Naming} naming
 * @property {string} title
 * @property {string[]} watched labels of axioms
 * @property {PageRequest} request
 * @property {Naming | null} older
 * @property {string | null} program what verifies in place of the module
 * @property {number | null} seconds of the processor that the program may take for a text
 * @property {number | null} megabytes of memory that a text may take
 */

// begin options: made by `python3 -m tables`; change query/commands/page.py or tables/words.py instead
const OPTIONS = /** @type {const} */ ({
    only: { type: "string" },
    title: { type: "string" },
    against: { type: "string" },
    watch: { type: "string", multiple: true },
    essential: { type: "boolean" },
    open: { type: "boolean" },
    name: { type: "string" },
    "against-name": { type: "string" },
    program: { type: "string" },
    "limit-time": { type: "string" },
    "limit-memory": { type: "string" },
    help: { type: "boolean", short: "h" },
});
const OPTION_LINES = `      --only <T>       The axioms are those of typecode T (else: all)
      --title <TEXT>   The title (else: the name of the file)
      --against <OLD>  Show what changed since this older database
      --watch <AXIOM>  An axiom of which each chapter speaks first; several: by commas, or more options
      --essential      Only the logical part of proofs cites
      --open           A theorem whose proof is ? counts as an axiom
      --name <NAME>    How the page calls DATABASE (else: by the name of its file)
      --against-name <NAME>
                       The same for OLD
      --program <PATH> Verify by this program, an mmdepend that is built for the system, which takes a third of the time
      --limit-time <SECONDS>
                       Of the processor, for this program to verify a text (else: 10, and 5 for each MB)
      --limit-memory <MB>
                       For verifying a text (else: 256, and 64 for each MB)
  -h, --help           Print help`;
// end options
const USAGE = "usage: node mmdepend.mjs page [OPTIONS] DATABASE > FILE";
const HELP = `Writes one HTML file to the standard output that shows a whole database

${USAGE}

Arguments:
  DATABASE             The database, also one compressed by gzip; where it is -, the standard input is read

Options:
${OPTION_LINES}

The database is verified first. The page loads nothing else; a browser of 2023 or later shows it.
Status: 0 made, 1 refused, 2 invalid command line, or there is nothing to show, 3 reading or writing
failed, 4 out of memory. For 1 to 4 the standard error says why, and nothing is written.
`;
/** From how many bytes on a text makes up for the time that it takes to compile all functions well before they run. */
const LARGE = 1 << 23;
/** Up to which part of the text the main thread packs the proofs. It packs the marks too, and so all threads end together. */
const FIRST_PART = 0.25;

/**
 * What the words ask for.
 * @param {readonly string[]} words
 */
function readPageWords(words) {
    try {
        return parseArgs({ args: [...words], options: OPTIONS, allowPositionals: true });
    } catch (error) {
        if (!(error instanceof TypeError)) throw error;
        throw misread(error.message.split("\n")[0]);
    }
}

/** @param {string} why */
function misread(why) {
    return new Ending(Exit.invalid, `mmdepend: ${visible(why)}; ${USAGE}\n`);
}

/**
 * How the page calls what a word names.
 * @param {string} word
 */
function nameOf(word) {
    return word === "-" ? "standard input" : basename(word) || word;
}

/**
 * The text that a word names, unpacked where it is compressed. Its bytes are shared.
 * @param {string} word
 */
function loadedText(word) {
    const pieces = piecesOf(word);
    const bytes = shared(sizeOf(pieces));
    join(pieces, bytes);
    if (bytes[0] !== GZIP[0] || bytes[1] !== GZIP[1]) return bytes;
    return sharedCopy(unpacked(word, bytes));
}

/**
 * What gzip compressed, and nothing else: no more than the size of the file allows.
 * @param {string} word
 * @param {Uint8Array} bytes
 */
function unpacked(word, bytes) {
    const fails = (/** @type {string} */ why) => new Ending(Exit.failed, `mmdepend: ${visible(word)}: ${why}\n`);
    const most = mostUnpacked(bytes.length);
    try {
        const options = { maxOutputLength: Math.min(READING_LIMIT, most), info: true };
        const { buffer, engine } = /** @type {Unpacked} */ (/** @type {unknown} */ (gunzipSync(bytes, options)));
        if (engine.bytesWritten === bytes.length) return buffer;
    } catch (error) {
        const isLong = failedBy(error, "ERR_BUFFER_TOO_LARGE") && most < READING_LIMIT;
        if (isLong) throw fails(`the text is more than ${MOST_TIMES} times as long as the file; unpack it first`);
        if (error instanceof RangeError) throw error;
        throw fails("the compressed file is damaged");
    }
    throw fails("something stands behind what gzip compressed");
}

/** @typedef {{ buffer: Uint8Array, engine: { bytesWritten: number } }} Unpacked */

/**
 * The same bytes, shared.
 * @param {Uint8Array} bytes
 */
function sharedCopy(bytes) {
    const copy = shared(bytes.length);
    copy.set(bytes);
    return copy;
}

/**
 * Why there is no page of a database that lacks something.
 * @param {string} word how the command line calls it
 * @param {string} lack such as `has no axiom`
 */
function lacking(word, lack) {
    return new Ending(Exit.invalid, `mmdepend: ${visible(word)}: ${lack}\n`);
}

/**
 * Compiles the module for a text of so many bytes.
 * @param {Uint8Array} module
 * @param {number} size
 */
function compiledFor(module, size) {
    if (size >= LARGE) {
        // Else V8 compiles a function in haste, and a loop that is begun so stays so to its end.
        setFlagsFromString("--no-liftoff");
        setFlagsFromString("--no-wasm-lazy-compilation");
    }
    return compile(module);
}

/**
 * What verifies: the program that is asked for, else the module, which is compiled for a text of so many bytes.
 * @param {Asked} asked
 * @param {Uint8Array} module
 * @param {number} size
 * @returns {Promise<Core["judge"]>}
 */
async function judgeFor({ program, seconds, megabytes }, module, size) {
    const memoryFor = (/** @type {number} */ length) => (megabytes === null ? mostMemory(length) : megabytes * MEGABYTE);
    if (program !== null) {
        return async (data, request) => {
            const allowed = { seconds: seconds ?? mostSeconds(data.length), memory: memoryFor(data.length) };
            return answerOf(program, data, request, allowed);
        };
    }
    const compiled = await compiledFor(module, size);
    return (data, request) => {
        const most = memoryFor(data.length);
        return report(compiled, data.length, (bytes) => bytes().set(data), request, { most });
    };
}

/**
 * Verifies a text. Returns the report of which the page is packed. Its bytes are shared, and the module's memory is free.
 * @param {string} word how the command line calls it
 * @param {Uint8Array} data
 * @param {PageRequest} request
 * @param {Core} core
 */
async function verifiedReport(word, data, request, { judge, tables }) {
    const answer = await judge(data, { ...request, ...PACKED_REPORT });
    if (answer.status === Status.noMemory) throw outOfMemory();
    if (answer.status === Status.refused) {
        const fault = faultOf(data, refusalOf(answer.report));
        throw new Ending(Status.refused, `mmdepend: ${explained(visible(word), fault, tables)}\n`);
    }
    if (answer.status !== Status.accepted) throw new Error(`the module answers ${answer.status}`);
    return sharedCopy(answer.report);
}

/** A database that is accepted, on its way into a page. */
class Database {
    /**
     * @param {Naming} naming
     * @param {Uint8Array} data
     * @param {PageRequest} request
     * @param {Uint8Array} report
     */
    constructor({ word, name }, data, request, report) {
        this.word = word;
        this.name = name;
        try {
            this.side = sideOf(name, readText(data, report), request, report);
        } catch (error) {
            throw error instanceof NoAnswer ? lacking(word, error.lack) : error;
        }
    }

    /** The labels of its axioms, those of the page. */
    get axioms() {
        const { dependence, text } = this.side;
        return Array.from(dependence.axioms, (number) => text.label(number));
    }
}

/**
 * Sees that what is watched are axioms.
 * @param {readonly string[]} labels
 * @param {Database} database
 */
function seeAxioms(labels, { word, axioms }) {
    const known = new Set(axioms);
    const unknown = labels.find((label) => !known.has(label));
    if (unknown !== undefined) throw lacking(word, `has no axiom '${visible(unknown)}' to be watched`);
}

/**
 * Packs what became of an older release, which is read and verified for that.
 * @param {Naming} naming
 * @param {Database} now
 * @param {PageRequest} request
 * @param {Core} core
 * @param {Deflating} blocks
 */
async function packAgainst(naming, now, request, core, blocks) {
    const data = loadedText(naming.word);
    const older = new Database(naming, data, request, await verifiedReport(naming.word, data, request, core));
    for (const each of [now, older]) if (each.axioms.length === 0) throw lacking(each.word, "has no axiom");
    packComparison(older, now, blocks);
}

/**
 * The blocks of a page, in base64. Other threads pack the text, and the proofs behind its first part.
 * @param {Asked} asked
 * @param {Uint8Array} data
 * @param {{ text: Packing<TextTask>, proofs: Packing<ProofTask> }} threads
 * @param {Core} core
 */
async function blocksOf({ naming, title, watched, request, older }, data, threads, core) {
    const report = await verifiedReport(naming.word, data, request, core);
    const { maker, entities } = core.tables;
    const ofText = threads.text.pack({ name: naming.name, request, report, wishes: { maker, title, watched }, entities });
    const ofOtherProofs = threads.proofs.pack({ request, report, behind: FIRST_PART });
    const database = new Database(naming, data, request, report);
    seeAxioms(watched, database);
    const ofReport = new Deflating();
    packMarks(database.side.dependence, ofReport);
    const proofs = new ProofPacker(database.side.dependence);
    proofs.packFrames(ofReport);
    proofs.packSteps(0, proofs.blockBehind(FIRST_PART), ofReport);
    const ofComparison = new Deflating();
    if (older) await packAgainst(older, database, request, core, ofComparison);
    const parts = await Promise.all([ofText, ofReport.blocks(), ofOtherProofs, ofComparison.blocks()]);
    return new Map(parts.flatMap((blocks) => [...blocks]));
}

/**
 * The number that is given for an option; null where none is.
 * @param {string} option
 * @param {string | undefined} word
 */
function numberOf(option, word) {
    if (word === undefined) return null;
    if (!/^[1-9][0-9]{0,5}$/.test(word)) throw misread(`${option} is to be a number from 1 to 999999`);
    return Number(word);
}

/**
 * What the words ask for.
 * @param {ReturnType<typeof readPageWords>} read
 * @returns {Asked}
 */
function askedBy({ values, positionals }) {
    const [word, ...others] = positionals;
    if (word === undefined) throw misread("DATABASE is missing");
    if (others.length > 0) throw misread(`one DATABASE is wanted, and '${others[0]}' is another`);
    const { only = null, essential = false, open = false, watch = [], against, program = null } = values;
    const name = values.name ?? nameOf(word);
    return {
        naming: { word, name },
        title: values.title ?? name,
        watched: watch.flatMap((each) => each.split(",")).filter((label) => label !== ""),
        request: { only, essential, open },
        older: against === undefined ? null : { word: against, name: values["against-name"] ?? nameOf(against) },
        program,
        seconds: numberOf("--limit-time", values["limit-time"]),
        megabytes: numberOf("--limit-memory", values["limit-memory"]),
    };
}

/**
 * The page that is asked for.
 * @param {Asked} asked
 * @param {Tools} tools
 */
async function made(asked, tools) {
    const data = loadedText(asked.naming.word);
    const core = { judge: await judgeFor(asked, tools.module, data.length), tables: tools.tables };
    // Begun here, they are ready when the text is verified, which takes this thread alone.
    /** @type {Parameters<typeof blocksOf>[2]} */
    const threads = { text: new Packing("text", data), proofs: new Packing("proofs", data) };
    try {
        return pageFile(tools.shell, visible(asked.title), await blocksOf(asked, data, threads, core));
    } catch (error) {
        // What the module says is read; what another program says may be anything.
        if (asked.program === null || !(error instanceof OddReport || error instanceof UnreadableText)) throw error;
        throw new Ending(Exit.failed, `mmdepend: ${visible(asked.program)}: ${visible(error.message)}\n`);
    } finally {
        await Promise.all([threads.text.end(), threads.proofs.end()]);
    }
}

/**
 * Runs the command on its words; returns its status.
 * @param {readonly string[]} words
 * @param {Tools} tools
 */
export async function page(words, tools) {
    const read = readPageWords(words);
    if (read.values.help) {
        writeAll(STDOUT, encoded(HELP));
        return 0;
    }
    writeAll(STDOUT, encoded(await made(askedBy(read), tools)));
    return 0;
}
