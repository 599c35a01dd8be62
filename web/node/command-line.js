// The words of a command line, read as the program reads them: the same options, and the same end of each line. Where a
// line is wrong, this says so in one line, and the program more.

import { parseArgs } from "node:util";
import { visible } from "../packer/visible.js";

/** @typedef {import("./types.js").Request} Request */

/**
 * What the words ask for: a run, or a text for standard output (`help`) or standard error (`misread`).
 * @typedef {{ ends: "run", request: Request, against: string | null, andReport: boolean, file: string | null }
 *     | { ends: "help", text: string } | { ends: "misread", text: string }} Line
 */

/** The options as Node reads them; of those that have a value how they are called, and of some which values there are:
 * from a number to another one, or of words one, or several with commas between them. */
// begin options: made by `python3 -m tables`; change crates/mm_line instead
const OPTIONS = /** @type {const} */ ({
    workers: { type: "string" },
    pieces: { type: "string" },
    only: { type: "string" },
    report: { type: "string" },
    form: { type: "string" },
    essential: { type: "boolean" },
    open: { type: "boolean" },
    against: { type: "string" },
    "and-report": { type: "boolean" },
    help: { type: "boolean", short: "h" },
    version: { type: "boolean", short: "V" },
});
/** @type {Record<string, string>} */
const WITH_VALUE = {
    workers: "--workers <N>",
    pieces: "--pieces <N>",
    only: "--only <T>",
    report: "--report <PART>",
    form: "--form <N>",
    against: "--against <OLD>",
};
/** @type {Record<string, number[]>} */
const LIMITS = {
    workers: [1, 64],
    pieces: [1, 64],
};
/** @type {Record<string, string[]>} */
const CHOICES = {
    form: ["1", "2"],
};
/** @type {Record<string, string[]>} */
const LISTS = {
    report: ["all", "matrix", "counts", "usage", "citations", "proofs", "statements"],
};
const HELP = `Verifies a Metamath database and reports on which axioms each theorem rests

Usage: mmdepend [OPTIONS] [FILE]

Arguments:
  [FILE]  The database; without it, or where it is -, the standard input is read

Options:
      --workers <N>    Check the proofs by N threads, 1 to 64 [default: 4]
      --pieces <N>     Read the text in N pieces, 1 to 64 [default: 4]
      --only <T>       Report on the axioms of typecode T alone, such as '|-'
      --report <PART>  Write these parts of the report, with commas between them: matrix, counts, usage, citations, proofs, \
statements, or all, which is the first three [default: all]
      --form <N>       Write the matrix as a digit for each column, or for each four [default: 1] [possible values: 1, 2]
      --essential      Count what the logical part of a proof cites, and not what builds its formulas
      --open           Count a theorem whose proof is ? as an axiom
      --against <OLD>  Write what FILE has and OLD hasn't, and the other way round, in place of the report
      --and-report     With --against, write the report on FILE behind that, as --report asks for it
  -h, --help           Print help
  -V, --version        Print version

The standard output gets the report, or one line with the first fault and its place.
Status: 0 accepted, 1 refused, 2 invalid command line, 3 reading or writing failed,
4 out of memory. For 2 to 4 the standard error says why.
The codes of faults (E00 to E45) are explained in docs/FAULTS.md.
`;
// end options

/** Ends the reading of the words: `line` is what was read, which has a text in place of what to run. */
class End extends Error {
    /**
     * @param {"help" | "misread"} ends
     * @param {string} text
     */
    constructor(ends, text) {
        super(text);
        this.line = /** @type {Line} */ ({ ends, text });
    }
}

/** @param {string} message */
function misread(message) {
    return new End("misread", `error: ${visible(message)}; try --help\n`);
}

/**
 * Refuses a value that an option doesn't have.
 * @param {string} name
 * @param {string} value
 * @param {boolean} isRight
 * @param {string} wanted
 */
function judge(name, value, isRight, wanted) {
    if (!isRight) throw misread(`invalid value '${value}' for '${WITH_VALUE[name]}', which is ${wanted}`);
}

/**
 * Whether a word is a number within limits, as the program reads numbers.
 * @param {string} word
 * @param {number[]} limits
 */
function isWithin(word, [least, most]) {
    return /^\+?[0-9]+$/.test(word) && Number(word) >= least && Number(word) <= most;
}

/** What was read so far, by the names of options; `file` is the word that is no option. */
class Found {
    /** @param {string} version */
    constructor(version) {
        this.version = version;
        /** @type {Map<string, string>} */
        this.values = new Map();
        /** @type {string | null} */
        this.file = null;
    }

    /** @param {string} word */
    addFile(word) {
        if (this.file !== null) throw misread(`unexpected argument '${word}' found`);
        this.file = word;
    }

    /**
     * @param {string} name
     * @param {string} rawName as it was written
     * @param {string | undefined} value
     * @param {boolean | undefined} isInline whether the value stands behind `=`
     */
    addOption(name, rawName, value, isInline) {
        if (!Object.hasOwn(OPTIONS, name)) throw misread(`unexpected argument '${rawName}' found`);
        if (Object.hasOwn(WITH_VALUE, name)) this.addValue(name, value, isInline);
        else if (value !== undefined) throw misread(`unexpected value '${value}' for '--${name}' found`);
        else if (name === "help") throw new End("help", HELP);
        else if (name === "version") throw new End("help", `mmdepend ${this.version}\n`);
        else this.add(name, "");
    }

    /**
     * @param {string} name
     * @param {string | undefined} value
     * @param {boolean | undefined} isInline
     */
    addValue(name, value, isInline) {
        if (value === undefined || (!isInline && /^-./s.test(value))) {
            throw misread(`a value is required for '${WITH_VALUE[name]}' but none was supplied`);
        }
        const limits = LIMITS[name];
        const choices = CHOICES[name];
        const list = LISTS[name];
        if (limits) judge(name, value, isWithin(value, limits), `a number from ${limits.join(" to ")}`);
        if (choices) judge(name, value, choices.includes(value), choices.join(" or "));
        if (list) for (const part of value.split(",")) judge(name, part, list.includes(part), `of ${list.join(", ")}`);
        this.add(name, value);
    }

    /**
     * @param {string} name
     * @param {string} value
     */
    add(name, value) {
        if (this.values.has(name)) throw misread(`the argument '${WITH_VALUE[name] ?? `--${name}`}' cannot be used multiple times`);
        this.values.set(name, value);
    }

    /** @returns {Line} */
    line() {
        const { values, file } = this;
        /** @type {Request} */
        const request = {
            report: values.get("report") ?? "all",
            only: values.get("only") ?? null,
            form: values.get("form") === "2" ? 2 : 1,
            essential: values.has("essential"),
            open: values.has("open"),
        };
        return { ends: "run", request, against: values.get("against") ?? null, andReport: values.has("and-report"), file };
    }
}

/**
 * Reads the words after the program's name. `version` is what `--version` prints after the name.
 * @param {readonly string[]} words
 * @param {string} version
 * @returns {Line}
 */
export function readWords(words, version) {
    const { tokens } = parseArgs({ args: [...words], options: OPTIONS, allowPositionals: true, strict: false, tokens: true });
    const found = new Found(version);
    try {
        for (const token of tokens) {
            if (token.kind === "positional") found.addFile(token.value);
            if (token.kind === "option") found.addOption(token.name, token.rawName, token.value, token.inlineValue);
        }
        return found.line();
    } catch (error) {
        if (error instanceof End) return error.line;
        throw error;
    }
}
