// Tests of the command line of the program for Node, word by word. tests/node compares it with the program.

import assert from "node:assert/strict";
import { test } from "node:test";
import { readWords } from "../node/command-line.js";

const PLAIN = { report: "all", only: null, form: 1, essential: false, open: false };

/**
 * What a line asks for: a request with the file, or how the line ends otherwise.
 * @param {string} line
 */
function asked(line) {
    const read = readWords(line === "" ? [] : line.split(" "), "7");
    return read.ends === "run" ? { ...read.request, file: read.file } : read.ends;
}

/**
 * What is told of a line that asks for no report.
 * @param {string[]} words
 */
function textFor(words) {
    const read = readWords(words, "7");
    return read.ends === "run" ? "" : read.text;
}

test("options and the file", () => {
    assert.deepEqual(asked(""), { ...PLAIN, file: null });
    assert.deepEqual(asked("-"), { ...PLAIN, file: "-" });
    const all = { report: "counts,matrix", only: "|-", form: 2, essential: true, open: true, file: "a.mm" };
    assert.deepEqual(asked("--open --only |- a.mm --report=counts,matrix --form 2 --essential"), all);
    assert.deepEqual(asked("--only= --workers +4 --pieces=64 -- --open"), { ...PLAIN, only: "", file: "--open" });
    assert.deepEqual(asked("--only - --report all"), { ...PLAIN, only: "-", file: null });
});

test("the older database", () => {
    const against = (/** @type {string[]} */ ...words) => {
        const read = readWords(words, "7");
        return read.ends === "run" ? [read.against, read.andReport, read.file] : read.ends;
    };
    assert.deepEqual(against("a.mm"), [null, false, "a.mm"]);
    assert.deepEqual(against("--against", "old.mm", "new.mm"), ["old.mm", false, "new.mm"]);
    assert.deepEqual(against("new.mm", "--and-report", "--against=-"), ["-", true, "new.mm"]);
    assert.equal(against("--against"), "misread");
    assert.equal(against("--and-report=1"), "misread");
    assert.equal(against("--against=a", "--against=b"), "misread");
});

test("lines that are wrong, each told in one line", () => {
    const wrong = [
        ..."--bogus|-x|a b|--only|--only --open|--only -- a|--open=|--open=1|--help=1|--form=3|--form=".split("|"),
        ..."--workers=0|--workers=65|--workers=4x|--workers=|--pieces=-1|--pieces=1e1|--report=|--report=foo".split("|"),
        ..."--open --open|--only=a --only=b|--report=all,|--__proto__|--constructor=1|--no-open".split("|"),
    ];
    for (const line of wrong) {
        assert.equal(asked(line), "misread", line);
        assert.match(textFor(line.split(" ")), /^error: [^\n]+; try --help\n$/);
    }
    assert.match(textFor(["--a\x1b\nb"]), /^error: [^\n\x1b]+\n$/);
});

test("what comes first counts", () => {
    for (const line of ["--help --bogus", "-hx", "-V --open --open", "a -h b"]) {
        assert.equal(asked(line), "help", line);
    }
    for (const line of ["--bogus -h", "-xh", "--form=3 -h", "--report=foo -h", "a b -h"]) assert.equal(asked(line), "misread", line);
    assert.equal(textFor(["-V"]), "mmdepend 7\n");
});
