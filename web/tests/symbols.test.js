// Tests of how formulas are shown: with spaces where the definitions have them.

import assert from "node:assert/strict";
import { readFileSync } from "node:fs";
import { test } from "node:test";
import { Symbols, infixSymbols } from "../view/symbols.js";

const TYPECODES = new Map([
    ["A", "class"],
    ["B", "class"],
    ["F", "class"],
    ["x", "setvar"],
    ["ph", "wff"],
]);
const AXIOMS = ["wff F : A --> B", "wff A = B", "class ( A F B )", "wff A. x ph", "class U. A", "|- A <> B"];
const SHOWN = { A: "𝐴", B: "𝐵", F: "𝐹", x: "𝑥", "-->": "⟶", "=": " = ", "A.": "∀", "U.": "∪ ", "(": "(", ")": ")", ":": ":" };

/**
 * How a formula without typecode is shown.
 * @param {string} formula
 */
function shown(formula) {
    const symbols = Object.entries(SHOWN).map(([name, text]) => [name, [[text, ""]]]);
    const infix = infixSymbols(AXIOMS, TYPECODES);
    const facts = /** @type {any} */ ({ symbols, alike: [] });
    return new Symbols(facts, TYPECODES, infix).textOf(formula);
}

test("symbols that join two others are found in the axioms that build formulas", () => {
    assert.deepEqual([...infixSymbols(AXIOMS, TYPECODES)], [":", "-->", "="]);
});

test("infix symbols have spaces on both sides, or on none", () => {
    assert.equal(shown("F : A --> B"), "𝐹:𝐴⟶𝐵");
    assert.equal(shown("A = B"), "𝐴 = 𝐵");
    assert.equal(shown("U. A = B"), "∪ 𝐴 = 𝐵");
});

test("a symbol that begins a term or a formula is told from the one before", () => {
    assert.equal(shown("A A. x"), "𝐴 ∀𝑥");
    assert.equal(shown("( A F U. B )"), "(𝐴𝐹 ∪ 𝐵)");
});

test("a sign that would join the one before has one of its own before it", () => {
    const symbols = /** @type {[string, [string, string][]][]} */ ([
        ["r", [["r", ""]]],
        ["=", [["=", ""]]],
        ["~", [["\u0338", ""]]],
        ["!", [["\u0301", "red"], ["x", ""]]],
        ["A", [["\u{1f1e6}", ""]]],
        ["v", [["\u1161", ""]]],
    ]);
    const facts = /** @type {any} */ ({ symbols, alike: [] });
    const text = (/** @type {string} */ formula) => new Symbols(facts, new Map()).textOf(formula).replaceAll(" ", "");
    assert.equal(text("r = ~ r"), "r=\u25cc\u0338r");
    assert.equal(text("r ! r"), "r\u25cc\u0301xr");
    assert.equal(text("A A v"), "\u25cc\u{1f1e6}\u25cc\u{1f1e6}\u25cc\u1161");
    assert.equal(text("r = r"), "r=r");
});

test("a formula isn't turned by signs of scripts that are written from the right", () => {
    const style = new TextDecoder().decode(readFileSync(new URL("../view/page.css", import.meta.url).pathname));
    assert.match(style, /\n\.formula \{\n {4}direction: ltr;\n {4}unicode-bidi: isolate-override;\n/);
});
