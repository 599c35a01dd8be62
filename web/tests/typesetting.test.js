// Tests of the reader of `$t` comments.

import assert from "node:assert/strict";
import { test } from "node:test";
import { readTypesetting } from "../packer/typesetting.js";
import { visible } from "../packer/visible.js";

const ENTITIES = {
    named: { "forall;": "\u2200", "lt;": "<", lt: "<", "gt;": ">", "nbsp;": "\xa0" },
    numbers: { 0: "\ufffd" },
    none: [1],
};

/** @param {string | null} text */
function read(text) {
    return readTypesetting(text, ENTITIES);
}

/**
 * The pieces of one definition.
 * @param {string} markup
 */
function pieces(markup) {
    const quoted = markup.replaceAll("'", "''");
    return read(`althtmldef 'x' as '${quoted}';`).symbols.get("x");
}

test("definitions", () => {
    const { symbols, legend } = read(
        `htmldef "a" as "no"; /* althtmldef "a" as "remark"; */
        althtmldef "a" as ' &forall; ' + "<SUB>x</SUB>"; latexdef "a" as "no";
        althtmldef 'it''s' as 'say "x"'; althtmldef "empty" as ' &nbsp; '; althtmldef "b" as 'bad' 'two';
        htmlvarcolor '<FONT COLOR="#0000FF">wff</FONT>';`,
    );
    assert.deepEqual(symbols.get("a"), [
        [" \u2200 ", ""],
        ["x", "sub"],
    ]);
    assert.deepEqual(symbols.get("it's"), [['say "x"', ""]]);
    assert.deepEqual([...symbols.keys()].sort(), ["a", "it's"]);
    assert.deepEqual(legend, [["wff", "blue"]]);
    assert.equal(read(null).symbols.size, 0);
});

test("a later definition counts", () => {
    const both = read('althtmldef "a" as "one"; althtmldef "a" as "two";');
    assert.deepEqual(both.symbols.get("a"), [["two", ""]]);
    assert.equal(read('althtmldef "a" as "one"; althtmldef "a" as "";').symbols.size, 0);
});

test("what is kept of markup", () => {
    const kept = pieces("<SPAN CLASS=hidden STYLE=\"color:#C3C;display:none\">A<i>b</i></span>c");
    assert.deepEqual(kept, [
        ["A", "purple"],
        ["b", "purple i"],
        ["c", ""],
    ]);
    for (const text of ["<script>1</script>", "a < b", "</b>", "<img src=x onerror=y>", "<b x"]) {
        assert.deepEqual(pieces(text), [[text, ""]]);
    }
    assert.deepEqual(pieces("&lt;b&gt;"), [["<b>", ""]]);
    assert.deepEqual(pieces('<b onclick="x">y'), [["y", "b"]]);
    assert.deepEqual(pieces("&#8238;x&#0;"), [["\ufffdx\ufffd", ""]]);
    assert.deepEqual(pieces("&#x41;&#65;&#xd800;&#99999999;&unknown;"), [["AA\ufffd\ufffd&unknown;", ""]]);
});

test("hues", () => {
    const known = { "#0000FF": "blue", red: "red", "#CC33CC": "purple", "#00CC00": "green", "#CC4400": "orange" };
    for (const [colour, hue] of Object.entries({ ...known, gray: "gray", "#ffffff": "gray" })) {
        assert.deepEqual(pieces(`<font color=${colour}>x`), [["x", hue]], colour);
    }
    for (const colour of ["black", "#000", "rgb(1,2,3)", "url(x)", "#12345"]) {
        assert.deepEqual(pieces(`<font color="${colour}">x`), [["x", ""]], colour);
    }
});

test("remarks and quotes", () => {
    // What stands for `a`, if anything does.
    /** @param {string} text */
    const ofA = (text) => read(text).symbols.get("a")?.[0][0];
    assert.equal(ofA("/* althtmldef 'a' as 'no'; */ althtmldef 'a' as 'b';"), "b");
    assert.equal(ofA("/*/ ; */ althtmldef 'a' as 'b';"), "b");
    assert.equal(ofA("althtmldef 'a' as '/* b';"), "/* b");
    assert.equal(ofA("althtmldef 'a' as 'b''c';"), "b'c");
    assert.equal(ofA("althtmldef 'a' as 'b' + \"c\";"), "bc");
    assert.equal(ofA("althtmldef 'a' as 'b"), undefined);
});

test("texts that are made to hurt are read in passing", { timeout: 20_000 }, () => {
    const many = 200_000;
    assert.equal(read("/* ".repeat(many) + ";").symbols.size, 0);
    assert.equal(read("/* ; */ ".repeat(many)).symbols.size, 0);
    assert.equal(read(`althtmldef 'p' as '${"''".repeat(many)} ; " ${"+ ".repeat(many)}`).symbols.size, 0);
    for (const markup of ["<i>x", "<i>x</i>y", "<", "<b", "&#1", "&#0"]) pieces(markup.repeat(many));
    assert.equal(pieces(`<i${" ".repeat(many)}<`), undefined);
    assert.deepEqual(pieces(`<span ${"a".repeat(many)}>x</span>`), [["x", ""]]);
    assert.deepEqual(pieces(`<span style="${"color:red;".repeat(many)}">x</span>`), [["x", "red"]]);
    assert.deepEqual(pieces(`&#${"0".repeat(many)}65;`), [["A", ""]]);
    assert.deepEqual(pieces(`&#${"1".repeat(many)};`), [["\ufffd", ""]]);
});

test("signs that no screen shows", () => {
    assert.equal(visible("a\x1b\x7f\u200b\u202eb"), "a\u241b\u2421\ufffd\ufffdb");
    assert.equal(visible("\u2200\u{1d465}"), "\u2200\u{1d465}");
    const unseen = ["\xad", "\u034f", "\u061c", "\u115f", "\u17b4", "\u180e", "\u2028", "\u2066", "\u2800", "\u3164", "\ufe0f"];
    for (const sign of [...unseen, "\ufeff", "\ufff9", "\u{13430}", "\u{1bca0}", "\u{1d173}", "\u{1d17a}", "\u{e0020}"]) {
        assert.equal(visible(`a${sign}b`), "a\ufffdb", sign.codePointAt(0)?.toString(16));
    }
    for (const sign of ["\u{1d172}", "\u{1d165}", "\u0338", "\u05d0", "\u0628", "\u{10330}"]) assert.equal(visible(sign), sign);
});

test("the page of the bibliography is an address of a page, or none", () => {
    /** @param {string} written */
    const read = (written) => readTypesetting(`htmlbibliography "${written}";`, ENTITIES).bibliography;
    for (const good of ["mmset.html", "https://us.metamath.org/mpeuni/mmset.html", "http://localhost:8000/x.htm"]) {
        assert.equal(read(good), good);
    }
    for (const bad of ["javascript:alert(1)//x.html", "data:text/html,x.html", "//host/x.html", "../x.html", "x.html#y"]) {
        assert.equal(read(bad), null, bad);
    }
    assert.equal(readTypesetting('htmlbibliography "mm" + "set.html";', ENTITIES).bibliography, "mmset.html");
    assert.equal(readTypesetting(null, ENTITIES).bibliography, null);
});
