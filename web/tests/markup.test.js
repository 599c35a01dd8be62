// Tests of how comments are read: what is markup, what is told apart, and comments that are made to hurt.

import assert from "node:assert/strict";
import { test } from "node:test";
import { LONGEST_COMMENT, plainText, readComment } from "../view/markup.js";

/**
 * The parts of a comment of one paragraph.
 * @param {string} comment
 */
function parts(comment) {
    const { paragraphs } = readComment(comment);
    assert.equal(paragraphs.length, 1);
    return paragraphs[0];
}

/**
 * A comment as plain text, its mathematics in brackets.
 * @param {string} comment
 */
function said(comment) {
    return plainText(comment, (formula) => `[${formula}]`);
}

test("mathematics, labels, addresses, references and emphasis", () => {
    const comment = "As ` A = B ` and ~ ax-mp , see ~ https://example.org/~~x or _here_ [Author] p. 3.";
    assert.equal(said(comment), "As [A = B] and ax-mp, see https://example.org/~x or here [Author] p. 3.");
    assert.deepEqual(parts("~ javascript:x"), [{ type: "text", text: "~ javascript:x" }]);
    assert.deepEqual(parts("~ mmset.html#a"), [{ type: "text", text: "mmset.html#a" }]);
});

test("elements only within <HTML>, and only those that are known", () => {
    assert.deepEqual(parts("<b>x</b>"), [{ type: "text", text: "<b>x</b>" }]);
    const bold = { type: "element", name: "strong", children: [{ type: "text", text: "x" }] };
    assert.deepEqual(parts('<HTML><b onclick="y">x</b></HTML>'), [bold]);
    for (const tag of ["<script>", "<style>", "<img src=x onerror=y>", "</b>", "<iframe>"]) {
        const { length } = parts(`<HTML>a ${tag}</HTML>`);
        assert.equal(length, 1, tag);
    }
    assert.deepEqual(parts('<HTML><a href="javascript:x">y</a></HTML>'), [{ type: "text", text: "y" }]);
});

test("who did what, and when", () => {
    const { paragraphs, credits } = readComment(
        "Told. (Contributed by N. N., 12-Aug-2004.) (Revised and renamed by Some One, 1-Jan-2020.)",
    );
    assert.deepEqual(credits, [
        { what: "Contributed", who: "N. N.", date: "12-Aug-2004" },
        { what: "Revised and renamed", who: "Some One", date: "1-Jan-2020" },
    ]);
    assert.equal(paragraphs.length, 1);
});

test("elements within elements have a limit, behind which tags are text", () => {
    const many = 100_000;
    const [first] = parts(`<HTML>${"<b>".repeat(many)}x</HTML>`);
    let depth = 0;
    for (let part = first; part?.type === "element"; part = part.children[0]) depth++;
    assert.ok(depth > 10 && depth < 100, `${depth}`);
    assert.equal(said(`<HTML>${"<b>".repeat(many)}x</HTML>`).split("<b>").length - 1, many - depth);
    for (const tags of ["<ul><li>", "<table><tr><td>", "<table><td>", "<ol><li>x"]) readComment(`<HTML>${tags.repeat(many)}`);
});

test("comments that are made to hurt are read in passing", { timeout: 20_000 }, () => {
    const many = 200_000;
    const hurting = [
        `<${"a".repeat(many)}`,
        "<a".repeat(many),
        `(Revised and${" by".repeat(many)}`,
        `(Contributed by${" ".repeat(many)}x`,
        "(Contributed by a, ".repeat(many),
        "[A".repeat(many),
        "_a ".repeat(many),
        `\`${"``".repeat(many)}`,
        `~ mm${".html".repeat(many)}!`,
        `<HTML>${"<b>".repeat(30)}${"</i>".repeat(many)}`,
        `<HTML><a${" href=".repeat(many)}>`,
    ];
    for (const comment of hurting) {
        readComment(comment);
        said(comment);
    }
});

test("of a comment without end the beginning is read", () => {
    const formula = "( p -> q ) ".repeat(20);
    const long = `\` ${formula}\` and so on `.repeat(40_000);
    const { paragraphs } = readComment(long);
    assert.ok(JSON.stringify(paragraphs).length < 2 * LONGEST_COMMENT);
    assert.ok(plainText(long, (math) => math).length < LONGEST_COMMENT + 10);
    readComment(`\` ${"( p -> q ) ".repeat(1_000_000)}\``);
});
