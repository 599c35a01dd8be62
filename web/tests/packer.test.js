// Tests of what packs a text into blocks: comments, conditions of distinct variables, numbers, and the one file.

import assert from "node:assert/strict";
import { test } from "node:test";
import { deflateSync } from "node:zlib";
import { Flag } from "../packer/assertions.js";
import { Writer, encoded } from "../packer/bytes.js";
import { flagsOf, putLine } from "../packer/comments.js";
import { faultOf, refusalOf, explained } from "../packer/faults.js";
import { pageFile } from "../packer/page-file.js";
import { packText } from "../packer/blocks.js";
import { UnreadableText, readText } from "../packer/text.js";
import { Blocks, Damaged } from "../view/decode.js";
import { NO_ENTITIES, reportOf } from "./blocks.js";

const TEXT = `$c |- set wff = $. $v x y z p q $.
vx $f set x $. vy $f set y $. vz $f set z $. wp $f wff p $. wq $f wff q $.
\${ $d x y z $. $d p x $. $d q x $. $d q y $. $d q z $.
  all $p |- x = p $= ( vy vz wq ) A $. some $p |- x = p $= ( vy vz ) A $. $}
none $a |- x = y $.
`;
const GIVEN = " $f vx set x $f wp wff p $d x p";
const SAID = {
    all: `${GIVEN} $v y z q $d x y $d x z $d x q $d y z $d y q $d z q $p |- x = p`,
    some: `${GIVEN} $v y z $d x y $d x z $d y z $p |- x = p`,
    none: " $f vx set x $f vy set y $a |- x = y",
};

/** @param {string} title */
function about(title) {
    const facts = { title, file: "x.mm", bytes: 1, sha256: null, maker: "x" };
    return { ...facts, only: null, essential: false, open: false, watched: [] };
}

/**
 * What a text says.
 * @param {string} text
 * @param {Record<string, string>} said
 */
function read(text, said) {
    return readText(encoded(text), encoded(reportOf(text, said)));
}

/**
 * A block of a text, as lines.
 * @param {string} text
 * @param {Record<string, string>} said
 * @param {string} name
 */
function lines(text, said, name) {
    const blocks = new Map();
    packText(read(text, said), about("t"), NO_ENTITIES, blocks);
    return new TextDecoder().decode(blocks.get(name)).split("\n");
}

/**
 * A comment as one line.
 * @param {string} comment
 */
function oneLine(comment) {
    const writer = new Writer();
    const bytes = encoded(comment);
    putLine(writer, bytes, 0, bytes.length);
    return new TextDecoder().decode(writer.taken());
}

test("comments become lines", () => {
    assert.equal(oneLine("  One\n  two.\n\n  Three \t four \n"), "One two.\fThree four");
    const kept = oneLine("a <HTML><PRE>\n x\n\n  y\n</PRE>\n b </HTML>");
    assert.equal(kept, "a <HTML> <PRE>\v x\v\v  y\v</PRE> b </HTML>");
    assert.ok(!oneLine("<pre>\nnever closed\n\n").includes("\n"));
    assert.equal(oneLine("a <pre\n> b\nc"), "a <pre\u240a> b\vc");
});

test("many tags that aren't closed are passed once", { timeout: 20_000 }, () => {
    const many = 200_000;
    assert.equal(oneLine("<pre ".repeat(many)).split("<pre").length - 1, many);
    assert.ok(oneLine(`<pre>${"<pre> ".repeat(many)}`).startsWith("<pre>"));
});

test("flags of comments", () => {
    /** @param {string} comment */
    const flags = (comment) => flagsOf(encoded(comment), 0, comment.length);
    const both = "(New usage\n is discouraged.) (Proof modification is  discouraged.)";
    assert.equal(flags(both), Flag.comment | Flag.usage | Flag.modification);
    assert.equal(flags("It is discouraged."), Flag.comment);
    assert.equal(flags(" \n "), 0);
});

test("conditions become lines", () => {
    assert.deepEqual(lines(TEXT, SAID, "conditions"), [
        "x p\ty z q\ty x z q$z x y q$q x y z",
        "x p\ty z\ty x z$z x y",
        "",
    ]);
    const whole = "$c |- set $. $v x y $. vx $f set x $. vy $f set y $. $d x y $. a $p |- x $= vy $.";
    const said = { a: " $f vx set x $v y $d x y $p |- x" };
    assert.deepEqual(lines(whole, said, "conditions"), ["\ty\t*"]);
});

test("pairs of variables that must be distinct become few groups, which have each pair", () => {
    for (const wanted of [["abc"], ["abc", "cd"], ["abcd", "ef"], ["ab", "ac", "bd", "cd"]]) {
        const pairs = wanted.flatMap((group) => pairsOf([...group]));
        const given = [..."abcdef"].map((name) => ` $f f${name} v ${name}`).join("");
        const said = { x: `${given}${pairs.map((pair) => ` $d ${pair}`).join("")} $a |- a b c d e f` };
        const [line] = lines("x $a |- a b c d e f $.", said, "conditions");
        const groups = line.split("$").map((group) => group.split(" "));
        assert.deepEqual([...new Set(groups.flatMap(pairsOf))].sort(), [...new Set(pairs)].sort());
        assert.equal(groups.length, wanted.length);
    }
});

/**
 * The pairs of a group.
 * @param {string[]} group
 */
function pairsOf(group) {
    return group.flatMap((one, at) => group.slice(at + 1).map((other) => `${one} ${other}`));
}

test("numbers", () => {
    const writer = new Writer();
    for (const number of [0, 127, 128, 300]) writer.number(number);
    assert.deepEqual([...writer.taken()], [0, 0x7f, 0x80, 1, 0xac, 2]);
});

test("what is put into the file is never searched for places, and ends no element", () => {
    const shell = ["<title>", "title", "</title><main>", "title", "</main>", "data", "<script>1</script>"];
    const page = pageFile(shell, "data<b>&'\"", new Map([["facts", btoa("</script>{{script}}")]]));
    assert.ok(page.startsWith("<title>data&lt;b&gt;&amp;&#x27;&quot;</title>"));
    assert.equal(page.split("</script>").length - 1, 2);
    assert.match(page, / id="data-facts" data-page="[0-9a-f]{8}">\nPC9zY3JpcHQ\+e3tzY3JpcHR9fQ==\n<\/script>/);
});

/**
 * What stands for the document of a page: its elements that hold blocks.
 * @param {string} page
 */
function documentOf(page) {
    const holders = Array.from(page.matchAll(/<script [^>]*id="([^"]*)" data-page="([^"]*)">([^<]*)</g), (match) => {
        const [, id, number, textContent] = match;
        return { id, dataset: { page: number }, textContent, remove() {} };
    });
    return { querySelectorAll: () => holders, getElementById: (/** @type {string} */ id) => holders.find((one) => one.id === id) ?? null };
}

/**
 * Reads the blocks of a page as the page itself does.
 * @param {string} page
 */
async function blocksRead(page) {
    Object.assign(globalThis, { document: documentOf(page) });
    try {
        const blocks = new Blocks();
        await blocks.loadFirst(() => false);
        return blocks;
    } finally {
        Reflect.deleteProperty(globalThis, "document");
    }
}

test("blocks of several pages aren't taken for one", async () => {
    const shell = ["", "data", ""];
    /** @param {string} text */
    const packed = (text) => deflateSync(encoded(text)).toString("base64");
    /** @param {string} title */
    const pageOf = (title) => {
        const labels = lines(TEXT, SAID, "labels").join("\n");
        return pageFile(shell, "", new Map([["labels", packed(labels)], ["title", packed(title)]]));
    };
    const [one, other] = [pageOf("one"), pageOf("other")];
    const blocks = await blocksRead(one);
    assert.equal(new TextDecoder().decode(blocks.get("labels")), "all\nsome\nnone");
    assert.equal(one, pageOf("one"));
    const [, first] = one.split(/(?<=<\/script>\n)/);
    const [second] = other.split(/(?<=<\/script>\n)/);
    await assert.rejects(blocksRead(second + first), Damaged);
});

test("faults in one line", () => {
    const text = encoded("$c a $.\nx $a b $.\n");
    const fault = faultOf(text, refusalOf(encoded("refused 2:6 E18\n")));
    /** @type {import("../packer/faults.js").Meanings} */
    const tables = { faults: { E18: ["odd", "mend it"] }, unknown: ["unknown", "ask"] };
    assert.equal(explained("x.mm", fault, tables), "x.mm:2:6: refused E18 in 'x': odd; mend it");
    assert.equal(explained("x.mm", { ...fault, code: "E99" }, tables), "x.mm:2:6: refused E99 in 'x': unknown; ask");
});

test("variables stand in the order of their `$f`, as far as the lines tell it", () => {
    const said = {
        one: " $f fb v b $a |- b",
        two: " $f fa v a $f fb v b $f fd v d $a |- a b d",
        three: " $f fc v c $f fd v d $f fe v e $a |- c d e",
    };
    const text = "one $a |- b $. two $a |- a b d $. three $a |- c d e $.";
    const [facts] = lines(text, said, "facts");
    const names = JSON.parse(facts).variables.map((/** @type {[string, string]} */ [name]) => name);
    assert.equal(names.join(""), "abcde");
});

test("comments and headings between assertions", () => {
    const text = `$( $t htmldef "a" as "b"; $)
$( First $) $c |- v $. $v x $. fx $f v x $.
$(
####
  One  part
####
 Told. $)
$( of a $) a $a |- x $( within $) $.
$( not of b $) \${ h $( within a hypothesis $) $e |- x $.
$( of b $) $( $j x $) b $a |- x $. $}
$( not
####
$) c $a |- x $.
$( of nothing $)
`;
    const given = " $f fx v x";
    const found = read(text, { a: `${given} $a |- x`, b: `${given} $e h |- x $a |- x`, c: `${given} $a |- x` });
    const comments = [0, 1, 2].map((at) => text.slice(found.comments.items[at], found.commentEnds.items[at]).trim());
    assert.deepEqual(comments, ["of a", "of b", "not\n####"]);
    assert.deepEqual(found.headers.map(({ title, first, end, level }) => [title, first, end, level]), [["One part", 0, 3, 0]]);
    assert.equal(found.typesetting?.trim(), 'htmldef "a" as "b";');
    assert.deepEqual([...found.headersBefore.taken()], [1, 1, 1]);
});

test("a report of another text, or one that is damaged, isn't read", () => {
    const whole = reportOf(TEXT, SAID);
    assert.equal(readText(encoded(TEXT), encoded(whole)).size, 3);
    const damages = [
        ["all:p", "all:x"],
        ["all:p", "al:p"],
        ["all:p:", "all:p:1"],
        [" $f vx", " $g vx"],
        [" $f vx set x", " $f vx"],
        [" $a |- x = y", " $p |- x = y"],
        [" $a |- x = y", ""],
        [" $a |- x = y", " $a |- x = y $a |- x"],
        ["$v y z q", "$v y z q $v x"],
        ["\nend\n", ""],
        ["\nstatements", ""],
    ];
    for (const [before, after] of damages) {
        const damaged = whole.replace(before, after);
        assert.notEqual(damaged, whole);
        assert.throws(() => readText(encoded(TEXT), encoded(damaged)), UnreadableText, before);
    }
    assert.throws(() => readText(encoded(` ${TEXT}`), encoded(whole)), UnreadableText);
});
