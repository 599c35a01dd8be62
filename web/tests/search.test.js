// Tests of the search: what is found, and in which order.

import assert from "node:assert/strict";
import { test } from "node:test";
import { Search, placesOf, wordsOf } from "../view/search.js";
import { Symbols } from "../view/symbols.js";
import { blocksOf, modelOf } from "./blocks.js";

const TEXT = `$c |- wff ( ) -> A. = " $. $v ph ps x $.
$( $t althtmldef "ph" as "<i>&#966;</i>"; althtmldef "->" as " &#8594; "; althtmldef "|-" as "&#8866; "; $)
wph $f wff ph $. wps $f wff ps $. vx $f wff x $.
$( The implication id. $) wi $a wff ( ph -> ps ) $.
$( An arrow, and Zorn's lemma. $) long $a |- ( ( ph -> ph ) -> ( ph -> ph ) ) $.
\${ idi.1 $e |- ph $. $( Lemma of Zorn, who isn't here. $) idi $a |- ph $. $}
\${ inf.1 $e |- ( ps -> ph ) $. inf $a |- ( ph -> ph ) $. $}
$( Identity. $) id $a |- ( ph -> ph ) $.
all $a |- A. x ( ph -> ps ) $.
image $a |- ( ph " ps ) = ( x " ph ) $.
`;
const F = " $f wph wff ph";
const G = " $f wps wff ps";
const X = " $f vx wff x";
const SAID = {
    wi: `${F}${G} $a wff ( ph -> ps )`,
    long: `${F} $a |- ( ( ph -> ph ) -> ( ph -> ph ) )`,
    idi: `${F} $e idi.1 |- ph $a |- ph`,
    inf: `${F}${G} $e inf.1 |- ( ps -> ph ) $a |- ( ph -> ph )`,
    id: `${F} $a |- ( ph -> ph )`,
    all: `${F}${G}${X} $a |- A. x ( ph -> ps )`,
    image: `${F}${G}${X} $a |- ( ph " ps ) = ( x " ph )`,
};

/**
 * The search of a text, made ready.
 * @param {string} text
 * @param {Record<string, string>} said
 */
async function searchOf(text, said) {
    const model = modelOf(blocksOf(text, said, {}));
    const search = new Search(model, new Symbols(model.facts, model.typecodeOf));
    await search.prepare();
    return search;
}

/**
 * The labels of what a search finds, the best first.
 * @param {Search} search
 * @param {string} typed
 */
function labelsFor(search, typed) {
    return search.all(search.find(typed)).map((number) => search.model.labels.at(number));
}

/**
 * The labels of what is found, the best first.
 * @param {string} typed
 */
async function found(typed) {
    return labelsFor(await searchOf(TEXT, SAID), typed);
}

test("a formula that is typed exactly comes first, with its typecode or without, with spaces or without", async () => {
    for (const typed of ["( ph -> ph )", "(ph->ph)", "( PH -> ph )", "(\u03c6\u2192\u03c6)"]) {
        assert.deepEqual((await found(typed)).slice(0, 3), ["id", "inf", "long"], typed);
    }
    assert.deepEqual((await found("|- ( ph -> ph )")).slice(0, 2), ["id", "inf"]);
    assert.deepEqual(await found("|-(ph->ph)"), ["id", "inf"]);
    assert.equal((await found("A.x(ph->ps)"))[0], "all");
    assert.deepEqual(await found("A.x"), ["all"]);
    assert.equal((await found("( ph -> ps )"))[0], "wi");
});

test("a label that is typed comes before formulas", async () => {
    assert.equal((await found("id"))[0], "id");
    assert.equal((await found("idi"))[0], "idi");
});

test("words in any order, and phrases in quotes", async () => {
    assert.deepEqual((await found("lemma zorn")).sort(), ["idi", "long"]);
    assert.deepEqual(await found('"lemma of zorn"'), ["idi"]);
    assert.deepEqual(await found('"zorn lemma"'), []);
    assert.deepEqual(await found('arrow "zorn\'s  lemma"'), ["long"]);
    assert.deepEqual(await found('"( ph -> ph )" identity'), ["id"]);
    assert.deepEqual(wordsOf('"a b" c "" "d" "e'), ["a b", "c", '""', "d", '"e']);
});

test("quotes that are symbols", async () => {
    assert.deepEqual(await found('( ph " ps ) = ( x " ph )'), ["image"]);
    assert.deepEqual(await found('ph"ps'), ["image"]);
    assert.deepEqual(await found('"'), ["image"]);
});

test("what is typed letter by letter finds the same", async () => {
    const search = await searchOf(TEXT, SAID);
    for (let size = 1; size <= 8; size++) search.find("(ph->ph)".slice(0, size));
    assert.deepEqual(labelsFor(search, "(ph->ph)"), await found("(ph->ph)"));
});

/**
 * A text of many assertions, each with a comment of two words, and what they say.
 * @param {number} size
 */
function manyAssertions(size) {
    const labels = Array.from({ length: size }, (_, at) => `s${at}`);
    const text = labels.map((label, at) => `$( even${at % 2} third${at % 3} $) ${label} $a |- ph $.\n`).join("");
    const said = Object.fromEntries(labels.map((label) => [label, `${F} $a |- ph`]));
    return { text: `$c |- wff $. $v ph $. wph $f wff ph $.\n${text}`, said };
}

test("where few are left by the words before, the next one is only looked for there, and nothing else is lost", async () => {
    const { text, said } = manyAssertions(60);
    const search = await searchOf(text, said);
    const wanted = ["s4", "s40", "s46"];
    const words = ["even0", "s4", "third1"];
    for (const typed of [words, [...words].reverse(), ["s4", "even0", "third1"]]) {
        assert.deepEqual(labelsFor(search, typed.join(" ")).sort(), wanted);
    }
    // What was looked for only there isn't kept as if it were all.
    assert.equal(labelsFor(search, "third1").length, 20);
    assert.equal(labelsFor(search, "even0").length, 30);
    assert.deepEqual(labelsFor(search, "s59 third1"), []);
    assert.deepEqual(labelsFor(search, "s59 third2"), ["s59"]);
});

test("very many words are looked for once each", { timeout: 20_000 }, async () => {
    const words = Array.from({ length: 4_000 }, (_, at) => `w${at}`).join(" ");
    const { text, said } = manyAssertions(300);
    const search = await searchOf(text.replace("even0 third0", words), said);
    const answer = search.find(words);
    search.masksOf = () => assert.fail("the best are told without another search");
    assert.deepEqual(search.best(answer, 24), [{ number: 0, where: "comment" }]);
    assert.equal((await searchOf(text, said)).find(words).total, 0);
});

test("the places of words in a text", { timeout: 20_000 }, () => {
    assert.deepEqual(placesOf("Abcab", ["ab", "b", "abc"]), [[0, 3], [3, 5]]);
    assert.deepEqual(placesOf("xaay", ["a", "aa"]), [[1, 3]]);
    assert.deepEqual(placesOf("x", ["a"]), []);
    assert.deepEqual(placesOf("", ["a"]), []);
    const many = 300_000;
    assert.equal(placesOf("a".repeat(many), ["a", "b", "ab"]).length, many);
});
