// Tests of proofs: they are packed, read again and carried out, and what they show is what stands in the text.

import assert from "node:assert/strict";
import { test } from "node:test";
import { Writer, encoded } from "../packer/bytes.js";
import { ProofPacker } from "../packer/proof-packer.js";
import { readCitations, readReport } from "../packer/reports.js";
import { readText } from "../packer/text.js";
import { Damaged } from "../view/decode.js";
import { Derivation, OtherFormula, TooManySigns } from "../view/derivation.js";
import { MOST_STEPS, Proofs, TooManySteps } from "../view/proof-reader.js";
import { Abandoned, Turns } from "../view/turns.js";
import { PLAIN, blocksOf, modelOf, reportOf } from "./blocks.js";

const HEAD = `$c wff |- ( -> ) $. $v p q r $.
wp $f wff p $. wq $f wff q $. wr $f wff r $.
wi $a wff ( p -> q ) $.
ax $a |- ( p -> ( q -> p ) ) $.
\${ min $e |- p $. maj $e |- ( p -> q ) $. mp $a |- q $. $}
`;
const P = " $f wp wff p";
const PQ = `${P} $f wq wff q`;
const SAID = {
    wi: `${PQ} $a wff ( p -> q )`,
    ax: `${PQ} $a |- ( p -> ( q -> p ) )`,
    mp: `${PQ} $e min |- p $e maj |- ( p -> q ) $a |- q`,
};
/** `( q -> p )` of `p`, by the axiom. */
const A1I = `${PQ} $e h |- p $p |- ( q -> p )`;

/**
 * The proofs that blocks have.
 * @param {Map<string, Uint8Array>} blocks
 */
function proofsOf(blocks) {
    return new Proofs(modelOf(blocks));
}

/**
 * The proof of a theorem, carried out.
 * @param {Proofs} proofs
 * @param {string} label
 */
async function derivationOf(proofs, label, turns = new Turns(() => true)) {
    const theorem = proofs.model.numberOf(label) ?? assert.fail(label);
    const derivation = new Derivation(proofs, await proofs.steps(theorem, turns));
    await derivation.run(theorem, turns);
    return derivation;
}

/**
 * The essential steps, or all of them, as lines: what each applies, the numbers of what it uses, and what it says.
 * @param {Derivation} derivation
 */
function linesOf(derivation, areAll = false) {
    const steps = areAll ? derivation.all : derivation.essential;
    const { model } = derivation;
    return steps.map((step) => {
        const number = derivation.steps.numbers[step];
        const labels = [
            () => derivation.proofs.floatingAt(number).label,
            () => model.hypothesisLabels.at(number),
            () => model.labels.at(number),
        ];
        const used = areAll ? derivation.usedBy(step) : derivation.essentialUsedBy(step);
        const numbers = used.map((each) => steps.indexOf(each) + 1).join(",");
        return `${labels[derivation.steps.what[step]]()} ${numbers}: ${derivation.formula(step)}`;
    });
}

/**
 * A text of many theorems, `t0` and so on, each proved by the one before, and what its report says.
 * @param {number} many
 * @returns {[string, Record<string, string>, Record<string, string[]>]}
 */
function chainOf(many) {
    const labels = Array.from({ length: many }, (_, at) => `t${at}`);
    const cites = Object.fromEntries(labels.map((label, at) => [label, [at === 0 ? "ax" : labels[at - 1]]]));
    const text = `$c |- a $. $v p $. fp $f |- p $. ax $a |- a $.\n${labels.map((label) => `${label} $p |- a $= ${cites[label]} $.\n`).join("")}`;
    const said = Object.fromEntries([["ax", " $a |- a"], ...labels.map((label) => [label, " $p |- a"])]);
    return [text, said, cites];
}

test("more theorems than a call may have arguments", { timeout: 60_000 }, async () => {
    const derivation = await derivationOf(proofsOf(blocksOf(...chainOf(150_000))), "t2500");
    assert.deepEqual(linesOf(derivation), ["t2499 : |- a"]);
});

test("proofs that two threads pack are those that one packs", () => {
    const chain = chainOf(5_000);
    const source = encoded(chain[0]);
    const report = encoded(reportOf(...chain));
    const here = new ProofPacker(readReport(readText(source, report), PLAIN, report));
    const there = new ProofPacker(readCitations(readText(source, report), PLAIN, report));
    const middle = here.blockBehind(0.35);
    assert.equal(middle, 1); // of three
    /** @type {Map<string, Uint8Array>} */
    const blocks = new Map();
    here.packFrames(blocks);
    here.packSteps(0, middle, blocks);
    there.packSteps(there.blockBehind(0.35), Infinity, blocks);
    const ofProofs = [...blocksOf(...chain)].filter(([name]) => name.startsWith("proof-"));
    assert.deepEqual([...blocks], ofProofs);
});

/**
 * Sees that a proof of `a1i`, written in some way, is read.
 * @param {string} proof
 */
async function seesA1i(proof, cites = ["wi", "ax", "mp"]) {
    const text = `${HEAD}\${ h $e |- p $. a1i $p |- ( q -> p ) $= ${proof} $. $}`;
    const derivation = await derivationOf(proofsOf(blocksOf(text, { ...SAID, a1i: A1I }, { a1i: cites })), "a1i");
    assert.deepEqual(linesOf(derivation), [
        "h : |- p",
        "ax : |- ( p -> ( q -> p ) )",
        "mp 1,2: |- ( q -> p )",
    ]);
    return derivation;
}

test("a proof in words, and one in letters", async () => {
    const words = await seesA1i("wp wq wp wi h wp wq ax mp");
    assert.deepEqual(linesOf(words, true), [
        ...["wp : wff p", "wq : wff q", "wp : wff p", "wi 2,3: wff ( q -> p )", "h : |- p"],
        ...["wp : wff p", "wq : wff q", "ax 6,7: |- ( p -> ( q -> p ) )", "mp 1,4,5,8: |- ( q -> p )"],
    ]);
    const letters = await seesA1i("( wi ax mp ) ABADCABEF");
    assert.deepEqual(linesOf(letters, true), linesOf(words, true));
});

test("comments, line ends, marks of any step, labels twice and for nothing", async () => {
    await seesA1i("$( one $) wp wq $( two $= $) wp wi h wp\nwq ax mp $( three $)");
    await seesA1i("( wi $( a ) $) ax mp wr ) $( b $)\nAB AD\nCA $( no $) B EF");
    await seesA1i("( wi ax mp wi ax ) ABAGCABHF");
    await seesA1i("( wp h wi ax mp ) DBAFEABGH");
    await seesA1i("( wi ax mp ) AZZBGDCHBEF");
    await seesA1i("( wi ax mp ) AZBZGZDCIHZEF");
});

/**
 * A number, from 1, in the letters of compressed proofs.
 * @param {number} number
 */
function spelled(number) {
    let rest = Math.floor((number - 1) / 20);
    let letters = String.fromCharCode(65 + ((number - 1) % 20));
    for (; rest > 0; rest = Math.floor((rest - 1) / 5)) letters = String.fromCharCode(85 + ((rest - 1) % 5)) + letters;
    return letters;
}

test("brackets of very many labels, and a step that is marked again and again", { timeout: 60_000 }, async () => {
    const many = 100_000;
    const [wi, ax, mp] = [spelled(4), spelled(4 + many), spelled(5 + many)];
    await seesA1i(`( ${"wi ".repeat(many)}ax mp ) ABA${wi}CAB${ax}${mp}`);
    const marked = spelled(6 + many);
    await seesA1i(`( wi ax mp ) A${"Z".repeat(many)}B${marked}DCGBEF`);
});

test("many marked steps, of which some are far back", async () => {
    // Forty marked steps, each `( p -> q )`, are joined; then marked ones are repeated. The letters A, B and C are `wp`,
    // `wq` and `wi`, so that the first marked step is the fourth.
    const size = 40;
    const repeated = [1, 2, 1, size, 3].map((mark) => `${spelled(3 + mark)}C`);
    const letters = "ABCZ".repeat(size) + "C".repeat(size - 1) + repeated.join("");
    const terms = Array.from({ length: size }, () => "( p -> q )");
    let formula = terms.reduceRight((all, term) => `( ${term} -> ${all} )`);
    for (let more = 0; more < repeated.length; more++) formula = `( ${formula} -> ( p -> q ) )`;
    const text = `${HEAD}deep $p wff ${formula} $= ( wi ) ${letters} $.`;
    const said = { ...SAID, deep: `${PQ} $p wff ${formula}` };
    const derivation = await derivationOf(proofsOf(blocksOf(text, said, { deep: ["wi"] })), "deep");
    assert.equal(derivation.formula(derivation.formulas.length - 1), `wff ${formula}`);
    assert.equal(derivation.all.length, 3 * size + size - 1 + repeated.length);
});

test("a `$f` behind a `$e`, a variable that only the proof has, and one that is replaced by nothing", async () => {
    const text = `$c wff |- A $. $v p q $. we $a wff $. wa $a wff A $.
\${ wp $f wff p $. one.h $e |- p $. wq $f wff q $. one $a |- q p $. $}
\${ h $e |- A $. two $p |- A $= wa h we one $. $}
\${ wy $f $( of y $) wff q $. j $e |- A $. three $p |- q A $= ( wa one ) CBAD $. $}
`;
    const said = {
        we: " $a wff",
        wa: " $a wff A",
        one: " $f wp wff p $e one.h |- p $f wq wff q $a |- q p",
        two: " $e h |- A $p |- A",
        three: " $f wy wff q $e j |- A $p |- q A",
    };
    const proofs = proofsOf(blocksOf(text, said, { two: ["we", "wa", "one"], three: ["wa", "one"] }));
    assert.deepEqual(linesOf(await derivationOf(proofs, "two")), ["h : |- A", "one 1: |- A"]);
    assert.deepEqual(linesOf(await derivationOf(proofs, "three")), ["j : |- A", "one 1: |- q A"]);
    const odd = proofs.frameOf(proofs.model.numberOf("one") ?? assert.fail("one")).map((item) => item % 2);
    assert.deepEqual(odd, [0, 1, 0]);
});

test("a `$f` that no assertion has", async () => {
    const text = `$c wff |- A $. $v p r $. wp $f wff p $. wr $f wff r $. \${ all.h $e wff p $. all $a |- A $. $}
none $p |- A $= wr wr all $.`;
    const said = { all: " $f wp wff p $e all.h wff p $a |- A", none: " $v r $p |- A" };
    const derivation = await derivationOf(proofsOf(blocksOf(text, said, { none: ["all"] })), "none");
    assert.deepEqual(linesOf(derivation), ["wr : wff r", "all 1: |- A"]);
});

test("steps that prove another formula aren't shown", async () => {
    const text = `${HEAD}\${ h $e |- p $. a1i $p |- ( q -> p ) $= wp wq wp wi h wp wq ax mp $. $}`;
    const blocks = blocksOf(text, { ...SAID, a1i: A1I }, { a1i: ["wi", "ax", "mp"] });
    const formulas = new TextDecoder().decode(blocks.get("formulas"));
    blocks.set("formulas", encoded(formulas.replace(/\( q -> p \)$/, "( p -> p )")));
    await assert.rejects(derivationOf(proofsOf(blocks), "a1i"), OtherFormula);
    blocks.set("formulas", encoded(formulas));
    const given = new TextDecoder().decode(blocks.get("hypothesis-formulas"));
    blocks.set("hypothesis-formulas", encoded(given.replace("-> q", "-> p")));
    await assert.rejects(derivationOf(proofsOf(blocks), "a1i"), OtherFormula);
});

test("formulas that double a hundred times have a limit", { timeout: 20_000 }, async () => {
    // Each step joins the one before, which it repeats, with itself.
    const base = "$c wff ( -> ) $. $v p q $. wp $f wff p $. wq $f wff q $. wi $a wff ( p -> q ) $.\n";
    let letters = "AAB";
    for (let mark = 1; mark <= 100; mark++) letters += `Z${spelled(2 + mark)}B`;
    const said = { wi: `${PQ} $a wff ( p -> q )`, big: `${P} $p wff p` };
    const blocks = blocksOf(`${base}big $p wff p $= ( wi ) ${letters} $.`, said, { big: ["wi"] });
    await assert.rejects(derivationOf(proofsOf(blocks), "big"), TooManySigns);
    const fewer = letters.slice(0, letters.indexOf(`Z${spelled(12)}`));
    const small = blocksOf(`${base}big $p wff p $= ( wi ) ${fewer} $.`, said, { big: ["wi"] });
    await assert.rejects(derivationOf(proofsOf(small), "big"), OtherFormula);
});

test("a proof of too many steps has a limit, and those after it are read", { timeout: 60_000 }, async () => {
    const base = "$c wff A $. $v p $. wp $f wff p $. wa $a wff A p $.\n";
    const letters = `A${"B".repeat(MOST_STEPS + 1)}`;
    const text = `${base}long $p wff p $= ( wa ) ${letters} $. short $p wff A p $= wp wa $.`;
    const said = { wa: `${P} $a wff A p`, long: `${P} $p wff p`, short: `${P} $p wff A p` };
    const proofs = proofsOf(blocksOf(text, said, { long: ["wa"], short: ["wa"] }));
    assert.deepEqual(linesOf(await derivationOf(proofs, "short")), ["wa : wff A p"]);
    await assert.rejects(derivationOf(proofs, "long"), TooManySteps);
    assert.deepEqual(linesOf(await derivationOf(proofs, "short")), ["wa : wff A p"]);
});

test("work is done in turns, and given up where nobody waits for it", async () => {
    let isWanted = true;
    const turns = new Turns(() => isWanted);
    assert.equal(turns.isOver(0), false);
    turns.began -= 1000;
    assert.equal(turns.isOver(63), true);
    await turns.next();
    assert.equal(turns.isOver(63), false);
    isWanted = false;
    await assert.rejects(turns.next(), Abandoned);
});

test("long formulas of which little is left, and what costs time though it has no signs, have a limit", async () => {
    const size = 20_000;
    const long = `|- A${" p".repeat(size)}`;
    const base = `$c wff |- A $. $v p $. wp $f wff p $. we $a wff $. start $a |- A $.
\${ big.h $e |- A $. big $a ${long} $. $}
`;
    const said = {
        we: " $a wff",
        start: " $a |- A",
        big: `${P} $e big.h |- A $a ${long}`,
        all: " $p |- A",
    };
    /** @param {number} many */
    const proof = (many) => `${"we ".repeat(many)}start${" big".repeat(many)}`;
    /** @param {number} many */
    const read = (many) => {
        const blocks = blocksOf(`${base}all $p |- A $= ${proof(many)} $.`, said, { all: ["we", "start", "big"] });
        return derivationOf(proofsOf(blocks), "all");
    };
    assert.equal((await read(10)).all.length, 21);
    await assert.rejects(read(1200), TooManySigns);
});

test("proofs that are read at the same time don't disturb one another", async () => {
    const one = "wp wq wp wi h wp wq ax mp";
    const text = `${HEAD}\${ h $e |- p $. first $p |- ( q -> p ) $= ${one} $. second $p |- ( q -> p ) $= ${one} $. $}`;
    const said = { ...SAID, first: A1I, second: A1I };
    const cites = { first: ["wi", "ax", "mp"], second: ["wi", "ax", "mp"] };
    const proofs = proofsOf(blocksOf(text, said, cites));
    const hurried = Object.assign(new Turns(() => true), {
        isOver: () => true,
        next: () => new Promise((resume) => setTimeout(resume)),
    });
    await derivationOf(proofs, "first");
    const labels = ["second", "first", "second", "first"];
    const all = await Promise.all(labels.map((label) => derivationOf(proofs, label, hurried)));
    for (const derivation of all) assert.equal(linesOf(derivation).length, 3);
});

/** How a proof is told not to be shown. */
const TOLD = [Damaged, OtherFormula, TooManySigns, TooManySteps];

/**
 * Sees that what is read proves `( q -> p )`, though by other steps, or that it is told why there are none.
 * @param {Map<string, Uint8Array>} blocks
 * @param {string} label
 * @param {string} what
 */
async function seesTold(blocks, label, what) {
    try {
        const last = linesOf(await derivationOf(proofsOf(blocks), label), true).pop();
        assert.ok(last?.endsWith(": |- ( q -> p )"), `${what}: ${last}`);
    } catch (error) {
        assert.ok(TOLD.some((kind) => error instanceof kind), `${what}: ${error}`);
    }
}

test("damaged proofs are told as such, and never shown otherwise", { timeout: 60_000 }, async () => {
    const text = `${HEAD}\${ h $e |- p $. a1i $p |- ( q -> p ) $= ( wi ax mp ) AZBGADCGBEF $. $}`;
    const whole = blocksOf(text, { ...SAID, a1i: A1I }, { a1i: ["wi", "ax", "mp"] });
    const writer = new Writer();
    for (const number of [2 ** 31, 2 ** 32, 2 ** 53 - 1]) writer.number(number);
    const large = Buffer.from(writer.taken());
    for (const name of ["proof-steps-0", "proof-frames", "proof-labels", "proof-floating"]) {
        const block = Buffer.from(whole.get(name) ?? assert.fail(name));
        for (let at = 0; at < block.length; at++) {
            const [before, after] = [block.subarray(0, at), block.subarray(at + 1)];
            const others = [0, 1, 0x7f, 0x80, 0xff, block[at] ^ 1, block[at] ^ 2].map((byte) => [byte]);
            const damages = [[], ...others, [...large], Array(12).fill(0xff)];
            for (const damage of damages) {
                const changed = Buffer.concat([before, Buffer.from(damage), after]);
                await seesTold(new Map([...whole, [name, changed]]), "a1i", `${name} ${at} ${damage}`);
            }
            await seesTold(new Map([...whole, [name, before]]), "a1i", `${name} to ${at}`);
        }
    }
});

test("proofs of another database are told not to be those of this one", async () => {
    const text = `${HEAD}\${ h $e |- p $. a1i $p |- ( q -> p ) $= wp wq wp wi h wp wq ax mp $. $}`;
    const blocks = blocksOf(text, { ...SAID, a1i: A1I }, { a1i: ["wi", "ax", "mp"] });
    const other = `${HEAD}same $p |- ( p -> ( q -> p ) ) $= wp wq ax $.`;
    const said = { ...SAID, same: `${PQ} $p |- ( p -> ( q -> p ) )` };
    const others = blocksOf(other, said, { same: ["ax"] });
    const names = [...blocks.keys()].filter((name) => name.startsWith("proof-"));
    for (const mixed of [names, ...names.map((name) => [name])]) {
        const blend = new Map(blocks);
        for (const name of mixed) blend.set(name, others.get(name) ?? assert.fail(name));
        await seesTold(blend, "a1i", mixed.join(" "));
    }
});
