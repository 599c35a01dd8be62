// Tests of what is taken of the files that are dropped on the page that verifies.

import assert from "node:assert/strict";
import { test } from "node:test";
import { gzipSync } from "node:zlib";
import { Unfit, chosen } from "../verifier/chosen.js";

const TEXT = "$c a $.\nx $a a $.\n";

/**
 * What is taken of a file with these bytes.
 * @param {string | Uint8Array} bytes
 */
async function taken(bytes, name = "x.mm") {
    const { file } = await chosen(new File([bytes], name), true, () => {});
    return await new Response(file).text();
}

test("a text, and one that is compressed", async () => {
    assert.equal(await taken(TEXT), TEXT);
    assert.equal(await taken(gzipSync(TEXT), "x.mm.gz"), TEXT);
});

test("a compressed file of several members", async () => {
    const parts = [TEXT, "", "$( a comment $)\n".repeat(5000), "y $a a $.\n"];
    assert.equal(await taken(Buffer.concat(parts.map((part) => gzipSync(part)))), parts.join(""));
    const many = Array.from({ length: 300 }, (_, at) => `$( ${at} $)\n`);
    assert.equal(await taken(Buffer.concat(many.map((part) => gzipSync(part)))), many.join(""));
});

test("a compressed member in which another one could begin", async () => {
    const signs = Buffer.from([0x1f, 0x8b, 0x08, 0x00]);
    const stored = gzipSync(Buffer.concat([Buffer.from("$( "), signs, Buffer.from(" $)\n")]), { level: 0 });
    assert.ok(stored.indexOf(signs, 1) > 0);
    const text = await taken(Buffer.concat([stored, gzipSync(TEXT)]));
    assert.ok(text.endsWith(TEXT));
});

test("a compressed file that is damaged", async () => {
    const whole = gzipSync(TEXT.repeat(100));
    const zipped = Buffer.concat([whole, whole]);
    const odd = Buffer.concat([whole, Buffer.from("more")]);
    for (const bytes of [whole.subarray(0, -5), zipped.subarray(0, -5), odd]) {
        await assert.rejects(taken(bytes), (error) => error instanceof Unfit && /damaged/.test(error.message));
    }
    const begun = Buffer.alloc(4000, Buffer.from([0x1f, 0x8b, 0x08, 0x00]));
    await assert.rejects(taken(Buffer.concat([whole.subarray(0, 30), begun])), Unfit);
});

test("what is no text is told so", async () => {
    const png = Buffer.from([0x89, 0x50, 0x4e, 0x47, 0x0d, 0x0a, 0x1a, 0x0a, 0, 0, 0, 0x0d]);
    for (const bytes of [png, Buffer.from("%PDF-1.4\n%\xe2\xe3\xcf\xd3", "latin1"), Buffer.from("a\0b")]) {
        await assert.rejects(taken(bytes), (error) => error instanceof Unfit && /is no text/.test(error.message));
    }
    for (const text of ["\ufeff$c a $.", "$( \u00e9 $)", "\f\t\v\r\n$c a $.", ""]) {
        assert.equal(Buffer.compare(Buffer.from(await taken(text)), Buffer.from(text.replace("\ufeff", ""))), 0);
    }
});

test("a file that is changed in place is read once", async () => {
    const texts = [TEXT, TEXT.replace("x $a", "y $a"), TEXT.replace("x $a", "z $a")];
    for (const pack of [(/** @type {string} */ text) => Buffer.from(text), (/** @type {string} */ text) => gzipSync(text)]) {
        for (const isShared of [true, false]) {
            let reads = 0;
            const bytes = () => pack(texts[Math.min(reads++, 2)]);
            const changing = /** @type {File} */ (
                /** @type {unknown} */ ({
                    name: "x.mm",
                    size: bytes().length,
                    arrayBuffer: async () => new Uint8Array(bytes()).buffer,
                    slice: () => new Blob([bytes()]),
                    stream: () => new Blob([bytes()]).stream(),
                })
            );
            const { file } = await chosen(changing, isShared, () => {});
            const read = () => new Response(file).text();
            assert.equal(await read(), texts[1]);
            assert.equal(await read(), texts[1]);
            assert.equal(reads, 2);
        }
    }
});

test("a compressed file of few bytes and a long text", async () => {
    const long = gzipSync(new Uint8Array(30_000_000).fill(32));
    await assert.rejects(taken(long), (error) => error instanceof Unfit && /100 times as long/.test(error.message));
    assert.equal((await taken(gzipSync(new Uint8Array(10_000_000).fill(32)))).length, 10_000_000);
});
