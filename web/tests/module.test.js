// Tests of what the module for programs of others is asked, before the core is: that isn't beside it here.

import assert from "node:assert/strict";
import { test } from "node:test";
import { Refused, against, report } from "../module.js";

const TEXT = new TextEncoder().encode("$c a $.\n");

test("what isn't understood is told", async () => {
    await assert.rejects(report(/** @type {any} */ ("$c a $."), {}), TypeError);
    await assert.rejects(report(TEXT, /** @type {any} */ ({ form: 3 })), TypeError);
    const unknown = /** @type {any} */ ({ essentials: true });
    await assert.rejects(report(TEXT, unknown), (error) => error instanceof TypeError && /'essentials'/.test(error.message));
});

test("a text that is too long is refused as the program refuses it", async () => {
    const refused = (/** @type {any} */ error) => {
        assert.ok(error instanceof Refused);
        assert.deepEqual([error.line, error.column, error.code], [1, 1, "E00"]);
        return true;
    };
    await assert.rejects(report(new Uint8Array(2 ** 31)), refused);
});

test("of two databases, what isn't understood is told", async () => {
    await assert.rejects(against(TEXT, /** @type {any} */ ("$c a $.")), TypeError);
    await assert.rejects(against(/** @type {any} */ (null), TEXT), TypeError);
    const unknown = /** @type {any} */ ({ report: "counts" });
    await assert.rejects(against(TEXT, TEXT, unknown), (error) => error instanceof TypeError && /'report'/.test(error.message));
});
