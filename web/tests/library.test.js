// Tests of how memory is lent to the module. The module is one that says how much it needs.

import assert from "node:assert/strict";
import { test } from "node:test";
import { MEMORY_PAGE, UNIT, report } from "../library.js";
import { Status } from "../statuses.js";

/** @typedef {import("../node/types.js").Request} Request */

const MEGABYTE = 1 << 20;

/**
 * Runs a module that needs this room and output.
 * @param {{ size: number, room: number, output: number, most: number, fails?: number, request?: Partial<Request> }} given
 * @returns {Promise<{ answer: import("../node/types.js").Answer, calls: { room: number, output: number }[] }>}
 */
async function ran({ size, room, output, most, fails = Infinity, request = {} }) {
    const memory = new WebAssembly.Memory({ initial: 1 });
    const grow = memory.grow.bind(memory);
    memory.grow = (pages) => {
        if (memory.buffer.byteLength + pages * MEMORY_PAGE > fails) throw new RangeError("there is no more");
        return grow(pages);
    };
    /** @type {{ room: number, output: number }[]} */
    const calls = [];
    /** @param {(number | bigint)[]} words */
    const call = (...words) => {
        const [written, , , , , , , , , , , lent, length] = words.map(Number);
        const numbers = new BigUint64Array(memory.buffer, written, 3);
        calls.push({ room: UNIT * Number(numbers[1]), output: lent });
        if (UNIT * Number(numbers[1]) < room) return Status.noMemory;
        new BigUint64Array(memory.buffer, length, 1)[0] = BigInt(output);
        return lent < output ? Status.outTooShort : Status.accepted;
    };
    const { instantiate } = WebAssembly;
    const instance = { exports: { memory, mmdepend_report: call } };
    Object.assign(WebAssembly, { instantiate: async () => instance });
    try {
        return { answer: await report(/** @type {any} */ (null), size, () => {}, request, { most }), calls };
    } finally {
        Object.assign(WebAssembly, { instantiate });
    }
}

/** A text of 312 MB in 4 GB of memory, a hundredth of both. */
const LARGE = { size: 3_271_557, most: 42_949_672 };

test("a text whose room is eight times as long fits, though the output might have been large", async () => {
    const { answer, calls } = await ran({ ...LARGE, room: 8 * LARGE.size, output: MEGABYTE });
    assert.equal(answer.status, 0);
    assert.equal(answer.report.length, MEGABYTE);
    assert.ok(calls.length <= 3, JSON.stringify(calls));
});

test("all that there is is lent at last, and no more", async () => {
    const free = LARGE.most - LARGE.size;
    const fits = await ran({ ...LARGE, room: free - 5 * MEMORY_PAGE, output: 1000 });
    assert.equal(fits.answer.status, 0);
    const { answer, calls } = await ran({ ...LARGE, room: free, output: 1000 });
    assert.deepEqual([answer.status, answer.report.length], [4, 0]);
    for (const { room, output } of calls) assert.ok(room + output <= free);
    for (let at = 1; at < calls.length; at++) assert.ok(calls[at].room > calls[at - 1].room);
});

test("room and output are tried again until both are enough", async () => {
    const { answer, calls } = await ran({ size: MEGABYTE, most: Infinity, room: 30 * MEGABYTE, output: 9 * MEGABYTE });
    assert.equal(answer.status, 0);
    assert.equal(answer.report.length, 9 * MEGABYTE);
    assert.equal(calls.filter(({ room }) => room >= 30 * MEGABYTE).length, 2);
    const none = await ran({ size: MEGABYTE, most: 20 * MEGABYTE, room: 8 * MEGABYTE, output: 12 * MEGABYTE });
    assert.equal(none.answer.status, 4);
});

test("where the system gives less than was thought, what it gives is used", async () => {
    const some = { size: MEGABYTE, most: Infinity, output: 1000 };
    const { answer } = await ran({ ...some, fails: 12 * MEGABYTE, room: 9 * MEGABYTE });
    assert.equal(answer.status, 0);
    const none = await ran({ ...some, fails: 12 * MEGABYTE, room: 12 * MEGABYTE });
    assert.equal(none.answer.status, 4);
});

test("the output that is tried first is by the report", async () => {
    /** @param {Partial<Request>} request */
    const first = async (request) => {
        const { calls } = await ran({ size: 10 * MEGABYTE, most: Infinity, room: 0, output: 10, request });
        return calls[0].output / (10 * MEGABYTE);
    };
    const all = await first({});
    const counts = await first({ report: "counts" });
    const narrow = await first({ report: "matrix", form: 2 });
    assert.ok(all > 4 && counts < 0.1 && narrow < 1 && narrow > 0.7, `${all} ${counts} ${narrow}`);
});
