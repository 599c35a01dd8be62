// What the tests need of Node, beside what the program needs of it.

interface Buffer extends Uint8Array {
    indexOf(found: number | Uint8Array, start?: number): number;
    subarray(start?: number, end?: number): Buffer;
    toString(encoding?: "base64"): string;
}

declare const Buffer: {
    alloc(size: number, fill?: Uint8Array): Buffer;
    compare(one: Uint8Array, other: Uint8Array): number;
    concat(parts: readonly Uint8Array[]): Buffer;
    from(from: string | Iterable<number>, encoding?: "base64" | "latin1"): Buffer;
};

declare module "node:assert/strict" {
    type Wrong = RegExp | (new (...given: any[]) => Error) | ((error: any) => boolean);
    const assert: {
        deepEqual(found: unknown, wanted: unknown, message?: string): void;
        equal(found: unknown, wanted: unknown, message?: string): void;
        fail(message: string): never;
        match(found: string, wanted: RegExp): void;
        notEqual(found: unknown, unwanted: unknown): void;
        ok(value: unknown, message?: string): void;
        rejects(found: Promise<unknown>, wanted?: Wrong, message?: string): Promise<void>;
        throws(call: () => unknown, wanted?: Wrong, message?: string): void;
    };
    export default assert;
}

declare module "node:fs" {
    export function readFileSync(path: string | URL): Buffer;
    export function writeFileSync(path: string, bytes: Uint8Array): void;
}

declare module "node:test" {
    type Body = () => void | Promise<void>;
    export function test(name: string, body: Body): void;
    export function test(name: string, options: { timeout: number }, body: Body): void;
}

declare module "node:zlib" {
    export function deflateSync(bytes: Uint8Array): Buffer;
    export function gzipSync(bytes: string | Uint8Array, options?: { level: number }): Buffer;
}
