// What the program in Node needs of Node, for who checks its types where Node's own declarations aren't at hand.

declare module "node:child_process" {
    type Run = { status: number | null; signal: string | null; stdout: Uint8Array; stderr: Uint8Array; error?: Error };
    export function spawnSync(path: string, words: string[], given: { input: Uint8Array; maxBuffer: number }): Run;
}

declare module "node:fs" {
    export function openSync(path: string): number;
    export function readFileSync(path: URL): Uint8Array;
    export function readSync(file: number, into: Uint8Array, at: number, count: number, place: null): number;
    export function writeSync(file: number, bytes: Uint8Array, at: number, count: number): number;
}

declare module "node:zlib" {
    type Packed = { toString(form: "base64"): string };
    export function deflate(
        bytes: Uint8Array,
        options: { level: number; chunkSize: number },
        done: (error: Error | null, packed: Packed) => void,
    ): void;
    export function gunzipSync(bytes: Uint8Array, options: { maxOutputLength: number }): Uint8Array;
    export function inflateRawSync(bytes: Uint8Array): Uint8Array;
}

declare module "node:v8" {
    export function setFlagsFromString(flags: string): void;
}

declare module "node:crypto" {
    export const webcrypto: unknown;
}

declare module "node:worker_threads" {
    type Port = { once(event: "message", hear: (message: any) => void): void; postMessage(message: unknown): void };
    export const isMainThread: boolean;
    export const parentPort: Port;
    export const workerData: any;
    export class Worker {
        constructor(script: URL, options: { workerData: unknown });
        on(event: "message" | "error", hear: (heard: any) => void): void;
        postMessage(message: unknown): void;
        terminate(): Promise<number>;
    }
}

declare module "node:path" {
    export function basename(path: string): string;
}

declare module "node:util" {
    type Kind = { type: "string" | "boolean"; multiple?: boolean; short?: string };
    type Value<K extends Kind> = K["type"] extends "boolean" ? boolean : K["multiple"] extends true ? string[] : string;
    type Token =
        | { kind: "option"; name: string; rawName: string; value: string | undefined; inlineValue: boolean | undefined }
        | { kind: "positional"; value: string }
        | { kind: "option-terminator" };
    export function promisify<A, B, R>(
        call: (one: A, other: B, done: (error: Error | null, result: R) => void) => void,
    ): (one: A, other: B) => Promise<R>;
    export function parseArgs<O extends Record<string, Kind>>(asked: {
        args: string[];
        options: O;
        allowPositionals: boolean;
        strict?: boolean;
        tokens?: boolean;
    }): { values: { [name in keyof O]?: Value<O[name]> }; positionals: string[]; tokens: Token[] };
}

declare const process: { argv: string[]; platform: string; exitCode: number | undefined };
