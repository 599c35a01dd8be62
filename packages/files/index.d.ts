/** What is requested of a report, as the options of the program of these names. */
export interface Request {
    // begin request: made by `python3 -m tables`; change crates/mm_line or tables/words.py instead
    /** The typecode of the axioms; without it, of whatever typecode they are. */
    only?: string | null;
    /** Names of sections with commas between them: `matrix`, `counts`, `usage`, `citations`, `proofs`, `statements`, or
     * `all`, which is the first three and the default. */
    report?: string;
    /** The form of the matrix: one digit per column, or one hexadecimal digit per four. */
    form?: 1 | 2;
    /** Count as citations only what the logical part of a proof applies. */
    essential?: boolean;
    /** Count a theorem whose proof is `?` as an axiom. */
    open?: boolean;
    // end request
}

/** The database has a fault; docs/FAULTS.md says what each code means. */
export class Refused extends Error {
    /** Counts from 1. */
    readonly line: number;
    /** Counts from 1, in bytes. */
    readonly column: number;
    /** `E00` to `E45`. */
    readonly code: string;
    /** Which of two databases that are compared it is; null if there was one. */
    readonly side: "old" | "new" | null;
}

/**
 * Verifies a database, and gives the bytes of its report. The text is copied when this is called, so it may be changed
 * before the promise is settled.
 *
 * It throws `Refused` if the database has a fault, a `TypeError` if there is no such section, form or field of a request, and
 * a `RangeError` if memory runs out: it can use 4 GB.
 */
export function report(text: Uint8Array, request?: Request): Promise<Uint8Array>;

/**
 * Verifies two databases, and gives the bytes that say what the one has and the other hasn't, as `mmdepend --against OLD NEW`
 * writes them. The texts are copied when this is called.
 *
 * It throws `Refused` for the first of them that has a fault, with its `side`, a `TypeError` if there is no such typecode or
 * field of a request, and a `RangeError` if memory runs out: it can use 4 GB for both together.
 */
export function against(
    oldText: Uint8Array,
    newText: Uint8Array,
    request?: Pick<Request, "only" | "essential" | "open">,
): Promise<Uint8Array>;

/** The version, and the logic in which it was proved. */
export function version(): Promise<string>;
