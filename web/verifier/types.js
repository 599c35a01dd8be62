// The shapes of what the page that verifies and its workers tell one another.

/** @typedef {import("../packer/faults.js").Fault} Fault */
/** @typedef {import("../packer/reports.js").PageRequest} PageRequest */
/** @typedef {import("../packer/typesetting.js").Entities} Entities */

/**
 * The text of a database, which was read once: as the browser holds it, or its bytes where workers can't read what the
 * browser holds.
 * @typedef {Blob | Uint8Array} Contents
 */

/**
 * A database that was chosen, not compressed.
 * @typedef {{ name: string, file: Contents }} Chosen
 */

/** @typedef {import("../node/types.js").Tables} Tables */

/**
 * What a worker is asked for: to look whether it can read what the browser holds, to verify a database for the page, to
 * write a report to be saved, to pack texts (that of the database, and then that of the older release), or to pack what
 * their reports say.
 * @typedef {{ task: "look", blob: Blob }
 *     | { task: "verify", file: Contents, module: Uint8Array, request: PageRequest }
 *     | { task: "save", file: Contents, module: Uint8Array, request: PageRequest, report: ReportName, form: 1 | 2 }
 *     | { task: "pack", files: Chosen[], reports: Uint8Array[], request: PageRequest, maker: string, entities: Entities }} Ask
 */

/** @typedef {Map<string, Uint8Array>} PackedBlocks the blocks that were packed, by their names */

/** @typedef {"all" | "matrix" | "counts" | "usage" | "citations" | "proofs" | "statements"} ReportName */

/**
 * What a worker tells: how far it is, what it made, or why it made nothing. `part` is from 0 to 1.
 * @typedef {{ stage: "reading", part: number }
 *     | { stage: "checking" }
 *     | { stage: "seen" }
 *     | { stage: "verified", report: Uint8Array, memory: number }
 *     | { stage: "saved", report: Contents }
 *     | { stage: "packed", blocks: PackedBlocks }
 *     | { stage: "refused", fault: Fault }
 *     | { stage: "memory" }
 *     | { stage: "lacking", message: string }
 *     | { stage: "failed", message: string }} Reply
 */

export {};
