// The shapes that the modules of this folder pass on.

/**
 * What is requested of a report: each field is the option of this name.
 * @typedef {Required<import("../../packages/files/index.js").Request>} Request
 */

/**
 * What the library answers: a report (0), the refusal of the first fault (1), that the typecode isn't UTF-8 (2), or that
 * memory ran out (4). `report` lies in the module's memory.
 * @typedef {object} Answer
 * @property {0 | 1 | 2 | 4} status
 * @property {Uint8Array} report
 * @property {number} memory how many bytes of memory the module has at the end
 */

/**
 * What the scripts are told by the builder, which has it of Python.
 * @typedef {object} Tables
 * @property {string} maker which program it is
 * @property {import("../packer/typesetting.js").Entities} entities
 * @property {Record<string, [string, string]>} faults what each code means, and what to do
 * @property {[string, string]} unknown the same for another code
 */

export {};
