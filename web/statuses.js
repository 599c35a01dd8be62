// How a run ends, by the numbers of `enum mmdepend_status` in library/mmdepend.h. The program ends with 0, 1 and 4 for the same.

export const Status = /** @type {const} */ ({ accepted: 0, refused: 1, outTooShort: 3, noMemory: 4 });

/** With which others the program ends, as --help says: 2 invalid words or nothing to show, 3 reading or writing failed. */
export const Exit = /** @type {const} */ ({ invalid: 2, failed: 3 });
