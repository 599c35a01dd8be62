// How steps of proofs are written in the blocks of a page: proof-packer.js packs them, and proof-reader.js of
// the view reads them.
//
// A block `proof-steps-0` and so on has the proofs of `PROOFS_IN_BLOCK` theorems. It is made of streams, and begins with how many
// bytes each of them has. The steps of a proof stand in them from the last to the first. Who reads them knows which
// typecode comes next: first that of the theorem, and then those of the hypotheses of what was read. So there is a
// stream for each kind of typecodes, with a byte for each step:
//
//     2 * code + 1   if the step is repeated later, else 2 * code
//
// The codes are those of `Code`: a label with a number, a hypothesis of the theorem or what it cites, a step that is
// repeated, or one of the labels that are often used. Repeated steps of each kind are counted from the one that was
// last used or marked, and only the last `RECENT` of them; others by how many were marked after them.

/** How many proofs are in a block. */
export const PROOFS_IN_BLOCK = 2048;
/** Typecodes that no `$f` has are of the kind 0; the others take turns with the other kinds. */
export const KINDS = 4;
/** How many repeated steps of a kind have a code, and how many labels. */
export const RECENT = 24;
export const FREQUENT = 100;
/** The codes; those before `recent` have a number each, in a stream for each code. */
export const Code = { label: 0, own: 1, far: 2, recent: 3, frequent: 3 + RECENT };

/**
 * Whether a step has a number beside its code.
 * @param {number} code
 */
export function hasNumber(code) {
    return code < Code.recent;
}

// A frame names `$f` and `$e`, and a proof `$f` and assertions, each by numbers of its own. One list has both as *items*:
// the lowest bit of an item says which of the two it names, and the bits above it the number.

/**
 * The item of a `$f`.
 * @param {number} number
 */
export function floatingItem(number) {
    return 2 * number;
}

/**
 * The item of a `$e` in a frame, or of an assertion in a proof.
 * @param {number} number
 */
export function otherItem(number) {
    return 2 * number + 1;
}

/**
 * Whether an item is that of a `$f`.
 * @param {number} item
 */
export function isFloating(item) {
    return (item & 1) === 0;
}

/**
 * The number of what an item names.
 * @param {number} item
 */
export function numberOf(item) {
    return item >>> 1;
}

/**
 * The code of a step by its byte.
 * @param {number} byte
 */
export function codeOf(byte) {
    return byte >>> 1;
}

/**
 * Whether a step is repeated later, by its byte.
 * @param {number} byte
 */
export function isMarked(byte) {
    return (byte & 1) === 1;
}

/**
 * Whether a code says that a step is repeated.
 * @param {number} code
 */
export function isRepeated(code) {
    return code >= Code.far && code < Code.frequent;
}

/**
 * The kind of a typecode by its number among those of `$f`, or -1.
 * @param {number} code
 */
export function kindOf(code) {
    return code < 0 ? 0 : 1 + (code % (KINDS - 1));
}

/** The repeated steps of a kind that were last used or marked, the last one first. */
export class Recent {
    constructor() {
        this.items = new Uint32Array(RECENT);
        this.size = 0;
    }

    /**
     * Puts a step first. Returns where it was, or -1.
     * @param {number} item
     */
    use(item) {
        const { items, size } = this;
        let moved = item;
        for (let at = 0; at < size; at++) {
            const here = items[at];
            items[at] = moved;
            if (here === item) return at;
            moved = here;
        }
        if (size < RECENT) items[this.size++] = moved;
        return -1;
    }
}
