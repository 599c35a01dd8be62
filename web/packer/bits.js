// The bits of numbers and of rows: column c of a row is bit c % 32 of its number c / 32.

/**
 * The place of the lowest bit that a number has.
 * @param {number} bits
 */
export function lowestOf(bits) {
    return 31 - Math.clz32(bits & -bits);
}

/**
 * The columns whose bits a row has, rising.
 * @param {Uint32Array} row
 */
export function columnsIn(row) {
    const columns = [];
    for (let word = 0; word < row.length; word++) {
        for (let bits = row[word]; bits !== 0; bits &= bits - 1) columns.push(word * 32 + lowestOf(bits));
    }
    return columns;
}
