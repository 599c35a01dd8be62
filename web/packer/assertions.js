// What the blocks `kinds` and `flags` say of each assertion: packer and view share these numbers.

/** What an assertion is: a theorem, or an axiom or open theorem with a column of its own or without one. */
export const Kind = { theorem: 0, column: 1, otherAxiom: 2, openColumn: 3, otherOpen: 4 };

/** What the comment of an assertion says, as bits: that new usage or modification of the proof is discouraged, or anything. */
export const Flag = { usage: 1, modification: 2, comment: 4 };
