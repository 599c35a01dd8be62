// The shapes of what the page reads, for who reads or checks its scripts.

/**
 * What the page says of its making and of the database, from the block `facts`.
 * @typedef {object} Facts
 * @property {string} title
 * @property {string} file
 * @property {number} bytes
 * @property {string | null} sha256 of the text, where it is known
 * @property {string} maker
 * @property {string | null} only the typecode of the axioms, or null for all
 * @property {boolean} essential
 * @property {boolean} open
 * @property {string[]} watched labels of axioms
 * @property {number} hypotheses how many `$e` statements there are
 * @property {number} commentsInBlock how many comments are in a block
 * @property {[number, string, string, number, number][]} chapters level, number, title, first assertion, end
 * @property {[string, string][]} variables each with its typecode
 * @property {[string, Piece[]][]} symbols how each is shown
 * @property {string[]} alike symbols that look like one that comes earlier
 * @property {Piece[]} legend the classes of variables, in their colours
 * @property {string | null} bibliography the address of the page that explains references
 */

/**
 * A stretch of text and the names of the tags around it, separated by spaces.
 * @typedef {[string, string]} Piece
 */

/**
 * A heading of the file: it has the assertions from `first` to `end`, those of lower headings included.
 * @typedef {object} Chapter
 * @property {number} index
 * @property {number} level
 * @property {string} number
 * @property {string} title
 * @property {number} first
 * @property {number} end
 * @property {number} parent its index, or -1
 * @property {number[]} children their indices
 */

/**
 * A stretch of the file between headings, with the rows of its theorems.
 * @typedef {object} Stretch
 * @property {string} title
 * @property {string[]} path the titles down to it
 * @property {number} chapter its index, or -1 before the first heading
 * @property {number} first
 * @property {number} end
 * @property {number} firstRow
 * @property {number} endRow
 * @property {number} theorems
 */

/**
 * The conditions of distinct variables of an assertion.
 * @typedef {object} Conditions
 * @property {string[][]} groups the variables of each group must be distinct from one another
 * @property {string[]} dummies variables that only the proof has
 * @property {string[][]} proofGroups each a dummy variable and those from which it must be distinct; none if `areAll`
 * @property {boolean} areAll each dummy variable must be distinct from all other variables
 */

/**
 * What was found for an assertion.
 * @typedef {object} Found
 * @property {number} number
 * @property {"label" | "formula" | "comment"} where
 */

/**
 * What is new, gone and renamed since an older release, from the block `against`.
 * @typedef {object} Difference
 * @property {string} name
 * @property {number[]} added
 * @property {number[]} changed
 * @property {[number, string][]} renamed each with its label before
 * @property {[string, string, number, string][]} goneAxioms label, formula, chapter or -1, title of the chapter
 * @property {[string, string, number, string][]} goneTheorems
 * @property {[number, [number, number, number][]][]} gained axiom; theorems, what cites and is cited anew
 * @property {[string, number, [number, string, string][]][]} lost axiom, its number or -1; theorems, what cited
 */

export {};
