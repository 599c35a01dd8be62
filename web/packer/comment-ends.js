// What ends paragraphs and lines in packed comments: comments.js writes these signs, and markup.js of the view reads
// them. Both are white space of one byte, by which the view separates words, and no line feed, which ends a comment.

/** Stands between two paragraphs. */
export const PARAGRAPH_END = "\f";
/** Stands between two lines of preformatted text. */
export const LINE_END = "\v";
