// Texts from outside without signs that no screen shows.

/**
 * Control bytes, what Unicode lets a screen pass over, signs of format, ends of lines, a pattern of no dots, halves of
 * signs, and what is no sign.
 */
const UNSEEN = /[\p{Cc}\p{Default_Ignorable_Code_Point}\p{Cf}\p{Zl}\p{Zp}\u2800\p{Cs}\ufff0-\uffff]/gu;

/**
 * The text with every sign that no screen shows, or that turns the direction of others, replaced by one for it.
 * @param {string} text
 */
export function visible(text) {
    return text.replace(UNSEEN, (sign) => signFor(/** @type {number} */ (sign.codePointAt(0))));
}

/**
 * What is shown in place of a sign that isn't seen.
 * @param {number} number
 */
function signFor(number) {
    if (number < 0x20) return String.fromCharCode(0x2400 + number);
    return number === 0x7f ? "\u2421" : "\ufffd";
}
