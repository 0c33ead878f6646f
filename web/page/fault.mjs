/**
 * Where a fault is in a text.
 */

/**
 * @typedef {object} Place
 * @property {number} from the first letter that is marked, a place in the string
 * @property {number} to behind the last one
 * @property {number} line from 1
 * @property {number} column from 1
 */

/** The fault whose place is a line, and those that have no place. */
const BAD_LINE = 21;
const WITHOUT_PLACE = [1, 4, 25, 26];

/**
 * Where a fault is, from the byte or the line that the program tells; null where it has no place.
 *
 * @param {string} text
 * @param {number} fault
 * @param {number} place
 * @returns {Place | null}
 */
export function placeOf(text, fault, place) {
    if (WITHOUT_PLACE.includes(fault)) return null;
    const from = fault === BAD_LINE ? beginOfLine(text, place) : beginAtByte(text, place);
    const before = text.slice(0, from);
    const line = before.split("\n").length;
    const rest = /^[^\n;]*;?/.exec(text.slice(from))?.[0] ?? "";
    const column = from - before.lastIndexOf("\n");
    return { from, to: from + (fault === BAD_LINE ? lengthOfLine(text, from) : rest.length), line, column };
}

/**
 * @param {string} text
 * @param {number} line
 * @returns {number}
 */
function beginOfLine(text, line) {
    const before = text.split("\n").slice(0, line - 1);
    return Math.min(text.length, before.reduce((sum, one) => sum + one.length + 1, 0));
}

/**
 * @param {string} text
 * @param {number} from
 * @returns {number}
 */
function lengthOfLine(text, from) {
    const end = text.indexOf("\n", from);
    return (end < 0 ? text.length : end) - from;
}

/**
 * @param {string} text
 * @param {number} place
 * @returns {number}
 */
function beginAtByte(text, place) {
    const before = new TextEncoder().encode(text).subarray(0, place);
    return new TextDecoder("utf-8", { ignoreBOM: true }).decode(before).length;
}
