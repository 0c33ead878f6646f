/**
 * Exact values of the angles in a text of OpenQASM 2.0: numbers, pi, parameters, + - * / and parentheses.
 */

/**
 * The angle (pi * `turns` + `rest`) / `over`.
 *
 * @typedef {object} Angle
 * @property {bigint} turns
 * @property {bigint} rest
 * @property {bigint} over
 */

const TOKEN = /\s*(\d+\.?\d*(?:[eE][-+]?\d+)?|\.\d+(?:[eE][-+]?\d+)?|\w+|[-+*/()])/gy;

/** @type {Angle} */
const PI = { turns: 1n, rest: 0n, over: 1n };

/**
 * The value of an expression.
 *
 * @param {string} text
 * @param {Map<string, Angle>} parameters
 * @returns {Angle}
 */
export function evaluate(text, parameters) {
    const tokens = Array.from(text.matchAll(TOKEN), (found) => found[1]);
    let at = 0;

    /** @returns {Angle} */
    function sum() {
        let value = product();
        while (tokens[at] === "+" || tokens[at] === "-") {
            value = tokens[at++] === "+" ? add(value, product()) : add(value, negated(product()));
        }
        return value;
    }

    /** @returns {Angle} */
    function product() {
        let value = factor();
        while (tokens[at] === "*" || tokens[at] === "/") {
            value = tokens[at++] === "*" ? multiply(value, factor()) : multiply(value, inverse(factor()));
        }
        return value;
    }

    /** @returns {Angle} */
    function factor() {
        const token = tokens[at++];
        if (token === "-") return negated(factor());
        if (token === "pi") return PI;
        if (/^[\d.]/.test(token)) return number(token);
        if (token !== "(") return /** @type {Angle} */ (parameters.get(token));
        const value = sum();
        at++;
        return value;
    }

    return sum();
}

/**
 * @param {string} text
 * @returns {Angle}
 */
function number(text) {
    const [digits, exponent = "0"] = text.toLowerCase().split("e");
    const [whole, part = ""] = digits.split(".");
    const places = part.length - Number(exponent);
    const scale = (/** @type {number} */ by) => 10n ** BigInt(Math.max(by, 0));
    return { turns: 0n, rest: BigInt(whole + part) * scale(-places), over: scale(places) };
}

/**
 * @param {Angle} one
 * @param {Angle} other
 * @returns {Angle}
 */
export function add(one, other) {
    return {
        turns: one.turns * other.over + other.turns * one.over,
        rest: one.rest * other.over + other.rest * one.over,
        over: one.over * other.over,
    };
}

/**
 * @param {Angle} angle
 * @returns {Angle}
 */
export function negated({ turns, rest, over }) {
    return { turns: -turns, rest: -rest, over };
}

/**
 * The product of two values of which one is a number: a text that multiplies pi by pi is refused.
 *
 * @param {Angle} one
 * @param {Angle} other
 * @returns {Angle}
 */
function multiply(one, other) {
    return {
        turns: one.turns * other.rest + one.rest * other.turns,
        rest: one.rest * other.rest,
        over: one.over * other.over,
    };
}

/**
 * The inverse of a number: a text that divides by pi is refused.
 *
 * @param {Angle} angle
 * @returns {Angle}
 */
function inverse({ rest, over }) {
    return { turns: 0n, rest: over, over: rest };
}

/**
 * So many sixteenth turns.
 *
 * @param {number} sixteenths
 * @returns {Angle}
 */
export function turn(sixteenths) {
    return { turns: BigInt(sixteenths), rest: 0n, over: 8n };
}

/**
 * An angle in sixteenth turns, from 0 to 15.
 *
 * @param {Angle} angle
 * @returns {number}
 */
export function sixteenths({ turns, over }) {
    return Number((((8n * turns) / over) % 16n) + 16n) % 16;
}
