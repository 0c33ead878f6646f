/**
 * Counts a circuit as it is written, as `zxopt measures` of the Python package does: each gate stands for those of its
 * declaration, down to CX, H, NOT and phases, and `cz` for itself.
 */

import { add, evaluate, negated, sixteenths, turn } from "./angle.mjs";

/**
 * @typedef {import("./angle.mjs").Angle} Angle
 * @typedef {import("./circuit.mjs").Application} Application
 * @typedef {import("./circuit.mjs").Circuit} Circuit
 * @typedef {import("./circuit.mjs").Declaration} Declaration
 */

/**
 * @typedef {object} Counts
 * @property {number} t phases that are no multiple of pi/2
 * @property {number} tDepth the most of these on a path through the text
 * @property {number} twoQubit
 * @property {number} gates
 * @property {number} qubits
 */

/**
 * A lowered gate: whether it's a T, and its one or two qubits.
 *
 * @typedef {object} Step
 * @property {boolean} isT
 * @property {number[]} qubits
 */

/** @type {Step} */
const CLIFFORD = { isT: false, qubits: [0] };
/** @type {Step} */
const T = { isT: true, qubits: [0] };
/** @type {Step} */
const ON_TWO = { isT: false, qubits: [0, 1] };

/** What the gates of a circuit stand for. */
export class Lowering {
    /** @param {Circuit} circuit */
    constructor({ gates, includesHeader }) {
        this.gates = gates;
        /** Whether `cz` is the header's, which may not be declared again. */
        this.keepsCz = includesHeader;
        /** @type {Map<string, Step[]>} */
        this.known = new Map();
    }

    /**
     * The lowered gates of a gate with these angles.
     *
     * @param {string} name
     * @param {Angle[]} angles
     * @returns {Step[]}
     */
    steps(name, angles) {
        const key = [name, ...angles.map(({ turns, rest, over }) => `${turns},${rest},${over}`)].join(" ");
        const known = this.known.get(key) ?? this.lower(name, angles);
        this.known.set(key, known);
        return known;
    }

    /**
     * @param {string} name
     * @param {Angle[]} angles
     * @returns {Step[]}
     */
    lower(name, angles) {
        if (name === "U") return unitary(angles[0], angles[1], angles[2]);
        if (name === "CX" || (name === "cz" && this.keepsCz)) return [ON_TWO];
        const { parameters, qubits, body } = /** @type {Declaration} */ (this.gates.get(name));
        const values = new Map(parameters.map((parameter, at) => [parameter, angles[at]]));
        const numbers = new Map(qubits.map((qubit, at) => [qubit, at]));
        return body.flatMap((inner) => this.placed(inner, values, numbers));
    }

    /**
     * The lowered gates of an application in the body of a gate.
     *
     * @param {Application} inner
     * @param {Map<string, Angle>} values
     * @param {Map<string, number>} numbers
     * @returns {Step[]}
     */
    placed(inner, values, numbers) {
        const angles = inner.angles.map((angle) => evaluate(angle, values));
        const places = inner.places.map((place) => /** @type {number} */ (numbers.get(place)));
        const steps = this.steps(inner.name, angles);
        return steps.map(({ isT, qubits }) => ({ isT, qubits: qubits.map((at) => places[at]) }));
    }
}

/**
 * The phase gate of a sum of angles: none, a Clifford gate or a T.
 *
 * @param {...Angle} angles
 * @returns {Step[]}
 */
function phase(...angles) {
    const sum = sixteenths(angles.reduce(add));
    if (sum === 0) return [];
    return sum % 4 === 0 ? [CLIFFORD] : [T];
}

/**
 * U(theta, phi, lambda) by phases, H and NOT, as the program lowers it.
 *
 * @param {Angle} theta
 * @param {Angle} phi
 * @param {Angle} lambda
 * @returns {Step[]}
 */
function unitary(theta, phi, lambda) {
    const half = turn(8);
    switch (sixteenths(theta)) {
        case 0:
            return phase(phi, lambda);
        case 4:
            return [...phase(lambda, half), CLIFFORD, ...phase(phi)];
        case 8:
            return [...phase(lambda, negated(phi), half), CLIFFORD];
        case 12:
            return [...phase(lambda), CLIFFORD, ...phase(phi, half)];
        default:
            return [...phase(lambda, turn(-4)), CLIFFORD, ...phase(theta), CLIFFORD, ...phase(phi, turn(4))];
    }
}

/**
 * @param {Circuit} circuit
 * @param {Lowering} lowering
 * @returns {Counts}
 */
export function countCircuit(circuit, lowering) {
    const counts = { t: 0, tDepth: 0, twoQubit: 0, gates: 0, qubits: circuit.qubits.length };
    const depths = new Uint32Array(circuit.qubits.length);
    for (const { name, angles, qubits } of circuit.operations) {
        if (name === "measure" || name === "barrier") continue;
        const steps = lowering.steps(name, angles);
        counts.gates += steps.length;
        for (const step of steps) {
            const depth = Math.max(...step.qubits.map((at) => depths[qubits[at]])) + Number(step.isT);
            for (const at of step.qubits) depths[qubits[at]] = depth;
            counts.t += Number(step.isT);
            counts.twoQubit += Number(step.qubits.length === 2);
        }
    }
    counts.tDepth = depths.reduce((most, depth) => Math.max(most, depth), 0);
    return counts;
}
