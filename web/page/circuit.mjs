/**
 * Reads the circuit of a text of OpenQASM 2.0 that zxopt has accepted or written, so that the page can count and draw
 * it. Nothing is checked, since such a text has no fault.
 */

import { evaluate } from "./angle.mjs";

/**
 * The application of a gate to qubits.
 *
 * @typedef {object} Application
 * @property {string} name
 * @property {string[]} angles as they are written
 * @property {string[]} places the names of its qubits
 */

/**
 * A gate that a text declares.
 *
 * @typedef {object} Declaration
 * @property {string[]} parameters
 * @property {string[]} qubits
 * @property {Application[]} body
 */

/**
 * Something that a circuit does, in the order of its text: a gate, a measurement or a barrier.
 *
 * @typedef {object} Operation
 * @property {string} name of a gate its name, or `measure` or `barrier`
 * @property {string} written the text of the statement
 * @property {import("./angle.mjs").Angle[]} angles
 * @property {number[]} qubits
 */

/**
 * @typedef {object} Circuit
 * @property {string[]} qubits their names
 * @property {Operation[]} operations
 * @property {Map<string, Declaration>} gates those that may be applied
 * @property {boolean} includesHeader
 */

const STATEMENT = /\s*(?:gate\s+(\w+)\s*(?:\(([^)]*)\))?([^{]*)\{([^}]*)\}|([^;]*);)/gy;
const REGISTER = /^qreg\s+(\w+)\s*\[\s*(\d+)\s*\]$/;
const APPLICATION = /^(\w+)\s*(?:\((.*)\))?([^()]*)$/s;

/**
 * @param {string} text
 * @param {string} header the declarations of the gates for which `include` stands
 * @returns {Circuit}
 */
export function readCircuit(text, header) {
    const circuit = new Reading(withoutComments(header));
    circuit.read(withoutComments(text));
    return circuit;
}

/** @param {string} text */
function withoutComments(text) {
    return text.replace(/\/\/[^\n]*/g, "");
}

/**
 * The parts between commas, of which there may be none.
 *
 * @param {string | undefined} text
 * @returns {string[]}
 */
function listed(text) {
    return text?.trim() ? text.split(",").map((part) => part.trim()) : [];
}

/**
 * @param {string} statement
 * @returns {Application}
 */
function application(statement) {
    const [, name, angles, places] = /** @type {RegExpExecArray} */ (APPLICATION.exec(statement));
    return { name, angles: listed(angles), places: listed(places) };
}

/** @implements {Circuit} */
class Reading {
    /** @param {string} header */
    constructor(header) {
        this.header = header;
        /** @type {string[]} */
        this.qubits = [];
        /** @type {Operation[]} */
        this.operations = [];
        /** @type {Map<string, Declaration>} */
        this.gates = new Map();
        this.includesHeader = false;
        /**
         * For each register the numbers of its qubits.
         *
         * @type {Map<string, number[]>}
         */
        this.registers = new Map();
    }

    /** @param {string} text */
    read(text) {
        for (const [, name, parameters, qubits, body, statement] of text.matchAll(STATEMENT)) {
            if (name !== undefined) this.declare(name, parameters, qubits, body);
            else this.add(statement.trim());
        }
    }

    /**
     * @param {string} name
     * @param {string | undefined} parameters
     * @param {string} qubits
     * @param {string} body
     */
    declare(name, parameters, qubits, body) {
        const statements = body.split(";").map((part) => part.trim());
        const applications = statements.filter((part) => part && !/^barrier\b/.test(part)).map(application);
        this.gates.set(name, { parameters: listed(parameters), qubits: listed(qubits), body: applications });
    }

    /** @param {string} statement */
    add(statement) {
        const register = REGISTER.exec(statement);
        if (register) this.addRegister(register[1], Number(register[2]));
        else if (/^include\b/.test(statement)) this.include();
        else if (!/^(OPENQASM|creg)\b/.test(statement)) this.apply(statement);
    }

    include() {
        this.includesHeader = true;
        this.read(this.header);
    }

    /**
     * @param {string} name
     * @param {number} size
     */
    addRegister(name, size) {
        const numbers = Array.from({ length: size }, (_, at) => this.qubits.length + at);
        this.registers.set(name, numbers);
        for (let at = 0; at < size; at++) this.qubits.push(`${name}[${at}]`);
    }

    /**
     * Adds a gate, a measurement or a barrier; where registers stand, it's applied to their qubits one by one.
     *
     * @param {string} statement
     */
    apply(statement) {
        const { name, angles, places } = application(statement.replace(/\s*->.*/s, ""));
        const registers = places.map((place) => this.numbers(place));
        const values = angles.map((angle) => evaluate(angle, new Map()));
        const add = (/** @type {number[]} */ qubits) =>
            this.operations.push({ name, written: statement, angles: values, qubits });
        if (name === "barrier") return add(registers.flat());
        const most = Math.max(...registers.map((numbers) => numbers.length));
        for (let at = 0; at < most; at++) {
            add(registers.map((numbers) => (numbers.length === 1 ? numbers[0] : numbers[at])));
        }
    }

    /**
     * The qubits for which a register or an indexed one stands.
     *
     * @param {string} place
     * @returns {number[]}
     */
    numbers(place) {
        const [name, index] = place.split("[");
        const numbers = /** @type {number[]} */ (this.registers.get(name.trim()));
        return index === undefined ? numbers : [numbers[parseInt(index)]];
    }
}
