/**
 * The worker of the page: makes one call, tells its answer, and then counts and lays out the circuits.
 */

import { STATUS, Zxopt } from "../zxopt.mjs";
import { readCircuit } from "./circuit.mjs";
import { Lowering, countCircuit } from "./counts.mjs";
import { layOut } from "./layout.mjs";

/**
 * What the page asks for.
 *
 * @typedef {object} Request
 * @property {WebAssembly.Module} module
 * @property {Command} command
 * @property {{ best?: boolean, report?: boolean, scalar?: boolean }} flags
 * @property {string} text what the call reads
 * @property {[string, string][]} read the circuits in it, each with a name
 * @property {string} header the declarations for which `include` stands
 */

/** @typedef {"optimise" | "teleport" | "same" | "compile" | "graph" | "reduce" | "flow"} Command */

/**
 * A circuit with its name, its counts and, where it's short, its picture.
 *
 * @typedef {object} Seen
 * @property {string} name
 * @property {import("./counts.mjs").Counts} counts
 * @property {import("./layout.mjs").Picture | null} picture
 */

/**
 * What the page is told of a call: how it ended, and what it answered.
 *
 * @typedef {object} Told
 * @property {"done" | "no" | "refused" | "no memory"} ended
 * @property {import("../zxopt.mjs").Answer} answer
 */

/** The commands that write a circuit. */
const WRITING = ["optimise", "teleport", "compile"];

/** @type {Record<number, Told["ended"]>} */
const ENDS = {
    [STATUS.DONE]: "done",
    [STATUS.NO]: "no",
    [STATUS.REFUSED]: "refused",
    [STATUS.NO_MEMORY]: "no memory",
};

/**
 * @param {string} name
 * @param {string} text
 * @param {string} header
 * @returns {Seen}
 */
function see(name, text, header) {
    const circuit = readCircuit(text, header);
    const lowering = new Lowering(circuit);
    return { name, counts: countCircuit(circuit, lowering), picture: layOut(circuit, lowering) };
}

self.onmessage = ({ data }) => {
    /** @type {Request} */
    const { module, command, flags, text, read, header } = data;
    const answer = new Zxopt(module)[command](text, flags);
    const ended = ENDS[answer.status];
    self.postMessage({ told: { ended, answer } });
    const circuits = ended === "done" || ended === "no" ? [...read] : [];
    if (ended === "done" && WRITING.includes(command)) circuits.push(["written", answer.text]);
    self.postMessage({ circuits: circuits.map(([name, circuit]) => see(name, circuit, header)) });
};
