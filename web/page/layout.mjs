/**
 * Where the gates of a short circuit stand in a picture: from left to right in columns, each as far left as those
 * before it on its qubits allow.
 */

/**
 * @typedef {import("./circuit.mjs").Circuit} Circuit
 * @typedef {import("./circuit.mjs").Operation} Operation
 * @typedef {import("./counts.mjs").Lowering} Lowering
 */

/**
 * One operation of a picture.
 *
 * @typedef {object} Mark
 * @property {number} column
 * @property {"gate" | "barrier"} kind
 * @property {number[]} controls the qubits with a dot
 * @property {number[]} targets the others
 * @property {string} label what stands at these: `+` for a NOT, `x` for a swap, or the words of a box
 * @property {boolean} isT whether it's a T gate, or another phase that is no multiple of pi/2
 * @property {string} written its statement
 */

/**
 * @typedef {object} Picture
 * @property {string[]} qubits
 * @property {number} columns
 * @property {Mark[]} marks
 */

const MOST_QUBITS = 12;
const MOST_COLUMNS = 60;
const LONGEST_LABEL = 12;

/** How many controls a gate has, and the label of its targets; without one it's a dot at each. */
const CONTROLLED = new Map(
    Object.entries({
        cx: [1, "+"], CX: [1, "+"], ccx: [2, "+"], cy: [1, "Y"], ch: [1, "H"], cz: [2, ""], ccz: [3, ""],
        swap: [0, "x"], cswap: [1, "x"], crx: [1, "Rx"], cry: [1, "Ry"], crz: [1, "Rz"], cp: [1, "P"], cu1: [1, "P"],
    }),
);

const LABELS = new Map(
    Object.entries({
        h: "H", x: "X", y: "Y", z: "Z", s: "S", sdg: "S†", t: "T", tdg: "T†", sx: "√X", sxdg: "√X†", id: "I",
        u1: "P", p: "P", rx: "Rx", ry: "Ry", rz: "Rz", measure: "M",
    }),
);

/**
 * The picture of a circuit, or null where there are too many qubits or columns for one.
 *
 * @param {Circuit} circuit
 * @param {Lowering} lowering
 * @returns {Picture | null}
 */
export function layOut(circuit, lowering) {
    if (circuit.qubits.length > MOST_QUBITS) return null;
    const free = circuit.qubits.map(() => 0);
    /** @type {Mark[]} */
    const marks = [];
    for (const operation of circuit.operations) {
        const rows = free.slice(Math.min(...operation.qubits), Math.max(...operation.qubits) + 1);
        const column = Math.max(...rows);
        if (column === MOST_COLUMNS) return null;
        free.fill(column + 1, Math.min(...operation.qubits), Math.max(...operation.qubits) + 1);
        marks.push(markOf(operation, column, lowering));
    }
    return { qubits: circuit.qubits, columns: Math.max(0, ...free), marks };
}

/**
 * @param {Operation} operation
 * @param {number} column
 * @param {Lowering} lowering
 * @returns {Mark}
 */
function markOf({ name, written, angles, qubits }, column, lowering) {
    const [controls, target] = CONTROLLED.get(name) ?? [0, LABELS.get(name) ?? name];
    const isPhase = qubits.length === 1 && name !== "measure" && name !== "barrier";
    return {
        column,
        kind: name === "barrier" ? "barrier" : "gate",
        controls: qubits.slice(0, Number(controls)),
        targets: qubits.slice(Number(controls)),
        label: labelled(String(target), written),
        isT: isPhase && lowering.steps(name, angles).some((step) => step.isT),
        written,
    };
}

/**
 * The words of a box, with the angles of its statement.
 *
 * @param {string} label
 * @param {string} written
 * @returns {string}
 */
function labelled(label, written) {
    const angles = /\((.*)\)/s.exec(written)?.[1].replace(/[\s*]/g, "").replace(/pi/g, "π");
    const whole = angles === undefined ? label : `${label}(${angles})`;
    return whole.length > LONGEST_LABEL ? `${whole.slice(0, LONGEST_LABEL - 1)}…` : whole;
}
