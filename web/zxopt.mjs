/**
 * The calls of zxopt for JavaScript: in node, in a worker, in any page.
 *
 *     import { load } from "./zxopt.mjs";
 *     const zxopt = await load(fetch("zxopt.wasm"));
 *     const answer = zxopt.optimise(text, { best: true });
 *     if (answer.status === STATUS.DONE) console.log(answer.text);
 *
 * A call takes the thread until it ends, so a page makes it in a worker. Each call has an instance of its own, whose
 * memory is given back once the call has ended. The module is tested against the proved program, and not proved itself.
 */

/** How a call ended: the exit statuses of the program. */
export const STATUS = Object.freeze({ DONE: 0, REFUSED: 1, NO_MEMORY: 5, NO: 6 });

/** The status of a call that had too little room for what it writes. */
const NO_ROOM = 8;

/** The bytes of what a call tells besides: a length and a place of eight bytes each, and the number of a fault. */
const TOLD_BYTES = 24;

/**
 * What a call answers.
 *
 * @typedef {object} Answer
 * @property {number} status one of `STATUS`; where the answer is no, the text says why
 * @property {string} text what was written; nothing where the text was refused or memory ran out
 * @property {number} fault the number of the first fault, or 0 where there is none
 * @property {number} place where that is: a byte of the text from 0, or of fault 21 a line from 1
 */

/**
 * The module's calls. Each takes a text, as a string or as its bytes in UTF-8.
 */
export class Zxopt {
    /** @param {WebAssembly.Module} module */
    constructor(module) {
        this.module = module;
    }

    /**
     * Optimises a circuit: `zxopt opt`.
     *
     * @param {string | Uint8Array} text
     * @param {{ best?: boolean, report?: boolean, scalar?: boolean }} [flags]
     * @returns {Answer}
     */
    optimise(text, flags = {}) {
        const { best = false, report = false, scalar = false } = flags;
        return call(this.module, "zxopt_optimise", text, [best, report, scalar]);
    }

    /**
     * Changes phases alone: `zxopt teleport`.
     *
     * @param {string | Uint8Array} text
     * @returns {Answer}
     */
    teleport(text) {
        return call(this.module, "zxopt_teleport", text);
    }

    /**
     * Compares two circuits, with the line `//// second` between them: `zxopt same`.
     *
     * @param {string | Uint8Array} text
     * @returns {Answer}
     */
    same(text) {
        return call(this.module, "zxopt_same", text);
    }

    /**
     * Finds a circuit for a diagram file: `zxopt compile`.
     *
     * @param {string | Uint8Array} text
     * @returns {Answer}
     */
    compile(text) {
        return call(this.module, "zxopt_compile", text);
    }

    /**
     * Writes the graph-like form of a diagram file: `zxopt graph`.
     *
     * @param {string | Uint8Array} text
     * @returns {Answer}
     */
    graph(text) {
        return call(this.module, "zxopt_graph", text);
    }

    /**
     * Simplifies a graph file along its flow: `zxopt reduce`.
     *
     * @param {string | Uint8Array} text
     * @returns {Answer}
     */
    reduce(text) {
        return call(this.module, "zxopt_reduce", text);
    }

    /**
     * Tells whether the table of a graph file is a flow: `zxopt flow`.
     *
     * @param {string | Uint8Array} text
     * @returns {Answer}
     */
    flow(text) {
        return call(this.module, "zxopt_flow", text);
    }

    /**
     * The version, such as "1.0.0".
     *
     * @returns {string}
     */
    version() {
        const number = exportsOf(this.module).zxopt_version();
        return [number / 10000, (number / 100) % 100, number % 100].map(Math.floor).join(".");
    }
}

/**
 * Loads the module from its bytes, or from the response to a request for them; also where these are yet to come.
 *
 * @param {BufferSource | Response | Promise<BufferSource | Response>} source
 * @returns {Promise<Zxopt>}
 */
export async function load(source) {
    const found = await source;
    const bytes = "arrayBuffer" in found ? await found.arrayBuffer() : found;
    return new Zxopt(await WebAssembly.compile(bytes));
}

/**
 * Makes an instance, which imports nothing: so it can call nothing, and only its own memory changes.
 *
 * @param {WebAssembly.Module} module
 * @returns {any}
 */
function exportsOf(module) {
    return new WebAssembly.Instance(module).exports;
}

/**
 * Makes a call, and once more with enough room where there was too little.
 *
 * @param {WebAssembly.Module} module
 * @param {string} name
 * @param {string | Uint8Array} text
 * @param {boolean[]} flags
 * @returns {Answer}
 */
function call(module, name, text, flags = []) {
    const instance = exportsOf(module);
    const bytes = typeof text === "string" ? new TextEncoder().encode(text) : text;
    // (an address is a signed number of 32 bits where it leaves the module)
    const take = (/** @type {number} */ length) => instance.take(BigInt(length)) >>> 0;
    const read = take(bytes.length);
    const told = take(TOLD_BYTES);
    let room = 2 * bytes.length + 4096;
    let written = take(room);
    if (!read || !told || !written) return unwritten(STATUS.NO_MEMORY);
    new Uint8Array(instance.memory.buffer).set(bytes, read);
    for (;;) {
        // (of the status the low byte counts alone)
        const status = instance[name](...flags, read, BigInt(bytes.length), written, BigInt(room), told) & 0xff;
        const [length, place, fault] = toldAt(instance.memory, told);
        if (status !== NO_ROOM) {
            return { status, text: decode(new Uint8Array(instance.memory.buffer, written, length)), fault, place };
        }
        instance.give(written);
        room = length;
        written = take(room);
        if (!written) return unwritten(STATUS.NO_MEMORY);
    }
}

/**
 * @param {number} status
 * @returns {Answer}
 */
function unwritten(status) {
    return { status, text: "", fault: 0, place: 0 };
}

/**
 * What a call told: the length of what it writes, and place and number of a fault.
 *
 * @param {WebAssembly.Memory} memory
 * @param {number} told
 * @returns {[number, number, number]}
 */
function toldAt(memory, told) {
    const view = new DataView(memory.buffer, told, TOLD_BYTES);
    return [Number(view.getBigUint64(0, true)), Number(view.getBigUint64(8, true)), view.getUint8(16)];
}

/**
 * @param {Uint8Array} bytes
 * @returns {string}
 */
function decode(bytes) {
    return new TextDecoder().decode(bytes);
}
