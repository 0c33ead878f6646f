/**
 * Compares the module's answers with those that are wanted, and tries it where memory is little and where it's used
 * often. Usage: node --expose-gc calls.mjs VERSION MODULE CASES HEADER [LITTLE]
 *
 * MODULE is the module of this version, CASES the cases with the wanted answers as JSON, HEADER the file of the
 * header's gates, and LITTLE the same module with 4 MiB of memory at most. Each fault is told by a line that begins with
 * FAILED; the last line is `N passed, M failed`.
 */

import assert from "node:assert/strict";
import { readFile } from "node:fs/promises";
import { STATUS, load } from "../../web/zxopt.mjs";
import { readCircuit } from "../../web/page/circuit.mjs";
import { Lowering, countCircuit } from "../../web/page/counts.mjs";
import { placeOf } from "../../web/page/fault.mjs";
import { readFragment, writeFragment } from "../../web/page/link.mjs";

const [version, moduleFile, casesFile, headerFile, littleFile] = process.argv.slice(2);
const zxopt = await load(await readFile(moduleFile));
const header = await readFile(headerFile, "utf-8");
const cases = JSON.parse(await readFile(casesFile, "utf-8"));
const HEAD = 'OPENQASM 2.0;\ninclude "qelib1.inc";\n';
let [passed, failed] = [0, 0];

/**
 * Counts a check, which fails where it throws.
 *
 * @param {string} name
 * @param {() => void | Promise<void>} check
 */
async function holds(name, check) {
    try {
        await check();
        passed++;
    } catch (error) {
        failed++;
        console.log(`FAILED: ${name}: ${error}`);
    }
}

/**
 * A circuit of so many gates on 50 qubits, the same each time.
 *
 * @param {number} gates
 */
function longCircuit(gates) {
    const lines = [`${HEAD}qreg q[50];`];
    for (let at = 0; at < gates; at++) {
        const [one, other] = [(at * 7) % 50, (at * 11 + 3) % 50];
        lines.push(at % 3 === 0 && one !== other ? `cx q[${one}],q[${other}];` : `${at % 2 ? "h" : "t"} q[${one}];`);
    }
    return lines.join("\n");
}

for (const { call, flags, text, counts, ...wanted } of cases) {
    const bytes = new Uint8Array(Buffer.from(text, "base64"));
    const name = `${call} ${Object.keys(flags)} of ${JSON.stringify(Buffer.from(bytes).toString())}`;
    const { text: output, ...told } = zxopt[call](bytes, flags);
    await holds(name, () => assert.deepEqual({ ...told, output }, wanted));
    if (!counts) continue;
    await holds(`the counts of ${name}`, () => {
        const circuits = [Buffer.from(bytes).toString(), output].map((it) => readCircuit(it, header));
        assert.deepEqual(circuits.map((circuit) => countCircuit(circuit, new Lowering(circuit))), counts);
    });
}

await holds("the version", () => assert.equal(zxopt.version(), version));

await holds("a text may be a string", () => {
    assert.equal(zxopt.optimise(`${HEAD}qreg q[1];\nt q[0];\nt q[0];`).text, `${HEAD}qreg q[1];\ns q[0];\n`);
});

await holds("what is written has room, however long it is", () => {
    // (a row of NOTs on a register is a short text, and a long one where they are written one by one)
    const { status, text } = zxopt.optimise(`${HEAD}qreg q[1000];\nx q;`);
    assert.equal(status, STATUS.DONE);
    assert.equal(text.match(/x q/g)?.length, 1000);
    assert.ok(text.length > 2 * 4096);
});

await holds("a text that is too long is refused", () => {
    const refused = { status: STATUS.REFUSED, text: "", fault: 1, place: 0 };
    assert.deepEqual(zxopt.optimise(new Uint8Array(16_777_217)), refused);
});

await holds("memory is given back after each run", () => {
    const circuit = longCircuit(10_000);
    const kept = () => {
        // (what the first of them finds unused is given back by the second)
        globalThis.gc();
        globalThis.gc();
        return process.memoryUsage().arrayBuffers + process.memoryUsage().external;
    };
    zxopt.optimise(circuit);
    const before = kept();
    for (let run = 0; run < 8; run++) zxopt.optimise(circuit);
    const more = Math.min(kept(), kept()) - before;
    assert.ok(more < 4_000_000, `${more} bytes are kept`);
});

if (littleFile) {
    const little = await load(await readFile(littleFile));
    await holds("with little memory a small circuit is done", () => {
        assert.equal(little.optimise(`${HEAD}qreg q[1];\nt q[0];`).status, STATUS.DONE);
    });
    for (const gates of [30_000, 40_000, 300_000]) {
        await holds(`with little memory ${gates} gates are too many, and don't trap`, () => {
            const text = longCircuit(gates);
            const answers = [little.optimise(text), little.optimise(text, { best: true }), little.teleport(text)];
            answers.push(little.same(`${text}\n//// second\n${text}`));
            for (const answer of answers) assert.deepEqual(answer, { ...answer, status: STATUS.NO_MEMORY, text: "" });
        });
    }
}

await holds("a fault's place in letters, behind others of more bytes", () => {
    const text = "// ä𝄞\nOPENQASM 2.0;\nreset q;\n";
    const { fault, place } = zxopt.optimise(text);
    const from = text.indexOf("reset");
    assert.deepEqual(placeOf(text, fault, place), { from, to: from + 8, line: 3, column: 1 });
});

await holds("a fault's place that is a line", () => {
    const text = "zxd 2\nspider 0 Z 99\nend\n";
    const { fault, place } = zxopt.graph(text);
    assert.deepEqual(placeOf(text, fault, place), { from: 6, to: 19, line: 2, column: 1 });
});

await holds("what a link has is read again", async () => {
    const linked = { command: "same", flags: ["best"], text: `${HEAD}// ä𝄞 &#+%\nqreg q[1];`, second: "x" };
    assert.deepEqual(await readFragment(await writeFragment(linked)), linked);
});

await holds("a link by hand", async () => {
    const read = await readFragment("#text=OPENQASM%202.0;");
    assert.deepEqual(read, { command: "optimise", flags: null, text: "OPENQASM 2.0;", second: "" });
    assert.equal(await readFragment("#about"), null);
});

console.log(`${passed} passed, ${failed} failed`);
process.exitCode = failed ? 1 : 0;
