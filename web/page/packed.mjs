/**
 * Unpacks the module that the page holds.
 */

/** The letters of base85, as Python has them, but for a comma that stands for `<`. */
const LETTERS = "0123456789ABCDEFGHIJKLMNOPQRSTUVWXYZabcdefghijklmnopqrstuvwxyz!#$%&()*+-;,=>?@^_`{|}~";

/**
 * @param {string} packed
 * @returns {Promise<WebAssembly.Module>}
 */
export async function unpackModule(packed) {
    const stream = new Blob([bytesOf(packed)]).stream().pipeThrough(new DecompressionStream("gzip"));
    return WebAssembly.compile(await new Response(stream).arrayBuffer());
}

/**
 * The bytes for which letters of base85 stand, four for each five; the last ones may be fewer.
 *
 * @param {string} letters
 * @returns {Uint8Array}
 */
function bytesOf(letters) {
    const values = new Map(Array.from(LETTERS, (letter, value) => [letter, value]));
    const missing = (5 - (letters.length % 5)) % 5;
    const whole = letters.padEnd(letters.length + missing, "~");
    const view = new DataView(new ArrayBuffer((whole.length / 5) * 4));
    for (let at = 0; at < whole.length; at += 5) {
        let word = 0;
        for (let next = at; next < at + 5; next++) word = word * 85 + Number(values.get(whole[next]));
        view.setUint32((at / 5) * 4, word);
    }
    return new Uint8Array(view.buffer, 0, view.byteLength - missing);
}
