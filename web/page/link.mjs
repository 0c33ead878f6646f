/**
 * The fragment of the page's address: a command, its flags and texts. So a circuit can be linked, and no server sees
 * it.
 *
 *     #command=optimise&flags=best,scalar&text=OPENQASM 2.0; ..      texts as they are, percent-encoded
 *     #command=same&packed=..&packedSecond=..                        texts packed, as the page writes them
 */

/**
 * @typedef {object} Linked
 * @property {string} command
 * @property {string[] | null} flags those of `opt` that are set, or null where none are told
 * @property {string} text
 * @property {string} second the second text, of a comparison
 */

/**
 * @param {Linked} linked
 * @returns {Promise<string>}
 */
export async function writeFragment({ command, flags, text, second }) {
    const parts = new URLSearchParams({ command });
    if (flags) parts.set("flags", flags.join(","));
    parts.set("packed", await pack(text));
    if (second) parts.set("packedSecond", await pack(second));
    return `#${parts}`;
}

/**
 * What a fragment links, or null where it links nothing.
 *
 * @param {string} fragment
 * @returns {Promise<Linked | null>}
 */
export async function readFragment(fragment) {
    const parts = new URLSearchParams(fragment.slice(1));
    const read = async (/** @type {string} */ plain, /** @type {string} */ packed) =>
        parts.get(plain) ?? (await unpack(parts.get(packed) ?? ""));
    if (!parts.has("command") && !parts.has("text") && !parts.has("packed")) return null;
    return {
        command: parts.get("command") ?? "optimise",
        flags: parts.get("flags")?.split(",") ?? null,
        text: await read("text", "packed"),
        second: await read("second", "packedSecond"),
    };
}

/**
 * A text as the letters of base64 that may stand in an address.
 *
 * @param {string} text
 * @returns {Promise<string>}
 */
async function pack(text) {
    const stream = new Blob([text]).stream().pipeThrough(new CompressionStream("deflate-raw"));
    const bytes = new Uint8Array(await new Response(stream).arrayBuffer());
    const letters = btoa(Array.from(bytes, (byte) => String.fromCharCode(byte)).join(""));
    return letters.replace(/\+/g, "-").replace(/\//g, "_").replace(/=/g, "");
}

/**
 * @param {string} letters
 * @returns {Promise<string>}
 */
async function unpack(letters) {
    if (!letters) return "";
    const bytes = Uint8Array.from(atob(letters.replace(/-/g, "+").replace(/_/g, "/")), (it) => it.charCodeAt(0));
    return new Response(new Blob([bytes]).stream().pipeThrough(new DecompressionStream("deflate-raw"))).text();
}
