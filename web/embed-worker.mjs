/**
 * The worker of embed.html: optimises the circuits that it's sent.
 */

import { STATUS, load } from "./zxopt.mjs";

const loading = load(fetch("zxopt.wasm"));

self.onmessage = async ({ data: text }) => {
    const zxopt = await loading;
    const { status, text: written, fault, place } = zxopt.optimise(text, { best: true });
    self.postMessage(status === STATUS.DONE ? written : `status ${status}, fault ${fault} at ${place}`);
};
