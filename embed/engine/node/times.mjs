// node --expose-gc times.mjs FILE : how long node's engine takes for an instance of a module that
// is compiled, with so many pages of its memory written after that. The time is the middle one;
// collecting is not counted.
import { readFileSync } from "node:fs";

const PAGE = 4096;
const module = await WebAssembly.compile(readFileSync(process.argv[2]));

async function instance(pages) {
    const begun = process.hrtime.bigint();
    const { exports } = await WebAssembly.instantiate(module);
    const bytes = new Uint8Array(exports.memory.buffer);
    for (let page = 0; page < pages; page++) bytes[page * PAGE]++;
    return Number(process.hrtime.bigint() - begun) / 1000;
}

for (const pages of [0, 16, 256, 4096]) {
    const times = [];
    for (let round = 0; round < 41; round++) {
        times.push(await instance(pages));
        globalThis.gc?.();
    }
    times.sort((one, other) => one - other);
    console.log(`node ${process.version}: an instance, ${pages} pages written: ${times[20].toFixed(1)} us`);
}
