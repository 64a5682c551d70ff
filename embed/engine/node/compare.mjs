// node compare.mjs FOLDER : instantiates each program of the folder that examples/dump.rs wrote,
// and compares every byte, cell and global that it exports with what the allocator's instance held.
// Start functions are left out of the modules, since the allocator runs no code.
import { readFileSync, readdirSync } from "node:fs";
import { join } from "node:path";

const folder = process.argv[2];
const START = 8;

/** A module without its start section. */
function without_start(bytes) {
    const kept = [bytes.subarray(0, 8)];
    for (let at = 8; at < bytes.length; ) {
        let end = at + 1;
        let size = 0;
        for (let shift = 0; ; shift += 7) {
            const byte = bytes[end++];
            size += (byte & 127) * 2 ** shift;
            if (byte < 128) break;
        }
        end += size;
        if (bytes[at] !== START) kept.push(bytes.subarray(at, end));
        at = end;
    }
    return Buffer.concat(kept);
}

/** The instances of the hosts, and that of the program behind them. */
function instances(name, names) {
    const made = [];
    const imports = {};
    for (let number = 0; number <= names.length; number++) {
        const bytes = without_start(readFileSync(join(folder, `${name}.${number}.wasm`)));
        const instance = new WebAssembly.Instance(new WebAssembly.Module(bytes), number < names.length ? {} : imports);
        made.push(instance);
        if (number < names.length) imports[names[number]] = instance.exports;
    }
    return made;
}

/** Of a cell the number of the function's module and its index there. A host exports each of its
 * functions. */
function shown(cell, made) {
    if (cell === null) return "null";
    const host = made.slice(0, -1).findIndex((one) => Object.values(one.exports).includes(cell));
    return `[${host < 0 ? made.length - 1 : host},${cell.name}]`;
}

/** What of a line differs, if anything. */
function difference(line, made) {
    const entity = made[line.module].exports[line.export];
    if (line.memory !== undefined) {
        return Buffer.from(entity.buffer).equals(readFileSync(join(folder, line.memory))) ? "" : "bytes differ";
    }
    if (line.cells !== undefined) {
        const held = Array.from({ length: entity.length }, (_, place) => shown(entity.get(place), made)).join();
        const wanted = line.cells.map((cell) => (cell ? `[${cell}]` : "null")).join();
        return held === wanted ? "" : `${held} for ${wanted}`;
    }
    const bits = BigInt.asUintN(typeof entity.value === "bigint" ? 64 : 32, BigInt(entity.value));
    return bits === BigInt(line.bits) ? "" : `${bits} for ${line.bits}`;
}

let compared = 0;
let failed = 0;
const files = readdirSync(folder).filter((file) => file.endsWith(".json"));
for (const file of files) {
    const name = file.slice(0, -".json".length);
    const { names, holds } = JSON.parse(readFileSync(join(folder, file)));
    const made = instances(name, names);
    for (const line of holds) {
        const said = difference(line, made);
        compared++;
        if (said) {
            failed++;
            console.log(`${name}: module ${line.module}, ${line.export}: ${said}`);
        }
    }
}
console.log(`${files.length} programs: ${compared} memories, tables and globals compared, ${failed} differ`);
process.exit(failed || !files.length ? 1 : 0);
