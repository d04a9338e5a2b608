// node memory.mjs PACKAGE, and in a page: memory is refused at each growth of it in turn. A call that gets none throws a NoMemoryError, what there was
// stays as it was, and the next call is answered rightly.
import { is_same, package_, read } from "./here.mjs";

const { errors, loadSync } = await import(`${package_}/pcidr.js`);
const whole = await read(`${package_}/pcidr.wasm`);

/** A number of the binary format, and how many bytes it has. */
function leb(at) {
    let n = 0, i = 0;
    do n |= (whole[at + i] & 127) << (7 * i); while (whole[at + i++] & 128);
    return [n, i];
}
const asLeb = (n) => (n < 128 ? [n] : [(n & 127) | 128, ...asLeb(n >>> 7)]);
/** The module with a memory that it is given in place of its own, so that it is compiled once; and how many pages that has at first. */
function withGivenMemory() {
    const parts = [whole.subarray(0, 8)];
    let least;
    for (let at = 8; at < whole.length; ) {
        const [size, width] = leb(at + 1), begin = at + 1 + width, next = begin + size;
        if (whole[at] === 2) throw new Error("the module imports something");
        if (whole[at] === 5) least = leb(begin + 2)[0];
        else parts.push(whole.subarray(at, next));
        if (whole[at] === 1) parts.push(null);
        at = next;
    }
    // an import: the module "m", the name "m", a memory of at least so many pages
    const given = [1, 1, 109, 1, 109, 2, 0, ...asLeb(least)];
    return [new WebAssembly.Module(Uint8Array.from(parts.flatMap((part) => [...(part ?? [2, ...asLeb(given.length), ...given])]))), least];
}
const [module, least] = withGivenMemory();
let most, memory; // how many pages the memory may have, and the last one
WebAssembly.Instance = class extends WebAssembly.Instance {
    constructor(compiled) {
        memory = new WebAssembly.Memory({ initial: least, maximum: most });
        super(compiled, { m: { m: memory } });
    }
};
/** Its classes, with a memory of at most so many pages more than it begins with. */
function limited(more) {
    most = least + more;
    return loadSync(module);
}

const strings = Array.from({ length: 1500 }, (_, i) => `${10 + (i % 3)}.${(i >> 8) & 255}.${i & 255}.0/24`);
const text = strings.join("\n");
/** What is done in one module: each call that takes memory. It tells how many were refused. */
function run(pages) {
    const { NetworkList, NetworkSet, Table, StoredTable, permitted, summarizeAddressRange, deciding, readPlan } = limited(pages);
    const small = new NetworkSet(["10.0.0.0/9", "192.0.2.0/24"]), list = new NetworkList(strings), table = small && new Table([["10.0.0.0/8", 1]]);
    const kept = list.toValues(), file = table.toFile();
    let refused = 0;
    const rules = strings.slice(0, 200).map((network, i) => [network, i % 2 === 0]);
    for (const call of [() => new NetworkSet(list).length, () => new NetworkSet(list).union(list).length, () => small.difference(list).length,
        () => new NetworkSet(list).ranges().length, () => new NetworkSet(list).numAddresses(4), () => new NetworkSet(list).hasEach(list).length,
        () => new Table(strings.map((network) => [network, network])).lookup("10.0.0.1")[1], () => list.longestMatchEach(list)[7],
        () => NetworkList.fromText(text).length, () => readPlan(text).lines.length, () => list.toText().length, () => list.order().length, () => list.tableOrder().length, () => list.nearestEach()[0], () => list.covered("10.0.0.0/8").length,
        () => new Table(strings.map((network) => [network, network])).toFile().length, () => new StoredTable(file).size, () => permitted(rules).length,
        () => deciding(rules, "10.0.0.0/8").length, () => summarizeAddressRange("10.0.0.1", "12.0.0.0").length, () => small.complement().length]) {
        try {
            call();
        } catch (error) {
            if (!(error instanceof errors.NoMemoryError)) throw error;
            refused++;
        }
        const right = table.lookup("10.200.0.1")[1] === 1 && table.lookup("11.0.0.0") === null && String(small.intersection(["10.64.0.0/10", "192.0.2.7"])) === "10.64.0.0/10,192.0.2.7";
        if (!right || !is_same(kept, list.toValues())) throw new Error(`wrong after a call without memory, at ${pages} pages: ${call}`);
    }
    return refused;
}
// Where the memory has fewer pages in the end than it may have, all happens the same way with any number between: what is refused wanted
// more than it may have. So the next number to try is one less than it has.
let growths = 0, refused = 0;
for (let more = 1 << 12; more >= 0; more = memory.buffer.byteLength / 65536 - least - 1, growths++) {
    try {
        refused += run(more);
    } catch (error) {
        if (!(error instanceof errors.NoMemoryError) || more > 8) throw error; // not even what is small has room
        refused++;
    }
    if (growths === 0 && refused) throw new Error("something is refused where there is room");
}
if (growths < 20 || refused < 100) throw new Error(`refused at ${growths} growths, ${refused} calls`);
console.log(`memory refused at each of ${growths - 1} growths: ${refused} calls, and right answers behind each`);
