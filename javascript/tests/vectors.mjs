// node vectors.mjs PACKAGE, and in a page: what the package says of 200,000 strings, whose sums are those of vectors.txt, which
// vectors.py has made with Python's `ipaddress`. With a number behind it, it prints the lines of that block, as `vectors.py show` does;
// with `every 10` it takes every tenth block only.
import { given, package_, read, subtle } from "./here.mjs";

const { load, PcidrError } = await import(`${package_}/pcidr.js`);
const { Network } = await load();
const EACH = 1000;
Error.stackTraceLimit = 0; // 40,000 strings are refused

/** The generator `mulberry32`. */
function numbers(seed) {
    let state = seed;
    return (below) => {
        state = (state + 0x6d2b79f5) >>> 0;
        let t = Math.imul(state ^ (state >>> 15), state | 1);
        t = (t ^ ((t + Math.imul(t ^ (t >>> 7), t | 61)) >>> 0)) >>> 0;
        return ((t ^ (t >>> 14)) >>> 0) % below;
    };
}
const quarter = (high, low) => `${high >> 8}.${high & 255}.${low >> 8}.${low & 255}`;
function string(next) {
    const width = next(2) === 0 ? 32 : 128, groups = [];
    for (let i = 0; i < width / 16; i++) groups.push([0, next(65536), next(65536) & next(65536), next(16)][next(4)]);
    const length = next(width + 1);
    if (next(100) < 85) groups.forEach((group, i) => { groups[i] = group & ~(0xffff >> Math.max(0, Math.min(16, length - 16 * i))); });
    let s;
    if (width === 32) {
        s = quarter(...groups);
    } else {
        const kind = next(5);
        const shown = groups.map((group) => (kind === 0 ? group.toString(16).padStart(4, "0") : kind === 1 ? group.toString(16).toUpperCase() : group.toString(16)));
        if (next(8) === 0) shown.splice(6, 2, quarter(groups[6], groups[7]));
        const begin = next(8);
        let end = begin;
        while (end < 8 && groups[end] === 0 && end < shown.length) end++;
        s = end > begin && kind && (shown.length === 8 || end <= 6) ? `${shown.slice(0, begin).join(":")}::${shown.slice(end).join(":")}` : shown.join(":");
    }
    if (next(100) < 85) s += `/${next(50) === 0 && length < 100 ? "0" : ""}${length}`;
    if (next(100) < 12) {
        const at = next(s.length), cut = next(2);
        s = s.slice(0, at) + ["", ".", ":", "/", "0", "f", "g", "-", " ", "::", "256", "%1", "\u0663", "x"][next(14)] + s.slice(at + cut);
    }
    return s;
}
function* block(number) {
    const next = numbers(number);
    let before = new Network("10.0.0.0/8");
    for (let i = 0; i < EACH; i++) {
        const s = string(next), index = next(65536);
        let n;
        try {
            n = new Network(s);
        } catch (error) {
            if (!(error instanceof PcidrError)) throw error;
            yield `${s} -\n`;
            continue;
        }
        const halves = n.halves();
        yield [s, n, n.withPrefixlen, n.networkAddress, n.broadcastAddress, n.netmask, n.hostmask, n.numAddresses, n.networkAddress.toBigInt(), n.version,
            n.prefixlen, n.supernet() ?? "-", halves ? halves.join() : "-", n.exploded, n.nth(index) ?? "-", Number(n.contains(before)),
            Number(n.overlaps(before)), Number(n.compare(before) < 0), n.supernet(n.prefixlen >> 1)].join(" ") + "\n";
        before = n;
    }
}
const utf8 = new TextEncoder();
if (given.length === 1) {
    console.log([...block(Number(given[0]))].join("").trimEnd());
} else {
    const sums = new TextDecoder().decode(await read(new URL("vectors.txt", import.meta.url))).trim().split("\n");
    const every = Number(given[1] ?? 1);
    let blocks = 0, networks = 0, wrong = 0;
    for (let number = 0; number < sums.length; number += every, blocks++) {
        const lines = [...block(number)];
        networks += lines.filter((line) => !line.endsWith(" -\n")).length;
        const digest = new Uint8Array(await subtle.digest("SHA-256", utf8.encode(lines.join("")))).subarray(0, 16);
        const got = Array.from(digest, (byte) => byte.toString(16).padStart(2, "0")).join("");
        if (got !== sums[number] && wrong++ < 5) console.log(`block ${number} differs: compare \`vectors.py show ${number}\` with \`vectors.mjs PACKAGE ${number}\``);
    }
    console.log(`${EACH * blocks} strings, ${networks} of them networks: ${wrong} of ${blocks} blocks differ from Python's ipaddress`);
    if (wrong) throw new Error("not as ipaddress");
}
