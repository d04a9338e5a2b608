// node calls.mjs PACKAGE CALLS, and in a page: makes the calls that calls.py has printed, and compares what each returns, and the memory
// after it, with what the library for C did. It prints the first that differ, and how many calls there were of how many functions.
import { address, given, is_same, package_, read } from "./here.mjs";

const { exports: c } = new WebAssembly.Instance(new WebAssembly.Module(await read(`${package_}/pcidr.wasm`)), {});
const tried = new Set();
let calls = 0, differ = 0;
function fromBase64(text) {
    const letters = atob(text), bytes = new Uint8Array(letters.length);
    for (let i = 0; i < bytes.length; i++) bytes[i] = letters.charCodeAt(i);
    return bytes;
}
for (const line of new TextDecoder().decode(await read(address(given[0]))).trim().split("\n")) {
    const { call, words, memory, leading, code, after } = JSON.parse(line);
    const before = memory.map(fromBase64);
    const lent = [...before, ...words.filter((word) => word.v).map((word) => fromBase64(word.v))];
    const places = lent.map((content) => Number(c.malloc(BigInt(content.length))));
    const bytes = () => new Uint8Array(c.memory.buffer);
    lent.forEach((content, i) => bytes().set(content, places[i]));
    leading.forEach((all, i) => all.forEach(([at, to]) => new DataView(c.memory.buffer).setUint32(places[i] + at, to === null ? 0 : places[to], true)));
    let values = before.length;
    const passed = words.map((word) => ("m" in word ? places[word.m] : "v" in word ? places[values++] : word.w === 8 ? BigInt(word.n) : Number(word.n)));
    const got = c[call](...passed);
    const returned = typeof got === "bigint" ? BigInt.asUintN(64, got) : BigInt(got >>> 0);
    let is_right = returned === BigInt(code);
    before.forEach((content, i) => {
        const made = bytes().slice(places[i], places[i] + content.length);
        leading[i].forEach(([at]) => made.fill(0, at, at + 8));
        if (!is_same(made, after[i] === null ? content : fromBase64(after[i]))) is_right = false;
    });
    for (const place of places) c.free(place);
    tried.add(call);
    calls++;
    if (!is_right && differ++ < 10) console.log(`${call} differs: ${returned} and ${code}: ${line.slice(0, 600)}`);
}
for (const name of Object.keys(c)) {
    if (name.startsWith("pcidr_") && !tried.has(name) && ++differ) console.log(`${name} was not called`);
}
console.log(`${calls} calls of ${tried.size} functions, ${differ} differ from C`);
if (calls === 0 || differ) throw new Error("not as C");
