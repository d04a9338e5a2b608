// node objects.mjs PACKAGE: that the package has what names.txt says and nothing else, what numbers and values it refuses, that values
// never change, and that a Worker has the same. Expected strings are from the documentation of Python's module and from RFCs.
import assert from "node:assert/strict";
import { readFileSync } from "node:fs";
import { pathToFileURL } from "node:url";
import { Worker } from "node:worker_threads";

const package_ = pathToFileURL(process.argv[2]).href;
const { errors, load, loadSync, PcidrError } = await import(`${package_}/pcidr.js`);
const pcidr = await load();
const { Address, Host, Network, NetworkList, NetworkSet, StoredTable, Table, deciding, permits, permitted, shadowed, summarizeAddressRange, textFault } = pcidr;
const text = (given) => JSON.parse(JSON.stringify(given));

// ---- names: those of the table, and no others

let kind = null;
const named = new Map([["Value", new Set()]]);
for (const line of readFileSync(new URL("../names.txt", import.meta.url), "utf8").split("\n")) {
    if (/^(#|$|- )/.test(line)) continue;
    const head = line.match(/^(?:class (\w+)\b|(function) )/);
    if (head) {
        kind = head[1] ?? "function";
        named.set(kind, new Set());
        continue;
    }
    const name = line.match(/^(?:static |readonly )?(\[Symbol\.iterator\]|\w+)/)[1];
    if (name !== "new") named.get(kind).add(name);
    if (kind === "function") assert.ok(name in pcidr, name);
    else if (line.startsWith("static ")) assert.equal(typeof pcidr[kind][name], "function", `${kind}.${name}`);
    else if (kind !== "Value" && name !== "new") assert.ok((name === "[Symbol.iterator]" ? Symbol.iterator : name) in pcidr[kind].prototype, `${kind}.${name}`);
}
for (const [name, names] of named) {
    if (name === "function" || name === "Value") continue;
    const has = Object.getOwnPropertyNames(pcidr[name].prototype).concat(Object.getOwnPropertyNames(pcidr[name]));
    const others = has.filter((it) => !names.has(it) && !named.get("Value").has(it) && !["constructor", "length", "name", "prototype"].includes(it));
    assert.deepEqual(others, [], `${name} has names that the table lacks`);
}
assert.deepEqual(Object.keys(pcidr).filter((name) => !named.has(name) && !named.get("function").has(name)), []);
const header = readFileSync(new URL("../../crates/cidr_c/include/pcidr.h", import.meta.url), "utf8");
const version = parseInt(header.match(/PCIDR_VERSION 0x([0-9a-f]+)u/)[1], 16);
assert.equal(pcidr.version, `${version >> 16}.${(version >> 8) & 255}.${version & 255}`);
assert.equal(JSON.parse(readFileSync(new URL("package.json", `${package_}/`))).version, pcidr.version);
const words = [...header.matchAll(/^    PCIDR_(\w+) = ([1-9]\d*),? +\/\*/gm)].map(([, name]) => name.split("_").map((word) => word[0] + word.slice(1).toLowerCase()).join(""));
assert.deepEqual(Object.keys(errors), words.map((word) => `${word}Error`), "the errors of the header");

// ---- what is refused, each by a class of its own

const refused = (call, wanted, code) => assert.throws(call, (error) => {
    assert.equal(error.constructor, wanted, `${call}: ${error}`);
    assert.equal(error instanceof PcidrError, code !== undefined);
    assert.equal(error.code, code);
    return true;
});
refused(() => new Network("10.0.0.1/8"), errors.HostPartError, 5);
refused(() => new Network("010.0.0.0/8"), errors.AddressError, 2);
refused(() => new Network("10.0.0.0/33"), errors.LengthTooLongError, 4);
refused(() => new Network("10.0.0.0/"), errors.LengthError, 3);
refused(() => new Network("1".repeat(5000)), errors.AddressError, 2);
refused(() => new Address("10.0.0.0/8"), errors.NotAddressError, 14);
refused(() => new Address("0x7f.1"), errors.NotAddressError, 14);
refused(() => Network.fromMasked("10.0.0.0/255.0.255.0"), errors.ScatteredError, 26);
refused(() => Network.fromReversePointer("example.org"), errors.NoneError, 23);
refused(() => new Table([["any", 1]]), errors.NoValueError, 10);
refused(() => new Network("any").netmask, errors.NoValueError, 10);
refused(() => new StoredTable(new Uint8Array(100)), errors.NoFileError, 18);
refused(() => Network.fromBytes(new Uint8Array([8, 10, 0])), errors.TruncatedError, 6);
refused(() => NetworkList.fromValues(new Uint8Array(24).fill(7)), errors.NoValueError, 10);
refused(() => NetworkSet.fromText("10.0.0.0/8\n\n192.0.2.7/24 # here"), errors.HostPartError, 5);
try {
    NetworkSet.fromText("10.0.0.0/8\n\n192.0.2.7/24 # here");
} catch (error) {
    assert.equal(error.line, 3);
    assert.equal(error.message, "line 3: 192.0.2.7/24: host bits set; the network is 192.0.2.0/24");
    assert.equal(error.name, "HostPartError");
}
const eight = new Network("10.0.0.0/8"), all = new Network("::/0");
for (const n of [288, -1, 1.5, NaN, Infinity, 2 ** 53]) {
    for (const call of [() => eight.supernet(n), () => eight.subnet(n, 0), () => [...eight.subnets(n)], () => new NetworkSet([eight]).bestFree(n)]) refused(call, RangeError);
}
for (const n of [-1, -1n, 1.5, 2n ** 128n, 2 ** 53, NaN]) {
    for (const call of [() => eight.nth(n), () => eight.subnet(9, n), () => Address.fromBigInt(n, 6), () => new NetworkSet([eight]).nth(n, 4)]) refused(call, RangeError);
}
refused(() => Address.fromBigInt(2n ** 32n, 4), RangeError);
refused(() => Address.fromBigInt(1n, 5), RangeError);
refused(() => new NetworkSet([eight]).numAddresses(5), RangeError);
for (const call of [() => new Network(10), () => new Network(), () => eight.contains(10), () => eight.contains(new Host("10.0.0.1/8")), () => eight.nth("1"),
    () => permits([["10.0.0.0/8", 1]], "10.0.0.1"), () => NetworkSet.fromText(5), () => new StoredTable("x"), () => Network.fromBytes([8, 10]),
    () => new Network({ words: [0, 0, 0, 0, 8] }), () => Network.prototype.toString.call({})]) refused(call, TypeError);
assert.equal(eight.supernet(9), null);
assert.equal(eight.subnet(200, 0), null);
assert.equal(eight.nth(2n ** 24n), null);
assert.equal(new Network("0.0.0.0/0").supernet(), null);

// ---- values never change

for (const value of [eight, new Address("::1"), new Host("10.0.0.1/8"), new NetworkList(["10.0.0.0/8"]), new NetworkSet(["10.0.0.0/8"]), new Table([["10.0.0.0/8", 1]]), pcidr]) {
    assert.throws(() => { value.other = 1; }, TypeError);
}
const list = new NetworkList(["10.0.0.0/8", "::1"]);
list.toValues().fill(7);
eight.toBytes().fill(7);
new Address("10.0.0.1").packed.fill(7);
assert.deepEqual(text([list, eight]), [["10.0.0.0/8", "::1"], "10.0.0.0/8"]);

// ---- what is answered

assert.deepEqual(text([...new Network("192.0.2.0/24").subnets(26)]), ["192.0.2.0/26", "192.0.2.64/26", "192.0.2.128/26", "192.0.2.192/26"]);
assert.equal([...new Network("10.0.0.0/16").subnets(24)].length, 256);
assert.deepEqual(text([...new Network("192.0.2.0/30").hosts()]), ["192.0.2.1", "192.0.2.2"]);
assert.equal(all.numAddresses, 2n ** 128n);
assert.equal(new Network("any").version, null);
assert.equal(new Network("192.0.2.9/24", { strict: false }).toString(), "192.0.2.0/24");
assert.equal(Address.fromLoose("0x7f.1").toString(), "127.0.0.1");
assert.equal(Address.fromLoose("0177.1").isLoopback, true);
assert.equal(Network.fromShort("10.7").toString(), "10.7.0.0/16");
assert.deepEqual([...new Address("192.0.2.1").packed], [192, 0, 2, 1]);
assert.equal(Address.fromBigInt(new Address("2001:db8::1").toBigInt(), 6).toString(), "2001:db8::1");
assert.equal(Network.fromBytes(new Network("2001:db8::/32").toBytes()).toString(), "2001:db8::/32");
assert.equal(new Network("192.0.2.0/24").indexOf("192.0.2.5"), 5n);
assert.equal(new Network("192.0.2.0/24").indexOf("192.0.3.5"), null);
assert.equal(new Network("192.0.2.0/25").addressExclude("192.0.2.0/26").toString(), "192.0.2.64/26");
assert.equal(new Network("192.0.2.0/25").isSiblingOf("192.0.2.128/25"), true);
assert.equal(new Host("192.0.2.1/24").withNetmask, "192.0.2.1/255.255.255.0");
assert.equal(new Host("10.0.0.1/4").isPrivate, true);
assert.equal(new Host("10.0.0.1/8").compare("10.0.0.0/32"), 1);
assert.equal(new Host("192.0.2.1/24").reversePointer, "1.2.0.192.in-addr.arpa");
assert.deepEqual(text(new Address("100.64.0.1").specialEntry), { network: "100.64.0.0/10", rfc: 6598, purpose: 4, source: true, destination: true, forwardable: true, globallyReachable: false, reservedByProtocol: false });
assert.equal(new Address("192.0.2.1").specialEntry.rfc, 5737);
assert.equal(new Address("8.8.8.8").specialEntry, null);
assert.equal(new Address("255.255.240.0").maskLength, 20);
assert.equal(new Address("::ffff:192.0.2.1").ipv4Mapped.toString(), "192.0.2.1");
assert.equal(new Address("2002:c000:201::").sixtofour.toString(), "192.0.2.1");
assert.equal(new Address("64:ff9b::c000:201").nat64.toString(), "192.0.2.1");
assert.equal(textFault("192.0.02.1"), "a leading zero in an octet");
assert.equal(textFault("192.0.2.1"), null);
assert.deepEqual(text(summarizeAddressRange("10.0.0.255", "10.0.2.0")), ["10.0.0.255", "10.0.1.0/24", "10.0.2.0"]);
const rules = [["10.0.0.0/9", false], ["10.0.0.0/8", true], ["10.1.0.0/16", true]];
assert.deepEqual(text([permitted(rules), shadowed(rules), deciding(rules, "10.0.0.0/8"), permits(rules, "10.200.0.1"), permits(rules, "10.1.0.1")]), [["10.128.0.0/9"], [2], [0, 1], true, false]);
const set = new NetworkSet(["10.0.0.16/28", "10.0.0.0/28", "10.0.1.0/31"]);
assert.equal(set.numAddresses(4), 34n);
assert.equal(set.nth(31, 4).toString(), "10.0.0.31");
assert.equal(set.nth(34, 4), null);
assert.deepEqual(text(set.ranges()), [["10.0.0.0", "10.0.0.31"], ["10.0.1.0", "10.0.1.1"]]);
assert.deepEqual(text([set.firstFree(31), set.bestFree(31), set.bestFree(8)]), ["10.0.0.0/31", "10.0.1.0/31", null]);
assert.deepEqual([set.has("10.0.0.5"), set.has("10.0.2.0"), set.isSupersetOf(["10.0.0.0/28"]), set.isSubsetOf(["10.0.0.0/8"]), set.isDisjointFrom(["11.0.0.0/8"])], [true, false, true, true, true]);
assert.deepEqual(text([set.union(["10.0.1.2/31"]), set.symmetricDifference(["10.0.0.0/27"]), new NetworkSet().complement()]), [["10.0.0.0/27", "10.0.1.0/30"], ["10.0.1.0/31"], ["any"]]);
assert.deepEqual(text(NetworkSet.fromText("10.0.0.0/9  # ours\r\n\n10.128.0.0-10.255.255.255\n2001:db8::/32")), ["10.0.0.0/8", "2001:db8::/32"]);
assert.deepEqual(text(NetworkList.fromText("192.0.2.0/255.255.255.0\n198.51.100.7 0.0.0.255", { masks: true, strict: false })), ["192.0.2.0/24", "198.51.100.0/24"]);
const each = NetworkList.readEach(["10.0.0.0/8", "x", "10.0.0.1/8", "", "::1", "any", "10.0.0.0/8\n11.0.0.0/8", "1.1.1.1"]);
assert.deepEqual([text(each.networks), [...each.indexes], each.errors.map(({ index, error }) => [index, error.code])], [["10.0.0.0/8", "::1", "any", "1.1.1.1"], [0, 4, 5, 7], [[1, 2], [2, 5], [3, 2], [6, 2]]]);
assert.equal(each.errors[1].error.message, '"10.0.0.1/8": host bits set; the network is 10.0.0.0/8');
assert.equal(NetworkList.readEach([]).networks.length, 0);
const unsorted = new NetworkList(["10.1.0.0/16", "::1", "10.0.0.0/8", "any", "10.0.0.0/8"]);
assert.deepEqual([...unsorted.order()], [3, 2, 4, 0, 1]);
assert.deepEqual([[...unsorted.tableOrder()], [...unsorted.nearestEach()]], [[3, 4, 0, 1], [4, 3, 3, -1, 3]]);
assert.deepEqual([unsorted.slice(1, 3).length, unsorted.slice(-1).toStrings(), unsorted.slice(3, 1).length, unsorted.slice(0, 99).length], [2, unsorted.toStrings().slice(-1), 0, 5]);
assert.throws(() => unsorted.pick([5]), RangeError);
assert.throws(() => unsorted.pick([0.5]), RangeError);
assert.throws(() => NetworkList.fromValues(Uint8Array.from({ length: 48 }, (_, i) => (i === 40 ? 33 : 0))), errors.NoValueError);
assert.deepEqual([...unsorted.longestMatchEach(["10.1.2.3", "10.2.0.0", "192.0.2.1", "::1"])], [0, 4, 3, 1]);
assert.deepEqual([unsorted.covering("10.1.2.3"), unsorted.covered("10.0.0.0/8")], [[0, 2, 3, 4], [0, 2, 4]]);
const table = new Table([["10.0.0.0/8", "core"], ["10.1.2.0/24", "lab"], ["10.1.0.0/16", "edge"], ["2001:db8::/32", "six"], ["10.0.0.0/8", "core"]]);
assert.deepEqual(text([table.lookup("10.1.2.3"), table.lookup("10.1.0.0/17"), table.lookup("192.0.2.1"), table.get("10.0.0.0/8"), table.has("10.0.0.0/9")]), [["10.1.2.0/24", "lab"], ["10.1.0.0/16", "edge"], null, "core", false]);
assert.deepEqual(text([...table]).map(([network]) => network), ["10.0.0.0/8", "10.1.0.0/16", "10.1.2.0/24", "2001:db8::/32"]);
assert.deepEqual(text(table.covering("10.1.9.9")), [["10.1.0.0/16", "edge"], ["10.0.0.0/8", "core"]]);
assert.deepEqual([...table.indexEach(["2001:db8::1", "10.0.0.1", "::"])], [3, 0, -1]);
assert.equal(table.covered("10.0.0.0/8").length, 3);
const routes = new Table([["10.0.0.0/9", 3], ["10.128.0.0/9", 3], ["10.1.0.0/16", 3], ["10.2.0.0/16", 4]]);
assert.deepEqual(text([...routes.smallest()]), [["10.0.0.0/8", 3], ["10.2.0.0/16", 4]]);
assert.deepEqual([routes.forwardsSame(routes.smallest()), routes.forwardsSame(new Table())], [true, false]);
const stored = new StoredTable(table.toFile());
assert.deepEqual([stored.size, new TextDecoder().decode(stored.lookup("10.1.2.3")), stored.lookup("192.0.2.1"), stored.has("2001:db8::5")], [4, "lab", null, true]);
assert.deepEqual(stored.hasEach(["10.0.0.0", "11.0.0.0"]), [true, false]);
assert.equal(new Table().lookup("10.0.0.1"), null);
for (const closed of [new Table([["10.0.0.0/8", 1]]), new StoredTable(table.toFile())]) {
    closed.close();
    closed.close();
    refused(() => closed.lookup("10.0.0.1"), TypeError);
}
refused(() => { const closed = new StoredTable(table.toFile()); closed.close(); return closed.has("10.0.0.1"); }, TypeError);

// ---- other ways to load it: bytes at once, and the module in a Worker

assert.equal(new (loadSync(readFileSync(new URL("pcidr.wasm", `${package_}/`))).Network)("10.0.0.0/9").sibling().toString(), "10.128.0.0/9");
const source = `import { parentPort, workerData } from "node:worker_threads";
import { load } from "${package_}/pcidr.js";
const { NetworkSet } = await load(workerData.module);
parentPort.postMessage(NetworkSet.fromValues(workerData.values).union(["2001:db8::/32"]).toStrings());`;
const worker = new Worker(new URL(`data:text/javascript,${encodeURIComponent(source)}`), { workerData: { module: pcidr.module, values: set.toValues() } });
const answered = await new Promise((done, failed) => worker.on("message", done).on("error", failed));
assert.deepEqual(answered, ["10.0.0.0/27", "10.0.1.0/31", "2001:db8::/32"]);
console.log("the package has the names of the table, refuses what it should, and answers in a Worker");
