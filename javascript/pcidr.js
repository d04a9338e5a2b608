// pcidr.js: IPv4 and IPv6 networks by the proved library `libpcidr`, which pcidr.wasm has as WebAssembly.
//
//     import { load } from "pcidr";
//     const { Network, NetworkSet } = await load();
//     new Network("192.0.2.48/28").broadcastAddress.toString()     // "192.0.2.63"
//     [...new NetworkSet(["10.0.0.0/9", "10.128.0.0/9"])].join()   // "10.0.0.0/8"
//
// This file decides nothing about networks: it copies strings and values into the module's memory, calls one function, and
// copies the answer out. Values and lists lie in JavaScript's memory, so that nothing has to be given back; a table alone keeps
// memory of the module, which goes with it. What a parameter of the module would cut is refused with a RangeError.

// The errors of pcidr.h, in the order of their numbers from 1 on; there is none of the number 16.
const ERRORS = ["NotUtf8", "Address", "Length", "LengthTooLong", "HostPart", "Truncated", "Tag", "Any", "Family", "NoValue", "NoRoom",
    "NoMemory", "Wrapped", "NotAddress", "TooMany", null, "NoTable", "NoFile", "OtherVersion", "Short", "Long", "Values", "None",
    "NoSlash", "Mask", "Scattered", "LineTooLong", "TwoFamilies", "Reversed", "Present", "NoMarker", "NoNodeCount", "NoRecordSize",
    "NoIpVersion", "LongTree", "Malformed", "LongText"];
const OK = 0, NO_VALUE = 10, NO_ROOM = 11, NO_MEMORY = 12, NONE = 23;

/** What the library refuses: `code` is the number of the error in pcidr.h. */
export class PcidrError extends Error {
    constructor(code, message, line) {
        super(message);
        this.code = code;
        if (line !== undefined) this.line = line;
    }
}
/** A class for each error, as `errors.HostPartError`. */
export const errors = Object.freeze(Object.fromEntries(ERRORS.filter((word) => word).map((word) => {
    const name = `${word}Error`;
    const kind = { [name]: class extends PcidrError {} }[name];
    Object.defineProperty(kind.prototype, "name", { value: name, configurable: true, writable: true });
    return [name, kind];
})));
const errorOf = (code, message, line) => new (errors[`${ERRORS[code - 1]}Error`] ?? PcidrError)(code, message, line);

const WIDE = 24; // bytes of a value: two halves of its number, and the tag
const TAG = 16;
const ANY = 255;
const TEXT = 1024; // the room for a string; one that may be longer gets a block of its own
const BIG = Array.from({ length: TEXT + 1 }, (_, i) => BigInt(i)); // a length is a BigInt; these are not made anew
const big = (n) => (n <= TEXT ? BIG[n] : BigInt(n));
const LOW = (1n << 64n) - 1n;
const encoder = new TextEncoder();
const decoder = new TextDecoder();

/** A number of up to 128 bits. */
function wide(n) {
    if (typeof n === "number" && !Number.isSafeInteger(n)) throw new RangeError(`not an exact whole number: ${n}`);
    if (typeof n !== "number" && typeof n !== "bigint") throw new TypeError(`not a number: ${n}`);
    n = BigInt(n);
    if (n < 0n || n >> 128n) throw new RangeError(`not from 0 to 2^128 - 1: ${n}`);
    return n;
}
/** A number of a parameter of 8 or 32 bits. */
function narrow(n, bits) {
    if (!Number.isInteger(n) || n < 0 || n >= 2 ** bits) throw new RangeError(`not a whole number below 2^${bits}: ${n}`);
    return n;
}
function family(version) {
    if (version !== 4 && version !== 6) throw new RangeError(`neither 4 nor 6: ${version}`);
    return version;
}

/** The module: what is given, or pcidr.wasm beside this file. */
async function compiled(source) {
    source = await (source ?? new URL("./pcidr.wasm", import.meta.url));
    if (source instanceof WebAssembly.Module) return source;
    if (source instanceof URL || typeof source === "string") {
        const url = new URL(source, import.meta.url);
        if (url.protocol === "file:" && typeof process === "object") {
            const { readFile } = await import("node:fs/promises");
            return WebAssembly.compile(await readFile(url));
        }
        source = await fetch(url);
    }
    if (typeof Response === "function" && source instanceof Response) {
        if (!source.ok) throw new Error(`${source.url}: ${source.status}`);
        source = await source.arrayBuffer();
    }
    return WebAssembly.compile(source);
}

/** Loads the module, anew at each call, and returns its classes. */
export async function load(source) {
    const module = await compiled(source);
    return bound((await WebAssembly.instantiate(module, {})).exports, module);
}

/** The same at once, of a compiled module or of bytes. */
export function loadSync(source) {
    const module = source instanceof WebAssembly.Module ? source : new WebAssembly.Module(source);
    return bound(new WebAssembly.Instance(module, {}).exports, module);
}

function bound(c, module) {
    // The memory grows in calls that allocate, and then its old views have no bytes: behind each such call stands `look`, or `check`,
    // `found` or `number`, which look.
    let bytes = new Uint8Array(c.memory.buffer), words = new Uint32Array(c.memory.buffer);
    function look() {
        if (bytes.buffer === c.memory.buffer) return;
        bytes = new Uint8Array(c.memory.buffer);
        words = new Uint32Array(c.memory.buffer);
    }
    function taken(length) {
        const at = Number(c.malloc(big(length))) >>> 0;
        look();
        if (at === 0) throw errorOf(NO_MEMORY, "no memory");
        return at;
    }
    // One block for the strings and values of calls on single values, which keep no address.
    const text = taken(TEXT + 8 * WIDE), one = text + TEXT, two = one + WIDE, out = two + WIDE, count = out + 3 * WIDE;

    // ---- strings

    const letters = []; // of a short string: a decoder, or a view of the bytes, takes two or three times as long
    const read = (length, at = text) => {
        letters.length = 0;
        for (let i = at; length < 100 && i < at + length && bytes[i] < 128; i++) letters.push(bytes[i]);
        return letters.length === length ? String.fromCharCode.apply(null, letters) : decoder.decode(bytes.subarray(at, at + length));
    };
    /** Runs `call` on the place and the length of a string in the module's memory. */
    function written(string, call) {
        if (typeof string !== "string") throw new TypeError(`not a string: ${string}`);
        const length = string.length;
        if (3 * length > TEXT) {
            const encoded = encoder.encode(string);
            return lent([encoded], (at) => call(at, big(encoded.length)));
        }
        for (let i = 0; i < length; i++) {
            const code = string.charCodeAt(i);
            if (code > 127) return call(text, big(encoder.encodeInto(string, bytes.subarray(text, text + TEXT)).written));
            bytes[text + i] = code;
        }
        return call(text, big(length));
    }
    const message = (code) => read(Number(c.pcidr_message(code, text, BIG[TEXT])));
    const shown = (string) => JSON.stringify(string.length > 80 ? `${string.slice(0, 80)}…` : string);
    function textFault(string) {
        const length = written(string, (at, n) => Number(c.pcidr_text_fault(at, n, out, BIG[4 * WIDE])));
        return length ? read(length, out) : null;
    }
    /** Throws the error of a call that has one. The memory may have grown in any call. */
    function check(code, string) {
        look();
        if (code === OK) return;
        throw errorOf(code, string === undefined ? message(code) : `${shown(string)}: ${textFault(string) ?? message(code)}`);
    }
    /** A string of a value, or null where the library has none. */
    function printed(call, value, ...more) {
        put(value, one);
        const length = Number(call(one, ...more, text, BIG[TEXT]));
        return length ? read(length) : null;
    }

    // ---- values: five words, as they lie in memory, of which the last one is the tag

    let wordsOf; // of a value; anything else is a TypeError
    let isValue;
    const made = { words: null, bytes: null }; // what a constructor is given in place of strings
    class Value {
        #words;
        static {
            wordsOf = (value) => value.#words;
            isValue = (value) => typeof value === "object" && value !== null && #words in value;
        }
        constructor(given) {
            this.#words = given;
            Object.freeze(this);
        }
        get version() { return tagOf(this) === ANY ? null : tagOf(this) < 64 ? 4 : 6; }
        get prefixlen() { return tagOf(this) === ANY ? null : tagOf(this) < 64 ? tagOf(this) : tagOf(this) - 64; }
        get maxPrefixlen() { return tagOf(this) === ANY ? null : tagOf(this) < 64 ? 32 : 128; }
        get isPrivate() { return asked(c.pcidr_is_private, this); }
        get isLoopback() { return asked(c.pcidr_is_loopback, this); }
        get isLinkLocal() { return asked(c.pcidr_is_link_local, this); }
        get isMulticast() { return asked(c.pcidr_is_multicast, this); }
        get isUnspecified() { return asked(c.pcidr_is_unspecified, this); }
        get isDocumentation() { return asked(c.pcidr_is_documentation, this); }
        get exploded() { return tagOf(this) === ANY ? "any" : printed(c.pcidr_print_exploded_host, this); }
        get reversePointer() { return printed(c.pcidr_print_reverse_name, this); }
        get netmask() { return part(c.pcidr_mask_by_value, this, Address); }
        get hostmask() { return part(c.pcidr_host_mask_by_value, this, Address); }
        get withNetmask() { return printed(c.pcidr_print_with_mask, this); }
        get withHostmask() { return printed(c.pcidr_print_with_host_mask, this); }
        compare(other) { return compared(c.pcidr_compare, this, network(other)); }
        equals(other) { return this.compare(other) === 0; }
        toString() { return printed(c.pcidr_print_network, this); }
        toJSON() { return this.toString(); }
        toBytes() { return packed(c.pcidr_network_to_bytes, this); }
        [Symbol.for("nodejs.util.inspect.custom")]() { return `${this.constructor.name}("${this}")`; }
    }
    const tagOf = (value) => wordsOf(value)[4];
    function put(value, at) {
        const from = wordsOf(value), i = at >>> 2;
        words[i] = from[0];
        words[i + 1] = from[1];
        words[i + 2] = from[2];
        words[i + 3] = from[3];
        words[i + 4] = from[4];
        words[i + 5] = 0;
    }
    function got(kind, at = out) {
        made.words = words.slice(at >>> 2, (at >>> 2) + 5);
        return new kind(made);
    }
    const halves = (at) => {
        const i = at >>> 2;
        return (BigInt(words[i + 1]) << 96n) | (BigInt(words[i]) << 64n) | (BigInt(words[i + 3]) << 32n) | BigInt(words[i + 2]);
    };
    /** The value of a string, or what a constructor was given. */
    function parsed(call, string) {
        if (string === made) return made.words;
        check(written(string, (at, n) => call(at, n, out)), string);
        return words.slice(out >>> 2, (out >>> 2) + 5);
    }
    const from = (kind, call, string) => {
        check(written(string, (at, n) => call(at, n, out)), string);
        return got(kind);
    };
    const network = (given) => (given instanceof Network || given instanceof Address ? given : new Network(given));
    const address = (given) => (given instanceof Address ? given : given instanceof Network && given.prefixlen === given.maxPrefixlen ? given : new Address(given));
    const host = (given) => (isValue(given) ? given : new Host(given));
    const found = (code, kind) => {
        look();
        if (code === NONE) return null;
        check(code);
        return got(kind);
    };
    const part = (call, value, kind, ...more) => {
        put(value, one);
        return found(call(one, ...more, out), kind);
    };
    const asked = (call, value, other) => {
        put(value, one);
        if (other === undefined) return call(one) === 1;
        put(other, two);
        return call(one, two) === 1;
    };
    const compared = (call, value, other) => {
        put(value, one);
        put(other, two);
        return call(one, two) - 1;
    };
    const packed = (call, value) => {
        put(value, one);
        return bytes.slice(text, text + Number(call(one, text, BIG[TEXT])));
    };
    const unpacked = (call, kind, given) => {
        if (!(given instanceof Uint8Array)) throw new TypeError("not a Uint8Array");
        return lent([given], (at) => {
            check(call(at, big(given.length), out, count));
            return got(kind);
        });
    };
    /** The index or the count of a call, or null. */
    const number = (code) => {
        look();
        if (code === NONE) return null;
        check(code);
        return halves(out);
    };

    class Address extends Value {
        constructor(string) { super(parsed(c.pcidr_read_address, string)); }
        static fromLoose(string) { return from(Address, c.pcidr_read_loose_address, string); }
        static fromBigInt(n, version) {
            n = wide(n);
            if (family(version) === 4 && n >> 32n) throw new RangeError(`not below 2^32: ${n}`);
            const parts = new BigUint64Array([n >> 64n, n & LOW, version === 4 ? 32n : 192n]);
            made.words = new Uint32Array(parts.buffer, 0, 5);
            return new Address(made);
        }
        get packed() { return packed(c.pcidr_host_to_bytes, this).slice(1); }
        get isGlobal() { return asked(c.pcidr_is_global, this); }
        get ipv4Mapped() { return part(c.pcidr_ipv4_mapped_by_value, this, Address); }
        get ipv6Mapped() { return part(c.pcidr_ipv6_mapped_by_value, this, Address); }
        get sixtofour() { return part(c.pcidr_ipv4_6to4_by_value, this, Address); }
        get nat64() { return part(c.pcidr_ipv4_nat64_by_value, this, Address); }
        get maskLength() {
            put(this, one);
            const code = c.pcidr_mask_length(one, out);
            return code === NONE ? null : (check(code), bytes[out]);
        }
        get hostMaskLength() {
            put(this, one);
            const code = c.pcidr_host_mask_length(one, out);
            return code === NONE ? null : (check(code), bytes[out]);
        }
        get specialEntry() {
            put(this, one);
            const code = c.pcidr_special_entry(one, out);
            if (code === NONE) return null;
            check(code);
            const b = bytes.slice(out, out + 32), column = (i) => [false, true, null][b[i]];
            const block = Address.fromBigInt(halves(out), this.version), length = b[18];
            return Object.freeze({
                network: part(c.pcidr_supernet_by_value, block, Network, length), rfc: b[16] + 256 * b[17], purpose: b[19], source: column(20),
                destination: column(21), forwardable: column(22), globallyReachable: column(23), reservedByProtocol: column(24),
            });
        }
        toBigInt() {
            put(this, one);
            return halves(one);
        }
        get exploded() { return printed(c.pcidr_print_exploded_address, this); }
        toString() { return printed(c.pcidr_print_address, this); }
    }

    class Host extends Value {
        constructor(string) { super(parsed(c.pcidr_read_host, string)); }
        static fromBytes(given) { return unpacked(c.pcidr_host_from_bytes, Host, given); }
        get ip() { return part(c.pcidr_address_by_value, this, Address); }
        get network() { return part(c.pcidr_network_by_value, this, Network); }
        get packed() { return packed(c.pcidr_host_to_bytes, this).slice(1); }
        get withPrefixlen() { return printed(c.pcidr_print_host_with_length, this); }
        get withNetmask() { return printed(c.pcidr_print_host_with_mask, this); }
        get withHostmask() { return printed(c.pcidr_print_host_with_host_mask, this); }
        get isPrivate() { return this.ip.isPrivate; }
        get isLoopback() { return this.ip.isLoopback; }
        get isLinkLocal() { return this.ip.isLinkLocal; }
        get isMulticast() { return this.ip.isMulticast; }
        get isUnspecified() { return this.ip.isUnspecified; }
        get isDocumentation() { return this.ip.isDocumentation; }
        get reversePointer() { return this.ip.reversePointer; }
        compare(other) { return compared(c.pcidr_compare_hosts, this, host(other)); }
        toString() { return printed(c.pcidr_print_host, this); }
        toBytes() { return packed(c.pcidr_host_to_bytes, this); }
    }

    class Network extends Value {
        constructor(string, { strict = true } = {}) {
            super(strict || string === made ? parsed(c.pcidr_read_network, string) : wordsOf(new Host(string).network));
        }
        static fromMasked(string) { return from(Network, c.pcidr_read_masked_network, string); }
        static fromShort(string) { return from(Network, c.pcidr_read_short_network, string); }
        static fromReversePointer(string) { return from(Network, c.pcidr_read_reverse_name, string); }
        static fromBytes(given) { return unpacked(c.pcidr_network_from_bytes, Network, given); }
        get networkAddress() { return part(c.pcidr_first_by_value, this, Address); }
        get broadcastAddress() { return part(c.pcidr_last_by_value, this, Address); }
        get firstUsable() { return part(c.pcidr_first_usable_by_value, this, Address); }
        get lastUsable() { return part(c.pcidr_last_usable_by_value, this, Address); }
        get numAddresses() {
            put(this, one);
            return number(c.pcidr_address_count(one, out)) ?? 1n << 128n; // what the two halves have no room for
        }
        get withPrefixlen() { return printed(c.pcidr_print_network_with_length, this); }
        get ipv4Mapped() { return part(c.pcidr_ipv4_mapped_by_value, this, Network); }
        get ipv6Mapped() { return part(c.pcidr_ipv6_mapped_by_value, this, Network); }
        supernet(newPrefix) {
            return newPrefix === undefined ? part(c.pcidr_parent_by_value, this, Network) : part(c.pcidr_supernet_by_value, this, Network, narrow(newPrefix, 8));
        }
        halves() {
            put(this, one);
            const lower = found(c.pcidr_network_halves_by_value(one, out, two), Network);
            return lower && [lower, got(Network, two)];
        }
        subnet(newPrefix, index) {
            index = wide(index);
            return part(c.pcidr_subnet_by_value, this, Network, narrow(newPrefix, 8), index >> 64n, index & LOW);
        }
        *subnets(newPrefix = this.prefixlen + 1) {
            narrow(newPrefix, 8);
            for (let index = 0n; ; index += 64n) {
                const some = answer(64, (room, n) => {
                    put(this, one);
                    return c.pcidr_subnets(one, newPrefix, index >> 64n, index & LOW, room, n, count);
                });
                yield* some;
                if (some.length < 64) return;
            }
        }
        nth(index) {
            index = wide(index);
            return part(c.pcidr_nth_by_value, this, Address, index >> 64n, index & LOW);
        }
        indexOf(given) {
            put(this, one);
            put(address(given), two);
            return number(c.pcidr_position(one, two, out));
        }
        *hosts() {
            const first = this.firstUsable.toBigInt(), last = this.lastUsable.toBigInt();
            for (let n = first; n <= last; n++) yield Address.fromBigInt(n, this.version);
        }
        sibling() { return part(c.pcidr_sibling_by_value, this, Network); }
        next() { return part(c.pcidr_next_network_by_value, this, Network); }
        previous() { return part(c.pcidr_previous_network_by_value, this, Network); }
        contains(other) { return asked(c.pcidr_contains, this, network(other)); }
        subnetOf(other) { return asked(c.pcidr_contains, network(other), this); }
        overlaps(other) { return asked(c.pcidr_overlaps, this, network(other)); }
        isSiblingOf(other) { return asked(c.pcidr_is_sibling_of, this, network(other)); }
        spanning(other) {
            put(this, one);
            put(network(other), two);
            return found(c.pcidr_spanning(one, two, out), Network);
        }
        addressExclude(other) { return new NetworkSet([this]).difference([other]); }
        reverseZones() {
            const names = [];
            for (;;) {
                const name = printed(c.pcidr_print_reverse_zone, this, BigInt(names.length));
                if (name === null) return names;
                names.push(name);
            }
        }
    }

    // ---- many values

    const counted = () => Number(new DataView(bytes.buffer, count, 8).getBigUint64(0, true));
    /** Copies arrays of bytes into the module for the time of a call. */
    function lent(parts, call) {
        const blocks = [];
        try {
            for (const part of parts) {
                const at = taken(part.length);
                blocks.push(at);
                bytes.set(part, at);
            }
            const result = call(...blocks);
            look();
            return result;
        } finally {
            for (const at of blocks) c.free(at);
        }
    }
    /** What `call` writes into room for so many elements, and once more where there are more. */
    function answer(room, call, width = WIDE, kind = listOf) {
        for (;;) {
            const at = taken(room * width);
            try {
                const code = call(at, big(room));
                look();
                if (code === NO_ROOM && counted() > room) {
                    room = counted();
                    continue;
                }
                check(code);
                return kind(bytes.slice(at, at + counted() * width));
            } finally {
                c.free(at);
            }
        }
    }
    /** Indexes of 64 bits, each of which has its lower half only, or stands for none. */
    const indexesOf = (given) => {
        const halves = new Int32Array(given.buffer, 0, given.length / 4), to = new Int32Array(given.length / 8);
        for (let i = 0; i < to.length; i++) to[i] = halves[2 * i];
        return to;
    };
    const indexes = (given) => Array.from(indexesOf(given));
    const listOf = (given, kind = NetworkList) => {
        made.bytes = given;
        return new kind(made);
    };
    const setOf = (given) => listOf(given, NetworkSet);

    let bytesOf; // of a list: 24 for each network
    class NetworkList {
        #bytes;
        static {
            bytesOf = (list) => list.#bytes;
        }
        constructor(networks = []) {
            this.#bytes = networks === made ? made.bytes : valuesOf(networks);
            Object.freeze(this);
        }
        static fromText(string, how = {}) { return textOf(string, how); }
        static fromValues(given) {
            if (!(given instanceof Uint8Array) || given.length % WIDE) throw new TypeError("not the bytes of values");
            const own = given.slice(), n = own.length / WIDE;
            // (whether nothing has them is asked, which looks at each)
            lent([own, new Uint8Array(n)], (at, answers) => check(c.pcidr_contains_each(at, 0n, at, big(n), answers, big(n))));
            return listOf(own);
        }
        static readEach(strings) {
            const all = [...strings], failed = [], good = [];
            for (const string of all) {
                if (typeof string !== "string") throw new TypeError(`not a string: ${string}`);
            }
            // (a line feed would begin a line; no network has one, nor what stands for it here)
            const encoded = encoder.encode(all.map((string) => (string.includes("\n") ? "?" : string)).join("\n"));
            const values = new Uint8Array(all.length * WIDE);
            lent([encoded, values], (at, to) => {
                let begin = 0;
                for (let i = 0; i < all.length; ) {
                    const code = c.pcidr_read_lines(at + begin, big(encoded.length - begin), to, big(all.length), count), read = counted();
                    values.set(bytes.subarray(to, to + read * WIDE), good.length * WIDE);
                    for (let k = 0; k < read; k++) good.push(i + k);
                    i += read;
                    for (let k = 0; k <= read && i < all.length; k++) begin = encoded.indexOf(10, begin) + 1;
                    if (i >= all.length) break;
                    try {
                        check(code, all[i]);
                    } catch (error) {
                        failed.push({ index: i, error });
                    }
                    i++;
                }
            });
            return { networks: listOf(values.slice(0, good.length * WIDE)), indexes: Uint32Array.from(good), errors: failed };
        }
        get length() { return this.#bytes.length / WIDE; }
        at(index) {
            if (!(Number.isInteger(index) && index >= 0 && index < this.length)) return undefined;
            bytes.set(this.#bytes.subarray(index * WIDE, index * WIDE + WIDE), one);
            return got(Network, one);
        }
        *[Symbol.iterator]() {
            for (let i = 0; i < this.length; i++) yield this.at(i);
        }
        order() {
            return this.#ordered(c.pcidr_sort_order);
        }
        tableOrder() {
            return this.#ordered(c.pcidr_table_order);
        }
        #ordered(call) {
            return lent([this.#bytes], (at) => answer(this.length, (room, n) => call(at, big(this.length), room, n, count), 8,
                (given) => new Uint32Array(indexesOf(given).buffer)));
        }
        pick(chosen) {
            const from = new Uint32Array(this.#bytes.buffer), to = new Uint32Array(6 * chosen.length);
            for (let i = 0; i < chosen.length; i++) {
                if (!(Number.isInteger(chosen[i]) && chosen[i] >= 0 && 6 * chosen[i] < from.length)) throw new RangeError(`not an index of the list: ${chosen[i]}`);
                for (let k = 0; k < 6; k++) to[6 * i + k] = from[6 * chosen[i] + k];
            }
            return listOf(new Uint8Array(to.buffer));
        }
        slice(begin = 0, end = this.length) {
            const [from, to] = [begin, end].map((n) => (n < 0 ? Math.max(0, this.length + n) : Math.min(n, this.length)));
            return listOf(this.#bytes.slice(WIDE * from, WIDE * Math.max(from, to)));
        }
        nearestEach() {
            const n = this.length;
            return lent([this.#bytes, new Uint8Array(8 * n)], (at, places) => {
                check(c.pcidr_nearest_each(at, big(n), places, big(n)));
                return indexesOf(bytes.slice(places, places + 8 * n));
            });
        }
        longestMatchEach(others) {
            const given = bytesOf(listed(others)), n = given.length / WIDE;
            return lent([this.#bytes, given, new Uint8Array(8 * n)], (at, to, places) => {
                check(c.pcidr_longest_match_each(at, big(this.length), to, big(n), places, big(n)));
                return indexesOf(bytes.slice(places, places + 8 * n));
            });
        }
        firstFree(prefixlen) { return free(c.pcidr_first_free, this, prefixlen); }
        bestFree(prefixlen) { return free(c.pcidr_best_free, this, prefixlen); }
        covering(given) { return this.#around(given, c.pcidr_covering); }
        covered(given) { return this.#around(given, c.pcidr_covered); }
        #around(given, call) {
            const inner = network(given);
            return lent([this.#bytes], (at) => answer(64, (room, n) => {
                put(inner, one);
                return call(at, big(this.length), one, room, n, count);
            }, 8, indexes));
        }
        toStrings() {
            return this.length === 0 ? [] : this.toText().slice(0, -1).split("\n");
        }
        toText() {
            return lent([this.#bytes], (at) => answer(44 * this.length, (room, n) => c.pcidr_print_lines(at, big(this.length), room, n, count), 1,
                (lines) => decoder.decode(lines)));
        }
        toString() { return this.toStrings().join(); }
        toJSON() { return this.toStrings(); }
        toValues() { return this.#bytes.slice(); }
        [Symbol.for("nodejs.util.inspect.custom")]() { return `${this.constructor.name}(${this.length})`; }
    }

    class NetworkSet extends NetworkList {
        constructor(networks = []) {
            if (networks !== made) made.bytes = covered(listed(networks));
            super(made);
        }
        static fromText(string, how = {}) { return new NetworkSet(textOf(string, how)); }
        static fromValues(given) { return new NetworkSet(NetworkList.fromValues(given)); }
        union(other) { return combined(c.pcidr_union, this, other); }
        intersection(other) { return combined(c.pcidr_intersection, this, other); }
        difference(other) { return combined(c.pcidr_difference, this, other); }
        symmetricDifference(other) { return combined(c.pcidr_symmetric_difference, this, other); }
        complement(within = "any") {
            const outer = network(within);
            return lent([bytesOf(this)], (at) => answer(4 * this.length + 128, (room, n) => {
                put(outer, one);
                return c.pcidr_complement(at, big(this.length), one, room, n, count);
            }, WIDE, setOf));
        }
        isSubsetOf(other) { return related(c.pcidr_is_subset, this, other); }
        isSupersetOf(other) { return related(c.pcidr_is_subset, listed(other), this); }
        isDisjointFrom(other) { return related(c.pcidr_is_disjoint, this, other); }
        has(given) { return this.hasEach([given])[0]; }
        hasEach(others) {
            const given = bytesOf(listed(others)), n = given.length / WIDE;
            return lent([bytesOf(this), given, new Uint8Array(n)], (at, to, answers) => {
                check(c.pcidr_contains_each(at, big(this.length), to, big(n), answers, big(n)));
                return Array.from(bytes.subarray(answers, answers + n), (answer) => answer === 1);
            });
        }
        numAddresses(version) {
            const call = family(version) === 4 ? c.pcidr_count_ipv4 : c.pcidr_count_ipv6;
            return lent([bytesOf(this)], (at) => {
                return number(call(at, big(this.length), out)) ?? 1n << 128n; // what the two halves have no room for
            });
        }
        nth(index, version) {
            index = wide(index);
            const call = family(version) === 4 ? c.pcidr_nth_ipv4 : c.pcidr_nth_ipv6;
            return lent([bytesOf(this)], (at) => {
                return found(call(at, big(this.length), index >> 64n, index & LOW, out), Address);
            });
        }
        ranges() {
            const ends = lent([bytesOf(this)], (at) => answer(this.length, (room, n) => c.pcidr_ranges(at, big(this.length), room, n, count), 2 * WIDE));
            return Array.from({ length: ends.length / 2 }, (_, i) => [ends.at(2 * i).networkAddress, ends.at(2 * i + 1).networkAddress]);
        }
    }
    function combined(call, set, other) {
        const these = bytesOf(set), those = bytesOf(listed(other)), n = these.length / WIDE, m = those.length / WIDE;
        return lent([these, those], (a, b) => answer(n + m, (room, size) => call(a, big(n), b, big(m), room, size, count), WIDE, setOf));
    }
    function related(call, set, other) {
        const these = bytesOf(set), those = bytesOf(listed(other));
        return lent([these, those], (a, b) => {
            check(call(a, big(these.length / WIDE), b, big(those.length / WIDE), count));
            return words[count >>> 2] === 1;
        });
    }
    function free(call, list, prefixlen) {
        narrow(prefixlen, 8);
        return lent([bytesOf(list)], (at) => found(call(at, big(list.length), prefixlen, out), Network));
    }
    const listed = (given) => (given instanceof NetworkList ? given : new NetworkList(given));
    /** The values of networks, addresses and strings. */
    function valuesOf(networks) {
        const all = Array.isArray(networks) ? networks : [...networks];
        const to = new Uint32Array(6 * all.length);
        for (let i = 0; i < all.length; i++) to.set(wordsOf(network(all[i])), 6 * i);
        return new Uint8Array(to.buffer);
    }
    const covered = (list) => lent([bytesOf(list)], (at) => {
        check(c.pcidr_cover(at, big(list.length), count));
        return bytes.slice(at, at + counted() * WIDE);
    });
    function textOf(given, { strict = true, masks = false }) {
        if (typeof given !== "string" && !(given instanceof Uint8Array)) throw new TypeError("neither a string nor a Uint8Array");
        const encoded = typeof given === "string" ? encoder.encode(given) : given;
        return lent([encoded], (at) => answer(64, (room, n) => {
            const line = count + 8, told = text, code = c.pcidr_read_list(at, big(encoded.length), (strict ? 0 : 1) + (masks ? 2 : 0), room, n, count, line, told, BIG[TEXT]);
            look();
            if (code === OK || code === NO_ROOM || code === NO_MEMORY) return code;
            const number = words[line >>> 2];
            throw errorOf(code, `line ${number}: ${read(bytes.indexOf(0, told) - told)}`, number);
        }));
    }

    const ROW = 48, FAULT = 32; // bytes of a row of a plan, and of a line of it that is in error
    /** Where places in a string's bytes, which ascend but for an end and what follows it, lie in the string. */
    function placesIn(encoded, places) {
        let at = 0, place = 0;
        return places.map((wanted) => {
            while (at > wanted) if ((encoded[--at] & 192) !== 128) place -= encoded[at] < 240 ? 1 : 2;
            while (at < wanted) {
                if ((encoded[at] & 192) !== 128) place += encoded[at] < 240 ? 1 : 2;
                at++;
            }
            return place;
        });
    }
    function readPlan(given, { strict = true, masks = false, most = Infinity } = {}) {
        if (typeof given !== "string" && !(given instanceof Uint8Array)) throw new TypeError("neither a string nor a Uint8Array");
        if (most !== Infinity) narrow(most, 32);
        const encoded = typeof given === "string" ? encoder.encode(given) : given, how = (strict ? 0 : 1) + (masks ? 2 : 0);
        const isPlain = typeof given !== "string" || encoded.length === given.length, places = (list) => (isPlain ? list : placesIn(encoded, list));
        let lineCount = 1;
        for (let feed = -1; (feed = encoded.indexOf(10, feed + 1)) >= 0; ) lineCount++;
        return lent([encoded], (at) => {
            for (let room = lineCount + 62, faultRoom = Math.min(lineCount, most); ; ) {
                const to = taken(room * ROW + faultRoom * FAULT);
                try {
                    const wrong = count + 8, faultsAt = to + room * ROW;
                    const code = c.pcidr_read_plan(at, big(encoded.length), how, to, big(room), count, faultsAt, big(faultRoom), wrong);
                    look();
                    if (code === NO_MEMORY) check(code);
                    const n = counted(), bad = words[wrong >>> 2];
                    if (n > room) {
                        room = n;
                        continue;
                    }
                    const values = new Uint8Array(n * WIDE), lines = new Uint32Array(n), begins = new Uint32Array(n), ends = new Uint32Array(n);
                    for (let i = 0, row = to >>> 2, value = new Uint32Array(values.buffer); i < n; i++, row += ROW / 4) {
                        for (let k = 0; k < WIDE / 4; k++) value[i * (WIDE / 4) + k] = words[row + k];
                        lines[i] = words[row + 6];
                        begins[i] = words[row + 8];
                        ends[i] = begins[i] + words[row + 10];
                    }
                    const faults = Array.from({ length: Math.min(bad, faultRoom) }, (_, i) => {
                        const fault = (faultsAt >>> 2) + i * (FAULT / 4), [line, begin, length] = [words[fault], words[fault + 2], words[fault + 4]];
                        const own = c.pcidr_plan_message(at + begin, big(length), how, text, BIG[TEXT]);
                        return errorOf(own, `line ${line}: ${read(bytes.indexOf(0, text) - text)}`, line);
                    });
                    return { networks: listOf(values), lines, begins: places(begins), ends: places(ends), faults, wrong: bad };
                } finally {
                    c.free(to);
                }
            }
        });
    }

    // ---- tables: rows of a network and a value, with the longest match

    const returned = new FinalizationRegistry((at) => c.free(at));
    const FILE = 144, FOUND = 16; // bytes of what a call tells of a file, and of a row that it finds

    /** A file of look-up tables in the module's memory. */
    class Held {
        #at;
        constructor(content) {
            const place = Math.ceil(content.length / 8) * 8;
            this.#at = taken(place + FILE);
            returned.register(this, this.at, this);
            this.length = big(content.length);
            this.file = this.at + place;
            bytes.set(content, this.at);
            check(c.pcidr_file_open(this.at, this.length, this.file));
            this.rows4 = words[(this.file + 56) >>> 2];
            this.rows = this.rows4 + words[(this.file + 128) >>> 2];
        }
        get at() {
            if (this.#at === 0) throw new TypeError("the table is closed");
            return this.#at;
        }
        close() {
            returned.unregister(this);
            c.free(this.#at);
            this.#at = 0;
        }
        /** The row of the longest match of an address, among those of both families, or -1; then its value lies where `out` says. */
        row(value) {
            put(value, one);
            if (c.pcidr_file_lookup(this.at, this.length, this.file, one, out) === 0) return -1;
            return words[(out + 12) >>> 2] + (tagOf(value) < 64 ? 0 : this.rows4);
        }
        rowEach(list) {
            const given = bytesOf(list);
            return lent([given, new Uint8Array(FOUND * list.length)], (at, to) => {
                check(c.pcidr_file_lookup_each(this.at, this.length, this.file, at, big(list.length), to, big(list.length)));
                return Int32Array.from({ length: list.length }, (_, i) => {
                    const row = words[(to + FOUND * i + 12) >>> 2];
                    return row === 0xffffffff ? -1 : row + (given[WIDE * i + TAG] < 64 ? 0 : this.rows4);
                });
            });
        }
    }

    class Table {
        #rows = null; // from the string of each network to its row; made when it is asked for
        #networks;
        #values;
        #held;
        constructor(rows = []) {
            const all = [...rows], list = new NetworkList(all.map(([given]) => given)), order = list.tableOrder();
            this.#networks = list.pick(order);
            this.#values = Array.from(order, (i) => all[i][1]);
            this.#held = new Held(lent([bytesOf(this.#networks)], (at) =>
                answer(64 * order.length + 1024, (room, n) => c.pcidr_set_write(at, big(order.length), room, n, count), 1, (content) => content)));
            Object.freeze(this);
        }
        #row(i) { return i < 0 ? null : Object.freeze([this.#networks.at(i), this.#values[i]]); }
        close() { this.#held.close(); }
        get size() { return this.#values.length; }
        #place(given) {
            this.#rows ??= new Map(this.#networks.toStrings().map((key, row) => [key, row]));
            return this.#rows.get(network(given).toString());
        }
        get(given) { return this.#values[this.#place(given)]; }
        has(given) { return this.#place(given) !== undefined; }
        lookup(given) {
            const value = network(given);
            return this.#row(value.prefixlen === value.maxPrefixlen && value.version ? this.#held.row(value) : this.#networks.longestMatchEach([value])[0]);
        }
        lookupEach(addresses) { return Array.from(this.#held.rowEach(listed(addresses)), (i) => this.#row(i)); }
        indexEach(addresses) { return this.#held.rowEach(listed(addresses)); }
        at(index) { return index >= 0 && index < this.size ? this.#row(index) : undefined; }
        covering(given) { return this.#networks.covering(given).reverse().map((i) => this.#row(i)); }
        covered(given) { return this.#networks.covered(given).map((i) => this.#row(i)); }
        get networks() { return this.#networks; }
        *[Symbol.iterator]() {
            for (let i = 0; i < this.size; i++) yield this.#row(i);
        }
        toFile(encoded = (value) => encoder.encode(String(value))) {
            const values = this.#values.map((value) => encoded(value)), offsets = new Uint32Array(values.length + 1);
            let end = 0;
            values.forEach((value, i) => {
                if (!(value instanceof Uint8Array)) throw new TypeError("not a Uint8Array");
                offsets[i + 1] = end = narrow(end + value.length, 32);
            });
            const joined = new Uint8Array(end);
            values.forEach((value, i) => joined.set(value, offsets[i]));
            const n = this.#networks.length;
            return lent([bytesOf(this.#networks), new Uint8Array(offsets.buffer), joined], (at, places, content) =>
                answer(64 * n + end + 1024, (room, size) =>
                    c.pcidr_file_write(at, big(n), places, big(n + 1), content, big(end), room, size, count), 1, (file) => file));
        }
        smallest() {
            return new Table(this.#reduced());
        }
        forwardsSame(other) {
            const numbers = new Map(), these = numbered(this.#networks, this.#values, numbers), those = numbered(other.#networks, other.#values, numbers);
            return lent([these, those], (a, b) => {
                check(c.pcidr_forwards_same(a, big(these.length / 32), b, big(those.length / 32), count));
                return words[count >>> 2] === 1;
            });
        }
        #reduced() {
            const numbers = new Map(), rows = numbered(this.#networks, this.#values, numbers), values = [...numbers.keys()], n = rows.length / 32;
            return lent([rows], (at) => answer(n, (room, size) => c.pcidr_smallest(at, big(n), room, size, count), 32, (content) =>
                Array.from({ length: content.length / 32 }, (_, i) => {
                    bytes.set(content.subarray(32 * i, 32 * i + WIDE), one);
                    return [got(Network, one), values[new DataView(content.buffer).getUint32(32 * i + 24, true)]];
                })));
        }
    }
    /** Rows of networks with a number for each value: equal values, as a Map has them, have one number. */
    function numbered(networks, values, numbers) {
        const from = bytesOf(networks), to = new Uint8Array(32 * values.length), view = new DataView(to.buffer);
        values.forEach((value, i) => {
            if (!numbers.has(value)) numbers.set(value, numbers.size);
            to.set(from.subarray(WIDE * i, WIDE * i + WIDE), 32 * i);
            view.setUint32(32 * i + 24, numbers.get(value), true);
        });
        return to;
    }

    class StoredTable {
        #held;
        constructor(content, { check: isChecked = true } = {}) {
            if (!(content instanceof Uint8Array)) throw new TypeError("not a Uint8Array");
            if (isChecked) {
                lent([content], (at) => {
                    check(c.pcidr_file_check(at, big(content.length)));
                });
            }
            this.#held = new Held(content);
            Object.freeze(this);
        }
        close() { this.#held.close(); }
        get size() { return this.#held.rows; }
        lookup(given) {
            if (this.#held.row(address(given)) < 0) return null;
            const at = this.#held.at + words[out >>> 2];
            return bytes.slice(at, at + words[(out + 8) >>> 2]);
        }
        has(given) {
            put(address(given), one);
            return c.pcidr_set_has(this.#held.at, this.#held.length, this.#held.file, one) === 1;
        }
        hasEach(addresses) {
            const list = listed(addresses), n = list.length;
            return lent([bytesOf(list), new Uint8Array(n)], (at, to) => {
                check(c.pcidr_set_has_each(this.#held.at, this.#held.length, this.#held.file, at, big(n), to, big(n)));
                return Array.from(bytes.subarray(to, to + n), (answer) => answer === 1);
            });
        }
    }

    // ---- functions

    function summarizeAddressRange(first, last) {
        const from = address(first), to = address(last);
        return answer(254, (room, n) => {
            put(from, one);
            put(to, two);
            return c.pcidr_summarize(one, two, room, n, count);
        }, WIDE, setOf);
    }
    /** Rules: pairs of a network and whether it is permitted. */
    function ruled(rules) {
        const all = [...rules], to = new Uint32Array(8 * all.length);
        all.forEach(([given, isPermitted], i) => {
            if (typeof isPermitted !== "boolean") throw new TypeError("a rule is a network and a boolean");
            to.set(wordsOf(network(given)), 8 * i);
            to[8 * i + 6] = isPermitted ? 1 : 0;
        });
        return new Uint8Array(to.buffer);
    }
    function permits(rules, given) {
        const inner = network(given), all = ruled(rules);
        return lent([all], (at) => {
            put(inner, one);
            return c.pcidr_permits(at, big(all.length / 32), one) === 1;
        });
    }
    const permitted = (rules) => {
        const all = ruled(rules);
        return lent([all], (at) => answer(64, (room, n) => c.pcidr_permitted(at, big(all.length / 32), room, n, count), WIDE, setOf));
    };
    const shadowed = (rules) => {
        const all = ruled(rules);
        return lent([all], (at) => answer(all.length / 32, (room, n) => c.pcidr_shadowed(at, big(all.length / 32), room, n, count), 8, indexes));
    };
    function deciding(rules, given) {
        const inner = network(given), all = ruled(rules);
        return lent([all], (at) => answer(all.length / 32, (room, n) => {
            put(inner, one);
            return c.pcidr_deciding(at, big(all.length / 32), one, room, n, count);
        }, 8, indexes));
    }

    const version = c.pcidr_version();
    return Object.freeze({
        Address, Host, Network, NetworkList, NetworkSet, StoredTable, Table, deciding, permits, permitted, readPlan, shadowed, summarizeAddressRange,
        textFault, errors, module, version: `${version >>> 16}.${(version >>> 8) & 255}.${version & 255}`,
    });
}
