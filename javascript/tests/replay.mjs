// node replay.mjs PACKAGE: the operations of rust/replay that the package has calls for, with the results that are expected of them, which
// come from outside. Where an operation is of one family, and its string of the other one, it is left out: the package has one type.
import { readFileSync } from "node:fs";
import { pathToFileURL } from "node:url";

const { load, PcidrError } = await import(`${pathToFileURL(process.argv[2])}/pcidr.js`);
const { Address, Host, Network, NetworkSet, deciding, permitted, shadowed, summarizeAddressRange } = await load();
const lines = (name) => readFileSync(new URL(`../../rust/replay/${name}`, import.meta.url), "latin1").split("\n");

const LEFT_OUT = Symbol("left out");
const KINDS = { NotAddressError: "AddrParseError", AddressError: "AddrParseError", LengthError: "NetworkLengthParseError", LengthTooLongError: "NetworkLengthTooLongError", HostPartError: "InvalidHostPart",
    TruncatedError: "Truncated", TagError: "InvalidTag", AnyError: "InvalidAny" };
const unescaped = (token) => Buffer.from(token.slice(1).replace(/%(..)/g, (_, digits) => String.fromCharCode(parseInt(digits, 16))), "latin1").toString();

const list = (token) => (token === "-" ? [] : token.split(","));
const rules = (token) => list(token).map((rule) => [rule.slice(1), rule[0] === "+"]);
const bytes = (token) => Uint8Array.from(token.slice(1).match(/../g) ?? [], (digits) => parseInt(digits, 16));
const full = (network) => network.withPrefixlen;
const maybe = (value, show = String) => (value === null ? "None" : show(value));
const all = (networks) => `[${Array.from(networks, full).join(", ")}]`;
const set = (token) => new NetworkSet(list(token));
const order = (n) => ["less", "equal", "greater"][n + 1];
const forward = (type) => (type === "v6" ? 6 : 4);
/** Whether a value is of the type that an operation names; with one of another type the answers may differ. */
const isOf = (type, value) => (type === "v4" ? value.version === 4 : type === "v6" ? value.version === 6 : type === "ip" ? value.version !== null : true);
/** What a string is read as: `ok` and the value, or `err` and the kind of its error. */
function read(type, make, show) {
    let value;
    try {
        value = make();
    } catch (error) {
        if (!(error instanceof PcidrError)) throw error;
        return type === "v4" || type === "v6" ? LEFT_OUT : `err ${KINDS[error.name] ?? error.name}`;
    }
    return isOf(type, value) ? `ok ${show(value)}` : LEFT_OUT;
}
function orNone(make, none = "None") {
    try {
        return make();
    } catch (error) {
        if (!(error instanceof PcidrError)) throw error;
        return none;
    }
}
const shown = (network) => (network.version === null ? "none none none none none false"
    : `${network.networkAddress} ${network.broadcastAddress} ${network.netmask} ${network.prefixlen} Ipv${network.version} ${network.prefixlen === network.maxPrefixlen}`);
const special = (name) => (_, address) => String(new Address(address)[name]);
const combined = (name) => (_, these, those) => all(set(these)[name](list(those)));
const related = (name) => (_, these, those) => String(set(these)[name](list(those)));

const OPERATIONS = {
    "addr.parse": (type, text) => read(type, () => new Address(unescaped(text)), String),
    "addr.text": (type, address) => [0, 1, 2].map(() => String(new Address(address))).join(" "),
    "addr.cmp": (type, one, other) => order(new Address(one).compare(other)),
    "addr.to_bits": (type, address) => String(new Address(address).toBigInt()),
    "addr.from_bits": (type, number) => String(Address.fromBigInt(BigInt(number), forward(type))),
    "cidr.parse": (type, text) => read(type, () => new Network(unescaped(text)), full),
    "cidr.show": (type, network) => shown(new Network(network)),
    "cidr.contains": (type, network, address) => String(new Network(network).contains(new Address(address))),
    "cidr.contains_cidr": (type, one, other) => String(new Network(one).contains(other)),
    "cidr.cmp": (type, one, other) => order(new Network(one).compare(other)),
    "cidr.text": (type, text) => {
        const network = new Network(text), plain = String(network), forced = full(network);
        return [plain, plain, forced, forced, ...(type === "v4" || type === "v6" ? [forced] : [])].join(" ");
    },
    "inet.parse": (type, text) => read(type, () => new Host(unescaped(text)), full),
    "inet.show": (type, text) => {
        const host = new Host(text);
        return `${host.ip} ${full(host.network)} ${shown(host.network)}`;
    },
    "inet.contains": (type, host, address) => String(new Host(host).network.contains(new Address(address))),
    "inet.cmp": (type, one, other) => order(new Host(one).compare(other)),
    "compact.to": (type, network) => `x${Buffer.from(new Network(network).toBytes()).toString("hex")}`,
    "compact.from": (type, given) => read(type, () => Network.fromBytes(bytes(given)), full),
    "hostcompact.to": (type, host) => `x${Buffer.from(new Host(host).toBytes()).toString("hex")}`,
    "hostcompact.from": (type, given) => read(type, () => Host.fromBytes(bytes(given)), full),
    "parse.parse_loose_ip": (type, text) => read(type, () => Address.fromLoose(unescaped(text)), String),
    "parse.parse_short_any_ip_cidr": (type, text) => read(type, () => Network.fromShort(unescaped(text)), full),
    "set.from_networks": (type, given) => all(set(given)),
    "set.union": combined("union"),
    "set.intersection": combined("intersection"),
    "set.difference": combined("difference"),
    "set.symmetric_difference": combined("symmetricDifference"),
    "set.is_subset": related("isSubsetOf"),
    "set.contains_all": related("isSupersetOf"),
    "set.is_disjoint": related("isDisjointFrom"),
    "set.eq": (type, these, those) => String(String(set(these)) === String(set(those))),
    "set.contains": (type, given, network) => String(set(given).has(network)),
    "set.overlaps": (type, given, network) => String(!set(given).isDisjointFrom([network])),
    "set.complement_in": (type, given, network) => all(set(given).complement(network)),
    "set.from_range": (type, first, last) => all(summarizeAddressRange(first, last)),
    "set.ranges": (type, given) => `[${set(given).ranges().map(([first, last]) => `(${first}, ${last})`).join(", ")}]`,
    "set.address_count": (type, given) => (set(given).numAddresses(forward(type)) >> 128n ? "None" : String(set(given).numAddresses(forward(type)))),
    "set.nth": (type, given, index) => maybe(set(given).nth(BigInt(index), forward(type))),
    "set.first_free": (type, given, length) => (type === "any" || length > 255 ? LEFT_OUT : maybe(set(given).firstFree(Number(length)), full)),
    "set.best_free": (type, given, length) => (type === "any" || length > 255 ? LEFT_OUT : maybe(set(given).bestFree(Number(length)), full)),
    "set.permitted": (type, given) => all(permitted(rules(given))),
    "set.shadowed": (type, given) => `[${shadowed(rules(given)).join(", ")}]`,
    "set.deciding": (type, given, network) => `[${deciding(rules(given), network).join(", ")}]`,
    "tree.parent": (type, network) => (type === "any" ? LEFT_OUT : maybe(new Network(network).supernet(), full)),
    "tree.halves": (type, network) => (type === "any" ? LEFT_OUT : maybe(new Network(network).halves(), (both) => `(${both.map(full).join(", ")})`)),
    "tree.sibling": (type, network) => (type === "any" ? LEFT_OUT : maybe(new Network(network).sibling(), full)),
    "tree.supernet": (type, network, length) => (type === "any" || length > 255 ? LEFT_OUT : maybe(new Network(network).supernet(Number(length)), full)),
    "tree.is_sibling_of": (type, one, other) => (type === "any" ? LEFT_OUT : String(new Network(one).isSiblingOf(other))),
    "tree.overlaps": (type, one, other) => String(new Network(one).overlaps(other)),
    "tree.spanning": (type, one, other) => (type === "ip" ? LEFT_OUT : full(new Network(one).spanning(other))),
    "network.subnet": (type, network, length, index) => (length > 255 ? LEFT_OUT : maybe(new Network(network).subnet(Number(length), BigInt(index)), full)),
    "network.address_count": (type, network) => (new Network(network).numAddresses >> 128n ? "None" : String(new Network(network).numAddresses)),
    "network.next_network": (type, network) => maybe(new Network(network).next(), full),
    "network.previous_network": (type, network) => maybe(new Network(network).previous(), full),
    "network.host_mask": (type, network) => String(new Network(network).hostmask),
    "network.nth": (type, network, index) => maybe(new Network(network).nth(BigInt(index))),
    "network.position": (type, network, address) => maybe(new Network(network).indexOf(address)),
    "network.reverse_name": (type, network) => maybe(new Network(network).reversePointer, JSON.stringify),
    "address.reverse_name": (type, address) => JSON.stringify(new Address(address).reversePointer),
    "address.to_number": (type, address) => String(new Address(address).toBigInt()),
    "address.mask_length": (type, address) => maybe(new Address(address).maskLength),
    "address.host_mask_length": (type, address) => maybe(new Address(address).hostMaskLength),
    "name.zones": (type, network) => `[${new Network(network).reverseZones().map((name) => JSON.stringify(name)).join(", ")}]`,
    "name.to_network": (type, name) => (type === "ip" ? orNone(() => full(Network.fromReversePointer(name))) : LEFT_OUT),
    "mask.to_mask_text": (type, network) => JSON.stringify(new Network(network).withNetmask),
    "mask.to_host_mask_text": (type, network) => JSON.stringify(new Network(network).withHostmask),
    "mask.from_mask_text": (type, text) => (type === "ip" ? orNone(() => full(Network.fromMasked(text)), "Err") : LEFT_OUT),
    "inside.address_to_ipv6_mapped": (address) => String(new Address(address).ipv6Mapped),
    "inside.network_to_ipv6_mapped": (network) => full(new Network(network).ipv6Mapped),
    "inside.address_to_ipv4_mapped": (address) => maybe(new Address(address).ipv4Mapped),
    "inside.network_to_ipv4_mapped": (network) => maybe(new Network(network).ipv4Mapped, full),
    "inside.to_ipv4_6to4": (address) => maybe(new Address(address).sixtofour),
    "inside.to_ipv4_nat64": (address) => maybe(new Address(address).nat64),
    "special.is_global": special("isGlobal"),
    "special.is_private": special("isPrivate"),
    "special.is_loopback": special("isLoopback"),
    "special.is_link_local": special("isLinkLocal"),
    "special.is_documentation": special("isDocumentation"),
    "special.is_unspecified": special("isUnspecified"),
    "special.is_multicast": special("isMulticast"),
    "special.special_entry": (type, address) => maybe(new Address(address).specialEntry, ({ network, rfc, source, destination, forwardable, globallyReachable, reservedByProtocol }) =>
        `${network.networkAddress.toBigInt()} ${network.prefixlen} ${rfc} ${[source, destination, forwardable, globallyReachable, reservedByProtocol].join(" ")}`),
};

/** A result as the operations above show it. */
function wanted(operation, answer) {
    if (operation === "special.special_entry" && answer !== "None") {
        const column = (name) => ({ "Some(true)": "true", "Some(false)": "false", None: "" })[answer.match(new RegExp(`${name}: (Some\\(\\w+\\)|None)`))[1]];
        return [answer.match(/first: (\d+)/)[1], answer.match(/len: (\d+)/)[1], answer.match(/rfc: (\d+)/)[1],
            ...["source", "destination", "forwardable", "globally_reachable", "reserved_by_protocol"].map(column)].join(" ");
    }
    if (operation === "mask.from_mask_text" && answer.startsWith("Err(")) return "Err";
    if (answer.startsWith("err ")) return answer.split(" ", 2).join(" ");
    if (/compact\.from/.test(operation)) return answer.replace(/ \d+$/, ""); // how many bytes there are
    let made = answer.replace(/\bAny\b/g, "any"), before;
    do {
        before = made;
        made = made.replace(/\b(?:Some|Ok|V4|V6)\((\((?:[^()]*)\)|[^()]*)\)/g, "$1");
    } while (made !== before);
    return made;
}

const [operations, answers] = [lines("stdin"), lines("stdout")];
const tried = new Map();
let differ = 0;
for (let i = 0; i < operations.length; i++) {
    const [operation, ...words] = operations[i].split(" "), run = OPERATIONS[operation];
    if (!run || answers[i] === "malformed" || answers[i] === "unsupported" || /[^\x20-\x7e]/.test(operations[i])) continue;
    const got = run(...words);
    if (got === LEFT_OUT) continue;
    tried.set(operation, (tried.get(operation) ?? 0) + 1);
    if (got !== wanted(operation, answers[i]) && differ++ < 10) console.log(`${operations[i]}\n  is ${got}\n  and not ${wanted(operation, answers[i])}`);
}
for (const operation of Object.keys(OPERATIONS)) {
    if (!tried.has(operation) && ++differ) console.log(`${operation} was not tried`);
}
console.log(`the replay: ${[...tried.values()].reduce((sum, count) => sum + count, 0)} operations of ${tried.size} kinds, ${differ} differ`);
process.exit(differ ? 1 : 0);
