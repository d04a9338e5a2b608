// node plan.mjs PACKAGE: the parts of the page that need no browser: where networks lie on the map, and what a text says.
import assert from "node:assert/strict";
import { pathToFileURL } from "node:url";
import { boxes, hilbert, placed, placedLike, upToLength } from "../plan/curve.js";
import { Reader, applied, isTable, lastUpTo, lineChange, linesOf, plainText, within } from "../plan/compute.js";

Error.stackTraceLimit = 0; // 40,000 lines are refused
const { load } = await import(`${pathToFileURL(process.argv[2])}/pcidr.js`);
const pcidr = await load();
const { Network, NetworkList } = pcidr, wordsOf = (list) => new Uint32Array(list.toValues().buffer);

// ---- the map: each cell once, within its network's place, and along the curve neighbours touch

/** The place of each network of some bits, which `cell` makes of the number of those bits. */
const placesOf = (curve, cells, from) => {
    const found = placed(curve, wordsOf(new NetworkList(cells)), from, Uint32Array.from(cells.keys()));
    return Array.from(cells, (_, i) => [...found.subarray(4 * i, 4 * i + 4)]);
};
for (const [bits, width, height] of [[12, 512, 512], [11, 640, 400], [9, 300, 700]]) {
    for (const [name, make] of [["boxes", boxes], ["hilbert", hilbert]]) {
        for (const [network, from] of [["10.0.0.0/8", 8], ["2001:db8::/32", 32], ["2001:db8:0:1::/64", 64]]) {
            const outer = new Network(network), levels = Array.from({ length: bits + 1 }, (_, length) => placesOf(make(width, height), [...outer.subnets(from + length)], from));
            const cells = levels[bits], side = Math.min(width, height), whole = name === "boxes" ? width * height : side * side;
            const area = cells.reduce((sum, [, , a, b]) => sum + a * b, 0);
            cells.forEach(([x, y, a, b], cell) => {
                for (let length = 0; length < bits; length++) {
                    const [left, top, wide, high] = levels[length][cell >> (bits - length)];
                    assert.ok(x >= left - 1e-3 && y >= top - 1e-3 && x + a <= left + wide + 1e-3 && y + b <= top + high + 1e-3, `${name}: cell ${cell} is outside of its ${length} bits`);
                }
            });
            assert.ok(Math.abs(area - whole) < 1e-4 * whole, `${name}: the cells fill the map`);
            assert.equal(new Set(cells.map(([x, y]) => `${x.toFixed(3)} ${y.toFixed(3)}`)).size, 1 << bits, `${name}: each cell has a place of its own`);
            // in any order the places are the same
            const shuffled = [...outer.subnets(from + bits)].map((network, i) => [network, i]).sort(([, i], [, k]) => ((i * 7919) % (1 << bits)) - ((k * 7919) % (1 << bits)));
            placesOf(make(width, height), shuffled.map(([network]) => network), from).forEach((place, i) => assert.deepEqual(place, cells[shuffled[i][1]]));
            for (let i = 1; name === "hilbert" && i < cells.length; i++) {
                const [x, y, a, b] = cells[i - 1], [u, v, c, d] = cells[i];
                const across = Math.min(x + a, u + c) - Math.max(x, u), down = Math.min(y + b, v + d) - Math.max(y, v);
                assert.ok((Math.abs(across) < 1e-3 && down > 1e-3) || (Math.abs(down) < 1e-3 && across > 1e-3), `cells ${i - 1} and ${i} do not touch`);
            }
        }
    }
}
// of those that are smaller than a pixel the place is the one of a part of the map that has them
for (const make of [boxes, hilbert]) {
    const [[x, y, a, b]] = placesOf(make(512, 512), ["10.77.77.77"], 8), [[u, v, c, d]] = placesOf(make(512, 512), ["10.77.0.0/16"], 8);
    assert.ok(a <= 0.5 && b <= 0.5 && x >= u && y >= v && x + a <= u + c && y + b <= v + d);
}
assert.deepEqual([...upToLength(wordsOf(new NetworkList(["10.0.0.0/8", "10.0.0.0/25", "10.0.1.0/24", "10.0.2.0/24"])), 24, 1, 4)], [2, 3]);
assert.deepEqual([...upToLength(wordsOf(new NetworkList(["::/0", "2001:db8::/33", "2001:db8::/32"])), 32, 0, 3)], [0, 2]);

// after a change the places are those of the whole map
for (const make of [boxes, hilbert]) {
    let before = null;
    for (const removed of [[], [0], [5], [5, 6], [], [299], [0, 299], [7, 100, 200], Array.from({ length: 300 }, (_, i) => i), []]) {
        const words = wordsOf(new NetworkList([...new Network("10.0.0.0/8").subnets(17)].slice(0, 300))), kept = Uint32Array.from({ length: 300 }, (_, i) => i).filter((i) => !removed.includes(i));
        before = placedLike(before, make(512, 400), words, 8, kept);
        assert.deepEqual(before.to, placed(make(512, 400), words, 8, kept));
    }
}

// ---- what a text says

const rows = (text) => {
    const { networks, lines, begins, ends } = pcidr.readPlan(text);
    return networks.toStrings().map((network, i) => [network, text.slice(begins[i], ends[i]), lines[i]]);
};
const told = (text) => pcidr.readPlan(text).faults.map(({ line, message }) => [line, message]);
assert.deepEqual(rows("10.0.0.0/8 core # x\n\n  # only this\n10.1.0.0-10.1.0.9 dhcp pool \r\n10.2.0.0 - 10.2.0.1\tx\n10.3.0.0- 10.3.0.1\n10.4.0.0 -10.4.0.1,y, z\n::/0\n10.0.0.7 a - b;\n2001:db8::/32,größe 🌍 x\n::1 z"), [
    ["10.0.0.0/8", "core", 1], ["10.1.0.0/29", "dhcp pool", 4], ["10.1.0.8/31", "dhcp pool", 4], ["10.2.0.0/31", "x", 5], ["10.3.0.0/31", "", 6], ["10.4.0.0/31", "y, z", 7], ["::/0", "", 8],
    ["10.0.0.7", "a - b", 9], ["2001:db8::/32", "größe 🌍 x", 10], ["::1", "z", 11],
]);
assert.deepEqual(told("10.0.0.1 - not\n-\n::1\n10.0.0.1/8 a\n10.0.0.9-10.0.0.1\n10.0.0.0 255.0.0.0 x").map(([line]) => line), [1, 2, 4, 5, 6]);
assert.match(told("ok\n10.0.0.1/8 a\n")[1][1], /^line 2: 10\.0\.0\.1\/8: host bits set; the network is 10\.0\.0\.0\/8$/);
assert.equal(plainText('# export\n\nid,Prefix,site,Name\n1,10.0.0.0/8,s,"a, ""b"""\n\n2,"10.1.0.0/16",s,c;d\n3\n'), '10.0.0.0/8 a, "b"\n10.1.0.0/16 c d\n?\n');
assert.equal(plainText("network;description\n::/0;x\n"), "::/0 x\n");
for (const text of ["", "network\n10.0.0.0/8", "10.0.0.0/8,x\n", "\n\n"]) assert.equal(plainText(text), text);
assert.deepEqual(["network,name\n::/0,x", "# x\n\nid;Prefix\n", "10.0.0.0/8,x\n", ""].map(isTable), [true, true, false, false]);
const text = "10.0.0.0/8 all\n10.1.0.0/16 b\n10.1.0.0/16 again\n10.1.2.0/24 c\nx\n10.0.0.1/8\n10.9.0.0-10.9.0.2 r\n10.0.0.9-10.0.0.1\n2001:db8::/32 six\n", plan = new Reader(pcidr).read(text, "10.0.0.0/14");
assert.deepEqual(NetworkList.fromValues(plan.values).toStrings(), ["10.0.0.0/8", "10.1.0.0/16", "10.1.0.0/16", "10.1.2.0/24", "10.9.0.0/31", "10.9.0.2", "2001:db8::/32"]);
assert.deepEqual([[...plan.outer], [...plan.depth], [...plan.leaf], [...plan.twice], Array.from(plan.nameBegins, (begin, row) => text.slice(begin, plan.nameEnds[row])), [...plan.lines], plan.inside, plan.repeated],
    [[-1, 0, 1, 2, 0, 0, -1], [0, 1, 2, 3, 1, 1, 0], [0, 0, 0, 1, 1, 1, 1], [0, 0, 1, 0, 0, 0, 0], ["all", "b", "again", "c", "r", "r", "six"], [0, 1, 2, 3, 6, 6, 8], 5, 1]);
assert.deepEqual(NetworkList.fromValues(plan.leaves).toStrings(), ["10.1.2.0/24", "10.9.0.0/31", "10.9.0.2", "2001:db8::/32"]);
assert.deepEqual(NetworkList.fromValues(plan.cover).toStrings(), ["10.0.0.0/8", "2001:db8::/32"]);
assert.deepEqual(NetworkList.fromValues(plan.gaps).toStrings(), "10.0.0.0/16 10.1.0.0/23 10.1.3.0/24 10.1.4.0/22 10.1.8.0/21 10.1.16.0/20 10.1.32.0/19 10.1.64.0/18 10.1.128.0/17 10.2.0.0/15".split(" "));
assert.deepEqual([plan.wrong, plan.faults.map(({ line }) => line)], [3, [4, 5, 7]]);
assert.match(plan.faults[1].message, /the network is 10\.0\.0\.0\/8/);
const anyPlan = new Reader(pcidr).read("any\n10.0.0.0/8\nx", null);
assert.deepEqual([NetworkList.fromValues(anyPlan.values).toStrings(), anyPlan.faults.map(({ line }) => line)], [["10.0.0.0/8"], [0, 2]]);
assert.deepEqual([new Reader(pcidr).read("", null).values.length, new Reader(pcidr).read("x", null).wrong], [0, 1]);

// ---- where a network is among others that ascend

const rowsThere = NetworkList.fromValues(plan.values);
const last = (network) => lastUpTo(rowsThere, new Network(network)), those = (network) => within(rowsThere, new Network(network));
assert.deepEqual(["9.0.0.0/8", "10.0.0.0/7", "10.0.0.0/8", "10.1.0.0/16", "10.1.1.0/24", "10.200.0.1", "ffff::"].map(last), [-1, -1, 0, 2, 2, 5, 6]);
assert.deepEqual(["10.0.0.0/7", "10.1.0.0/16", "10.9.0.0/30", "10.9.0.1", "::/0", "0.0.0.0/0"].map(those), [[0, 6], [1, 4], [4, 6], [5, 5], [6, 7], [0, 6]]);

// ---- changes: what is read of them is what is read of the text that they make

let state = 1;
const random = (n) => (state = (state * 48271) % 2147483647) % n;
const word = () => ["10.0.0.0/8 all", "10.1.0.0/16 b", `10.${random(4)}.${random(8)}.0/24 lan ${random(3)}`, `10.${random(3)}.0.0/16`, "10.9.0.0-10.9.0.2 r", "x", "10.0.0.1/8", "", "# c", "2001:db8::/32 six", `2001:db8:${random(4)}::/48 v6`][random(11)];
const textOf = (count) => Array.from({ length: count }, word).join("\n") + (random(2) ? "\n" : "");
for (let trial = 0; trial < 60; trial++) {
    const reader = new Reader(pcidr);
    let now = textOf(random(12));
    reader.read(now, null);
    for (let step = 0; step < 6; step++) {
        // some characters become others, which is then a change of whole lines
        const begin = random(now.length + 1), end = Math.min(now.length, begin + random(3) * random(20)), next = now.slice(0, begin) + (random(2) ? textOf(random(4)) : "") + now.slice(end), edit = lineChange(now, next);
        if (edit === null) {
            assert.equal(now, next);
            continue;
        }
        assert.equal(applied(now, [edit]), next);
        const gone = now.slice(edit.begin, edit.end), isWhole = (at) => at === 0 || now[at - 1] === "\n";
        assert.ok(isWhole(edit.begin) && (edit.end === now.length || isWhole(edit.end)), JSON.stringify([now, edit]));
        assert.equal(edit.line, linesOf(now.slice(0, edit.begin)));
        const made = reader.change([{ ...edit, count: linesOf(gone) }], "10.0.0.0/8"), fresh = new Reader(pcidr).read(next, "10.0.0.0/8");
        for (const plan of [made, fresh]) delete plan.colours;
        assert.deepEqual(made, fresh, JSON.stringify([now, next]));
        now = next;
    }
}

// ---- 100,000 rows

const lines = Array.from({ length: 100000 }, (_, i) => `10.${(i * 7919 >> 8) & 255}.${(i * 7919) & 255}.0/${[24, 24, 24, 26, 28][i % 5]} site-${i % 40} lan ${i}`).join("\n");
const cost = (act) => {
    const begin = process.cpuUsage(), result = act(), { user, system } = process.cpuUsage(begin);
    return [(user + system) / 1e6, result];
};
const reader = new Reader(pcidr), heard = [], [read, whole] = cost(() => reader.read(lines, "10.0.0.0/8", (...how) => heard.push(how)));
assert.equal(whole.lines.length, 100000);
// it is read piece by piece, and tells how far it is
const counts = heard.map(([, count]) => count).filter((count) => count !== undefined), parts = heard.map(([part]) => part);
assert.ok(counts.length > 8 && counts[0] === 0 && counts.at(-1) < 100000 && counts.every((count, i) => i === 0 || count > counts[i - 1]), String(counts));
assert.ok(parts.every((part, i) => part < 1 && (i === 0 || part > parts[i - 1])), String(parts));
// and what is read so is what the library says of the whole
for (const text of [Array.from({ length: 60000 }, word).join("\n"), lines, `${"# c\n".repeat(100000)}10.0.0.0/8 x`]) {
    const made = new Reader(pcidr).read(text, null), direct = pcidr.readPlan(text), order = direct.networks.order(), picked = (array) => Array.from(order, (row) => array[row]);
    assert.deepEqual([made.lines, made.nameBegins, made.nameEnds].map((array) => [...array]), [picked(direct.lines.map((line) => line - 1)), picked(direct.begins), picked(direct.ends)]);
    assert.deepEqual([made.values, made.wrong], [direct.networks.pick(order).toValues(), direct.wrong]);
    assert.deepEqual(made.faults.map(({ line, message }) => `line ${line + 1}: ${message}`), direct.faults.slice(0, made.faults.length).map(({ message }) => message));
}
const [change, changed] = cost(() => reader.change([{ line: 50000, count: 1, begin: lines.split("\n", 50000).join("\n").length + 1, end: lines.split("\n", 50001).join("\n").length + 1, text: "10.0.0.0/9 new\n" }], "10.0.0.0/8"));
assert.equal(changed.lines.length, 100000);
console.log(`the map's cells, and what texts and changes say, are as wanted; 100,000 rows take ${read.toFixed(2)} s of processor time, a change of them ${change.toFixed(2)}`);
