// node module.mjs PARTS.wasm: the helpers of 128 bits beside BigInt, and that blocks of the heap never overlap.
import assert from "node:assert/strict";
import { readFileSync } from "node:fs";

const { exports: c } = new WebAssembly.Instance(new WebAssembly.Module(readFileSync(process.argv[2])), {});
const ALL = (1n << 128n) - 1n, LOW = (1n << 64n) - 1n;
let state = 1n;
const random = (bits) => {
    let n = 0n;
    for (let i = 0; i < bits; i += 32) n = (n << 32n) | ((state = (state * 6364136223846793005n + 1442695040888963407n) & LOW) >> 32n);
    return n & ((1n << BigInt(bits)) - 1n);
};
const view = () => new DataView(c.memory.buffer);

// ---- numbers: two halves each, and the result behind an address

const place = Number(c.malloc(16n));
const result = () => (view().getBigUint64(place + 8, true) << 64n) | view().getBigUint64(place, true);
const halves = (n) => [n & LOW, n >> 64n];
for (let turn = 0; turn < 3000; turn++) {
    const one = random(128) >> random(7), other = turn % 3 ? random(128) >> random(7) : (1n << random(7)) - (turn % 2 ? 1n : 0n), count = turn % 128;
    c.__multi3(place, ...halves(one), ...halves(other));
    assert.equal(result(), (one * other) & ALL);
    c.__ashlti3(place, ...halves(one), count);
    assert.equal(result(), (one << BigInt(count)) & ALL);
    c.__lshrti3(place, ...halves(one), count);
    assert.equal(result(), one >> BigInt(count));
    if (other === 0n) continue;
    c.__udivti3(place, ...halves(one), ...halves(other));
    assert.equal(result(), one / other);
    c.__umodti3(place, ...halves(one), ...halves(other));
    assert.equal(result(), one % other);
}

// ---- the heap: each block has bytes of its own, aligned to 16, which stay until it is given back or moved

const told = Number(c.malloc(16n));
const got = () => (view().getBigUint64(told, true) === 1n ? Number(view().getBigUint64(told + 8, true)) : 0);
const blocks = [];
let refused = 0, moved = 0;
const fill = (block) => new Uint8Array(c.memory.buffer, block.at, block.size).fill(block.mark);
const holds = (block, size = block.size) => new Uint8Array(c.memory.buffer, block.at, size).every((byte) => byte === block.mark);
for (let turn = 0; turn < 8000; turn++) {
    const kind = Number(random(3)), size = Number(random(32) >> (BigInt(16) + (random(32) % 16n)));
    if (kind < 4 || blocks.length === 0) {
        if (kind === 0) c.rattle_alloc(told, BigInt(size), 16n);
        const at = kind === 0 ? got() : Number(c.malloc(BigInt(size))) >>> 0;
        if (at === 0) {
            refused++;
            continue;
        }
        assert.equal(at % 16, 0);
        assert.ok(at + size <= c.memory.buffer.byteLength);
        const block = { at, size, mark: 1 + (turn % 255) };
        fill(block);
        blocks.push(block);
        continue;
    }
    const i = Number(random(32) % BigInt(blocks.length)), block = blocks[i];
    assert.ok(holds(block), `turn ${turn}`);
    if (kind < 6) {
        const kept = Math.min(block.size, size);
        c.rattle_realloc(told, block.at, BigInt(kept), BigInt(size), 8n);
        const at = got();
        if (at === 0) {
            refused++;
            assert.ok(holds(block), "a block that could not grow stays");
            continue;
        }
        if (at !== block.at) moved++;
        block.at = at;
        assert.ok(holds(block, kept), "what is kept");
        block.size = size;
        fill(block);
        continue;
    }
    if (kind === 6) c.free(block.at);
    else c.rattle_dealloc(block.at);
    blocks[i] = blocks[blocks.length - 1];
    blocks.pop();
}
blocks.forEach((block) => assert.ok(holds(block)));
assert.ok(refused > 0 && moved > 0, `${refused} refused, ${moved} moved`);
c.free(0);
for (const size of [2n ** 31n - 15n, 2n ** 32n, 2n ** 63n, LOW]) assert.equal(c.malloc(size), 0, "more than there can be");
console.log(`the helpers of 128 bits are as BigInt; the heap moved ${moved} blocks and refused ${refused}, and none overlap`);
