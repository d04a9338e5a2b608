// curve.js: where a network lies on the map. A network's bits lead from the whole map to its part, so that only bits are read here.
// A curve keeps the boxes that lead to the last one: box i has i bits, and box i + 1 is made of it by the next bit.

const DEEPEST = 129, LEAST = 0.5; // boxes whose sides are both shorter have no parts

/** Boxes: each further bit halves the longer side, so that both halves of a network are halves of its box. */
export function boxes(width, height) {
    const x = new Float64Array(DEEPEST), y = x.slice(), a = x.slice(), b = x.slice();
    a[0] = width;
    b[0] = height;
    const step = (i, bit) => {
        const isWide = a[i] > b[i] * 1.3;
        a[i + 1] = isWide ? a[i] / 2 : a[i];
        b[i + 1] = isWide ? b[i] : b[i] / 2;
        x[i + 1] = x[i] + (isWide && bit ? a[i + 1] : 0);
        y[i + 1] = y[i] + (!isWide && bit ? b[i + 1] : 0);
    };
    return { x, y, a, b, step };
}

// Hilbert's curve: in each of four states, by two bits, the quarter as x and y, and the state in it.
const STEPS = ["003 010 110 102", "112 101 001 013", "111 012 002 100", "000 103 113 011"].map((state) => state.split(" ").map((step) => [...step].map(Number)));

/** Squares along Hilbert's curve: addresses that follow each other touch. A network of an odd length has two squares side by side. */
export function hilbert(width, height) {
    const x = new Float64Array(DEEPEST), y = x.slice(), a = x.slice(), b = x.slice(), state = new Uint8Array(DEEPEST), half = new Uint8Array(DEEPEST);
    a[0] = b[0] = Math.min(width, height);
    x[0] = (width - a[0]) / 2;
    y[0] = (height - a[0]) / 2;
    const step = (i, bit) => {
        if (i % 2 === 0) {
            const [ax, ay] = STEPS[state[i]][2 * bit], [bx, by] = STEPS[state[i]][2 * bit + 1], size = a[i] / 2;
            x[i + 1] = x[i] + Math.min(ax, bx) * size;
            y[i + 1] = y[i] + Math.min(ay, by) * size;
            a[i + 1] = ax === bx ? size : 2 * size;
            b[i + 1] = ay === by ? size : 2 * size;
            state[i + 1] = state[i];
            half[i + 1] = bit;
        } else {
            const [right, down, next] = STEPS[state[i]][2 * half[i] + bit], size = a[i - 1] / 2;
            x[i + 1] = x[i - 1] + right * size;
            y[i + 1] = y[i - 1] + down * size;
            a[i + 1] = b[i + 1] = size;
            state[i + 1] = next;
        }
    };
    return { x, y, a, b, step };
}

// The bits of a `pcidr_value`: low and high word of the high half, then of the low one, where IPv4 has the last word.
const WORDS = 6;
const bitAt = (words, at, p) => (words[at + (p < 32 ? 1 : p < 64 ? 0 : p < 96 ? 3 : 2)] >>> (31 - (p & 31))) & 1;
/** How many bits two values have in common, counted from the first one of 128. */
function common(words, one, other) {
    for (let i = 0; i < 4; i++) {
        const word = i ^ 1, differ = words[one + word] ^ words[other + word];
        if (differ !== 0) return 32 * i + Math.clz32(differ);
    }
    return 128;
}

/** The indexes from `begin` up to `end` of networks of at most so many bits. */
export function upToLength(words, length, begin, end) {
    const found = new Uint32Array(end - begin);
    let count = 0;
    for (let row = begin; row < end; row++) {
        const tag = words[WORDS * row + 4] & 255;
        if ((tag < 64 ? tag : tag - 64) <= length) found[count++] = row;
    }
    return found.subarray(0, count);
}

/** Where networks of one family lie on the map of a network of `from` bits: four numbers for each of those at some indexes. It takes the
 * least time where they ascend, since each begins with bits of the one before it. */
export function placed({ x, y, a, b, step }, words, from, rows) {
    const to = new Float32Array(4 * rows.length);
    for (let k = 0, last = -1, made = 0; k < to.length; k += 4) {
        const at = WORDS * rows[k / 4], tag = words[at + 4] & 255, first = tag < 64 ? 96 : 0, length = tag < 64 ? tag : tag - 64;
        let i = last < 0 ? 0 : Math.max(0, Math.min(made, length - from, common(words, last, at) - first - from));
        while (i < length - from && (a[i] >= LEAST || b[i] >= LEAST)) {
            step(i, bitAt(words, at, first + from + i));
            i++;
        }
        to[k] = x[i];
        to[k + 1] = y[i];
        to[k + 2] = a[i];
        to[k + 3] = b[i];
        last = at;
        made = i;
    }
    return to;
}

/** The same, with the places of a map before by the same curve: of the networks that both begin and end with they are taken. */
export function placedLike(before, curve, words, from, rows) {
    const count = rows.length, old = before?.rows.length ?? 0, most = Math.min(count, old), to = new Float32Array(4 * count);
    const isSame = (row, other) => {
        const one = WORDS * rows[row], two = WORDS * before.rows[other];
        for (let i = 0; i < WORDS; i++) if (words[one + i] !== before.words[two + i]) return false;
        return true;
    };
    let head = 0, tail = 0;
    while (head < most && isSame(head, head)) head++;
    while (tail < most - head && isSame(count - 1 - tail, old - 1 - tail)) tail++;
    if (head) to.set(before.to.subarray(0, 4 * head));
    to.set(placed(curve, words, from, rows.subarray(head, count - tail)), 4 * head);
    if (tail) to.set(before.to.subarray(4 * (old - tail)), 4 * (count - tail));
    return { words, rows, to };
}
