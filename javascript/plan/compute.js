// compute.js: what a plan's text says. All about networks comes from the library; here are lines, fields and names.

const FAULTS = 200; // so many wrong lines are told, and of the others their number
const PIECE = 1 << 18; // so many characters of a long text are read at a time, and a line's rest
const NETWORK = /^(network|prefix|cidr|subnet|address|range|ip)$/i;
const NAMES = [/^name$/i, /^description$/i, /^(comment|label|usage|site)$/i]; // the first that a header has

/** The fields of a line of CSV, as RFC 4180 has them within a line. */
function fields(line, separator) {
    const found = [];
    for (let at = 0; at <= line.length; ) {
        if (line[at] === '"') {
            let field = "", end = at + 1;
            for (;;) {
                const quote = line.indexOf('"', end);
                if (quote < 0) {
                    field += line.slice(end);
                    end = line.length;
                    break;
                }
                field += line.slice(end, quote);
                end = quote + 1;
                if (line[end] !== '"') break;
                field += '"';
                end++;
            }
            found.push(field.trim());
            const next = line.indexOf(separator, end);
            at = next < 0 ? line.length + 1 : next + 1;
        } else {
            const next = line.indexOf(separator, at), end = next < 0 ? line.length : next;
            found.push(line.slice(at, end).trim());
            at = end + 1;
        }
    }
    return found;
}

/** Which columns a header names: null where the line is none. */
function header(line) {
    for (const separator of [",", ";", "\t"]) {
        const names = fields(line, separator), network = names.findIndex((name) => NETWORK.test(name));
        if (network >= 0 && names.length > 1) {
            const name = Math.max(-1, ...NAMES.map((kind) => names.findIndex((it) => kind.test(it))).filter((column) => column >= 0).slice(0, 1));
            return { separator, network, name };
        }
    }
    return null;
}

/** The first line of a text that is no comment, and what is before it. */
const firstLine = (text) => /^(?:[^\S\n]*(?:[#;].*)?\n)*(.*)/.exec(text);

/** Whether a text is CSV with a header. */
export const isTable = (text) => header(firstLine(text)[1].trim()) !== null;

/** The text of a plan: of CSV with a header its rows as plain lines, and else the text as it is. */
export function plainText(text) {
    const first = firstLine(text), columns = header(first[1].trim());
    if (!columns) return text;
    return text.slice(first[0].length + 1).split("\n").filter((line) => /\S/.test(line) && line[0] !== "#").map((line) => {
        const found = fields(line.trimEnd(), columns.separator), name = columns.name >= 0 ? found[columns.name] ?? "" : "";
        return `${found[columns.network] || "?"} ${name.replace(/[#;]/g, " ")}`.trimEnd() + "\n";
    }).join("");
}

const COMMA = 44;
const isGap = (code) => code <= 32 || code === COMMA;

/** Reads a plan, and then what changes in it: it keeps the rows in the order of their lines, so that of a change only the lines that are new
 * are read. What it returns are arrays that can be sent to another thread. */
export class Reader {
    #pcidr;
    #groups = new Map(); // rows of one first word have one colour
    #rows = null;
    #faults = []; // in the order of their lines

    constructor(pcidr) {
        this.#pcidr = pcidr;
    }

    /** A whole text, and what is free in a network. `told` is called with the part that is done, and with how many lines are read, until all are. */
    read(given, view, told = () => {}) {
        const text = plainText(given);
        this.#groups.clear();
        ({ rows: this.#rows, faults: this.#faults } = this.#parsed(text, told));
        const plan = this.#plan(view, told);
        if (text !== given) plan.text = text; // changes are made to plain lines
        return plan;
    }

    /** Changes, one after the other: of each, how many lines from `line` on, which have the characters from `begin` up to `end`, become those
     * of `text`. Of changes that are soon read nothing is told. */
    change(edits, view, told = () => {}) {
        if (edits.every(({ text }) => text.length < PIECE)) told = () => {};
        for (const { line, count, begin, end, text } of edits) {
            const { rows, faults } = this.#parsed(text, told), old = this.#rows, lines = linesOf(text), first = notBelow(old.lines, line), last = notBelow(old.lines, line + count);
            const put = (array, added, by, after) => moved(moved(spliced(array, first, last, added), by, first, first + added.length), after, first + added.length);
            this.#rows = {
                values: spliced(old.values, 24 * first, 24 * last, rows.values),
                lines: put(old.lines, rows.lines, line, lines - count),
                begins: put(old.begins, rows.begins, begin, text.length - (end - begin)),
                ends: put(old.ends, rows.ends, begin, text.length - (end - begin)),
                colours: spliced(old.colours, first, last, rows.colours),
            };
            this.#faults = [
                ...this.#faults.filter((fault) => fault.line < line),
                ...faults.map((fault) => ({ ...fault, line: fault.line + line })),
                ...this.#faults.filter((fault) => fault.line >= line + count).map((fault) => ({ ...fault, line: fault.line + lines - count })),
            ];
        }
        return this.#plan(view, told);
    }

    /** The rows of some lines, and what is wrong with the others. Of long texts one piece is read after the other. */
    #parsed(text, told) {
        const rows = [], faults = [];
        for (let line = 0, begin = 0; begin === 0 || begin < text.length; ) {
            told(begin && 0.5 * begin / text.length, line);
            const feed = text.indexOf("\n", begin + PIECE), end = feed < 0 ? text.length : feed + 1, piece = text.slice(begin, end), found = this.#piece(piece);
            for (const [array, by] of [[found.rows.lines, line], [found.rows.begins, begin], [found.rows.ends, begin]]) moved(array, by, 0);
            rows.push(found.rows);
            for (const fault of found.faults) faults.push({ ...fault, line: fault.line + line });
            if (end === 0) break;
            line += linesOf(piece);
            begin = end;
        }
        if (rows.length === 1) return { rows: rows[0], faults };
        return { rows: Object.fromEntries(Object.keys(rows[0]).map((name) => [name, joined(rows.map((part) => part[name]))])), faults };
    }

    /** The same of one piece. */
    #piece(text) {
        // (what web pages have for a space, and some files in front, is white space here, too)
        const { networks, lines, begins, ends, faults: refused } = this.#pcidr.readPlan(text.replace(/[\u00a0\ufeff]/g, " ")), count = lines.length;
        const rows = { values: networks.toValues(), lines: lines.map((line) => line - 1), begins, ends, colours: new Uint8Array(count) };
        for (let row = 0; row < count; row++) {
            let end = begins[row];
            while (end < ends[row] && !isGap(text.charCodeAt(end))) end++;
            const word = text.slice(begins[row], end);
            if (!this.#groups.has(word)) this.#groups.set(word, this.#groups.size);
            rows.colours[row] = this.#groups.get(word) % 8;
        }
        const faults = refused.map(({ line, message }) => ({ line: line - 1, message: message.slice(message.indexOf(": ") + 2) }));
        return { rows, faults };
    }

    /** The rows in the order of their networks, and of each the nearest row around it, how many are around it, whether it has rows inside,
     * whether the one before it is of the same network, and where its name lies in the text; all merged, and what is free in a network. */
    #plan(view, told) {
        const { NetworkList, NetworkSet } = this.#pcidr, rows = this.#rows, list = NetworkList.fromValues(rows.values);
        told(0.5);
        const order = list.order(), sorted = list.pick(order), count = order.length, picked = (array) => {
            const made = new array.constructor(count);
            for (let i = 0; i < count; i++) made[i] = array[order[i]];
            return made;
        };
        const nearest = sorted.nearestEach(), twice = new Uint8Array(count).fill(1);
        twice[0] = 0;
        // what a table of them would take is the last one of each network
        for (const row of sorted.tableOrder()) if (row + 1 < count) twice[row + 1] = 0;
        told(0.75);
        const outer = new Int32Array(count), depth = new Uint16Array(count), leaf = new Uint8Array(count).fill(1);
        let inside = 0, repeated = 0;
        for (let row = 0; row < count; row++) {
            outer[row] = twice[row] ? row - 1 : nearest[row];
            if (outer[row] < 0) continue;
            inside++;
            repeated += twice[row];
            depth[row] = depth[outer[row]] + 1;
            // of those that repeat all have rows inside
            for (let around = outer[row]; !twice[row] && leaf[around]; around--) {
                leaf[around] = 0;
                if (!twice[around]) break;
            }
        }
        const innermost = new Uint32Array(count);
        let some = 0;
        for (let row = 0; row < count; row++) if (leaf[row]) innermost[some++] = row;
        const leaves = new NetworkSet(sorted.pick(innermost.subarray(0, some)));
        return {
            values: sorted.toValues(), cover: new NetworkSet(sorted).toValues(), leaves: leaves.toValues(), gaps: (view ? leaves.complement(view) : new NetworkList()).toValues(), nameBegins: picked(rows.begins), nameEnds: picked(rows.ends), lines: picked(rows.lines), colours: picked(rows.colours),
            outer, depth, leaf, twice, inside, repeated, wrong: this.#faults.length, faults: this.#faults.slice(0, FAULTS),
        };
    }
}

/** How many lines a text has, whether or not its last one ends. */
export function linesOf(text) {
    let count = 0, at = -1;
    while ((at = text.indexOf("\n", at + 1)) >= 0) count++;
    return text === "" || text.endsWith("\n") ? count : count + 1;
}

/** A text after changes, one after the other. */
export const applied = (text, edits) => edits.reduce((made, { begin, end, text }) => made.slice(0, begin) + text + made.slice(end), text);

/** How one text of whole lines became another one, as a change of the fewest lines; null where they are the same. */
export function lineChange(old, text) {
    if (old === text) return null;
    const most = Math.min(old.length, text.length);
    let same = 0, tail = 0;
    while (same < most && old.charCodeAt(same) === text.charCodeAt(same)) same++;
    const begin = same === 0 ? 0 : old.lastIndexOf("\n", same - 1) + 1;
    while (tail < most - begin && old.charCodeAt(old.length - 1 - tail) === text.charCodeAt(text.length - 1 - tail)) tail++;
    // what is behind begins with a line in both
    const feed = old.indexOf("\n", old.length - tail);
    tail = feed < 0 ? 0 : old.length - feed - 1;
    return { line: linesOf(old.slice(0, begin)), begin, end: old.length - tail, text: text.slice(begin, text.length - tail) };
}

/** Of `count` places, of which a test holds up to some place and not from there on, the first where it does not. */
function firstNot(count, test, low = 0) {
    for (let high = count; low < high; ) {
        const middle = (low + high) >> 1;
        if (test(middle)) low = middle + 1;
        else high = middle;
    }
    return low;
}

/** The index of the first number that is not below `n`, of numbers that ascend. */
const notBelow = (numbers, n) => firstNot(numbers.length, (i) => numbers[i] < n);

/** Of networks that ascend, the index of the last one that comes before a network or is the same, or -1. */
export const lastUpTo = (list, network) => firstNot(list.length, (i) => list.at(i).compare(network) <= 0) - 1;

/** Of networks that ascend, those that lie in a network: the index of the first one, and the one behind the last. */
export function within(list, network) {
    const begin = firstNot(list.length, (i) => list.at(i).compare(network) < 0);
    return [begin, firstNot(list.length, (i) => network.contains(list.at(i)), begin)];
}

/** Adds a number to elements of an array. */
function moved(array, by, begin, end = array.length) {
    for (let i = begin; i < end; i++) array[i] += by;
    return array;
}

/** Arrays as one. */
function joined(arrays) {
    const made = new arrays[0].constructor(arrays.reduce((sum, array) => sum + array.length, 0));
    let at = 0;
    for (const array of arrays) {
        made.set(array, at);
        at += array.length;
    }
    return made;
}

/** An array with others in the place of some elements. */
function spliced(array, begin, end, added) {
    const made = new array.constructor(array.length - (end - begin) + added.length);
    made.set(array.subarray(0, begin));
    made.set(added, begin);
    made.set(array.subarray(end), begin + added.length);
    return made;
}
