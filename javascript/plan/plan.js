// plan.js: the page. What networks are, contain, leave free and become comes from the library; here are text, drawing and keys.
import { load } from "pcidr";
import { boxes, hilbert, placed, placedLike, upToLength } from "curve.js";
import { Reader, applied, isTable, lastUpTo, lineChange, linesOf, within } from "compute.js";

/** The module as bytes: make_page.py writes it into the page. */
const moduleBytes = () => Uint8Array.from(atob(MODULE), (letter) => letter.charCodeAt(0));

if (typeof document === "undefined") {
    // The same script in a Worker: it reads texts, while the page can be used.
    let reader;
    onmessage = async ({ data }) => {
        reader ??= new Reader(await load(moduleBytes()));
        try {
            const told = (part, lines) => postMessage({ part, lines }), plan = data.edits ? reader.change(data.edits, data.view, told) : reader.read(data.text, data.view, told);
            postMessage({ plan }, Object.values(plan).filter(ArrayBuffer.isView).map((array) => array.buffer));
        } catch (error) {
            postMessage({ error: error.message });
        }
    };
} else {
    const script = document.currentScript.textContent;
    load(moduleBytes()).then((pcidr) => page(pcidr, script));
}

async function page(pcidr, script) {
    const { Network, Address, Host, NetworkList, NetworkSet } = pcidr;
    const $ = (id) => document.getElementById(id);
    const root = document.documentElement;
    const EXAMPLE = `10.20.0.0/16 campus
10.20.0.0/20 campus core
10.20.0.0/24 core loopbacks
10.20.1.0/24 core links
10.20.4.0/22 servers
10.20.16.0/20 wifi
10.20.16.0/22 wifi staff
10.20.20.0/22 wifi guests
10.20.32.0/19 labs
10.20.40.0/21 labs physics
10.20.48.0/24 labs printers
10.20.128.0/18 residences
10.20.128.0/20 residence north
10.20.144.0/20 residence south
10.20.200.0/24 cameras
10.20.201.0/24 doors
10.20.201.0/24 doors (entered twice)
2001:db8:20::/48 campus
2001:db8:20::/56 core
2001:db8:20:100::/56 servers
2001:db8:20:1000::/52 wifi
2001:db8:20:8000::/50 residences
`;
    const PURPOSES = ["this network", "unspecified", "private use", "unique local", "shared address space", "loopback", "link local", "protocol assignments", "service continuity", "dummy address", "port control anycast", "TURN anycast", "service registration anycast", "NAT64 discovery", "documentation", "AS112", "direct AS112", "multicast tunneling", "6to4 relay", "6a44 relay", "6to4", "benchmarking", "reserved", "limited broadcast", "IPv4-mapped", "translation", "discard only", "Teredo", "deprecated ORCHID", "ORCHIDv2", "drone remote ID", "segment routing", "this host"];
    const COLOURS = ["#56b4e9", "#e69f00", "#009e73", "#f0e442", "#cc79a7", "#0072b2", "#d55e00", "#444444"]; // of Okabe and Ito, but for the last one
    const ON = COLOURS.map((colour) => (/^#0072b2|^#444444/.test(colour) ? "#fff" : "#000")); // of texts: each with a contrast above 4.5
    const LARGEST = 16 * 2 ** 20; // of a plan's text; a larger one is refused
    const AT_ONCE = 50000; // a shorter text is read without a Worker
    let plan = null; // what the text says
    let view = null; // the network that the map shows
    let chosen = null; // the network that is chosen, whether as what is free, and its row
    let tab = "plan";
    let text = "", lineCount = 0; // of the plan
    let past = [], future = []; // of each change those that take it back, or make it again
    let theme = null;

    const say = (message, isBad = false) => {
        $("status").textContent = message;
        $("status").className = isBad ? "bad" : "";
    };
    const many = (n) => n.toLocaleString("en");
    const store = (name, value) => {
        try { localStorage.setItem(name, value); } catch { /* the page may have no storage */ }
    };
    const stored = (name) => {
        try { return localStorage.getItem(name); } catch { return null; }
    };

    // ---- the text, of which the box has some lines, since browsers take seconds to lay out 100,000

    const LINES = 2000;
    let part = { line: 0, count: 0, begin: 0, end: 0 }; // what the box shows: the number of its first line, how many they are, and where they lie in the text
    function showPart() {
        const { line, begin, end } = part, shown = text.slice(begin, end);
        if ($("text").value !== shown) $("text").value = shown;
        $("pages").hidden = begin === 0 && end === text.length;
        $("page").textContent = `from line ${many(line + 1)}`;
        $("before").disabled = begin === 0;
        $("after").disabled = end === text.length;
    }
    /** Shows the lines from this one on. */
    function turnTo(line) {
        let begin = 0, at = 0;
        for (; at < line; at++) {
            const feed = text.indexOf("\n", begin);
            if (feed < 0) break;
            begin = feed + 1;
        }
        let end = begin - 1, count = 0;
        while (count < LINES && (end = text.indexOf("\n", end + 1)) >= 0) count++;
        part = { line: at, count, begin, end: end < 0 ? text.length : end };
        showPart();
    }
    /** Makes changes to the text, one after the other, and returns those that take them back. A change is of whole lines: from the number `line`
     * on, the characters from `begin` up to `end` become others. */
    function edit(edits) {
        const back = [];
        let isKept = true; // whether the box shows the same lines
        for (const one of edits) {
            const gone = text.slice(one.begin, one.end), by = one.text.length - gone.length;
            one.count = linesOf(gone);
            const more = linesOf(one.text) - one.count;
            back.unshift({ line: one.line, begin: one.begin, end: one.begin + one.text.length, text: gone });
            text = text.slice(0, one.begin) + one.text + text.slice(one.end);
            lineCount += more;
            if (one.begin >= part.begin && one.end <= part.end + 1) part = { ...part, count: part.count + more, end: part.end + by };
            else if (one.end <= part.begin) part = { ...part, line: part.line + more, begin: part.begin + by, end: part.end + by };
            else if (one.begin < part.end) isKept = false;
        }
        if (isKept && part.count <= 2 * LINES && part.end >= part.begin && part.end <= text.length) showPart();
        else turnTo(part.line);
        return back;
    }
    /** Another text as a change, with the ends of lines that the box gives. */
    const whole = (next) => [{ line: 0, begin: 0, end: text.length, text: next.replace(/\r\n?/g, "\n") }];
    /** What was written into the box, as a change; none where nothing was. */
    function written() {
        const isLast = part.end === text.length, found = lineChange(text.slice(part.begin, part.end) + (isLast ? "" : "\n"), $("text").value + (isLast ? "" : "\n"));
        return found && [{ line: part.line + found.line, begin: part.begin + found.begin, end: part.begin + found.end, text: found.text }];
    }

    let worker = null, url = null, turn = 0, isReading = false;
    let reader = null, knower = null; // which of both readers has read the text before: "here" or "worker"
    /** Ends what a Worker still reads. One that has ended its work is kept for the next text. */
    function stop() {
        if (isReading) {
            worker.terminate();
            worker = knower = null;
        }
        isReading = false;
        $("work").hidden = true;
    }
    /** Reads the text, or what changes of it, and shows what it says, with a network chosen or as it was. */
    function compute(network = null, edits = null) {
        const mine = ++turn, where = text.length < AT_ONCE ? "here" : "worker";
        stop();
        if (text.length > LARGEST) {
            knower = null;
            say(`the text has more than ${LARGEST >> 20} MiB, and was not read`, true);
            root.dataset.state = "ready";
            return;
        }
        root.dataset.state = "busy";
        const begin = performance.now(), shown = view && String(view), isWhole = edits === null || knower !== where || isTable(text);
        const done = (made) => {
            if (mine !== turn) return;
            isReading = false;
            knower = where;
            $("work").hidden = true;
            take(made, performance.now() - begin, network);
            root.dataset.state = "ready";
        };
        const here = () => {
            reader ??= new Reader(pcidr);
            done(isWhole || where !== "here" ? reader.read(text, shown) : reader.change(edits, shown));
        };
        if (where === "here") return here();
        url ??= URL.createObjectURL(new Blob([script], { type: "text/javascript" }));
        $("progress").value = 0;
        $("work").hidden = false;
        isReading = true;
        worker ??= new Worker(url);
        worker.onmessage = ({ data }) => {
            if (mine !== turn) return;
            if (data.plan) done(data.plan);
            else if (data.error) cancel(data.error);
            else reading(data);
        };
        worker.onerror = (event) => {
            event.preventDefault();
            worker = null; // the browser lets the page have none
            isReading = false;
            if (mine === turn) here();
        };
        worker.postMessage(isWhole ? { text, view: shown } : { edits, view: shown });
    }
    /** Tells how far a Worker has read, in words, too. Of what takes as long as one look nothing is told. */
    function reading({ part, lines }) {
        $("progress").value = part;
        if (part > 0) say(lines === undefined ? `sorting the rows of ${many(lineCount)} lines` : `reading: ${many(lines)} of ${many(lineCount)} lines`);
    }
    function cancel(why = "cancelled: the map is of the text before") {
        turn++;
        stop();
        knower = null;
        say(why, true);
        root.dataset.state = "ready";
    }
    let storing = 0;
    function take(made, took, network) {
        const list = NetworkList.fromValues(made.values);
        if (made.text !== undefined) {
            // changes are made to plain lines; that which gave the text another form is taken back with it
            const before = past.length ? applied(text, past.pop()) : null;
            edit(whole(made.text));
            if (before !== null) past.push([{ line: 0, begin: 0, end: text.length, text: before }]);
        }
        const [cover, leaves, gaps] = [made.cover, made.leaves, made.gaps].map((values) => NetworkList.fromValues(values));
        plan = { ...made, text, list, count: list.length, words: new Uint32Array(made.values.buffer), cover, leaves, gaps: new Map() };
        if (view) plan.gaps.set(String(view), { list: gaps, words: new Uint32Array(made.gaps.buffer) });
        plan.roots = rootsOf(plan.cover);
        if (!view || !plan.roots.some((root) => root.contains(view))) view = plan.roots[0] ?? new Network("0.0.0.0/0");
        say(`${many(plan.count)} networks, ${many(plan.cover.length)} merged, ${many(plan.inside)} inside others, ${many(plan.repeated)} twice; ${took.toFixed(0)} ms`, plan.wrong > 0);
        $("faults").replaceChildren(...plan.faults.map(({ line, message }) => {
            const item = document.createElement("li"), button = document.createElement("button");
            button.textContent = `line ${line + 1}: ${message}`;
            button.onclick = () => selectLine(line);
            item.append(button);
            return item;
        }));
        if (plan.wrong > plan.faults.length) $("faults").append(`and ${many(plan.wrong - plan.faults.length)} more`);
        clearTimeout(storing);
        storing = setTimeout(() => text.length < 2e6 && store("plan", text), 300);
        if (network ?? chosen) choose(network ?? chosen.network, !network && chosen.isGap);
        else show();
    }
    // The merged networks ascend, so that what contains the first and the last of a family contains all between.
    function rootsOf(cover) {
        let four = 0, end = cover.length;
        while (four < end) {
            const middle = (four + end) >> 1;
            if (cover.at(middle).version === 6) end = middle;
            else four = middle + 1;
        }
        const around = (from, to) => (from < to ? [cover.at(from).spanning(cover.at(to - 1))] : []);
        return [...around(0, four), ...around(four, cover.length)].filter((root) => root.version !== null);
    }
    function selectLine(line) {
        if (line < part.line || line > part.line + part.count) turnTo(Math.max(0, line - 100));
        const shown = $("text").value;
        let at = 0;
        for (let i = part.line; i < line; i++) at = shown.indexOf("\n", at) + 1;
        const end = shown.indexOf("\n", at);
        $("text").focus();
        $("text").setSelectionRange(at, end < 0 ? shown.length : end);
        $("text").scrollTop = Math.max(0, line - part.line - 5) * 13 * 1.45;
    }

    // ---- changes, each of which can be undone

    function change(edits, network = null) {
        past = [...past.slice(-99), edit(edits)];
        future = [];
        changed(network, edits);
    }
    function changed(network, edits) {
        $("undo").disabled = past.length === 0;
        $("redo").disabled = future.length === 0;
        compute(network, edits);
    }
    /** Takes what was last written into the box as a change, before another one. */
    function settle() {
        clearTimeout(waiting);
        const edits = written();
        if (edits) change(edits);
        else if (!isReading) root.dataset.state = "ready";
    }
    function retake(from, to) {
        settle();
        if (from().length === 0) return;
        const edits = from().pop();
        to().push(edit(edits));
        changed(null, edits);
    }
    const undo = () => retake(() => past, () => future);
    const redo = () => retake(() => future, () => past);
    const nameOf = (row) => plan.text.slice(plan.nameBegins[row], plan.nameEnds[row]);
    const shown = (row) => `${plan.list.at(row)} ${nameOf(row)}`.trimEnd();
    /** Where the line of a row lies in the text. */
    function lineOf(row) {
        const end = text.indexOf("\n", plan.nameBegins[row]);
        return { line: plan.lines[row], begin: text.lastIndexOf("\n", plan.nameBegins[row] - 1) + 1, end: end < 0 ? text.length : end + 1 };
    }
    /** Puts lines in the place of those of rows; of a line with a range the other networks stay. */
    function replace(rows, put, network) {
        const gone = new Map(rows.map((row) => [plan.lines[row], { row, made: [] }])), first = Math.min(...gone.keys());
        for (let row = 0; row < plan.count; row++) {
            if (gone.has(plan.lines[row]) && !rows.includes(row)) gone.get(plan.lines[row]).made.push(shown(row));
        }
        gone.get(first).made.push(...put);
        const edits = [...gone.values()].map(({ row, made }) => ({ ...lineOf(row), text: made.map((line) => `${line}\n`).join("") }));
        change(edits.sort((one, other) => other.line - one.line), network);
    }
    /** Puts a line behind the others. */
    function append(line, network) {
        const begin = text.endsWith("\n") ? text.length : text.lastIndexOf("\n") + 1, last = text.slice(begin);
        change([{ line: last === "" ? lineCount : lineCount - 1, begin, end: text.length, text: `${last}${last === "" ? "" : "\n"}${line}\n` }], network);
    }
    /** Whether what is shown is of the text, so that it can be changed. */
    function isCurrent() {
        if (plan?.text === text) return true;
        say(plan ? "the map is not of this text: change the text, or undo" : "the plan is still read", true);
        return false;
    }
    /** The rows around a network, and its own, the outermost first: of the last row up to it, and those around that, the ones that contain it. */
    function rowsAround(network) {
        let row = lastUpTo(plan.list, network);
        while (row >= 0 && !plan.list.at(row).contains(network)) row = plan.outer[row];
        const rows = [];
        for (; row >= 0; row = plan.outer[row]) rows.unshift(row);
        return rows;
    }
    const rowsAt = (network) => rowsAround(network).filter((row) => plan.list.at(row).equals(network));
    function split() {
        if (!chosen || !isCurrent()) return;
        const halves = chosen.network.halves(), rows = rowsAt(chosen.network);
        if (!halves) return say("an address has no halves", true);
        if (chosen.isFree || rows.length === 0) return choose(halves[0], true);
        replace(rows, halves.map((half) => `${half} ${nameOf(rows[0])}`.trimEnd()), halves[0]);
    }
    function join() {
        if (!chosen || !isCurrent()) return;
        const sibling = chosen.network.sibling(), parent = chosen.network.supernet(), rows = rowsAt(chosen.network);
        if (!parent) return say("there is nothing around it", true);
        if (chosen.isFree || rows.length === 0) return choose(parent, true);
        const others = rowsAt(sibling);
        if (others.length === 0) return say(`${sibling}, its other half, is not in the plan`, true);
        replace([...rows, ...others], [`${parent} ${nameOf(rows[0])}`.trimEnd()], parent);
    }
    function takeFree() {
        if (!isCurrent()) return;
        const length = Number($("length").value);
        let network = null;
        try {
            network = freeHere().bestFree(length);
        } catch { /* no whole number */ }
        if (!network) return say(`no free network of length /${$("length").value} in ${view}`, true);
        append(`${network} new`, network);
    }
    const add = () => chosen && isCurrent() && rowsAt(chosen.network).length === 0 && append(`${chosen.network} new`, chosen.network);
    function rename() {
        const rows = chosen ? rowsAt(chosen.network) : [];
        if (rows.length === 0 || !isCurrent()) return;
        const input = document.createElement("input");
        input.id = "rename";
        input.value = nameOf(rows[0]);
        input.setAttribute("aria-label", `The name of ${chosen.network}`);
        input.onkeydown = (event) => {
            if (event.key === "Enter") replace([rows[0]], [`${chosen.network} ${input.value.replace(/[#;\n]/g, " ").trim()}`.trimEnd()], chosen.network);
            else if (event.key === "Escape") detail();
            else return;
            event.preventDefault();
            $("canvas").focus();
        };
        $("detail").querySelector("p").replaceWith(input);
        input.focus();
        input.select();
    }

    // ---- the map

    /** What is free in a network, as networks and as their words: what no row without rows inside has. */
    function gapsOf(network) {
        const key = network.toString();
        if (!plan.gaps.has(key)) {
            const list = new NetworkSet(plan.leaves).complement(network);
            if (plan.gaps.size > 8) plan.gaps.clear();
            plan.gaps.set(key, { list, words: wordsOf(list) });
        }
        return plan.gaps.get(key);
    }
    const freeHere = () => gapsOf(view).list;
    const wordsOf = (list) => new Uint32Array(list.toValues().buffer);
    const curve = () => ($("hilbert").checked ? hilbert : boxes)($("canvas").clientWidth, $("canvas").clientHeight);
    const MONO = '12px ui-monospace, "DejaVu Sans Mono", monospace';
    let drawn = null; // the map, and what it is of
    function draw() {
        const canvas = $("canvas"), key = [view, theme, $("hilbert").checked, canvas.clientWidth, canvas.clientHeight, devicePixelRatio].join(" ");
        if (drawn?.plan !== plan || drawn.key !== key) drawn = { plan, key, ...drawMap(canvas, canvas.getContext("2d", { willReadFrequently: true })) };
        mark();
    }
    /** What is chosen has a frame, on a canvas above the map. */
    function mark() {
        const canvas = $("mark"), scale = devicePixelRatio || 1, pen = canvas.getContext("2d"), css = getComputedStyle(root);
        canvas.width = $("canvas").width;
        canvas.height = $("canvas").height;
        if (!chosen || !view.contains(chosen.network)) return;
        const i = chosen.isFree || chosen.row === undefined ? -1 : chosen.row - drawn.begin;
        const [x, y, a, b] = i >= 0 ? drawn.boxes.subarray(4 * i, 4 * i + 4) : placed(curve(), wordsOf(new NetworkList([chosen.network])), view.prefixlen, [0]);
        pen.setTransform(scale, 0, 0, scale, 0, 0);
        for (const [width, colour] of [[5, "--bg"], [3, "--accent"]]) {
            pen.lineWidth = width;
            pen.strokeStyle = css.getPropertyValue(colour);
            pen.strokeRect(x + 1, y + 1, Math.max(4, a - 2), Math.max(4, b - 2));
        }
    }
    const SMALL = 14; // what is smaller has no text, and is drawn by pixels
    function drawMap(canvas, pen) {
        const scale = devicePixelRatio || 1, style = getComputedStyle(root), css = (name) => style.getPropertyValue(name).trim();
        const width = canvas.clientWidth, height = canvas.clientHeight;
        canvas.width = Math.max(1, Math.round(width * scale));
        canvas.height = Math.max(1, Math.round(height * scale));
        pen.setTransform(scale, 0, 0, scale, 0, 0);
        pen.fillStyle = css("--bg");
        pen.fillRect(0, 0, width, height);
        const tile = new OffscreenCanvas(8, 8), dot = tile.getContext("2d");
        dot.fillStyle = css("--paper");
        dot.fillRect(0, 0, 8, 8);
        dot.strokeStyle = css("--hatch");
        dot.lineWidth = 1.4;
        for (const d of [-8, 0, 8]) {
            dot.beginPath();
            dot.moveTo(d, 8);
            dot.lineTo(d + 8, 0);
            dot.stroke();
        }
        const hatch = pen.createPattern(tile, "repeat"), edge = css("--edge"), bad = css("--bad"), dim = css("--dim"), panel = css("--panel");
        const shape = [view, $("hilbert").checked, width, height].join(" "), before = drawn?.shape === shape ? drawn : null;
        const [begin, end] = within(plan.list, view), rowPlaces = placedLike(before?.rowPlaces, curve(), plan.words, view.prefixlen, upToLength(plan.words, 128, begin, end)), boxes = rowPlaces.to.slice();
        // what is free in less than a pixel is not drawn: a row stands beside it
        const { list: free, words: freeWords } = gapsOf(view), finest = view.prefixlen + Math.ceil(Math.log2(canvas.width * canvas.height));
        const shownFree = upToLength(freeWords, finest, 0, free.length), freePlaces = placedLike(before?.freePlaces, curve(), freeWords, view.prefixlen, shownFree), freeBoxes = freePlaces.to;
        const around = rowsAround(view), base = around.length ? plan.depth[around[around.length - 1]] : 0;
        const box = (x, y, a, b, fill, isDashed) => {
            pen.fillStyle = fill;
            pen.fillRect(x, y, a, b);
            pen.setLineDash(isDashed ? [3, 3] : []);
            pen.strokeStyle = edge;
            pen.lineWidth = isDashed ? 0.6 : 1;
            pen.strokeRect(x + 0.5, y + 0.5, a - 1, b - 1);
        };
        // A text that does not fit is left out, since 10.20.4.0/2 is another network than 10.20.4.0/22; a name may be cut.
        pen.font = MONO;
        const wide = pen.measureText("0").width;
        const write = (x, y, a, b, network, name, colour) => {
            const room = Math.floor((a - 8) / wide);
            if (b < 16 || room < 3) return;
            const lines = [network.toString(), `/${network.prefixlen}`].filter((text) => text.length <= room).slice(0, 1);
            if (name && b >= (lines.length ? 32 : 16)) lines.push(name.length <= room ? name : room > 4 ? `${name.slice(0, room - 1)}…` : "");
            pen.fillStyle = colour;
            lines.forEach((line, i) => pen.fillText(line, x + 5, y + 13 + 15 * i));
        };
        const large = [];
        for (let row = begin; row < end; row++) {
            const at = 4 * (row - begin);
            if (boxes[at + 2] < SMALL || boxes[at + 3] < SMALL) continue;
            const inset = plan.twice[row] ? 0 : Math.min(4, Math.max(0, plan.depth[row] - base) * 2);
            if (inset && boxes[at + 2] > 24 && boxes[at + 3] > 24) {
                boxes[at] += inset;
                boxes[at + 1] += inset;
                boxes[at + 2] -= 2 * inset;
                boxes[at + 3] -= 2 * inset;
            }
            const [x, y, a, b] = boxes.subarray(at, at + 4);
            box(x, y, a, b, plan.list.at(row).equals(view) ? panel : COLOURS[plan.colours[row]], false);
            if (plan.twice[row] && a > 8 && b > 8) {
                pen.setLineDash([6, 4]);
                pen.lineWidth = 3;
                pen.strokeStyle = bad;
                pen.strokeRect(x + 2, y + 2, a - 4, b - 4);
            }
            large.push(row);
        }
        // what no row without rows inside has: hatched over the colour of the row around it
        for (let i = 0, at = 0; at < freeBoxes.length; i++, at += 4) {
            if (freeBoxes[at + 2] < SMALL || freeBoxes[at + 3] < SMALL) continue;
            const network = free.at(shownFree[i]), owner = rowsAround(network).pop() ?? -1;
            let [x, y, a, b] = freeBoxes.subarray(at, at + 4);
            if (owner >= 0 && a > 12 && b > 12) {
                x += 3;
                y += 3;
                a -= 6;
                b -= 6;
            }
            pen.globalAlpha = 0.85;
            box(x, y, a, b, hatch, true);
            pen.globalAlpha = 1;
            write(x, y, a, b, network, owner >= 0 ? `free in ${nameOf(owner)}` : "free", dim);
        }
        for (const row of large) {
            const at = 4 * (row - begin);
            if (plan.leaf[row] && !plan.twice[row + 1]) write(...boxes.subarray(at, at + 4), plan.list.at(row), nameOf(row), ON[plan.colours[row]]);
        }
        if (large.length < end - begin || free.length) {
            const image = pen.getImageData(0, 0, canvas.width, canvas.height), pixels = new Uint32Array(image.data.buffer), columns = canvas.width;
            /** Fills a small box: of one that is smaller than a pixel, the pixel. */
            const fill = (boxes, at, colour) => {
                if (boxes[at + 2] >= SMALL && boxes[at + 3] >= SMALL) return;
                const left = Math.floor(boxes[at] * scale), top = Math.floor(boxes[at + 1] * scale);
                if (boxes[at + 2] * scale < 1 && boxes[at + 3] * scale < 1) {
                    pixels[top * columns + left] = colour;
                    return;
                }
                const right = Math.min(columns, Math.max(left + 1, Math.round((boxes[at] + boxes[at + 2]) * scale)));
                const bottom = Math.min(canvas.height, Math.max(top + 1, Math.round((boxes[at + 1] + boxes[at + 3]) * scale)));
                const hasEdge = right - left > 3 && bottom - top > 3;
                for (let y = top; y < bottom; y++) {
                    const begin = y * columns, shade = hasEdge && y === bottom - 1 ? line : colour;
                    for (let x = left; x < right; x++) pixels[begin + x] = shade;
                    if (hasEdge) pixels[begin + right - 1] = line;
                }
            };
            const packed = (colour) => (0xff000000 | (parseInt(colour.slice(5, 7), 16) << 16) | (parseInt(colour.slice(3, 5), 16) << 8) | parseInt(colour.slice(1, 3), 16)) >>> 0;
            const colours = COLOURS.map(packed), paper = packed(css("--paper")), line = packed(edge);
            for (let at = 0; at < freeBoxes.length; at += 4) fill(freeBoxes, at, paper);
            for (let row = begin; row < end; row++) fill(boxes, 4 * (row - begin), colours[plan.colours[row]]);
            pen.putImageData(image, 0, 0);
        }
        return { shape, rowPlaces, freePlaces, begin, boxes, free: free.pick(shownFree), freeBoxes };
    }
    /** What lies at a place of the map: the innermost row, or what is free. */
    function under(event) {
        if (!drawn) return null;
        const at = $("canvas").getBoundingClientRect(), x = event.clientX - at.left, y = event.clientY - at.top;
        const hits = (boxes, i) => x >= boxes[4 * i] && x < boxes[4 * i] + boxes[4 * i + 2] && y >= boxes[4 * i + 1] && y < boxes[4 * i + 1] + boxes[4 * i + 3];
        for (let i = 0; i < drawn.freeBoxes.length / 4; i++) if (hits(drawn.freeBoxes, i)) return { network: drawn.free.at(i), isFree: true };
        for (let i = drawn.boxes.length / 4 - 1; i >= 0; i--) if (hits(drawn.boxes, i)) return { network: plan.list.at(drawn.begin + i), row: drawn.begin + i };
        return null;
    }

    // ---- what is chosen

    function choose(network, isFree = false) {
        const rows = isFree ? [] : rowsAt(network);
        chosen = { network, isGap: isFree, isFree: isFree || rows.length === 0, row: rows[0] };
        if (!view.contains(network)) view = plan.roots.find((root) => root.contains(network)) ?? network;
        show();
    }
    /** How many addresses of a network are in use: in a row without rows inside. */
    function usedIn(network) {
        const last = lastUpTo(plan.leaves, network), [begin, end] = within(plan.leaves, network);
        if (last >= 0 && plan.leaves.at(last).contains(network)) return network.numAddresses;
        return begin < end ? NetworkSet.fromValues(plan.leaves.slice(begin, end).toValues()).numAddresses(network.version) : 0n;
    }
    const paragraph = (text) => Object.assign(document.createElement("p"), { textContent: text });
    function detail() {
        if (!chosen) {
            $("told").textContent = "";
            $("detail").replaceChildren(paragraph("Choose a network: on the map, in a list, or by looking an address up."));
            return;
        }
        const { network } = chosen, first = network.networkAddress, rows = rowsAt(network), items = [];
        const item = (name, value) => value !== null && items.push([name, String(value)]);
        item("first", first);
        if (network.numAddresses !== 1n) item("last", network.broadcastAddress);
        if (network.version === 4 && network.prefixlen < 31) item("usable", `${network.firstUsable} – ${network.lastUsable}`);
        item("addresses", network.numAddresses > 10n ** 15n ? `2^${network.maxPrefixlen - network.prefixlen}` : many(network.numAddresses));
        if (network.version === 4) {
            item("mask", network.netmask);
            item("wildcard", network.hostmask);
        }
        item("other half", network.sibling());
        item("reverse", network.reversePointer);
        const special = first.specialEntry, kinds = kindsOf(network);
        if (special) item("purpose", `${PURPOSES[special.purpose]} (RFC ${special.rfc})`);
        else if (kinds) item("purpose", kinds);
        const covering = rowsAround(network), around = covering.filter((row) => !rows.includes(row));
        if (around.length) item("inside", around.map(shown).join(", "));
        const isUsed = covering.some((row) => plan.leaf[row]), [begin, end] = within(plan.list, network), inside = end - begin - rows.length, used = usedIn(network);
        if (!isUsed && inside > 0) {
            item("rows inside", many(inside));
            item("in use", `${(Number((used * 10000n) / network.numAddresses) / 100).toFixed(2)} %`);
        }
        const title = document.createElement("h2"), list = document.createElement("dl"), buttons = document.createElement("div");
        title.textContent = network.withPrefixlen;
        for (const [name, value] of items) {
            list.append(Object.assign(document.createElement("dt"), { textContent: name }), Object.assign(document.createElement("dd"), { textContent: value }));
        }
        buttons.className = "buttons";
        const button = (label, title, act, isOff = false) => buttons.append(Object.assign(document.createElement("button"), { textContent: label, title, onclick: act, disabled: isOff }));
        button("Split", "Into its two halves (s)", split, network.numAddresses === 1n);
        button("Join", "With its other half (j)", join, !network.supernet());
        button("Zoom in", "Enter", () => zoom(network), network.numAddresses === 1n);
        if (rows.length === 0) button("Add to the plan", "a", add);
        else {
            button("Rename", "n", rename);
            button("Show line", "In the text", () => selectLine(plan.lines[rows[0]]));
        }
        const names = rows.map((row) => nameOf(row)).filter(Boolean).join("; "), isPool = rows.some((row) => !plan.leaf[row]);
        const state = rows.length ? `${names || "in the plan"}${isPool ? ", with rows inside" : ""}` : used === network.numAddresses ? "in use" : used > 0n ? "in use in part" : "free";
        $("detail").replaceChildren(title, paragraph(state), list, buttons);
        const told = `${network.withPrefixlen}: ${state}, ${network.numAddresses === 1n ? "1 address" : `${sizeOf(network) || `2^${network.maxPrefixlen - network.prefixlen}`} addresses`}`;
        if ($("told").textContent !== told) $("told").textContent = told;
    }
    function zoom(network) {
        if (network.numAddresses === 1n) return;
        view = network;
        show();
    }
    function leave() {
        const outer = rowsAround(view).map((row) => plan.list.at(row)).filter((network) => !network.equals(view)).pop();
        const root = plan.roots.find((root) => root.contains(view) && !root.equals(view));
        if (outer || root) zoom(outer ?? root);
    }

    // ---- lists: only what is seen is in the document

    const LINE = 20, MOST = 10000;
    const kindsOf = (network) => [["private", network.isPrivate], ["documentation", network.isDocumentation], ["multicast", network.isMulticast], ["loopback", network.isLoopback], ["link local", network.isLinkLocal]]
        .filter(([, holds]) => holds).map(([kind]) => kind).join(", ");
    const allRows = () => Array.from({ length: plan.count }, (_, i) => i);
    /** Rows that a test picks, once they are looked at. */
    const picked = (key, test) => (plan[key] ??= tab === key ? allRows().filter(test) : null) ?? [];
    const ofRows = (rows, more) => ({ length: rows.length, at: (i) => plan.list.at(rows[i]), label: (i) => [plan.list.at(rows[i]).toString(), ...more(rows[i])], isFree: false });
    const ofNetworks = (list, isFree) => ({ length: list.length, at: (i) => list.at(i), label: (i) => [String(list.at(i)), sizeOf(list.at(i)), ""], isFree });
    const LISTS = {
        plan: { name: () => "Plan", items: () => ({ length: plan.count, at: (i) => plan.list.at(i), label: (i) => [`${"  ".repeat(plan.depth[i])}${plan.list.at(i)}`, nameOf(i), plan.twice[i] ? "twice" : ""] }) },
        free: { name: () => "Free here", items: () => ofNetworks(freeHere(), true) },
        fit: { name: () => `Free /${$("length").value}`, items: () => ofLength() },
        merged: { name: () => "Merged", items: () => ofNetworks(plan.cover, false) },
        overlaps: { name: () => "Overlaps", items: () => ({ count: plan.inside, ...ofRows(picked("overlaps", (row) => plan.outer[row] >= 0), (row) => [`${nameOf(row)} in ${shown(plan.outer[row])}`, plan.twice[row] ? "twice" : ""]) }) },
        kinds: { name: () => "Special", items: () => ofRows(picked("kinds", (row) => kindsOf(plan.list.at(row))), (row) => [`${kindsOf(plan.list.at(row))}: ${nameOf(row)}`, ""]) },
    };
    const sizeOf = (network) => (network.numAddresses > 10n ** 15n ? "" : many(network.numAddresses));
    /** The free networks of the asked length: how many, and, where they are looked at, of many the first ones. */
    function ofLength() {
        const length = Number($("length").value), key = `${view} ${length}`, isShown = tab === "fit", isLength = Number.isInteger(length) && length >= 0 && length <= view.maxPrefixlen;
        if (plan.fit?.key !== key || (isShown && !plan.fit.found)) {
            const counts = new Uint32Array(256), { list, words } = gapsOf(view), most = list.length, found = isShown ? [] : null;
            for (let at = 4; at < words.length; at += 6) counts[words[at] & 255]++; // by their tags
            plan.fit = { key, found, count: 0n };
            const first = view.version === 4 ? 0 : 64;
            for (let n = 0; isLength && n <= length; n++) plan.fit.count += BigInt(counts[first + n]) << BigInt(length - n);
            for (let i = 0; isLength && found && i < most && found.length < MOST; i++) {
                const network = list.at(i);
                if (network.prefixlen === length) found.push(network);
                else if (network.prefixlen < length) for (const each of network.subnets(length)) if (found.push(each) >= MOST) break;
            }
        }
        const { found, count } = plan.fit;
        return { length: found?.length ?? 0, count, at: (i) => found[i], label: (i) => [String(found[i]), "", ""], isFree: true };
    }
    function tabs() {
        $("tabs").replaceChildren(...Object.entries(LISTS).map(([key, { name, items }]) => {
            const button = document.createElement("button"), isOn = key === tab, { count, length } = key === "kinds" && !plan.kinds && !isOn ? { length: "" } : items();
            button.role = "tab";
            button.id = `tab-${key}`;
            button.setAttribute("aria-selected", isOn);
            button.tabIndex = isOn ? 0 : -1;
            button.textContent = `${name()} ${many(count ?? length)}`;
            button.onclick = () => openTab(key);
            return button;
        }));
    }
    function openTab(key) {
        tab = key;
        at = -1;
        $("list").scrollTop = 0;
        tabs();
        lines();
    }
    $("tabs").onkeydown = (event) => {
        const keys = Object.keys(LISTS), way = { ArrowRight: 1, ArrowLeft: -1 }[event.key];
        if (!way) return;
        openTab(keys[(keys.indexOf(tab) + way + keys.length) % keys.length]);
        $(`tab-${tab}`).focus();
        event.preventDefault();
    };
    function lines() {
        const all = LISTS[tab].items(), box = $("list");
        $("tall").style.height = `${all.length * LINE}px`;
        const from = Math.max(0, Math.floor(box.scrollTop / LINE) - 5), to = Math.min(all.length, from + Math.ceil(box.clientHeight / LINE) + 10), made = [];
        box.removeAttribute("aria-activedescendant");
        for (let i = from; i < to; i++) {
            const [a, b, bad] = all.label(i), line = document.createElement("div"), isOn = chosen !== null && all.at(i).equals(chosen.network);
            line.className = isOn ? "row on" : "row";
            line.role = "option";
            line.id = `line-${i}`;
            line.style.top = `${i * LINE}px`;
            line.setAttribute("aria-selected", isOn);
            line.setAttribute("aria-setsize", all.length);
            line.setAttribute("aria-posinset", i + 1);
            if (isOn) box.setAttribute("aria-activedescendant", line.id);
            line.append(a, " ", Object.assign(document.createElement("i"), { textContent: b }), " ", Object.assign(document.createElement("b"), { textContent: bad }));
            line.onclick = () => {
                at = i;
                choose(all.at(i), all.isFree);
            };
            line.ondblclick = () => zoom(all.at(i));
            made.push(line);
        }
        $("tall").replaceChildren(...made);
    }
    let at = -1; // the line of the list that was chosen there
    function step(way) {
        const all = LISTS[tab].items();
        if (!(chosen && at >= 0 && at < all.length && all.at(at).equals(chosen.network))) {
            at = -1;
            for (let i = 0; chosen && i < Math.min(all.length, MOST); i++) if (all.at(i).equals(chosen.network)) at = i;
        }
        at = Math.min(all.length - 1, Math.max(0, at + way));
        if (at < 0) return;
        choose(all.at(at), all.isFree);
        const top = at * LINE, box = $("list");
        if (top < box.scrollTop || top > box.scrollTop + box.clientHeight - LINE) {
            box.scrollTop = top - 60;
            lines();
        }
    }
    function show() {
        const path = rowsAround(view).map((row) => plan.list.at(row)).filter((network, i, all) => i === 0 || !network.equals(all[i - 1]));
        const root = plan.roots.find((root) => root.contains(view)), others = plan.roots.filter((it) => it !== root);
        const crumbs = [...others, ...(root && !path.some((network) => network.equals(root)) ? [root] : []), ...path];
        if (!crumbs.some((network) => network.equals(view))) crumbs.push(view);
        $("crumbs").replaceChildren(...crumbs.flatMap((network, i) => {
            const button = document.createElement("button");
            button.textContent = network.withPrefixlen;
            if (network.equals(view)) button.setAttribute("aria-current", "true");
            button.onclick = () => zoom(network);
            return i === 0 ? [button] : [crumbs[i - 1].contains(network) ? " › " : " | ", button];
        }));
        detail();
        tabs();
        lines();
        draw(); // last, since what stands around the map gives it its size
    }

    // ---- look-ups and export

    function find() {
        const asked = $("asked").value.trim();
        if (asked === "" || !plan) return;
        try {
            const network = asked.includes("/") ? new Host(asked).network : new Network(String(new Address(asked)));
            const row = rowsAround(network).pop();
            if (row !== undefined) {
                say(`${asked} is in ${shown(row)}`);
                choose(plan.list.at(row));
            } else {
                say(`${asked} is in no row`, true);
                const root = plan.roots.find((root) => root.contains(network)), gaps = root && gapsOf(root).list, gap = root ? lastUpTo(gaps, network) : -1;
                choose(gap >= 0 && gaps.at(gap).contains(network) ? gaps.at(gap) : network, true);
            }
        } catch (error) {
            say(error.message, true);
        }
    }
    const quoted = (field) => (/[",\n]/.test(field) ? `"${field.replaceAll('"', '""')}"` : field);
    function exported() {
        const merged = plan.cover, rows = allRows(), networks = plan.list.toStrings();
        switch ($("form").value) {
            case "merged": return merged.toText();
            case "free": return freeHere().toText();
            case "plan": return rows.map((row) => `${`${networks[row]} ${nameOf(row)}`.trimEnd()}\n`).join("");
            case "json": return `${JSON.stringify({ merged, free: { within: view, networks: freeHere() }, rows: rows.map((row) => ({ network: networks[row], name: nameOf(row) })) }, null, 1)}\n`;
            case "csv": return `network,name,first,last,addresses\n${rows.map((row) => {
                const network = plan.list.at(row);
                return `${networks[row]},${quoted(nameOf(row))},${network.networkAddress},${network.broadcastAddress},${network.numAddresses}\n`;
            }).join("")}`;
            case "nft": return [4, 6].map((version) => [version, merged.toStrings().filter((text, i) => merged.at(i).version === version)]).filter(([, list]) => list.length)
                .map(([version, list]) => `set plan_ipv${version} {\n\ttype ipv${version}_addr\n\tflags interval\n\telements = { ${list.join(",\n\t\t")} }\n}\n`).join("");
        }
    }
    // A plan in the page's address: its bytes, packed, in the letters of base64url. It stays behind the `#`, which no server is sent.
    const through = async (bytes, stream) => new Uint8Array(await new Response(new Blob([bytes]).stream().pipeThrough(stream)).arrayBuffer());
    async function link() {
        const packed = await through(new TextEncoder().encode(text), new CompressionStream("deflate-raw"));
        if (packed.length > 20000) return say("the plan is too long for an address: save it as a file", true);
        history.replaceState(null, "", `#plan=${btoa(String.fromCharCode(...packed)).replaceAll("+", "-").replaceAll("/", "_").replace(/=+$/, "")}`);
        say("the plan is in the address of the page");
    }
    async function linked() {
        const found = /^#plan=([\w-]+)$/.exec(location.hash);
        if (!found) return null;
        try {
            const packed = Uint8Array.from(atob(found[1].replaceAll("-", "+").replaceAll("_", "/")), (letter) => letter.charCodeAt(0));
            return new TextDecoder().decode(await through(packed, new DecompressionStream("deflate-raw")));
        } catch {
            return null;
        }
    }

    // ---- what users do

    let waiting = 0;
    $("text").oninput = () => {
        clearTimeout(waiting);
        root.dataset.state = "busy";
        waiting = setTimeout(settle, 150);
    };
    $("text").onpaste = (event) => {
        const given = event.clipboardData.getData("text/plain");
        if (given.length < AT_ONCE) return;
        event.preventDefault();
        settle();
        const begin = part.begin + $("text").selectionStart, end = part.begin + $("text").selectionEnd;
        change(whole(text.slice(0, begin) + given + text.slice(end)));
    };
    const turnBy = (count) => {
        settle();
        turnTo(Math.max(0, part.line + count));
    };
    $("before").onclick = () => turnBy(-LINES);
    $("after").onclick = () => turnBy(LINES);
    $("new").onclick = () => fresh("");
    let asking = 0;
    $("find").onsubmit = (event) => {
        event.preventDefault();
        clearTimeout(asking);
        find();
    };
    $("asked").oninput = () => {
        clearTimeout(asking);
        asking = setTimeout(() => {
            try {
                new Host($("asked").value.trim());
            } catch {
                return; // not yet whole
            }
            find();
        }, 250);
    };
    $("canvas").onclick = (event) => {
        const hit = under(event);
        if (hit) choose(hit.network, hit.isFree);
    };
    $("canvas").ondblclick = (event) => {
        const hit = under(event);
        if (hit) zoom(hit.network);
    };
    $("canvas").onmousemove = (event) => {
        const hit = under(event);
        $("canvas").title = hit ? `${hit.network.withPrefixlen} ${hit.isFree ? "free" : nameOf(hit.row)}` : "";
    };
    $("canvas").onkeydown = (event) => {
        const key = event.key, within = (network) => network && view.contains(network) && choose(network);
        if (key === "ArrowRight" || key === "ArrowLeft") within(chosen ? (key === "ArrowRight" ? chosen.network.next() : chosen.network.previous()) : view.halves()?.[0]);
        else if (key === "ArrowDown") within((chosen?.network ?? view).halves()?.[0]);
        else if (key === "ArrowUp") within(chosen?.network.supernet());
        else if (key === "Enter") chosen && zoom(chosen.network);
        else if (key === "Backspace" || key === "Escape") leave();
        else return;
        event.preventDefault();
    };
    $("list").onscroll = lines;
    $("list").onkeydown = (event) => {
        if (event.key === "ArrowDown") step(1);
        else if (event.key === "ArrowUp") step(-1);
        else if (event.key === "Enter" && chosen) zoom(chosen.network);
        else return;
        event.preventDefault();
    };
    document.onkeydown = (event) => {
        if (event.ctrlKey || event.altKey || event.metaKey || /^(INPUT|TEXTAREA|SELECT)$/.test(event.target.tagName)) return;
        const act = { "/": () => $("asked").focus(), s: split, j: join, n: rename, f: takeFree, a: add, u: undo, r: redo, t: otherTheme }[event.key];
        if (!act || root.dataset.state === "busy") return;
        event.preventDefault();
        act();
    };
    const setTheme = (to) => {
        root.dataset.theme = theme = to;
        if (plan) draw();
    };
    const otherTheme = () => {
        setTheme(theme === "dark" ? "light" : "dark");
        store("theme", theme);
    };
    const fresh = (next) => {
        settle();
        view = chosen = null;
        part.line = 0;
        change(whole(next));
    };
    $("undo").onclick = undo;
    $("redo").onclick = redo;
    $("theme").onclick = otherTheme;
    $("take").onclick = takeFree;
    $("cancel").onclick = () => cancel();
    $("link").onclick = link;
    $("hilbert").onchange = () => plan && draw();
    $("length").oninput = () => {
        if (!plan) return;
        tabs();
        if (tab === "fit") lines();
    };
    $("example").onclick = () => fresh(EXAMPLE);
    $("open").onclick = () => $("file").click();
    $("file").onchange = async () => {
        const [file] = $("file").files;
        if (!file) return;
        if (file.size > LARGEST) say(`${file.name} has ${many(Math.round(file.size / 2 ** 20))} MiB; the page reads files of at most ${LARGEST >> 20}`, true);
        else fresh(await file.text());
        $("file").value = "";
    };
    $("copy").onclick = () => plan && navigator.clipboard.writeText(exported()).then(() => say("copied"), () => say("the browser does not let the page copy: save it", true));
    $("save").onclick = () => {
        if (!plan) return;
        const form = $("form").value, anchor = document.createElement("a");
        anchor.href = URL.createObjectURL(new Blob([exported()], { type: "text/plain" }));
        anchor.download = `plan.${{ json: "json", nft: "nft", csv: "csv" }[form] ?? "txt"}`;
        anchor.click();
        setTimeout(() => URL.revokeObjectURL(anchor.href), 60000);
    };
    new ResizeObserver(() => plan && draw()).observe($("map"));
    addEventListener("hashchange", async () => {
        const given = await linked();
        if (given !== null) fresh(given);
    });
    setTheme(stored("theme") ?? (matchMedia("(prefers-color-scheme: dark)").matches ? "dark" : "light"));
    edit(whole((await linked()) ?? stored("plan") ?? EXAMPLE));
    compute();
}
