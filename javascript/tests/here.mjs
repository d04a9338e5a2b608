// here.mjs: what Node and a page have differently for a test that runs in both: the words that it is given, of which the first one is the
// package, and how files are read. To a page browser.py gives the words and the files.
const node = globalThis.process && { ...(await import("node:fs")), ...(await import("node:url")), ...(await import("node:crypto")) };
const [place, ...given] = node ? process.argv.slice(2) : globalThis.words;

export { given };
/** The address of a file or a folder. */
export const address = (path) => new URL(node ? node.pathToFileURL(path) : path, import.meta.url).href;
export const package_ = address(place);
/** The bytes at an address. */
export const read = async (url) => (node ? node.readFileSync(new URL(url)) : new Uint8Array(await (await fetch(url)).arrayBuffer()));
export function is_same(one, other) {
    let i = 0;
    while (i < one.length && one[i] === other[i]) i++;
    return i === one.length && i === other.length;
}
/** Digests, which Node has without an import only from 20 on. */
export const { subtle } = node ? node.webcrypto : crypto;
