#!/usr/bin/env python3
"""browser.py OUT: the package in Chromium: without a policy, under one that allows WebAssembly and one that does not, and in a
Worker; then the tests that run in Node too, that of the calls where OUT/calls has what calls.py has printed; and then the page.
Without Chromium it says so."""
import pathlib
import sys

import driver
import page

# of the tests that run in Node too the words of the command line; all strings would take 4 s more
TESTS = {"calls": ["/pcidr", "/calls"], "vectors": ["/pcidr", "every", "10"], "memory": ["/pcidr"]}
POLICIES = {"/none": None, "/strict": "script-src 'self'", "/wasm": "default-src 'self'; script-src 'self' 'wasm-unsafe-eval'; worker-src 'self'"}
LOAD = """const { load } = await import('/pcidr/pcidr.js');
const { NetworkSet } = await load();
return new NetworkSet(['10.0.0.0/9', '10.128.0.0/9', '2001:db8::/33', '2001:db8:8000::/33']).toStrings().join(' ');"""
WORK = """import { load } from "/pcidr/pcidr.js";
const ready = load();
onmessage = async ({ data }) => postMessage(new (await ready).NetworkSet(data).toStrings());
"""
ASK = """const worker = new Worker('/worker.js', { type: 'module' });
return await new Promise((done, wrong) => {
    worker.onmessage = (event) => done(event.data.join());
    worker.onerror = (event) => wrong(event.message ?? 'the Worker failed');
    worker.postMessage(['10.0.0.0/9', '10.128.0.0/9']);
});"""

TEST = """const [test, words] = args, lines = [];
globalThis.words = words;
console.log = (line) => lines.push(line);
await import(`/tests/${test}.mjs`).catch((error) => lines.push(`FAILED: ${test}.mjs: ${error}`));
return lines"""


def tested(browser, folder, base):
    """Those tests of the package in that folder, each in a page of its own; how many fail."""
    tests, wrong = folder / "tests", 0
    tests.symlink_to(pathlib.Path(__file__).resolve().parent)
    for test, words in TESTS.items():
        if test == "calls" and not (folder / "calls").exists():
            continue
        browser.go(base + "/none")
        lines = browser.wait(TEST, test, words)["ok"]
        wrong += lines[-1].startswith("FAILED")
        print(*(f"in Chromium: {line}" for line in lines), sep="\n")
    tests.unlink()
    return wrong


def tried(browser, folder, base):
    """The package in that folder; how many policies it does not meet."""
    (folder / "worker.js").write_text(WORK)
    wrong = 0
    for path in POLICIES:
        browser.go(base + path)
        loaded, worked = browser.wait(LOAD), None
        if path == "/strict":
            good = "unsafe-eval" in loaded.get("error", "")
        else:
            worked = browser.wait(ASK)
            good = loaded == {"ok": "10.0.0.0/8 2001:db8::/32"} and worked == {"ok": "10.0.0.0/8"}
        if not good:
            wrong += 1
            print(f"{path}: not as wanted: {loaded}, {worked}")
    (folder / "worker.js").unlink()
    print(f"the package in Chromium {browser.version}: {wrong} of {len(POLICIES)} policies not as wanted")
    return wrong


def main():
    folder = pathlib.Path(sys.argv[1]).resolve()
    if not driver.CHROMIUM:
        print("javascript: there is no chromium: package and page were not tried in a browser")
        return 0
    browser = driver.Browser(1000, 640)  # a larger window costs more of each picture
    try:
        base = driver.served(str(folder), POLICIES)
        wrong = tried(browser, folder, base) + tested(browser, folder, base) + page.tried(browser, (folder / "plan.html").as_uri())
        print(f"Chromium took {browser.seconds():.0f} s of processor time")
    finally:
        browser.close()
    return wrong > 0


if __name__ == "__main__":
    sys.exit(main())
