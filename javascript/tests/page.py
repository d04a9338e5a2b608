"""page.py: the page in Chromium, by clicks and keys, for browser.py."""
import base64
import itertools
import pathlib

wrong = 0


def is_so(holds, what):
    global wrong
    if not holds:
        wrong += 1
        print(f"the page: not as wanted: {what}")


class Page:
    """The page as a user has it."""

    def __init__(self, browser, address):
        self.browser = browser
        browser.go(address)
        self.ready()

    def ready(self):
        self.browser.until("document.documentElement.dataset.state === 'ready'")

    def text(self, query):
        return self.browser.run("return document.querySelector(arguments[0]).textContent", query)

    def texts(self, query):
        return self.browser.run("return [...document.querySelectorAll(arguments[0])].map((it) => it.textContent)", query)

    def plan(self):
        """The text of a plan that the box shows whole."""
        return self.browser.run("return document.getElementById('text').value")

    def write(self, text=None, script="arguments[0]"):
        """A new text, or what a script has, as pasted into the box after all of it was chosen."""
        self.push("#new")
        self.browser.run(f"const text = {script};" + """const box = document.getElementById('text'), data = new DataTransfer(); box.focus();
            data.setData('text/plain', text);
            if (box.dispatchEvent(new ClipboardEvent('paste', { clipboardData: data, cancelable: true }))) {
                box.value = text;
                box.dispatchEvent(new Event('input'));
            }""", text)
        self.ready()

    def press(self, *keys, on="canvas"):
        self.browser.run("document.getElementById(arguments[0]).focus()", on)
        self.browser.keys(*keys)
        self.ready()

    def push(self, query):
        x, y = self.browser.run("""const it = document.querySelector(arguments[0]); it.scrollIntoView({ block: 'nearest' });
            const box = it.getBoundingClientRect(); return [box.x + box.width / 2, box.y + box.height / 2]""", query)
        self.browser.click(x, y)
        self.ready()

    def ask(self, text):
        self.browser.run("document.getElementById('asked').value = ''")
        self.press(*text, "Enter", on="asked")
        return self.text("#status")

    def chosen(self):
        return self.text("#detail h2")

    def export(self, form):
        """What the button Save hands out."""
        answer = self.browser.wait("""document.getElementById('form').value = args[0];
            const made = new Promise((done) => { URL.createObjectURL = (blob) => { done(blob.text()); return 'blob:none'; }; });
            HTMLAnchorElement.prototype.click = () => {};
            document.getElementById('save').click();
            return await made;""", form)
        return answer["ok"]

    def picture(self):
        """Of the map: how many colours it has, and the share of the commonest one."""
        return self.browser.run("""const canvas = document.getElementById('canvas'), { data } = canvas.getContext('2d').getImageData(0, 0, canvas.width, canvas.height);
            const counts = new Map();
            for (const pixel of new Uint32Array(data.buffer)) counts.set(pixel, (counts.get(pixel) ?? 0) + 1);
            return [counts.size, Math.max(...counts.values()) / (canvas.width * canvas.height)]""")


def small_plan(page):
    is_so(page.text("#status").startswith("22 networks, 2 merged, 20 inside others, 1 twice"), page.text("#status"))
    is_so(page.ask("10.20.17.9") == "10.20.17.9 is in 10.20.16.0/22 wifi staff", f"a look-up: {page.text('#status')}")
    is_so(page.chosen() == "10.20.16.0/22", f"what is chosen: {page.chosen()}")
    is_so("private use (RFC 1918)" in page.texts("#detail dd"), page.texts("#detail dd"))
    page.press("s")
    is_so("10.20.16.0/23 wifi staff\n10.20.18.0/23 wifi staff\n" in page.plan(), "s splits")
    page.press("j")
    is_so("10.20.16.0/22 wifi staff\n10.20.20" in page.plan(), "j joins")
    page.press("n")
    page.browser.keys(*"guests 2", "Enter")
    page.ready()
    is_so("10.20.16.0/22 guests 2\n" in page.plan(), "n renames")
    page.press("f")
    is_so(page.chosen() == "10.20.49.0/24" and page.plan().endswith("10.20.49.0/24 new\n"), f"f takes a free network: {page.chosen()}")
    page.press("u")
    page.press("u")
    is_so("10.20.16.0/22 wifi staff" in page.plan() and "new" not in page.plan(), "u undoes")
    page.press("r")
    is_so("guests 2" in page.plan(), "r does it again")
    page.push("#undo")
    is_so("guests 2" not in page.plan(), "the button undoes")
    # the keys of the map: in, right, left, out, and zoom there and back
    page.ask("10.20.128.0/20")
    page.press("Right")
    is_so(page.chosen() == "10.20.144.0/20", f"right: {page.chosen()}")
    page.press("Left")
    is_so(page.chosen() == "10.20.128.0/20", f"left: {page.chosen()}")
    page.press("Right", "Up")
    is_so(page.chosen() == "10.20.128.0/19", f"up: {page.chosen()}")
    page.press("Down", "Down")
    is_so(page.chosen() == "10.20.128.0/21", f"down: {page.chosen()}")
    page.ask("10.20.128.1")
    page.press("Up", "Up", "Enter")
    is_so(page.text("#crumbs [aria-current]") == "10.20.128.0/18", f"zoom: {page.texts('#crumbs button')}")
    page.press("Backspace")
    is_so(page.text("#crumbs [aria-current]") == "10.20.0.0/16", f"back: {page.texts('#crumbs button')}")
    # a click on the map chooses what lies there
    x, y = page.browser.run("const box = document.getElementById('canvas').getBoundingClientRect(); return [box.x + box.width * 0.99, box.y + box.height * 0.99]")
    page.browser.click(x, y)
    is_so(page.chosen().startswith("10.20.") and "free" in page.text("#detail p"), f"a click: {page.chosen()} {page.text('#detail p')}")
    # how much of a network is in use
    for asked, name, used in (("10.20.0.0/18", "in use in part", "35.93 %"), ("10.20.128.0/18", "residences, with rows inside", "50.00 %"), ("10.20.128.0/22", "in use", None)):
        page.browser.run("document.getElementById('asked').value = ''")
        page.ask(asked)
        if page.chosen() != asked:
            page.browser.run("document.getElementById('canvas').focus()")
            while page.browser.run("return Number(document.querySelector('#detail h2').textContent.split('/')[1])") > int(asked.split("/")[1]):
                page.press("Up")
            while page.browser.run("return Number(document.querySelector('#detail h2').textContent.split('/')[1])") < int(asked.split("/")[1]):
                page.press("Down")
        shown = dict(zip(page.texts("#detail dt"), page.texts("#detail dd")))
        is_so((page.chosen(), page.text("#detail p"), shown.get("in use")) == (asked, name, used), f"{page.chosen()}: {page.text('#detail p')}, {shown.get('in use')}")
    # lists
    for tab, rows, first in (("plan", 22, "10.20.0.0/16 campus"), ("merged", 2, "10.20.0.0/16 65,536"), ("overlaps", 20, "10.20.0.0/20 campus core in 10.20.0.0/16 campus"),
                             ("kinds", 22, "10.20.0.0/16 private: campus"), ("free", 15, "10.20.2.0/23 512")):
        page.push(f"#tab-{tab}")
        is_so(page.text(f"#tab-{tab}").endswith(f" {rows}"), f"the tab {tab}: {page.text(f'#tab-{tab}')}")
        is_so(page.text("#line-0").strip() == first, f"the list {tab}: {page.text('#line-0')}")
    page.push("#tab-fit")
    page.browser.run("const box = document.getElementById('length'); box.value = '20'; box.dispatchEvent(new Event('input'))")
    is_so(page.text("#tab-fit") == "Free /20 9" and page.text("#line-0").strip() == "10.20.64.0/20", f"free ones of a length: {page.text('#tab-fit')}, {page.text('#line-0')}")
    page.push("#tab-plan")
    page.press("Down", "Down", on="list")
    is_so(page.browser.run("const list = document.getElementById('list'); return document.getElementById(list.getAttribute('aria-activedescendant')).textContent").strip().startswith(page.chosen()),
          "a list tells a screen reader what is chosen")
    for form, begins in (("merged", "10.20.0.0/16\n2001:db8:20::/48\n"), ("plan", "10.20.0.0/16 campus\n10.20.0.0/20 campus core\n"), ("free", "10.20.2.0/23\n"), ("json", '{\n "merged": [\n  "10.20.0.0/16"'),
                         ("csv", "network,name,first,last,addresses\n10.20.0.0/16,campus,10.20.0.0,10.20.255.255,65536\n"),
                         ("nft", "set plan_ipv4 {\n\ttype ipv4_addr\n\tflags interval\n\telements = { 10.20.0.0/16 }\n}\nset plan_ipv6 {")):
        made = page.export(form)
        is_so(made.startswith(begins), f"export {form}: {made[:80]!r}")
    # the look of the map: light, dark, along the curve, and of IPv6
    for what in ("", "#theme", "#hilbert", "#crumbs button", "#theme"):
        if what:
            page.push(what)
        colours, share = page.picture()
        is_so(colours > 8 and 0.02 < share < 0.9, f"the map after {what}: {colours} colours, {share:.2f} of one")
    page.push("#hilbert")
    # the plan in the address, read by a page that has no other
    page.push("#link")
    page.browser.until("location.hash.startsWith('#plan=')")
    kept, address = page.plan(), page.browser.run("return location.href")
    page.browser.run("localStorage.clear()")
    page.browser.go("about:blank")
    page.browser.go(address)
    page.ready()
    is_so(page.plan() == kept, "the plan of an address")
    page.browser.run("history.replaceState(null, '', location.pathname)")


def wrong_lines(page):
    page.write("10.0.0.0/8 all\n10.0.0.1/24 host bits\n10.0.300.0/24\n192.0.2.0-192.0.2.9 a range\n2001:db8::/129\n# a comment\n010.0.0.0/8\n<img src=x onerror=alert(1)>\n")
    faults = page.texts("#faults li")
    is_so([it.partition(":")[0] for it in faults] == ["line 2", "line 3", "line 5", "line 7", "line 8"], f"the numbers of wrong lines: {faults}")
    is_so(faults[0] == "line 2: 10.0.0.1/24: host bits set; the network is 10.0.0.0/24", f"wrong lines: {faults}")
    is_so(page.text("#status").startswith("3 networks, 3 merged"), page.text("#status"))
    page.push("#faults li:nth-child(2) button")
    is_so(page.browser.run("const box = document.getElementById('text'); return box.value.slice(box.selectionStart, box.selectionEnd)") == "10.0.300.0/24", "a wrong line is shown in the text")
    page.write('site,"Prefix",name\nA,10.0.0.0/9,"x, y"\nB,10.128.0.0/9,z\n')
    is_so(page.plan() == "10.0.0.0/9 x, y\n10.128.0.0/9 z\n" and page.text("#status").startswith("2 networks, 1 merged"), f"CSV: {page.plan()!r}")
    # a text with the ends of lines that Windows has can be changed, and each change taken back
    page.browser.run("""const box = document.getElementById('file');
        Object.defineProperty(box, 'files', { configurable: true, value: [{ name: 'small.txt', size: 40, text: async () => '10.0.0.0/9 x\\r\\n10.128.0.0/9 y\\r\\n' }] });
        box.onchange()""")
    page.browser.until("document.getElementById('text').value === '10.0.0.0/9 x\\n10.128.0.0/9 y\\n'")
    page.ready()
    page.ask("10.0.0.0/9")
    for key, plan in (("j", "10.0.0.0/8 x\n"), ("u", "10.0.0.0/9 x\n10.128.0.0/9 y\n"), ("r", "10.0.0.0/8 x\n"), ("s", "10.0.0.0/9 x\n10.128.0.0/9 x\n"), ("u", "10.0.0.0/8 x\n"), ("u", "10.0.0.0/9 x\n10.128.0.0/9 y\n")):
        page.press(key)
        is_so(page.plan() == plan, f"after {key}: {page.plan()!r}")
    # what is typed into the middle of a text is a change, too
    page.browser.run("const box = document.getElementById('text'); box.focus(); box.setSelectionRange(12, 12)")
    page.browser.keys("Enter", *"10.1.0.0/16 z")
    page.browser.until("document.documentElement.dataset.state === 'ready' && document.getElementById('status').textContent.startsWith('3 networks')")
    is_so(page.plan() == "10.0.0.0/9 x\n10.1.0.0/16 z\n10.128.0.0/9 y\n", page.plan())
    before, undone = "10.0.0.0/9 x\n10.128.0.0/9 y\n", 0
    while page.plan() != before and undone < 15: # where keys come slowly they make more than one change
        page.push("#undo")
        undone += 1
    is_so(page.plan() == before, page.plan())
    page.write("")
    is_so(page.text("#status").startswith("0 networks"), page.text("#status"))
    refused = page.browser.run("""const box = document.getElementById('file');
        Object.defineProperty(box, 'files', { configurable: true, value: [{ name: 'large.txt', size: 100 * 2 ** 20 }] });
        box.onchange(); return document.getElementById('status').textContent""")
    is_so(refused == "large.txt has 100 MiB; the page reads files of at most 16", refused)


LINES = """let state = 1;
    const below = (n) => (state = (state * 48271) % 2147483647) % n;
    window.lines = Array.from({ length: 100000 }, (_, i) => {
        const name = `site-${below(40)} lan ${i}`;
        if (below(4) === 0) return `2001:db8:${below(65536).toString(16)}:${below(65536).toString(16)}::/64 ${name}`;
        const length = [20, 22, 23, 24, 24, 24, 25, 26, 28, 29, 30, 32][below(12)], n = below(1 << 24) >> (32 - length) << (32 - length);
        return `10.${n >> 16}.${n >> 8 & 255}.${n & 255}/${length} ${name}`;
    })"""


def large_plan(page):
    browser = page.browser
    browser.run(LINES)
    # cancel, while a Worker has read some lines of a text: nothing comes of it, and the map, the lists and look-ups are of the text before
    page.push("#new")
    page.push("#example")
    looked = page.ask("10.20.17.9")
    answer = browser.wait("""const $ = (id) => document.getElementById(id), box = $('text'), data = new DataTransfer(), seen = [];
        const cancelled = new Promise((done) => {
            const watch = new MutationObserver(() => {
                seen.push($('status').textContent);
                if (seen.length !== 3) return;
                seen.push($('work').hidden, $('progress').value < 0.5);
                $('cancel').click();
                done();
            });
            watch.observe($('status'), { childList: true });
        });
        data.setData('text/plain', window.lines.join('\\n'));
        box.focus();
        box.select();
        box.dispatchEvent(new ClipboardEvent('paste', { clipboardData: data, cancelable: true }));
        await cancelled;
        await new Promise((done) => setTimeout(done, 700));
        return [seen, $('work').hidden, $('status').textContent, document.documentElement.dataset.state, $('tab-plan').textContent]""")["ok"]
    is_so(all(word.startswith("reading: ") for word in answer[0][:3]) and answer[0][3:5] == [False, True], f"what is told before it is cancelled: {answer[0]}")
    is_so(answer[1:] == [True, "cancelled: the map is of the text before", "ready", "Plan 22"], answer[1:])
    is_so(page.ask("10.20.17.9") == looked, f"a look-up after it is cancelled: {page.text('#status')}")
    page.press("u")
    is_so(page.text("#status").startswith("22 networks"), f"undone after it was cancelled: {page.text('#status')}")
    # while a Worker reads, the page tells how far it is, by its bar and in words, and goes on
    page.push("#new")
    browser.run("""const $ = (id) => document.getElementById(id);
        window.seen = [];
        window.ticks = 0;
        window.ticking = setInterval(() => { if (!$('work').hidden) window.ticks++; }, 5);
        new MutationObserver(() => window.seen.push([$('work').hidden, $('progress').value, $('status').textContent])).observe($('status'), { childList: true })""")
    page.write(script="window.lines.join('\\n')")
    is_so(page.text("#status").startswith("100,000 networks"), page.text("#status"))
    seen, ticks = browser.run("clearInterval(window.ticking); return [window.seen.filter(([isHidden]) => !isHidden), window.ticks]")
    bars, words = [bar for _, bar, _ in seen], [word for _, _, word in seen]
    read = [int(word.split()[1].replace(",", "")) for word in words if word.startswith("reading: ")]
    is_so(len(read) > 5 and read == sorted(set(read)) and 0 < read[0] and read[-1] < 100000, f"the lines that a Worker tells it has read: {read}")
    is_so(len(bars) > 5 and bars == sorted(set(bars)) and 0 < bars[0] and bars[-1] < 1, f"the bar of a Worker: {bars}")
    is_so(words[:1] == [f"reading: {read[0] if read else 0:,} of 100,000 lines"] and words[-1:] == ["sorting the rows of 100,000 lines"], f"what is told while a Worker reads: {words[:1]} {words[-1:]}")
    is_so(ticks > 3, f"the page goes on while a Worker reads: {ticks} ticks of a clock")
    changes = []
    for count in ("100,001", "100,002"):
        before = browser.seconds()
        page.press("f")
        changes.append(browser.seconds() - before)
        is_so(page.text("#status").startswith(f"{count} networks"), page.text("#status"))
    page.ask("10.20.17.9")
    took = browser.run("""document.getElementById('asked').value = '10.20.17.9';
        const begin = performance.now(); document.getElementById('find').requestSubmit(); return performance.now() - begin""")
    colours, share = page.picture()
    is_so(colours > 8 and share < 0.9, f"the map of 100,000 rows: {colours} colours, {share:.2f} of one")
    print(f"the page with 100,000 rows: a change {changes[0]:.1f} s of processor time at first, then {changes[1]:.2f}; a look-up with all that is shown {took:.0f} ms")


def spoken(page):
    """What a screen reader has of the page: each thing with a role, as its role, its name and what it is."""
    found = []
    for node in page.browser.ask("Accessibility.getFullAXTree")["nodes"]:
        if not node["ignored"]:
            what = {it["name"]: it["value"].get("value") for it in node.get("properties", ())}
            found.append((node["role"]["value"], node.get("name", {}).get("value", ""), what))
    return found


def screen_reader(page):
    """By keys alone, with what a screen reader hears."""
    page.push("#new")
    page.push("#example")
    browser, controls = page.browser, ("button", "textbox", "searchbox", "spinbutton", "combobox", "checkbox", "tab", "listbox", "application")
    there = spoken(page)
    unnamed = [it for it in there if it[0] in controls and not it[1]]
    is_so(not unnamed, f"controls without a name: {unnamed}")
    for role, name in (("searchbox", "Look up"), ("textbox", "Networks or ranges"), ("application", "Map of the plan"), ("listbox", "Networks"), ("tab", "Plan 22"), ("spinbutton", "Length /"),
                       ("checkbox", "Hilbert"), ("combobox", "Export"), ("main", ""), ("region", "The map"), ("search", ""), ("group", "What is chosen")):
        is_so(any(it[0] == role and it[1].startswith(name) for it in there) or (role == "searchbox" and any(it[0] == "textbox" and it[1] == name for it in there)), f"a screen reader finds {role} {name!r}")
    # Tab comes to each control that can be used, once, and goes round
    reached = []
    while len(reached) < 80 and reached.count(reached[0] if reached else None) < 2:
        browser.keys("Tab")
        reached.append(browser.run("const it = document.activeElement; return it === document.body ? 'page' : it.id || it.textContent"))
    wanted = browser.run("return [...document.querySelectorAll('button:not(:disabled), input:not([hidden]), select, textarea, [tabindex=\"0\"]')].filter((it) => it.checkVisibility({ visibilityProperty: true }) && it.tabIndex >= 0).map((it) => it.id || it.textContent)")
    is_so(set(wanted) <= set(reached), f"Tab does not come to {set(wanted) - set(reached)}")
    # what is chosen is told, in one short sentence, wherever it is chosen
    heard = lambda: page.text("#told")
    live = browser.run("const it = document.getElementById('told'); return [it.getAttribute('aria-live'), it.checkVisibility({ visibilityProperty: true })]")
    is_so(live == ["polite", True] and ("status", "polite") in {(it[0], it[2].get("live")) for it in spoken(page)}, f"what is told is heard: {live}")
    browser.run("document.getElementById('canvas').focus()")
    browser.keys("/", *"10.20.4.9", "Enter")
    page.ready()
    is_so(heard() == "10.20.4.0/22: servers, 1,024 addresses", heard())
    is_so(page.text("#status") == "10.20.4.9 is in 10.20.4.0/22 servers", page.text("#status"))
    for _ in range(40):
        browser.keys("Tab")
        if browser.run("return document.activeElement.id") == "canvas":
            break
    for key, told in (("Right", "10.20.8.0/22: free, 1,024 addresses"), ("Up", "10.20.8.0/21: free, 2,048 addresses"), ("Up", "10.20.0.0/20: campus core, with rows inside, 4,096 addresses"),
                      ("Enter", "10.20.0.0/20: campus core, with rows inside, 4,096 addresses"), ("Down", "10.20.0.0/21: in use in part, 2,048 addresses"), ("Down", "10.20.0.0/22: in use in part, 1,024 addresses"),
                      ("Down", "10.20.0.0/23: in use, 512 addresses"), ("Down", "10.20.0.0/24: core loopbacks, 256 addresses"), ("s", "10.20.0.0/25: core loopbacks, 128 addresses"),
                      ("j", "10.20.0.0/24: core loopbacks, 256 addresses"), ("u", "10.20.0.0/24: in use, 256 addresses"), ("u", "10.20.0.0/24: core loopbacks, 256 addresses")):
        browser.keys(key)
        page.ready()
        is_so(heard() == told, f"after {key}: {heard()}")
        if key in "Rightsj":
            is_so(any(it[0] == "StaticText" and it[1] == told for it in spoken(page)), f"after {key} a screen reader has {told}")
    browser.run("document.getElementById('list').focus()")
    browser.keys("Down")
    chosen = [it[1].strip() for it in spoken(page) if it[0] == "option" and it[2].get("selected") and it[1].strip()[0].isdigit()]
    is_so(len(chosen) == 1 and chosen[0].startswith("10.20.1.0/24 core links"), f"the list tells what is chosen: {chosen}")
    browser.run("document.querySelector('[role=tab][aria-selected=true]').focus()")
    browser.keys("Right")
    is_so([it[1] for it in spoken(page) if it[0] == "tab" and it[2].get("selected")] == [page.text("#tab-free")], "an arrow goes to the next list")
    browser.keys("Left")


def brightness(colour):
    return sum(k * (c / 255 / 12.92 if c / 255 <= 0.04045 else ((c / 255 + 0.055) / 1.055) ** 2.4) for k, c in zip((0.2126, 0.7152, 0.0722), colour))


def lab(colour):
    """A colour in CIELAB, where distances are those that are seen."""
    r, g, b = (c / 255 / 12.92 if c / 255 <= 0.04045 else ((c / 255 + 0.055) / 1.055) ** 2.4 for c in colour)
    x, y, z = ((0.4124 * r + 0.3576 * g + 0.1805 * b) / 0.95047, 0.2126 * r + 0.7152 * g + 0.0722 * b, (0.0193 * r + 0.1192 * g + 0.9505 * b) / 1.08883)
    x, y, z = (t ** (1 / 3) if t > 0.008856 else 7.787 * t + 16 / 116 for t in (x, y, z))
    return 116 * y - 16, 500 * (x - y), 200 * (y - z)


def colours(page):
    """Texts stand out in both themes, and the colours of rows differ for those who see fewer colours, too, as Chromium shows them to them."""
    browser, source = page.browser, (pathlib.Path(__file__).resolve().parent.parent / "plan" / "plan.js").read_text(encoding="utf-8")
    page.push("#example")
    for theme in ("light", "dark"):
        if browser.run("return document.documentElement.dataset.theme") != theme:
            page.push("#theme")
        pairs = browser.run("""const colour = (text) => text.match(/[\\d.]+/g).map(Number);
            return [...document.querySelectorAll('h1, label, button:not(:disabled), #status, #detail h2, #detail p, dt, dd, .row, .row i, #legend, kbd, textarea')].map((it) => {
                let around = it;
                while (getComputedStyle(around).backgroundColor === 'rgba(0, 0, 0, 0)') around = around.parentElement;
                return [it.tagName + '.' + it.className, colour(getComputedStyle(it).color), colour(getComputedStyle(around).backgroundColor)];
            })""")
        low = {name for name, ink, paper in pairs if (max(brightness(ink[:3]), brightness(paper[:3])) + 0.05) / (min(brightness(ink[:3]), brightness(paper[:3])) + 0.05) < 4.5}
        is_so(len(pairs) > 30 and not low, f"{theme}: texts of too little contrast: {low}")
    shades = source.split("const COLOURS = [")[1].split("]")[0].replace('"', "").split(", ")
    browser.go("about:blank")
    browser.run("document.body.style.margin = 0; document.body.innerHTML = arguments[0].map((shade) => `<div style='height:20px;background:${shade}'></div>`).join('')", shades)
    for kind in ("none", "protanopia", "deuteranopia", "tritanopia"):
        browser.ask("Emulation.setEmulatedVisionDeficiency", type=kind)
        seen = browser.wait("""const image = await createImageBitmap(await (await fetch('data:image/png;base64,' + args[0])).blob());
            const pen = new OffscreenCanvas(image.width, image.height).getContext('2d', { willReadFrequently: true });
            pen.drawImage(image, 0, 0);
            return Array.from({ length: args[1] }, (_, i) => [...pen.getImageData(9, 20 * i + 9, 1, 1).data].slice(0, 3));""", base64.b64encode(browser.picture()).decode(), len(shades))["ok"]
        nearest = min((sum((p - q) ** 2 for p, q in zip(lab(seen[i]), lab(seen[k]))) ** 0.5, shades[i], shades[k]) for i, k in itertools.combinations(range(len(shades)), 2))
        is_so(nearest[0] > 15, f"colours that look alike: {kind} {nearest}")
    browser.ask("Emulation.setEmulatedVisionDeficiency", type="none")


def narrow_page(browser, address):
    """On a telephone of 360 px all is there, one below the other, and can be pressed; a page begins in the colours that the system has."""
    for theme in ("dark", "light"):
        browser.run("localStorage.clear()")
        browser.go("about:blank")
        browser.ask("Emulation.setDeviceMetricsOverride", width=360, height=740, deviceScaleFactor=2, mobile=True)
        browser.ask("Emulation.setEmulatedMedia", features=[{"name": "prefers-color-scheme", "value": theme}])
        page = Page(browser, address)
        is_so(browser.run("return document.documentElement.dataset.theme") == theme, f"a page for a {theme} system")
        page.push("#example")  # (the page before may have stored its plan once more when the storage was cleared)
        wide = browser.run("""const beyond = [...document.querySelectorAll('button, input, select, textarea, canvas, #list, #detail, h1, #status')]
            .filter((it) => it.checkVisibility({ visibilityProperty: true }) && (it.getBoundingClientRect().right > 360.5 || it.getBoundingClientRect().left < -0.5)).map((it) => it.id || it.textContent);
            return [window.innerWidth, document.documentElement.scrollWidth, beyond]""")
        is_so(wide == [360, 360, []], f"within 360 px: {wide}")
        shades, share = page.picture()
        is_so(shades > 8 and share < 0.9, f"a narrow map: {shades} colours, {share:.2f} of one")
        is_so(page.ask("10.20.17.9").startswith("10.20.17.9 is in") and page.chosen() == "10.20.16.0/22", "a look-up on a narrow page")
        page.push("#detail button")
        is_so("10.20.16.0/23 wifi staff\n" in page.plan(), "a button splits on a narrow page")
    browser.ask("Emulation.clearDeviceMetricsOverride")


def tried(browser, address):
    """The page at that address; how much of it is not as wanted."""
    browser.log()
    page = Page(browser, address)
    small_plan(page)
    wrong_lines(page)
    browser.size(1400, 850)
    large_plan(page)
    browser.size(1000, 640)
    screen_reader(page)
    narrow_page(browser, address)
    colours(page)
    log = [line for line in browser.log() if "alert" not in line]
    is_so(log == [], f"the browser says {log}")
    print(f"the page in Chromium {browser.version}: {wrong} not as wanted")
    return wrong
