"""driver.py: Chromium without a window, by the protocol of its own tools for developers, and files served to it from this machine."""
import base64
import fcntl
import functools
import http.server
import json
import os
import select
import shutil
import subprocess
import tempfile
import threading
import time

CHROMIUM = next(filter(None, map(shutil.which, ("chromium", "chromium-browser", "google-chrome"))), None)
# of keys that write nothing of their own: what the page is told, their number on a keyboard, and what they write
KEYS = {"Enter": ("Enter", 13, "\r"), "Backspace": ("Backspace", 8, ""), "Tab": ("Tab", 9, ""), "Escape": ("Escape", 27, ""),
        "Left": ("ArrowLeft", 37, ""), "Up": ("ArrowUp", 38, ""), "Right": ("ArrowRight", 39, ""), "Down": ("ArrowDown", 40, "")}
PATIENCE = 240  # seconds for an answer


class Browser:
    """One window with one page. Commands go into one pipe, and what Chromium says comes out of another one, each with a zero byte behind it."""

    def __init__(self, width=1400, height=850):
        self.folder = tempfile.TemporaryDirectory(prefix="pcidr-chromium-")
        (read, self.into), (self.out, write) = os.pipe(), os.pipe()
        # Chromium has them as 3 and 4: they are moved there from above
        given = [fcntl.fcntl(end, fcntl.F_DUPFD, 10) for end in (read, write)]
        arguments = ["--headless=new", "--no-sandbox", "--disable-gpu", "--disable-dev-shm-usage", "--hide-scrollbars", "--force-device-scale-factor=1",
                     "--no-first-run", "--disable-background-networking", "--disable-component-update", "--disable-default-apps", "--disable-extensions",
                     "--disable-sync", "--disable-breakpad", "--disable-background-timer-throttling", "--disable-backgrounding-occluded-windows",
                     "--disable-renderer-backgrounding", "--remote-debugging-pipe", f"--window-size={width},{height}", f"--user-data-dir={self.folder.name}", "about:blank"]
        self.process = subprocess.Popen(["bash", "-c", f'exec "$@" 3<&{given[0]} 4>&{given[1]}', "", CHROMIUM, *arguments], pass_fds=given, stdin=subprocess.DEVNULL,
                                        stdout=subprocess.DEVNULL, stderr=subprocess.DEVNULL)
        for end in (read, write, *given):
            os.close(end)
        self.asked, self.buffer, self.session, self.loads, self.told = 0, b"", None, 0, []
        self.version = self.ask("Browser.getVersion")["product"].split("/")[1]
        self.target = next(it["targetId"] for it in self.ask("Target.getTargets")["targetInfos"] if it["type"] == "page")
        self.session = self.ask("Target.attachToTarget", targetId=self.target, flatten=True)["sessionId"]
        for part in ("Page", "Runtime", "Log"):
            self.ask(f"{part}.enable")

    def send(self, command, **parameters):
        """Asks for something, and returns the number of the answer."""
        self.asked += 1
        message = {"id": self.asked, "method": command, "params": parameters} | ({"sessionId": self.session} if self.session else {})
        left = json.dumps(message).encode() + b"\0"
        while left:
            left = left[os.write(self.into, left):]
        return self.asked

    def heard(self):
        """The next thing that Chromium says."""
        while b"\0" not in self.buffer:
            if not select.select([self.out], [], [], PATIENCE)[0]:
                raise RuntimeError(f"Chromium says nothing for {PATIENCE} s")
            more = os.read(self.out, 1 << 20)
            if not more:
                raise RuntimeError("Chromium has ended")
            self.buffer += more
        message, _, self.buffer = self.buffer.partition(b"\0")
        return json.loads(message)

    def answer(self, number):
        while (message := self.heard()).get("id") != number:
            event, parameters = message.get("method"), message.get("params", {})
            if event == "Page.loadEventFired":
                self.loads += 1
            elif event == "Log.entryAdded":
                self.told.append(parameters["entry"]["text"])
            elif event == "Runtime.exceptionThrown":
                self.told.append(json.dumps(parameters["exceptionDetails"]))
            elif event == "Runtime.consoleAPICalled":
                self.told.append(json.dumps(parameters["args"]))
        if "error" in message:
            raise RuntimeError(message["error"]["message"])
        return message["result"]

    def ask(self, command, **parameters):
        """The answer to a command of the tools for developers."""
        return self.answer(self.send(command, **parameters))

    def go(self, url):
        before = self.loads
        self.ask("Page.navigate", url=url)
        while self.loads == before:
            self.run("return 0")

    def evaluated(self, expression):
        answer = self.ask("Runtime.evaluate", expression=expression, returnByValue=True, awaitPromise=True, userGesture=True)
        if "exceptionDetails" in answer:
            raise RuntimeError(json.dumps(answer["exceptionDetails"])[:800])
        return answer["result"].get("value")

    def run(self, script, *arguments):
        return self.evaluated(f"(function () {{{script}}}).apply(null, {json.dumps(arguments)})")

    def wait(self, script, *arguments):
        """What the promise of a script becomes, or its error as a string."""
        return self.evaluated(f"(async (...args) => {{{script}}})(...{json.dumps(arguments)}).then((ok) => ({{ ok }}), (error) => ({{ error: String(error) }}))")

    def until(self, expression, seconds=120):
        """Waits until an expression holds."""
        if not self.evaluated(f"""new Promise((done) => {{
                const end = Date.now() + {1000 * seconds}, look = () => (({expression}) ? done(true) : Date.now() > end ? done(false) : setTimeout(look, 10));
                look();
            }})"""):
            raise RuntimeError(f"not within {seconds} s: {expression}")

    def keys(self, *keys):
        sent = 0
        for key in keys:
            name, number, text = KEYS.get(key, (key, 0, key))
            how = {"key": name, "windowsVirtualKeyCode": number}
            self.send("Input.dispatchKeyEvent", type="keyDown" if text else "rawKeyDown", text=text, **how)
            sent = self.send("Input.dispatchKeyEvent", type="keyUp", **how)
        self.answer(sent)

    def click(self, x, y):
        for kind in ("mousePressed", "mouseReleased"):
            sent = self.send("Input.dispatchMouseEvent", type=kind, x=x, y=y, button="left", clickCount=1)
        self.answer(sent)

    def size(self, width, height):
        window = self.ask("Browser.getWindowForTarget", targetId=self.target)["windowId"]
        self.ask("Browser.setWindowBounds", windowId=window, bounds={"width": width, "height": height})

    def log(self):
        """What the pages said on the console since the last time, and what the browser said of them."""
        self.run("return 0")
        told, self.told = self.told, []
        return told

    def picture(self):
        return base64.b64decode(self.ask("Page.captureScreenshot")["data"])

    def seconds(self):
        """The processor time of the browser's processes so far, with those that have ended."""
        used, processes = 0.0, [self.process.pid]
        for process in processes:
            try:
                for task in os.listdir(f"/proc/{process}/task"):
                    with open(f"/proc/{process}/task/{task}/children") as file:
                        processes += map(int, file.read().split())
                with open(f"/proc/{process}/stat") as file:
                    fields = file.read().rsplit(")", 1)[1].split()
                used += sum(map(int, fields[11:15])) / os.sysconf("SC_CLK_TCK")
            except OSError:
                pass
        return used

    def close(self):
        try:
            self.send("Browser.close")
            self.process.wait(30)
        finally:
            self.process.kill()
            self.process.wait()
            os.close(self.into)
            os.close(self.out)
            self.folder.cleanup()


def served(folder, policies):
    """The address of a server for a folder, which has beside its files an empty page at each path of `policies`, under that policy."""

    class Handler(http.server.SimpleHTTPRequestHandler):
        extensions_map = {".js": "text/javascript", ".mjs": "text/javascript", ".wasm": "application/wasm", ".html": "text/html", "": "application/octet-stream"}

        def do_GET(self):
            if self.path not in policies:
                super().do_GET()
                return
            self.send_response(200)
            self.send_header("Content-Type", "text/html")
            if policies[self.path]:
                self.send_header("Content-Security-Policy", policies[self.path])
            self.end_headers()
            self.wfile.write(b"<!doctype html><title>test</title>")

        def log_message(self, *_):
            pass

    server = http.server.ThreadingHTTPServer(("127.0.0.1", 0), functools.partial(Handler, directory=folder))
    threading.Thread(target=server.serve_forever, daemon=True).start()
    return f"http://127.0.0.1:{server.server_address[1]}"
