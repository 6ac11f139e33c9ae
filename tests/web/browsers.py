"""Browsers without a screen. Chromium and Firefox are driven as a person drives them, by files,
keys and the clipboard: the one by its DevTools protocol over a pipe, the other by Marionette.
WebKitGTK is driven by scripts that make the events of a person.
"""
import base64
import contextlib
import json
import os
import pathlib
import select
import shutil
import socket
import socketserver
import subprocess
import tempfile
import threading
import time
import urllib.parse

HERE = pathlib.Path(__file__).resolve().parent
# A page of its own, for what a person would do in another window.
OTHER = "data:text/html,<textarea autofocus></textarea>"
TEXT = "document.querySelector('textarea')"
# Hosts that a browser asks by itself: for updates, lists and times.
OWN = ("mozilla.org", "mozilla.com", "mozilla.net", "firefox.com", "google.com", "gvt1.com",
       "googleapis.com", "google-analytics.com", "digicert.com", "mozgcp.net")
PATIENCE = 3600
# With a number in it, what isn't there is waited for until the browser was found idle so many
# times, one behind the other, or has used so many seconds of processor time; so a busy machine
# changes nothing. A timer of the page is awaited by that too.
IDLE, MOST = None, 60
# Each how many seconds a browser is looked at.
LOOK = 0.1


class Failed(Exception):
    """What a browser was asked for hasn't come, or isn't as it has to be."""


class Patience:
    """Looks at the processes of a browser, while something of it is waited for."""

    def __init__(self, browser):
        self.session, self.idle, self.most = str(browser.process.pid), 0, None
        self.next = time.monotonic() + LOOK
        self.end = time.monotonic() + PATIENCE

    def is_over(self):
        """Returns whether what isn't there won't come: an hour has passed, no thread has run or
        waited for a processor or a disk in several looks, or the browser has run for long."""
        now = time.monotonic()
        if not IDLE or now < self.next:
            return now > self.end
        self.next = now + LOOK
        folders = [it for it in pathlib.Path("/proc").glob("[0-9]*")
                   if stat_of(it)[3] == self.session]
        used = sum(int(it) for folder in folders for it in stat_of(folder)[11:13])
        self.most = self.most or used + MOST * os.sysconf("SC_CLK_TCK")
        is_idle = all(stat_of(it)[0] not in "RD" for folder in folders
                      for it in (folder / "task").glob("*"))
        self.idle = self.idle + 1 if is_idle else 0
        return self.idle >= IDLE or used > self.most


def stat_of(folder):
    """Returns what is said of a process or a thread: its state, and numbers; X of one that has
    ended."""
    with contextlib.suppress(OSError):
        if words := (folder / "stat").read_text().rpartition(")")[2].split():
            return words
    return ["X"] + ["0"] * 12


class Proxy(socketserver.ThreadingTCPServer):
    """Takes all that is asked for on the network, answers nothing, and keeps which hosts."""

    allow_reuse_address = daemon_threads = True

    def __init__(self):
        super().__init__(("127.0.0.1", 0), Asked)
        self.asked, self.address = [], "127.0.0.1:%d" % self.server_address[1]
        threading.Thread(target=self.serve_forever, daemon=True).start()


class Asked(socketserver.StreamRequestHandler):
    """A request to the proxy."""

    def handle(self):
        """Keeps the host that is asked for."""
        words = self.rfile.readline(4096).decode("latin-1").split()
        url = words[1] if len(words) > 1 else ""
        host = urllib.parse.urlsplit(url if "//" in url else "//" + url).hostname or "?"
        if not host.endswith(OWN):
            self.server.asked.append(host)


class Browser:
    """What all have: pages by number, of which the first is the one that is tested."""

    # Whether it answers no more, and whether scripts do what a person would.
    is_stuck = is_scripted = False

    def __init__(self, room):
        self.room = pathlib.Path(tempfile.mkdtemp(prefix=self.name, dir=room))
        self.proxy = Proxy()
        self.start()
        self.open("about:blank")
        # The names that each window has.
        self.names = self.run("Object.getOwnPropertyNames(window)")

    @classmethod
    def is_there(cls):
        """Returns whether it is installed."""
        return shutil.which(cls.name) is not None

    def begin(self, words, **how):
        """Begins its process; what it says is kept in its folder."""
        # WebKit's own sandbox can't be made by every user.
        variables = {"HOME": str(self.room), "WEBKIT_DISABLE_SANDBOX_THIS_IS_DANGEROUS": "1"}
        with open(self.room / "said", "wb") as said:
            how = {"stdin": subprocess.DEVNULL, "stdout": said} | how
            self.process = subprocess.Popen(words, stderr=said, env=os.environ | variables,
                                            start_new_session=True, **how)

    def wait(self, expression, what=None, value=True):
        """Waits until an expression has this value in the page."""
        patience = Patience(self)
        while self.run(expression) != value:
            if patience.is_over():
                raise Failed(what or expression)
            time.sleep(0.02)

    @contextlib.contextmanager
    def elsewhere(self, text):
        """Turns to another window, where the focus is in a field with this text."""
        self.turn_to(1)
        self.run(f"{TEXT}.value = {json.dumps(text)}, {TEXT}.focus()")
        yield
        self.turn_to(0)

    def write_clipboard(self, text):
        """Puts a text on the clipboard, as one copies it in another window."""
        with self.elsewhere(text):
            self.press("a", "selectAll")
            self.press("c", "copy")

    def read_clipboard(self):
        """Returns what is on the clipboard, as one pastes it in another window."""
        with self.elsewhere(""):
            self.press("v", "paste")
            return self.run(f"{TEXT}.value")

    def complaints(self):
        """Returns what the page has asked for beside itself, and what it was refused."""
        return [f"asked for {host}" for host in self.proxy.asked]

    def end(self):
        """Waits until its process has ended."""
        self.process.wait()
        self.proxy.shutdown()

    def drop(self, *paths):
        """Drops files onto the page, where only a script can make the events."""
        files = json.dumps([[it.name, base64.b64encode(it.read_bytes()).decode()]
                            for it in map(pathlib.Path, paths)])
        self.run(
            "(() => { const dataTransfer = new DataTransfer();"
            f"for (const [name, data] of {files})"
            "{ const bytes = Uint8Array.from(atob(data), (it) => it.charCodeAt(0));"
            "dataTransfer.items.add(new File([bytes], name)); }"
            "for (const kind of ['dragenter', 'dragover', 'drop']) {"
            "const isRefused = document.body.dispatchEvent(new DragEvent(kind, {"
            "dataTransfer, bubbles: true, cancelable: true }));"
            # Nothing is dropped where the page doesn't say that it takes it.
            "if (kind === 'dragover' && isRefused) break; } })()")


# Keys that aren't a letter, as DevTools and as WebDriver name them.
KEYS = {"Enter": (13, "\ue007"), " ": (32, " "), "Tab": (9, "\ue004"), "PageUp": (33, "\ue00e"),
        "PageDown": (34, "\ue00f"), "End": (35, "\ue010"), "Home": (36, "\ue011"),
        "ArrowLeft": (37, "\ue012"), "ArrowUp": (38, "\ue013"), "ArrowRight": (39, "\ue014"),
        "ArrowDown": (40, "\ue015"), "Backspace": (8, "\ue003"), "Escape": (27, "\ue00c")}
CONTROL = "\ue009"


class Chromium(Browser):
    name = "chromium"

    def start(self):
        ask, self.asks = os.pipe()
        self.answers, answer = os.pipe()

        def hand_over():
            # Both may be among the numbers that they get.
            os.dup2(ask, 1003)
            os.dup2(answer, 1004)
            os.dup2(1003, 3)
            os.dup2(1004, 4)

        self.begin([
            "chromium", "--headless", "--no-sandbox", "--disable-gpu", "--remote-debugging-pipe",
            "--disable-background-networking", "--disable-component-update", "--no-first-run",
            "--disable-sync", "--disable-default-apps", "--force-color-profile=srgb",
            f"--proxy-server={self.proxy.address}", "--proxy-bypass-list=<-loopback>",
            f"--user-data-dir={self.room}", "about:blank"], preexec_fn=hand_over, close_fds=False)
        os.close(ask)
        os.close(answer)
        self.number, self.left, self.events = 0, b"", []
        self.sessions, self.page = [], None
        for url in ("about:blank", OTHER):
            target = self.ask("Target.createTarget", url=url)["targetId"]
            session = self.ask("Target.attachToTarget", targetId=target, flatten=True)["sessionId"]
            self.sessions.append((target, session))
            self.page = session
            for domain in ("Page", "Runtime", "Network", "Log"):
                self.ask(f"{domain}.enable")
        self.turn_to(0)

    def ask(self, method, **given):
        """Asks for something, and returns the answer. What is told meanwhile is kept."""
        self.number += 1
        said = {"id": self.number, "method": method, "params": given}
        if self.page and not method.startswith(("Target.", "Browser.")):
            said["sessionId"] = self.page
        os.write(self.asks, json.dumps(said).encode() + b"\0")
        patience = Patience(self)
        while True:
            while b"\0" in self.left:
                line, self.left = self.left.split(b"\0", 1)
                told = json.loads(line)
                if told.get("id") == self.number:
                    if "error" in told:
                        raise Failed(f"{method}: {told['error']['message']}")
                    return told["result"]
                self.events.append(told)
            has_more = select.select([self.answers], [], [], LOOK)[0]
            more = os.read(self.answers, 1 << 20) if has_more else b""
            if has_more and not more or not has_more and patience.is_over():
                self.is_stuck = True
                raise Failed(f"{method}: chromium doesn't answer")
            self.left += more

    def turn_to(self, page):
        target, self.page = self.sessions[page]
        self.ask("Target.activateTarget", targetId=target)

    def open(self, url):
        self.events.clear()
        self.ask("Page.navigate", url=url)
        self.wait("document.readyState === 'complete'")

    def run(self, expression):
        """Returns the value of an expression in the page."""
        told = self.ask("Runtime.evaluate", expression=expression, returnByValue=True,
                        awaitPromise=True, userGesture=True)
        if "exceptionDetails" in told:
            thrown = told["exceptionDetails"]["exception"]
            raise Failed(f"{expression}: {thrown.get('description')}")
        return told["result"].get("value")

    def press(self, key, command=None):
        """Presses a key; a command is what its combination with Ctrl does."""
        code = KEYS[key][0] if key in KEYS else ord(key.upper())
        given = {"key": key, "windowsVirtualKeyCode": code, "modifiers": 2 if command else 0,
                 "code": key if len(key) > 1 else f"Key{key.upper()}"}
        down = {"commands": [command]} if command else {}
        if not command and (key == "Enter" or len(key) == 1):
            down = {"text": "\r" if key == "Enter" else key}
        self.ask("Input.dispatchKeyEvent", type="keyDown", **given, **down)
        self.ask("Input.dispatchKeyEvent", type="keyUp", **given)

    def click(self, selector):
        """Clicks in the middle of an element."""
        where = self.run(
            f"(() => {{ const it = document.querySelector({json.dumps(selector)});"
            "it.scrollIntoView({ block: 'nearest' });"
            "const { x, y, width, height } = it.getBoundingClientRect();"
            "return [x + width / 2, y + height / 2]; })()")
        for kind in ("mousePressed", "mouseReleased"):
            self.ask("Input.dispatchMouseEvent", type=kind, x=where[0], y=where[1], button="left",
                     clickCount=1)

    def choose(self, *paths):
        """Chooses files."""
        root = self.ask("DOM.getDocument")["root"]["nodeId"]
        node = self.ask("DOM.querySelector", nodeId=root, selector="#file")["nodeId"]
        self.ask("DOM.setFileInputFiles", files=list(map(str, paths)), nodeId=node)

    def drop(self, path):
        """Drops a file onto the page."""
        data = {"items": [], "files": [str(path)], "dragOperationsMask": 1}
        for kind in ("dragEnter", "dragOver", "drop"):
            self.ask("Input.dispatchDragEvent", type=kind, x=200, y=60, data=data)

    def size(self, width=1280, height=800):
        self.ask("Emulation.setDeviceMetricsOverride", width=width, height=height,
                 deviceScaleFactor=1, mobile=False)

    def darken(self, is_dark, is_forced=False):
        """Has the page drawn in the dark, or with a few colours that the system forces on it."""
        self.ask("Emulation.setEmulatedMedia", features=[
            {"name": "prefers-color-scheme", "value": "dark" if is_dark else "light"},
            {"name": "forced-colors", "value": "active" if is_forced else "none"}])

    def complaints(self):
        self.run("0")
        found = super().complaints()
        for told in self.events:
            if told.get("sessionId") != self.sessions[0][1]:
                continue
            if told["method"] == "Network.requestWillBeSent":
                url = told["params"]["request"]["url"]
                if not url.startswith(("file:", "data:", "about:", "blob:")):
                    found.append(f"asked for {url}")
            elif told["method"] == "Log.entryAdded":
                found.append(told["params"]["entry"]["text"])
            elif told["method"] == "Runtime.exceptionThrown":
                details = told["params"]["exceptionDetails"]
                found.append(details.get("exception", {}).get("description", details["text"]))
        return found

    def close(self):
        os.close(self.asks)
        self.process.terminate()
        self.end()
        os.close(self.answers)


# Marionette sets those by which a browser asks for less by itself.
PREFERENCES = """
user_pref("marionette.port", 0);
user_pref("network.proxy.type", 1);
user_pref("network.proxy.http", "127.0.0.1");
user_pref("network.proxy.http_port", {port});
user_pref("network.proxy.ssl", "127.0.0.1");
user_pref("network.proxy.ssl_port", {port});
user_pref("network.proxy.no_proxies_on", "");
user_pref("network.proxy.allow_hijacking_localhost", true);
"""
# The messages of the console that are of a policy, or of an error in a page.
CONSOLE = """
return Services.console.getMessageArray().filter((it) => it instanceof Ci.nsIScriptError
  && (it.category.startsWith('CSP') || it.category.startsWith('content javascript')))
  .map((it) => it.errorMessage);
"""


class Firefox(Browser):
    name = "firefox-esr"

    def start(self):
        port = self.proxy.server_address[1]
        (self.room / "user.js").write_text(PREFERENCES.replace("{port}", str(port)))
        self.begin(["firefox-esr", "--headless", "--no-remote", "--marionette",
                    "--remote-allow-system-access", "--profile", str(self.room)])
        file, patience = self.room / "MarionetteActivePort", Patience(self)
        while not file.exists() or not file.read_text().strip():
            if patience.is_over() or self.process.poll() is not None:
                raise Failed("firefox-esr hasn't started")
            time.sleep(0.05)
        self.socket = socket.create_connection(("127.0.0.1", int(file.read_text())), PATIENCE)
        self.stream = self.socket.makefile("rb")
        self.read()
        self.ask("WebDriver:NewSession", capabilities={"alwaysMatch": {
            "unhandledPromptBehavior": "accept"}})
        self.handles = [self.ask("WebDriver:GetWindowHandle")["value"]]
        self.handles.append(self.ask("WebDriver:NewWindow", type="tab")["handle"])
        self.turn_to(1)
        self.ask("WebDriver:Navigate", url=OTHER)
        self.turn_to(0)

    def read(self):
        """Reads a message: its length, a colon, and JSON."""
        digits = b""
        while (byte := self.stream.read(1)) != b":":
            if not byte:
                raise Failed("firefox-esr has ended")
            digits += byte
        return json.loads(self.stream.read(int(digits)))

    def ask(self, command, **given):
        said = json.dumps([0, 0, command, given]).encode()
        self.socket.sendall(b"%d:%s" % (len(said), said))
        *_, error, result = self.read()
        if error:
            raise Failed(f"{command}: {error['message']}")
        return result

    def turn_to(self, page):
        self.ask("WebDriver:SwitchToWindow", handle=self.handles[page], focus=True)

    def open(self, url):
        self.in_chrome("Services.console.reset()")
        self.ask("WebDriver:Navigate", url=url)

    def run(self, expression):
        return self.ask("WebDriver:ExecuteScript", script=f"return {expression}", args=[])["value"]

    def element(self, selector):
        found = self.ask("WebDriver:FindElement", using="css selector", value=selector)["value"]
        return next(iter(found.values()))

    def press(self, key, command=None):
        keys = ([CONTROL] if command else []) + [KEYS[key][1] if key in KEYS else key]
        strokes = [{"type": "keyDown", "value": it} for it in keys]
        strokes += [{"type": "keyUp", "value": it} for it in reversed(keys)]
        self.ask("WebDriver:PerformActions", actions=[
            {"type": "key", "id": "keyboard", "actions": strokes}])

    def click(self, selector):
        self.ask("WebDriver:ElementClick", id=self.element(selector))

    def choose(self, *paths):
        self.ask("WebDriver:ElementSendKeys", id=self.element("#file"),
                 text="\n".join(map(str, paths)))

    def size(self, width=1280, height=800):
        self.ask("WebDriver:SetWindowRect", width=width, height=height)

    def in_chrome(self, script):
        self.ask("Marionette:SetContext", value="chrome")
        try:
            return self.ask("WebDriver:ExecuteScript", script=script, args=[])["value"]
        finally:
            self.ask("Marionette:SetContext", value="content")

    def darken(self, is_dark, _=False):
        for name, number in (
                ("ui.systemUsesDarkTheme", int(is_dark)),
                ("layout.css.prefers-color-scheme.content-override", int(not is_dark))):
            self.in_chrome(f"Services.prefs.setIntPref('{name}', {number});")

    def complaints(self):
        return super().complaints() + self.in_chrome(CONSOLE)

    def close(self):
        try:
            self.ask("Marionette:Quit", flags=["eForceQuit"])
        except (Failed, OSError):
            self.process.kill()
        self.end()


class WebKit(Browser):
    name, is_scripted = "webkit", True
    # What its window is made with: Debian's Python, which has the modules for it.
    PYTHON = "/usr/bin/python3"

    @classmethod
    def is_there(cls):
        """Returns whether there is what its window needs."""
        words = [cls.PYTHON, "-c", "import gi; gi.require_version('WebKit2', '4.1')"]
        return all(map(shutil.which, ("xvfb-run", "xauth", cls.PYTHON))) and subprocess.run(
            words, stderr=subprocess.DEVNULL, check=False).returncode == 0

    def start(self):
        self.begin(["xvfb-run", "-a", self.PYTHON, "-B", HERE / "webkit.py",
                    f"http://{self.proxy.address}"], stdin=subprocess.PIPE, stdout=subprocess.PIPE)

    def ask(self, **given):
        self.process.stdin.write(json.dumps(given).encode() + b"\n")
        self.process.stdin.flush()
        line = self.process.stdout.readline()
        if not line:
            raise Failed("webkit has ended")
        told = json.loads(line)
        if "error" in told:
            raise Failed(f"{given}: {told['error']}")
        return told.get("value")

    def open(self, url):
        self.ask(open=url)

    def run(self, expression):
        return self.ask(run=expression)

    def press(self, key, command=None):
        self.run("document.activeElement.dispatchEvent(new KeyboardEvent('keydown', "
                 f"{{ key: {json.dumps(key)}, bubbles: true, cancelable: true }}))")

    def click(self, selector):
        self.run(f"document.querySelector({json.dumps(selector)}).click()")

    def choose(self, *paths):
        self.drop(*paths)

    def size(self, width=1280, height=800):
        """Its window has one size, and is light."""

    def darken(self, is_dark, is_forced=False):
        """See size."""

    def close(self):
        self.process.stdin.close()
        self.end()


KINDS = {it.name: it for it in (Chromium, Firefox, WebKit)}
