"""Two browsers without a window, each driven by its own protocol, so that nothing but Debian's package is wanted.

A page of either answers expressions, in which `$` gives an element and `$$` all of them, takes keys and the pointer,
and tells how long it worked. What goes wrong in the page is kept in `faults`."""
import base64
import itertools
import json
import os
import shutil
import socket
import subprocess
import tempfile
import time
from pathlib import Path

WIDTH, HEIGHT = 1440, 900


class Page:
    """What is asked of a page in the same way of both browsers."""

    def wait(self, expression, wanted=True, seconds=20):
        """Waits until an expression has this value, or where none is given, any that is not false."""
        ends = time.monotonic() + seconds
        while (found := self.get(expression)) != wanted and not (wanted is True and found):
            if time.monotonic() > ends:
                raise AssertionError(f"{expression} is {found!r} for {seconds} seconds, wanted is {wanted!r}")
            time.sleep(0.03)

    def text(self, selector):
        return self.get(f"$$('{selector}').map((it) => it.textContent).join('')")

    def says(self, selector, wanted, seconds=20):
        self.wait(f"$$('{selector}').map((it) => it.textContent).join('')", wanted, seconds)

    def click(self, selector):
        self.get(f"$('{selector}').click()")

    def choose(self, selector, value):
        self.get(f"($('{selector}').value = '{value}', $('{selector}').dispatchEvent(new Event('change')))")

    def busy(self, work):
        """How many seconds the page's thread works for something, until it is shown."""
        before = self.worked()
        work()
        self.get("new Promise((done) => requestAnimationFrame(() => setTimeout(() => done(true))))")
        return self.worked() - before

    def middle(self, selector):
        return self.get(f"(() => {{ const at = $('{selector}').getBoundingClientRect();"
                        "return [at.left + at.width / 2, at.top + at.height / 2]; })()")

    def type(self, text, language="source"):
        """Types a text in place of the one that is there."""
        self.get(f"$('#{language}-editor textarea').focus()")
        self.key("a", control=True)
        self.insert(text)

    def end(self):
        self.process.terminate()
        self.process.wait()


class Chromium(Page):
    """Chromium, by its protocol for developers over two pipes."""

    NAMES = ("chromium", "chromium-browser", "google-chrome")
    CODES = {"End": 35, "Home": 36, "ArrowLeft": 37, "ArrowRight": 39}
    COMMANDS = {"a": ["selectAll"], "c": ["copy"], "v": ["paste"]}

    def __init__(self, folder):
        name = next(filter(None, map(shutil.which, self.NAMES)))
        commands, self.commands = os.pipe()
        self.answers, answers = os.pipe()
        words = [name, "--headless=new", "--remote-debugging-pipe", f"--user-data-dir={folder}", "--no-first-run",
                 "--disable-gpu", "--disable-dev-shm-usage", *["--no-sandbox"][os.geteuid():], "about:blank"]
        start = f'exec "$@" 3<&{commands} 4>&{answers}'
        self.process = subprocess.Popen(["bash", "-c", start, "bash", *words], pass_fds=[commands, answers],
                                        stdout=subprocess.DEVNULL, stderr=subprocess.DEVNULL)
        os.close(commands)
        os.close(answers)
        self.numbers, self.buffer, self.session, self.faults = itertools.count(1), b"", None, []
        target = self.call("Target.createTarget", url="about:blank")["targetId"]
        self.session = self.call("Target.attachToTarget", targetId=target, flatten=True)["sessionId"]
        for domain in ("Page", "Runtime", "Log"):
            self.call(f"{domain}.enable")
        self.call("Performance.enable", timeDomain="threadTicks")
        self.size(WIDTH, HEIGHT)

    def size(self, width, height):
        self.call("Emulation.setDeviceMetricsOverride", width=width, height=height, deviceScaleFactor=1, mobile=False)

    def message(self):
        while b"\0" not in self.buffer:
            data = os.read(self.answers, 1 << 20)
            if not data:
                raise RuntimeError("the browser has ended")
            self.buffer += data
        line, self.buffer = self.buffer.split(b"\0", 1)
        return json.loads(line)

    def call(self, method, **given):
        number = next(self.numbers)
        sent = {"id": number, "method": method, "params": given}
        if self.session:
            sent["sessionId"] = self.session
        os.write(self.commands, json.dumps(sent).encode() + b"\0")
        while True:
            found = self.message()
            if found.get("id") == number:
                if "error" in found:
                    raise RuntimeError(f"{method}: {found['error']}")
                return found["result"]
            if found.get("method") == "Runtime.exceptionThrown":
                details = found["params"]["exceptionDetails"]
                self.faults.append(details.get("exception", {}).get("description", details["text"]))
            if found.get("method") == "Log.entryAdded" and found["params"]["entry"]["level"] == "error":
                self.faults.append(found["params"]["entry"]["text"])

    def open(self, address):
        self.call("Page.navigate", url=address)

    def get(self, expression):
        """The value of an expression in the page, or of what it promises."""
        found = self.call("Runtime.evaluate", expression=expression, awaitPromise=True, returnByValue=True,
                          includeCommandLineAPI=True)
        if "exceptionDetails" in found:
            raise AssertionError(f"{expression}: {found['exceptionDetails']}")
        return found["result"].get("value")

    def key(self, key, control=False):
        command = self.COMMANDS.get(key, []) if control else []
        typed = {} if control or key in self.CODES else {"text": key}
        for kind, more in (("keyDown", typed), ("keyUp", {})):
            self.call("Input.dispatchKeyEvent", type=kind, key=key, modifiers=2 * control, commands=command,
                      windowsVirtualKeyCode=self.CODES.get(key, ord(key[0].upper())), **more)

    def insert(self, text):
        self.call("Input.insertText", text=text)

    def worked(self):
        return {it["name"]: it["value"] for it in self.call("Performance.getMetrics")["metrics"]}["TaskDuration"]

    def point(self, selector):
        """Moves the pointer over an element."""
        x, y = self.middle(selector)
        self.call("Input.dispatchMouseEvent", type="mouseMoved", x=x, y=y)

    def picture(self, path):
        self.size(1000, 560)
        self.call("Emulation.setEmulatedMedia", features=[{"name": "prefers-color-scheme", "value": "light"}])
        data = self.call("Page.captureScreenshot", format="png")["data"]
        Path(path).write_bytes(base64.b64decode(data))
        self.size(WIDTH, HEIGHT)


class Firefox(Page):
    """Firefox, by Marionette, its own protocol for tests, over a socket."""

    NAMES = ("firefox-esr", "firefox")
    CODES = {"End": "\ue010", "Home": "\ue011", "ArrowLeft": "\ue012", "ArrowRight": "\ue014"}
    CONTROL = "\ue009"
    # A port that the system picks, and what a page throws on standard error.
    CHOICES = {"marionette.port": "0", "browser.dom.window.dump.enabled": "true"}
    NAMED = "const $ = (it) => document.querySelector(it), $$ = (it) => [...document.querySelectorAll(it)];"

    def __init__(self, folder):
        os.makedirs(folder)
        lines = [f'user_pref("{name}", {value});\n' for name, value in self.CHOICES.items()]
        Path(folder, "user.js").write_text("".join(lines), encoding="ascii")
        name = next(filter(None, map(shutil.which, self.NAMES)))
        self.said = tempfile.TemporaryFile("w+", errors="replace")
        self.process = subprocess.Popen([name, "--headless", "--marionette", "--no-remote", "--profile", folder],
                                        env={**os.environ, "HOME": folder}, stdout=subprocess.DEVNULL,
                                        stderr=self.said)
        self.numbers, self.buffer = itertools.count(1), b""
        self.socket = self.connected(f"{folder}/MarionetteActivePort")
        self.message()
        self.call("WebDriver:NewSession", capabilities={})
        self.call("WebDriver:SetTimeouts", script=60000)
        self.call("WebDriver:SetWindowRect", width=WIDTH, height=HEIGHT)

    def connected(self, told, seconds=60):
        """Waits until the file tells a port, and gives a socket to it."""
        ends = time.monotonic() + seconds
        while time.monotonic() < ends:
            if os.path.exists(told) and (port := Path(told).read_text(encoding="ascii").strip()):
                return socket.create_connection(("127.0.0.1", int(port)), 60)
            time.sleep(0.1)
        raise RuntimeError("the browser tells no port")

    @property
    def faults(self):
        self.said.seek(0)
        return [line for line in self.said if line.startswith("JavaScript error: http")]

    def message(self):
        while b":" not in self.buffer or len(self.buffer) < sum(self.lengths()):
            data = self.socket.recv(1 << 20)
            if not data:
                raise RuntimeError("the browser has ended")
            self.buffer += data
        head, length = self.lengths()
        line, self.buffer = self.buffer[head:head + length], self.buffer[head + length:]
        return json.loads(line)

    def lengths(self):
        """How many bytes the first message has before its text, and in it."""
        head = self.buffer.index(b":") + 1
        return head, int(self.buffer[:head - 1])

    def call(self, method, **given):
        number = next(self.numbers)
        sent = json.dumps([0, number, method, given]).encode()
        self.socket.sendall(str(len(sent)).encode() + b":" + sent)
        _, _, error, found = self.message()
        if error:
            raise AssertionError(f"{method}: {error['error']}: {error['message']}")
        return found

    def open(self, address):
        self.call("WebDriver:Navigate", url=address)

    def get(self, expression):
        """The value of an expression in the page, or of what it promises."""
        script = f"{self.NAMED} return ({expression});"
        return self.call("WebDriver:ExecuteScript", script=script, args=[], sandbox=None)["value"]

    def act(self, kind, *actions):
        self.call("WebDriver:PerformActions", actions=[{"type": kind, "id": kind, "actions": list(actions)}])

    def key(self, key, control=False):
        held = [self.CONTROL] * control
        pressed = [*held, self.CODES.get(key, key)]
        self.act("key", *({"type": "keyDown", "value": it} for it in pressed),
                 *({"type": "keyUp", "value": it} for it in reversed(pressed)))

    def insert(self, text):
        self.get(f"document.execCommand('insertText', false, {json.dumps(text)})")

    def worked(self):
        """The seconds that the main threads of the browser and of what it has started have worked."""
        parents, used = {}, {}
        for it in map(int, filter(str.isdigit, os.listdir("/proc"))):
            try:
                parents[it] = int(self.told(f"/proc/{it}/stat")[1])
                used[it] = sum(map(int, self.told(f"/proc/{it}/task/{it}/stat")[11:13]))
            except OSError:
                # (it has ended meanwhile)
                continue
        return sum(used.get(it, 0) for it in parents if self.is_ours(it, parents)) / os.sysconf("SC_CLK_TCK")

    @staticmethod
    def told(path):
        """What the system tells of a process or a thread, behind its name."""
        return Path(path).read_text(encoding="utf-8", errors="replace").rpartition(")")[2].split()

    def is_ours(self, process, parents):
        while process in parents and process != self.process.pid:
            process = parents[process]
        return process == self.process.pid

    def point(self, selector):
        """Moves the pointer over an element."""
        x, y = map(int, self.middle(selector))
        self.call("WebDriver:PerformActions", actions=[{
            "type": "pointer", "id": "mouse", "parameters": {"pointerType": "mouse"},
            "actions": [{"type": "pointerMove", "x": x, "y": y, "duration": 0}]}])

    def end(self):
        super().end()
        self.socket.close()
        self.said.close()
