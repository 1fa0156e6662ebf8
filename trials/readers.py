"""readers.py: the two browsers in which reading.py reads, with the same calls: Chromium by DevTools, Firefox by Marionette."""
import base64, json, os, pathlib, shutil, socket, subprocess, time

from trial import Browser, begun, free_ports

WAIT = "document.querySelector('main article, main iframe.now, main section[role=status] button') !== null"


class Reading:
    """What both can do; each gives `open`, `value`, `later`, `press`, `click`."""

    def wait(self, script, seconds=30):
        """Waits until a script finds something true in the page, and returns whether it did."""
        end = time.monotonic() + seconds
        while not self.value(f"Boolean({script})"):
            if time.monotonic() > end:
                return False
            time.sleep(0.02)
        return True

    def read(self, url, width=1200, height=900, seconds=60):
        """Opens a message, and returns how many seconds it took until it was shown; it waits at most so many."""
        begun_at = time.monotonic()
        self.open(url, width, height)
        self.wait(WAIT, seconds)
        self.value("document.body.getBoundingClientRect().height")
        return time.monotonic() - begun_at

    def open_rows(self, url, width=1200, height=900):
        """Opens a page of rows, and waits until the script has been over the last one."""
        self.open(url, width, height)
        self.wait("[...document.querySelectorAll('main div[role=list] div[class]')].at(-1)?.role", 60)


class Chromium(Browser, Reading):
    name = "Chromium"
    patience = 300

    def __init__(self, program, profile):
        self.asked = set()
        super().__init__(program, profile)

    def next(self, seconds):
        """The next thing that it says; which sites a page asked is noted."""
        said = super().next(seconds)
        if said.get("method") == "Network.requestWillBeSent" and said["params"]["request"]["url"].startswith("http"):
            self.asked.add("/".join(said["params"]["request"]["url"].split("/")[:3]))
        return said

    def later(self, script):
        """What a promise comes to."""
        return self.tell("Runtime.evaluate", self.session, expression=script, awaitPromise=True, returnByValue=True)["result"].get("value")

    def click(self, script):
        """Clicks the element that a script finds, as a person would."""
        self.tell("Runtime.evaluate", self.session, expression=f"({script}).click()", userGesture=True)

    def press(self, key):
        code = {"Tab": 9, "Enter": 13, " ": 32}[key]
        text = {"text": "\r"} if key == "Enter" else {}
        for kind in ("keyDown", "keyUp"):
            self.tell("Input.dispatchKeyEvent", self.session, type=kind, key=key, code=key, windowsVirtualKeyCode=code, **(text if kind == "keyDown" else {}))

    def without_script(self, off):
        self.tell("Emulation.setScriptExecutionDisabled", self.session, value=off)

    def blocked(self, *urls):
        self.tell("Network.setBlockedURLs", self.session, urls=urls)

    def media(self, dark=False, media="", still=False):
        features = [{"name": "prefers-color-scheme", "value": "dark" if dark else "light"}, {"name": "prefers-reduced-motion", "value": "reduce" if still else ""}]
        self.tell("Emulation.setEmulatedMedia", self.session, media=media, features=features)

    def save_into(self, folder):
        self.tell("Browser.setDownloadBehavior", behavior="allow", downloadPath=str(folder))

    def processes(self):
        """Its renderers."""
        found = self.tell("SystemInfo.getProcessInfo")["processInfo"]
        return [it["id"] for it in found if it["type"] == "renderer"]


class Firefox(Reading):
    """A headless Firefox with a profile of its own, told what to do by Marionette, in the commands of WebDriver."""

    name = "Firefox"

    def __init__(self, program, profile):
        (port,) = free_ports(1)
        profile = pathlib.Path(profile)
        profile.mkdir()
        wishes = {"marionette.port": port, "app.update.enabled": False, "datareporting.policy.dataSubmissionEnabled": False, "browser.shell.checkDefaultBrowser": False,
                  "toolkit.telemetry.enabled": False, "network.captive-portal-service.enabled": False, "network.connectivity-service.enabled": False,
                  "browser.download.folderList": 2, "browser.download.dir": str(profile), "browser.download.useDownloadDir": True, "browser.download.panel.shown": True}
        (profile / "user.js").write_text("".join(f"user_pref({json.dumps(name)}, {json.dumps(value)});\n" for name, value in wishes.items()))
        self.process = begun(subprocess.Popen([program, "--headless", "--marionette", "--no-remote", "--profile", profile], env={**os.environ, "HOME": str(profile)},
                                              stdout=subprocess.DEVNULL, stderr=subprocess.DEVNULL, start_new_session=True), group=True)
        self.peer, self.number = connected(port, 90), 0
        self.next()
        self.tell("WebDriver:NewSession", acceptInsecureCerts=True)
        self.tell("WebDriver:SetTimeouts", script=120_000, pageLoad=120_000)

    @staticmethod
    def found():
        return next(filter(None, map(shutil.which, ("firefox-esr", "firefox"))), None)

    def next(self):
        """The next thing that it says: its length, a colon, and so much JSON."""
        digits = b""
        while not digits.endswith(b":"):
            digits += self.taken(1)
        return json.loads(self.taken(int(digits[:-1])))

    def taken(self, count):
        pieces = []
        while count > 0:
            piece = self.peer.recv(min(count, 1 << 20))
            if not piece:
                raise EOFError("the browser has ended")
            pieces.append(piece)
            count -= len(piece)
        return b"".join(pieces)

    def tell(self, command, **words):
        self.number += 1
        said = json.dumps([0, self.number, command, words]).encode()
        self.peer.sendall(b"%d:%s" % (len(said), said))
        _, _, error, result = self.next()
        if error:
            raise ValueError(f"{command}: {error['error']}: {error['message']}")
        return result

    def open(self, url, width=1200, height=900):
        self.tell("WebDriver:SetWindowRect", width=width, height=height + 85)
        self.tell("WebDriver:Navigate", url=url)

    def value(self, script):
        return self.tell("WebDriver:ExecuteScript", script=f"return ({script})", args=[])["value"]

    later = value

    def click(self, script):
        element = self.tell("WebDriver:ExecuteScript", script=f"return ({script})", args=[])["value"]
        self.tell("WebDriver:ElementClick", id=next(iter(element.values())))

    def press(self, key):
        value = {"Tab": "\ue004", "Enter": "\ue007", " ": " "}[key]
        actions = [{"type": kind, "value": value} for kind in ("keyDown", "keyUp")]
        self.tell("WebDriver:PerformActions", actions=[{"type": "key", "id": "keys", "actions": actions}])

    def picture(self, file):
        drawn = self.tell("WebDriver:TakeScreenshot", full=False)["value"]
        pathlib.Path(file).write_bytes(base64.b64decode(drawn))

    def close(self):
        try:
            self.tell("Marionette:Quit", flags=["eForceQuit"])
            self.process.wait(20)
        except (EOFError, OSError, ValueError, subprocess.TimeoutExpired):
            self.process.kill()
            self.process.wait()
        self.peer.close()


def connected(port, seconds):
    """A connection to a program that is only beginning to listen."""
    end = time.monotonic() + seconds
    while True:
        try:
            return socket.create_connection(("127.0.0.1", port), 180)
        except OSError:
            if time.monotonic() > end:
                raise
            time.sleep(0.2)
