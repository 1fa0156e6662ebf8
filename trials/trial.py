"""trial.py: what the scripts beside this one share: counting, programs that may be missing, a browser, the helpers of bench.

All that they can want, of Debian: nginx-light chromium firefox-esr curl sqlite3 procmail mutt notmuch git openssl bsdutils systemd gcc libc6-dev
haproxy socat rsync openssh-server iproute2, postfix mailman3 isync dovecot-imapd for new mail, and pngquant for smaller pictures.
"""
import argparse, base64, fcntl, json, os, pathlib, re, select, shutil, signal, socket, subprocess, sys, time, traceback

sys.dont_write_bytecode = True
# (what programs say is read here, and all of it is on this machine)
os.environ.update(LC_ALL="C.UTF-8", no_proxy="*", NO_PROXY="*")
ROOT = pathlib.Path(__file__).resolve().parent.parent
SAMPLES = ROOT / "samples"
sys.path[:0] = [str(ROOT / "bench"), str(ROOT / "tools"), str(SAMPLES)]
import serving

BEGUN = []  # the processes that are ended with the script, and whether their group is


def begun(process, group=False):
    """Has a process ended with the script, if it goes on until then."""
    BEGUN.append((process, group))
    return process


def end_all():
    for process, group in BEGUN:
        if process.poll() is None:
            os.killpg(process.pid, signal.SIGKILL) if group else process.kill()
            process.wait()


class Count:
    """What passed, what failed, and what was left out because this machine lacks something.

    As a context it is the whole of a script: what breaks it off is a failure too, what it began is ended, the last line has the
    counts, and the status is 0 where nothing failed (and something was tried, or left out with a word).
    """

    def __init__(self):
        self.passed = self.failed = self.skipped = 0

    def skip(self, what, why):
        self.skipped += 1
        print(f"skip   {what}: {why}", flush=True)

    def has(self, program, what=None):
        """Whether a program is on the PATH; where it is not, that is said and counted."""
        found = shutil.which(program)
        if not found:
            self.skip(what or program, f"{program} is not on this machine (apt-get install {PACKAGES.get(program, program)})")
        return found

    def __enter__(self):
        # (a script that is stopped ends what it began, as one that breaks off does; its workers just end)
        own = os.getpid()
        signal.signal(signal.SIGTERM, lambda *_: sys.exit("it was stopped") if os.getpid() == own else os._exit(1))
        return self

    def __exit__(self, kind, what, trace):
        if kind is not None:
            traceback.print_exception(kind, what, trace, file=sys.stdout)
            self.failed += 1
            print(f"FAILED it broke off: {what!r}")
        end_all()
        print(f"{self.passed} passed, {self.failed} failed, {self.skipped} skipped", flush=True)
        sys.exit(1 if self.failed or not self.passed + self.skipped else 0)


class Trial(Count):
    """A count of which each step is told in a line."""

    def check(self, what, found, wanted):
        good = found == wanted
        self.passed, self.failed = self.passed + good, self.failed + (not good)
        print(f"{'ok    ' if good else 'FAILED'} {what}: {found!r}{'' if good else f', where {wanted!r} was wanted'}", flush=True)
        return good

    def holds(self, what, good, said=""):
        self.passed, self.failed = self.passed + bool(good), self.failed + (not good)
        print(f"{'ok    ' if good else 'FAILED'} {what}{f': {said}' if said != '' else ''}", flush=True)
        return good


PACKAGES = {"formail": "procmail", "script": "bsdutils", "nginx": "nginx-light", "cc": "gcc libc6-dev", "systemd-analyze": "systemd"}


class Server(serving.Server):
    """A server that is ended with the script."""

    def __init__(self, *words, **more):
        super().__init__(*words, **more)
        begun(self.process)

    def kill(self):
        self.process.kill()
        self.process.wait()


def free_ports(count):
    """So many ports that nobody listens on."""
    peers = [socket.create_server(("127.0.0.1", 0)) for _ in range(count)]
    ports = [it.getsockname()[1] for it in peers]
    for it in peers:
        it.close()
    return ports


def clone(folder):
    """A fresh clone of the repository, with what is changed here and not committed."""
    subprocess.run(["git", "clone", "-q", ROOT, folder], check=True)
    listed = subprocess.run(["git", "ls-files", "-mo", "--exclude-standard"], cwd=ROOT, stdout=subprocess.PIPE, check=True, text=True).stdout
    for name in filter(lambda it: (ROOT / it).is_file(), listed.splitlines()):
        (folder / name).parent.mkdir(parents=True, exist_ok=True)
        shutil.copy2(ROOT / name, folder / name)


def output(*words, **more):
    """What a program prints, on both its streams."""
    ran = subprocess.run([*map(str, words)], stdout=subprocess.PIPE, stderr=subprocess.STDOUT, text=True, errors="replace", **more)
    return ran.stdout.strip()


def words_of(about, **more):
    """The words of a script: which program it tries, and what else it takes."""
    words = argparse.ArgumentParser(description=about, formatter_class=argparse.RawDescriptionHelpFormatter)
    words.add_argument("--archive", default=ROOT / "crates" / "archive" / "out" / "archive", help="the program that is tried")
    for name, how in more.items():
        words.add_argument(f"--{name}", **how)
    asked = words.parse_args()
    asked.archive = pathlib.Path(asked.archive).resolve()
    if not asked.archive.is_file() or not os.access(asked.archive, os.X_OK):
        sys.exit(f"{asked.archive}: no such program; ./archive --version builds it")
    return asked


class Browser:
    """A headless browser with a profile of its own, told what to do by its pipe (DevTools, `--remote-debugging-pipe`)."""

    patience = 60  # the seconds in which it has to answer

    def __init__(self, program, profile):
        to_it, ours = os.pipe()
        theirs, from_it = os.pipe()
        words = [program, "--headless", "--disable-gpu", "--hide-scrollbars", "--ignore-certificate-errors", "--no-first-run",
                 "--disable-background-networking", "--remote-debugging-pipe", f"--user-data-dir={profile}"]
        words += ["--no-sandbox"] if os.getuid() == 0 else []
        # (it reads from 3 and writes to 4, so what it is given lies above)
        low = to_it, from_it
        to_it, from_it = (fcntl.fcntl(it, fcntl.F_DUPFD, 10) for it in low)
        for it in low:
            os.close(it)
        moved = ["bash", "-c", f'exec "$@" 3<&{to_it} 4>&{from_it} {to_it}<&- {from_it}>&-', "bash"]
        self.process = begun(subprocess.Popen([*moved, *words], pass_fds=(to_it, from_it), stdout=subprocess.DEVNULL, stderr=subprocess.DEVNULL))
        os.close(to_it)
        os.close(from_it)
        self.out, self.heard, self.number, self.left = os.fdopen(ours, "wb", 0), theirs, 0, b""
        target = self.tell("Target.createTarget", url="about:blank")["targetId"]
        self.session = {"sessionId": self.tell("Target.attachToTarget", targetId=target, flatten=True)["sessionId"]}
        for domain in ("Page", "Network"):
            self.tell(f"{domain}.enable", self.session)

    @staticmethod
    def found():
        return next(filter(None, map(shutil.which, ("chromium", "chromium-browser", "google-chrome"))), None)

    def next(self, seconds):
        """The next thing that it says."""
        while b"\0" not in self.left:
            if not select.select([self.heard], [], [], seconds)[0]:
                raise TimeoutError("the browser says nothing")
            if not (piece := os.read(self.heard, 1 << 20)):
                raise EOFError("the browser has ended")
            self.left += piece
        said, _, self.left = self.left.partition(b"\0")
        return json.loads(said)

    def tell(self, method, session=None, **words):
        self.number += 1
        self.out.write(json.dumps({"id": self.number, "method": method, "params": words, **(session or {})}).encode() + b"\0")
        while (said := self.next(self.patience)).get("id") != self.number:
            pass
        if "error" in said:
            raise ValueError(f"{method}: {said['error']}")
        return said["result"]

    def open(self, url, width=1200, height=900):
        """Opens a page in a window of this size, and waits until all of it was loaded."""
        self.tell("Emulation.setDeviceMetricsOverride", self.session, width=width, height=height, deviceScaleFactor=1, mobile=width < 600)
        self.tell("Page.navigate", self.session, url=url)
        end = time.monotonic() + 60
        while self.value("document.readyState") != "complete" or self.value("location.href") == "about:blank":
            if time.monotonic() > end:
                raise TimeoutError(f"the browser does not come to the end of {url}")
            time.sleep(0.05)

    def value(self, script):
        """What a script finds in the page: it is ours, and asks no policy of the page."""
        return self.tell("Runtime.evaluate", self.session, expression=script, returnByValue=True)["result"].get("value")

    def in_frame(self, script):
        """What a script finds in the frame of the page, which is a page of its own."""
        frame = self.tell("Page.getFrameTree", self.session)["frameTree"].get("childFrames")
        if frame:
            world = self.tell("Page.createIsolatedWorld", self.session, frameId=frame[0]["frame"]["id"])["executionContextId"]
            return self.tell("Runtime.evaluate", self.session, expression=script, returnByValue=True, contextId=world)["result"].get("value")
        target = next(it["targetId"] for it in self.tell("Target.getTargets")["targetInfos"] if it["type"] == "iframe")
        session = {"sessionId": self.tell("Target.attachToTarget", targetId=target, flatten=True)["sessionId"]}
        return self.tell("Runtime.evaluate", session, expression=script, returnByValue=True)["result"].get("value")

    def cookies(self):
        return self.tell("Network.getCookies", self.session)["cookies"]

    def picture(self, file):
        """Draws the page into a file; a smaller one where pngquant is there. Returns its width and height."""
        drawn = self.tell("Page.captureScreenshot", self.session, format="png")["data"]
        pathlib.Path(file).write_bytes(base64.b64decode(drawn))
        if shutil.which("pngquant"):
            subprocess.run(["pngquant", "--force", "--strip", "--output", file, "48", file], check=False)
        return size_of_picture(file)

    def close(self):
        try:
            self.tell("Browser.close")
            self.process.wait(20)
        except (EOFError, OSError, subprocess.TimeoutExpired):
            self.process.kill()
            self.process.wait()
        self.out.close()
        os.close(self.heard)


def size_of_picture(file):
    """How wide and how high a PNG is; none where there is none."""
    try:
        head = pathlib.Path(file).read_bytes()[:24]
    except FileNotFoundError:
        return None
    return tuple(int.from_bytes(head[at:at + 4], "big") for at in (16, 20)) if re.match(rb"\x89PNG", head) else None
