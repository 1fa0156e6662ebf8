#!/usr/bin/env python3
"""scale.py: samples/scale whole: four shards with two copies each, and one without, behind HAProxy, while copies die, lag and hang.

  trials/scale.py [--archive PROGRAM] [--scale FOLDER] [--mails 300] [--readers 4] [--slow 64] [--only CASES] [--figures FILE]

Readers ask all the time, each page of another shard; each reply has to be whole, and 200, 403 or 401 where that is what the archive
says. Meanwhile copies are killed, replaced, stopped by a signal and given old files, mails are withdrawn, the day changes, keepers,
proxies and machines are away, and readers come who read slowly. Failed are replies that are none or another; stale is a mail that is
shown to whoever asked after the instant at which it was said to be gone, then and in every later case. --only takes the names of
cases, with commas between; --scale tries other scripts than samples/scale; --figures gets what was measured, as JSON, for
bench/sheet.py. The last line is 'N passed, N failed, N skipped'.
"""
import contextlib, datetime, json, os, pathlib, re, selectors, shutil, signal, socket, subprocess, sys, tempfile, threading, time

from trial import ROOT, SAMPLES, Trial, begun, free_ports, output, words_of

POLICY = (SAMPLES / "seeds.toml").read_text()
SHARDS = ["ash", "birch", "cedar", "dill"]
ALONE = "elm"  # a shard without copies
COPIES = ["one", "two"]
DAY, NEXT_DAY = "2024-03-20", "2024-03-21"
PERSON, LATER, NOBODY = "5fW2xkQ0aTz7uYp1", "8mT4vbX1cRw6sLk3", "0000000000000000"
SECOND_OF_CLOCK = os.sysconf("SC_CLK_TCK")
# What archive-once@.path and archive-once@.timer do, where there is no systemd.
KEEPING = """while :; do
  [ -z "$(find commands.d mail -type f ! -name '.*' 2> /dev/null)" ] || "$0" --once .
  sleep 0.2
done"""


def asked(port, path, token=None, seconds=150):
    """The status and the body of a reply; 0 where it is no whole one."""
    bearer = f"Authorization: Bearer {token}\r\n" if token else ""
    pieces = []
    try:
        with socket.create_connection(("127.0.0.1", port), timeout=seconds) as peer:
            peer.sendall(f"GET {path} HTTP/1.1\r\nHost: x\r\nConnection: close\r\n{bearer}\r\n".encode())
            while piece := peer.recv(65536):
                pieces.append(piece)
    except OSError:
        return 0, b""
    return whole(b"".join(pieces))


def whole(reply):
    """The status and the body of a reply; 0 where it is no whole one."""
    head, _, body = reply.partition(b"\r\n\r\n")
    found = re.match(rb"HTTP/1\.[01] (\d{3})", head)
    length = re.search(rb"(?i)\r\ncontent-length: (\d+)", head)
    return (int(found[1]), body) if found and (not length or int(length[1]) == len(body)) else (0, body)


class Readers:
    """Threads that ask for pages in turn, as fast as they can, and note what came when."""

    def __init__(self, port, paths, count):
        self.port, self.paths, self.ended, self.notes = port, paths, False, []
        self.threads = [threading.Thread(target=self.run, args=(at,), daemon=True) for at in range(count)]
        for thread in self.threads:
            thread.start()

    def run(self, at):
        while not self.ended:
            at += 1
            path, begun_at = self.paths[at % len(self.paths)], time.time()
            status, _ = asked(self.port, path)
            self.notes.append((begun_at, time.time(), path, status))

    def end(self):
        self.ended = True
        for thread in self.threads:
            thread.join()
        return self.notes


class Flood(threading.Thread):
    """So many requests a second, whether those before are answered or not, as long as no more than MOST of them wait."""

    MOST = 3000

    def __init__(self, port, paths, rate):
        super().__init__(daemon=True)
        self.port, self.paths, self.rate, self.ended, self.notes = port, paths, rate, False, []
        self.start()

    def run(self):
        begun_at, count = time.monotonic(), 0
        with selectors.DefaultSelector() as self.waiting:
            while not self.ended or self.waiting.get_map():
                while not self.ended and count < (time.monotonic() - begun_at) * self.rate and len(self.waiting.get_map()) < self.MOST:
                    self.ask(self.paths[count % len(self.paths)])
                    count += 1
                for key, _ in self.waiting.select(0.002):
                    self.go_on(key.fileobj, key.data)

    def ask(self, path):
        peer = socket.socket()
        peer.setblocking(False)
        peer.connect_ex(("127.0.0.1", self.port))
        self.waiting.register(peer, selectors.EVENT_WRITE, {"begun": time.time(), "path": path, "reply": b""})

    def go_on(self, peer, asked_for):
        """Sends the request once the connection is there, and takes what comes of the reply."""
        try:
            if "sent" not in asked_for:
                asked_for["sent"] = peer.send(f"GET {asked_for['path']} HTTP/1.1\r\nHost: x\r\nConnection: close\r\n\r\n".encode())
                self.waiting.modify(peer, selectors.EVENT_READ, asked_for)
                return
            if piece := peer.recv(65536):
                asked_for["reply"] += piece
                return
        except OSError:
            asked_for["reply"] = b""
        self.waiting.unregister(peer)
        peer.close()
        self.notes.append((asked_for["begun"], time.time(), asked_for["path"], whole(asked_for["reply"])[0]))

    def end(self):
        self.ended = True
        self.join()
        return self.notes


def mails(name, count, text=3200):
    """An mbox of a list: a thread for each ten mails."""
    day = datetime.datetime(2024, 1, 1)
    for at in range(count):
        when = (day + datetime.timedelta(minutes=at)).strftime("%a %b %e %H:%M:%S %Y")
        above = f"In-Reply-To: <{at - at % 10}@{name}.example>\n" if at % 10 else ""
        yield (f"From ada@{name}.example {when}\nFrom: ada@{name}.example\nMessage-ID: <{at}@{name}.example>\n{above}"
               f"Subject: {name} {at}\n\n{'Of the trees. ' * (text // 14)}\n{at}\n\n")


def until(what, seconds=120):
    """Whether this is so within the time."""
    end = time.monotonic() + seconds
    while time.monotonic() < end:
        if what():
            return True
        time.sleep(0.1)
    return False


def spent(pid):
    """The seconds of a processor that a process took."""
    words = pathlib.Path(f"/proc/{pid}/stat").read_text().rpartition(")")[2].split()
    return (int(words[11]) + int(words[12])) / SECOND_OF_CLOCK


def is_there(pid):
    """Whether a process has not ended."""
    try:
        return pathlib.Path(f"/proc/{pid}/stat").read_text().rpartition(")")[2].split()[0] != "Z"
    except OSError:
        return False


def held(pid):
    """The bytes that a process holds."""
    return int(re.search(r"VmRSS:\s+(\d+)", pathlib.Path(f"/proc/{pid}/status").read_text())[1]) * 1024


def stretch():
    """How many seconds a second of a processor takes now, beside all else on this machine."""
    begun_at, cpu = time.monotonic(), time.process_time()
    while time.process_time() - cpu < 0.5:
        pass
    return (time.monotonic() - begun_at) / 0.5


class Farm:
    """Keepers, copies and a proxy in a folder."""

    def __init__(self, folder, program, scale):
        self.folder, self.root, self.front, self.scale = folder, folder / "archives", folder / "front", scale
        ports = iter(free_ports(2 + len(SHARDS) * 2 * len(COPIES)))
        self.port, self.alone = next(ports), next(ports)
        self.where = {(shard, copy): (next(ports), next(ports)) for shard in SHARDS for copy in COPIES}
        self.env = {**os.environ, "ARCHIVE": str(program), "COPIES": str(folder / "copies"), "SOCKETS": str(folder / "proxy.sock"), "DAY": DAY}
        self.keepers, self.proxy = {}, None
        for shard in SHARDS + [ALONE]:
            (self.root / shard / "mail" / f"{shard}-list").mkdir(parents=True)
            (self.root / shard / "policy.toml").write_text(POLICY)
        self.put_shards({shard: [f"{shard}-list"] for shard in SHARDS})

    def put_shards(self, lists):
        (self.folder / "shards").write_text("".join(
            f"{shard} {copy} 127.0.0.1:{a} 127.0.0.1:{b} {' '.join(lists[shard])}\n" for (shard, copy), (a, b) in self.where.items())
            + f"{ALONE} keeper 127.0.0.1:{self.alone} 127.0.0.1:{self.alone} {ALONE}-list\n")

    def configure(self):
        return self.told("front.py", self.folder / "shards", self.front, "--port", self.port, "--socket", self.env["SOCKETS"])

    def begin_proxy(self):
        errors = open(self.folder / "proxy.errors", "a")
        self.proxy = begun(subprocess.Popen(["haproxy", "-W", "-f", self.front / "haproxy.cfg"], stdout=errors, stderr=errors, start_new_session=True), True)
        return until(lambda: asked(self.port, "/")[0], 20)

    def end_proxy(self):
        os.killpg(self.proxy.pid, signal.SIGKILL)
        self.proxy.wait()

    def keep(self, shard, **env):
        errors = open(self.folder / f"{shard}.errors", "ab")
        words = ["bash", "-c", KEEPING, SAMPLES / "keep.sh"] if shard != ALONE else [SAMPLES / "keep.sh", self.root / shard, str(self.alone)]
        drain = {"DRAIN": str(SAMPLES / "keep" / "haproxy.sh"), "BACKEND": f"{ALONE}-alone", "SERVER": "keeper", "SOCKET": self.env["SOCKETS"]}
        self.keepers[shard] = begun(subprocess.Popen([*map(str, words)], cwd=self.root / shard, env={**self.env, **drain, **env}, stdout=subprocess.DEVNULL,
                                                     stderr=errors, start_new_session=True), True)

    def stop_keeping(self, shard):
        os.killpg(self.keepers[shard].pid, signal.SIGTERM)
        self.keepers[shard].wait()

    def told(self, script, *words, text="", **env):
        """What a script of the sample came to, and said."""
        ran = subprocess.run([self.scale / script, *map(str, words)], env={**self.env, **env}, input=text, text=True, stdout=subprocess.PIPE,
                             stderr=subprocess.STDOUT)
        return ran.returncode, ran.stdout

    def everywhere(self, text):
        return self.told("everywhere.sh", self.root, text=text)

    def state(self):
        return {shard: (batch, int(refused)) for shard, batch, refused in
                (line.split() for line in self.told("everywhere.sh", self.root, "--state")[1].splitlines())}

    def settled(self):
        """Waits until each shard has carried out the newest batch."""
        return until(lambda: self.told("everywhere.sh", self.root, "--state")[0] == 0)

    def publish(self, shard, *keys, **env):
        """The status of a publication, the instants that it said, and all that it said."""
        code, said = self.told("publish.sh", self.root, self.folder / "shards", self.front, shard, *keys, **{"PATIENCE": "20", **env})
        times = {word: datetime.datetime.strptime(when, "%Y-%m-%dT%H:%M:%S.%fZ").replace(tzinfo=datetime.timezone.utc).timestamp()
                 for word, when in re.findall(r"^(copied|asked|changed|gone)\b.* (\S+Z)$", said, re.M)}
        return code, times, said

    def live(self, shard):
        return dict(line.split() for line in (self.front / "live.map").read_text().splitlines())[shard]

    def next_port(self, shard, copy):
        """The port that this copy's next server is to have."""
        return self.where[shard, copy]["ba".index(self.live(shard)[-1])]

    def pid(self, shard, copy):
        return int((self.folder / "copies" / copy / self.live(shard) / "pid").read_text())

    def script(self, name, text):
        """A script in place of copy-here.sh."""
        path = self.folder / name
        path.write_text(f"#!/bin/sh\n{text}\nexec {self.scale}/copy-here.sh \"$@\"\n")
        path.chmod(0o755)
        return str(path)

    def end(self):
        for pid in (self.folder / "copies").glob("*/*/pid"):
            with contextlib.suppress(OSError, ValueError):
                os.kill(int(pid.read_text()), signal.SIGKILL)


class Stage:
    """The farm with its readers, and what was withdrawn so far."""

    def __init__(self, trial, farm, words):
        self.t, self.farm, self.words, self.gone, self.figures = trial, farm, words, {}, {"mails": words.mails, "withdrawals": [], "requests": 0}
        self.keys, self.next_key = {}, 5

    def path(self, shard, key):
        return f"/l/{shard}-list/m/{key}"

    def a_key(self, shard):
        """A mail that no other case withdraws."""
        self.next_key += 7
        return self.keys[shard][self.next_key]

    def pages(self):
        """Pages of all shards, none of a mail that a case withdraws."""
        return [f"/l/{shard}-list/{kind}/{self.keys[shard][-1 - at]}" for at in range(12) for shard in SHARDS for kind in "mt"]

    def while_read(self, what, do, paths=None, allowed=(200,), rate=None):
        """Does something while readers ask, and counts the replies that are none or not among those that may come."""
        readers = Flood(self.farm.port, paths, rate) if rate else Readers(self.farm.port, paths or self.pages(), self.words.readers)
        time.sleep(1)
        found = do()
        time.sleep(1)
        notes = readers.end()
        self.figures["requests"] += len(notes)
        failed = [note for note in notes if note[3] not in allowed]
        longest = max(done_at - begun_at for begun_at, done_at, _, _ in notes)
        self.t.check(f"{what}: failed of {len(notes)} requests (the longest took {longest:.2f} s)", len(failed), 0)
        for line in sorted({f"{path[:16]} {status}" for _, _, path, status in failed})[:5]:
            print("       ", line)
        return found, notes

    def withdraw(self, shard, key, **env):
        """Has a mail withdrawn and published; what readers are shown after `changed` is stale."""
        self.farm.everywhere(f"{shard}: withdraw {shard}-list {key} author\n")
        settled = self.farm.settled()
        settled_at = time.time()
        code, times, said = self.farm.publish(shard, f"{shard}-list/{key}", **env)
        return settled, settled_at, code, times, said

    def while_withdrawn(self, what, shard, **env):
        """A withdrawal that is published while its mail is asked for; counts what is stale then, and keeps it for later cases."""
        key, said_at = self.a_key(shard), time.time()
        (settled, settled_at, code, times, said), notes = self.while_read(what, lambda: self.withdraw(shard, key, **env), [self.path(shard, key)], (200, 403))
        if "changed" in times:
            self.gone[self.path(shard, key)] = times["changed"]
            stale = sum(status == 200 and asked_at > times["changed"] for asked_at, _, _, status in notes)
            self.t.check(f"{what}: stale of {sum(asked_at > times['changed'] for asked_at, _, _, _ in notes)} requests after `changed`", stale, 0)
            self.figures["withdrawals"].append({"settled": settled_at - said_at, "copied": times["copied"] - settled_at, "asked": times["asked"] - times["copied"],
                                                "changed": times["changed"] - said_at, "gone": times["gone"] - times["changed"] if "gone" in times else None})
        return settled, code, times, said, notes

    def nothing_is_back(self, when):
        """No mail that was withdrawn so far is shown."""
        shown = [path for path in self.gone for _ in range(4) if asked(self.farm.port, path)[0] == 200]
        self.t.check(f"{when}: withdrawn mails that are shown, of {len(self.gone)}", shown, [])

    def blocked(self, shard, copy):
        """Somebody else has the port of this copy's next server."""
        return contextlib.closing(socket.create_server(("127.0.0.1", self.farm.next_port(shard, copy))))


def began(s):
    """All shards take in their lists, are published, and are asked through the proxy."""
    t, farm = s.t, s.farm
    for shard in SHARDS + [ALONE]:
        text = "".join(mails(f"{shard}-list", s.words.mails))
        (farm.root / shard / "mail" / f"{shard}-list" / "one.mbox").write_text(text)
        s.figures["texts"] = len(text)
    farm.everywhere("".join(f"{shard}: list-add {shard}-list\n" for shard in SHARDS + [ALONE]) + f"person-add mo {PERSON}\n"
                    + "".join(f"{shard}: grant mo {shard}-list moderator 2024-01-01 2024-12-31\n" for shard in SHARDS))
    for shard in SHARDS + [ALONE]:
        farm.keep(shard)
    t.holds("each shard carries out the first batch", farm.settled(), farm.state())
    t.check("each has its list", [until(lambda: list((farm.root / shard).glob("mail.done/*/*.mbox"))) for shard in SHARDS + [ALONE]], [True] * 5)
    t.check("the configuration is made", farm.configure(), (0, ""))
    t.check("HAProxy takes it", output("haproxy", "-c", "-f", farm.front / "haproxy.cfg"), "Configuration file is valid")
    t.holds("HAProxy begins", farm.begin_proxy())
    t.check("nobody is asked before the first publication", asked(farm.port, "/l/ash-list/threads")[0], 503)
    took = [farm.publish(shard) for shard in SHARDS]
    if not t.check("each shard is published", [code for code, _, _ in took], [0] * 4):
        print(*(said for _, _, said in took))
    servers = [farm.pid(shard, copy) for shard in SHARDS for copy in COPIES]
    opened = [spent(pid) for pid in servers]  # (before one of two is asked for its threads)
    page = asked(farm.port, "/")[1]
    t.check("the page of all lists", re.findall(rb">([a-z]+-list)<", page), [f"{shard}-list".encode() for shard in SHARDS + [ALONE]])
    t.check("with a person's token, and one that nobody has", [asked(farm.port, "/", token)[0] for token in (PERSON, NOBODY)], [200, 401])
    t.check("a list that is nowhere", asked(farm.port, "/l/fir-list/threads"), (404, b"404 Not Found\n"))
    for shard in SHARDS + [ALONE]:
        s.keys[shard] = [key.decode() for key in re.findall(rb"/m/([0-9a-f]{64})", asked(farm.port, f"/l/{shard}-list/threads")[1])]
    t.check("each list is whole", [len(s.keys[shard]) for shard in SHARDS + [ALONE]], [s.words.mails] * 5)
    s.figures["server"] = [{"held": held(pid), "spent": it} for pid, it in zip(servers, opened)]


def killed(s):
    """One server of four lists is killed at full rate."""
    s.while_read("a copy is killed", lambda: os.kill(s.farm.pid("ash", "one"), signal.SIGKILL))


def replaced(s):
    """All copies of all shards are replaced at full rate."""
    took, _ = s.while_read("all copies are replaced, shard by shard", lambda: [s.farm.publish(shard) for shard in SHARDS])
    s.t.check("and are", [code for code, _, _ in took], [0] * 4)
    s.figures["publications"] = [{"asked": times["asked"] - times["copied"], "changed": times["changed"] - times["asked"],
                                  "gone": times["gone"] - times["changed"]} for _, times, _ in took]
    s.figures["served"] = sorted((cost_of_a_page(s) for _ in range(5)), key=lambda it: it["microseconds"])[2]
    s.figures["stretch"] = stretch()


def cost_of_a_page(s):
    """The microseconds of a processor that a request takes in the servers, in some seconds of their own."""
    pids = [s.farm.pid(shard, copy) for shard in SHARDS for copy in COPIES]
    before = sum(map(spent, pids))
    readers = Readers(s.farm.port, s.pages(), s.words.readers)
    time.sleep(3)
    notes = readers.end()
    return {"requests": len(notes), "microseconds": (sum(map(spent, pids)) - before) * 1e6 / len(notes)}


def withdrawn(s):
    """A mail is withdrawn while it is asked for at full rate."""
    settled, code, times, said, notes = s.while_withdrawn("a mail is withdrawn", "birch")
    if not s.t.check("and is published", (settled, code, "gone" in times), (True, 0, True)):
        print(said)
    first = min((done_at for _, done_at, _, status in notes if status == 403), default=0)
    s.t.check("shown again once it was seen gone", sum(status == 200 and asked_at > first for asked_at, _, _, status in notes), 0)


def left_out(s):
    """A copy whose server cannot begin is left out, and comes again."""
    with s.blocked("birch", "two"):
        settled, code, times, said, _ = s.while_withdrawn("a copy's server cannot begin", "birch")
    s.t.check("the other one is asked alone", (settled, code, "two is left out" in said, "somebody else answers" in said), (True, 0, True, True))
    (code, _, said), _ = s.while_read("it comes again", lambda: s.farm.publish("birch"))
    s.t.check("and is asked", (code, "asked 2 of 2" in said), (0, True))


def old_file(s):
    """A copy gets an old file, and says so by what it answers."""
    old = s.farm.folder / "old.db"
    shutil.copy(s.farm.root / "birch" / "archive.db", old)
    lazy = s.farm.script("lazy.sh", f"""if [ "$1 $2" = "bring two" ]; then
  {s.farm.scale}/copy-here.sh "$@" && exec cp {old} "$COPIES/$2/$3/archive.db"
fi""")
    settled, code, times, said, _ = s.while_withdrawn("a copy gets an old file", "birch", RUN=lazy)
    s.t.check("it is left out by what it answers", (settled, code, "lacks" in said, "two is left out" in said), (True, 0, True, True))


def shows_it(s):
    """A copy that has the mark and shows the mail all the same is left out, whichever it is."""
    everything = s.farm.folder / "all.toml"
    everything.write_text('[[rule]]\nname = "all"\neffect = "allow"\n')
    for copy in COPIES:
        open_it = s.farm.script(f"open-{copy}.sh", f"""if [ "$1 $2" = "bring {copy}" ]; then
  {s.farm.scale}/copy-here.sh "$@" && exec cp {everything} "$COPIES/$2/$3/policy.toml"
fi""")
        settled, code, times, said, _ = s.while_withdrawn(f"copy {copy} has another policy", "birch", RUN=open_it)
        s.t.check("it is left out, as it shows the mail", (settled, code, "shows birch-list/" in said, f"{copy} is left out" in said), (True, 0, True, True))
        s.t.check("and published again", s.farm.publish("birch")[0], 0)


def hangs(s):
    """A server that hangs without refusing anything: readers go on, and the publication waits no longer than it was told."""
    pid = s.farm.pid("dill", "one")
    s.while_read("a copy hangs, and is left after 30 seconds", lambda: (os.kill(pid, signal.SIGSTOP), time.sleep(33)))
    slow = s.farm.script("slow.sh", '[ "$1 $2" != "begin one" ] || exec sleep 100')
    begun_at = time.time()
    settled, code, times, said, _ = s.while_withdrawn("a copy's machine hangs", "dill", RUN=slow, PATIENCE="6")
    s.t.check("it is left out", (settled, code, "one is left out" in said), (True, 0, True))
    s.t.holds("and held the publication up by its patience", times.get("asked", 1e12) - times["copied"] < 6 + 5, f"{times['asked'] - times['copied']:.1f} s, {time.time() - begun_at:.1f} s in all")
    s.t.check("the server that hung is ended", is_there(pid), False)
    s.t.check("and published again", s.farm.publish("dill")[0], 0)


def too_few(s):
    """With LEAST nothing is changed; with STALE=yes nobody is asked."""
    t, farm = s.t, s.farm
    shows = lambda shard: asked(farm.port, f"/l/{shard}-list/threads")[0]
    with s.blocked("cedar", "two"):
        code, times, _ = farm.publish("cedar", LEAST="2")
        t.check("fewer copies than are wanted: nothing is changed", (code, "changed" in times, shows("cedar")), (1, False, 200))
        code, times, _ = farm.publish("cedar", LEAST="2", STALE="yes")
        t.check("and with STALE=yes the shard is 503, and no other one", (code, "changed" in times, shows("cedar"), shows("ash")), (1, False, 503, 200))
        farm.end_proxy()
        farm.begin_proxy()
        t.check("also where HAProxy is begun anew", (shows("cedar"), shows("ash")), (503, 200))
    t.check("until it is published", (farm.publish("cedar", LEAST="2")[0], shows("cedar")), (0, 200))


def a_day(s):
    """A day begins at an instant: what was embargoed until then is shown from there on."""
    t, farm = s.t, s.farm
    key = s.a_key("dill")
    farm.everywhere(f"dill: embargo dill-list {key} {NEXT_DAY}\n")
    t.check("a message is embargoed", (farm.settled(), farm.publish("dill", f"dill-list/{key}")[0], asked(farm.port, s.path("dill", key))[0]), (True, 0, 403))
    instant = int(time.time()) + 15
    (code, times, said), notes = s.while_read("a day begins", lambda: farm.publish("dill", DAY=NEXT_DAY, AT=str(instant)), [s.path("dill", key)], (200, 403))
    if not t.check("and is published", code, 0):
        return print(said)
    t.holds("within a second of its instant", 0 <= times["changed"] - instant < 1, f"{(times['changed'] - instant) * 1000:.0f} ms")
    t.check("shown before it; denied after it", (sum(status == 200 and done_at < instant for _, done_at, _, status in notes),
                                                    sum(status == 403 and asked_at > times["changed"] for asked_at, _, _, status in notes)), (0, 0))


def keeper_away(s):
    """A keeper is away, and gets what it lacks later."""
    t, farm = s.t, s.farm
    farm.stop_keeping("cedar")
    farm.everywhere(f"person-add eve {LATER}\n")
    newest = max(it.name for it in (farm.root / "everywhere").glob("????????????"))
    lags = lambda: [shard for shard, (batch, _) in farm.state().items() if batch != newest]
    until(lambda: len(lags()) == 1, 60)
    t.check("a keeper that is away lags, and is seen to", (lags(), farm.told("everywhere.sh", farm.root, "--state")[0]), (["cedar"], 1))
    t.check("the others are published", [farm.publish(shard)[0] for shard in SHARDS if shard != "cedar"], [0] * 3)
    t.check("its copies do not know the person", [asked(farm.port, f"/l/{it}-list/threads", LATER)[0] for it in SHARDS], [200, 200, 401, 200])
    farm.keep("cedar")
    t.check("once it is there it carries it out", (farm.settled(), farm.publish("cedar")[0], asked(farm.port, "/l/cedar-list/threads", LATER)[0]), (True, 0, 200))
    t.check("nothing more is given", farm.told("everywhere.sh", farm.root, "--again"), (0, ""))


def failed_batch(s):
    """A batch of which one shard refuses a line, and batches that are none."""
    t, farm = s.t, s.farm
    batches = lambda: sorted(it.name for it in (farm.root / "everywhere").glob("????????????"))
    before = batches()
    code, said = farm.everywhere("brich: list-add x\nperson-add zoe 1111222233334444\n")
    t.check("a line for a shard that is not there: nothing is noted down", (code, "brich: no such shard" in said, batches() == before), (2, True, True))
    t.check("bad words", farm.told("everywhere.sh", farm.root, "--what")[0], 2)
    gone, none = s.a_key("birch"), "0" * 64
    farm.everywhere(f"birch: withdraw birch-list {gone} author\nbirch: withdraw birch-list {none} author\nbirch: withdraw birch-list {none} authr\n"
                    "person-add max 9999888877776666\nfrobnicate it\n")
    t.check("a batch with a line that one shard refuses", (farm.settled(), {shard: refused for shard, (_, refused) in farm.state().items()}),
            (True, {"ash": 1, "birch": 3, "cedar": 1, "dill": 1, "elm": 1}))
    code, said = farm.told("everywhere.sh", farm.root, "--refused")
    t.check("which ones, and why", (code, [line for line in said.splitlines() if "frobnicate" not in line], said.count("frobnicate ..: no such command")),
            (1, [f"birch: withdraw birch-list {none} author: archive: E8 NoMessage",
                 f"birch: withdraw birch-list {none} authr: error: invalid value 'authr' for '<BY>': a message is withdrawn by author or board"], 5))
    for keys in ([none], [none, gone], [gone, none]):
        code, times, said = farm.publish("birch", *(f"birch-list/{it}" for it in keys))
        t.check(f"a mail that is not there is not said to be gone, {keys.index(none) + 1} of {len(keys)}", (code, times.keys() & {"changed", "gone"}, "shows birch-list/000" in said), (1, set(), True))


def old_keeper(s):
    """A keeper's folder of yesterday is published by nobody."""
    t, farm = s.t, s.farm
    old = farm.folder / "yesterday"
    shutil.copytree(farm.root / "ash", old)
    s.while_withdrawn("a mail is withdrawn after the backup", "ash")
    farm.stop_keeping("ash")
    shutil.move(farm.root / "ash", farm.folder / "today")
    shutil.copytree(old, farm.root / "ash")
    code, times, said = farm.publish("ash")
    t.check("a keeper's folder of before is not published", (code, "changed" in times, "it is an old one" in said), (1, False, True))
    for name in ("commands.done", "log"):
        shutil.copy(farm.folder / "today" / name, farm.root / "ash" / name)
    code, times, said = farm.publish("ash")
    t.check("nor its file under what was done since", (code, "changed" in times, "lacks" in said), (1, False, True))
    s.nothing_is_back("an old keeper")
    shutil.rmtree(farm.root / "ash")
    shutil.move(old, farm.root / "ash")
    farm.keep("ash")
    farm.told("everywhere.sh", farm.root, "--again")
    t.check("it is given what it lacks, and published", (farm.settled(), farm.publish("ash")[0]), (True, 0))


def comes_back(s):
    """A machine that nobody reached comes back with yesterday's file, where readers are asked to look."""
    t, farm = s.t, s.farm
    away = farm.script("away.sh", '[ "$2" != two ] || exit 255')
    for number in ("first", "second"):
        settled, code, times, said, _ = s.while_withdrawn(f"a machine is not reached, the {number} time", "birch", RUN=away)
        t.check("it is left out", (settled, code, "two is left out" in said), (True, 0, True))
    pid = farm.pid("birch", "two")
    t.check("its server of before is there, where readers would be asked to look", (is_there(pid),
            asked(farm.where["birch", "two"]["ab".index(farm.live("birch")[-1])], list(s.gone)[-1])[0]), (True, 200))
    s.nothing_is_back("a machine comes back")
    key = list(s.gone)[-1]

    def anew():
        farm.end_proxy()
        farm.begin_proxy()
        time.sleep(3)

    _, notes = s.while_read("HAProxy is begun anew meanwhile", anew, [key], (403, 0))
    t.check("stale", sum(status == 200 for _, _, _, status in notes), 0)
    tell = lambda words: output("socat", "-t", "5", "-", f"UNIX-CONNECT:{farm.env['SOCKETS']}", input=words)
    # (HAProxy takes a server for up when it is told so, until it has asked it for the mark)
    tell(f"set server {farm.live('birch')}/two state ready\n")
    time.sleep(2)
    s.while_read("and told by hand that it is ready: the mark keeps it out", lambda: time.sleep(3), [key], (403,))
    t.check("until it is published again", (farm.publish("birch")[0], farm.publish("birch")[0], is_there(pid)), (0, 0, False))


def map_twice(s):
    """A file of shards that is wrong changes nothing."""
    t, farm = s.t, s.farm
    good = (farm.folder / "shards").read_text()
    was = {it.name: it.read_bytes() for it in farm.front.glob("*.*")}
    port = re.search(r":(\d+)", good)[1]
    for what, line in {"a list twice": "fir one 127.0.0.1:1 127.0.0.1:2 ash-list", "an address twice": f"fir one 127.0.0.1:{port} 127.0.0.1:2",
                       "a copy twice": "ash one 127.0.0.1:1 127.0.0.1:2", "no address": "fir one here there", "too little": "fir one"}.items():
        (farm.folder / "shards").write_text(f"{good}{line}\n")
        code, said = farm.configure()
        t.check(f"{what}: refused, and nothing written", (code, "line 10 of" in said, {it.name: it.read_bytes() for it in farm.front.glob("*.*")} == was), (1, True, True))
    (farm.folder / "shards").write_text(good)


def untold(s):
    """A proxy that cannot be told, and one that does not know the map."""
    t, farm = s.t, s.farm
    gone = str(farm.folder / "nobody.sock")
    key = s.a_key("cedar")
    farm.everywhere(f"cedar: withdraw cedar-list {key} author\n")
    farm.settled()
    code, times, said = farm.publish("cedar", f"cedar-list/{key}", SOCKETS=f"{farm.env['SOCKETS']} {gone}")
    t.check("a proxy that cannot be told: no `changed`, and the status says it", (code, "changed" in times, gone in said), (1, False, True))
    t.check("what it would ask is ended", ("gone" in times, [path.name for path in (farm.folder / "copies" / "one").glob("cedar-*/pid")]), (True, ["pid"]))
    s.gone[s.path("cedar", key)] = times.get("gone", 0)
    s.nothing_is_back("the proxy that was told")
    t.check("published again", farm.publish("cedar", f"cedar-list/{key}")[0], 0)
    front = farm.front
    shutil.copytree(front, farm.folder / "another")
    farm.front = farm.folder / "another"
    code, times, said = farm.publish("cedar")
    farm.front = front
    t.check("a map that the proxy does not have: no `changed`", (code, "changed" in times, "Unknown map" in said), (1, False, True))
    s.t.check("and put right", (farm.publish("cedar")[0], asked(farm.port, "/l/cedar-list/threads")[0]), (0, 200))


def at_once(s):
    """Publications of one shard and of several at once: one after the other, and no map loses a line."""
    took = []
    threads = [threading.Thread(target=lambda shard=shard: took.append(s.farm.publish(shard)[0])) for shard in SHARDS + ["ash"]]

    def publish_all():
        for thread in threads:
            thread.start()
        for thread in threads:
            thread.join()

    s.while_read("five publications at once", publish_all)
    lines = sorted(line.split()[0] for line in (s.farm.front / "live.map").read_text().splitlines())
    s.t.check("all come to their end", (took, lines), ([0] * 5, SHARDS + [ALONE]))


def moved(s):
    """A list goes to another shard while it is read, with what is withdrawn and embargoed, its grants and threading."""
    t, farm = s.t, s.farm
    key, held_back = s.a_key("ash"), s.a_key("ash")
    farm.everywhere(f"ash: withdraw ash-list {key} board\nash: embargo ash-list {held_back} 2030-01-01\nash: merge ash-list no\n")
    t.check("before it", (farm.settled(), farm.publish("ash", f"ash-list/{key}", f"ash-list/{held_back}")[0]), (True, 0))
    box = asked(farm.port, "/l/ash-list/mbox")[1]
    into = farm.folder / "moved"
    code, said = farm.told("move.sh", farm.root / "ash" / "archive.db", "ash-list", "dill", into)
    t.check("its rows are made anew, and are the same", (code, "the same rows" in said), (0, True))
    t.check("of a list that is not there", farm.told("move.sh", farm.root / "ash" / "archive.db", "fir-list", "dill", farm.folder / "none")[0], 1)
    farm.everywhere((into / "before").read_text())
    farm.settled()
    lie = farm.root / "dill" / "mail" / "ash-list"
    lie.mkdir(parents=True)
    shutil.copy(into / "ash-list.mbox", lie / ".one")
    (lie / ".one").rename(lie / "one.mbox")
    t.holds("its mail is taken in", until(lambda: list((farm.root / "dill").glob("mail.done/ash-list/*.mbox"))))
    farm.everywhere((into / "after").read_text())
    withdrawn_keys = (into / "withdrawn").read_text().split()

    def move():
        settled, published = farm.settled(), farm.publish("dill", *withdrawn_keys)
        farm.put_shards({"ash": [], "birch": ["birch-list"], "cedar": ["cedar-list"], "dill": ["dill-list", "ash-list"]})
        code, _ = farm.configure()
        os.kill(farm.proxy.pid, signal.SIGUSR2)
        time.sleep(3)
        return settled, published[0], code

    took, _ = s.while_read("a list moves, and HAProxy is reloaded", move)
    t.check("it is published there", took, (True, 0, 0))
    farm.stop_keeping("ash")
    for copy in COPIES:
        os.kill(farm.pid("ash", copy), signal.SIGKILL)
    t.holds("the old shard is not asked any more", until(lambda: asked(farm.port, "/l/ash-list/threads")[0] == 200, 10))
    t.check("its mbox is the same, byte for byte", asked(farm.port, "/l/ash-list/mbox")[1] == box, True)
    t.check("what is withdrawn or embargoed stays so", [asked(farm.port, s.path("ash", it))[0] for it in (key, held_back)], [403, 403])
    t.check("and a moderator reads it", asked(farm.port, s.path("ash", key), PERSON)[0], 200)


def changed(s, port, count):
    """The seconds until each of so many withdrawals is served by the shard without copies."""
    took = []
    for _ in range(count):
        key, said_at = s.a_key(ALONE), time.time()
        s.farm.everywhere(f"{ALONE}: withdraw {ALONE}-list {key} author\n")
        until(lambda: asked(port, s.path(ALONE, key))[0] == 403, 60)
        took.append(time.time() - said_at)
        s.gone[s.path(ALONE, key)] = time.time()
    return took


def ten_changes(s):
    """A shard without copies at 500 requests a second, through ten withdrawals."""
    t, farm = s.t, s.farm
    took, notes = s.while_read("500 requests a second through ten changes of a shard without copies", lambda: changed(s, farm.port, 10),
                               [s.path(ALONE, key) for key in s.keys[ALONE][-40:]], rate=500)
    rate = len(notes) / (notes[-1][0] - notes[0][0])
    t.holds("so many a second were asked", rate > 400, f"{rate:.0f}")
    t.holds("each command is served within 10 s", max(took) < 10, [f"{it:.1f}" for it in took])
    s.figures["alone"] = {"rate": rate, "served": took, "longest": max(done_at - begun_at for begun_at, done_at, _, _ in notes)}


def without_a_proxy(s):
    """The same without a proxy: how many are refused or break off is told, and a command is served in its time all the same."""
    farm, s.figures["bare"] = s.farm, []
    for count in ("1000", "50000"):
        farm.stop_keeping(ALONE)
        farm.keep(ALONE, DRAIN="", COUNT=count)
        until(lambda: asked(farm.alone, "/")[0] == 200)
        readers = Flood(farm.alone, [s.path(ALONE, key) for key in s.keys[ALONE][-40:]], 500)
        took = changed(s, farm.alone, 3)
        notes = readers.end()
        failed = sum(status == 0 for _, _, _, status in notes)
        s.t.holds(f"without a proxy, COUNT={count}: each command is served within 10 s", max(took) < 10, f"{[f'{it:.1f}' for it in took]}; {failed} of {len(notes)} requests failed")
        s.figures["bare"].append({"count": count, "served": took, "requests": len(notes), "failed": failed})
    farm.stop_keeping(ALONE)
    farm.keep(ALONE)
    s.t.holds("and with one again", until(lambda: asked(farm.port, f"/l/{ALONE}-list/threads")[0] == 200))


def units(s):
    """What systemd says of the units."""
    if not s.t.has("systemd-analyze"):
        return
    folder = s.farm.folder / "units"
    folder.mkdir()
    for file in s.farm.scale.glob("archive*@.*"):
        text = file.read_text()
        (folder / file.name.replace("@", "@ash")).write_text(re.sub(r"/opt/archive/\S+?(?=[ \n])", "/bin/true", text))
    for file in sorted(folder.iterdir()):
        s.t.check(f"systemd-analyze verify {file.name}", [it for it in output("systemd-analyze", "verify", "--man=no", file).splitlines() if file.name in it], [])


# What `systemctl` does with archive-copy@COLOUR, where there is no systemd: the unit's ExecStart, by its file `env`.
SYSTEMCTL = """#!/usr/bin/env bash
unit=${@: -1} folder=$COPIES/${unit#archive-copy@}
case $1 in
  start) . "$folder/env"; setsid "$ARCHIVE" serve --db "$folder/archive.db" --policy "$folder/policy.toml" --day "$DAY" --port "$PORT" --count 1000000 > /dev/null 2>&1 &
    echo $! > "$folder/unit" ;;
  is-active) kill -0 "$(cat "$folder/unit")" 2> /dev/null ;;
  show) echo nobody ;;
  stop) kill "$(cat "$folder/unit" 2> /dev/null)" 2> /dev/null; sleep 0.5 ;;
esac
"""


def by_units(s):
    """copy-here.sh where servers are units."""
    farm, port = s.farm, str(free_ports(1)[0])
    room = farm.folder / "unit-copies"
    (room / "bin").mkdir(parents=True)
    (room / "bin" / "systemctl").write_text(SYSTEMCTL)
    (room / "bin" / "systemctl").chmod(0o755)
    env = {"UNITS": "yes", "COPIES": str(room), "PATH": f"{room / 'bin'}:{os.environ['PATH']}"}
    step = lambda *words: farm.told("copy-here.sh", *words, **env)[0]
    s.t.check("a copy as a unit: brought, begun and asked", (step("bring", "one", "elm-a", f"127.0.0.1:{port}", farm.root / ALONE),
              step("begin", "one", "elm-a", f"127.0.0.1:{port}", DAY), asked(int(port), f"/l/{ALONE}-list/threads")[0]), (0, 0, 200))
    s.t.check("what root brings is the unit's user's", (room / "elm-a" / "archive.db").owner() in ("nobody", *[pathlib.Path(room).owner()] * (os.geteuid() > 0)), True)
    s.t.check("what the unit is told", (room / "elm-a" / "env").read_text(), f"PORT={port}\nDAY={DAY}\n")
    s.t.check("not begun twice, and stopped", (step("begin", "one", "elm-a", f"127.0.0.1:{port}", DAY), step("stop", "one", "elm-a"), asked(int(port), "/")[0]), (1, 0, 0))
    (room / "elm-a" / "policy.toml").write_text("no policy\n")
    s.t.check("one that does not begin", (step("begin", "one", "elm-a", f"127.0.0.1:{port}", DAY), step("frob"), step("bring", "one")), (1, 2, 2))


def slow_readers(s):
    """Readers of an mbox who read nothing of it hold nobody up for long."""
    slow = []
    for _ in range(s.words.slow):
        peer = socket.socket()
        peer.setsockopt(socket.SOL_SOCKET, socket.SO_RCVBUF, 4096)
        peer.settimeout(60)
        peer.connect(("127.0.0.1", s.farm.port))
        peer.sendall(b"GET /l/birch-list/mbox HTTP/1.1\r\nHost: x\r\nConnection: close\r\n\r\n")
        slow.append(peer)
    s.while_read(f"{len(slow)} readers of an mbox who read nothing", lambda: time.sleep(3))
    for peer in slow:
        peer.close()


CASES = [killed, replaced, withdrawn, left_out, old_file, shows_it, hangs, too_few, a_day, keeper_away, failed_batch, old_keeper, comes_back, map_twice, untold,
         at_once, slow_readers, ten_changes, without_a_proxy, units, by_units, moved]


def main():
    asked_for = words_of(__doc__, scale={"default": SAMPLES / "scale", "type": pathlib.Path}, mails={"type": int, "default": 300},
                         readers={"type": int, "default": 4}, slow={"type": int, "default": 64}, only={"default": ""}, figures={"type": pathlib.Path})
    wanted = [case for case in CASES if not asked_for.only or case.__name__ in asked_for.only.split(",")]
    with Trial() as trial, tempfile.TemporaryDirectory() as folder:
        if not all([trial.has(it) for it in ("haproxy", "socat", "curl", "sqlite3")]):
            return
        farm = Farm(pathlib.Path(folder), asked_for.archive, asked_for.scale.resolve())
        stage = Stage(trial, farm, asked_for)
        try:
            began(stage)
            for case in wanted:
                case(stage)
                stage.nothing_is_back(case.__name__)
        finally:
            farm.end()
        if asked_for.figures:
            asked_for.figures.write_text(json.dumps(stage.figures | {"load": os.getloadavg()[0], "date": f"{datetime.datetime.now():%F}"}, indent=1) + "\n")


if __name__ == "__main__":
    main()
