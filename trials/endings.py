#!/usr/bin/env python3
"""endings.py: how a server of samples/keep.sh ends: at midnight, where it says 503 to its end, and behind a proxy.

  trials/endings.py [--archive PROGRAM] [--script KEEP.SH] [--mails 2000] [--rate 500] [--large 50000] [--withdrawals 100] [--only PART]

The parts are midnight, ill, changes and withdrawals.

  midnight     It comes by a copy of the script that reads the day out of a file; a peer meanwhile reads a long message slowly.
  ill          The server that says 503 is a stand-in.
  changes      Behind HAProxy (2.6) readers ask --rate times a second while ten changes come, to a server on one port, and to one that has a
               second port, where the slowest reply has to come sooner.
  withdrawals  Behind HAProxy, with a second port, so many messages of a list of --large are withdrawn, ten in a file of commands, the next
               file once the last one is served. One reader meanwhile asks for a message a hundred times a second. No request may fail.

Times are judged: 5 seconds until a server that has to end has ended, 10 until one of the ten changes is served, and 100 ms between two
answers to the reader of withdrawals. The last line is 'N passed, N failed, N skipped'.
"""
import hashlib, pathlib, re, shutil, socket, stat, sys, tempfile, threading, time

from trial import ROOT, SAMPLES, Trial, begun, free_ports, output, words_of
from keeper import OPEN, Keeper
from serving import get, heard
import mbox, subprocess

TOKEN = "0123456789abcdef"
IN_A_FILE, MOST_WAIT = 10, 0.1  # withdrawals in a file of commands, and seconds without an answer
POLICY = '[[rule]]\nname = "members"\neffect = "deny"\nstandings = ["public"]\n\n[[rule]]\nname = "all"\neffect = "allow"\n'
# A program that serves 503 where the file `ill` is there when it begins, and is the real one else.
STAND_IN = """#!/usr/bin/env python3
import os, pathlib, socket, sys
words = sys.argv[1:]
if words[0] != "serve" or not pathlib.Path("ill").exists():
    os.execv({program!r}, [{program!r}, *words])
with socket.create_server(("127.0.0.1", int(words[words.index("--port") + 1]))) as listener:
    for _ in range(int(words[words.index("--count") + 1])):
        peer = listener.accept()[0]
        with peer:
            pathlib.Path("asked").open("a").write("x")
            peer.recv(4096)
            peer.sendall(b"HTTP/1.1 503 Service Unavailable\\r\\nContent-Length: 0\\r\\nConnection: close\\r\\n\\r\\n")
"""


def mail(number, body):
    """A mail of an mbox, and its key."""
    text = b"From: a@b\nSubject: %d\n\n%s" % (number, body)
    return b"From a@b Tue Mar  4 10:00:00 2003\n%s\n" % text, hashlib.sha256(text).hexdigest()


def executable(file, text):
    file.write_text(text)
    file.chmod(file.stat().st_mode | stat.S_IXUSR)
    return file


def with_a_day_of_its_own(script, room):
    """A copy of the script that takes the day from the file `today` in its folder."""
    copy = room / "copy"
    shutil.copytree(script.parent, copy)
    server = copy / "keep" / "server.sh"
    text = server.read_text()
    assert text.count("  printf -v today '%(%F)T' -1\n") == 1
    server.write_text(text.replace("printf -v today '%(%F)T' -1", "read -r today < today"))
    return copy / script.name


class Slow(threading.Thread):
    """A peer that reads a little of a long reply every two seconds."""

    def __init__(self, port, path):
        super().__init__(daemon=True)
        self.peer = socket.socket()
        self.peer.setsockopt(socket.SOL_SOCKET, socket.SO_RCVBUF, 4096)
        self.peer.connect(("127.0.0.1", port))
        self.peer.sendall(get(path, TOKEN))
        self.read, self.ended = 0, threading.Event()
        self.start()

    def run(self):
        try:
            while not self.ended.wait(2) and (piece := self.peer.recv(1 << 16)):
                self.read += len(piece)
        except OSError:
            pass


def asked(port, path, token=None, seconds=2):
    """The status that is answered within these seconds, or none."""
    try:
        with socket.create_connection(("127.0.0.1", port), timeout=seconds) as peer:
            # (a proxy would keep the connection for another request)
            peer.sendall(get(path, token).replace(b"\r\n", b"\r\nConnection: close\r\n", 1))
            return heard(peer)[9:12].decode()
    except OSError:
        return ""


def midnight(trial, program, script, room, slowly):
    """A grant that ends at midnight counts no more within five seconds."""
    room = room / f"midnight{slowly}"
    room.mkdir()
    keeper = Keeper(with_a_day_of_its_own(script, room), program, room / "kept")
    (one, key), (long, key_of_long) = mail(1, b"x\n"), mail(2, (b"z" * 99 + b"\n") * 150_000)
    (room / "mbox").write_bytes(one + long)
    keeper.put("today", "2024-03-20\n")
    keeper.put("policy.toml", POLICY)
    keeper.order("1", f"list-add soc\nperson-add anna {TOKEN}\ngrant anna soc member 2024-01-01 2024-03-20\n")
    keeper.mail("soc", room / "mbox")
    keeper.begin()
    keeper.until(lambda: asked(keeper.port, f"/l/soc/m/{key}", TOKEN) == "200")
    slow = Slow(keeper.port, f"/l/soc/m/{key_of_long}") if slowly else None
    time.sleep(3)
    keeper.put("today", "2024-03-21\n")
    begun_at, last = time.monotonic(), 0
    while time.monotonic() - begun_at < 120 and (status := asked(keeper.port, f"/l/soc/m/{key}", TOKEN)) != "403":
        last = time.monotonic() - begun_at if status == "200" else last
        time.sleep(0.02)
    what = "with a peer that reads slowly" if slowly else "by itself"
    trial.holds(f"midnight {what}: the last reply of the day before", last <= 5 and status == "403", f"{last:.2f} s after it; denied after {time.monotonic() - begun_at:.2f} s")
    if slow:
        slow.ended.set()
        slow.join()
        trial.holds("the long reply broke off", slow.read < len(long), f"{slow.read} of {len(long)} bytes")
    trial.check("stopped: status", keeper.stop(), 0)


def ill(trial, program, script, room, _):
    """A server that says 503 at two looks in a row is ended, and another one begins; one that said so once goes on."""
    keeper = Keeper(script, executable(room / "stand-in", STAND_IN.format(program=str(program))), room / "ill", MINUTE="1")
    keeper.put("policy.toml", OPEN)
    keeper.order("1", "list-add soc\n")
    keeper.once()
    (keeper.folder / "ill").touch()
    keeper.begin()
    keeper.until(lambda: asked(keeper.port, "/") == "503", 30)
    trial.check("a server that says 503", asked(keeper.port, "/"), "503")
    (keeper.folder / "ill").unlink()
    took = keeper.until(lambda: asked(keeper.port, "/") == "200", 60)
    trial.holds("another one begins", asked(keeper.port, "/") == "200" and keeper.log().count("the server says 503: another one begins\n") == 1, f"after {took:.1f} s")
    trial.holds("--look says so", keeper.look()[1].count(" the server says 503: another one begins\n") == 1)
    time.sleep(4)
    trial.check("and stays", (keeper.log().count("another one begins\n"), asked(keeper.port, "/"), keeper.stop()), (1, "200", 0))


class Askers:
    """Readers who ask so many times a second in all, each request over a connection of its own."""

    def __init__(self, port, path, rate, count=100):
        self.port, self.path, self.pause, self.ended, self.notes = port, path, count / rate, False, []
        self.threads = [threading.Thread(target=self.run, daemon=True) for _ in range(count)]
        for it in self.threads:
            it.start()

    def run(self):
        at = time.monotonic()
        while not self.ended:
            begun_at = time.monotonic()
            self.notes.append((begun_at, asked(self.port, self.path, seconds=60), time.monotonic() - begun_at))
            at = max(at + self.pause, time.monotonic() - 1)
            time.sleep(max(0, at - time.monotonic()))

    def end(self):
        self.ended = True
        for it in self.threads:
            it.join()
        return self.notes


PROXY = """global
  stats socket {socket} mode 600 level admin
defaults
  mode http
  timeout connect 2s
  timeout client 60s
  timeout server 60s
  timeout queue 60s
  maxconn 4000
frontend front
  bind 127.0.0.1:{front}
  default_backend archive
backend archive
{backend}
"""


def backend_of(script, port):
    """What the script says that HAProxy's configuration has to have."""
    text = (script.parent / "keep" / "haproxy.sh").read_text()
    lines = re.search(r"^#   backend archive\n((?:#     .*\n)+)", text, re.MULTILINE)[1]
    return re.sub("^# ", "", lines, flags=re.MULTILINE).replace("127.0.0.1:8080", f"127.0.0.1:{port}")


def has_proxy(trial, what):
    return all([trial.has(it, what) for it in ("haproxy", "socat")])


def behind_proxy(program, script, room, mails, second):
    """keep.sh that serves a list behind HAProxy, with a second port or without; the port of HAProxy, and the messages."""
    room.mkdir()
    box, sockets, (front, other) = room / "proxied.mbox", room / "haproxy.sock", free_ports(2)
    more = {"SECOND": str(other)} if second else {}
    keeper = Keeper(script, program, room / "proxied", DRAIN=str(script.parent / "keep" / "haproxy.sh"), SOCKET=str(sockets), **more)
    output(sys.executable, ROOT / "bench" / "gen_mbox.py", "--n", mails, "--out", box)
    keeper.put("policy.toml", OPEN)
    keeper.order("1", "list-add soc\n")
    keeper.mail("soc", box)
    keeper.once()
    (room / "haproxy.cfg").write_text(PROXY.format(socket=sockets, front=front, backend=backend_of(script, keeper.port)))
    begun(subprocess.Popen(["haproxy", "-db", "-f", room / "haproxy.cfg"], stdout=subprocess.DEVNULL, stderr=subprocess.DEVNULL))
    keeper.until(sockets.exists, 20)
    keeper.begin()
    keeper.until(lambda: asked(front, "/") == "200", 60)
    return keeper, front, box


def stopped(trial, keeper):
    trial.check("stopped: status, and what was said", (keeper.stop(), (keeper.folder.parent / "errors").read_text().splitlines()), (0, []))


def ten_changes(trial, keeper, front, rate, what):
    """No request fails while ten changes come, and each is served soon. Returns the seconds of the slowest reply."""
    askers, took = Askers(front, "/", rate), []
    for at in range(10):
        time.sleep(2)
        keeper.order(f"change{at}", f"list-add change{at}\n")
        took.append(keeper.until(lambda: asked(front, f"/l/change{at}/threads") == "200", 60))
    notes = askers.end()
    seconds = notes[-1][0] - notes[0][0]
    trial.check(f"{what}, ten changes: requests that failed", [it for it in notes if it[1] != "200"][:3], [])
    slowest = max(it[2] for it in notes)
    trial.holds("each command is served within 10 s", max(took) <= 10, f"{min(took):.1f} to {max(took):.1f} s; {len(notes) / seconds:.0f} requests a second of {rate}, {len(notes)} in all, "
                f"the slowest {slowest:.2f} s")
    stopped(trial, keeper)
    return slowest


def changes(trial, program, script, room, asked_for):
    """Ten changes behind HAProxy; with a second port the next server begins first."""
    if not has_proxy(trial, "changes"):
        return
    slowest = {}
    for second in (False, True):
        keeper, front, _ = behind_proxy(program, script, room / ("two-ports" if second else "one-port"), asked_for.mails, second)
        slowest[second] = ten_changes(trial, keeper, front, asked_for.rate, "behind HAProxy" + ", with a second port" * second)
    trial.holds("with a second port the slowest reply comes sooner than without", slowest[True] < slowest[False], f"{slowest[True]:.3f} s, {slowest[False]:.3f} s")


def longest_wait(notes):
    """The longest time between two answers to one reader."""
    answers = [begun_at + took for begun_at, status, took in notes if status == "200"]
    return max(after - before for before, after in zip(answers, answers[1:]))


def withdrawals(trial, program, script, room, asked_for):
    """Many messages of a large list are withdrawn, and a reader notices nothing of that."""
    if not has_proxy(trial, "withdrawals"):
        return
    keeper, front, box = behind_proxy(program, script, room / "withdrawals", asked_for.large, second=True)
    with open(box, "rb") as lines:
        path, *paths = [f"/l/soc/m/{mbox.key_of(text)}" for (_, _, text), _ in zip(mbox.messages(lines), range(asked_for.withdrawals + 1))]
    idle = Askers(front, path, 100, count=1)
    time.sleep(10)
    idle, reader, took = idle.end(), Askers(front, path, 100, count=1), []
    for at in range(0, len(paths), IN_A_FILE):
        those = paths[at:at + IN_A_FILE]
        keeper.order(f"withdraw{at:06}", "".join(f"withdraw soc {it.rpartition('/')[2]} author\n" for it in those))
        took.append(keeper.until(lambda: asked(front, those[-1]) == "403", 300))
    notes = reader.end()
    what = f"{len(paths)} withdrawals of a list of {asked_for.large}"
    trial.check(f"{what}: requests that failed", [it for it in notes if it[1] != "200"][:3], [])
    trial.check("those that are served", [asked(front, it) for it in paths].count("403"), len(paths))
    trial.holds(f"at most {MOST_WAIT} s without an answer", longest_wait(notes) <= MOST_WAIT, f"{longest_wait(notes):.3f} s, and {longest_wait(idle):.3f} s when nothing came; {len(notes)} requests; "
                f"{IN_A_FILE} are served after {min(took):.0f} to {max(took):.0f} s")
    stopped(trial, keeper)


def both_midnights(trial, program, script, room, _):
    for slowly in (False, True):
        midnight(trial, program, script, room, slowly)


PARTS = {"midnight": both_midnights, "ill": ill, "changes": changes, "withdrawals": withdrawals}


def main():
    asked_for = words_of(__doc__, script={"default": SAMPLES / "keep.sh", "help": "another keep.sh, with its folder keep"},
                         mails={"type": int, "default": 2000, "help": "messages of the list of changes"}, rate={"type": int, "default": 500, "help": "requests a second"},
                         large={"type": int, "default": 50_000, "help": "messages of the list of withdrawals"},
                         withdrawals={"type": int, "default": 100, "help": "how many of them are withdrawn"}, only={"choices": PARTS, "help": "this part"})
    script = pathlib.Path(asked_for.script).resolve()
    with Trial() as trial, tempfile.TemporaryDirectory() as room:
        for name in [asked_for.only] if asked_for.only else PARTS:
            PARTS[name](trial, asked_for.archive, script, pathlib.Path(room), asked_for)


main()
