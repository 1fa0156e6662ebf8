#!/usr/bin/env python3
"""crowd.py: what one address, or a few, can take from all others through samples/proxy: each of its limits, with it and without.

  trials/crowd.py [--archive PROGRAM] [--mails COUNT] [--only WORD]

Each case is tried with archive.conf as it is, and with a copy from which its limit was taken: there it has to fail, so that the case is
known to try that limit. First an address makes a hundred requests at once of a list of COUNT messages, of which all but one are shown: for
all threads, for a month that has nearly all messages, for a message of 16 MB, for the mbox, for a message of usual size, for a denied key.
Another address, which asks for the page of lists meanwhile, waits at most a second; beside mboxes, on a slow machine, as long as two of
them take. Usual messages and denied keys are tried only with the limits: a hundred take the archive 0.01 s.

Then, before a stand-in for the archive that writes at once, readers that take nothing of mboxes, of pages and of a large page, and half
heads, after which another address is answered within 20 s. The crowd comes from 127.0.0.1 and other addresses of the loopback. With --only
the cases with that word in their name. It wants nginx, openssl and Linux (`/proc`). The last line is 'N passed, N failed, N skipped'.
"""
import collections, contextlib, functools, http.server, multiprocessing, pathlib, re, socket, ssl, sys, tempfile, threading, time

from trial import ROOT, Server, Trial, output, words_of
from serving import archive, make_archive
from proxy import Proxy
import mbox

POLICY = '[[rule]]\nname = "withdrawn"\neffect = "deny"\nwithdrawn = ["author", "board"]\n\n[[rule]]\nname = "all"\neffect = "allow"\n'
FORK = multiprocessing.get_context("fork")
CROWD, MOST_WAIT = 100, 1  # requests at once, and seconds
MEGABYTE = 1_000_000
OTHER = "127.0.0.2"
TLS = ssl.create_default_context()
TLS.check_hostname, TLS.verify_mode = False, ssl.CERT_NONE


def connected(proxy, source, buffer=0):
    """A connection by TLS from an address."""
    peer = socket.socket()
    if buffer:
        peer.setsockopt(socket.SOL_SOCKET, socket.SO_RCVBUF, buffer)
    peer.settimeout(100)
    peer.bind((source, 0))
    peer.connect(("127.0.0.1", proxy.tls))
    return TLS.wrap_socket(peer)


def request(peer, path):
    peer.sendall(f"GET {path} HTTP/1.1\r\nHost: x\r\nConnection: close\r\n\r\n".encode())


def opened(proxy, path, source, buffer=0):
    """A connection on which a path was asked for."""
    peer = connected(proxy, source, buffer)
    request(peer, path)
    return peer


def status_of(peer):
    """The status of a reply; the rest of it is left."""
    return peer.recv(12)[9:12].decode()


def whole(peer):
    """The status of a reply that is read to its end."""
    status = status_of(peer)
    with contextlib.suppress(ssl.SSLEOFError):
        while peer.recv(65536):
            pass
    return status


def ask(proxy, path, source):
    """The seconds until a reply was whole, and its status."""
    begun = time.monotonic()
    with opened(proxy, path, source) as peer:
        status = whole(peer)
    return time.monotonic() - begun, status


class StandIn(http.server.ThreadingHTTPServer):
    """It answers each path with as many megabytes as the path says: `/l/40/mbox` and `/l/40/threads` have 40."""

    class Handler(http.server.BaseHTTPRequestHandler):
        def do_GET(self):
            size = int(re.findall(r"\d+", self.path + "/0")[0]) * MEGABYTE
            kind = "application/mbox" if self.path.endswith("mbox") else "text/html; charset=us-ascii"
            self.wfile.write(f"HTTP/1.1 200 OK\r\nContent-Type: {kind}\r\nContent-Length: {size}\r\nConnection: close\r\n\r\n".encode())
            with contextlib.suppress(OSError):
                for _ in range(size // MEGABYTE):
                    self.wfile.write(bytes(MEGABYTE))
            self.close_connection = True

        def log_message(self, *_):
            pass

    daemon_threads = True
    request_queue_size = 500

    def __init__(self, port):
        super().__init__(("127.0.0.1", port), self.Handler)
        threading.Thread(target=self.serve_forever, daemon=True).start()


def held_by(proxy):
    """How many bytes nginx holds in files for replies: it has taken their names away."""
    children = pathlib.Path(f"/proc/{proxy.process.pid}/task/{proxy.process.pid}/children").read_text().split()
    sum_of = 0
    for link in (it for child in children for it in pathlib.Path(f"/proc/{child}/fd").iterdir()):
        with contextlib.suppress(FileNotFoundError):
            if str(link.readlink()).startswith(f"{proxy.folder}/t2/"):
                sum_of += link.stat().st_size
    return sum_of


def settled(proxy):
    """What nginx holds once it holds no more than half a second before."""
    before = -1
    while (now := held_by(proxy)) != before:
        before = now
        time.sleep(0.5)
    return now


def ask_at_once(proxy, path, pipe):
    """Has one address ask for a path a hundred times at once; tells the pipe when all have asked, and then the statuses."""
    together, statuses = threading.Barrier(CROWD + 1, timeout=60), []

    def one_of_them():
        with connected(proxy, "127.0.0.1") as peer:
            together.wait()
            request(peer, path)
            together.wait()
            statuses.append(whole(peer))

    those = [threading.Thread(target=one_of_them) for _ in range(CROWD)]
    for it in those:
        it.start()
    together.wait()
    together.wait()
    pipe.send(None)
    for it in those:
        it.join()
    pipe.send(collections.Counter(statuses))


def crowd(path, proxy):
    """A hundred requests at once by one address: how long one takes by itself, how long another address waits, and the statuses of each."""
    by_itself = [ask(proxy, path, OTHER)[0] for _ in range(2)][1]  # (the first one fills the cache)
    ours, theirs = FORK.Pipe()
    process = FORK.Process(target=ask_at_once, args=(proxy, path, theirs))  # (a process of its own, as threads of this one would delay the other address)
    process.start()
    theirs.close()
    ours.recv()
    waits = [ask(proxy, "/", OTHER)]
    while not ours.poll(0.05):
        waits.append(ask(proxy, "/", OTHER))
    statuses = ours.recv()
    process.join()
    return by_itself, max(seconds for seconds, _ in waits), {status for _, status in waits}, dict(statuses)


def tried_crowd(name, trial, with_it, without):
    by_itself, wait, others, statuses = with_it
    trial.check(f"a hundred times {name}, by one address: the status of another one", others, {"200"})
    most = max(MOST_WAIT, 2 * by_itself) if name == "the mbox" else MOST_WAIT
    trial.holds(f"it waits at most {most:.1f} s", wait <= most, f"{wait:.2f} s; by itself it takes {by_itself:.2f}; the crowd had {statuses}")
    if without:
        trial.holds("without the limit it waits more than twice as long", without[1] > 2 * wait, f"{without[1]:.2f} s; the crowd had {without[3]}")


def one(proxy):
    """One address takes three mboxes and reads nothing of them: its statuses."""
    with contextlib.ExitStack() as stack:
        peers = [stack.enter_context(opened(proxy, "/l/20/mbox", "127.0.0.1", 4096)) for _ in range(3)]
        return sorted(map(status_of, peers))


def tried_one(trial, with_it, without):
    trial.check("one address takes three mboxes: its statuses", with_it, ["200", "429", "429"])
    trial.check("without the limit all are begun", without, ["200"] * 3)


def wholes(proxy):
    """Six addresses take an mbox each and read nothing of it: how much is held, and their statuses."""
    with contextlib.ExitStack() as stack:
        peers = [stack.enter_context(opened(proxy, "/l/60/mbox", f"127.0.0.{at}", 4096)) for at in range(10, 16)]
        return settled(proxy) / MEGABYTE, sorted(map(status_of, peers)), ask(proxy, "/", OTHER)[1]


def tried_wholes(trial, with_it, without):
    held, statuses, other = with_it
    trial.check("six addresses take an mbox each: their statuses, and a page of another one", (statuses, other), (["200"] * 4 + ["429"] * 2, "200"))
    trial.holds("nginx holds at most four, on its disk", held <= 4 * 60, f"{held:.0f} MB")
    trial.holds("without the limit it holds more", without[0] > 4 * 60 and without[1] == ["200"] * 6, f"{without[0]:.0f} MB, {without[1]}")


def replies(proxy):
    """One address asks for twelve pages and reads nothing of them, and then for the style: its statuses, and another one."""
    with contextlib.ExitStack() as stack:
        peers = [stack.enter_context(opened(proxy, "/l/6/threads", "127.0.0.1", 4096)) for _ in range(12)]
        statuses = collections.Counter(map(status_of, peers))
        return dict(statuses), ask(proxy, "/archive.css", "127.0.0.1")[1], ask(proxy, "/", OTHER)[1]


def tried_replies(trial, with_it, without):
    trial.check("one address asks for twelve pages and reads none, and then for the style: its statuses, and another one", with_it, ({"200": 8, "429": 4}, "200", "200"))
    trial.check("without the limit all pages are held", without[0], {"200": 12})


def page(proxy):
    """A page of 40 MB of which nothing is read: how much is held."""
    with opened(proxy, "/l/40/threads", "127.0.0.1", 4096):
        return settled(proxy) / MEGABYTE


def tried_page(trial, with_it, without):
    trial.holds("of a page at most 32 MB are held", with_it <= 34, f"{with_it:.1f} MB of 40")
    trial.holds("without the limit all of it", without > 36, f"{without:.1f} MB")


def half_heads(proxy):
    """More half heads than nginx has connections: after how many seconds another address is answered, which asks again for 20; or none."""
    with contextlib.ExitStack() as stack:
        for _ in range(300):
            with contextlib.suppress(OSError):
                peer = stack.enter_context(TLS.wrap_socket(socket.create_connection(("127.0.0.1", proxy.tls), 5)))
                peer.sendall(b"GET / HTTP/1.1\r\nHost:")
        time.sleep(2)  # (until it has taken them all)
        begun = time.monotonic()
        while time.monotonic() < begun + 20:
            with contextlib.suppress(OSError):
                if ask(proxy, "/", OTHER)[1] == "200":
                    return time.monotonic() - begun
            time.sleep(0.2)
    return None


def tried_half_heads(trial, with_it, without):
    trial.holds("300 half heads, where nginx has 256 connections: another address is answered within 20 s", with_it is not None, with_it and f"{with_it:.1f} s")
    trial.check("without the limit it is not", without, None)


REPLIES, WHOLE, WHOLES = (f"  limit_conn archive_{it};\n" for it in ("replies 8", "whole 1", "wholes 4"))
# What the crowd asks for, by the words of its case, and the limit of that; none where the archive needs none.
CROWDS = {"all threads": REPLIES, "a month": REPLIES, "a large message": REPLIES, "the mbox": WHOLE + WHOLES, "a usual message": "", "a denied key": ""}
# Each other case: the limit, what is tried of it, what has to be so.
CASES = {
    "one": (WHOLE, one, tried_one),
    "wholes": (WHOLES, wholes, tried_wholes),
    "replies": (REPLIES, replies, tried_replies),
    "page": ("  proxy_max_temp_file_size 32m;\n", page, tried_page),
    "half heads": ("  client_header_timeout 10s;\n", half_heads, tried_half_heads),
}


def large(number):
    """A message of 16 MB."""
    return f"From: Anna <anna@example.org>\nSubject: large {number}\nDate: 2 Jan 2003 10:00:00 +0000\n\n".encode() + (b"x" * 79 + b"\n") * 200_000


class Big:
    """A served list that shows all but one of its messages, which has 16 MB, as one of the others."""

    def __init__(self, program, folder, count):
        box, shown, denied = folder / "big.mbox", large(1), large(2)
        output(sys.executable, ROOT / "bench" / "gen_mbox.py", "--n", count, "--years", 0.05, "--out", box)
        with open(box, "rb") as lines:
            usual = next(text for _, _, text in mbox.messages(lines))
        with open(box, "ab") as more:
            more.writelines(b"From a@example.org Mon Mar 18 08:00:00 2024\n" + text + b"\n" for text in (shown, denied))
        db, policy = make_archive(program, folder, box, "big"), folder / "policy.toml"
        policy.write_text(POLICY)
        archive(program, "withdraw", "--db", db, "big", mbox.key_of(denied), "author")
        self.paths = {it: f"/l/big/{path}" for it, path in {
            "all threads": "threads", "a month": "month/2003-01", "a large message": f"m/{mbox.key_of(shown)}", "the mbox": "mbox",
            "a usual message": f"m/{mbox.key_of(usual)}", "a denied key": f"m/{mbox.key_of(denied)}"}.items()}
        self.server = Server(program, db, 1_000_000, policy)


def tried(folder, name, limit, does, behind=None):
    """What a case finds, without a limit or with all of them."""
    folder = folder / f"{name.replace(' ', '-')}-{'without' if limit else 'with'}"
    folder.mkdir()
    with Proxy(folder, limit, behind) as proxy:
        if behind:
            return does(proxy)
        with StandIn(proxy.behind) as stand_in:
            try:
                return does(proxy)
            finally:
                stand_in.shutdown()


def crowds(trial, big, folder, names):
    for name in names:
        does = functools.partial(crowd, big.paths[name])
        with_it = tried(folder, name, "", does, big.server.port)
        without = CROWDS[name] and tried(folder, name, CROWDS[name], does, big.server.port)
        tried_crowd(name, trial, with_it, without)


def main():
    asked = words_of(__doc__, mails={"type": int, "default": 50_000, "help": "how many messages the list has"},
                     only={"default": "", "help": "the cases with this word in their name"})
    with Trial() as trial, tempfile.TemporaryDirectory() as folder:
        if not all([trial.has(it) for it in ("nginx", "openssl")]):
            return
        folder = pathlib.Path(folder)
        if names := [it for it in CROWDS if asked.only in it]:
            big = Big(asked.archive, folder, asked.mails - 2)
            crowds(trial, big, folder, names)
            big.server.kill()
        for name, (limit, does, judged) in CASES.items():
            if asked.only in name:
                judged(trial, tried(folder, name, "", does), tried(folder, name, limit, does))


if __name__ == "__main__":
    main()
