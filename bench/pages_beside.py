#!/usr/bin/env python3
"""pages_beside.py: what a page of a long list takes of a processor, beside a bare loop and lighttpd that send as many bytes.

  bench/pages_beside.py [--archive PROGRAM] [--before PROGRAM] [--probe PROGRAM] [--messages 50000] [--rounds 3] [--requests 500] [--folder FOLDER]

One list of so many mails (bench/gen_mbox.py), of which the last 2,000 are one thread. A message, that thread, all threads, a month
of about 500 mails and the mbox are asked of `serve`, of the bare loop crates/listen_probe with a reply as long, and of lighttpd over
a file of the same bytes, where it is there: in turn, a new connection for each request, each asked once before. All threads are also
asked of a server that was just started, by --before too, over the same file. It prints microseconds of a processor that the server
took for a page, as the scheduler counts them, and milliseconds by the clock: medians of the rounds, and of the ratios of each round.
Asked for, of a processor: a message at most 2.0 times the bare loop, the thread, the month and the mbox 3, all threads 4; the first
ones 0.6 of before.
Build the programs first: ./archive --version, (cd crates/listen_probe && rt run).
"""
import argparse, collections, hashlib, os, pathlib, random, re, shutil, socket, statistics, subprocess, sys, tempfile, time

from forms import SEPARATOR, mid
from mails import POLICY, processor
from serving import ROOT, Bare, Server, get, heard, make_archive, stop_unless_built

LONG = 2_000
MONTH = 500
MOST_BYTES = 400_000_000  # of one page in one round, where that is more than one request
# At most so many times the bare loop, by how a page's name begins.
ASKED = {"message": 2.0, "thread of": 3.0, "month of": 3.0, "all threads": 4.0, "mbox": 3.0}
THREADS = "/l/many/threads"
LIGHTTPD = """server.port = {port}
server.bind = "127.0.0.1"
server.document-root = "{root}"
server.max-keep-alive-requests = 0
mimetype.assign = ("" => "text/html")
"""


def long_thread():
    """The texts of a thread of 2,000 mails, each of which answers one of the forty before it."""
    draws = random.Random(7)
    for number in range(LONG):
        answers = mid(max(0, number - 1 - draws.randrange(40))) if number else b""
        refs = b"In-Reply-To: %s\nReferences: %s\n" % (answers, answers) if number else b""
        yield b"From: Peer %d <peer%d@long.example>\nSubject: %sthe thread of two thousand\nMessage-ID: %s\n%s\nAnswer %d.\n" % (
            number % 50, number % 50, b"Re: " if number else b"", mid(number), refs, number)


def make_mbox(path, messages):
    """Writes the mbox, and answers the path of the page of the long thread."""
    texts = list(long_thread())
    with open(path, "wb") as file:
        subprocess.run([sys.executable, ROOT / "bench" / "gen_mbox.py", "--n", str(messages - LONG)], stdout=file, stderr=subprocess.DEVNULL, check=True)
    with open(path, "ab") as file:
        file.writelines(SEPARATOR + text + b"\n" for text in texts)
    return f"/l/many/t/{hashlib.sha256(texts[0]).hexdigest()}"


class Lighttpd:
    """lighttpd over the files of a folder."""

    def __init__(self, folder):
        with socket.create_server(("127.0.0.1", 0)) as free:
            self.port = free.getsockname()[1]
        self.root = folder / "root"
        self.root.mkdir()
        (folder / "lighttpd.conf").write_text(LIGHTTPD.format(port=self.port, root=self.root))
        self.process = subprocess.Popen(["lighttpd", "-D", "-f", folder / "lighttpd.conf"], stderr=subprocess.DEVNULL)
        time.sleep(1)

    connect = Server.connect


def file_of(name):
    """The name of the file with a page, for lighttpd."""
    return re.sub(r"\W", "_", name)


def stop(server):
    server.process.kill()
    server.process.wait()


def took(server, path, count):
    """The seconds of the server's processor, and those by the clock, for each of so many requests."""
    request, room = get(path), bytearray(1 << 20)
    before, begun = processor(server.process.pid), time.perf_counter()
    for _ in range(count):
        with server.connect() as peer:
            peer.sendall(request)
            while peer.recv_into(room):
                pass
    clock = time.perf_counter() - begun
    time.sleep(0.05)  # what it does behind its reply counts, and is counted once it waits again
    return (processor(server.process.pid) - before) / count, clock / count


def body_of(server, path):
    with server.connect() as peer:
        peer.sendall(get(path))
        reply = heard(peer)
    if not reply.startswith(b"HTTP/1.1 200 "):
        sys.exit(f"{path}: {reply[:60]!r}")
    return reply.partition(b"\r\n\r\n")[2]


def usual_message(server, page):
    """The path of a message of usual length: of 21 behind three quarters of the page of all threads, the median."""
    paths = re.findall(rb'/l/many/m/[0-9a-f]{64}', page[len(page) * 3 // 4:])[:21]
    return sorted((it.decode() for it in paths), key=lambda it: len(body_of(server, it)))[len(paths) // 2]


def pages_of(server, thread):
    """The path of each page by its name, out of the page of all threads."""
    page = body_of(server, THREADS)
    months = collections.Counter(re.findall(rb'/l/many/month/(\d{4}-\d\d)"', page))
    month = min(months, key=lambda it: (abs(months[it] - MONTH), it))
    return {"message": usual_message(server, page), "thread of 2,000": thread, f"month of {months[month]}": f"/l/many/month/{month.decode()}",
            "all threads": THREADS, "mbox": "/l/many/mbox"}


def one_page(servers, probe, name, path, size, requests):
    """What each server takes for a page in one round."""
    count = max(1, min(requests, MOST_BYTES // size))
    bare = Bare(probe, size)
    asked = {"serve": (servers["serve"], path), "bare loop": (bare, "/")}
    if "lighttpd" in servers:
        asked["lighttpd"] = (servers["lighttpd"], "/" + file_of(name))
    found = {}
    for who, (server, its) in asked.items():
        took(server, its, 1)
        found[who] = took(server, its, count)
    bare.stop()
    return found


def first_threads(program, db, policy):
    """What the page of all threads takes of a server that was just started."""
    server = Server(program, db, 1_000_000, policy)
    found = took(server, THREADS, 1)
    stop(server)
    return found


def asked_of(name):
    """What is asked for of a page, if anything is: of a page that is asked for the first time nothing."""
    limits = [most for begins, most in ASKED.items() if name.startswith(begins) and not name.endswith("first")]
    return f"; at most {limits[0]:g} of the bare loop is asked for" if limits else ""


def show(name, size, rounds):
    """Prints a page's line: of each server the medians, and of the ratios to the others."""
    cells = []
    for who in rounds[0]:
        seconds, clock = (statistics.median(it[who][kind] for it in rounds) for kind in (0, 1))
        cells.append(f"{who} {seconds * 1e6:9.1f} ({clock * 1e3:8.2f} ms)")
        if who != "serve":
            over, by_clock = ([it["serve"][kind] / it[who][kind] for it in rounds] for kind in (0, 1))
            cells[-1] += f": {statistics.median(over):6.2f} of it, from {min(over):.2f} to {max(over):.2f} ({statistics.median(by_clock):6.2f})"
    print(f"{name:19} {size:11,} bytes  " + "; ".join(cells) + asked_of(name), flush=True)


def made(words, folder):
    """The file with the list, a policy that lets all be seen, and the path of the page of the long thread."""
    mbox, policy = folder / "mbox", folder / "policy"
    policy.write_bytes(POLICY)
    thread = make_mbox(mbox, words.messages)
    db = make_archive(words.archive, folder, mbox, "many")
    mbox.unlink()
    return db, policy, thread


def sizes_of(servers, pages):
    """The bytes of each page, of which lighttpd gets a file."""
    sizes = {}
    for name, path in pages.items():
        body = body_of(servers["serve"], path)
        sizes[name] = len(body)
        if "lighttpd" in servers:
            (servers["lighttpd"].root / file_of(name)).write_bytes(body)
    return sizes


def all_pages(words, folder, db, policy, thread):
    """The bytes of each page, and for each round what each server takes for it."""
    servers = {"serve": Server(words.archive, db, 1_000_000, policy)}
    if shutil.which("lighttpd"):
        servers["lighttpd"] = Lighttpd(folder)
    else:
        print("lighttpd is not there: skipped")
    try:
        pages = pages_of(servers["serve"], thread)
        sizes = sizes_of(servers, pages)
        return sizes, [{name: one_page(servers, words.probe, name, path, sizes[name], words.requests) for name, path in pages.items()} for _ in range(words.rounds)]
    finally:
        for server in servers.values():
            stop(server)


def measure(words, folder):
    db, policy, thread = made(words, folder)
    sizes, rounds = all_pages(words, folder, db, policy, thread)
    for name, size in sizes.items():
        show(name, size, [it[name] for it in rounds])
    programs = {"serve": words.archive} | ({"before": words.before} if words.before else {})
    firsts = [{who: first_threads(program, db, policy) for who, program in programs.items()} for _ in range(words.rounds)]
    others = [{who: cost for who, cost in it["all threads"].items() if who != "serve"} for it in rounds]
    show("all threads, first", sizes["all threads"], [first | other for first, other in zip(firsts, others)])


def main():
    words = argparse.ArgumentParser(description=__doc__, formatter_class=argparse.RawDescriptionHelpFormatter)
    words.add_argument("--archive", default=ROOT / "crates" / "archive" / "out" / "archive")
    words.add_argument("--before", help="a program of before, for the first page of all threads")
    words.add_argument("--probe", default=ROOT / "crates" / "listen_probe" / "out" / "listen_probe")
    words.add_argument("--messages", type=int, default=50_000)
    words.add_argument("--rounds", type=int, default=3)
    words.add_argument("--requests", type=int, default=500)
    words.add_argument("--folder", help="make files in this folder")
    given = words.parse_args()
    stop_unless_built(given.archive, given.probe, *([given.before] if given.before else []))
    with tempfile.TemporaryDirectory(dir=given.folder) as folder:
        pathlib.Path(folder).chmod(0o755)
        print(f"{given.messages} mails, {given.rounds} rounds, load {os.getloadavg()[0]:.0f}; microseconds of a processor a page (milliseconds by the clock)")
        measure(given, pathlib.Path(folder))
        print(f"load {os.getloadavg()[0]:.0f} at the end")


if __name__ == "__main__":
    main()
