#!/usr/bin/env python3
"""searching.py: what samples/search costs: the index of a long list, its size, a search, a withdrawal; notmuch and Xapian on the same mail.

  bench/searching.py [--archive PROGRAM] [--messages 50000] [--rounds 9] [--words 2500] [--others]

One list of gen_mbox.py is served, and the service searches it as the public. It prints the seconds of the first index, the MB of its
segments and texts, milliseconds of a search by curl-like requests (medians of so many rounds, each question) with the share of the
archive's page of threads, the first search after a withdrawal, and, on a small list, a word that only a withheld message has and a word
of none, in turn by chance (medians of so many). With --others notmuch and python3-xapian index the same messages and search them, if
they are installed. Build the program first: ./archive --version.
"""
import argparse, contextlib, hashlib, mailbox, os, pathlib, random, re, shutil, socket, statistics, subprocess, sys, tempfile, time, urllib.parse

from serving import ROOT, SAMPLES, Server, archive, get, heard

sys.dont_write_bytecode = True
QUESTIONS = ("kernel", "memory leak", '"memory leak"', "perl OR rust", "compiler -linker", "sched*", "s:release", "f:anna d:2004..2005")
OTHERS = ("kernel", "memory leak", '"memory leak"', "perl OR rust")
MODERATOR = "5fW2xkQ0aTz7uYp1"


class Searching:
    """The service as a process of its own."""

    def __init__(self, folder, to):
        words = [sys.executable, SAMPLES / "search" / "search.py", "--folder", folder, "--archive", f"127.0.0.1:{to}", "--port", "0", "--warm", "0"]
        self.process = subprocess.Popen(list(map(str, words)), stdout=subprocess.PIPE, text=True)
        self.port = int(self.process.stdout.readline().rpartition(":")[2])

    def asked(self, path, token=None):
        """The seconds from the connection to the last byte, the status and the body."""
        begun = time.perf_counter()
        with socket.create_connection(("127.0.0.1", self.port), timeout=150) as peer:
            peer.sendall(get(path, token))
            head, _, body = heard(peer).partition(b"\r\n\r\n")
        return time.perf_counter() - begun, int(head.split()[1]), body

    def settled(self, path, token=None):
        """The seconds until a reply is no 503, and its body."""
        begun = time.perf_counter()
        while (reply := self.asked(path, token))[1] == 503:
            time.sleep(0.02)
        return time.perf_counter() - begun, reply[2]

    def stop(self):
        self.process.kill()
        self.process.wait()


def question(words, name="long"):
    return f"/l/{name}/search?{urllib.parse.urlencode({'q': words})}"


def size_of(files):
    """MB of files, and MB of the blocks that they take."""
    sizes = [it.stat() for it in files]
    return f"{sum(it.st_size for it in sizes) / 1e6:.1f} MB ({sum(it.st_blocks for it in sizes) * 512 / 1e6:.1f} on the disk)"


def milliseconds(took):
    return f"{statistics.median(took) * 1000:7.1f} ms"


def page_of(server):
    """The seconds of the archive's page of all threads."""
    begun = time.perf_counter()
    with server.connect() as peer:
        peer.sendall(get("/l/long/threads"))
        heard(peer)
    return time.perf_counter() - begun


def measure(asked, folder):
    box, db = folder / "long.mbox", folder / "archive.db"
    subprocess.run([sys.executable, ROOT / "bench" / "gen_mbox.py", "--n", str(asked.messages), "--out", box], check=True, stderr=subprocess.DEVNULL)
    archive(asked.archive, "list-add", "--db", db, "long")
    archive(asked.archive, "import", "--db", db, "long", box)
    print(f"{asked.messages} messages, {box.stat().st_size / 1e6:.0f} MB; load {os.getloadavg()[0]:.1f}, {os.cpu_count()} processors")
    server = Server(asked.archive, db, 1_000_000, SAMPLES / "members.toml", "2099-01-01")
    to = Searching(folder / "index", server.port)
    print(f"the archive's first page of threads {page_of(server) * 1000:.0f} ms, then {milliseconds([page_of(server) for _ in range(asked.rounds)])}")
    took, _ = to.settled(question("kernel"))
    index = folder / "index" / "long"
    print(f"the first index {took:.1f} s; segments {size_of([*index.glob('*.seg')])}, texts {size_of([*index.glob('texts*/*/*')])}")
    for words in QUESTIONS:
        took = [to.asked(question(words)) for _ in range(asked.rounds)]
        print(f"  {words:22} {milliseconds([it[0] for it in took])}  {re.search(rb'<h1>long: (.*?)</h1>', took[0][2])[1].decode()}")
    print(f"the service has {memory_of(to.process.pid):.0f} MB at most")
    withdraw(asked, db, server, to)
    to.stop()
    if asked.others:
        others(box, folder, asked.rounds)


def memory_of(process):
    said = pathlib.Path(f"/proc/{process}/status").read_text()
    return int(re.search(r"VmHWM:\s+(\d+)", said)[1]) / 1000


def withdraw(asked, db, server, to):
    """One message of the middle is withdrawn, and then a hundred; the next server is asked for its page first."""
    with server.connect() as peer:
        peer.sendall(get("/l/long/threads"))
        keys = re.findall(rb'/m/([0-9a-f]{64})"', heard(peer))
    one = keys[len(keys) // 2]
    for count, gone in ((1, [one]), (100, [it for it in keys[::max(1, len(keys) // 102)] if it != one][:100])):
        server.process.kill()
        server.process.wait()
        for key in gone:
            archive(asked.archive, "withdraw", "--db", db, "long", key.decode(), "author")
        server = Server(asked.archive, db, 1_000_000, SAMPLES / "members.toml", "2099-01-01", server.port)
        first = page_of(server)
        took, _ = to.settled(question("kernel"))
        print(f"{count} withdrawn: the archive's first page {first * 1000:.0f} ms, then the first search {took * 1000:.0f} ms, the next {to.asked(question('kernel'))[0] * 1000:.0f} ms")
    server.process.kill()
    server.process.wait()


def times(asked, folder):
    """A word of a withheld message and words of none."""
    db, box = folder / "small.db", folder / "small.mbox"
    secret = b"From eve@example.net Mon Mar 18 08:00:00 2024\nFrom: eve@example.net\nSubject: quagga\nMessage-ID: <q@x>\nDate: Mon, 11 Mar 2024 10:05:30 +0000\n\nThe quagga is a thylacine.\n"
    box.write_bytes((SAMPLES / "seeds.mbox").read_bytes() + secret)
    key = hashlib.sha256(secret.partition(b"\n")[2]).hexdigest()
    for words in (("list-add", "long"), ("import", "long", box), ("withdraw", "long", key, "author"), ("person-add", "mo", MODERATOR), ("grant", "mo", "long", "moderator", "2000-01-01", "2099-12-31")):
        archive(asked.archive, words[0], "--db", db, *words[1:])
    server = Server(asked.archive, db, 1_000_000)
    to = Searching(folder / "small", server.port)
    if key.encode() not in to.settled(question("thylacine"), MODERATOR)[1]:
        sys.exit("the moderator does not find the message")
    to.settled(question("thylacine"))
    took, chance = {"thylacine": [], "quagga": [], "thylacyne": [], "quoggo": [], "zebroid": []}, random.Random(5)
    for _ in range(asked.words):
        for word in chance.sample([*took], len(took)):
            took[word].append(to.asked(question(word))[0])
    print(f"words of a withheld message (thylacine, quagga) and of none, medians of {asked.words}: " + ", ".join(f"{word} {statistics.median(it) * 1000:.3f} ms" for word, it in took.items()))
    to.stop()
    server.process.kill()
    server.process.wait()


# ---- beside others

def others(box, folder, rounds):
    maildir = folder / "maildir"
    if shutil.which("notmuch"):
        notmuch(box, maildir, rounds)
    else:
        print("notmuch is not on this machine")
    with contextlib.suppress(ImportError):
        sys.path.append("/usr/lib/python3/dist-packages")
        import xapian
        xapian_of(xapian, box, folder / "xapian", rounds)


def notmuch(box, maildir, rounds):
    to = mailbox.Maildir(maildir)
    for it in mailbox.mbox(box):
        to.add(it)
    environment = {**os.environ, "NOTMUCH_CONFIG": str(maildir.parent / "notmuch.conf")}
    (maildir.parent / "notmuch.conf").write_text(f"[database]\npath={maildir}\n[user]\nname=a\nprimary_email=a@example.org\n")
    begun = time.perf_counter()
    subprocess.run(["notmuch", "new", "--quiet"], env=environment, check=True, stdout=subprocess.DEVNULL, stderr=subprocess.DEVNULL)
    took = time.perf_counter() - begun
    print(f"notmuch: index {took:.1f} s, {size_of([it for it in (maildir / '.notmuch').rglob('*') if it.is_file()])}")
    for words in OTHERS:
        times_of = []
        for _ in range(rounds):
            begun = time.perf_counter()
            found = subprocess.run(["notmuch", "search", "--output=messages", "--sort=newest-first", words.replace(" OR ", " or ")], env=environment, check=True, stdout=subprocess.PIPE).stdout
            times_of.append(time.perf_counter() - begun)
        print(f"  {words:22} {milliseconds(times_of)}  {len(found.splitlines())} messages")


def xapian_of(xapian, box, folder, rounds):
    """The words of each message, as the service indexes them, in Xapian."""
    sys.path[:0] = [str(SAMPLES / "search"), str(SAMPLES)]
    from archive_search import message
    import mbox
    with open(box, "rb") as lines:
        said = [message.read(text) for _, _, text in mbox.messages(lines)]
    begun = time.perf_counter()
    to = xapian.WritableDatabase(str(folder), xapian.DB_CREATE_OR_OVERWRITE)
    generator = xapian.TermGenerator()
    generator.set_stemmer(xapian.Stem("en"))
    for subject, author, text, _, _ in said:
        document = xapian.Document()
        generator.set_document(document)
        for it, prefix in ((subject, "S"), (author, "A"), (f"{subject} {author} {text}", "")):
            generator.index_text(it, 1, prefix)
        to.add_document(document)
    to.commit()
    to.close()
    print(f"Xapian: index {time.perf_counter() - begun:.1f} s without the reading of messages, {size_of([*folder.iterdir()])}")
    found_in, parser = xapian.Database(str(folder)), xapian.QueryParser()
    parser.set_stemmer(xapian.Stem("en"))
    parser.set_stemming_strategy(xapian.QueryParser.STEM_SOME)
    parser.set_default_op(xapian.Query.OP_AND)
    for words in OTHERS:
        took = []
        for _ in range(rounds):
            begun = time.perf_counter()
            enquire = xapian.Enquire(found_in)
            enquire.set_query(parser.parse_query(words))
            count = sum(1 for _ in enquire.get_mset(0, found_in.get_doccount()))
            took.append(time.perf_counter() - begun)
        print(f"  {words:22} {milliseconds(took)}  {count} messages")


def main():
    words = argparse.ArgumentParser(description=__doc__, formatter_class=argparse.RawDescriptionHelpFormatter)
    words.add_argument("--archive", default=ROOT / "crates" / "archive" / "out" / "archive")
    words.add_argument("--messages", default=50_000, type=int)
    words.add_argument("--rounds", default=9, type=int)
    words.add_argument("--words", default=2500, type=int)
    words.add_argument("--others", action="store_true")
    asked = words.parse_args()
    with tempfile.TemporaryDirectory() as folder:
        measure(asked, pathlib.Path(folder))
        times(asked, pathlib.Path(folder))


if __name__ == "__main__":
    main()
