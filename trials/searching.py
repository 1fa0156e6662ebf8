#!/usr/bin/env python3
"""searching.py: samples/search over a served archive: what each reader finds, messages withheld in six ways, attacks, kills, copies, browsers.

  trials/searching.py [--archive PROGRAM] [--messages COUNT] [--only PARTS] [--pictures FOLDER]

A message is withheld in one archive and never came to another one: what readers who may not read it are answered has to be the same, byte
for byte, and so have the files of their index. The part `planted` puts wrong functions into the service, and fails if the trial does not
find one of them. COUNT is how many messages the large list has (12,000). It wants curl; nginx and openssl, chromium and firefox-esr,
haproxy, and skips what one that is not there would try. The last line is 'N passed, N failed, N skipped'.
"""
import concurrent.futures, os, pathlib, random, re, shutil, signal, socket, sqlite3, subprocess, sys, tempfile, threading, time, xml.etree.ElementTree

from trial import SAMPLES, Trial, begun, free_ports, words_of
from reading_site import mbox_of
from letters import LETTERS
from searching_site import KEY, MEMBER, MODERATOR, SECRET, SEEDS, Archive, Searching, bearer, files_of, said, segments_of, service_of, status_of, url, with_secret
from searching_pages import behind_nginx
from searching_withheld import changes, many_withheld, planted, told_times, withheld
from archive_search import asking, index, message, query
import mbox

ATTACKS = ['"', '""', '")', "') OR 1=1 --", "text:seed", "{text}:seed", "NEAR(seed leek)", "seed NOT leek", "^seed", "seed + leek", "*", "**", "-", "--", "-*", "OR", "OR OR", "AND",
           "s:", 's:"', "seed*seed", "seed\0leek", "%00", "\ud7ff\ue000", "\U0010ffff", "(" * 300, "a " * 190, "a* " * 60, '"a' * 100, "d:9999-99-99..", "d:..", "d:2024-13..2024-00",
           "<script>alert(1)</script>", '"><img src=x onerror=alert(1)>', "' onfocus=alert(1) autofocus='", "x" * 5000, "\u202eseed", "s:f:b:q:seed", "t MATCH x", "rowid", "'; drop table t; --"]
PIECES = ['"', "*", "-", "(", ")", "{", "}", ":", "^", "+", " ", " ", "  ", "a", "hello", "OR", "AND", "NOT", "NEAR", "s:", "f:", "q:", "b:", "d:", "..", "2003", "-01", "日", "日本", "ß", "İ", "\0", "\\", "'", ";",
          "\ufffd", "\u200d", "e\u0301", "٣", "𠀀", "ก", "한", "\n", "text", "rowid", "🙂", ",", ".", "/", "%", "_"]
ELEMENTS = rb"<(?!/?(?:div|a|span|mark|form|input|label|button|h1|nav|html|head|title|body|meta|dl|dt|dd|p|!DOCTYPE)\b)[^>]{0,40}"


def heading(body):
    found = re.search(rb"<h1>(.*?)</h1>", body)
    return found[1].decode() if found else body[:80].decode(errors="replace")


def by_chance(trial, count=20_000):
    """Questions made by chance: FTS5 takes each of them."""
    table, chance, faults, taken = sqlite3.connect(":memory:"), random.Random(3), [], 0
    table.executescript(index.TABLES)
    for _ in range(count):
        asked = "".join(chance.choice(PIECES) for _ in range(chance.randint(1, 14)))
        try:
            if match := query.Query(asked, chance.random() < 0.5).match:
                taken += 1
                table.execute("select rowid from t where t match ?", (match,)).fetchall()
        except query.Unclear:
            pass
        except sqlite3.Error as fault:
            faults.append((asked, str(fault)))
    trial.check(f"by chance: of {count} questions {taken} were asked, and these could not be", faults[:3], [])


def hard_messages(trial):
    """Messages that would take a time that grows with the square: each is read within seconds."""
    parts = b"--b\nContent-Type: text/plain" + b';a="' * 1990 + b"\n\nx\n"
    nested = b"x"
    for it in range(25):
        nested = b"Content-Type: multipart/mixed; boundary=b%d\n\n--b%d\n" % (it, it) + nested
    hard = {"marks": b"Subject: x\n\n" + ("\u0301\u0316" * 100_000).encode(), "parameters": b"Content-Type: multipart/mixed; boundary=b\n\n" + parts * 240,
            "delimiters": b"Content-Type: multipart/mixed; boundary=a\n\n" + b"--a\n" * 500_000, "encoded words": b"Subject: " + b"=?a?q?" * 1300 + b"\n\n",
            "tags": b"Content-Type: text/html\n\n" + b"<p" * 900_000, "nested": nested + b"\n" + b"-" * 1_900_000, "escapes": b"Content-Type: text/html\n\n" + b"&" * 1_900_000}
    took = {}
    for name, raw in hard.items():
        begin = time.monotonic()
        message.as_indexed(message.read(raw)[2])
        took[name] = round(time.monotonic() - begin, 1)
    trial.holds("hard messages: each is read within ten seconds", max(took.values()) < 10, str(took))


def attacks(trial, program, folder):
    """Questions that would be something else; requests that are not valid; tokens."""
    by_chance(trial)
    hard_messages(trial)
    broken_off(trial)
    of = Archive(program, pathlib.Path(folder) / "attacks", SEEDS)
    with of.served():
        to = Searching(of.folder / "index", of.port)
        to.settled(url("seed"))
        found = {it: to.settled(url(it)) for it in ATTACKS}
        trial.check("attacks: each question has a page", {status for status, _, _ in found.values()}, {200})
        harmful = rb"<script|<img|onfocus=alert[^&]*autofocus='[^&]|onerror=alert\(1\)>"
        trial.check("attacks: no text of a question is HTML", [it for it, (_, _, body) in found.items() if re.search(harmful, body)], [])
        trial.check("attacks: what FTS5 would take for more finds what its words find", [heading(found[it][2]) for it in ("text:seed", "{text}:seed", "'; drop table t; --")], ["seeds: no message"] * 3)
        paths = ("/", "/l/seeds/", "/l/seeds/searches", "/l/Seeds/search?q=x", "/l/../etc/passwd", "/l/nope/search?q=x", "/l/nope/feed", "/l/nope/search", "/l/seeds/id/", "/l/seeds/id/" + "x" * 2000,
                 "/l/seeds/id/a/b", "/l/seeds/id/%2e%2e%2f", "/l/seeds/id/%00", "/l/seeds/id/%ff")
        trial.check("attacks: paths that are not valid", [to.get(it)[0] for it in paths], [404] * len(paths))
        trial.check("attacks: tokens", [to.get(url("seed"), "-H", f"Authorization: {it}")[0] for it in ("Bearer nobodys-token-at-all", "Basic eDp5", "Bearer", "Bearer a b", f"Bearer {MODERATOR}\tx")] +
                    [to.get(url("seed"), "-H", "Authorization: Bearer x", "-H", "Authorization: Bearer y")[0], to.get(url("seed"), *bearer(MODERATOR))[0]], [401, 401, 401, 401, 401, 400, 200])
        trial.check("attacks: methods", [to.get(url("seed"), "-X", it)[0] for it in ("POST", "PUT", "HEAD")], [501] * 3)
        trial.check("attacks: pages past the end", [to.get(url("seed") + f"&o={it}")[0] for it in ("9999999", "-1", "1e9", "x" * 100, "%D9%A3")], [200] * 5)
        trial.check("attacks: a head that is too large", to.get(url("seed"), "-H", "X: " + "y" * 70_000)[0], 431)
        refused(trial, to)
        modes = [it.stat().st_mode & 0o77 for it in (of.folder / "index", *(of.folder / "index").rglob("*"))]
        trial.check(f"attacks: {len(modes)} files and folders of the index are nobody else's", set(modes), {0})
    status, head, body = to.get(url("seed"))
    trial.check("attacks: no archive is served", (status, b"Retry-After: 2" in head, b"The archive is being opened" in body), (503, True, True))
    to.kill()
    trial.check("attacks: what it said on standard error", (of.folder / "search.log").read_text(), "")


def broken_off(trial):
    """A page that breaks off is not taken for a shorter one."""
    with socket.create_server(("127.0.0.1", 0)) as listening:
        def answer():
            peer, _ = listening.accept()
            peer.recv(4096)
            peer.sendall(b"HTTP/1.1 200 OK\r\nContent-Length: 1000\r\n\r\n<html>")
            peer.close()
        threading.Thread(target=answer, daemon=True).start()
        try:
            found = asking.Archive(listening.getsockname()).get("/l/seeds/threads")
        except asking.Waiting:
            found = "it is waited for"
        trial.check("attacks: a page that breaks off", found, "it is waited for")


def refused(trial, to):
    """Words that the command refuses, each with its status and one line."""
    base = to.words[:2]
    ended = [subprocess.run([*base, *words], stdout=subprocess.PIPE, stderr=subprocess.PIPE, text=True, timeout=20, check=False) for words in (
        ["--folder", to.folder, "--port", "0"], ["--folder", "/dev/null/x"], ["--folder", to.folder.parent / "other", "--port", str(to.port)], [], ["--folder", "x", "--archive", "8080"],
        ["--folder", "x", "--port", "99999"], ["--folder", "x", "--site", "lists.example.org"], ["--help"])]
    trial.check("attacks: the folder of another service, no folder, a port that is taken, and words that are wrong", [it.returncode for it in ended], [1, 1, 1, 2, 2, 2, 2, 0])
    trial.holds("attacks: each says why", all("Traceback" not in it.stderr and (it.stderr or it.stdout) for it in ended), ended[0].stderr.strip()[-60:])


def full(trial, program, folder):
    """No file can grow: it says 503, and goes on when there is room."""
    of = Archive(program, pathlib.Path(folder) / "full", SEEDS)
    with of.served():
        to = Searching(of.folder / "index", of.port)
        to.kill()
        words, to.words = to.words, ["bash", "-c", 'ulimit -f 16; exec "$@"', "bash", *to.words]
        to.begin()
        trial.check("full: what cannot be made is said to be not there", [to.get(url("seed"))[0] for _ in range(3)], [503] * 3)
        trial.check("full: what needs no index goes on", to.get("/l/seeds/feed")[0], 200)
        to.kill()
        to.words = words
        to.begin()
        trial.check("full: with room it is made", (to.settled(url("seed"), seconds=20)[0], [it for it in files_of(of.folder / "index/seeds") if ".new" in it]), (200, []))
        to.kill()


def letters(trial, program, folder):
    """Messages that are meant to harm, and messages of all charsets: each is found by its subject or text, and nothing of it is HTML."""
    those = [it for it in LETTERS if len(it.text) < 15_000_000]
    of = Archive(program, pathlib.Path(folder) / "letters", mbox_of(it.text for it in those))
    with of.served():
        to = Searching(of.folder / "index", of.port)
        begin = time.monotonic()
        trial.check("letters: they are taken in", to.settled(url("d:1900..9998"))[0], 200)
        print(f"       {len(those)} letters in {time.monotonic() - begin:.1f} s")
        pages = [to.get(url("d:1900..9998") + f"&o={it}")[2] for it in range(0, len(those), 25)]
        trial.check("letters: all are listed", sum(it.count(b'<div class="d0">') for it in pages), len(those))
        trial.check("letters: no element but those of the page", [it for page in pages for it in re.findall(ELEMENTS, page)], [])
        unfound = [word for word in ("Привет", "größe", "会議", "資料", "明日", "開會", "你好", "שלום", "회의") if heading(to.get(url(word))[2]) == "seeds: no message"]
        trial.check("letters: words of nine scripts that are not found", unfound, [])
        trial.holds("letters: the feed is XML", xml.etree.ElementTree.fromstring(to.get("/l/seeds/feed")[2]).tag == "{http://www.w3.org/2005/Atom}feed")
        to.kill()


def large_box(count):
    words = ["ant", "bee", "cow", "dog", "elk"]
    months = ("Jan", "Feb", "Mar", "Apr", "May")
    return mbox_of(f"From: a{at % 97}@example.org\nSubject: number {at}\nMessage-ID: <n{at}@x>\nDate: {1 + at % 28} {months[at * 5 // count]} 2023 10:{at % 60:02}:00 +0000\n\n"
                   f"common {words[at % 5]} text{at}\nFrom here on it is text\n".encode() for at in range(count))


def large(trial, program, folder, count):
    """A large list: the service is killed while it makes the index; ten thousand hits; damaged files; two messages are withdrawn."""
    here, box = pathlib.Path(folder) / "large", large_box(count)
    of = Archive(program, here, box)
    keys = [mbox.key_of(text) for _, _, text in mbox.messages(box.splitlines(True))]
    for it in ("index", "never"):
        with_secret(here / it, "seeds")
    with of.served():
        to = Searching(here / "index", of.port)
        killed_at_times(trial, to, here)
        trial.check(f"large: {count} hits", heading(to.settled(url("common"))[2]), f"seeds: 1 to 25 of {count} messages")
        never = Searching(here / "never", of.port)
        progress_is_told(trial, never)
        never.settled(url("common"))
        never.kill()
        one, other = files_of(here / "index/seeds"), files_of(here / "never/seeds")
        trial.holds("large: the files are those of an index that was never killed", one == other, f"{len(other)} files, {sum(map(len, other.values())) / 1e6:.1f} MB")
        trial.check("large: the last page", heading(to.get(url("common") + f"&o={count - 10}")[2]), f"seeds: {count - 9} to {count} of {count} messages")
        fifth = f"of {count // 5} messages"
        trial.check("large: one of five, and one", [re.search(r"of \d+ messages|1 message", heading(to.get(url(it))[2]))[0] for it in ("elk", "text77", "elk common", '"common elk"', "common -elk")],
                    [fifth, "1 message", fifth, fifth, f"of {count - count // 5} messages"])
        took = []
        for _ in range(5):
            begin = time.monotonic()
            to.get(url("common"))
            took.append(time.monotonic() - begin)
        print(f"       a search with {count} hits: {sorted(took)[2] * 1000:.0f} ms, curl and the archive's page of threads in it")
        to.kill()
        damaged = [f"text{keys.index(it)}" for it in damage(here / "index/seeds")]
        to.begin()
        trial.check("large: files that are damaged or gone are made again", heading(to.settled(url("common"), seconds=60)[2]), f"seeds: 1 to 25 of {count} messages")
        trial.check("large: so are texts", [f"<mark>{it}</mark>".encode() in to.settled(url(it), seconds=20)[2] for it in damaged], [True] * 3)
        segments = {*segments_of(here / "index/seeds")}
    withdrawn_of_many(trial, of, to, keys, segments)
    to.kill()


def killed_at_times(trial, to, here):
    """The service is killed eleven times while it makes an index, and a search waits for it."""
    left = []
    for wait in (0.05, 0.1, 0.2, 0.3, 0.4, 0.6, 0.8, 1.2, 1.6, 2.4, 3.2):
        asking_ = subprocess.Popen(["curl", "-s", "-o", os.devnull, f"http://127.0.0.1:{to.port}{url('common')}"])
        time.sleep(wait)
        to.kill()
        asking_.wait()
        names = [it.name for it in (here / "index/seeds").rglob("*")]
        left.append((sum(len(it) == 64 for it in names), sum(it.endswith(".seg") for it in names), sum(".new" in it for it in names)))
        to.begin()
    print(f"       texts, segments, and files that were half made, at each kill: {left}")
    to.settled(url("common"))
    trial.check("large: nothing is left of what was broken off", [it for it in files_of(here / "index/seeds") if ".new" in it], [])


def progress_is_told(trial, to):
    """While an index is made, a reader is told how far it is."""
    status, head, body = to.get(url("common"))
    if status == 200:
        return trial.skip("large: progress", "the index was made within two seconds")
    told = re.search(rb"of ([\d,]+) messages that are new to it, ([\d,]+) are read and ([\d,]+) are indexed", body)
    is_told = status == 503 and b"Retry-After: 3" in head and b"Refresh: 3" in head and told and told[1] > b"0"
    trial.holds("large: a reader is told how far the index is", is_told, told[0].decode() if told else body[:300])


def damage(folder):
    """Damages or removes four segments and three texts; returns the keys of the texts."""
    segments, texts = sorted(folder.glob("*.seg")), sorted(folder.glob("texts*/*/*"))
    segments[0].write_bytes(segments[0].read_bytes()[:3000])
    segments[1 % len(segments)].write_bytes(b"")
    segments[-2].write_bytes(b"x" * 50_000)
    segments[-1].unlink(missing_ok=True)
    texts[0].write_bytes(b"")
    texts[1].write_bytes(texts[1].read_bytes()[:20])
    texts[2].unlink()
    return [it.name for it in texts[:3]]


def withdrawn_of_many(trial, of, to, keys, before):
    count = len(keys)
    of.tell("withdraw", "seeds", keys[count // 2], "author")
    with of.served():
        to.settled(url("nothing"))  # (the archive makes its page of threads again)
    of.tell("withdraw", "seeds", keys[count // 3], "board")
    with of.served():
        to.get("/l/seeds/feed")
        begin = time.monotonic()
        reply = to.settled(url(f"text{count // 3}"))
        print(f"       the first search after a withdrawal: {(time.monotonic() - begin) * 1000:.0f} ms")
        trial.check("large: what is withdrawn is not found", heading(reply[2]), "seeds: no message")
        trial.check("large: and not counted", heading(to.get(url("common"))[2]), f"seeds: 1 to 25 of {count - 2} messages")
        new = {*segments_of(to.folder / "seeds")} - before
        trial.holds("large: two messages were withdrawn, and at most four segments made again", len(new) <= 4, str(len(new)))


# ---- killed at every step

def killed(trial, program, folder):
    """A process that makes an index is killed at each of its steps: the next one answers as if it had not been, and its files are the same."""
    here = pathlib.Path(folder) / "killed"
    box = b"".join(separator + text + b"\n" for _, separator, text in [*mbox.messages(SEEDS.splitlines(True))][:12])
    of = Archive(program, here, box)
    with of.served():
        steps = steps_until_killed(of, here / "whole", 10**9)
        wanted = [said(service_of(of, here / "whole"), None, "seeds", it) for it in ({"q": "seed"}, {"q": "d:2024"})]
        files, wrong = files_of(here / "whole/seeds"), []
        for step in range(1, steps + 1):
            there = here / f"step{step}"
            steps_until_killed(of, there, step)
            to = service_of(of, there)
            if [said(to, None, "seeds", it) for it in ({"q": "seed"}, {"q": "d:2024"})] != wanted or files_of(there / "seeds") != files:
                wrong.append(step)
            to.only.close()
            shutil.rmtree(there)
    trial.holds("killed at every step: the next process makes the same", steps > 100 and not wrong, f"{steps} steps, {len(files)} files; not the same after {wrong[:9]}")


def steps_until_killed(of, folder, last):
    """Has a child make the index and be killed at its step of that number; returns how many steps it made, if it came to the end."""
    heard, told = os.pipe()
    if (child := os.fork()) == 0:
        os.close(heard)
        steps_of_child(of, folder, last, told)
    os.close(told)
    os.waitpid(child, 0)
    with os.fdopen(heard) as said_by_child:
        return int(said_by_child.read() or 0)


def steps_of_child(of, folder, last, told):
    """Never returns. A step is a file that is opened, renamed or removed, a folder that is made, a flush to the disk, and a text that is indexed."""
    made = [0]

    def step(*_):
        made[0] += 1
        if made[0] >= last:
            os.kill(os.getpid(), signal.SIGKILL)

    def audited(event, values):
        if event in ("open", "os.rename", "os.remove", "os.mkdir", "os.utime", "sqlite3.connect") and str(folder) in str(values[0]):
            step()

    sync, indexed = index.sync, message.as_indexed
    index.sync = lambda path: (step(), sync(path), step())
    message.as_indexed = lambda *words, **more: (step(), indexed(*words, **more))[1]
    sys.addaudithook(audited)
    try:
        said(service_of(of, folder), None, "seeds", {"q": "seed"})
        os.write(told, str(made[0]).encode())
    finally:
        os._exit(0)


# ---- many lists, many readers, copies

def lists(trial, program, folder):
    """Six lists are searched for the first time at once, by three readers each; each is answered by its own."""
    of = Archive(program, pathlib.Path(folder) / "lists", SEEDS + SECRET)
    names = ["seeds", *(f"list-{it}" for it in range(5))]
    for at, name in enumerate(names[1:]):
        of.add(name, SEEDS + SECRET.replace(b"thylacine", b"thylacine%d" % at))
    of.tell("withdraw", "seeds", KEY, "board")
    with of.served():
        to = Searching(of.folder / "index", of.port)
        asked = [(name, token, word) for name in names for token in (None, MEMBER, MODERATOR) for word in ("thylacine*", "seed")]
        with concurrent.futures.ThreadPoolExecutor(12) as pool:
            found = [*pool.map(lambda it: heading(to.settled(url(it[2], it[0]), *(bearer(it[1]) if it[1] else []), seconds=120)[2]), asked)]
        wrong = [(it, said_) for it, said_ in zip(asked, found) if it[2] == "thylacine*" and said_ != f"{it[0]}: {'no' if it[0] == 'seeds' and it[1] != MODERATOR else '1'} message"]
        trial.check(f"lists: of {len(asked)} searches of six lists at once these are wrong", wrong, [])
        trial.check("lists: a search of many replies", {it.partition(": ")[2] for (_, _, word), it in zip(asked, found) if word == "seed"}, {"12 messages", "13 messages"})
        to.kill()
        trial.check("lists: what it said on standard error", (of.folder / "search.log").read_text(), "")


def warmed(trial, program, folder):
    """The service asks for what the public is shown by itself: the first reader finds an index."""
    of = Archive(program, pathlib.Path(folder) / "warmed", SEEDS)
    with of.served():
        to = Searching(of.folder / "index", of.port, "--warm", "1")
        end = time.monotonic() + 30
        while not segments_of(of.folder / "index/seeds") and time.monotonic() < end:
            time.sleep(0.1)
        time.sleep(1)
        trial.check("warmed: the first search finds an index", (to.get(url("seed"))[0], heading(to.get(url("seed"))[2])), (200, "seeds: 12 messages"))
    time.sleep(2)
    trial.check("warmed: no archive", to.get(url("seed"))[0], 503)
    with of.served():
        trial.check("warmed: the next server", to.settled(url("seed"), seconds=30)[0], 200)
    to.kill()


def copies(trial, program, folder):
    """HAProxy by samples/scale before two copies, of which one lags behind a withdrawal: each search is that of one copy, whole."""
    here = pathlib.Path(folder) / "copies"
    mark = "mark.000000000001"
    both = [Archive(program, here / it, SEEDS + SECRET) for it in ("old", "new")]
    for it in both:
        it.tell("person-add", "at-1", mark)
    both[1].tell("withdraw", "seeds", KEY, "author")
    (port,), other = free_ports(1), free_ports(2)
    (here / "shards").write_text(f"ash one 127.0.0.1:{both[0].port} 127.0.0.1:{other[0]} seeds\nash two 127.0.0.1:{both[1].port} 127.0.0.1:{other[1]}\n")
    front = [sys.executable, str(SAMPLES / "scale" / "front.py"), str(here / "shards"), str(here / "haproxy"), "--port", str(port), "--socket", str(here / "haproxy.sock")]
    subprocess.run(front, check=True)
    (here / "haproxy/marks.map").write_text(f"ash-a {mark}\nash-b {mark}\n")
    with both[0].served(), both[1].served():
        haproxy = begun(subprocess.Popen(["haproxy", "-f", str(here / "haproxy/haproxy.cfg")], stdout=subprocess.DEVNULL, stderr=subprocess.DEVNULL))
        end = time.monotonic() + 20
        while status_of(port, "/l/seeds/threads") != 200 and time.monotonic() < end:
            time.sleep(0.2)
        ready = [Searching(here / f"index{it.port}", it.port) for it in both]
        wanted = [it.settled(url("thylacine OR slugs"))[2] for it in ready]
        to = Searching(here / "index", port)
        replies = [to.settled(url("thylacine OR slugs"))[2] for _ in range(40)]
        trial.check("copies: of 40 searches those that are of neither copy", [it for it in replies if it not in wanted], [])
        trial.check("copies: both copies were searched", {wanted.index(it) for it in replies}, {0, 1})
        trial.check("copies: links by Message-ID", {to.settled("/l/seeds/id/quagga@example.net")[0] for _ in range(12)}, {302, 404})
        for it in (*ready, to):
            it.kill()
        haproxy.kill()
        haproxy.wait()


def rounds(trial, program, folder):
    """keep.sh withdraws, restores and withdraws a message while somebody searches all the time: when the archive denies it, no search that begins later shows it."""
    of = Archive(program, pathlib.Path(folder) / "rounds", SEEDS + SECRET)
    (of.folder / "policy.toml").write_bytes((SAMPLES / "members.toml").read_bytes().replace(b"age_min = 10", b"age_min = 0"))
    keeper = begun(subprocess.Popen([str(SAMPLES / "keep.sh"), str(of.folder), str(of.port)], env={**os.environ, "ARCHIVE": str(program)}, start_new_session=True,
                                    stdout=subprocess.DEVNULL, stderr=subprocess.DEVNULL), group=True)
    to = Searching(of.folder / "index", of.port)
    to.settled(url("thylacine"))
    looks, wrong, seen = 0, [], []
    for command in (f"withdraw seeds {KEY} author", f"restore seeds {KEY}", f"withdraw seeds {KEY} board"):
        wanted, status = ("seeds: no message", 403) if command.startswith("w") else ("seeds: 1 message", 200)
        (of.folder / ".commands").write_text(command + "\n")
        (of.folder / ".commands").rename(of.folder / "commands")
        begin = time.monotonic()
        while time.monotonic() < begin + 60:
            before = status_of(of.port, f"/l/seeds/m/{KEY}")
            found, _, body = to.get(url("thylacine"))
            linked = to.get("/l/seeds/id/quagga@example.net")[0]
            after = status_of(of.port, f"/l/seeds/m/{KEY}")
            looks += 1
            is_found = heading(body) == "seeds: 1 message"
            if found == 200 and before == after and before in (200, 403) and (is_found != (before == 200) or linked not in (302 if before == 200 else 404, 503)):
                wrong.append((before, after, linked, body[-200:]))
            if found == 200 and heading(body) == wanted and before == status:
                seen.append(round(time.monotonic() - begin, 1))
                break
    trial.check(f"rounds: of {looks} searches beside keep.sh those that did not agree with the archive", wrong, [])
    trial.check("rounds: three changes were seen, after so many seconds", (len(seen), seen), (3, seen))
    to.kill()
    os.killpg(keeper.pid, signal.SIGTERM)


def timed(trial, program, folder):
    """How long words take (told, not judged)."""
    of = Archive(program, pathlib.Path(folder) / "timed", SEEDS + SECRET)
    of.tell("withdraw", "seeds", KEY, "author")
    with of.served():
        to = service_of(of, of.folder / "index")
        trial.holds("timed: the moderator's search comes first", KEY.encode() in said(to, MODERATOR, "seeds", {"q": "thylacine"}))
        told_times(to)


PARTS = {it.__name__: it for it in (withheld, many_withheld, changes, timed, planted, killed, attacks, full, letters, large, lists, warmed, copies, rounds, behind_nginx)}
WANTS = {"copies": ("haproxy",), "behind_nginx": ("nginx", "openssl")}


def main():
    only = {"default": ",".join(PARTS), "help": f"of {', '.join(PARTS)}, with commas between"}
    asked = words_of(__doc__, messages={"type": int, "default": 12_000}, only=only, pictures={"help": "a folder for what the browser draws"})
    index.SIZE = 8  # (in this process: so that forty messages are some segments)
    more = {"large": (asked.messages,), "behind_nginx": (asked.pictures,)}
    with tempfile.TemporaryDirectory() as folder, Trial() as trial:
        if not trial.has("curl"):
            return
        for name, part in PARTS.items():
            if name in asked.only.split(",") and all([trial.has(it) for it in WANTS.get(name, ())]):
                part(trial, asked.archive, folder, *more.get(name, ()))


if __name__ == "__main__":
    main()
