#!/usr/bin/env python3
"""clients.py: programs that people have, on what the archive gives; each says what it counted.

  trials/clients.py [--archive PROGRAM] [--messages COUNT] [--pictures FOLDER]

The sample list of forty mails, one of them withdrawn, and a list of COUNT (3,000): stock sqlite3 checks and counts the file; Python's
mailbox, formail, mutt, git and notmuch count the export of the long list, and formail and Python read the fields of each mail;
git applies a patch that lay in a list; curl asks a server for each kind of page, with a token and without; a headless browser counts
the rows and follows the links of the pages, and with --pictures draws them. A program that is not there is skipped. The last line
is 'N passed, N failed, N skipped'.
"""
import contextlib, hashlib, mailbox, os, pathlib, re, sqlite3, subprocess, sys, tempfile

from trial import ROOT, SAMPLES, Browser, Server, Trial, output, words_of
from serving import DAY, archive, make_archive
import mbox

TOKEN = "0123456789abcdef"
POLICY = SAMPLES / "seeds.toml"
PATCH = """From ada@garden.example Mon Mar  4 10:00:00 2024
From: Ada Birch <ada@garden.example>
Date: Mon, 4 Mar 2024 11:00:00 +0100
Subject: [PATCH] pump: open the valve
Message-ID: <patch@garden.example>

It stood still without.
---
diff --git a/pump.txt b/pump.txt
index 1111111..2222222 100644
--- a/pump.txt
+++ b/pump.txt
@@ -1 +1,2 @@
+valve: open
 pump: on
--
2.43.0

"""


def key_of(path, subject):
    """The key of the first message with that subject."""
    with open(path, "rb") as lines:
        return next(mbox.key_of(text) for _, _, text in mbox.messages(lines) if f"\nSubject: {subject}\n".encode() in text)


def exported(program, db, name, folder):
    file = pathlib.Path(folder) / f"{name}.mbox"
    file.write_bytes(archive(program, "export", "--db", db, "--policy", POLICY, "--day", DAY, name))
    return file


def stock_sqlite(trial, db):
    if trial.has("sqlite3"):
        for what, question, wanted in (
                ("integrity_check", "PRAGMA integrity_check", "ok"), ("foreign_key_check", "PRAGMA foreign_key_check", ""),
                ("messages", "SELECT count(*) FROM message", "40"), ("withdrawn", "SELECT count(*) FROM message WHERE withdrawn > 0", "1")):
            trial.check(f"sqlite3: {what}", output("sqlite3", "-init", "/dev/null", db, question), wanted)
    with contextlib.closing(sqlite3.connect(db)) as stock:
        stock.create_function("sha256", 1, lambda text: hashlib.sha256(text).hexdigest())
        wrong = stock.execute("SELECT count(*) FROM message WHERE key <> sha256(text)").fetchone()[0]
    trial.check("Python's sqlite3: keys that are not the digest of their text", wrong, 0)


def keys_agree(trial, db, file, name):
    """samples/mbox.py, which cuts by docs/MBOX.md itself, against the keys in the tables."""
    with contextlib.closing(sqlite3.connect(db)) as stock:
        stored = [it[0] for it in stock.execute("SELECT key FROM message WHERE list = ? ORDER BY pos", [name])]
    with open(file, "rb") as lines:
        found = [mbox.key_of(text) for _, _, text in mbox.messages(lines)]
    trial.holds(f"samples/mbox.py: keys of the export of {name}, in order", found == stored, len(found))


def mutt_count(file):
    """How many messages mutt shows in its last line: it draws on a terminal of its own."""
    rules = file.parent / "muttrc"
    rules.write_text(f"set folder='{file.parent}'\nset quit=yes\npush <quit>\n")
    words = f"mutt -n -R -F '{rules}' -f '{file}'"
    try:
        screen = output("script", "-qec", words, "/dev/null", stdin=subprocess.DEVNULL, timeout=120, env={**os.environ, "TERM": "xterm"})
    except subprocess.TimeoutExpired as waited:
        return f"it waits: {(waited.stdout or b'')[-200:]!r}"
    return max((int(count) for count in re.findall(r"Msgs:(\d+)", screen)), default="none")


def readers_of_mbox(trial, file, count, folder):
    mails = mailbox.mbox(file, create=False)
    trial.check("Python's mailbox: messages", len(mails), count)
    identifiers = [it["Message-ID"] for it in mails]
    if trial.has("formail"):
        said = output("formail", "-s", "sh", "-c", "cat > /dev/null; echo x", stdin=open(file))
        trial.check("formail: messages", said.count("x"), count)
        found = output("formail", "-s", "formail", "-c", "-X", "Message-ID:", stdin=open(file))
        with_one = sum(it is not None for it in identifiers)
        trial.check("formail: messages with a Message-ID, as Python's mailbox has them", len(re.findall("(?im)^message-id:", found)), with_one)
    if trial.has("mutt") and trial.has("script"):
        trial.check("mutt: messages", mutt_count(file), count)
    split = pathlib.Path(folder) / "split"
    split.mkdir()
    if trial.has("git"):
        trial.check("git mailsplit: messages", output("git", "mailsplit", f"-o{split}", file), str(count))
    if trial.has("notmuch"):
        indexed(trial, split, len({it for it in identifiers if it}), sum(it is None for it in identifiers))


def indexed(trial, split, identifiers, without):
    """notmuch, over the mails as git has split them: it takes mails of one Message-ID for one."""
    config = split.parent / "notmuch.conf"
    config.write_text(f"[database]\npath={split}\n[new]\ntags=new\n[user]\nname=x\nprimary_email=x@example.org\n")
    env = {**os.environ, "NOTMUCH_CONFIG": str(config), "HOME": str(split.parent)}
    said = output("notmuch", "new", "--quiet", env=env)
    files, messages = (output("notmuch", "count", "--exclude=false", f"--output={it}", "*", env=env) for it in ("files", "messages"))
    threads = output("notmuch", "count", "--exclude=false", "--output=threads", "*", env=env)
    count = sum(1 for it in split.iterdir() if it.is_file())
    trial.check("notmuch: files", int(files or 0), count)
    trial.check(f"notmuch: messages, which are one by their identifiers {said}".rstrip(), int(messages or 0), identifiers + without)
    trial.holds("notmuch: threads", 0 < int(threads or 0) < count, threads)


def patched(trial, program, db, folder):
    """git am takes a patch out of the archive, and the commit has its author."""
    if not trial.has("git"):
        return
    (pathlib.Path(folder) / "patch.mbox").write_text(PATCH)
    archive(program, "list-add", "--db", db, "patches")
    archive(program, "import", "--db", db, "patches", f"{folder}/patch.mbox")
    mail = exported(program, db, "patches", folder)
    tree = pathlib.Path(folder) / "tree"
    git = ["git", "-C", tree, "-c", "user.name=x", "-c", "user.email=x@example.org"]
    output("git", "init", "-q", tree)
    (tree / "pump.txt").write_text("pump: on\n")
    output(*git, "add", ".")
    output(*git, "commit", "-qm", "pump")
    output(*git, "am", "-q", mail)
    trial.check("git am: the author, the subject and the file of a patch of a list",
                (output(*git, "log", "-1", "--format=%an <%ae> %s"), (tree / "pump.txt").read_text()),
                ("Ada Birch <ada@garden.example> pump: open the valve", "valve: open\npump: on\n"))


def curl(port, path, *words):
    """The status and the body of a page."""
    said = output("curl", "-s", "-w", "\n%{http_code}", *words, f"http://127.0.0.1:{port}{path}")
    body, _, status = said.rpartition("\n")
    return status, body


def requests(trial, program, db, withdrawn, shown):
    """curl, with a token and without."""
    bearer = ["-H", f"Authorization: Bearer {TOKEN}"]
    asked = [
        ("/", [], "200"), ("/l/seeds/threads", [], "200"), (f"/l/seeds/m/{withdrawn}", [], "403"),
        (f"/l/seeds/m/{withdrawn}", bearer, "200"), (f"/l/seeds/m/{shown}", [], "200"),
        ("/l/seeds/month/2024-02", [], "200"), ("/l/seeds/by/ada%40garden.example", [], "200"),
        (f"/l/seeds/t/{withdrawn}", [], "404"), ("/l/seeds/mbox", [], "200"), ("/nope", [], "404"),
        ("/", ["-H", "Authorization: Bearer 0123456789abcdeF"], "401"), ("/", ["-d", "x" * 100_000], "405"),
        ("/", ["-H", "X: " + "a" * 20_000], "431"), ("/", ["-I"], "405"),
    ]
    server = Server(program, db, len(asked) + 2)
    for path, words, wanted in asked:
        how = "with a token" if words == bearer else " ".join(word[:24] for word in words)
        trial.check(f"curl {path[:40]} {how}".rstrip(), curl(server.port, path, *words)[0], wanted)
    rows = [curl(server.port, "/l/seeds/threads", *words)[1].count("/m/") for words in ([], bearer)]
    trial.check("curl: rows of the threads page, without a token and with", rows, [39, 40])
    trial.check("serve: status and faults", server.finish(), (0, []))


ROWS = "document.querySelectorAll('div a[href*=\"/m/\"]').length"


def browsed(trial, program, db, shown, pictures):
    """What a browser shows, and where its links lead; a message (message/rfc822) it keeps as a file, and shows nothing."""
    found = Browser.found()
    if not found:
        trial.skip("what a browser shows", "chromium is not on this machine (apt-get install chromium)")
        return
    # a browser opens more connections than it needs, and asks for the page's picture
    server, browser = Server(program, db, 10_000), Browser(found, f"{db}.browser")
    at = f"http://127.0.0.1:{server.port}"
    for name, path, title, rows in (("lists", "/", "Lists", 0), ("threads", "/l/seeds/threads", "seeds: threads", 39),
                                    ("thread", f"/l/seeds/t/{shown}", "seeds: thread", 5), ("month", "/l/seeds/month/2024-02", "seeds: 2024-02", 11)):
        browser.open(at + path, 900, 980)
        trial.check(f"browser {path[:24]}: title and rows", (browser.value("document.title"), browser.value(ROWS)), (title, rows))
        if pictures:
            print(f"       {name}.png: {browser.picture(pathlib.Path(pictures) / f'{name}.png')}")
    browser.open(f"{at}/")
    browser.open(at + browser.value("[...document.links].find(it => it.innerText === 'seeds').pathname"))
    trial.check("browser: the name of a list leads to its threads", browser.value("document.title"), "seeds: threads")
    browser.open(at + browser.value("document.querySelector('a[href*=\"/by/\"]').pathname"))
    trial.holds("browser: an author's link leads to their mails", browser.value("document.title").startswith("seeds: by "), browser.value("document.title"))
    browser.close()
    server.kill()


def long_list(trial, program, db, count, folder):
    """An export of so many messages in whose bodies no line begins as a separator does, so that all readers cut it alike."""
    made = pathlib.Path(folder) / "made.mbox"
    output(sys.executable, ROOT / "bench" / "gen_mbox.py", "--n", count, "--out", made)
    archive(program, "list-add", "--db", db, "many")
    said = archive(program, "import", "--db", db, "many", made).decode()
    trial.check("the long list is taken in", said, f"new {count} known 0 too-large 0\n")
    file = exported(program, db, "many", folder)
    readers_of_mbox(trial, file, count, folder)
    keys_agree(trial, db, file, "many")


def main():
    asked = words_of(__doc__, messages={"type": int, "default": 3000, "help": "how many the long list has"},
                     pictures={"help": "the folder for the browser's pictures"})
    program = asked.archive
    with Trial() as trial, tempfile.TemporaryDirectory() as folder:
        db = make_archive(program, folder)
        withdrawn, shown = (key_of(SAMPLES / "seeds.mbox", it) for it in ("Keys of the shed", "Welcome to the seed list"))
        archive(program, "withdraw", "--db", db, "seeds", withdrawn, "author")
        archive(program, "person-add", "--db", db, "mo", TOKEN)
        archive(program, "grant", "--db", db, "mo", "seeds", "moderator", "2024-01-01", "2024-12-31")
        stock_sqlite(trial, db)
        patched(trial, program, db, folder)
        long_list(trial, program, db, asked.messages, folder)
        if trial.has("curl"):
            requests(trial, program, db, withdrawn, shown)
        browsed(trial, program, db, shown, asked.pictures)


main()
