#!/usr/bin/env python3
"""strange.py: databases that were damaged, rows that no command leaves, policies and words that do harm, files that are none.

  trials/strange.py [--archive PROGRAM] [--only damaged,unsound,policies,words,devices] [--damaged 400] [--scratch FOLDER]

Each run has to end by itself within ten seconds, with status 0, 1 or 2, in 200 MB, and at status 1 with one line; of files and of rows
also as the pages say. It prints how often each end came, and megabytes, of which Linux counts at least what this script held as it
began the run. Of policies it takes three sizes, of which the largest is a megabyte. Five minutes in all.
The last line is 'N passed, N failed, N skipped'; status 1 where one failed. Build the program first: ./archive --version.
"""
import collections, os, pathlib, random, re, sqlite3, subprocess, tempfile, time

from ground import DAY, OPEN, TWO, Tally, make_list, read_words, words_of


class Ran:
    """What came of one run: status, seconds, megabytes, lines of faults."""

    def __init__(self, words, stdin=None, stdout=None, close=()):
        def before():
            for fd in close:
                os.close(fd)

        with tempfile.TemporaryFile() as said:
            begun = time.perf_counter()
            process = subprocess.Popen(words, stdin=stdin or subprocess.DEVNULL, stdout=stdout or subprocess.DEVNULL, stderr=said,
                                       preexec_fn=before if close else None)
            status, usage = ended(process, begun)
            self.seconds, self.status, self.megabytes = time.perf_counter() - begun, os.waitstatus_to_exitcode(status), usage.ru_maxrss / 1024
            said.seek(0)
            self.lines = said.read().decode(errors="replace").splitlines()

    def wrong(self, statuses=(0, 1), most=200):
        """What is wrong with it, where it may end so and hold so many megabytes."""
        wrong = [f"status {self.status}"] * (self.status not in statuses) + [f"{self.seconds:.1f} s"] * (self.seconds > 10)
        wrong += [f"{self.megabytes:.0f} MB"] * (self.megabytes > most)
        return wrong + [f"says {self.lines}"] * (self.status == 1 and len(self.lines) != 1)

    def told(self):
        return f"{self.status} {re.sub(r'[0-9]{3,}', 'N', self.lines[0][:40]) if self.lines else ''}".strip()


def ended(process, begun):
    """How a process ended, which has ten seconds, and what it used."""
    while True:
        pid, status, usage = os.wait4(process.pid, os.WNOHANG)
        if not pid and time.perf_counter() - begun > 10:
            process.kill()
            pid, status, usage = os.wait4(process.pid, 0)
        if pid:
            process.returncode = os.waitstatus_to_exitcode(status)
            return status, usage
        time.sleep(0.001)


def make(program, folder, count=60):
    """A new database with a list of so many messages, of lengths up to 6,000 bytes, and a person."""
    db = folder / "db"
    for old in folder.glob("db*"):
        old.unlink()
    mbox = b"".join(b"From a@b Tue Mar  4 10:00:00 2003\nSubject: %d\nFrom: a%d@x\n\n%s\n\n" % (n, n % 5, b"x" * (n * 97 % 6000))
                    for n in range(count))
    make_list(program, db, "soc", mbox)
    subprocess.run([program, "person-add", "--db", db, "anna", "0123456789abcdef"], check=True, stdout=subprocess.DEVNULL)
    return db


def asks_of(folder, db):
    """The words of every question."""
    return ["--db", str(db), "--policy", str(folder / "open"), "--day", DAY]


def commands(program, folder, db):
    """Two questions, two commands and a check of a database."""
    more = folder / "more"
    more.write_bytes(TWO)
    return [[program, "export", *asks_of(folder, db), "soc"], [program, "get", *asks_of(folder, db), "soc", "0" * 64],
            [program, "list-add", "--db", str(db), "other"], [program, "import", "--db", str(db), "soc", str(more)], [program, "check", "--db", str(db)]]


def tell(name, ends):
    print(f"{name}: " + "; ".join(f"{n} x {end}" for end, n in ends.most_common(12)), flush=True)


def harm(rng, number, whole):
    """A file with bits turned over, its end cut off, a page filled or changed for another, a byte of the file's or of a page's head."""
    data, pages = bytearray(whole), len(whole) // 4096
    how, page = number % 6, rng.randrange(pages) * 4096
    if how == 0:
        for _ in range(rng.choice([1, 1, 2, 20])):
            data[rng.randrange(len(data))] ^= 1 << rng.randrange(8)
    elif how == 1:
        del data[rng.randrange(len(data)):]
    elif how == 2:
        data[page : page + 4096] = rng.choice([bytes(4096), rng.randbytes(4096)])
    elif how == 3:
        other = rng.randrange(pages) * 4096
        data[page : page + 4096], data[other : other + 4096] = data[other : other + 4096], data[page : page + 4096]
    elif how == 4:
        data[rng.randrange(100)] = rng.randrange(256)
    else:
        data[page + rng.randrange(12)] = rng.randrange(256)
    return data


def damaged(program, folder, tally, times):
    whole, rng, broken = make(program, folder).read_bytes(), random.Random(11), folder / "broken"
    ends, wrongs, runs = collections.Counter(), [], 0
    for number in range(times):
        data = harm(rng, number, whole)
        wal = rng.randbytes(rng.choice([0, 0, 0, 32, 5000]))
        for words in commands(program, folder, broken):
            broken.write_bytes(data)
            (folder / "broken-wal").write_bytes(wal)
            ran = Ran(words)
            runs += 1
            ends[ran.told()] += 1
            if wrong := ran.wrong():
                wrongs.append((f"{number}, {words[1]}", wrong))
    tell(f"damaged databases ({times})", ends)
    tally.judge_all("damaged", runs, wrongs)


# changes of a database by another program, each with stock SQLite; a text of 30 MB may take its memory. Where a column of a message
# is another one than it was, a check has to name the first such message
OF_MESSAGE = re.compile(r"UPDATE message SET (key|sender|text|arrival|sent|month|author) ")
UNSOUND = [
    "UPDATE message SET key = upper(key)", "UPDATE message SET key = 'x' WHERE pos = 1", "UPDATE message SET key = '' WHERE pos = 1", "UPDATE message SET sender = x'0a'",
    "UPDATE message SET sender = x''", "UPDATE message SET sender = x'6120622063'", "UPDATE message SET text = x''", "UPDATE message SET text = randomblob(9)",
    "UPDATE message SET text = zeroblob(30000000) WHERE pos = 1",
    "UPDATE message SET text = CAST('From a@b Tue Mar  4 10:00:00 2003' || char(10) AS BLOB)",
    "UPDATE message SET arrival = 9223372036854775807", "UPDATE message SET arrival = -9223372036854775808", "UPDATE message SET pos = -pos",
    "UPDATE message SET pos = pos + 9223372036854775000", "UPDATE version SET number = 7", "DELETE FROM version", "INSERT INTO version VALUES (0)",
    "UPDATE list SET name = char(10)", "UPDATE list SET name = ''", "UPDATE list SET name = 'SOC'", "INSERT INTO list (name) VALUES ('<script>')",
    "UPDATE person SET token = 'x'", "DROP TABLE message", "CREATE TABLE more (x)", "CREATE INDEX more ON message (arrival)", "PRAGMA user_version = 9",
    "UPDATE message SET embargo = 2932531", "CREATE TRIGGER t AFTER INSERT ON message BEGIN DELETE FROM message; END", "CREATE VIEW v AS SELECT 1",
    "UPDATE message SET sent = 9223372036854775807", "UPDATE message SET month = -1", "UPDATE message SET month = 9223372036854775807",
    "UPDATE message SET author = randomblob(9)", "UPDATE message SET author = x''", "DROP INDEX message_by_month",
    "DELETE FROM list_option", "UPDATE list_option SET merge = 7", "UPDATE list_option SET list = 'x'", "INSERT INTO list_option VALUES ('x', 0)",
    "INSERT INTO address VALUES ('nobody', '')", "DROP TABLE address", "UPDATE version SET number = 1", "UPDATE version SET number = 4",
    "DROP TABLE address; UPDATE version SET number = 2", "DROP TABLE address; DROP TABLE list_option; UPDATE version SET number = 1",
    "DROP TABLE address; CREATE TABLE address (x); INSERT INTO address VALUES (1)", "DROP TABLE address; DROP TABLE list_option; CREATE TABLE x (y); UPDATE version SET number = 2",
]


def change(db, text):
    """Carries a change out with stock SQLite; why it is not made, where the tables are others than docs/TABLES.md has, and refuse it."""
    changed = sqlite3.connect(db)
    try:
        changed.execute("PRAGMA foreign_keys = OFF")
        changed.execute("PRAGMA ignore_check_constraints = ON")
        changed.executescript(text)
        changed.commit()
        return None
    except sqlite3.Error as error:
        return str(error)
    finally:
        changed.close()


def unsound(program, folder, tally, _times):
    ends, wrongs, runs = collections.Counter(), [], 0
    for text in UNSOUND:
        for index in range(5):
            db = make(program, folder, 5)
            unmade, words = change(db, text), commands(program, folder, db)[index]
            ran = Ran(words)
            runs += 1
            ends[ran.told()] += 1
            wrong = [f"not made: {unmade}"] * (unmade is not None) + ran.wrong(most=400 if "zeroblob" in text else 200)
            if words[1] == "check" and OF_MESSAGE.match(text) and not (ran.lines and ran.lines[0].startswith("archive: E16 Damaged soc ")):
                wrong.append(f"it does not name the message: {ran.status} {ran.lines}")
            if wrong:
                wrongs.append((f"{text}, {words[1]}", wrong))
    tell(f"rows that no command leaves ({len(UNSOUND)})", ends)
    tally.judge_all("unsound", runs, wrongs)


# policies of about n bytes
POLICIES = {
    "keys": lambda n: b"".join(b"k%d = 1\n" % i for i in range(n // 10)),
    "rules": lambda n: b"[[rule]]\n" * (n // 9),
    "open arrays": lambda n: b"a = " + b"[" * n,
    "nested arrays": lambda n: b"a = " + b"[" * (n // 2) + b"]" * (n // 2),
    "open tables": lambda n: b"a = " + b"{a=" * (n // 3),
    "dotted key": lambda n: b"a." * (n // 2) + b"a = 1",
    "dotted table": lambda n: b"[" + b"a." * (n // 2) + b"a]",
    "one string": lambda n: b'rule = "' + b"a" * n + b'"',
    "open string": lambda n: b'rule = "' + b"a" * n,
    "open text": lambda n: b'rule = """' + b"a\n" * (n // 2),
    "escapes": lambda n: b'rule = "' + b"\\u00e9" * (n // 6) + b'"',
    "comments": lambda n: b"#\n" * (n // 2) + OPEN,
    "digits": lambda n: b"rule = " + b"9" * n,
    "zeros": bytes,
    "255": lambda n: b"\xff" * n,
    "blank": lambda n: b" \t\r\n" * (n // 4) + OPEN,
    "one name": lambda n: b'[[rule]]\nname = "' + b"a" * n + b'"\neffect = "allow"\n',
    "lists": lambda n: OPEN + b"lists = [" + b'"soc",' * (n // 6) + b"]\n",
    "tables again": lambda n: b"[a]\n" * (n // 4),
    "inner tables": lambda n: b"".join(b"[a%d.b]\n" % i for i in range(n // 10)),
    "dates": lambda n: b"a = [" + b"2003-03-04," * (n // 11) + b"]",
}


def policies(program, folder, tally, _times):
    (folder / "two").write_bytes(TWO)
    for name, make_policy in POLICIES.items():
        cells, wrong = [], []
        for size in (250_000, 500_000, 1_000_000):
            (folder / "policy").write_bytes(make_policy(size))
            with open(folder / "two", "rb") as stdin:
                cells.append(Ran([program, "sift", "--policy", str(folder / "policy"), "--day", DAY], stdin))
            wrong += cells[-1].wrong()
        tally.judge(f"policy of {name}", wrong)
        print(f"policy of {name:14} " + " ".join(f"{cell.seconds:6.3f} s" for cell in cells) + f" {cells[-1].megabytes:5.0f} MB  {cells[-1].told()}", flush=True)


def words(program, folder, tally, _times):
    db, policy = str(make(program, folder, 2)), str(folder / "open")
    asked = [
        ["list-add", "--db", db, "a" * 100_000], ["list-add", "--db", db, ""], ["list-add", "--db", db, b"\xff\xfe"], ["list-add", "--db", "", "x"],
        ["list-add", "--db", "a" * 5000, "x"], ["list-add", "--db", db, "x\n"], ["list-add"] + ["x"] * 20_000, ["--" + "a" * 100_000],
        ["sift", "--day", "9" * 100_000], ["sift", "--min-age", "9" * 1000], ["sift", "--min-age", "-1"], ["sift", "--day", "0000-00-00"],
        ["person-add", "--db", db, "bob", "=" * 16], ["person-add", "--db", db, "bob", "a" * 100_000],
        ["person-address", "--db", db, "anna", "a" * 100_000], ["person-address", "--db", db, "anna", "\x7f"], ["merge", "--db", db, "soc", "y" * 100_000],
        ["get", "--db", db, "--policy", policy, "soc", "é" * 64], ["import", "--db", db, "soc", "-"], ["import", "--db", db, "soc", ""], ["help"] * 100,
        ["serve", "--db", db, "--policy", policy, "--port", "1", "--count", "0"], ["serve", "--db", db, "--policy", policy, "--port", "99999", "--count", "0"],
        [""], ["sift", "sift"], ["--db", db, "list-add", "x"],
    ]
    ends, wrongs = collections.Counter(), []
    for each in asked:
        ran = Ran([program, *each])
        ends[ran.told()] += 1
        if wrong := ran.wrong((0, 1, 2)):
            wrongs.append(([str(word)[:30] for word in each[:4]], wrong))
    tell(f"words ({len(asked)})", ends)
    tally.judge_all("words", len(asked), wrongs)


def files(folder, db):
    """Files that are none, where a database, an mbox or a policy is named; what has to be said of those that the pages speak of."""
    os.mkfifo(folder / "pipe")
    os.symlink("loop", folder / "loop")
    os.symlink(db, folder / "linked")
    named = [("/dev/null", "/dev/null", ""), ("/dev/zero", "/dev/zero", ""), ("a pipe", folder / "pipe", "1 archive: E15"),
             ("a loop of links", folder / "loop", "1 archive: E15"), ("a link", folder / "linked", "0"), ("in no folder", folder / "no" / "db", "1 archive: E15"),
             ("an mbox", folder / "more", "1 archive: E15"), ("a directory", folder, "1 archive: E15")]
    (folder / "more").write_bytes(TWO)
    yield from ((f"FILE {name}", ["list-add", "--db", str(path), "another"], wanted) for name, path, wanted in named)
    yield from ((f"MBOX {name}", ["import", "--db", db, "soc", str(path)], wanted) for name, path, wanted in (
        ("a directory", folder, "1 archive: M2"), ("not there", folder / "no", "1 archive: F1"), ("the database", db, "1 archive: M1")))
    yield from ((f"policy {name}", ["export", "--db", db, "--policy", str(path), "--day", DAY, "soc"], wanted) for name, path, wanted in (
        ("a directory", folder, "1 archive: F1"), ("/dev/null", "/dev/null", "0"), ("the database", db, "1 archive: P1")))


def devices(program, folder, tally, _times):
    db = str(make(program, folder))
    export = ["export", *asks_of(folder, db), "soc"]
    read, closed = os.pipe()
    os.close(read)
    with open("/dev/full", "wb") as full:
        cases = [("export to a full device", export, "1 archive: G6", {"stdout": full}), ("export to a closed pipe", export, "1 archive: G6", {"stdout": closed}),
                 ("export, no output", export, "1 archive: G6", {"close": (1,)}), ("export, nothing open", export, "1", {"close": (0, 1, 2)}),
                 ("list-add to a full device", ["list-add", "--db", db, "more"], "1 archive: F2", {"stdout": full}),
                 ("sift, no input", [], "1 archive: M2", {"close": (0,)})]
        cases += [(name, each, wanted, {}) for name, each, wanted in files(folder, db)]
        for name, each, wanted, how in cases:
            ran = Ran([program, *each], **how)
            # (where standard error is closed too, no line is heard)
            wrong = [it for it in ran.wrong() if 2 not in how.get("close", ()) or not it.startswith("says")]
            tally.judge(name, wrong + [f"it ends with {ran.told()!r}, and not {wanted!r}"] * (not ran.told().startswith(wanted)))
            print(f"{name:28} {ran.told()}", flush=True)


KINDS = {"damaged": damaged, "unsound": unsound, "policies": policies, "words": words, "devices": devices}


def main():
    line = words_of(__doc__)
    line.add_argument("--only", default=",".join(KINDS), help="these kinds alone")
    line.add_argument("--damaged", type=int, default=400, help="how many damaged databases")
    asked = read_words(line)
    with Tally() as tally:
        for kind in asked.only.split(","):
            with tempfile.TemporaryDirectory(dir=asked.scratch) as folder:
                folder = pathlib.Path(folder)
                (folder / "open").write_bytes(OPEN)
                KINDS[kind](asked.archive, folder, tally, asked.damaged)


if __name__ == "__main__":
    main()
