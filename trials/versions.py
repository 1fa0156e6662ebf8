#!/usr/bin/env python3
"""versions.py: a file that a program of tables 1 made is brought over, and is then what it was; who may not open a file leaves it alone.

  trials/versions.py OLD [NEW] [--scratch FOLDER]

OLD is a program of tables 1 (of a commit before the tables' number rose: in a clone of it ./archive --version builds it), NEW the
program that is tried (default: what ./archive builds). OLD makes a file of four lists, with persons, grants, a message that is
withdrawn and one that is embargoed, and a file of no list; of a reader of each standing it tells every page, every export and
whether the file is whole. NEW opens copies, each by another command, and has to tell the same, byte for byte. Stock SQLite then finds
that the rows of before are there and no others, that each list is joined by subject and nobody has an address, that the file is
sound, and that its tables are made as those of a new one. A file of version 2, made by stock SQLite, keeps what it says of its
lists. OLD refuses a file that was brought over (E15, status 1) and NEW one of a version 4 that does not exist, by each command, and
leave the files byte for byte as they were. The last line is 'N passed, N failed, N skipped'.
"""
import argparse, contextlib, os, pathlib, re, shutil, sqlite3, subprocess, tempfile

from ground import answered, run
from serving import archive, get
from trial import ROOT, SAMPLES, Server, Trial

DAY = "2024-03-20"
POLICY = """[[rule]]
name = "moderators"
effect = "allow"
standings = ["moderator"]

[[rule]]
name = "withdrawn"
effect = "deny"
withdrawn = ["author", "board"]

[[rule]]
name = "embargo"
effect = "deny"
standings = ["public", "member"]
embargo = true

[[rule]]
name = "members"
effect = "allow"
standings = ["member", "subscriber"]

[[rule]]
name = "old"
effect = "allow"
age_min = 10
"""
# the readers: nobody, and persons by what they are on each list
READERS = {None: None, "mia": "member", "sue": "subscriber", "mo": "moderator", "eve": None}
LISTS = {"seeds": SAMPLES / "seeds.mbox", "soc": SAMPLES / "soc.mbox", "minutes": None, "empty": None}
PAGE = 4096  # bytes of a page
# the tables of version 1
TABLES = ["version", "list", "person", "grant_row", "message"]
SECOND = """CREATE TABLE list_option (list TEXT NOT NULL PRIMARY KEY REFERENCES list (name), merge INTEGER NOT NULL CHECK (merge BETWEEN 0 AND 1)) STRICT;
INSERT INTO list_option (list, merge) SELECT name, name <> 'minutes' FROM list ORDER BY rowid;
UPDATE version SET number = 2;"""
KEYS = re.compile(rb'href="/l/[^/"]*/m/([0-9a-f]{64})"')
REFUSED = (1, b"", ["archive: E15 Store"])


def token(person):
    return person.ljust(16, "0")


def minutes():
    """Mails of one subject, of which none names another."""
    return "".join(f"From ada@garden.example Mon Mar {day:2} 18:00:00 2024\nFrom: ada@garden.example\nSubject: Minutes\n\nOf the {day}.\n\n" for day in (4, 11, 18))


def fill(program, db, room):
    """The lists, the persons and what they are, and two messages with marks."""
    for name, mbox in LISTS.items():
        archive(program, "list-add", "--db", db, name)
        if name == "minutes":
            mbox = room / "minutes.mbox"
            mbox.write_text(minutes())
        if mbox:
            archive(program, "import", "--db", db, name, mbox)
    for person, kind in READERS.items():
        if person:
            archive(program, "person-add", "--db", db, person, token(person))
        if kind:
            archive(program, "grant", "--db", db, person, "seeds", kind, "2024-01-01", "2024-12-31")
            archive(program, "grant", "--db", db, person, "minutes", kind, "2024-03-20", "2024-03-20")
    with stock(db) as found:
        first, second = (key for (key,) in found.execute("SELECT key FROM message WHERE list = 'seeds' ORDER BY pos LIMIT 2"))
    archive(program, "withdraw", "--db", db, "seeds", first, "board")
    archive(program, "embargo", "--db", db, "seeds", second, "2024-04-01")


@contextlib.contextmanager
def stock(db):
    """Stock SQLite's connection to a file, which it closes."""
    with contextlib.closing(sqlite3.connect(db, isolation_level=None)) as found:
        yield found


def copied(db, room, name):
    """A copy of a file that nobody has open, in a folder of its own."""
    place = room / name
    shutil.rmtree(place, ignore_errors=True)
    place.mkdir()
    shutil.copyfile(db, place / "archive.db")
    return place / "archive.db"


def held(db):
    """The bytes of a file, and what stands beside it. A log that is closed is short, and has no page of the file."""
    beside = [it.name for it in sorted(db.parent.iterdir()) if it != db and (it.name != f"{db.name}-wal" or it.stat().st_size >= PAGE)]
    return db.read_bytes(), beside


def pages(server, person):
    """All replies to one reader, by path: each link of each page is followed, from the page of all lists on."""
    told, paths = {}, ["/"]
    for path in paths:
        told[path] = answered(server, get(path, token(person) if person else None))
        if b"\r\nContent-Type: text/html" in told[path]:
            paths += [it for it in dict.fromkeys(re.findall(r'href="([^"]*)"', told[path].decode("latin-1"))) if it not in paths]
    return told


def ways(policy, person, name):
    """The words that ask of a list as a reader."""
    return ["--policy", policy, "--day", DAY, *(["--person", person] if person else []), name]


def shown(program, db, policy, keys):
    """All that a program tells of a file: pages, exports and messages of each reader, and whether the file is whole."""
    told = {}
    server = Server(program, db, 1_000_000, policy, DAY)
    for person in READERS:
        told["pages", person] = pages(server, person)
    server.kill()
    for person in READERS:
        for name in LISTS:
            told["export", person, name] = run(program, "export", "--db", db, *ways(policy, person, name))
    for person in (None, "mo"):
        for key in keys:
            told["get", person, key] = run(program, "get", "--db", db, *ways(policy, person, "seeds"), key)
    told["check"] = run(program, "check", "--db", db)
    return told


def differing(one, other):
    """What of two tellings is not the same."""
    return [what for what in {**one, **other} if one.get(what) != other.get(what)]


def rows(db, table):
    with stock(db) as found:
        return found.execute(f"SELECT rowid, * FROM {table} ORDER BY rowid").fetchall()


def schema(db):
    """How the tables and indexes were made, and on which pages of the file they stand by their order."""
    with stock(db) as found:
        return found.execute("SELECT type, name, tbl_name, sql FROM sqlite_schema ORDER BY rowid").fetchall()


def is_sound(trial, what, db):
    with stock(db) as found:
        trial.check(f"{what}: stock SQLite's integrity_check and foreign_key_check",
                    [found.execute(f"PRAGMA {it}").fetchall() for it in ("integrity_check", "foreign_key_check")], [[("ok",)], []])


def orders(db, policy, room, key):
    """The words of each command over a file, whatever it holds."""
    mail = room / "minutes.mbox"
    by_key = {"withdraw": ["author"], "restore": [], "embargo": ["2024-05-01"], "lift": []}
    words = [["list-add", "--db", db, "other"], ["merge", "--db", db, "seeds", "no"], ["person-add", "--db", db, "ida", token("ida")],
             ["person-address", "--db", db, "mo", "mo@example.org"], ["grant", "--db", db, "eve", "soc", "member", "2024-01-01", "2024-12-31"],
             ["revoke", "--db", db, "mia", "seeds", "member"], ["import", "--db", db, "soc", mail], ["check", "--db", db],
             ["get", "--db", db, *ways(policy, None, "seeds"), key], ["export", "--db", db, *ways(policy, None, "seeds")],
             ["serve", "--db", db, "--policy", policy, "--day", DAY, "--port", "0", "--count", "0"]]
    return words + [[it, "--db", db, "seeds", key, *more] for it, more in by_key.items()]


def refuses(trial, what, program, db, words):
    """Each command is refused, and the file is byte for byte what it was before."""
    before = held(db)
    wrong = [(order[0], told) for order in words if (told := run(program, *order)) != REFUSED]
    trial.check(f"{what}: commands that are not refused with E15, of {len(words)}", wrong, [])
    trial.holds(f"{what}: the file is byte for byte as it was, and nothing stands beside it", held(db) == before and not before[1], len(before[0]))


def knows(program, word):
    """Whether a program has a command."""
    return run(program, word, "--help")[0] == 0


def brought_over(trial, old, new, room, policy):
    """A file of version 1, told by the program that made it and by the other one. Gives a file that was brought over, and a key."""
    (room / "old").mkdir()
    db = room / "old" / "archive.db"
    fill(old, db, room)
    keys = [row[3] for row in rows(db, "message") if row[2] == "seeds"]
    trial.check("the number of OLD's tables", rows(db, "version"), [(1, 1)])
    before = {table: rows(db, table) for table in TABLES}
    told = shown(old, db, policy, keys)
    count = {str(person): len(told["pages", person]) for person in READERS}
    trial.holds("OLD shows so many pages to each reader, and the file is whole", told["check"] == (0, b"ok\n", []) and min(count.values()) > 50, count)
    for order in orders(db, policy, room, keys[2]):
        copy = copied(db, room, f"by-{order[0]}")
        status, _, lines = run(new, *[copy if it == db else it for it in order])
        said = (1, ["archive: E10 NotWithdrawn"]) if order[0] == "restore" else (0, [])
        trial.check(f"NEW opens a copy by {order[0]}: status, lines, number", (status, lines, rows(copy, "version")), (*said, [(1, 3)]))
    copy = copied(db, room, "new")
    again = shown(new, copy, policy, keys)
    trial.check(f"NEW tells the same, of {len(told)} things and {sum(count.values())} pages: what differs", differing(told, again), [])
    trial.check("NEW tells of pages the same: which differ", [it for person in READERS for it in differing(told["pages", person], again["pages", person])], [])
    trial.check("the rows of before, but the number: tables that differ", [it for it in TABLES[1:] if rows(copy, it) != before[it]], [])
    trial.check("each list is joined by subject", sorted(row[1:] for row in rows(copy, "list_option")), sorted((name, 1) for name in LISTS))
    trial.check("nobody has an address", rows(copy, "address"), [])
    is_sound(trial, "brought over", copy)
    archive(new, "list-add", "--db", room / "fresh.db", "x")
    trial.check("its tables are made as those of a new file", schema(copy), schema(room / "fresh.db"))
    return db, copy, keys[2]


def empty(trial, old, new, room):
    """A file of version 1 without a list."""
    (room / "none").mkdir()
    db = room / "none" / "archive.db"
    run(old, "check", "--db", db)
    trial.check("a file without lists: NEW's check, the options", (run(new, "check", "--db", db), rows(db, "list_option")), ((0, b"ok\n", []), []))
    is_sound(trial, "a file without lists", db)


def second(trial, new, room, policy, db):
    """A file of version 2, in which one list is not joined by subject."""
    copy = copied(db, room, "second")
    with stock(copy) as found:
        found.executescript(SECOND)
    server = Server(new, copy, 2, policy, DAY)
    depths = {name: re.findall(rb'^<div class="(d\d+)">', answered(server, get(f"/l/{name}/threads", token("mo"))), re.MULTILINE) for name in ("minutes", "soc")}
    server.finish()
    trial.check("of version 2, a list that is not joined: its rows", depths["minutes"], [b"d0", b"d0", b"d0"])
    trial.holds("and one that is", b"d1" in depths["soc"], depths["soc"])
    trial.check("its number, its options", (rows(copy, "version"), dict(row[1:] for row in rows(copy, "list_option"))),
                ([(1, 3)], {name: int(name != "minutes") for name in LISTS}))
    is_sound(trial, "of version 2", copy)
    trial.check("its tables are made as those of a new file", schema(copy), schema(room / "fresh.db"))


def not_opened(trial, old, new, room, policy, copy, key):
    """Files that a program may not open."""
    words = [it for it in orders(copy, policy, room, key) if knows(old, it[0])]
    refuses(trial, "OLD over a file that was brought over", old, copy, words)
    for what, text in (("a version 4", "UPDATE version SET number = 4"), ("a version 4 with a table more", "UPDATE version SET number = 4; CREATE TABLE later (x INTEGER) STRICT"),
                       ("tables of version 3 that say 2", "UPDATE version SET number = 2")):
        later = copied(copy, room, "later")
        with stock(later) as found:
            found.executescript(text)
        refuses(trial, f"NEW over {what}", new, later, orders(later, policy, room, key))


def read_words():
    words = argparse.ArgumentParser(description=__doc__, formatter_class=argparse.RawDescriptionHelpFormatter)
    words.add_argument("old", type=pathlib.Path, help="a program of tables 1")
    words.add_argument("new", type=pathlib.Path, nargs="?", default=ROOT / "crates" / "archive" / "out" / "archive", help="the program that is tried")
    words.add_argument("--scratch", help="make files in this folder; one in memory is faster")
    asked = words.parse_args()
    for program in (asked.old, asked.new):
        if not program.is_file() or not os.access(program, os.X_OK):
            words.error(f"{program}: no such program; ./archive --version builds it in its clone")
    return asked.old.resolve(), asked.new.resolve(), asked.scratch


def main():
    old, new, scratch = read_words()
    with Trial() as trial, tempfile.TemporaryDirectory(dir=scratch) as room:
        room = pathlib.Path(room)
        policy = room / "policy.toml"
        policy.write_text(POLICY)
        db, copy, key = brought_over(trial, old, new, room, policy)
        empty(trial, old, new, room)
        second(trial, new, room, policy, db)
        not_opened(trial, old, new, room, policy, copy, key)


main()
