#!/usr/bin/env python3
"""around.py: what stands beside the program: samples/*.sh and *.py, the policies, the units, the help, and the surprises that the pages
speak of.

  trials/around.py [--archive PROGRAM]

The last line is 'N passed, N failed, N skipped'.
"""
import os, pathlib, re, shutil, sqlite3, stat, subprocess, tempfile

from trial import ROOT, SAMPLES, Server, Trial, output, words_of
from serving import archive, make_archive
import mbox, store

POLICY = SAMPLES / "seeds.toml"
DASHED = "-5fW2xkQ0aTz7uYp1"
# For these docs/STYLE.md has other terms.
AVOIDED = re.compile(r"\b(?:held back|mails|(?:a|each|one) mail|bad words|anew|whoever|so many|want of)\b", re.I)
# Where they are looked for: each script that a user calls, what it is made of, and the units.
TERMED = [ROOT / "archive", ROOT / "tools/package.sh", *(ROOT / "tools/package").iterdir(),
          *(it for form in ("sh", "py", "service", "timer", "path", "bash") for it in SAMPLES.rglob(f"*.{form}")), SAMPLES / "mbsyncrc"]
# Lines that are separators, by docs/MBOX.md, and lines that are none.
SEPARATORS = [
    b"From a@b Tue Mar  4 10:00:00 2003", b"From anna at example.org  Tue Mar  4 10:00:00 2003", b"From 12@xxx Tue Mar 04 10:00:00 +0100 2003",
    b"From - Tue Mar  4 10:00 2003", b"From  12@xxx mon MAR 04 23:59:60 2003 ", b"From a@b Thu Feb 29 10:00:00 2024\r", b"From a@b Mon Jan  1 00:00:00 EST 9998",
    b"From a@b Sun Dec 31 23:00:00 -0500 1899",
]
OTHERS = [
    b"From here on we sail", b"From a b Tue Mar 4 10:00:00 2003", b"From a@b Tue Mar  4 10:00:00 2003 +0100", b"From a@b Tue Feb 29 10:00:00 2023",
    b"From a@b Tue Mar  4 24:00:00 2003", b"From a@b Tue Mar  4 10:00:00 03", b"From a@b Tue Mar  4 10:00:00 +0160 2003", b">From a@b Tue Mar  4 10:00:00 2003",
    b"From a AT b Tue Mar  4 10:00:00 2003", b"From a@b Tue Mar  4 10:00:00 1899", b"From a@b Sun Jan  1 00:00:00 +0500 1900", b"From a@b Tue Mar  4 10:00:61 2003",
]


# What the help of a command says that it prints.
ANSWERS = {
    "list-add": ["added"], "merge": ["merge on", "merge off"], "person-add": ["added"], "person-address": ["address set"], "grant": ["granted"],
    "revoke": ["revoked", "no grant"], "import": ["new N known N too-large N"], "withdraw": ["withdrawn"], "restore": ["restored"],
    "embargo": ["embargoed"], "lift": ["lifted", "no embargo"], "check": ["ok"], "serve": ["listening on 127.0.0.1:PORT"],
}


def refused(program, *words):
    """The status, and what it says."""
    ran = subprocess.run([program, *map(str, words)], stdin=subprocess.DEVNULL, capture_output=True, text=True, check=False)
    return ran.returncode, (ran.stdout + ran.stderr).strip()


def surprises(trial, program, room):
    """What surprises, and is said in docs/REFUSALS.md and docs/COMMANDS.md."""
    db = make_archive(program, room)
    found, wanted = store.tables_of(db), store.documented()
    trial.check("tables of a FILE, and those with other columns, keys, ranges or indexes than docs/TABLES.md has", (len(found), [it for it in {**found, **wanted} if found.get(it) != wanted.get(it)]), (7, []))
    trial.check("a FILE that is mistyped is made, and has no list (E4)", refused(program, "import", "--db", room / "archve.db", "seeds", SAMPLES / "seeds.mbox"), (1, "archive: E4 NoList after 0"))
    trial.check("so it is for a question (G1)", refused(program, "export", "--db", room / "arhive.db", "--policy", POLICY, "seeds"), (1, "archive: G1 NoList"))
    trial.holds("both files are there then", (room / "archve.db").exists() and (room / "arhive.db").exists())
    trial.check("a folder that is not there (E15)", refused(program, "list-add", "--db", room / "no" / "a.db", "x"), (1, "archive: E15 Store"))
    trial.check("a FILE that is a folder (E15)", refused(program, "list-add", "--db", room, "x"), (1, "archive: E15 Store"))
    (room / "text.db").write_text("no database at all, but a text of some length that is none\n" * 20)
    trial.check("a FILE that is no database (E15)", refused(program, "list-add", "--db", room / "text.db", "x"), (1, "archive: E15 Store"))
    stock = sqlite3.connect(room / "other.db")
    stock.execute("CREATE TABLE x (y)")
    stock.commit()
    stock.close()
    trial.check("a FILE of another program (E15)", refused(program, "list-add", "--db", room / "other.db", "x"), (1, "archive: E15 Store"))
    served(trial, program, room, db)
    not_writable(trial, program, room, db)
    trial.check("a token that begins with - is bad words", refused(program, "person-add", "--db", db, "dash", DASHED)[0], 2)
    trial.check("but behind --", refused(program, "person-add", "--db", db, "--", "dash", DASHED), (0, "added"))
    trial.check("a policy is tried", refused(program, "sift", "--policy", POLICY), (0, ""))
    (room / "wrong.toml").write_text('[[rule]]\nname = "x"\n')
    status, said = refused(program, "sift", "--policy", room / "wrong.toml")
    trial.holds("and one that is none", status == 1 and said.startswith("archive: P"), said)
    old = os.umask(0o077)
    archive(program, "list-add", "--db", room / "own.db", "x")
    os.umask(old)
    trial.check("after umask 077 the file is its owner's alone", oct(stat.S_IMODE((room / "own.db").stat().st_mode)), "0o600")
    with open(SAMPLES / "seeds.mbox", "rb") as lines:
        ran = subprocess.run([program, "import", "--db", room / "own.db", "x", "/dev/stdin"], stdin=lines, capture_output=True, text=True, check=False)
    trial.check("MBOX is /dev/stdin", ran.stdout, "new 40 known 0 too-large 0\n")
    trial.check("MBOX is -, which is a file of that name", refused(program, "import", "--db", room / "own.db", "x", "-"), (1, "archive: F1 Read"))


def served(trial, program, room, db):
    server = Server(program, db, 1000)
    trial.check("a FILE that is served (E15)", refused(program, "list-add", "--db", db, "x"), (1, "archive: E15 Store"))
    said = output("sqlite3", "-init", "/dev/null", db, "SELECT count(*) FROM message")
    trial.holds("stock sqlite3 finds it locked", "database is locked" in said, said)
    copied = output(SAMPLES / "copy.sh", db, room / "copy.db")
    trial.check("samples/copy.sh copies it", (copied, output("sqlite3", "-init", "/dev/null", room / "copy.db", "PRAGMA integrity_check; SELECT count(*) FROM message")), ("", "ok\n40"))
    shown = output(SAMPLES / "show.sh", db)
    trial.check("samples/show.sh names what it counts", shown.splitlines()[:1], ["# lists: name, messages, bytes, withdrawn, embargoed, how full (of 50,000 messages)"])
    trial.holds("samples/show.sh shows it", "seeds\t40\t10789\t0\t0" in shown, shown.splitlines()[1:2])
    server.kill()


def not_writable(trial, program, room, db):
    """A file and a folder that may not be written to, as somebody who is not root."""
    if os.getuid() != 0:
        trial.skip("a FILE that may not be written to (E15)", "this is not root, which becomes somebody else for it")
        return
    shut = room / "shut"
    shut.mkdir()
    shutil.copyfile(db, shut / "a.db")
    shutil.copy(program, shut / "archive")
    for it, mode in ((room, 0o755), (room / "policy.toml", 0o644), (shut / "a.db", 0o644), (shut / "archive", 0o755)):
        it.chmod(mode)
    if not all(it.stat().st_mode & 0o001 for it in room.parents):
        trial.skip("a FILE that may not be written to (E15)", f"somebody else cannot reach {room}")
        return
    somebody = {"user": 65534, "group": 65534, "extra_groups": [], "capture_output": True, "text": True, "check": False}
    trial.check("somebody else can run the program", subprocess.run([shut / "archive", "--version"], **somebody).returncode, 0)
    for what, name in (("a FILE of which one may only read", "a.db"), ("a folder in which one may make nothing", "new.db")):
        ran = subprocess.run([shut / "archive", "export", "--db", shut / name, "--policy", room / "policy.toml", "seeds"], **somebody)
        trial.check(f"{what} (E15)", (ran.returncode, ran.stdout, ran.stderr.strip()), (1, "", "archive: E15 Store"))


def cutting(trial, program, room):
    """samples/mbox.py cuts as the program does."""
    for lines, wanted in ((SEPARATORS, True), (OTHERS, False)):
        trial.check(f"mbox.py: lines that are {'separators' if wanted else 'none'}", [it for it in lines if mbox.is_separator(it + b"\n") != wanted], [])
    archive(program, "list-add", "--db", room / "cut.db", "x")
    for lines, wanted in ((SEPARATORS, "new 2"), (OTHERS, "new 1")):
        wrong = []
        for number, line in enumerate(lines):
            (room / "cut.mbox").write_bytes(b"From a@b Tue Mar  4 10:00:00 2003\n%s %d\n\n%s\ny %d\n\n" % (wanted.encode(), number, line, number + 100 * len(lines)))
            if not archive(program, "import", "--db", room / "cut.db", "x", room / "cut.mbox").decode().startswith(wanted):
                wrong.append(line)
        trial.check(f"the program: lines that {'cut' if wanted == 'new 2' else 'do not'}", wrong, [])
    for name in ("seeds", "soc"):
        file = SAMPLES / f"{name}.mbox"
        written = subprocess.run([program], stdin=open(file, "rb"), stdout=subprocess.PIPE, check=True).stdout
        with open(file, "rb") as lines:
            cut = [text for _, _, text in mbox.messages(lines)]
        again = [text for _, _, text in mbox.messages(written.splitlines(True))]
        trial.holds(f"mbox.py: {name}.mbox is cut as what the program writes of it", cut == again, len(cut))
    box = room / "box.mbox"
    box.write_bytes((SAMPLES / "seeds.mbox").read_bytes())
    key = output(SAMPLES / "mbox.py", "list", box).splitlines()[21].split()[3]
    (room / "rest.mbox").write_text(output(SAMPLES / "mbox.py", "without", key, box) + "\n\n")
    trial.check("mbox.py without a mail: how many are left, and of that one", (len(output(SAMPLES / "mbox.py", "list", room / "rest.mbox").splitlines()),
                key in output(SAMPLES / "mbox.py", "list", room / "rest.mbox")), (39, False))
    ran = subprocess.run([SAMPLES / "mbox.py", "without", "0" * 64, box], capture_output=True, check=False)
    trial.check("mbox.py without a mail that is not there: status, errors, whether all is written", (ran.returncode, ran.stderr.decode(), len(mbox_keys(ran.stdout))),
                (1, f"mbox.py: no message has the key {'0' * 64}\n", 40))
    trial.check("mbox.py: bad words", refused(SAMPLES / "mbox.py", "lists", box)[0], 2)
    (room / "long.mbox").write_bytes(box.read_bytes() * 200)
    ran = subprocess.run(["bash", "-c", '"$0" list "$1" | head -n 1', SAMPLES / "mbox.py", room / "long.mbox"], capture_output=True, text=True, check=False)
    trial.check("mbox.py: a reader who has enough is no error", (ran.stdout.count("\n"), ran.stderr), (1, ""))


def mbox_keys(text):
    """The keys of the messages of an mbox."""
    return [mbox.key_of(it) for _, _, it in mbox.messages(text.splitlines(keepends=True))]


def backups(trial, program, room):
    """samples/backup.sh: what it takes along, what it leaves, and that it takes nothing that is damaged."""
    kept, to = room / "kept", room / "to"
    kept.mkdir()
    db = make_archive(program, kept)
    # (the policy is a link, as in the package, and so it is in a backup that was taken before)
    (room / "rules.toml").write_text("x = 1\n")
    (kept / "policy.toml").symlink_to(room / "rules.toml")
    (kept / "mail.done" / "seeds").mkdir(parents=True)
    (kept / "mail.done" / "seeds" / "1.mbox").write_text("x")
    to.mkdir()
    (to / "policy.toml").symlink_to(room / "rules.toml")
    (kept / "mail.done" / "seeds" / "1.mbox").chmod(0o644)
    back_up = lambda *words: refused_by(program, SAMPLES / "backup.sh", kept, to, *words)
    trial.check("backup.sh says nothing", back_up(4), (0, ""))
    newest = next(to.glob("archive-20[2-9]*.db"))
    # (what it made on ten days before, as it wrote it down; what an older name and a mistyped one hold)
    for day in range(1, 11):
        shutil.copyfile(newest, to / f"archive-2001-01-{day:02}.db")
    with open(to / "backups.made", "a", encoding="utf-8") as lines:
        lines.writelines(f"archive-2001-01-{day:02}.db 40\n" for day in range(1, 11))
    archive(program, "check", "--db", to / "archive-2099-01-01.db")
    shutil.copyfile(newest, to / "archive-2000-01-01.db")
    trial.check("backup.sh beside a mistyped file, with a name that is newer", back_up(11), (0, ""))
    there = lambda: sorted(it.name for it in to.glob("archive-*.db"))
    trial.check("none of those that it made is removed for it", [it for it in there() if it.startswith("archive-2001")], [f"archive-2001-01-{day:02}.db" for day in range(1, 11)])
    shutil.copyfile(to / "archive-2099-01-01.db", to / "archive-2001-01-10.db")
    trial.check("nor for one that holds fewer than it did", (back_up(10), len(there())), ((0, ""), 13))
    trial.check("backup.sh: what stays of 4", (back_up(4), there()), ((0, ""), ["archive-2000-01-01.db", *(f"archive-2001-01-{day:02}.db" for day in (7, 8, 9, 10)), newest.name, "archive-2099-01-01.db"]))
    trial.check("backup.sh: of a link what it leads to is taken", ((to / "policy.toml").is_symlink(), (to / "policy.toml").read_text()), (False, "x = 1\n"))
    (room / "rules.toml").write_text("x = 0\n")
    os.utime(room / "rules.toml", (0, 0))
    trial.check("backup.sh: a policy that is older than the one before it is taken too", (back_up(4), (to / "policy.toml").read_text()), ((0, ""), "x = 0\n"))
    own = [newest, to / "policy.toml", to / "mail.done", to / "mail.done" / "seeds" / "1.mbox", to / "backups.made"]
    trial.check("backup.sh: what it makes is its owner's alone", [it.name for it in own if it.stat().st_mode & 0o077], [])
    trial.check("the copy is whole, as check.sh finds", refused_by(program, SAMPLES / "check.sh", newest), (0, f"{newest}: ok\n{newest}: seeds 40"))
    was = newest.read_bytes()
    db.rename(kept / "lost.db")
    archive(program, "list-add", "--db", db, "seeds")
    status, said = back_up(1)
    trial.holds("backup.sh: an archive that lost its messages is told, and takes no backup's place", status == 1 and "holds 0 messages" in said and newest.read_bytes() == was, said)
    trial.check("and nothing older goes", len(there()), 7)
    (kept / "lost.db").rename(db)
    text = bytearray(db.read_bytes())
    change_a_text(db)
    status, said = back_up(1)
    trial.holds("backup.sh: a message that stock sqlite3 finds whole and `check` does not is told, and takes no backup's place", status == 1 and "archive.db: archive: E16 Damaged seeds" in said
                and newest.read_bytes() == was and len(there()) == 7, said)
    text[4096:8192] = b"\xa5" * 4096
    db.write_bytes(text)
    status, said = back_up(1)
    trial.holds("backup.sh: a damaged file is told, and nothing older goes", status == 1 and "archive.db: " in said and len(there()) == 7, f"{status} {said[-80:]}")
    trial.check("backup.sh: of copies that were not taken nothing stays", [it.name for it in to.iterdir() if ".new" in it.name], [])
    checked(trial, program, room, newest)
    trial.check("copy.sh: no such file", output(SAMPLES / "copy.sh", room / "none", room / "x"), f"copy.sh: {room / 'none'}: no such file")


def change_a_text(db):
    """Changes the text of the first message, by stock SQLite, and not its key."""
    stock = sqlite3.connect(db)
    stock.execute("UPDATE message SET text = CAST(text || 'x' AS BLOB) WHERE pos = (SELECT min(pos) FROM message)")
    stock.commit()
    stock.close()


def checked(trial, program, room, whole):
    """samples/check.sh: it refuses a file that is not there, and one that is damaged as the program's own check finds."""
    trial.check("check.sh: a file that is not there is refused, and not made", (refused_by(program, SAMPLES / "check.sh", room / "none.db"), (room / "none.db").exists()),
                ((1, f"check.sh: {room / 'none.db'}: no such file"), False))
    shutil.copyfile(whole, room / "filed.db")
    change_a_text(room / "filed.db")
    status, said = refused_by(program, SAMPLES / "check.sh", whole, room / "filed.db")
    trial.holds("check.sh: a damaged file is told, and the other one too", status == 1 and f"{whole}: ok" in said and "filed.db: archive: E16 Damaged seeds" in said, said)
    trial.check("check.sh: no file", refused_by(program, SAMPLES / "check.sh")[0], 2)


def refused_by(program, *words):
    """The status of a sample that calls the program, and what it says."""
    ran = subprocess.run([*map(str, words)], stdin=subprocess.DEVNULL, capture_output=True, text=True, check=False, env={**os.environ, "ARCHIVE": str(program)})
    return ran.returncode, (ran.stdout + ran.stderr).strip()


def moved_in(trial, program, room):
    """samples/from-news.sh, from-public-inbox.py and from-maildir.py: what they do with what goes wrong; what they make of the samples the walk shows."""
    trial.check("from-news.sh: no such folder", ran_to(SAMPLES / "from-news.sh", room / "none"), (1, 0))
    (room / "empty").mkdir()
    trial.check("from-news.sh: a folder without articles", ran_to(SAMPLES / "from-news.sh", room / "empty"), (1, 0))
    spool = room / "spool"
    spool.mkdir()
    # (years that no separator line has, no date at all, a line end that is missing, a folded field)
    for number, date in ((9, "Mon, 1 Jan 2024 10:00:00 +0000"), (10, "Mon, 1 Jan 0099 10:00:00 +0000"), (11, "soon"), (100, "Tue,\n 2 Jan 2024\n\t10:00:00 -0500 (EST)")):
        (spool / str(number)).write_text(f"From: a@example.org\nDate: {date}\nMessage-ID: <{number}@example.org>\n\nText {number}.")
    written = subprocess.run([SAMPLES / "from-news.sh", spool], stdout=subprocess.PIPE, check=True).stdout
    found = [(separator.decode()[7:-1], text.decode().splitlines()[-1]) for _, separator, text in mbox.messages(written.splitlines(True))]
    first, last = "Mon Jan  1 10:00:00 2024", "Tue Jan  2 15:00:00 2024"
    trial.check("from-news.sh: arrivals, and the order of numbers", found, [(first, "Text 9."), (first, "Text 10."), (first, "Text 11."), (last, "Text 100.")])
    archive(program, "list-add", "--db", room / "news.db", "x")
    (room / "news.mbox").write_bytes(written)
    trial.check("the program takes in each of them", archive(program, "import", "--db", room / "news.db", "x", room / "news.mbox"), b"new 4 known 0 too-large 0\n")
    trial.check("from-public-inbox.py: no such repository", ran_to(SAMPLES / "from-public-inbox.py", room / "none"), (1, 0))
    trial.holds("it says so", output(SAMPLES / "from-public-inbox.py", room / "none").endswith(f"from-public-inbox.py: {room / 'none'}: no repository of messages"))
    maildir, folder = room / "maildir", room / "taken"
    for it in (maildir / "new", maildir / "cur", maildir / "tmp", folder):
        it.mkdir(parents=True)
    trial.check("from-maildir.py: nothing is new", ran_to(SAMPLES / "from-maildir.py", maildir, folder), (0, 0))
    (maildir / "new" / "1").write_bytes(b"Subject: x\n\nFrom a@b Mon Jan  8 09:12:47 2024\rnot one\nFrom a@b Mon Jan  8 09:12:47 2024\n\nFrom a@b Mon Jan  8 09:12:47 2024")
    trial.check("a message with a line that would begin another one", output(SAMPLES / "from-maildir.py", maildir, folder), "1 messages, 1 of them with a line that begins another one")
    written = [it for it in folder.iterdir() if it.suffix == ".mbox"]
    trial.holds("it is one message, and in one mbox", len(written) == 1 and len(output(SAMPLES / "mbox.py", "list", written[0]).splitlines()) == 1)
    trial.holds("it is put away", [it.name for it in maildir.glob("*/*")] == ["1:2,"])
    trial.check("from-maildir.py: no Maildir", ran_to(SAMPLES / "from-maildir.py", room / "none"), (1, 0))
    trial.check("mbox.py: no such file", output(SAMPLES / "mbox.py", "list", room / "none"), f"mbox.py: [Errno 2] No such file or directory: '{room / 'none'}'")


def ran_to(*words):
    """The status of a script (1 for any that is not 0), and how much it wrote."""
    ran = subprocess.run([*map(str, words)], stdin=subprocess.DEVNULL, capture_output=True, check=False)
    return int(ran.returncode != 0), len(ran.stdout)


def units(trial):
    """What systemd says of the units; of a unit with a word that is none it has to say something."""
    if trial.has("systemd-analyze"):
        for name in ("archive.service", "archive-once.service", "archive-once.path", "archive-backup.service", "archive-backup.timer",
                     "archive-look.service", "archive-look.timer", "archive-search.service"):
            # (what it begins is this repository's)
            text = (SAMPLES / name).read_text().replace("/opt/archive", str(ROOT)).replace("User=archive", "User=root")
            trial.check(f"systemd-analyze verify {name}", found_in_unit(name, text), [])
            trial.holds(f"and of {name} with a word that is none it says something", found_in_unit(name, text.replace("]\n", "]\nNoSuchWord=1\n")))
        for name in ("archive.service", "archive-once.service", "archive-backup.service", "archive-look.service", "archive-search.service"):
            said = output("systemd-analyze", "security", "--offline=yes", "--no-pager", SAMPLES / name).splitlines()[-1]
            trial.holds(f"exposure of {name}, at most 1.5", float(re.search(r"[0-9.]+(?= [A-Z])", said)[0]) <= 1.5, said)


def called(trial):
    """The scripts of trials and bench can be called; docs/TRIALS.md has each trial, whose head shows all options."""
    scripts = [it for folder in ("trials", "bench") for it in sorted((ROOT / folder).iterdir()) if it.is_file() and it.read_bytes()[:2] == b"#!"]
    trial.check("scripts that cannot be called", [it.name for it in scripts if not os.access(it, os.X_OK)], [])
    trials = {it.name: it for it in scripts if it.parent.name == "trials"}
    rows = re.findall(r"^\| `trials/([a-z_.-]+)", (ROOT / "docs" / "TRIALS.md").read_text(), re.MULTILINE)
    trial.check("trials without a row in docs/TRIALS.md, and rows without a trial", (sorted({*trials} - {*rows}), sorted({*rows} - {*trials})), ([], []))
    for name in sorted(it for it in trials if it.endswith(".py")):
        usage, _, about = output(trials[name], "--help").partition("\n\n")
        head = re.search(rf"^  trials/{name}(?: .*)?$", about, re.MULTILINE)
        options = lambda text: {*re.findall(r"--[a-z-]+", text)} - {"--help"}
        trial.check(f"{name} --help: options that its head lacks, or has and are none", sorted(options(usage) ^ options(head[0] if head else "--none")), [])


def found_in_unit(name, text):
    with tempfile.TemporaryDirectory() as folder:
        file = pathlib.Path(folder) / name
        if name.endswith((".timer", ".path")):
            file.with_suffix(".service").write_text("[Service]\nExecStart=/bin/true\n")
        file.write_text(text)
        return [it for it in output("systemd-analyze", "verify", "--man=no", file).splitlines() if name in it]


def helped(trial):
    """Each sample that is run says what it does, and does nothing else. All of them use the terms of docs/STYLE.md."""
    trial.check("scripts with terms that docs/STYLE.md avoids", [(it.name, found) for it in TERMED if (found := AVOIDED.findall(it.read_text()))], [])
    for script in sorted([*SAMPLES.glob("*.sh"), *SAMPLES.glob("*.py"), *SAMPLES.glob("scale/*.sh"), SAMPLES / "scale" / "front.py", SAMPLES / "search" / "search.py"]):
        ran = subprocess.run([script, "--help"], stdin=subprocess.DEVNULL, capture_output=True, text=True, check=False)
        call = f"  samples/{script.name} " if script.parent == SAMPLES else f"{script.name} "
        trial.check(f"{script.name} --help: status, errors, whether it shows how it is called", (ran.returncode, ran.stderr, call in ran.stdout), (0, "", True))


def sound(trial):
    """What shellcheck says of the scripts."""
    if trial.has("shellcheck"):
        for script in sorted([ROOT / "archive", ROOT / "check", *SAMPLES.glob("*.sh"), *SAMPLES.glob("keep/haproxy.sh"), *SAMPLES.glob("scale/*.sh"),
                              *ROOT.glob("tools/package*.sh"), *ROOT.glob("tools/package/*inst"), *ROOT.glob("tools/package/*rm"), *ROOT.glob("tools/package/*.sh")]):
            trial.check(f"shellcheck {script.name}", output("shellcheck", "-x", script.relative_to(ROOT), cwd=ROOT), "")


def examples():
    """The sample policies, and the examples of docs/POLICY.md, each with its name."""
    page = (ROOT / "docs" / "POLICY.md").read_text().partition("## Examples")[2].partition("\n## ")[0]
    texts = re.findall(r"```toml\n(.*?)```", page, re.DOTALL)
    return {**{it.name: it.read_text() for it in SAMPLES.glob("*.toml")}, **{f"example {at}": text for at, text in enumerate(texts, 1)}}


def tried(program, file, *day):
    """The status of samples/check-policy.sh, what it prints, and how many mails it says that the public should not be shown."""
    ran = subprocess.run([SAMPLES / "check-policy.sh", file, *day], env={**os.environ, "ARCHIVE": str(program)}, capture_output=True, text=True, check=False)
    return ran.returncode, ran.stdout, ran.stdout.count("The public is shown what is withheld: ")


def policies(trial, program, room):
    """Each policy that is shown hides what is withheld from the public, as samples/check-policy.sh finds; of one that does not it says so."""
    for name, text in examples().items():
        (room / "example.toml").write_text(text)
        status, said, shown = tried(program, room / "example.toml")
        trial.check(f"check-policy.sh {name}: status, whether it is tried as a moderator, what the public is shown of what is withheld", (status, "moderator" in said, shown), (0, True, 0))
    (room / "open.toml").write_text('[[rule]]\nname = "all"\neffect = "allow"\n')
    status, said, shown = tried(program, room / "open.toml")
    trial.check("check-policy.sh of a policy that hides nothing: status, denials, lines that say so", (status, said.count("denied"), shown), (0, 0, 6))
    (room / "none.toml").write_text("[[rule]]\n")
    trial.check("check-policy.sh of a text that is no policy", tried(program, room / "none.toml"), (1, "", 0))
    page = (ROOT / "docs" / "POLICY.md").read_text()
    shown = re.search(r"^    samples/check-policy.sh samples/members.toml (\S+)\n\n((?:    .*\n)+)", page, re.MULTILINE)
    trial.check("and of members.toml what docs/POLICY.md shows", tried(program, SAMPLES / "members.toml", shown[1])[1], re.sub("^    ", "", shown[2], flags=re.MULTILINE))


def commands():
    """The program's commands in docs/COMMANDS.md, with the arguments of each."""
    table = next(it for it in (ROOT / "docs" / "COMMANDS.md").read_text().split("\n\n") if it.startswith("| Arguments |"))
    return {command: words for command, words in re.findall(r"^\| `([a-z-]+)( [^`]*)` \|", table, re.MULTILINE) if command != "package"}


def told(trial, program):
    """The help of each command: it has the options and the places that docs/COMMANDS.md has of it, and says what it prints."""
    top = refused(program, "--help")
    trial.check("--help, -h and help are the same", ({refused(program, it) for it in ("-h", "help")}, top[0]), ({top}, 0))
    trial.check("commands of docs/COMMANDS.md that print no answer in one line", sorted({*commands()} - {*ANSWERS}), ["export", "get", "sift"])
    for command, words in commands().items():
        status, said = refused(program, command, "--help")
        trial.check(f"{command} --help is help {command}", (status, refused(program, "help", command)), (0, (status, said)))
        wanted = [*re.findall(r"--[a-z-]+|[A-Z]+", words), *ANSWERS.get(command, [])]
        trial.check(f"{command} --help: what of the page it lacks", [it for it in wanted if it not in said], [])
        trial.holds(f"--help has {command}", re.search(rf"^ +{command} ", top[1], re.MULTILINE))


def completed(trial):
    """What samples/archive.bash offers: of the first word, all that docs/COMMANDS.md has."""
    trial.check("completion of the first word", sorted(offered("./archive", "")), sorted([*commands(), "help", "--help", "--version"]))
    for command, line in commands().items():
        options = {*re.findall(r"--[a-z-]+", line)}
        trial.check(f"completion of the options of {command}", {*offered("archive", command, "--")}, options | {"--help"})
    for words, wanted in ((["./archive", "wi"], ["withdraw"]), (["archive", "help", "ex"], ["export"]), (["archive", "sift", "--st"], ["--standing"]),
                          (["archive", "sift", "--standing", "mo"], ["moderator"]), (["archive", "grant", "--db", "a.db", "mo", "soc", ""], ["member", "subscriber", "moderator"]),
                          (["archive", "revoke", "mo", "soc", "s"], ["subscriber"]), (["archive", "withdraw", "--db", "a.db", "soc", "0" * 64, ""], ["author", "board"]),
                          (["archive", "merge", "soc", ""], ["yes", "no"]), (["archive", "grant", "--db", "a.db", str(SAMPLES / "see")], []),
                          (["archive", "import", "soc", str(SAMPLES / "seeds.m")], [str(SAMPLES / "seeds.mbox")]), (["archive", "get", "--p"], ["--policy", "--person"]),
                          (["archive", "serve", "--policy", str(SAMPLES / "seeds.t")], [str(SAMPLES / "seeds.toml")]), (["archive", "serve", "--port", ""], [])):
        trial.check(f"completion of {' '.join(words[:-1])} {words[-1][-9:]}", offered(*words), wanted)


def offered(*words):
    """What is offered for the last of these words."""
    script = f". {SAMPLES}/archive.bash; COMP_WORDS=(\"$@\"); COMP_CWORD=$(($# - 1)); _archive; printf '%s\\n' \"${{COMPREPLY[@]}}\""
    return output("bash", "-c", script, "bash", *words).split()


def main():
    asked = words_of(__doc__)
    with Trial() as trial:
        units(trial)
        helped(trial)
        sound(trial)
        called(trial)
        completed(trial)
        told(trial, asked.archive)
        for what in (surprises, cutting, policies, backups, moved_in):
            if what in (cutting, policies) or trial.has("sqlite3", what.__name__):
                with tempfile.TemporaryDirectory() as room:
                    room = pathlib.Path(room)
                    (room / "policy.toml").write_text(POLICY.read_text())
                    what(trial, asked.archive, room)


main()
