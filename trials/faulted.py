#!/usr/bin/env python3
"""faulted.py: every command of the archive, with each call of a kind refused in turn.

  trials/faulted.py [--archive PROGRAM] [--kinds alloc,write,..] [--modes once,from] [--only WORD] [--most 400] [--jobs 2] [--scratch FOLDER]

For each command and each kind of fault it first runs the command without one, and counts the calls (fault.c, which `cc`
builds); then it runs it once for each of them, on a fresh copy of the same files, with that call refused ("once"), or that one
and all after it ("from"). Past --most calls it takes some --most of them, evenly spread. After each run it judges

  end       no signal, no time-out; status 0 or 1 (2 where the words could not be taken from the system)
  answer    at status 0 the whole output that the run without a fault gave; at status 1 a beginning of it, and one line that
            names a refusal that may stand for that fault
  tables    stock SQLite finds the file sound, and in it what was there before, or what the run without a fault left;
            after status 0 the second; of an import a beginning of its messages
  again     the same command once more, without a fault, comes to its end, and then the tables hold what they should

It prints a line for each command and kind, with how often each end came. With --most 150 it takes half an hour, whole some
hours; --scratch takes a folder in memory. The last line is 'N passed, N failed, N skipped'; status 1 where one failed.
Build the program first: ./archive --version.
"""
import collections, hashlib, multiprocessing, os, pathlib, re, shutil, signal, socket, sqlite3, struct, subprocess, tempfile, threading

from ground import DAY, TWO, Tally, built, opened, read_words, words_of
from store import older

KINDS = "alloc read write sync trunc open recv send other disk".split()
COUNTS = [*KINDS, "failed", "killed"]
WHATS = {
    "alloc": ["NOMEM"], "read": ["EIO", "EINTR", "ONE"], "write": ["EIO", "ENOSPC", "EINTR", "ONE"], "sync": ["EIO"],
    "trunc": ["EIO"], "open": ["EIO", "EMFILE"], "recv": ["EIO", "EINTR", "ONE"], "send": ["EIO", "EINTR", "ONE"],
    "other": ["EIO"], "disk": ["KILL", "TORN"],
}
# the refusals that may stand for a fault of a kind
WANT = {"E14", "M3", "G5", "P8", "F5"}
DEVICE = {"E15", "F1", "F2", "F3", "F4", "M2", "G4", "G6", "S1", "S2", "S3"}
MAY = {"alloc": WANT | {"G4", "S3", "E15"}, "other": DEVICE}
# the words could not be taken from the system
UNREAD = ["error: the words of the command line cannot be read"]
MORE = (b"From carl@example.org Wed Mar 12 11:30:00 2003\nSubject: Re: Hello\n\nTwo.\n\n"
        b"From dora@example.org Thu Mar 13 09:00:00 2003\nMessage-ID: <d@example.org>\nReferences: <c@example.org>\n"
        b"Subject: Third\n\nThree.\n\n")
POLICY = (b'[[rule]]\nname = "withdrawn"\neffect = "deny"\nstandings = ["public"]\nwithdrawn = ["author", "board"]\n\n'
          b'[[rule]]\nname = "all"\neffect = "allow"\n')
FIRST = hashlib.sha256(TWO.split(b"2003\n", 1)[1].split(b"\nFrom bob")[0]).hexdigest()
SECOND = hashlib.sha256(b"Subject: Re: Hello\n\nTwo.\n").hexdigest()
TOKEN = "0123456789abcdef"
UNAVAILABLE = (b"HTTP/1.1 503 Service Unavailable\r\nContent-Type: text/plain; charset=us-ascii\r\nContent-Length: 24\r\n"
               b"Connection: close\r\n\r\n503 Service Unavailable\n")


def many(count):
    return b"".join(b"From a@b Tue Mar  4 10:00:00 2003\nSubject: %d\nMessage-ID: <%d@x>\n\n%s\n\n" % (n, n, b"x" * 400) for n in range(count))


class Command:
    """What is run: on which files, with which words, on what input; or a server that is asked two things."""

    def __init__(self, name, words, base="base", stdin=b"", asks=None, changes=False, imports=False, status=0, reply=b"HTTP/1.1 200 "):
        self.name, self.words, self.base, self.stdin, self.asks = name, words.split(), base, stdin, asks
        self.changes, self.imports, self.status, self.reply = changes, imports, status, reply


def request(path, token):
    bearer = f"Authorization: Bearer {token}\r\n" if token else ""
    return f"GET {path} HTTP/1.1\r\nHost: localhost\r\n{bearer}\r\n".encode()


def serves(name, path, token=None, status=200):
    return Command(f"serve {name}", f"serve --db DB --policy POLICY --day {DAY} --port 0 --count 2", asks=request(path, token),
                   reply=b"HTTP/1.1 %d " % status)


DB = "--db DB"
ASK = f"{DB} --policy POLICY --day {DAY}"
COMMANDS = [
    Command("sift", "", None, TWO), Command("sift policy", f"sift --policy POLICY --day {DAY} --min-age 10", None, TWO),
    Command("list-add new file", f"list-add {DB} soc", "none", changes=True),
    Command("list-add", f"list-add {DB} other", changes=True),
    Command("merge", f"merge {DB} soc no", changes=True),
    Command("person-add", f"person-add {DB} eve 0123456789abcdeX", changes=True),
    Command("person-address", f"person-address {DB} anna anna@example.org", changes=True),
    Command("grant", f"grant {DB} anna soc moderator 2003-01-01 2003-12-31", changes=True),
    Command("revoke", f"revoke {DB} anna soc member", changes=True),
    Command("import", f"import {DB} soc MORE", changes=True, imports=True),
    Command("import 600", f"import {DB} soc MANY", changes=True, imports=True),
    Command("withdraw", f"withdraw {DB} soc {FIRST} author", changes=True),
    Command("restore", f"restore {DB} soc {SECOND}", changes=True),
    Command("embargo", f"embargo {DB} soc {FIRST} 2003-06-01", changes=True),
    Command("lift", f"lift {DB} soc {SECOND}", changes=True),
    Command("get", f"get {ASK} soc {FIRST}"), Command("get denied", f"get {ASK} soc {SECOND}", status=1),
    Command("get person", f"get {ASK} --person anna soc {SECOND}"), Command("export", f"export {ASK} --person anna soc"),
    Command("check", f"check {DB}"), Command("check older file", f"check {DB}", "older", changes=True),
    serves("/", "/"), serves("month", "/l/soc/month/2003-03", TOKEN), serves("threads", "/l/soc/threads", TOKEN),
    serves("thread", f"/l/soc/t/{FIRST}"), serves("message", f"/l/soc/m/{FIRST}"), serves("denied", f"/l/soc/m/{SECOND}", status=403),
    serves("author", "/l/soc/by/anna%40example.org"), serves("mbox", "/l/soc/mbox", TOKEN), serves("401", "/", "0123456789abcdeZ", status=401),
]


class Ground:
    """The files of all runs, made without a fault."""

    def __init__(self, program, folder):
        self.program, self.folder = program, pathlib.Path(folder)
        self.library = built("fault.c", folder)
        self.files = {"MORE": MORE, "POLICY": POLICY, "MANY": many(600), "TWO": TWO}
        for name, text in self.files.items():
            (self.folder / name).write_bytes(text)
        (self.folder / "none").mkdir()
        base = self.folder / "base"
        base.mkdir()
        for words in ("list-add --db DB soc", f"person-add --db DB anna {TOKEN}", "import --db DB soc TWO",
                      "grant --db DB anna soc member 2003-01-01 2003-12-31", f"withdraw --db DB soc {SECOND} board",
                      f"embargo --db DB soc {SECOND} 2003-04-01"):
            subprocess.run(self.words(words.split(), base), check=True, stdout=subprocess.DEVNULL)
        (self.folder / "older").mkdir()
        older(base / "db", self.folder / "older" / "db")

    def words(self, words, place):
        named = {"DB": str(place / "db")} | {name: str(self.folder / name) for name in self.files}
        return [self.program, *(named.get(word, word) for word in words)]

    def fresh(self, command, place):
        """A copy of the files that the command begins with."""
        shutil.rmtree(place, ignore_errors=True)
        if command.base:
            shutil.copytree(self.folder / command.base, place)
        else:
            place.mkdir()


def tables(place):
    """What stock SQLite finds in a database: its judgement, and all rows, each by the names of its columns. None where there is no
    file, or nothing in it; so is a file whose making was stopped, whose first byte is 0 until its first page is on the disk."""
    if not (place / "db").exists() or (place / "db").read_bytes()[:1] == b"\0":
        return "ok", None
    try:
        with opened(place) as found:
            found.row_factory = sqlite3.Row
            said = found.execute("PRAGMA integrity_check").fetchone()[0]
            names = [row[0] for row in found.execute("SELECT name FROM sqlite_schema WHERE type = 'table' ORDER BY name") if row[0] != "sqlite_sequence"]
            rows = {name: [dict(row) for row in found.execute(f'SELECT * FROM "{name}" ORDER BY rowid')] for name in names}
            if said == "ok" and names and found.execute("PRAGMA foreign_key_check").fetchall():
                said = "foreign keys"
            return said, rows or None
    except sqlite3.Error as error:
        return f"sqlite3: {error}", None


def shown(rows):
    """Rows with each message's number left out, which may have gaps."""
    if rows is None:
        return None
    return {name: [{key: it for key, it in row.items() if key != "pos"} for row in all_rows] for name, all_rows in rows.items()}


class Run:
    """What came of one run: its status, output, lines of faults, replies, and how many calls of each kind it made."""

    def __init__(self, ground, command, place, fault=None, report=None):
        env = {"PATH": "/usr/bin:/bin"}
        if fault is not None:
            env |= {"LD_PRELOAD": str(ground.library), "FAULT": fault, "FAULT_REPORT": str(report)}
        self.replies = []
        with tempfile.TemporaryFile() as said:
            process = subprocess.Popen(ground.words(command.words, place), stdin=subprocess.PIPE, stdout=subprocess.PIPE, stderr=said, env=env)
            stop = threading.Timer(60, process.kill)
            stop.start()
            self.wait(command, process)
            stop.cancel()
            said.seek(0)
            self.lines = said.read().decode(errors="replace").splitlines()
        self.counts = dict(zip(COUNTS, struct.unpack("12Q", pathlib.Path(report).read_bytes()))) if report else {}

    def wait(self, command, process):
        try:
            if command.asks is None:
                self.output, _ = process.communicate(command.stdin, timeout=60)
            else:
                process.stdin.close()
                line = process.stdout.readline()
                self.ask(command, line)
                self.output = re.sub(rb":\d+", b":PORT", line + process.stdout.read())
                process.wait(timeout=20)
            self.status = process.returncode
        except subprocess.TimeoutExpired:
            process.kill()
            process.wait()
            self.status, self.output = "time-out", b""
        except BrokenPipeError:
            process.wait()
            self.status, self.output = process.returncode, b""

    def ask(self, command, line):
        """Asks twice, where the server listens; a peer that is reset has what it got."""
        found = re.fullmatch(rb"listening on 127\.0\.0\.1:(\d+)\n", line)
        for _ in range(2 if found else 0):
            pieces = []
            try:
                peer = socket.create_connection(("127.0.0.1", int(found[1])), timeout=15)
                peer.sendall(command.asks)
                while piece := peer.recv(65536):
                    pieces.append(piece)
                peer.close()
            except OSError as error:
                pieces.append(b"" if isinstance(error, ConnectionError) else repr(error).encode())
            self.replies.append(b"".join(pieces))

    def told(self):
        """The numbers of the refusals that were told."""
        return [found[1] if (found := re.match(r"archive: ([A-Z]\d+)\b", line)) else line[:60] for line in self.lines]


class Clean:
    """The run without a fault, and the tables before and after it."""

    held = {}

    def __init__(self, ground, command, place):
        ground.fresh(command, place)
        self.before = tables(place)[1]
        self.ran = Run(ground, command, place, "alloc:0:", place.parent / f"{place.name}.report")
        self.after = tables(place)[1]

    def wrong(self, command):
        """What is wrong with it: all others are judged by it."""
        ran, wrong = self.ran, []
        if ran.status != command.status or (ran.status == 0) != (not ran.lines):
            wrong.append(f"status {ran.status}, says {ran.lines}")
        if command.asks is None:
            wrong += ["it prints nothing"] * (not ran.output and ran.status == 0)
        elif len(ran.replies) != 2 or ran.replies[0] != ran.replies[1] or not ran.replies[0].startswith(command.reply):
            wrong.append(f"replies {[it[:40] for it in ran.replies]}")
        return wrong + ["tables"] * ((shown(self.before) != shown(self.after)) != command.changes)

    @classmethod
    def of(cls, ground, command, place):
        if command.name not in cls.held:
            cls.held[command.name] = cls(ground, command, place)
        return cls.held[command.name]


def wrong_answer(command, kind, clean, ran):
    """What is wrong with the output and the lines of a command that serves nobody."""
    told, wrong, whole = ran.told(), [], clean.ran
    if ran.status == 0 == whole.status and ran.output != whole.output:
        wrong.append(f"output {ran.output[:60]!r}")
    if ran.status == 1 and whole.status == 0 and not whole.output.startswith(ran.output):
        wrong.append(f"output is no beginning: {ran.output[:60]!r}")
    # (the line itself may be the write that failed)
    unsaid = kind == "write" and not told
    if ran.status == 1 and told != whole.told() and not unsaid and (len(told) != 1 or told[0] not in MAY.get(kind, DEVICE | WANT)):
        wrong.append(f"says {ran.lines}")
    return wrong + [f"says {ran.lines}"] * (ran.status == 0 and ran.lines != whole.lines)


def wrong_replies(kind, clean, ran):
    """What is wrong with the replies and the lines of a server."""
    told, whole = ran.told(), clean.ran.replies[0]
    if ran.lines == UNREAD:
        return []
    wrong = [f"says {ran.lines}"] * any(number not in MAY.get(kind, DEVICE | WANT) for number in told)
    for reply in ran.replies:
        if not (reply in (whole, UNAVAILABLE) or whole.startswith(reply) and (told or ran.status == 1)):
            wrong.append(f"reply {reply[:80]!r}")
    return wrong + ["status 0 without two replies"] * (ran.status == 0 and len(ran.replies) != 2)


def wrong_import(command, clean, ran, rows):
    """What is wrong with the messages that an import left: a beginning of its own stands behind those that were there."""
    new, old, got = shown(clean.after)["message"], shown(clean.before)["message"], (shown(rows) or {}).get("message")
    done = re.search(r" after (\d+)", " ".join(ran.lines))
    if got is None or got[: len(old)] != old or got != new[: len(got)]:
        return ["messages are no beginning"]
    # (one of the two messages of `import` is known)
    if done and len(got) - len(old) < int(done[1]) - (command.name == "import"):
        return [f"done {done[1]} and {len(got) - len(old)} are there"]
    return ["status 0, and not all messages"] * (ran.status == 0 and got != new)


def wrong_tables(command, clean, ran, rows):
    """What is wrong with the tables of a command that imports nothing: they are as before or as after."""
    is_bare = command.base == "none" and (rows is None or not any(all_rows for name, all_rows in rows.items() if name != "version"))
    if shown(rows) not in (shown(clean.before), shown(clean.after)) and not is_bare:
        return ["tables are neither as before nor as after"]
    return ["status 0, and tables are as before"] * (command.changes and ran.status == 0 and shown(rows) != shown(clean.after))


def judged(command, kind, clean, ran, found):
    """What is wrong with a run, and with what stock SQLite found after it."""
    said, rows = found
    killed = ran.counts["killed"] > 0
    unread = ran.status == 2 and ran.lines == UNREAD and kind == "alloc"
    ends = (-signal.SIGKILL,) if killed else (0, 1)
    wrong = [f"status {ran.status}"] * (ran.status not in ends and not unread)
    if command.asks is None:
        wrong += [] if unread else wrong_answer(command, kind, clean, ran)
    elif not killed:
        wrong += wrong_replies(kind, clean, ran)
    wrong += [f"SQLite finds: {said}"] * (said != "ok")
    return wrong + (wrong_import(command, clean, ran, rows) if command.imports else wrong_tables(command, clean, ran, rows))


def wrong_again(command, clean, again, found):
    """What is wrong with the same command once more."""
    said, rows = found
    if again.status not in (0, 1) or said != "ok":
        return [f"again: status {again.status}, {again.lines}, {said}"]
    if command.changes:
        return [f"again: tables are not as after: {again.lines}"] * (shown(rows) != shown(clean.after))
    return ["again: another answer"] * ((again.output, again.replies) != (clean.ran.output, clean.ran.replies))


def came_of(clean, ran):
    """How a run ended, in words: killed, or its status, its refusals and what its replies were."""
    if ran.counts["killed"]:
        return "killed"
    kinds = ["whole" if it == clean.ran.replies[0] else "503" if it == UNAVAILABLE else "cut" for it in ran.replies]
    return f"{ran.status}:{','.join(ran.told())} {'/'.join(kinds)}".strip()


def one(task):
    """One run with a fault, judged: (the fault, how it ended, what is wrong, whether a call failed)."""
    ground, command, kind, fault, place = task
    place = pathlib.Path(f"{place}-{os.getpid()}")
    clean = Clean.of(ground, command, place)
    ground.fresh(command, place)
    ran = Run(ground, command, place, fault, place.parent / f"{place.name}.report")
    wrong = judged(command, kind, clean, ran, tables(place))
    again = Run(ground, command, place)
    wrong += wrong_again(command, clean, again, tables(place))
    return fault, came_of(clean, ran), wrong, ran.counts["failed"] + ran.counts["killed"] > 0


def faults_of(kind, count, what, mode, most):
    """The faults of a kind, as fault.c reads them: one for each call, or some of them."""
    if mode == "from" and what in ("KILL", "TORN", "EINTR"):
        return []
    return [f"{kind}:{n}{'+' if mode == 'from' else ''}:{what}" for n in range(1, count + 1, max(1, count // most))]


def try_kind(ground, command, kind, faults, pool, tally):
    """A command under these faults of a kind, in a line."""
    came, wrongs, met = collections.Counter(), [], 0
    tasks = [(ground, command, kind, fault, ground.folder / "run") for fault in faults]
    for fault, end, wrong, failed in pool.imap_unordered(one, tasks, chunksize=4):
        came[end] += 1
        met += failed
        if wrong:
            wrongs.append((fault, f"{end}: {wrong}"))
    print(f"  {faults[0]:16} {len(tasks):5}, met {met:5}: " + "; ".join(f"{n} x {end}" for end, n in came.most_common(9)), flush=True)
    tally.judge_all(command.name, len(tasks), sorted(wrongs))
    tally.judge(f"{command.name}, {faults[0]} and the others", ["no call was met"] * (met == 0))


def main():
    words = words_of(__doc__)
    words.add_argument("--kinds", default=",".join(KINDS), help="of calls")
    words.add_argument("--modes", default="once,from", help="one call is refused, or that and all after it")
    words.add_argument("--only", default="", help="the commands whose name this pattern finds")
    words.add_argument("--most", type=int, default=400, help="runs of a command and a kind")
    words.add_argument("--jobs", type=int, default=2, help="at once")
    asked = read_words(words)
    with Tally() as tally, tempfile.TemporaryDirectory(dir=asked.scratch) as folder, multiprocessing.Pool(asked.jobs) as pool:
        if not tally.has("cc", "all of it, for want of cc"):
            return
        ground = Ground(asked.archive, folder)
        for command in COMMANDS:
            if not re.search(asked.only, command.name):
                continue
            clean = Clean.of(ground, command, ground.folder / "run")
            counts = clean.ran.counts
            print(f"== {command.name}: status {clean.ran.status}, " + " ".join(f"{name} {counts[name]}" for name in KINDS if counts[name]), flush=True)
            if not tally.judge(f"{command.name}, without a fault", clean.wrong(command) + ["no call is counted"] * (not counts["alloc"])):
                continue
            for kind in asked.kinds.split(","):
                for what in WHATS[kind]:
                    for mode in asked.modes.split(","):
                        if faults := faults_of(kind, counts[kind], what, mode, asked.most):
                            try_kind(ground, command, kind, faults, pool, tally)


if __name__ == "__main__":
    main()
