#!/usr/bin/env python3
"""killed.py: an import that is killed, and a machine that stops; then the same import again.

  trials/killed.py [--archive PROGRAM] [--messages 5000] [--kills 200] [--states 400] [--jobs 2] [--scratch FOLDER]

kill     An import of so many messages is killed (SIGKILL) at so many moments, spread evenly over the time that it takes.
machine  What an import of 1,200 messages asks of its two files is written down (fault.c, which `cc` builds), and the files are
         made as they can stand where the machine stops at one of these calls: of what was written after the last sync of that
         file, nothing, all, or any sectors of 512 bytes. (A write that was synced is there.)
After each, stock SQLite finds the file sound, and in the list a beginning of the messages; the program's check finds it whole, and
its export has just these; the import made again adds exactly the rest. After the last call, and after status 0, all are there.
Fifteen minutes in all.
The last line is 'N passed, N failed, N skipped'; status 1 where one failed. Build the program first: ./archive --version.
"""
import collections, multiprocessing, os, pathlib, random, shutil, sqlite3, struct, subprocess, tempfile, time

from ground import DAY, OPEN, Tally, built, opened, read_words, run, words_of

MACHINE = 1200  # messages of the import on a machine that stops
HELD = {}  # what the workers share: the ground, and the calls of an import


class Ground:
    """What each trial needs: the program, a database with an empty list, an mbox, its messages as texts and as they are exported."""

    def __init__(self, program, folder, count):
        self.program, self.base, self.mbox, self.policy = program, folder / "base", folder / "mbox", folder / "policy"
        self.policy.write_bytes(OPEN)
        shutil.rmtree(self.base, ignore_errors=True)
        self.base.mkdir()
        run(program, "list-add", "--db", self.base / "db", "soc")
        self.whole = [b"From a@b Tue Mar  4 10:00:00 2003\nSubject: %d\nMessage-ID: <%d@x>\n\n%s\n\n" % (n, n, b"y" * (n * 37 % 3000))
                      for n in range(count)]
        self.texts = [one.split(b"2003\n", 1)[1][:-1] for one in self.whole]
        self.mbox.write_bytes(b"".join(self.whole))

    def import_words(self, place):
        return [self.program, "import", "--db", str(place / "db"), "soc", str(self.mbox)]

    def place(self, kind):
        """A folder of this process's own, which is not there."""
        place = self.base.parent / f"{kind}-{os.getpid()}"
        shutil.rmtree(place, ignore_errors=True)
        return place


def found_by_sqlite(place):
    """Stock SQLite's judgement of a copy, and the texts of the messages."""
    try:
        with opened(place) as found:
            said = found.execute("PRAGMA integrity_check").fetchone()[0]
            return said, [row[0] for row in found.execute("SELECT text FROM message ORDER BY pos")]
    except sqlite3.Error as error:
        return f"sqlite3: {error}", []


def judged(ground, place):
    """How many messages are there, and what is wrong."""
    said, got = found_by_sqlite(place)
    wrong = [said] * (said != "ok") + ["no beginning of the messages"] * (got != ground.texts[: len(got)])
    status, exported, lines = run(ground.program, "export", "--db", place / "db", "--policy", ground.policy, "--day", DAY, "soc")
    if (status, exported) != (0, b"".join(ground.whole[: len(got)])):
        wrong.append(f"export: {status} {lines}")
    status, said, lines = run(ground.program, "check", "--db", place / "db")
    if (status, said) != (0, b"ok\n"):
        wrong.append(f"check: {status} {lines}")
    status, report, lines = run(*ground.import_words(place))
    if (status, report.decode()) != (0, f"new {len(ground.texts) - len(got)} known {len(got)} too-large 0\n"):
        wrong.append(f"again: {status} {report} {lines} with {len(got)}")
    said, after = found_by_sqlite(place)
    if said != "ok" or after != ground.texts:
        wrong.append(f"after: {said}, {len(after)} messages")
    return len(got), wrong


def killed(seconds):
    ground = HELD["ground"]
    place = ground.place("kill")
    shutil.copytree(ground.base, place)
    process = subprocess.Popen(ground.import_words(place), stdout=subprocess.DEVNULL)
    time.sleep(seconds)
    process.kill()
    ended = process.wait()
    got, wrong = judged(ground, place)
    wrong += [f"status 0, and {got} are there"] * (ended == 0 and got != len(ground.texts))
    return ("whole" if ended == 0 else "killed"), got, wrong


def calls_of(log):
    """(call, whether of the log, offset or length, bytes) in order."""
    data, at, calls = log.read_bytes(), 0, []
    while at < len(data):
        offset, length = struct.unpack_from("<QQ", data, at + 2)
        calls.append((chr(data[at]), data[at + 1], offset, data[at + 18 : at + 18 + length]))
        at += 18 + length
    return calls


def put(file, call, offset, data):
    """Carries out a truncation, or a write, on the bytes of a file."""
    end = offset if call == "t" else offset if data else 0
    if len(file) < end:
        file.extend(bytes(end - len(file)))
    if call == "t":
        del file[offset:]
    elif data:
        file[offset : offset + len(data)] = data


def put_some(file, call, offset, data, rng):
    """The same where the machine stops: each sector of a write is there or not."""
    if call == "t":
        if rng.random() < 0.5:
            put(file, call, offset, data)
        return
    for start in range(0, len(data), 512):
        if rng.random() < 0.5:
            put(file, call, offset + start, data[start : start + 512])


def state(base, calls, how, rng):
    """The two files as they can stand after these calls: of those behind the last sync of a file none, all, or some are there."""
    files = [bytearray((base / name).read_bytes() if (base / name).exists() else b"") for name in ("db", "db-wal")]
    for which in (0, 1):
        own = [call for call in calls if call[1] == which]
        last = max((i for i, call in enumerate(own) if call[0] == "s"), default=-1)
        for i, (call, _, offset, data) in enumerate(own):
            if i <= last or how == "all":
                put(files[which], call, offset, data)
            elif how == "some":
                put_some(files[which], call, offset, data, rng)
    return files


def stopped(task):
    ground, calls = HELD["ground"], HELD["calls"]
    count, how, seed = task
    place = ground.place("stop")
    place.mkdir()
    db, log = state(ground.base, calls[:count], how, random.Random(seed))
    (place / "db").write_bytes(db)
    if log:
        (place / "db-wal").write_bytes(log)
    got, wrong = judged(ground, place)
    wrong += [f"status 0, and {got} are there"] * (count == len(calls) and got != len(ground.texts))
    return how, got, [f"call {count}: {it}" for it in wrong]


def clean_import(ground, more=None):
    """An import that nothing stops: the seconds that it takes."""
    clean = ground.place("clean")
    shutil.copytree(ground.base, clean)
    begun = time.perf_counter()
    subprocess.run(ground.import_words(clean), check=True, stdout=subprocess.DEVNULL, env={**os.environ, **(more or {})})
    return time.perf_counter() - begun


def kills(ground, count):
    seconds = clean_import(ground) * 1.05
    return [seconds * n / count for n in range(count)]


def calls_asked(ground, library):
    """What an import asks of its files."""
    log = ground.base.parent / "log"
    clean_import(ground, {"LD_PRELOAD": str(library), "FAULT_LOG": str(log)})
    return calls_of(log)


def stops(calls, states):
    """A trial at each sync and truncation, beside it, and at so many other calls."""
    rng = random.Random(1)
    kinds = collections.Counter(call[0] for call in calls)
    print(f"machine: {len(calls)} calls: {dict(kinds)}")
    if not kinds["w"] or not kinds["s"]:
        raise ValueError("the program is not seen to write and sync its files")
    marks = {i + d for i, call in enumerate(calls) if call[0] in "st" for d in (0, 1)}
    marks |= {rng.randrange(len(calls)) for _ in range(states)} | {len(calls)}
    hows = [("none", 0), ("all", 0), ("some", 0), ("some", 1)]
    return [(at, how, seed) for at in sorted(marks) for how, seed in hows]


def try_all(name, work, tasks, jobs, tally):
    ends, there, wrongs = collections.Counter(), collections.Counter(), []
    # (the workers are made here, so that they hold what is shared)
    with multiprocessing.Pool(jobs) as pool:
        for end, got, wrong in pool.imap_unordered(work, tasks, chunksize=2):
            ends[end] += 1
            there[got] += 1
            if wrong:
                wrongs.append((end, wrong))
    print(f"{name}: {len(tasks)} times: {dict(ends)}; messages found: {dict(sorted(there.items()))}", flush=True)
    tally.judge_all(name, len(tasks), wrongs)
    tally.judge(f"{name}: where it stopped", ["all or none were there each time"] * (len(there) < 3))


def main():
    words = words_of(__doc__)
    words.add_argument("--messages", type=int, default=5000, help="of the import that is killed")
    words.add_argument("--kills", type=int, default=200, help="how often; 0 leaves it out")
    words.add_argument("--states", type=int, default=400, help="at how many calls the machine stops, beside its syncs; 0 leaves it out")
    words.add_argument("--jobs", type=int, default=2, help="at once")
    asked = read_words(words)
    with Tally() as tally, tempfile.TemporaryDirectory(dir=asked.scratch) as folder:
        folder = pathlib.Path(folder)
        if asked.kills:
            HELD["ground"] = Ground(asked.archive, folder, asked.messages)
            try_all("kill", killed, kills(HELD["ground"], asked.kills), asked.jobs, tally)
        if asked.states and tally.has("cc", "a machine that stops"):
            HELD["ground"] = Ground(asked.archive, folder, MACHINE)
            HELD["calls"] = calls_asked(HELD["ground"], built("fault.c", folder))
            try_all("machine", stopped, stops(HELD["calls"], asked.states), asked.jobs, tally)


if __name__ == "__main__":
    main()
