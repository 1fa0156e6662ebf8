#!/usr/bin/env python3
"""withheld_routes.py: what the bytes and the times of a server's replies tell of one message that is withheld.

  trials/withheld_routes.py [--archive PROGRAM] [--mails COUNT] [--rounds COUNT] [--largest BYTES]

It makes archives of COUNT messages in threads of ten: without a certain message, and with that message after three fifths of them, of 60
bytes, of 1 MB, of half of BYTES and of BYTES, withdrawn, which the policy denies; one of which the public is shown nothing, and one without
messages. In each round it asks each route of each server, as the public, in an order by chance; threads and mboxes in each fourth round.

It judges the replies, which have to be the same bytes as where the message never came, but for its own key (403, and 404 where it never
came), and times:

  - The processor time of a route, the median of all rounds after the first, with the message of BYTES: at most 1.1 times that without the
    message, and 0.015 ms. A route that takes 0.05 ms scatters by a quarter of that. To read 16.5 MB takes 24 ms; 0.015 ms is 10 kB.
  - Threads and mbox of the list that shows nothing: at most 1.3 times those of the list without messages.
  - The mbox, read at the port in hundredths: in 40 rounds, the slowest hundredth lies at most 8 times at one place. It takes some thousands
    of messages, because a small mbox stalls where the buffers of the socket are full.

It prints, and does not judge, the processor time of the first request of a server: for the denied key of 1 MB and of BYTES, and for an
absent key; and for threads, without the message of BYTES and with it. These are medians of nine servers each. The database copies the
row of a message with its text, also if nobody reads the text.

Times want the proved program: one with run-time checks reads more. It wants Linux (`/proc`). The last line is 'N passed, N failed, N
skipped'.
"""
import hashlib, pathlib, random, statistics, tempfile, time

from trial import Server, Trial, words_of
from serving import archive, get, heard

POLICY = '[[rule]]\nname = "withdrawn"\neffect = "deny"\nwithdrawn = ["author", "board"]\n\n[[rule]]\nname = "all"\neffect = "allow"\n'
MEMBERS = '[[rule]]\nname = "members"\neffect = "allow"\nstandings = ["member"]\n'
MONTHS = "Jan Feb Mar Apr May Jun Jul Aug Sep Oct Nov Dec".split()
SEPARATOR = "From a@example.org Mon Mar 18 08:00:00 2024\n"
MOST_OF_LARGEST, SLACK = 1.1, 0.015e-3  # (times, and seconds)
MOST_OF_NOTHING = 1.3
WINDOW_ROUNDS, MOST_AT_ONE_PLACE = 40, 8
FIRSTS = 9  # servers whose first request is measured
LONG = ("threads", "mbox")
DICE = random.Random(5)
WORDS = ["".join(DICE.choices("abcdefghijklmnopqrstuvwxyz", k=DICE.randint(2, 9))) for _ in range(3000)]


def mail(at):
    top = at // 10 * 10
    answers = f"In-Reply-To: <m{top}@x>\nReferences: <m{top}@x>\n" if at != top else ""
    body = "\n".join(" ".join(DICE.choices(WORDS, k=10)) for _ in range(24))
    return (f"From: P{at % 200} <p{at % 200}@example.org>\nDate: {at % 28 + 1} {MONTHS[at % 12]} 2023 10:{at % 60:02}:00 +0000\n"
            f"Subject: {'Re: ' if answers else ''}subject {at // 10}\nMessage-ID: <m{at}@x>\n{answers}\n{body}\n")


def withheld(size, top):
    return ("From: Victim <victim@example.org>\nDate: 15 Apr 2023 10:00:30 +0000\nSubject: Re: its subject\nMessage-ID: <w@x>\n"
            f"In-Reply-To: <m{top}@x>\nReferences: <m{top}@x>\n\n" + ("x" * 70 + "\n") * (size // 71 + 1))


def key_of(text):
    return hashlib.sha256(text.encode()).hexdigest()


class Archives:
    """The archives by name, each with its server, once they are served, and the key of its withheld message."""

    def __init__(self, program, folder, asked):
        self.program, self.folder, self.places, self.servers, self.keys = program, folder, {}, {}, {}
        mails = [mail(at) for at in range(asked.mails)]
        at = asked.mails * 3 // 5 // 10 * 10
        self.top, self.after = key_of(mails[at]), key_of(mails[at + 6])
        self.make("never", mails, POLICY)
        for name, size in {"small": 60, "1 MB": 1_000_000, "half": asked.largest // 2, "largest": asked.largest}.items():
            text = withheld(size, at)
            self.keys[name] = key_of(text)
            self.make(name, mails[:at + 6] + [text] + mails[at + 6:], POLICY)
        self.make("nothing shown", mails, MEMBERS)
        self.make("no messages", [], MEMBERS)

    def make(self, name, mails, policy):
        self.places[name] = place = self.folder / name.replace(" ", "-")
        place.mkdir()
        db = place / "archive.db"
        (place / "policy.toml").write_text(policy)
        (place / "mbox").write_text("".join(f"{SEPARATOR}{it}\n" for it in mails))
        archive(self.program, "list-add", "--db", db, "l")
        archive(self.program, "import", "--db", db, "l", place / "mbox")
        if name in self.keys:
            archive(self.program, "withdraw", "--db", db, "l", self.keys[name], "author")

    def begin(self, name):
        """A new server of an archive; a file has one at a time."""
        return Server(self.program, self.places[name] / "archive.db", 1_000_000, self.places[name] / "policy.toml", day="2024-06-01")

    def serve(self):
        self.servers = {name: self.begin(name) for name in self.places}

    def routes(self):
        return {"lists": "/", "threads": "/l/l/threads", "its month": "/l/l/month/2023-04", "its author": "/l/l/by/victim@example.org",
                "its thread": f"/l/l/t/{self.top}", "the next message": f"/l/l/m/{self.after}", "its key": None, "mbox": "/l/l/mbox", "no route": "/nope"}

    def path(self, name, route):
        return self.routes()[route] or f"/l/l/m/{self.keys.get(name, '0' * 64)}"

    def ask(self, name, route):
        return ask(self.servers[name], self.path(name, route))


def ask(server, path):
    """The seconds of the processor that a reply took, the digest of its bytes, and its status."""
    before = processor(server)
    with server.connect() as peer:
        peer.sendall(get(path))
        reply = heard(peer)
    return processor(server) - before, hashlib.sha256(reply).hexdigest(), reply[9:12]


def processor(server):
    """The seconds of the processor that a server has taken, once it waits for the next connection: the system counts no slice before its end."""
    of_it = pathlib.Path(f"/proc/{server.process.pid}")
    while (of_it / "stat").read_text().rpartition(")")[2].split()[0] in "RD":
        pass
    return int((of_it / "schedstat").read_text().split()[0]) / 1e9


def taken(archives, names, routes, rounds, seldom=()):
    """What each route of each archive took and said: the first round fills the cache, and seldom ones are asked in each fourth round."""
    found = {}
    for number in range(rounds + 1):
        for route in (it for it in routes if it not in seldom or number % 4 == 0 or number == 1):
            for name in random.sample(names, len(names)):
                reply = archives.ask(name, route)
                if number:
                    found.setdefault((route, name), []).append(reply)
    return found


def median(those):
    return statistics.median(seconds for seconds, *_ in those)


def one_message(trial, archives, rounds):
    """One withheld message: bytes and times of each route."""
    names = ["never", *archives.keys]
    found = taken(archives, names, archives.routes(), rounds, seldom=LONG)
    for route in archives.routes():
        never = found[route, "never"]
        if route != "its key":
            differ = [name for name in names if {it[1] for it in found[route, name]} != {never[0][1]}]
            trial.check(f"{route}: archives whose reply is another one than where the message never came", differ, [])
        without, times = median(never), {name: median(found[route, name]) for name in archives.keys}
        said = f"{without * 1000:.3f} ms; " + ", ".join(f"{name} {it / without:.2f} times" for name, it in times.items())
        trial.holds(f"{route}: its time tells nothing of the largest message", times["largest"] <= MOST_OF_LARGEST * without + SLACK, said)
    trial.check("its key: what is said of it", {name: found["its key", name][0][2] for name in names}, {"never": b"404"} | dict.fromkeys(archives.keys, b"403"))


def nothing_shown(trial, archives, rounds):
    """A list of which the public is shown nothing, and one without messages."""
    names = ["nothing shown", "no messages"]
    found = taken(archives, names, LONG, rounds)
    for route in LONG:
        trial.check(f"{route} of a list that shows nothing: the reply of one without messages", len({it[1] for name in names for it in found[route, name]}), 1)
        empty, times = median(found[route, "no messages"]), median(found[route, "nothing shown"]) / median(found[route, "no messages"])
        trial.holds(f"{route} of a list that shows nothing: as soon as one without messages", times <= MOST_OF_NOTHING, f"{empty * 1000:.3f} ms, {times:.2f} times")


def hundredths(server, size):
    """The seconds between the first bytes of the hundredths of an mbox."""
    with server.connect() as peer:
        peer.sendall(get("/l/l/mbox"))
        came, firsts = 0, {}
        while piece := peer.recv(65536):
            came += len(piece)
            firsts.setdefault(came * 100 // size, time.perf_counter())
    places = sorted(firsts)
    return {here: firsts[here] - firsts[before] for before, here in zip(places, places[1:])}


def windows(trial, archives):
    """Where in an mbox the slowest hundredth lies, and in how many rounds."""
    with archives.servers["never"].connect() as peer:
        peer.sendall(get("/l/l/mbox"))
        size = len(heard(peer))
    for name in ("never", *archives.keys):
        slowest = [max(those, key=those.get) for those in (hundredths(archives.servers[name], size) for _ in range(WINDOW_ROUNDS))]
        where = statistics.mode(slowest)
        trial.holds(f"mbox, {name}: the slowest hundredth lies nowhere in particular", slowest.count(where) <= MOST_AT_ONE_PLACE,
                    f"hundredth {where} in {slowest.count(where)} of {WINDOW_ROUNDS} rounds")


def first_requests(archives):
    """What the first request of a server takes, for a denied key and for an absent one."""
    for name in ("1 MB", "largest"):
        took = {archives.keys[name]: [], "0" * 64: []}
        for _ in range(FIRSTS):
            for key in took:
                server = archives.begin(name)
                took[key].append(ask(server, f"/l/l/m/{key}"))
                server.kill()
        denied, absent = map(median, took.values())
        print(f"figure the first request of a server for a denied key, {name}: {denied * 1000:.3f} ms, {denied / absent:.2f} times that for an absent key", flush=True)


def first_threads(archives):
    """What the first page of threads of a server takes, where the largest message never came, and where it is withheld."""
    took = {"never": [], "largest": []}
    for _ in range(FIRSTS):
        for name in took:
            server = archives.begin(name)
            took[name].append(ask(server, archives.path(name, "threads")))
            server.kill()
    never, largest = map(median, took.values())
    print(f"figure the first threads of a server, with the largest message withheld: {largest * 1000:.3f} ms, {largest / never:.2f} times those without", flush=True)


def main():
    asked = words_of(__doc__, mails={"type": int, "default": 5000, "help": "how many messages a list has, twenty or more"},
                     rounds={"type": int, "default": 600, "help": "how often each route is asked"},
                     largest={"type": int, "default": 16_500_000, "help": "the bytes of the largest message"})
    with Trial() as trial, tempfile.TemporaryDirectory() as folder:
        archives = Archives(asked.archive, pathlib.Path(folder), asked)
        first_requests(archives)
        first_threads(archives)
        archives.serve()
        one_message(trial, archives, asked.rounds)
        nothing_shown(trial, archives, asked.rounds)
        windows(trial, archives)


if __name__ == "__main__":
    main()
