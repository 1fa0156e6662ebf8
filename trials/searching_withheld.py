"""searching_withheld.py: what is withheld is, to who may not read it, as if it had never come; a part of searching.py."""
import contextlib, io, os, pathlib, random, re, sys, time

from trial import SAMPLES, Trial
from searching_site import AUTHOR, KEY, MEMBER, MODERATOR, SECRET, SEEDS, Archive, everything, files_of, said, segments_of, service_of
from archive_search import asking, feed, index, service, view
import mbox

OWN = "".join(f'[[rule]]\nname = "{name}"\neffect = "{effect}"\n{more}\n\n' for name, effect, more in (
    ("moderators", "allow", 'standings = ["moderator"]'), ("mine", "allow", "own = true"), ("withdrawn", "deny", 'withdrawn = ["author", "board"]'),
    ("embargo", "deny", "embargo = true"), ("open", "allow", "")))
CLOSED = '[[rule]]\nname = "members"\neffect = "allow"\nstandings = ["member", "moderator"]\n'
WAYS = {  # how it is withheld, by which policy, on which day, from whom, and who reads it all the same
    "withdrawn by its author": (("withdraw", KEY, "author"), SAMPLES / "seeds.toml", "2024-03-20", [None, MEMBER, AUTHOR], [MODERATOR]),
    "withdrawn by the board": (("withdraw", KEY, "board"), SAMPLES / "seeds.toml", "2024-03-20", [None, MEMBER, AUTHOR], [MODERATOR]),
    "embargoed": (("embargo", KEY, "2024-06-01"), SAMPLES / "seeds.toml", "2024-05-31", [None, MEMBER, AUTHOR], [MODERATOR]),
    "too young for the public": (None, SAMPLES / "members.toml", "2024-03-20", [None, AUTHOR], [MODERATOR, MEMBER]),
    "withdrawn, but its author's own": (("withdraw", KEY, "author"), OWN, "2024-03-20", [None, MEMBER], [MODERATOR, AUTHOR]),
    "of a list for members": (None, CLOSED, "2024-03-20", [None, AUTHOR], [MODERATOR, MEMBER]),
}
OPENED = []  # the files of an index that this process has opened
WORDS = re.compile(rb"thylacine|doubt|wolpertinger|%s" % KEY.encode(), re.IGNORECASE)


def note_opened(event, values):
    if event in ("open", "sqlite3.connect") and isinstance(values[0], (str, bytes, os.PathLike)) and "/seeds/" in (name := os.fsdecode(values[0])):
        OPENED.append(name)


def withheld(trial, program, folder, ways=WAYS):
    """For each way: what is answered is what a list answers to which the message never came, also after others searched."""
    for number, (way, (mark, policy, day, hidden, shown)) in enumerate(ways.items()):
        here = pathlib.Path(folder) / f"way{number}"
        with_it, without = Archive(program, here / "with", SEEDS + SECRET), Archive(program, here / "without", SEEDS)
        if mark:
            with_it.tell(mark[0], "seeds", *mark[1:])
        if isinstance(policy, str):
            (here / "policy.toml").write_text(policy)
            policy = here / "policy.toml"
        with with_it.served(policy, day), without.served(policy, day):
            never = {token: alone(trial, way, here, with_it, without, token) for token in hidden}
            shared = service_of(with_it, here / "shared")
            for token in shown:
                found = said(shared, token, "seeds", {"q": "thylacine"})
                trial.holds(f"{way}: {who(token)} finds it", KEY.encode() in found and b"<mark>thylacine</mark>" in found)
                trial.check("  also by its Message-ID", said(shared, token, "seeds", message_id="quagga@example.net")[:2], (302, {"Location": f"/l/seeds/m/{KEY}"}))
            for token in hidden:
                after_others(trial, way, here, shared, token, never[token])


def who(token):
    return {None: "the public", MODERATOR: "the moderator", MEMBER: "a member", AUTHOR: "its author"}[token]


def alone(trial, way, here, with_it, without, token):
    """A denied reader who is the only one to search: replies and all files of the index. Returns the replies of the other archive."""
    mine, never = everything(service_of(with_it, here / f"own-{token}"), token, "seeds"), everything(service_of(without, here / f"never-{token}"), token, "seeds")
    trial.holds(f"{way}: all that {who(token)} is answered is as if it had never come", mine == never, f"{len(mine)} replies")
    one, other = files_of(here / f"own-{token}/seeds"), files_of(here / f"never-{token}/seeds")
    trial.holds("  and so are the files of the index", one == other, f"{len(one)} files")
    # (the form repeats what was asked)
    rows = [it.partition(b"<h1>")[2].partition(b"<nav")[0] if isinstance(it, bytes) and b"<h1>" in it else repr(it).encode() for it in mine]
    trial.check("  none has a word of it", [it for it in rows if WORDS.search(it)], [])
    return never


def after_others(trial, way, here, shared, token, never):
    """A denied reader who searches after readers that are shown the message: replies, and the files that are opened."""
    OPENED.clear()
    mine = everything(shared, token, "seeds")
    there = {pathlib.Path(it.removeprefix("file://").partition("?")[0]).resolve() for it in OPENED}
    base = (here / "shared/seeds").resolve()
    opened = {str(it.relative_to(base)): it.read_bytes() for it in there if it.is_relative_to(base) and it.is_file()}
    trial.holds(f"{way}: after them {who(token)} is answered the same", mine == never)
    as_never = files_of(here / f"never-{token}/seeds")
    trial.check(f"  and of {len(opened)} files that were opened these are not as if it had never come", [it for it, said_ in opened.items() if as_never.get(it) != said_], [])


def many_withheld(trial, program, folder):
    """Ten times some of the messages are withheld, by chance: the public is answered as by a list of the others, and so are the files."""
    chance, here = random.Random(11), pathlib.Path(folder) / "many"
    those = [(separator + text + b"\n", mbox.key_of(text)) for _, separator, text in mbox.messages((SEEDS + SECRET).splitlines(True))]
    same, hidden = [], []
    for number in range(10):
        gone = set(chance.sample([key for _, key in those], chance.randint(1, 39)))
        with_them = Archive(program, here / f"with{number}", b"".join(text for text, _ in those))
        without = Archive(program, here / f"without{number}", b"".join(text for text, key in those if key not in gone))
        for key in gone:
            with_them.tell(*chance.choice([("withdraw", "seeds", key, "author"), ("withdraw", "seeds", key, "board"), ("embargo", "seeds", key, "2024-05-01")]))
        with with_them.served(), without.served():
            one, other = service_of(with_them, here / f"one{number}"), service_of(without, here / f"other{number}")
            for token in chance.sample([MODERATOR, None], 2):
                replies = everything(one, token, "seeds")
                if token is None:
                    same.append(replies == everything(other, token, "seeds"))
        found = segments_of(here / f"one{number}/seeds")
        same.append(all(found.get(name) == of for name, of in segments_of(here / f"other{number}/seeds").items()))
        hidden.append(len(gone))
    trial.holds("many withheld: as if they had never come, replies and segments", all(same), f"{hidden} of {len(those)} messages")


def changes(trial, program, folder):
    """A message is withdrawn, restored, embargoed; an embargo ends: each counts from the next server's first reply on. A day later its words are gone."""
    of = Archive(program, pathlib.Path(folder) / "changes", SEEDS + SECRET)
    to = service_of(of, of.folder / "index")

    def finds(day="2024-03-20", token=None):
        with of.served(day=day):
            return (b"1 message<" in said(to, token, "seeds", {"q": "thylacine"}), said(to, token, "seeds", message_id="quagga@example.net")[0] == 302,
                    KEY.encode() in said(to, token, "seeds"))

    trial.check("changes: a message that all may read", finds(), (True,) * 3)
    for command, words, wanted in (("withdraw", ("seeds", KEY, "author"), False), ("restore", ("seeds", KEY), True), ("embargo", ("seeds", KEY, "2024-03-25"), False)):
        of.tell(command, *words)
        trial.check(f"changes: {command}", finds(), (wanted,) * 3)
    trial.check("changes: the moderator still finds it", finds(token=MODERATOR), (True,) * 3)
    trial.check("changes: the last day of the embargo, and the next", (finds("2024-03-24"), finds("2024-03-25")), ((False,) * 3, (True,) * 3))
    unused_is_removed(trial, of, to)
    trial.check("changes: it is made again for who may read it", finds(token=MODERATOR), (True,) * 3)


def unused_is_removed(trial, of, to):
    """What no reader needed for a day is removed, and with it the words of an embargoed message."""
    base = of.folder / "index/seeds"
    with of.served():
        before, old = segments_of(base), time.time() - 2 * index.UNUSED
        for it in base.glob("*.seg"):
            os.utime(it, (old, old))
        _, public, _ = to.view(asking.Archive(to.address), "seeds")
        gone = to.tidy()
    left = files_of(base)
    trial.check("changes: a day later the segments that no reader needed are gone", ({f"{it.name}.seg" for it in public.segments}, gone > 0), ({it for it in left if it.endswith(".seg")}, True))
    trial.holds("changes: and so is the text of the embargoed message", not to.index("seeds").texts.has(KEY), f"{len(before)} segments, {gone} went")


def told_times(service_, rounds=150):
    """How long a word takes that a withheld message has, and one that no message has: told, not judged."""
    took = {"thylacine": [], "thylacyne": []}
    for _ in range(rounds):
        for word, them in took.items():
            begin = time.perf_counter()
            said(service_, None, "seeds", {"q": word})
            them.append(time.perf_counter() - begin)
    middle = {word: sorted(them)[rounds // 2] * 1000 for word, them in took.items()}
    print(f"       a word of a withheld message {middle['thylacine']:.3f} ms, a word of none {middle['thylacyne']:.3f} ms (medians of {rounds}, in turn)")


# ---- planted bugs: a trial that does not find them is no trial

@contextlib.contextmanager
def patched(holder, name, made):
    """Puts a wrong function in the place of a right one, which it is given."""
    right = getattr(holder, name)
    setattr(holder, name, made(right))
    try:
        yield
    finally:
        setattr(holder, name, right)


def shared_page(right):
    pages_of = {}
    return lambda self, path: pages_of.setdefault((self.address, path), right(self, path)) if path.endswith("/threads") else right(self, path)


def kept_page(right):
    views = {}

    def view_(self, archive_, name, wait=service.WAIT):
        where = (id(self), archive_.authorization, name)
        if where not in views:
            views[where] = right(self, archive_, name, wait)
        return views[where]
    return view_


def count_over_all(right):
    def found(self, view_, query, seconds=2):
        hits = right(self, view_, query, seconds)
        question = "select count(*) from t where t match ?"
        all_hits = sum(count for it in self.folder.glob("*.seg") for count, in self.asked(it, question, (query.match,), time.monotonic() + 9)) if query.match else 0
        return [*hits, *hits[:1] * (all_hits > len(hits))]
    return found


def named_by_first(right):
    return lambda keys: right(keys[:32])


def every_segment(right):
    def of_message_id(self, view_, message_id, seconds=2):
        everywhere = [it for file in self.folder.glob("*.seg") for it in self.asked(file, "select place from id where message_id = ?", (message_id,), time.monotonic() + 9)]
        return right(self, view_, message_id, seconds) or [0 for _ in everywhere]
    return of_message_id


def feed_of_moderator(right):
    return lambda to, archive_, name: right(to, asking.Archive(archive_.address, f"Bearer {MODERATOR}"), name)


def all_texts_opened(right):
    def get(self, key):
        for file in self.folder.glob("*/*"):
            file.read_bytes()
        return right(self, key)
    return get


PLANTED = {
    "a page shared by readers": (asking.Archive, "get", shared_page),
    "a page that is kept": (service.Service, "view", kept_page),
    "a count over all": (index.Index, "found", count_over_all),
    "segments named by their first message": (view, "name_of", named_by_first),
    "a Message-ID looked up in all segments": (index.Index, "of_message_id", every_segment),
    "a feed that asks as the moderator": (feed, "feed", feed_of_moderator),
    "a search that opens the texts of all": (index.Texts, "get", all_texts_opened),
    "a tidy that removes nothing": (index.Index, "tidy", lambda right: lambda self, now=None: 0),
}


def planted(trial, program, folder):
    """Each planted bug makes the trial fail."""
    mark, policy, day, _, shown = WAYS["withdrawn by its author"]
    one = {"withdrawn by its author": (mark, policy, day, [None], shown)}
    for number, (bug, where) in enumerate(PLANTED.items()):
        failed = failures(lambda quiet, at=number: (withheld(quiet, program, pathlib.Path(folder) / f"bug{at}", one), changes(quiet, program, pathlib.Path(folder) / f"bug{at}")), where)
        trial.holds(f"planted: {bug} makes the trial fail", failed > 0, f"{failed} failures")


def failures(tried, where):
    """How many steps of a trial fail over a planted bug, without a word of them."""
    quiet = Trial()
    with patched(*where), contextlib.redirect_stdout(io.StringIO()):
        try:
            tried(quiet)
        except Exception:  # pylint: disable=broad-except
            quiet.failed += 1
    return quiet.failed


sys.addaudithook(note_opened)
