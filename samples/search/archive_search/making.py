"""Makes the segments of a view that are not there, while readers are told how far that is."""
import hashlib, sys, threading

from .asking import Refused, Waiting
from .index import Missing

MANY = 200  # messages that are asked for one by one; for more the mbox of the list is
TRIES = 3  # requests for a message that the page named
MOST = 16  # views that wait for their turn


class Making(threading.Thread):
    """Makes what is missing of one view, by asking the archive as a reader who is shown all of it. Only one is at work at a time."""

    turn = threading.Lock()

    def __init__(self, archive, name, index, view):
        super().__init__(daemon=True)
        self.archive, self.list, self.index, self.view = archive, name, index, view
        self.failed, self.read, self.indexed, self.wanted = False, 0, 0, 0

    def run(self):
        try:
            with self.turn:
                self.make()
        except (Refused, Missing):
            # (the archive ends, or shows something else now: the next request asks it again)
            self.failed = True
        except Exception as fault:  # pylint: disable=broad-except
            print(f"search.py: the index of {self.list} cannot be made: {fault!r}", file=sys.stderr, flush=True)
            self.failed = True

    def make(self):
        missing = self.index.missing(self.view)
        keys = [self.view.key(place) for it in missing for place in range(it.first, it.end)]
        self.wanted = len(keys)
        self.take([it for it in keys if not self.index.texts.has(it)])
        self.read = self.wanted
        for segment in missing:
            self.index.make(self.view, segment)
            self.indexed += segment.end - segment.first

    def take(self, keys):
        """Takes in the texts of messages: by the mbox of the list if they are many, and one by one those that it has not."""
        self.read = self.wanted - len(keys)
        if len(keys) > MANY:
            left = set(keys)
            for raw in self.archive.messages(self.list, self.index.folder):
                if (key := hashlib.sha256(raw).hexdigest()) in left:
                    left.remove(key)
                    self.put(key, raw)
            keys = left
        for key in keys:
            self.put(key, self.message(key))

    def message(self, key):
        """Returns the text of one message. If several copies of an archive answer in turn, one that denies it is not the one that named it."""
        for left in reversed(range(TRIES)):
            try:
                return self.archive.get(f"/l/{self.list}/m/{key}")
            except Refused as said:
                if said.status not in (403, 404) or not left:
                    raise

    def put(self, key, raw):
        self.index.texts.put(key, raw)
        self.read += 1

    def progress(self):
        if not self.wanted:
            return f"The search of {self.list} is being prepared; another list comes first."
        return (f"The search of {self.list} is being prepared: of {self.wanted:,} messages that are new to it, "
                f"{self.read:,} are read and {self.indexed:,} are indexed.")


class Makings:
    """What is being made, by the segments of the view: readers who are shown the same wait for one making."""

    def __init__(self):
        self.lock, self.makings = threading.Lock(), {}

    def wait(self, archive, name, index, view, seconds):
        """Waits until the segments of a view are there, for `seconds` at most; then the reader has to come back."""
        making = self.making(archive, name, index, view)
        making.join(seconds)
        if making.is_alive():
            raise Waiting(making.progress(), 3)
        if making.failed:
            raise Waiting(f"The search of {name} could not be prepared; it is tried again.", 10)

    def making(self, archive, name, index, view):
        of_it = (name, *(it.name for it in view.segments))
        with self.lock:
            self.makings = {key: it for key, it in self.makings.items() if it.is_alive()}
            if of_it not in self.makings:
                if len(self.makings) >= MOST:
                    raise Waiting("Too many readers wait for a search to be prepared.", 30)
                making = self.makings[of_it] = Making(archive, name, index, view)
                making.start()
            return self.makings[of_it]
