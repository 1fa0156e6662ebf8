"""What the archive's page of all threads names to one reader: the messages by date, and the segments into which they are cut."""
import array, bisect, collections, hashlib, re, threading

FORM = b"1"  # of segments; another form has other names, so that all are made again
LARGEST = 4096  # messages of a segment
ROW = re.compile(rb'^<div class="d\d+"><a href="/l/[^"]*/month/[^"]*">(\d{4}-\d\d-\d\d \d\d:\d\d)</a> .*/t/([0-9a-f]{64})">thread</a></div>$', re.MULTILINE)

Segment = collections.namedtuple("Segment", "name first end")


class View:
    """
    The messages of a page, each at a place: the oldest is at 0.

    `is_cut` says of a key whether a segment ends with it. The page itself is not part of a view, so a row is asked for with the page.
    """

    def __init__(self, page, is_cut):
        found = sorted((row[1], bytes.fromhex(row[2].decode()), row.start(), row.end()) for row in ROW.finditer(page))
        self.count = len(found)
        self.dates = b"".join(date for date, *_ in found)
        self.keys = b"".join(key for _, key, *_ in found)
        self.spans = array.array("L", (at for *_, begin, end in found for at in (begin, end)))
        self.segments = self.cut(is_cut)

    def cut(self, is_cut):
        segments, first = [], 0
        for place in range(self.count):
            end = place + 1
            if end == self.count or end - first == LARGEST or is_cut(self.keys[32 * place:32 * end]):
                segments.append(Segment(name_of(self.keys[32 * first:32 * end]), first, end))
                first = end
        return segments

    def date(self, place):
        return self.dates[16 * place:16 * place + 16].decode()

    def key(self, place):
        return self.keys[32 * place:32 * place + 32].hex()

    def row(self, page, place):
        """Returns the line of a message in the page of which the view was made."""
        return page[self.spans[2 * place]:self.spans[2 * place + 1]]

    def dated(self, since, until):
        """Returns the places of the messages that were sent in these days, which both may be beginnings of `yyyy-mm-dd`."""
        return range(bisect.bisect_left(range(self.count), since, key=self.date), bisect.bisect_right(range(self.count), until + "\x7f", key=self.date))


def name_of(keys):
    return hashlib.blake2b(FORM + keys, digest_size=16).hexdigest()


class Views:
    """
    The views of the last pages, by the digest of the page, so that a page that comes again is not read again.

    The page is asked for at each search, and a view is found by all of its bytes: so this changes no reply.
    """

    MOST_ROWS = 1_000_000  # of all views together, some 70 bytes each

    def __init__(self):
        self.lock, self.views, self.rows = threading.Lock(), collections.OrderedDict(), 0

    def of(self, name, page, is_cut):
        digest = hashlib.blake2b(page, key=name.encode()).digest()
        with self.lock:
            if digest in self.views:
                self.views.move_to_end(digest)
                return self.views[digest]
        view = View(page, is_cut)
        with self.lock:
            self.keep(digest, view)
        return view

    def keep(self, digest, view):
        if digest in self.views or view.count > self.MOST_ROWS:
            return
        self.views[digest], self.rows = view, self.rows + view.count
        while self.rows > self.MOST_ROWS or len(self.views) > 1000:
            _, oldest = self.views.popitem(last=False)
            self.rows -= oldest.count
