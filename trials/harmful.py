#!/usr/bin/env python3
"""harmful.py: worked cases of harmful mail and harmful peers, on the built program, over sockets.

  trials/harmful.py [--archive PROGRAM] [--scratch FOLDER]

Identifiers behind thousands of parentheses, a ring of 500 messages, a chain of 2,000, 2,000 references that nobody owns, a
subject and an author of what a page has to escape, each beginning of a head, heads as large as may be and larger, a peer
that goes within its head, one that speaks TLS, one that sends a body with its GET, and another address than 127.0.0.1.
The last line is 'N passed, N failed, N skipped'; status 1 where one failed. Build the program first: ./archive --version.
"""
import hashlib, pathlib, re, socket, tempfile, time

from ground import OPEN, S1, S2, Server, Tally, answered, get, heard, make_list, read_words, words_of

SEPARATOR = b"From a@b Tue Mar  4 10:%02d:%02d 2003\n"


def mails(count, fields):
    """So many messages, a second apart; fields(n) is the header of the nth."""
    return b"".join(SEPARATOR % (n // 60 % 60, n % 60) + fields(n) + b"\n%d\n\n" % n for n in range(count))


def depths(page):
    """The depths of a page's rows, by their classes."""
    return [int(depth) for depth in re.findall(rb'class="d(\d+)"', page)]


def keys_of(mbox):
    """The keys of the messages of an mbox, in its order."""
    return [hashlib.sha256(one.split(b"2003\n", 1)[1][:-1]).hexdigest().encode() for one in re.split(rb"(?<=\n\n)(?=From )", mbox)]


class Archive:
    def __init__(self, program, folder):
        self.program, self.db, self.policy = program, pathlib.Path(folder) / "db", pathlib.Path(folder) / "policy"
        self.policy.write_bytes(OPEN)

    def fill(self, name, mbox):
        make_list(self.program, self.db, name, mbox)

    def serve(self, *requests):
        """What each peer gets, which sends these bytes and no more; the lines of faults; the status."""
        server = Server(self.program, self.db, self.policy, len(requests))
        replies = [answered(server, it) for it in requests]
        status, lines = server.finish()
        return replies, lines, status


def comments(archive):
    """A reference behind 10,000 parentheses: those that stay open are text, those that are closed a comment."""
    for name, before in (("open", b"(" * 10_000), ("closed", b"(" * 10_000 + b")" * 10_000)):
        archive.fill(name, SEPARATOR % (0, 0) + b"Message-ID: <p@x>\n\np\n\n" + SEPARATOR % (0, 1) + b"References: " + before + b"<p@x>\n\nq\n\n")
        (page,), _, _ = archive.serve(get(b"/l/%s/threads" % name.encode()))
        yield f"an identifier behind 10,000 {name} parentheses is read", depths(page) == [0, 1]


def ring(archive):
    mbox = mails(500, lambda n: b"Message-ID: <%d@x>\nReferences: <%d@x>\n" % (n, (n + 1) % 500))
    keys = keys_of(mbox)
    archive.fill("ring", mbox)
    (page,), _, _ = archive.serve(get(b"/l/ring/t/" + keys[7]))
    yield "a ring of 500: 480 rows of class d20", depths(page) == [min(n, 20) for n in range(500)]
    yield "a ring of 500: the last message first", re.findall(rb"/m/([0-9a-f]{64})", page) == keys[::-1]


def chain(archive):
    archive.fill("chain", mails(2000, lambda n: b"Message-ID: <%d@x>\nIn-Reply-To: <%d@x>\n" % (n, n - 1)))
    (page,), _, _ = archive.serve(get(b"/l/chain/threads"))
    yield "a chain of 2,000: each row deeper than the one before", depths(page) == [min(n, 20) for n in range(2000)]


def unowned(archive):
    archive.fill("many", SEPARATOR % (0, 0) + b"References: " + b" ".join(b"<%d@y>" % n for n in range(2000)) + b"\n\nx\n\n")
    (page,), _, _ = archive.serve(get(b"/l/many/threads"))
    yield "2,000 references that nobody owns: one row", depths(page) == [0]


def texts(archive):
    archive.fill("texts", SEPARATOR % (0, 0) + b'Subject: <script>"&\xe9\nFrom: a"b\n\nx\n\n')
    (page,), _, _ = archive.serve(get(b"/l/texts/threads"))
    yield "a harmful subject is shown as text", b">&lt;script&gt;&quot;&amp;?</a>" in page and b"<script" not in page
    yield "a harmful author is shown as text", b'<a href="/l/texts/by/a%22b">a&quot;b</a>' in page


def heads(archive):
    head = get(b"/")
    replies, lines, status = archive.serve(*[head[:n] for n in range(len(head))])
    yield "each beginning of a head, and the end: 400", all(reply[9:12] == b"400" for reply in replies) and not lines and status == 0
    sizes = [b"GET / HTTP/1.1\r\nX: " + b"a" * n + b"\r\n\r\n" for n in (8169, 8170)]
    fields = [b"GET / HTTP/1.1\r\n" + b"a: b\r\n" * n + b"\r\n" for n in (64, 65)]
    replies, _, _ = archive.serve(*sizes, *fields)
    yield "heads of 8,192 and 8,193 bytes, of 64 and 65 fields", [reply[9:12] for reply in replies] == [b"200", b"431", b"200", b"431"]


def gone(archive):
    replies, lines, status = archive.serve(b"GET / HTTP/1.1\r\nHost: ", get(b"/"))
    yield "half a head; the next peer gets its page", b"<h1>Lists</h1>" in replies[1] and len(lines) <= 1 and {*lines} <= {S1, S2} and status == 0


def handshake(archive):
    """A browser that was told https waits for an answer to its handshake."""
    server = Server(archive.program, archive.db, archive.policy, 1)
    peer, begun = server.connect(), time.perf_counter()
    peer.sendall(b"\x16\x03\x01\x02\x00\x01\x00\x01\xfc\x03\x03" + bytes(range(11, 250)))
    reply = heard(peer)
    yield "a TLS handshake is 400, in less than a second", reply[9:12] == b"400" and time.perf_counter() - begun < 1 and server.finish() == (0, [])


def bodies(archive):
    """A GET with a body, which is no part of the request: the reply arrives whole, though the body is not read."""
    archive.fill("large", mails(300, lambda n: b"X: " + b"x" * 4000 + b"\n"))
    server, replies = Server(archive.program, archive.db, archive.policy, 8), []
    for body in [b""] + [bytes(200_000)] * 7:
        peer = server.connect()
        try:
            peer.sendall(b"GET /l/large/mbox HTTP/1.1\r\nContent-Length: %d\r\n\r\n" % len(body) + body)
        except OSError:
            pass
        replies.append(heard(peer))
    yield "a GET with a body of 200 KB gets its reply whole", len(replies[0]) > 1_200_000 and {*replies} == {replies[0]} and server.finish() == (0, [])


def elsewhere(archive):
    """Nobody listens on any other address of this machine."""
    server = Server(archive.program, archive.db, archive.policy, 1)
    addresses = {"127.0.0.2", *(it[4][0] for it in socket.getaddrinfo(socket.gethostname(), None, socket.AF_INET) if it[4][0] != "127.0.0.1")}
    for address in sorted(addresses):
        try:
            socket.create_connection((address, server.port), timeout=5).close()
            answered = True
        except OSError:
            answered = False
        yield f"{address} refuses", not answered
    peer = server.connect()
    peer.sendall(get(b"/"))
    page = heard(peer)
    yield "127.0.0.1 answers", b"<h1>Lists</h1>" in page and server.finish() == (0, [])


def main():
    asked = read_words(words_of(__doc__))
    with Tally() as tally, tempfile.TemporaryDirectory(dir=asked.scratch) as folder:
        archive = Archive(asked.archive, folder)
        for case in (comments, ring, chain, unowned, texts, heads, gone, handshake, bodies, elsewhere):
            for what, good in case(archive):
                if tally.judge(what, [] if good else ["it is not so"]):
                    print(f"ok {what}", flush=True)


if __name__ == "__main__":
    main()
