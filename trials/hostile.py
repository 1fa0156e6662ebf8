#!/usr/bin/env python3
"""hostile.py: peers that do harm, and how long the next one waits for its reply.

  trials/hostile.py [--archive PROGRAM] [--only WORD]

Each case starts a server of its own on 127.0.0.1, lets one or more peers do what its name says, and has a last peer ask for all
lists. It measures how long that one waits, beside the time that docs/HTTP.md gives to the peers before it; the reply has to be the
page, the server has to end by itself with status 0, and its lines of faults have to be those of the case; a reply that breaks off has
to end in a reset. Three minutes in all.
The last line is 'N passed, N failed, N skipped'; status 1 where one failed. Build the program first: ./archive --version.
"""
import pathlib, socket, struct, tempfile, threading, time

from trial import Server, Trial, words_of
from serving import archive, get, heard, make_archive

S1, S2 = "archive: S1 Read", "archive: S2 Write"
SLACK = 1.0  # seconds for a machine that does other things
LARGE = "/l/large/mbox"  # a reply that no socket's buffers hold
SENT = 10  # megabytes of it that those buffers hold at most
REPLY = 30 + SENT  # seconds that a whole reply may take of which so much was written


def reset(peer):
    """Closes a connection so that its other end is told of no orderly end."""
    peer.setsockopt(socket.SOL_SOCKET, socket.SO_LINGER, struct.pack("ii", 1, 0))
    peer.close()


def status_of(reply):
    return reply[9:12].decode()


def in_background(call, *words):
    worker = threading.Thread(target=call, args=words, daemon=True)
    worker.start()
    return worker


# Each case's peers get the server, and answer what is kept open until the last peer was answered.

def silent(server):
    return [server.connect()]


def five_silent(server):
    return [server.connect() for _ in range(5)]


def half_a_head(server):
    peer = server.connect()
    peer.sendall(b"GET / HTTP/1.1\r\nHost: ")
    return [peer]


def trickle(peer, seconds):
    try:
        peer.sendall(b"GET / HTTP/1.1\r\nX: ")
        for _ in range(int(30 / seconds)):
            time.sleep(seconds)
            peer.sendall(b"a")
    except OSError:
        pass


def trickling(server):
    peer = server.connect()
    in_background(trickle, peer, 0.5)
    return [peer]


def trickling_slowly(server):
    peer = server.connect()
    in_background(trickle, peer, 4)
    return [peer]


def gone_at_once(server):
    server.connect().close()
    return []


def gone_by_reset(server):
    reset(server.connect())
    return []


def half_a_head_and_gone(server):
    peer = server.connect()
    peer.sendall(b"GET / HTTP/1.1\r\nHost: ")
    reset(peer)
    return []


def gone_in_the_reply(server):
    peer = server.connect()
    peer.sendall(get(LARGE))
    peer.recv(1000)
    reset(peer)
    return []


def never_reads(server):
    peer = server.connect()
    peer.sendall(get(LARGE))
    return [peer]


def drip(peer):
    """Reads a byte each twenty seconds, for as long as the reply may take and longer."""
    try:
        for _ in range(6):
            peer.recv(1)
            time.sleep(20)
    except OSError:
        pass


def reads_by_bytes(server):
    peer = server.connect()
    peer.sendall(get(LARGE))
    in_background(drip, peer)
    return [peer]


def fifty_at_once(server):
    peers = [server.connect() for _ in range(50)]
    for peer in peers:
        peer.sendall(get("/"))
    replies = []
    in_background(lambda: replies.extend(heard(peer) for peer in peers)).join(30)
    assert len(replies) == 50 and all(status_of(reply) == "200" for reply in replies)
    return peers


def a_body_of_a_megabyte(server):
    peer = server.connect()
    peer.sendall(b"POST / HTTP/1.1\r\nContent-Length: 1000000\r\n\r\n" + bytes(1_000_000))
    assert status_of(heard(peer)) == "405"
    return [peer]


def a_head_of_a_megabyte(server):
    peer = server.connect()
    peer.sendall(b"GET / HTTP/1.1\r\nX: " + b"a" * 1_000_000)
    assert status_of(heard(peer)) == "431"
    return [peer]


def pour(peer):
    try:
        while True:
            peer.sendall(bytes(100_000))
    except OSError:
        pass


def a_body_without_end(server):
    peer = server.connect()
    peer.sendall(b"POST / HTTP/1.1\r\n\r\n")
    in_background(pour, peer)
    return [peer]


def a_body_that_trickles(server):
    peer = server.connect()
    peer.sendall(b"POST / HTTP/1.1\r\n\r\n")
    in_background(trickle, peer, 0.3)
    return [peer]


# the peers, how many, the seconds that they may take, and the lines of faults that may be told of them
CASES = [
    (silent, 1, 2, [[S1]]),
    (five_silent, 5, 10, [[S1] * 5]),
    (half_a_head, 1, 5, [[S1]]),
    (trickling, 1, 10, [[S1]]),
    (trickling_slowly, 1, 10, [[S1]]),
    (gone_at_once, 1, 0, [[], [S2]]),
    (gone_by_reset, 1, 0, [[S1]]),
    (half_a_head_and_gone, 1, 0, [[S1]]),
    (fifty_at_once, 50, 0, [[]]),
    (a_body_of_a_megabyte, 1, 1, [[]]),
    (a_head_of_a_megabyte, 1, 1, [[]]),
    (a_body_without_end, 1, 1, [[]]),
    (a_body_that_trickles, 1, 1, [[]]),
    (gone_in_the_reply, 1, 0, [[S2]]),
    (never_reads, 1, REPLY, [[S2]]),
    (reads_by_bytes, 1, REPLY, [[S2]]),
]


# those that need a reply which no socket's buffers hold
ASK_FOR_MUCH = [gone_in_the_reply, never_reads, reads_by_bytes]


def is_reset(peer):
    """Whether a reply that broke off is told from one that ended."""
    try:
        heard(peer)
        return False
    except ConnectionResetError:
        return True


def run_case(program, db, peers, count, most, told):
    """What the last peer waited, what the server said, and whether all is as it shall be."""
    server, kept, replied = Server(program, db, count + 1), [], True
    try:
        kept = peers(server)
    except (AssertionError, OSError):
        replied = False
    begun = time.perf_counter()
    last = server.connect()
    last.sendall(get("/"))
    reply = heard(last)
    waited = time.perf_counter() - begun
    status, lines = server.finish()
    if peers in (never_reads, reads_by_bytes):
        replied = replied and is_reset(kept[0])
    for peer in kept:
        peer.close()
    good = replied and b"<h1>Lists</h1>" in reply and status == 0 and lines in told and waited <= most + SLACK
    return waited, status, lines, good


def make_large(program, folder):
    """A database whose list has an mbox of 20 MB."""
    db = pathlib.Path(folder) / "large.db"
    line = b"A line of a message that is long, and of which there are very many.\n"
    with tempfile.NamedTemporaryFile() as mbox:
        for place in range(5):
            mbox.write(b"From a@example.org Tue Mar  4 10:00:0%d 2003\nSubject: %d\n\n" % (place, place))
            mbox.write(line * 60_000 + b"\n")
        mbox.flush()
        archive(program, "list-add", "--db", db, "large")
        archive(program, "import", "--db", db, "large", mbox.name)
    return db


def main():
    asked = words_of(__doc__, only={"default": "", "help": "the cases whose name has this word"})
    with Trial() as trial, tempfile.TemporaryDirectory() as folder:
        small, large = make_archive(asked.archive, folder), None
        for peers, count, most, told in CASES:
            if asked.only in peers.__name__:
                if peers in ASK_FOR_MUCH:
                    large = large or make_large(asked.archive, folder)
                waited, status, lines, good = run_case(asked.archive, large if peers in ASK_FOR_MUCH else small, peers, count, most, told)
                faults = ", ".join(f"{lines.count(it)} {it[9:]}" for it in (S1, S2) if it in lines) or "none"
                wrong = "" if good else f"; status {status}, {lines}"
                trial.holds(peers.__name__.replace("_", " "), good, f"the next one waits {waited:.2f} s of {most} at most; faults told: {faults}{wrong}")


if __name__ == "__main__":
    main()
