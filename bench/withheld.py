#!/usr/bin/env python3
"""withheld.py: what a page of an author without a row takes, by what is withheld of that author.

  bench/withheld.py [--archive PROGRAM] [--rounds 20]

One list holds no mail of the first author, fifty small ones of the second and
one of 8 MB of the third, all withdrawn, and the policy denies them to the
public. The pages are the same bytes. Each is asked for as the first request of
a server of its own, the best of five; then once of a server that was asked for
another author before; and then so many times more in turn with the others. It
prints milliseconds from a new connection to the last byte, and these over
those of the first author. Asked for: 2 as the first request, 1.3 behind any.
Build the program first: ./archive --version.
"""
import argparse, pathlib, sqlite3, sys, tempfile, time

from serving import ROOT, Server, get, heard, make_archive

POLICY = '[[rule]]\nname = "withdrawn"\neffect = "deny"\nwithdrawn = ["author", "board"]\n\n[[rule]]\nname = "all"\neffect = "allow"\n'
AUTHORS = {"empty": (0, 0), "fifty": (50, 200), "large": (1, 8_000_000)}


def mails(author, count, size):
    """An mbox with so many mails of an author, each with a body of about so many bytes."""
    body = (b"x" * 70 + b"\n") * (size // 71)
    for number in range(count):
        yield b"From %b@example.org Tue Mar  4 10:00:00 2003\nFrom: %b@example.org\nSubject: %d\n\n%b\n" % (author, author, number, body)


def asked(server, author):
    """The seconds from the connection to the last byte, and what came."""
    begun = time.perf_counter()
    with server.connect() as peer:
        peer.sendall(get(f"/l/list/by/{author}@example.org"))
        reply = heard(peer)
    return time.perf_counter() - begun, reply


def measure(program, rounds, folder):
    mbox, policy = pathlib.Path(folder) / "mbox", pathlib.Path(folder) / "policy.toml"
    policy.write_text(POLICY)
    mbox.write_bytes(b"".join(mail for author, of in AUTHORS.items() for mail in mails(author.encode(), *of)))
    db = make_archive(program, folder, mbox, "list")
    with sqlite3.connect(db) as changed:
        changed.execute("UPDATE message SET withdrawn = 2")
    changed.close()
    first = {author: min(asked_first(program, db, policy, author) for _ in range(5)) for author in AUTHORS}
    server = Server(program, db, 1_000_000, policy)
    asked(server, "other")
    behind = {author: asked(server, author) for author in AUTHORS}
    if len({len(reply) for _, reply in behind.values()}) != 1:
        sys.exit("the pages are not of one length")
    later = {author: min(times) for author, *times in zip(AUTHORS, *[[asked(server, author)[0] for author in AUTHORS] for _ in range(rounds)])}
    end(server)
    for author, (once, reply) in behind.items():
        print(f"{author:6} {len(reply)} bytes", end="")
        for what, took, least in (("first", first[author], first["empty"]), ("behind", once, behind["empty"][0]), ("later", later[author], later["empty"])):
            print(f"  {what} {took * 1000:8.3f} ms, {took / least:7.2f} times", end="")
        print()


def asked_first(program, db, policy, author):
    """The seconds of the first request of a server."""
    server = Server(program, db, 1_000_000, policy)
    took, _ = asked(server, author)
    end(server)
    return took


def end(server):
    server.process.kill()
    server.process.wait()


def main():
    words = argparse.ArgumentParser(description=__doc__.splitlines()[0])
    words.add_argument("--archive", default=ROOT / "crates" / "archive" / "out" / "archive")
    words.add_argument("--rounds", type=int, default=20)
    given = words.parse_args()
    with tempfile.TemporaryDirectory() as folder:
        measure(given.archive, given.rounds, folder)


main()
