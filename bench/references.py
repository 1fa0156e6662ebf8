#!/usr/bin/env python3
"""references.py: what a page takes of mails that refer to very many others.

  bench/references.py [--archive PROGRAM] [--mails 12] [--ids 800000] [--scratch FOLDER]

Imports a list of --mails messages, each with --ids identifiers in its References field (4 MB with the defaults), and asks a
server for `/`, the month, the author and the threads, each of a server of its own. It prints the most memory that each server
held, beside what it held for `/`. A month and an author have to take at most 150 MB more than `/`; threads, which keep what a message
refers to, at most 400 MB more. The last line is 'N passed, M failed'; status 1 where one failed.
Build the program first: ./archive --version.
"""
import argparse, pathlib, re, sys, tempfile

from serving import ROOT, Server, archive, get, heard

DAY = "2003-03-20"
POLICY = '[[rule]]\nname = "all"\neffect = "allow"\n'
PAGES = {"/": None, "/l/ids/month/2003-03": 150, "/l/ids/by/a@example.org": 150, "/l/ids/threads": 400}


def mail(place, ids):
    """A message of an mbox with so many identifiers of five bytes."""
    head = f"From a@example.org Tue Mar  4 10:{place:02}:00 2003\nFrom: a@example.org\nMessage-ID: <{place}@m>\nReferences: "
    return head.encode() + b"<a@b>" * ids + b"\nSubject: many\n\nx\n\n"


def held(program, db, policy, path):
    """The most megabytes that a server held which answered one request, and the reply's first line."""
    server = Server(program, db, 2, policy=policy, day=DAY)
    replies = []
    for asked in (path, "/"):
        with server.connect() as peer:
            peer.sendall(get(asked))
            replies.append(heard(peer))
        status = pathlib.Path(f"/proc/{server.process.pid}/status")
        if asked == path:
            most = int(re.search(r"VmHWM:\s+(\d+)", status.read_text())[1]) / 1024
    server.finish()
    return most, replies[0].split(b"\r\n")[0].decode()


def main():
    words = argparse.ArgumentParser(description=__doc__, formatter_class=argparse.RawDescriptionHelpFormatter)
    words.add_argument("--archive", default=str(ROOT / "crates" / "archive" / "out" / "archive"))
    words.add_argument("--mails", type=int, default=12)
    words.add_argument("--ids", type=int, default=800_000)
    words.add_argument("--scratch", help="make files in this folder")
    asked, passed, failed, first = words.parse_args(), 0, 0, None
    with tempfile.TemporaryDirectory(dir=asked.scratch) as folder:
        folder = pathlib.Path(folder)
        policy, mbox, db = folder / "policy.toml", folder / "mbox", folder / "archive.db"
        policy.write_text(POLICY)
        mbox.write_bytes(b"".join(mail(place, asked.ids) for place in range(asked.mails)))
        archive(asked.archive, "list-add", "--db", db, "ids")
        archive(asked.archive, "import", "--db", db, "ids", mbox)
        for path, most in PAGES.items():
            megabytes, line = held(asked.archive, db, policy, path)
            first = megabytes if first is None else first
            is_good = line == "HTTP/1.1 200 OK" and (most is None or megabytes <= first + most)
            passed, failed = passed + is_good, failed + (not is_good)
            print(f"{path:26} {megabytes:6.0f} MB, {megabytes - first:5.0f} more than /" + ("" if is_good else f"  FAILED ({line})"))
    print(f"{passed} passed, {failed} failed")
    sys.exit(1 if failed else 0)


if __name__ == "__main__":
    main()
