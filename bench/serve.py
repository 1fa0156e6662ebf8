#!/usr/bin/env python3
"""serve.py: each kind of page of a long list, asked for the first time and again, of a server that keeps its lists in memory.

  bench/serve.py [--archive PROGRAM] [--probe PROGRAM] [--messages 5000 50000] [--rounds 5]

Imports so many messages (bench/gen_mbox.py) into one list of a new file, starts
a server, and asks for each page once and then so many times more; beside it, in
the same run, the bare loop crates/listen_probe writes as many bytes over its
sockets. It prints milliseconds from the connection to the last byte, and the best
of the later ones. Asked for at 50,000: a month, an author and a thread within 2
times a message page, beside what writing their bytes takes; the threads within 2
times what writing their bytes takes.
Build the programs first: ./archive --version, (cd crates/listen_probe && rt run).
"""
import argparse, pathlib, re, subprocess, sys, tempfile, time

from serving import ROOT, Bare, Server, get, heard, make_archive, stop_unless_built

OPEN = '[[rule]]\nname = "all"\neffect = "allow"\n'


def asked(connect, path):
    """The seconds from the connection to the last byte, and what came."""
    begun = time.perf_counter()
    with connect() as peer:
        peer.sendall(get(path))
        reply = heard(peer)
    return time.perf_counter() - begun, reply


def written(probe, size, rounds):
    """The seconds that the bare loop takes for so many bytes."""
    loop = Bare(probe, size)
    best = min(asked(loop.connect, "/")[0] for _ in range(rounds))
    loop.stop()
    return best


def links(page):
    """A path of each kind, as the middle of a page of threads links them."""
    middle = page[len(page) // 2:]
    first = lambda kind, name: f"/l/many/{kind}/" + re.search(rf'/l/many/{kind}/({name})"'.encode(), middle)[1].decode()
    return {"message": first("m", "[0-9a-f]{64}"), "month": first("month", r"\d{4}-\d\d"), "author": first("by", '[^"]+'), "thread": first("t", "[0-9a-f]{64}")}


def measure(words, messages, folder):
    mbox, policy = pathlib.Path(folder) / "mbox", pathlib.Path(folder) / "open.toml"
    policy.write_text(OPEN)
    with open(mbox, "wb") as file:
        subprocess.run([sys.executable, ROOT / "bench" / "gen_mbox.py", "--n", str(messages)], stdout=file, check=True)
    server = Server(words.archive, make_archive(words.archive, folder, mbox, "many"), 1_000_000, policy)
    first, page = asked(server.connect, "/l/many/threads")
    found = {"threads": (first, page)}
    found |= {kind: (*asked(server.connect, path), path) for kind, path in links(page).items()}
    found["threads"] += ("/l/many/threads",)
    best = {kind: min(asked(server.connect, path)[0] for _ in range(words.rounds)) for kind, (_, _, path) in found.items()}
    server.process.kill()
    server.process.wait()
    for kind, (once, reply, _) in sorted(found.items(), key=lambda it: len(it[1][1])):
        loop = written(words.probe, len(reply), words.rounds)
        beside = max(best[kind] - loop, 0) / best["message"]
        print(f"{messages:7} {kind:8} {len(reply):11,} bytes  first {once * 1000:9.2f}  later {best[kind] * 1000:8.2f} ms; bare loop {loop * 1000:8.2f},"
              f" {best[kind] / loop:5.2f} times it; beside its bytes {beside:5.2f} message pages", flush=True)


def main():
    words = argparse.ArgumentParser(description=__doc__.splitlines()[0])
    words.add_argument("--archive", default=ROOT / "crates" / "archive" / "out" / "archive")
    words.add_argument("--probe", default=ROOT / "crates" / "listen_probe" / "out" / "listen_probe")
    words.add_argument("--messages", type=int, nargs="+", default=[5_000, 50_000])
    words.add_argument("--rounds", type=int, default=5)
    given = words.parse_args()
    stop_unless_built(given.archive, given.probe)
    for messages in given.messages:
        with tempfile.TemporaryDirectory() as folder:
            measure(given, messages, folder)


main()
