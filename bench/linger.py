#!/usr/bin/env python3
"""linger.py: peers that have their reply and close a while later: how long the next one waits, and how many are answered in a second.

  bench/linger.py [--archive PROGRAM] [--probe PROGRAM] [--late 0 5 50] [--peers 32 64] [--requests 2000] [--rounds 51]

Serves the sample list, and beside it, in the same run, the bare loop
crates/listen_probe, which writes as many bytes. First one peer has its reply
and closes so many milliseconds late, while the next one asks: the median time
of that one's reply. Then so many peers at once, each of which closes late and
comes again: replies a second. Asked for: the next one waits at most 0.5 ms
longer than behind a peer that closes at once; 64 peers get at least 0.6 of the
bare loop's rate.
Build the programs first: ./archive --version, (cd crates/listen_probe && rt run).
"""
import argparse, statistics, tempfile, threading, time

from serving import ROOT, Bare, Server, get, heard, make_archive, stop_unless_built

PATH = "/l/seeds/threads"


def answered(server):
    """A peer that has its whole reply and has not closed yet."""
    peer = server.connect()
    peer.sendall(get(PATH))
    heard(peer)
    return peer


def next_one(server, late, rounds):
    """The median milliseconds that the next peer waits, behind one that closes so many milliseconds late."""
    waits = []
    for _ in range(rounds):
        first = answered(server)
        closing = threading.Timer(late / 1000, first.close)
        closing.start()
        begun = time.perf_counter()
        answered(server).close()
        waits.append((time.perf_counter() - begun) * 1000)
        closing.join()
    return statistics.median(waits)


def rate(server, peers, late, requests):
    """The replies a second to so many peers at once, each of which closes so many milliseconds late and comes again."""
    def come():
        for _ in range(requests // peers):
            peer = answered(server)
            time.sleep(late / 1000)
            peer.close()

    at_once = [threading.Thread(target=come) for _ in range(peers)]
    begun = time.perf_counter()
    for it in at_once:
        it.start()
    for it in at_once:
        it.join()
    return requests // peers * peers / (time.perf_counter() - begun)


def main():
    words = argparse.ArgumentParser(description=__doc__.splitlines()[0])
    words.add_argument("--archive", default=ROOT / "crates" / "archive" / "out" / "archive")
    words.add_argument("--probe", default=ROOT / "crates" / "listen_probe" / "out" / "listen_probe")
    words.add_argument("--late", type=float, nargs="+", default=[0, 5, 50])
    words.add_argument("--peers", type=int, nargs="+", default=[32, 64])
    words.add_argument("--requests", type=int, default=2000)
    words.add_argument("--rounds", type=int, default=51)
    given = words.parse_args()
    stop_unless_built(given.archive, given.probe)
    with tempfile.TemporaryDirectory() as folder:
        server = Server(given.archive, make_archive(given.archive, folder), 1_000_000)
        with server.connect() as peer:
            peer.sendall(get(PATH))
            size = len(heard(peer))
        bare = Bare(given.probe, size)
        for late in given.late:
            ours, loop = (next_one(it, late, given.rounds) for it in (server, bare))
            print(f"behind a peer that closes {late:g} ms late: {ours:.2f} ms; behind the bare loop's {loop:.2f}", flush=True)
        for peers in given.peers:
            for late in given.late:
                ours, loop = (rate(it, peers, late, given.requests) for it in (server, bare))
                print(f"{peers} peers that close {late:g} ms late: {ours:.0f} a second; the bare loop {loop:.0f}; {ours / loop:.2f} of it", flush=True)
        for it in (server, bare):
            it.process.kill()
            it.process.wait()


main()
