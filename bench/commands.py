#!/usr/bin/env python3
"""commands.py: what each command costs on a long list.

  bench/commands.py [--archive PROGRAM] [--messages 50000] [--rounds 3]

Imports so many messages (bench/gen_mbox.py) into one list of a new file, and
then times one run of each command over it, from the shell's point of view:
opening the file, which reads and checks all of it, is in each. Then it starts a
server and times one request of each kind. Best of so many rounds, in seconds.
Build the program first: ./archive --version.
"""
import argparse, pathlib, subprocess, sys, tempfile, time

from serving import DAY, ROOT, SAMPLES, Server, archive, get, heard

POLICY = SAMPLES / "seeds.toml"


def timed(call):
    begun = time.perf_counter()
    result = call()
    return time.perf_counter() - begun, result


def tell(what, seconds, note=""):
    print(f"{what:44} {seconds:8.2f} s  {note}", flush=True)


def commands(program, db, one, rounds):
    """Each command, as often as it may be repeated."""
    key = some_key(program, db)
    policy = ["--policy", POLICY, "--day", DAY]
    repeated = [
        ("import of one message that is known", ["import", "--db", db, "many", one]),
        ("embargo", ["embargo", "--db", db, "many", key, "2003-01-01"]),
        ("get", ["get", "--db", db, *policy, "many", key]),
        ("export of all", ["export", "--db", db, *policy, "many"]),
        ("check", ["check", "--db", db]),
    ]
    once = [("list-add", ["list-add", "--db", db, "other"]), ("withdraw", ["withdraw", "--db", db, "many", key, "board"])]
    for what, words in once:
        tell(what, timed(lambda: archive(program, *words))[0])
    archive(program, "restore", "--db", db, "many", key)
    for what, words in repeated:
        found = [timed(lambda: archive(program, *words)) for _ in range(rounds)]
        tell(what, min(seconds for seconds, _ in found), f"{len(found[0][1]):,} bytes of output")
    return key


def some_key(program, db):
    """The key of a message, as its page of threads links it."""
    server = Server(program, db, 1)
    with server.connect() as peer:
        peer.sendall(get("/l/many/threads"))
        page = heard(peer)
    server.finish()
    return page.partition(b"/l/many/m/")[2][:64].decode()


def requests(program, db, key, rounds):
    paths = ["/", f"/l/many/m/{key}", "/l/many/month/2003-02", f"/l/many/t/{key}", "/l/many/threads", "/l/many/mbox"]
    seconds, server = timed(lambda: Server(program, db, len(paths) * rounds))
    tell("serve, to its first line", seconds)
    for path in paths:
        found = []
        for _ in range(rounds):
            with server.connect() as peer:
                peer.sendall(get(path))
                found.append(timed(lambda: heard(peer)))
        tell(f"request for {path[:30]}", min(seconds for seconds, _ in found), f"{len(found[0][1]):,} bytes")
    status, lines = server.finish()
    if status != 0 or lines:
        raise SystemExit(f"the server ended with {status}, {lines}")


def main():
    words = argparse.ArgumentParser(description=__doc__.splitlines()[0])
    words.add_argument("--archive", default=ROOT / "crates" / "archive" / "out" / "archive")
    words.add_argument("--messages", type=int, default=50_000)
    words.add_argument("--rounds", type=int, default=3)
    asked = words.parse_args()
    with tempfile.TemporaryDirectory() as folder:
        mbox, one, db = (pathlib.Path(folder) / name for name in ("many.mbox", "one.mbox", "archive.db"))
        generator = [sys.executable, ROOT / "bench" / "gen_mbox.py", "--n"]
        subprocess.run([*generator, str(asked.messages), "--out", mbox], check=True, stderr=subprocess.DEVNULL)
        text = mbox.read_bytes()
        one.write_bytes(text[: text.index(b"\n\nFrom ") + 2])
        archive(asked.archive, "list-add", "--db", db, "many")
        seconds, said = timed(lambda: archive(asked.archive, "import", "--db", db, "many", mbox))
        tell("import of all", seconds, f"{mbox.stat().st_size:,} bytes, {said.decode().strip()}")
        tell("import of all again", timed(lambda: archive(asked.archive, "import", "--db", db, "many", mbox))[0])
        key = commands(asked.archive, db, one, asked.rounds)
        requests(asked.archive, db, key, asked.rounds)
        tell("the file", 0, f"{db.stat().st_size:,} bytes")


main()
