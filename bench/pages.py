#!/usr/bin/env python3
"""pages.py: how fast pages go out over sockets, beside a static server and a bare loop in the same run.

  bench/pages.py [--archive PROGRAM] [--probe PROGRAM] [--requests 20000] [--seconds 5] [--rounds 3]

The page of one message, and that of all threads, of the sample list of forty
mails: served by the program, by nginx (one worker, no log) from a file with the
same bytes, and by the program crates/listen_probe, a bare loop in the same
language that answers each connection with as many bytes and looks at nothing.
ab asks with one client, and a new connection for each request; wrk with one
connection at a time and with eight, each closed by the server. It prints
requests a second, and ratios; asked for is, for the message page at one client,
at least half of what the bare loop reaches.
Build the programs first: ./archive --version, (cd crates/listen_probe && rt run).
"""
import argparse, pathlib, re, subprocess, sys, tempfile, time

from serving import ROOT, Server, get, heard, make_archive, stop_unless_built

MESSAGE = "42878bd42d7da5eafb1b26a55e1c580b1b633248c93a5927c5f4467c406221ec"
PAGES = {"message": f"/l/seeds/m/{MESSAGE}", "threads": "/l/seeds/threads"}

NGINX = """worker_processes 1; daemon off; pid {folder}/pid; error_log {folder}/error.log;
events {{ worker_connections 1024; }}
http {{
  access_log off; sendfile on; tcp_nopush on; keepalive_timeout 0; default_type message/rfc822;
  client_body_temp_path {folder}/a; proxy_temp_path {folder}/b; fastcgi_temp_path {folder}/c;
  uwsgi_temp_path {folder}/d; scgi_temp_path {folder}/e;
  server {{ listen 127.0.0.1:{port}; root {folder}/texts; }}
}}
"""


def output(*words):
    return subprocess.run([*map(str, words)], stdout=subprocess.PIPE, stderr=subprocess.STDOUT, text=True).stdout


def ab(url, requests):
    """Requests a second at one client."""
    said = output("ab", "-q", "-n", requests, "-c", 1, url)
    failed = re.search(r"Failed requests:\s+(\d+)", said)
    if not failed or failed[1] != "0":
        raise SystemExit(said)
    return float(re.search(r"Requests per second:\s+([\d.]+)", said)[1])


def wrk(url, clients, seconds):
    said = output("wrk", "-t1", f"-c{clients}", f"-d{seconds}s", "-H", "Connection: close", url)
    if "Non-2xx" in said:
        raise SystemExit(said)
    return float(re.search(r"Requests/sec:\s+([\d.]+)", said)[1])


def body_of(server, path):
    with server.connect() as peer:
        peer.sendall(get(path))
        return heard(peer).partition(b"\r\n\r\n")[2]


def measure(url, asked):
    return [ab(url, asked.requests), wrk(url, 1, asked.seconds), wrk(url, 8, asked.seconds)]


class Static:
    """nginx over the files of a folder."""

    def __init__(self, folder, texts):
        folder = pathlib.Path(folder)
        for path, body in texts.items():
            file = folder / "texts" / path.lstrip("/")
            file.parent.mkdir(parents=True, exist_ok=True)
            file.write_bytes(body)
        self.port = 18431
        (folder / "nginx.conf").write_text(NGINX.format(folder=folder, port=self.port))
        folder.chmod(0o755)
        self.process = subprocess.Popen(["nginx", "-c", folder / "nginx.conf", "-e", folder / "error.log"])
        time.sleep(1)

    def stop(self):
        self.process.terminate()
        self.process.wait()


def bare(probe, size):
    process = subprocess.Popen([probe, "10000000", str(size)], stdout=subprocess.PIPE, text=True)
    return process, int(process.stdout.readline())


def stop(process):
    process.kill()
    process.wait()


def one_round(asked, folder, db):
    """For each page, the requests a second of each server by each way of asking."""
    server = Server(asked.archive, db, 1_000_000)
    texts = {path: body_of(server, path) for path in PAGES.values()}
    static = Static(folder, texts)
    found = {}
    for name, path in PAGES.items():
        process, port = bare(asked.probe, len(texts[path]))
        ports = {"archive": server.port, "nginx": static.port, "bare loop": port}
        found[name] = {who: measure(f"http://127.0.0.1:{port}{path}", asked) for who, port in ports.items()}
        stop(process)
    static.stop()
    stop(server.process)
    return found


def best(rounds, page, who):
    return [max(found[page][who][way] for found in rounds) for way in range(3)]


def main():
    words = argparse.ArgumentParser(description=__doc__.splitlines()[0])
    words.add_argument("--archive", default=ROOT / "crates" / "archive" / "out" / "archive")
    words.add_argument("--probe", default=ROOT / "crates" / "listen_probe" / "out" / "listen_probe")
    words.add_argument("--requests", type=int, default=20_000)
    words.add_argument("--seconds", type=int, default=5)
    words.add_argument("--rounds", type=int, default=3)
    asked = words.parse_args()
    stop_unless_built(asked.archive, asked.probe)
    rounds = []
    for _ in range(asked.rounds):
        with tempfile.TemporaryDirectory() as folder:
            rounds.append(one_round(asked, folder, make_archive(asked.archive, folder)))
    print(f"{'page':10} {'':12} {'ab, 1':>9} {'wrk, 1':>9} {'wrk, 8':>9}   requests a second, best of {asked.rounds}")
    for page in PAGES:
        ours = best(rounds, page, "archive")
        for who in ("archive", "nginx", "bare loop"):
            theirs = best(rounds, page, who)
            ratios = "" if who == "archive" else "   archive reaches " + ", ".join(
                f"{mine / other:.2f}" for mine, other in zip(ours, theirs))
            print(f"{page:10} {who:12} " + " ".join(f"{rate:9.0f}" for rate in theirs) + ratios)
    half = best(rounds, "message", "archive")[0] / best(rounds, "message", "bare loop")[0]
    sys.exit(0 if half >= 0.5 else 1)


main()
