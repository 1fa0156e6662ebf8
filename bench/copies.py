#!/usr/bin/env python3
"""copies.py: what copies of a file cost: to open, to hold, to ask, directly, behind HAProxy and behind nginx.

  bench/copies.py [--archive PROGRAM] [--mails 300 5000 25000 100000] [--asked 5000] [--rounds 3] [--seconds 2] [--clients 16] [--figures FILE]

For each number of mails (bench/gen_mbox.py, in lists of at most 25,000) a file is made, and told: its texts, its bytes on the disk, what a
command takes of a processor, what a server takes to open it, and what the server holds then and once all threads were asked for.
Then four servers, each of a copy of a file with --asked mails, stand behind HAProxy and behind nginx, one, two and four of them, and wrk
asks for the page of a message, of a thread and of all threads: of one server directly, and through each proxy, always for the same page
by --clients at once; and "in turn" through HAProxy for 48 pages, one after the other, as servers are asked that stand idle in between,
which takes more of a processor. All take turns, for so many rounds. Beside the best rate stands what a request took of a processor, in
microseconds, in the servers and in the proxy: of rates a busy machine says little. Last, one server of four is killed behind each proxy,
and what failed is counted. --figures gets all of it as JSON, for bench/sheet.py. It wants wrk, haproxy and nginx.
"""
import argparse, datetime, json, os, pathlib, re, resource, shutil, socket, statistics, subprocess, sys, tempfile, time

from serving import ROOT, archive

HAPROXY = """global
  nbthread 2
  maxconn 4000
defaults
  mode http
  timeout connect 2s
  timeout client 60s
  timeout server 60s
  timeout queue 60s
  timeout check 30s
  option http-server-close
  retries 3
  option redispatch 1
  retry-on all-retryable-errors
"""
NGINX = """user root;
worker_processes 2;
pid {folder}/nginx.pid;
error_log {folder}/nginx.errors;
events {{ worker_connections 2000; }}
http {{
  access_log off;
  client_body_temp_path {folder}/t1; proxy_temp_path {folder}/t2; fastcgi_temp_path {folder}/t3; uwsgi_temp_path {folder}/t4; scgi_temp_path {folder}/t5;
"""
# wrk asks for these pages one after the other
IN_TURN = """local pages, at = {{ {pages} }}, 0
request = function()
  at = at % #pages + 1
  return wrk.format("GET", pages[at])
end
"""
MANY = (1, 2, 4)
SERVERS = 4
LONGEST_LIST = 25_000


def begin(*words):
    return subprocess.Popen([str(word) for word in words], stdout=subprocess.DEVNULL, stderr=subprocess.DEVNULL)


def free_ports(count):
    peers = [socket.create_server(("127.0.0.1", 0)) for _ in range(count)]
    ports = [it.getsockname()[1] for it in peers]
    for it in peers:
        it.close()
    return ports


def get(port, path):
    with socket.create_connection(("127.0.0.1", port), timeout=300) as peer:
        peer.sendall(f"GET {path} HTTP/1.0\r\n\r\n".encode())
        pieces = []
        while piece := peer.recv(65536):
            pieces.append(piece)
    return b"".join(pieces).partition(b"\r\n\r\n")[2]


def wait(port, seconds=300):
    end = time.monotonic() + seconds
    while time.monotonic() < end:
        try:
            return get(port, "/")
        except OSError:
            time.sleep(0.1)
    sys.exit(f"copies.py: nobody answers on {port}")


def spent(processes):
    """The seconds of a processor that these and their children took."""
    ids, total = {process.pid for process in processes}, 0
    for stat in pathlib.Path("/proc").glob("[0-9]*/stat"):
        try:
            words = stat.read_text().rpartition(")")[2].split()
        except OSError:
            continue
        if int(stat.parent.name) in ids or int(words[1]) in ids:
            total += int(words[11]) + int(words[12])
    return total / os.sysconf("SC_CLK_TCK")


def held(process):
    """The bytes that a process holds."""
    return int(re.search(r"VmRSS:\s+(\d+)", pathlib.Path(f"/proc/{process.pid}/status").read_text())[1]) * 1024


def of_a_processor(do):
    """The seconds of a processor that a program took."""
    before = resource.getrusage(resource.RUSAGE_CHILDREN)
    do()
    after = resource.getrusage(resource.RUSAGE_CHILDREN)
    return after.ru_utime + after.ru_stime - before.ru_utime - before.ru_stime


def made(program, folder, mails):
    """The file with so many mails, and the bytes of their texts."""
    db, texts = folder / f"{mails}.db", 0
    for number, first in enumerate(range(0, mails, LONGEST_LIST)):
        mbox, name = folder / "mbox", f"list{number}"
        subprocess.run([sys.executable, ROOT / "bench" / "gen_mbox.py", "--n", str(min(LONGEST_LIST, mails - first)), "--seed", str(number + 1), "--out", mbox],
                       check=True, stdout=subprocess.DEVNULL, stderr=subprocess.DEVNULL)
        archive(program, "list-add", "--db", db, name)
        archive(program, "import", "--db", db, name, mbox)
        texts += mbox.stat().st_size
        mbox.unlink()
    return db, texts


def serve(program, db, port):
    return begin(program, "serve", "--db", db, "--policy", db.parent / "open.toml", "--day", "2024-03-20", "--port", port, "--count", 1_000_000)


def size(program, db, texts, mails):
    """What a file of a size costs: of a command and of opening the median of three."""
    command = statistics.median(of_a_processor(lambda it=it: archive(program, "list-add", "--db", db, f"new{it}")) for it in range(3))
    port, times = free_ports(1)[0], []
    for _ in range(3):
        server = serve(program, db, port)
        page = wait(port).decode()
        times.append(spent([server]))
        if len(times) < 3:
            server.kill()
            server.wait()
    opened = {"open": statistics.median(times), "held": held(server)}
    threads = sum(len(get(port, f"/l/{name}/threads")) for name in re.findall(r"/l/(list\d+)/threads", page))
    kept = held(server)
    server.kill()
    server.wait()
    found = {"mails": mails, "texts": texts, "disk": db.stat().st_size, "command": command, **opened, "kept": kept, "threads": threads}
    print(f"{mails} mails: texts {texts / 1e6:.1f} MB, disk {found['disk'] / texts:.2f} times; a command {command:.2f} s of a processor, opening {opened['open']:.2f} s;"
          f" a server holds {opened['held'] / 1e6:.0f} MB, {opened['held'] / texts:.2f} times, with its threads, which are pages of {threads / 1e6:.1f} MB, {kept / 1e6:.0f} MB", flush=True)
    return found


def wrk(port, path, seconds, clients, script=None):
    words = ["wrk", "-t1", f"-c{clients}", f"-d{seconds}s", *(["-s", script] if script else []), f"http://127.0.0.1:{port}{path}"]
    said = subprocess.run(words, stdout=subprocess.PIPE, text=True, check=True).stdout
    return float(re.search(r"Requests/sec:\s+([\d.]+)", said)[1]), *counted(said)


def counted(said):
    """The requests that wrk counts, and those of them that failed."""
    errors = sum(map(int, re.findall(r"(?:connect|read|write|timeout) (\d+)", said)))
    other = re.search(r"Non-2xx or 3xx responses: (\d+)", said)
    return int(re.search(r"(\d+) requests in", said)[1]), errors + (int(other[1]) if other else 0)


class Farm:
    """Four servers of copies of a file, and both proxies in front of one, two and four of them."""

    def __init__(self, program, db, folder):
        self.folder = folder
        ports = iter(free_ports(SERVERS + 2 * len(MANY)))
        self.ports = [next(ports) for _ in range(SERVERS)]
        self.servers = []
        for at, port in enumerate(self.ports):
            copy = folder / f"copy{at}.db"
            shutil.copy(db, copy)
            self.servers.append(serve(program, copy, port))
        for port in self.ports:
            wait(port)
            page = get(port, "/l/list0/threads").decode()
        links = re.findall(r'href="(/l/list0/(?:m|t)/[0-9a-f]{64})"', page)
        links = links[len(links) // 2:]
        self.paths = {"message": [it for it in links if "/m/" in it][:48], "thread": [it for it in links if "/t/" in it][:48], "threads": ["/l/list0/threads"]}
        self.bytes = {kind: len(get(self.ports[0], paths[0])) for kind, paths in self.paths.items()}
        self.where = {(proxy, many): next(ports) for proxy in ("haproxy", "nginx") for many in MANY}
        (folder / "h.cfg").write_text(HAPROXY + self.haproxy())
        (folder / "n.conf").write_text(NGINX.format(folder=folder) + self.nginx() + "}\n")
        self.proxies = {"haproxy": begin("haproxy", "-f", folder / "h.cfg"), "nginx": begin("nginx", "-c", folder / "n.conf", "-g", "daemon off;")}
        for name in self.proxies:
            wait(self.where[name, 1])

    def haproxy(self):
        text = ""
        for many in MANY:
            text += f"frontend f{many}\n  bind 127.0.0.1:{self.where['haproxy', many]}\n  default_backend b{many}\nbackend b{many}\n  balance leastconn\n  option httpchk GET /\n"
            text += "".join(f"  server s{port} 127.0.0.1:{port} check inter 500ms fall 1 rise 1 observe layer4 error-limit 1 on-error mark-down maxconn 4\n" for port in self.ports[:many])
        return text

    def nginx(self):
        text = ""
        for many in MANY:
            text += f"  upstream u{many} {{ least_conn; {' '.join(f'server 127.0.0.1:{port} max_fails=1 fail_timeout=2s;' for port in self.ports[:many])} }}\n"
            text += f"  server {{ listen 127.0.0.1:{self.where['nginx', many]}; location / {{ proxy_pass http://u{many}; proxy_next_upstream error timeout invalid_header http_500 http_502 http_503 http_504; }} }}\n"
        return text

    def cases(self, kind, clients):
        """What is asked: by which name, which process in front, at which port, by how many, and by which script where not for one page alone."""
        yield "one server", None, self.ports[0], clients, None
        for proxy in self.proxies:
            for many in MANY:
                yield f"{proxy} with {many}", proxy, self.where[proxy, many], clients, None
        script = self.folder / f"{kind}.lua"
        script.write_text(IN_TURN.format(pages=", ".join(f'"{it}"' for it in self.paths[kind])))
        yield "haproxy in turn", "haproxy", self.where["haproxy", SERVERS], 1, script

    def ask(self, proxy, *how):
        """The rate, how many were asked, what failed, and what they took in the servers and in the proxy."""
        groups = [self.servers, [self.proxies[proxy]] if proxy else []]
        before = [spent(it) for it in groups]
        rate, total, failed = wrk(*how)
        return rate, total, failed, *(spent(it) - was for it, was in zip(groups, before))

    def requests(self, kind, asked):
        """What a page of a kind takes by all ways, over all rounds."""
        runs = {}
        for _ in range(asked.rounds):
            for case, proxy, port, clients, script in self.cases(kind, asked.clients):
                runs.setdefault(case, []).append(self.ask(proxy, port, self.paths[kind][0], asked.seconds, clients, script))
        print(f"{kind}: {self.bytes[kind]:,} bytes")
        found = {"bytes": self.bytes[kind]}
        for case, them in runs.items():
            rates, totals, failed, servers, proxy = zip(*them)
            found[case] = {"rate": max(rates), "failed": sum(failed), "servers": sum(servers) * 1e6 / sum(totals), "proxy": sum(proxy) * 1e6 / sum(totals)}
            print(f"  {case}: {max(rates):.0f} a second; microseconds of servers {found[case]['servers']:.0f}, of the proxy {found[case]['proxy']:.0f}; {sum(failed)} of {sum(totals)} failed", flush=True)
        return found

    def killed(self, clients):
        """What failed where a server of four was killed behind each proxy."""
        found = {}
        for at, proxy in enumerate(self.proxies, 1):
            asking = subprocess.Popen(["wrk", "-t1", f"-c{clients}", "-d4s", f"http://127.0.0.1:{self.where[proxy, 4]}{self.paths['message'][0]}"], stdout=subprocess.PIPE, text=True)
            time.sleep(1.5)
            self.servers[-at].kill()
            found[proxy] = dict(zip(("requests", "failed"), counted(asking.communicate()[0])))
            print(f"a server of four is killed behind {proxy}: {found[proxy]['failed']} of {found[proxy]['requests']} failed", flush=True)
        return found

    def end(self):
        for process in [*self.servers, *self.proxies.values()]:
            process.terminate()
            try:
                process.wait(2)
            except subprocess.TimeoutExpired:
                process.kill()
                process.wait()


def main():
    words = argparse.ArgumentParser(description=__doc__, formatter_class=argparse.RawDescriptionHelpFormatter)
    words.add_argument("--archive", type=pathlib.Path, default=ROOT / "crates" / "archive" / "out" / "archive")
    words.add_argument("--mails", type=int, nargs="+", default=[300, 5_000, 25_000, 100_000])
    words.add_argument("--asked", type=int, default=5_000)
    words.add_argument("--rounds", type=int, default=3)
    words.add_argument("--seconds", type=int, default=2)
    words.add_argument("--clients", type=int, default=16)
    words.add_argument("--figures", type=pathlib.Path)
    asked = words.parse_args()
    program = asked.archive.resolve()
    if missing := [it for it in ("wrk", "haproxy", "nginx") if not shutil.which(it)]:
        sys.exit(f"copies.py: {', '.join(missing)} not on this machine (apt-get install {' '.join(missing)})")
    with tempfile.TemporaryDirectory() as name:
        folder = pathlib.Path(name)
        folder.chmod(0o755)  # nginx's workers read in it
        (folder / "open.toml").write_text('[[rule]]\nname = "all"\neffect = "allow"\n')
        files = {mails: made(program, folder, mails) for mails in sorted({*asked.mails, asked.asked})}
        figures = {"date": f"{datetime.date.today()}", "sizes": [size(program, *files[mails], mails) for mails in asked.mails]}
        farm = Farm(program, files[asked.asked][0], folder)
        try:
            figures["pages"] = {kind: farm.requests(kind, asked) for kind in farm.paths}
            figures["killed"] = farm.killed(asked.clients)
        finally:
            farm.end()
    figures["load"] = os.getloadavg()[0]
    print(f"load of this machine: {figures['load']:.0f}, on {os.cpu_count()} processors")
    if asked.figures:
        asked.figures.write_text(json.dumps(figures, indent=1) + "\n")


if __name__ == "__main__":
    main()
