#!/usr/bin/env python3
"""proxy.py: samples/proxy whole: nginx before `serve`, asked by curl and drawn by a headless browser at 1200 and 400 pixels.

  trials/proxy.py [--archive PROGRAM] [--pictures FOLDER]

The configuration is samples/proxy/archive.conf but for its ports, paths and certificate, which is made for the trial. With
--pictures, what the browser draws goes to that folder. It wants nginx, openssl, curl and chromium, and skips what one that is not
there would try. The last line is 'N passed, N failed, N skipped'.
"""
import gzip, os, pathlib, socket, ssl, subprocess, sys, tempfile, time

from trial import ROOT, SAMPLES, Browser, Server, Trial, begun, free_ports, output, words_of
from serving import archive, make_archive
import mbox

TOKEN, NAME = "5fW2xkQ0aTz7uYp1", "127.0.0.1"
KEYS = "edf4635404c74e48aae1c52a6a6446e217f2801408c055dadca263fa790311b1"  # the mail that is withdrawn
SHOWN = "42878bd42d7da5eafb1b26a55e1c580b1b633248c93a5927c5f4467c406221ec"
HEADERS = {
    "cache-control": "no-store", "vary": "Authorization, Cookie, Accept", "x-content-type-options": "nosniff",
    "x-frame-options": "SAMEORIGIN", "referrer-policy": "no-referrer", "cross-origin-resource-policy": "same-origin",
    "strict-transport-security": "max-age=31536000", "x-robots-tag": "noarchive",
}
# A mail that would be a page, would run, and holds the tags at which a page is changed.
TRAP = b"""From eve@example.net Mon Mar 18 08:00:00 2024
From: Eve <eve@example.net>
Subject: <script>document.title='run'</script>
Message-ID: <trap@example.net>
Content-Type: text/html

<!DOCTYPE html><html><head><title>x</title></head><body><script>document.title='run'</script></body></html>

"""
TRAP_TEXT = next(text for _, _, text in mbox.messages(TRAP.splitlines(True)))
TRAP_KEY = mbox.key_of(TRAP_TEXT)
MAIN = """daemon off; worker_processes 1; pid {folder}/pid; error_log {folder}/error.log; {user}
events {{ worker_connections 256; }}
http {{
  client_body_temp_path {folder}/t1; proxy_temp_path {folder}/t2; fastcgi_temp_path {folder}/t3; uwsgi_temp_path {folder}/t4; scgi_temp_path {folder}/t5;
  include {folder}/archive.conf;
}}
"""
# What is measured of a page in the browser, in its pixels.
MEASURE = """(() => {
  const left = {}, rows = [...document.querySelectorAll('div')], links = rows.flatMap(row => [...row.querySelectorAll('a')]);
  for (const row of rows) left[row.className] ??= Math.round(row.getBoundingClientRect().left);
  return { width: innerWidth, scroll: document.documentElement.scrollWidth, left, styles: document.styleSheets.length, rows: rows.length,
    narrowest: Math.min(...links.filter(it => it.href.includes('/m/')).map(it => Math.round(it.getBoundingClientRect().width))) };
})()"""
# (what was visited no page can ask: the rule is taken without that)
MARKED = """(() => {
  const rules = [...document.styleSheets].flatMap(it => [...it.cssRules]).filter(it => it.style?.color === "var(--seen)");
  const marked = new Set(rules.flatMap(it => [...document.querySelectorAll(it.selectorText.replaceAll(":visited", ""))]));
  const messages = [...document.links].filter(it => /^\\/l\\/[^/]+\\/m\\/[0-9a-f]{64}$/.test(it.pathname));
  return [messages.filter(it => marked.has(it)).length, marked.size - messages.filter(it => marked.has(it)).length, messages.filter(it => !marked.has(it)).length];
})()"""


class Proxy:
    """nginx by the sample, before a port of an archive; without a limit, where one is named by its line."""

    def __init__(self, folder, without="", behind=None):
        self.without, self.folder, (self.http, self.tls, port) = without, pathlib.Path(folder), free_ports(3)
        self.behind = behind or port
        output("openssl", "req", "-x509", "-newkey", "rsa:2048", "-nodes", "-days", "2", "-subj", f"/CN={NAME}",
               "-addext", f"subjectAltName=IP:{NAME}", "-keyout", self.folder / "key.pem", "-out", self.folder / "cert.pem")
        (self.folder / "archive.conf").write_text(self.changed())
        user = "user root;" if os.getuid() == 0 else ""
        (self.folder / "main.conf").write_text(MAIN.format(folder=folder, user=user))
        self.words = ["nginx", "-e", str(self.folder / "error.log"), "-c", str(self.folder / "main.conf")]

    def changed(self):
        text = (SAMPLES / "proxy" / "archive.conf").read_text()
        at = "/etc/letsencrypt/live/lists.example.org/"
        for old, new in {
                "listen 80;": f"listen 127.0.0.1:{self.http};", "listen 443 ssl;": f"listen 127.0.0.1:{self.tls} ssl;",
                f"{at}fullchain.pem": f"{self.folder}/cert.pem", f"{at}privkey.pem": f"{self.folder}/key.pem",
                "/etc/nginx/archive": f"{SAMPLES}/proxy", "http://127.0.0.1:8080": f"http://127.0.0.1:{self.behind}",
                "/var/log/nginx/archive.log": f"{self.folder}/access.log"}.items():
            if old not in text:
                sys.exit(f"archive.conf has no {old!r}")
            text = text.replace(old, new)
        if self.without not in text:
            sys.exit(f"archive.conf has no {self.without!r}")
        return text.replace(self.without, "") if self.without else text

    def __enter__(self):
        self.process = begun(subprocess.Popen(self.words, stdout=subprocess.DEVNULL, stderr=subprocess.DEVNULL))
        for _ in range(50):
            try:
                socket.create_connection(("127.0.0.1", self.tls), 1).close()
                return self
            except OSError:
                time.sleep(0.1)
        sys.exit("nginx does not begin: " + (self.folder / "error.log").read_text())

    def __exit__(self, *_):
        self.process.terminate()
        self.process.wait()


class Asked:
    """What curl was answered: status, fields (each with all its values), body."""

    def __init__(self, proxy, path, *words, at=None):
        url = at or f"https://{NAME}:{proxy.tls}{path}"
        ran = subprocess.run(["curl", "-s", "-i", "--http1.1", "--max-time", "60", "--cacert", str(proxy.folder / "cert.pem"), *map(str, words), url],
                             stdout=subprocess.PIPE, check=False)
        head, _, self.body = ran.stdout.partition(b"\r\n\r\n")
        lines = head.decode("latin-1").split("\r\n")
        self.status, self.fields = (lines[0].split() + ["", ""])[1], {}
        for line in lines[1:]:
            name, _, value = line.partition(": ")
            self.fields.setdefault(name.lower(), []).append(value)

    def one(self, name):
        found = self.fields.get(name, [])
        return found[0] if len(found) == 1 else found

    def rows(self):
        return self.body.count(b'/m/')


def bearer(token=TOKEN):
    return ["-H", f"Authorization: Bearer {token}"]


def pages(trial, proxy):
    """Pages: the style, fields, compression, methods."""
    plain = Asked(proxy, "", at=f"http://{NAME}:{proxy.http}/l/seeds/threads?x=1")
    trial.check("curl: over http it is sent to https", (plain.status, plain.one("location")), ("301", f"https://{NAME}/l/seeds/threads?x=1"))
    for path in ("/", "/l/seeds/threads", f"/l/seeds/m/{SHOWN}", f"/l/seeds/m/{KEYS}", "/l/seeds/mbox", "/nope"):
        asked = Asked(proxy, path)
        found = {name: asked.one(name) for name in HEADERS}
        trial.check(f"curl {path[:24]}: fields of every reply", found, HEADERS)
    page = Asked(proxy, "/l/seeds/threads")
    trial.check("curl: a page, its type and how many rows", (page.status, page.one("content-type"), page.rows()), ("200", "text/html; charset=us-ascii", 40))
    trial.holds("curl: it names the style, the script, and the page of lists", b'href="/archive.css"' in page.body and b'src="/archive.js"' in page.body and b'<a href="/">All lists</a>' in page.body)
    trial.holds("curl: it leads back to its list", b'<a href="/l/seeds/threads">Threads of seeds</a>' in Asked(proxy, "/l/seeds/month/2024-02").body)
    trial.check("curl: what a page may load", page.one("content-security-policy").split(";")[:2], ["default-src 'none'", " style-src 'self'"])
    style = Asked(proxy, "/archive.css")
    trial.check("curl: the style", (style.status, style.one("content-type"), style.one("cache-control")), ("200", "text/css", "max-age=3600"))
    small = Asked(proxy, "/l/seeds/threads", "-H", "Accept-Encoding: gzip")
    trial.check("curl: compressed it is the same page", (small.one("content-encoding"), gzip.decompress(small.body) == page.body), ("gzip", True))
    head = Asked(proxy, "/l/seeds/threads", "-I")
    trial.check("curl: HEAD", (head.status, head.body), ("200", b""))
    robots = Asked(proxy, "/robots.txt")
    trial.check("curl: what search engines are told", (robots.status, robots.one("content-type"), robots.body.splitlines()),
                ("200", "text/plain", [b"User-agent: *", b"Disallow: /enter", b"Disallow: /leave", b"Disallow: /l/*/mbox", b"Disallow: /l/*/search"]))
    trial.holds("curl: how one signs in and out", b'<a href="/enter">Sign in</a> <a href="/leave">Sign out</a>' in page.body)
    trial.check("curl: without a search there is none, and no link to one", [Asked(proxy, f"/l/seeds/{it}").status for it in ("search?q=x", "id/x@y", "feed")] + [b"/l/seeds/search" in page.body], ["404"] * 3 + [False])
    trial.check("curl: POST", Asked(proxy, "/", "-d", "x=1").status, "405")
    trial.check("curl: what is the proxy's own is not to be had", [Asked(proxy, it).status for it in ("/.entered", "/.none")], ["404", "404"])


def messages(trial, proxy):
    """Messages and mboxes go out as they are, and as text to a browser."""
    path = f"/l/seeds/m/{TRAP_KEY}"
    mail, shown = Asked(proxy, path), Asked(proxy, path, "-H", "Accept: text/html,*/*;q=0.8")
    trial.check("curl: a message is the mail that it is", (mail.one("content-type"), mail.body == TRAP_TEXT), ("message/rfc822", True))
    trial.check("curl: to a browser it is text, byte for byte", (shown.one("content-type"), shown.body == TRAP_TEXT), ("text/plain; charset=utf-8", True))
    trial.holds("curl: nothing of it runs", "sandbox" in shown.one("content-security-policy"), shown.one("content-security-policy"))
    box = Asked(proxy, "/l/seeds/mbox")
    trial.check("curl: an mbox", (box.one("content-type"), box.one("content-disposition"), TRAP in box.body), ("application/mbox", "attachment", True))
    denied = Asked(proxy, f"/l/seeds/m/{KEYS}")
    trial.check("curl: a message that is withheld", (denied.status, denied.body), ("403", b"403 Forbidden: withdrawn\n"))


def readers(trial, proxy):
    """Who asks: by a field, by a cookie; nothing of one reader goes to another."""
    rows = [Asked(proxy, "/l/seeds/threads", *it).rows() for it in (bearer(), [], bearer(), [])]
    trial.check("curl: rows with a token, without, with, without", rows, [41, 40, 41, 40])
    trial.check("curl: a token that is nobody's", Asked(proxy, "/", *bearer("0" * 16)).status, "401")
    who = Asked(proxy, "/enter")
    trial.check("curl: /enter asks who it is", (who.status, [it.split()[0] for it in who.fields.get("www-authenticate", [])]), ("401", ["Basic"]))
    trial.check("curl: /enter as nobody's token", Asked(proxy, "/enter", "-u", "0" * 16 + ":").status, "401")
    trial.check("curl: /enter as what is no token", Asked(proxy, "/enter", "-u", "a b; c:").status, "401")
    jar = proxy.folder / "jar"
    into = Asked(proxy, "/enter", "-u", f"{TOKEN}:", "-c", jar)
    trial.check("curl: /enter with a token", (into.status, into.one("location")), ("303", f"https://{NAME}:{proxy.tls}/"))
    trial.check("curl: the cookie", into.one("set-cookie"), f"__Host-archive={TOKEN}; Path=/; Secure; HttpOnly; SameSite=Strict; Max-Age=2592000")
    cookie = ["-H", f"Cookie: other=1; __Host-archive={TOKEN}; more=2"]
    trial.check("curl: rows with the cookie", Asked(proxy, "/l/seeds/threads", *cookie).rows(), 41)
    trial.check("curl: rows with the cookie, from its jar", Asked(proxy, "/l/seeds/threads", "-b", jar).rows(), 41)
    trial.check("curl: rows with the cookie and the browser's password", Asked(proxy, "/l/seeds/threads", "-u", f"{TOKEN}:", *cookie).rows(), 41)
    trial.check("curl: rows with the browser's password alone", Asked(proxy, "/l/seeds/threads", "-u", f"{TOKEN}:").rows(), 40)
    trial.check("curl: rows with a cookie that is no token", Asked(proxy, "/l/seeds/threads", "-H", "Cookie: __Host-archive=a b").rows(), 40)
    out = Asked(proxy, "/leave", *cookie)
    trial.holds("curl: /leave takes the cookie away", out.status == "200" and "Max-Age=0" in out.one("set-cookie"), out.one("set-cookie"))


def drawn(trial, proxy, browser, pictures):
    """What a browser makes of it, on a table and on a telephone."""
    for width, height in ((1200, 900), (400, 800)):
        browser.open(f"https://{NAME}:{proxy.tls}/l/seeds/threads", width, height)
        said = browser.value(MEASURE)
        lefts = [said["left"].get(f"d{depth}", 0) for depth in range(4)]
        trial.check(f"browser at {width}: width, styles, rows", (said["width"], said["styles"], said["rows"] >= 40), (width, 1, True))
        trial.holds(f"browser at {width}: nothing stands beyond the side", said["scroll"] <= width, said["scroll"])
        trial.holds(f"browser at {width}: a deeper row stands further to the right", lefts[0] < lefts[1] < lefts[2] < lefts[3], lefts)
        trial.holds(f"browser at {width}: a subject has room", said["narrowest"] >= 150, said["narrowest"])
        for name, path, page_height in (("threads", "/l/seeds/threads", height), ("message", f"/l/seeds/m/{SHOWN}", 400), ("lists", "/", 250)):
            browser.open(f"https://{NAME}:{proxy.tls}{path}", width, page_height)
            time.sleep(1)
            file = pathlib.Path(pictures or proxy.folder) / f"proxy-{name}-{width}.png"
            trial.check(f"browser at {width}: draws {name}", browser.picture(file), (width, page_height))
    browser.open(f"https://{NAME}:{proxy.tls}/l/seeds/m/{TRAP_KEY}?text")
    shown = browser.value("[document.contentType, document.body.innerText.includes('<script>'), document.title]")
    trial.check("browser: a message is text, of which nothing runs", shown, ["text/plain", True, ""])
    browser.tell("Emulation.setScriptExecutionDisabled", browser.session, value=True)
    browser.open(f"https://{NAME}:{proxy.tls}/l/seeds/m/{TRAP_KEY}", 400, 800)
    time.sleep(1)
    shown = browser.in_frame("[document.contentType, document.body.innerText.includes('<script>'), innerWidth < 400]")
    trial.check("browser at 400: it stands in a frame that fits", shown, ["text/plain", True, True])
    trial.check("browser at 400: with the way back", browser.value("[...document.links].map(it => it.pathname)"), ["/", "/l/seeds/threads", "/enter", "/leave"])
    browser.tell("Emulation.setScriptExecutionDisabled", browser.session, value=False)


def read_before(trial, proxy, browser):
    """What the style marks once it was read: the links of messages, and of a list named m no other ones."""
    for path, messages in (("/l/seeds/threads", 40), ("/l/m/threads", 40), ("/l/m/month/2024-02", 12), ("/", 0)):
        browser.open(f"https://{NAME}:{proxy.tls}{path}")
        trial.check(f"browser {path}: links that are marked once they were read: of messages, others, of messages not marked", browser.value(MARKED), [messages, 0, 0])


def entered(trial, proxy, browser):
    """A token that is entered in a browser."""
    rows = "document.querySelectorAll('a[href*=\"/m/\"]').length"
    browser.open(f"https://{TOKEN}:@{NAME}:{proxy.tls}/enter")
    trial.check("browser: /enter leads to the lists", browser.value("[location.pathname, document.title]"), ["/", "Lists"])
    kept = [(it["name"], it["domain"], it["path"], it["secure"], it["httpOnly"], it["sameSite"]) for it in browser.cookies()]
    trial.check("browser: it keeps the cookie for this site alone, from scripts and for TLS", kept, [("__Host-archive", NAME, "/", True, True, "Strict")])
    browser.open(f"https://{NAME}:{proxy.tls}/l/seeds/threads")
    trial.check("browser: rows once it is entered", browser.value(rows), 41)
    browser.open(f"https://{NAME}:{proxy.tls}/leave")
    browser.open(f"https://{NAME}:{proxy.tls}/l/seeds/threads")
    trial.check("browser: rows once it has left", browser.value(rows), 40)


def slow(trial, proxy):
    """A reader who takes an mbox and reads nothing of it does not hold the archive."""
    context = ssl.create_default_context(cafile=proxy.folder / "cert.pem")
    with socket.create_connection((NAME, proxy.tls)) as peer, context.wrap_socket(peer, server_hostname=NAME) as reader:
        reader.sendall(f"GET /l/many/mbox HTTP/1.1\r\nHost: {NAME}\r\n\r\n".encode())
        time.sleep(2)
        begun = time.monotonic()
        status = Asked(proxy, "/").status
        took = time.monotonic() - begun
        trial.holds("a reader who reads nothing holds nobody up", status == "200" and took < 2, f"{status} after {took:.2f} s")


def limits(trial, proxy, server):
    """Too many requests of one address; no server behind."""
    time.sleep(5)
    config = proxy.folder / "many"
    config.write_text("".join(f'url = "https://{NAME}:{proxy.tls}/"\noutput = /dev/null\n' for _ in range(1000)))
    said = output("curl", "-s", "-Z", "--parallel-max", 6, "--http1.1", "--cacert", proxy.folder / "cert.pem", "-w", "%{http_code}\\n", "-K", config).split()
    trial.holds("1,000 requests, six at a time: a hundred are answered, and twenty a second", said.count("200") >= 100 and said.count("429") >= 10,
                {it: said.count(it) for it in ("200", "429")})
    server.kill()
    time.sleep(5)
    asked = Asked(proxy, "/l/seeds/threads")
    trial.check("between two servers", (asked.status, asked.one("refresh"), asked.one("retry-after")), ("503", "2", "2"))


def log(trial, proxy):
    Asked(proxy, "/l/seeds/threads?q=thylacine")
    said = (proxy.folder / "access.log").read_text()
    trial.holds("the log has no query, also of a request over http", "?x=1" not in said and "thylacine" not in said and said.count("/l/seeds/threads?") >= 2)
    trial.holds("the log has the requests, and no token", said.count("/l/seeds/threads") > 5 and TOKEN not in said, f"{said.count(chr(10))} lines")


def made(program, folder):
    """The sample list with a trap, one message of it withdrawn, a moderator, a list of three thousand messages, and one named m."""
    db = make_archive(program, folder)
    (pathlib.Path(folder) / "trap.mbox").write_bytes(TRAP)
    many = pathlib.Path(folder) / "many.mbox"
    output(sys.executable, ROOT / "bench" / "gen_mbox.py", "--n", 3000, "--out", many)
    for words in (("import", "seeds", f"{folder}/trap.mbox"), ("withdraw", "seeds", KEYS, "author"), ("person-add", "mo", TOKEN),
                  ("grant", "mo", "seeds", "moderator", "2024-01-01", "2024-12-31"), ("list-add", "many"), ("import", "many", many), ("list-add", "m"), ("import", "m", SAMPLES / "seeds.mbox")):
        archive(program, words[0], "--db", db, *words[1:])
    return db


def main():
    asked = words_of(__doc__, pictures={"help": "the folder for what the browser draws"})
    with Trial() as trial, tempfile.TemporaryDirectory() as folder:
        if not all([trial.has(it) for it in ("nginx", "openssl", "curl")]):
            return
        db = made(asked.archive, folder)
        proxy = Proxy(folder)
        server = Server(asked.archive, db, 100_000, port=proxy.behind)
        with proxy:
            pages(trial, proxy)
            messages(trial, proxy)
            readers(trial, proxy)
            if program := Browser.found():
                browser = Browser(program, proxy.folder / "profile")
                time.sleep(4)
                drawn(trial, proxy, browser, asked.pictures)
                read_before(trial, proxy, browser)
                entered(trial, proxy, browser)
                browser.close()
            else:
                trial.skip("what a browser draws", "chromium is not on this machine (apt-get install chromium)")
            slow(trial, proxy)
            limits(trial, proxy, server)
            log(trial, proxy)


if __name__ == "__main__":
    main()
