"""searching_pages.py: the search behind the proxy, as curl, feed readers and browsers see it; a part of searching.py."""
import concurrent.futures, pathlib, re, time, urllib.parse, xml.etree.ElementTree

from proxy import NAME, Asked, Proxy
from readers import Chromium, Firefox
from reading_access import axe_of
from reading_site import mbox_of
from searching_site import KEY, MODERATOR, SECRET, SEEDS, Archive, Searching, bearer, url
import mbox

ATOM = "{http://www.w3.org/2005/Atom}"
MOMENT = re.compile(r"\d{4}-\d\d-\d\dT\d\d:\d\d:\d\d(?:\.\d+)?(?:Z|[+-]\d\d:\d\d)")
LONG_QUOTE = b"From anna@example.org Mon Mar 18 09:00:00 2024\nFrom: Anna <anna@example.org>\nSubject: =?utf-8?B?R3LDvMOfZQ==?=\nMessage-ID: <long/quote+1@x>\nDate: Mon, 18 Mar 2024 09:00:00 +0000\n" \
             b"In-Reply-To: <quagga@example.net>\nList-Post: <mailto:seeds@garden.example>\n\nTop.\n\n" + b"".join(b"> line %d\n" % it for it in range(30)) + b"\n-- \nAnna\n\n"
TWICE = mbox_of(b"From: Anna <anna@example.org>\nSubject: twice <b>&amp;\nMessage-ID: <twice@x>\nDate: Mon, 18 Mar 2024 07:00:00 +0000\n\n%d\n" % it for it in range(2))
LIST = "main div[role=list] > div"


class Behind(Proxy):
    """nginx by the sample, with the search set up."""

    def __init__(self, folder, archive_port, search_port):
        self.to_search = search_port
        super().__init__(folder)
        self.behind = archive_port
        (self.folder / "archive.conf").write_text(self.changed())

    def changed(self):
        text = super().changed()
        for old, new in (("http://127.0.0.1:8090", f"http://127.0.0.1:{self.to_search}"), ("map $host $archive_search {\n  default no;", "map $host $archive_search {\n  default yes;")):
            if old not in text:
                raise SystemExit(f"archive.conf has no {old!r}")
            text = text.replace(old, new)
        return text


def behind_nginx(trial, program, folder, pictures):
    """All of it behind the proxy, asked by curl, and by the browsers that are there."""
    of = Archive(program, pathlib.Path(folder) / "nginx", SEEDS + SECRET + LONG_QUOTE + TWICE)
    of.tell("withdraw", "seeds", KEY, "author")
    (of.folder / "proxy").mkdir()
    with of.served():
        to = Searching(of.folder / "index", of.port, "--site", "https://lists.example.org")
        to.settled(url("seed"))
        to.settled(url("seed"), *bearer(MODERATOR))
        with Behind(of.folder / "proxy", of.port, to.port) as proxy:
            by_curl(trial, proxy)
            feeds(trial, proxy)
            limits(trial, proxy)
            for browser in (Chromium, Firefox):
                if program_of_it := browser.found():
                    time.sleep(6)  # (until the limits let this address search again)
                    in_browser(trial, proxy, browser(program_of_it, of.folder / browser.name), pictures)
                else:
                    trial.skip(f"what {browser.name} draws", f"{browser.name} is not on this machine (apt-get install chromium firefox-esr)")
            to.kill()
            stopped(trial, proxy)
            logs(trial, proxy)


def by_curl(trial, proxy):
    page = Asked(proxy, url("seed"))
    trial.check("nginx: a search", (page.status, page.one("content-type"), page.body.count(b'<div class="d0">')), ("200", "text/html; charset=utf-8", 12))
    trial.holds("nginx: with the style, the script, the way back and a form", all(it in page.body for it in (b'href="/archive.css"', b'src="/archive.js"', b">Threads of seeds</a>", b'<form role="search"')))
    forms = [re.search(r"form-action ([^;]*)", Asked(proxy, it).one("content-security-policy"))[1] for it in ("/l/seeds/search", "/l/seeds/threads", "/")]
    trial.check("nginx: a form may be sent from the page of a search alone, and to this site", forms, ["'self'", "'none'", "'none'"])
    two = Asked(proxy, "/l/seeds/id/twice@x")
    trial.check("nginx: a Message-ID of two messages", (two.status, two.body.count(b'<div class="d0">'), b'href="/archive.css"' in two.body), ("200", 2, True))
    cookie = ["-H", f"Cookie: __Host-archive={MODERATOR}"]
    trial.check("nginx: what is withdrawn, to the public and to the moderator by a field and a cookie",
                [b"1 message<" in Asked(proxy, url("thylacine"), *more).body for more in ([], bearer(MODERATOR), cookie)], [False, True, True])
    trial.check("nginx: a search with a name and a password is the public's", b"no message<" in Asked(proxy, url("thylacine"), "-u", f"{MODERATOR}:").body, True)
    key = mbox.key_of(next(text for _, _, text in mbox.messages(LONG_QUOTE.splitlines(True))))
    links = [Asked(proxy, it, *more) for it, *more in (("/l/seeds/id/long%2Fquote%2B1%40x",), ("/l/seeds/id/long/quote+1@x",), ("/l/seeds/id/quagga@example.net", *bearer(MODERATOR)))]
    trial.check("nginx: links by Message-ID", [(it.status, it.one("location")) for it in links], [("302", f"/l/seeds/m/{key}")] * 2 + [("302", f"/l/seeds/m/{KEY}")])
    gone, never = Asked(proxy, "/l/seeds/id/quagga@example.net"), Asked(proxy, "/l/seeds/id/quaggo@example.net")
    trial.check("nginx: of a withdrawn message, and of none", (gone.status, gone.body, gone.fields.keys()), (never.status, never.body, never.fields.keys()))
    time.sleep(3)  # (until the limits let this address search again)
    trial.check("nginx: a token that is not valid", [Asked(proxy, it, *bearer("0" * 16)).status for it in (url("seed"), "/l/seeds/search", "/l/seeds/feed", "/l/seeds/id/x@y")], ["401"] * 4)


def faults_of_feed(body, here):
    """What of RFC 4287, and of what a validator of feeds looks at beyond it, a feed does not keep."""
    root = xml.etree.ElementTree.fromstring(body)
    texts = lambda of, name: [it.text or "" for it in of.findall(ATOM + name)]
    if root.tag != ATOM + "feed":
        yield f"the root is {root.tag}"
    yield from faults_of_entry("the feed", root, texts)
    own = [it.get("href") for it in root.findall(ATOM + "link") if it.get("rel") == "self"]
    if own != [here]:
        yield f"4.1.1: its own address is {own}"
    entries = root.findall(ATOM + "entry")
    for it in entries:
        yield from faults_of_entry(f"an entry {texts(it, 'title')}", it, texts)
        if len(it.findall(f"{ATOM}author/{ATOM}name")) != 1 or not texts(it.find(ATOM + "author"), "name")[0].strip():
            yield f"3.2.1, 4.1.2: an entry {texts(it, 'title')} has no author"
        if it.find(ATOM + "content") is None and [link.get("rel") for link in it.findall(ATOM + "link")].count("alternate") != 1:
            yield "4.1.2: an entry has no text and no alternate"
        if it.find(ATOM + "content") is not None or it.find(ATOM + "summary") is not None:
            yield "an entry has a text"
    ids, dates = [texts(it, "id")[0] for it in entries], [texts(it, "updated")[0] for it in entries]
    if len(set(ids)) != len(ids):
        yield "4.1.1: two entries have one id"
    if dates != sorted(dates, reverse=True) or entries and texts(root, "updated") != dates[:1]:
        yield "the newest is not first, or the feed is not as old as that"


def faults_of_entry(which, of, texts):
    for name in ("id", "title", "updated"):
        if len(texts(of, name)) != 1:
            yield f"4.1: {which} has {len(texts(of, name))} {name}"
    if not all(urllib.parse.urlsplit(it).scheme == "https" and not re.search(r"[\s<>\"{}|\\^`]", it) for it in texts(of, "id")):
        yield f"4.2.6: the id of {which} is no IRI: {texts(of, 'id')}"
    if not all(map(MOMENT.fullmatch, texts(of, "updated"))):
        yield f"3.3: {which} has the date {texts(of, 'updated')}"
    if any(it.get("type", "text") not in ("text", "html", "xhtml") for it in of.findall(ATOM + "title")):
        yield f"3.1.1: the title of {which} is of another type"
    kinds = [(it.get("type"), it.get("hreflang")) for it in of.findall(ATOM + "link") if it.get("rel") == "alternate"]
    if len(set(kinds)) != len(kinds):
        yield f"4.1: {which} has two alternates of one type"
    if any(not urllib.parse.urlsplit(it.get("href", "")).netloc for it in of.findall(ATOM + "link")):
        yield f"{which} has a link that names no site"


def feeds(trial, proxy):
    site = "https://lists.example.org"
    said = Asked(proxy, "/l/seeds/feed")
    titles = [it.text for it in xml.etree.ElementTree.fromstring(said.body).iterfind(f"{ATOM}entry/{ATOM}title")]
    trial.check("feed: its type, and its titles", (said.one("content-type"), said.status, "Grüße" in titles, "twice <b>&amp;" in titles, any("quagga" in it for it in titles)),
                ("application/atom+xml; charset=utf-8", "200", True, True, False))
    trial.check("feed: what of RFC 4287 it does not keep", [*faults_of_feed(said.body, f"{site}/l/seeds/feed")], [])
    trial.holds("feed: it is the same at each time", Asked(proxy, "/l/seeds/feed").body == said.body)
    basic = ["-u", f"{MODERATOR}:"]
    trial.check("feed: the moderator's, whose reader sends a name", b"quagga" in Asked(proxy, "/l/seeds/feed", *basic).body, True)
    trial.check("feed: in a browser the name does not count", [b"quagga" in Asked(proxy, "/l/seeds/feed", *basic, "-H", f"Sec-Fetch-Site: {it}").body for it in ("cross-site", "same-origin", "none")], [False] * 3)
    trial.check("feed: a name that is not a token", Asked(proxy, "/l/seeds/feed", "-u", "0" * 16 + ":").status, "401")
    broken = said.body.replace(b"<updated>", b"<updated>on ", 1).replace(b'rel="self"', b'rel="me"').replace(b"</entry>", b"<content>x</content></entry>", 1)
    trial.check("feed: a broken one has these faults", len([*faults_of_feed(broken, f"{site}/l/seeds/feed")]), 4)


def limits(trial, proxy):
    time.sleep(6)
    with concurrent.futures.ThreadPoolExecutor(12) as pool:
        statuses = [*pool.map(lambda _: Asked(proxy, url("seed")).status, range(30))]
    trial.holds("nginx: who makes thirty searches at once is told to wait", {*statuses} == {"200", "429"}, f"{statuses.count('429')} times")
    trial.check("nginx: and reads on meanwhile", Asked(proxy, "/l/seeds/threads").status, "200")


def stopped(trial, proxy):
    """The service is not there."""
    time.sleep(6)
    said = [Asked(proxy, it) for it in (url("thylacine"), "/l/seeds/feed", "/l/seeds/id/x@y")]
    trial.check("nginx: without the service its pages say so, and come back", [(it.status, it.one("retry-after"), b"the search is not running" in it.body) for it in said], [("503", "10", True)] * 3)
    trial.check("nginx: the archive goes on", Asked(proxy, "/l/seeds/threads").status, "200")


def logs(trial, proxy):
    requests, errors = ((proxy.folder / it).read_text() for it in ("access.log", "error.log"))
    Asked(proxy, "", at=f"http://{NAME}:{proxy.http}{url('thylacine')}")
    requests = (proxy.folder / "access.log").read_text()
    trial.holds("nginx: its log has the requests, and no token and nothing that was searched for", MODERATOR not in requests and "thylacine" not in requests and requests.count("/l/seeds/search?") > 20)
    trial.holds("nginx: nor has its log of errors", MODERATOR not in errors and "thylacine" not in errors and "q=" not in errors, errors[-200:])


def in_browser(trial, proxy, browser, pictures):
    """The form, the rows, what a question cannot do, links by Message-ID, axe."""
    name, there = browser.name, f"https://{NAME}:{proxy.tls}"
    browser.open(there + "/l/seeds/threads")
    trial.check(f"{name}: a list leads to its search", browser.value("document.querySelector('nav a[href=\"/l/seeds/search\"]')?.textContent"), "Search")
    browser.open(there + "/l/seeds/search")
    browser.value("(() => { document.querySelector('input[type=search]').value = 'Grüße OR seed'; document.querySelector('form button').click(); })()")
    browser.wait(f"document.querySelector('{LIST}[role]')")
    trial.check(f"{name}: the form asks, and the subject is decoded", browser.value(f"[...document.querySelectorAll('{LIST} a[href*=\"/m/\"]')].map(it => it.textContent)[0]"), "Grüße")
    trial.check(f"{name}: what was asked stays in the form", browser.value("document.querySelector('input[type=search]').value"), "Grüße OR seed")
    for size in (1200, 400):
        browser.open_rows(there + url("seed OR quote"), size, 900)
        trial.check(f"{name}: no row is wider than the page at {size}", browser.value("document.documentElement.scrollWidth <= innerWidth"), True)
        if pictures and name == "Chromium":
            browser.picture(pathlib.Path(pictures) / f"search-{size}.png")
    browser.open(there + url('"><img src=x onerror=document.title=1><script>document.title=1</script>'))
    trial.check(f"{name}: a question runs nothing", browser.value("[document.title, document.querySelectorAll('main img, main script').length]"), ["seeds: search", 0])
    browser.open(there + "/l/seeds/id/long%2Fquote%2B1%40x")
    browser.wait("document.querySelector('main h1')?.textContent === 'Grüße'")
    trial.check(f"{name}: a link by Message-ID shows the message", browser.value("[document.querySelector('h1').textContent, location.pathname.split('/')[3]]"), ["Grüße", "m"])
    if name == "Chromium":
        by_axe(trial, browser, there)
    browser.close()


def by_axe(trial, browser, there):
    """axe-core on the pages of a search."""
    if not (axe := axe_of(browser)):
        return trial.skip("axe-core", "this browser's DevTools have none")
    for width, dark in ((1200, False), (1200, True), (400, False), (400, True)):
        browser.media(dark=dark)
        wrong = {what: found for what, path in (("a search", url("seed OR quote")), ("its help", "/l/seeds/search"), ("a choice", "/l/seeds/id/twice@x")) if (found := violations(browser, axe, there + path, width))}
        trial.check(f"axe-core at {width}, {'dark' if dark else 'light'}: violations on 3 pages", wrong, {})
    browser.media()


def violations(browser, axe, where, width):
    browser.open(where, width, 900)
    time.sleep(0.5)
    browser.value(axe)
    if not browser.value("document.querySelector('main h1') !== null && typeof axe === 'object'"):
        return ["it is not looked at"]
    return browser.later("axe.run(document, { resultTypes: ['violations'] }).then(it => it.violations.map(one => one.id + ' ' + one.nodes[0].html.slice(0, 80)))")
