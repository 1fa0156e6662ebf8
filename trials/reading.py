#!/usr/bin/env python3
"""reading.py: mail as a reader sees it: samples/proxy with its script, in headless browsers, with the mails of letters.py.

  trials/reading.py [--archive PROGRAM] [--browsers NAMES] [--only WORD] [--rows COUNT] [--times] [--pictures FOLDER]

NAMES are chromium, firefox, or both with a comma between. It wants nginx, openssl and curl, and skips what a browser that is not there
would try. With --only it reads the letters whose name has that word, a regular expression, and does no more; with --times it tells how long Chromium takes
for the page of COUNT rows, and does no more. With --pictures, what Chromium draws at 1200 and 400 pixels, light and dark, with the script
and without, goes to that folder. Times and memory are told with the machine's load, and are judged only against limits that a busy
machine keeps too. The last line is 'N passed, N failed, N skipped'.
"""
import pathlib, re, tempfile, time
from email import message_from_bytes, policy

from trial import SAMPLES, Browser, Trial, words_of
from proxy import Asked
from letters import BIG_FILE, HARMFUL, LETTERS, ORDINARY
from readers import Chromium, Firefox
from reading_site import Site, keys_of
import reading_access, reading_agree, reading_cost, reading_parsed

# What a page tells of itself.
PAGE = """(() => {
  const main = document.querySelector('main'), all = (selector, tell) => [...main.querySelectorAll(selector)].map(tell);
  const deep = it => 1 + Math.max(0, ...[...it.children].filter(it => it.localName == 'blockquote').map(deep));
  const quotes = all('section.text > blockquote, section.text > details > blockquote', deep);
  const origin = new URL(location.href).origin;
  return { frame: Boolean(main.querySelector('iframe')), heading: main.querySelector('h1')?.textContent, title: document.title, ran: window.ran ?? null,
    named: all('section.text, p.soft, .event', it => it).flatMap(it => [...it.querySelectorAll('button')]).map(it => it.textContent).filter(it => it.startsWith('Save ')),
    open: all('details.quote', it => it.open), dates: all(':scope > dl time', it => it.dateTime),
    names: all('dl bdi', it => it.textContent), says: main.textContent.slice(0, 600000), files: all('.files button', it => it.textContent),
    text: all(':scope > article > section.text pre', it => it.textContent).join('').slice(0, 600000), wide: document.documentElement.scrollWidth,
    quotes: Math.max(0, ...quotes), elements: document.querySelectorAll('*').length,
    bad: [...document.querySelectorAll('script, img, svg, object, embed, base, meta[http-equiv], form, link, style, iframe, [onclick], [onerror], [onmouseover], [style]')]
      .map(it => it.localName + ' ' + (it.getAttribute('src') ?? it.getAttribute('href') ?? '')),
    links: all('a', it => [it.textContent.slice(0, 60), it.getAttribute('href').slice(0, 300), it.rel]),
    asked: performance.getEntriesByType('resource').map(it => it.name).filter(it => !it.startsWith(origin + '/')) };
})()"""
# The newest date of each thread of a page, in the order of the threads.
NEWEST_OF_THREADS = """[...document.querySelectorAll('main div[role=list] div[class]')].reduce((dates, row) => {
  const date = row.querySelector('a')?.textContent ?? '';
  if (row.className === 'd0') dates.push(date);
  else if (date > dates.at(-1)) dates[dates.length - 1] = date;
  return dates;
}, [])"""
PICTURES = {"russian": "charset koi8-r", "japanese": "an answer in Japanese", "quotes": "quotes of all kinds", "parts": "parts in parts in parts", "hebrew": "right to left"}
OWN = re.compile(r"link /archive\.css|script /archive\.js|link /archive/[a-z]+\.js|iframe \?text")
MAY_LEAD = re.compile(r"https?://[a-z]|mailto:[^?]*\?subject=|/l/|\?text$")


def flat(text):
    return re.sub(r"\s+", " ", text).strip()


def leaves(part, depth=0):
    """The plain texts of a mail that are shown, as Python's `email` has them."""
    if depth > 20:
        raise LookupError("so deep it is shown as it came")
    if part.get_content_type() == "message/rfc822" or part.get_content_disposition() == "attachment":
        return
    if not part.is_multipart():
        if part.get_content_type() != "text/plain":
            raise LookupError("not all of it is plain text")
        yield part.get_content()
        return
    inner = [*part.iter_parts()]
    if part.get_content_type() == "multipart/alternative":
        inner = [it for it in inner if it.get_content_type() == "text/plain"][-1:]
    for it in inner[:1] if part.get_content_type() == "multipart/signed" else inner:
        if it.is_multipart() or it.get_content_type() == "text/plain":
            yield from leaves(it, depth + 1)
        elif it.get_content_maintype() == "text" and it.get_content_subtype() not in ("html", "calendar") and not it.get_filename():
            raise LookupError("another kind of text is shown as plain text")


def plain_text(letter):
    """The text of a letter by Python's `email`, without marks of quotes; None where Python does not know how it is to be read."""
    if b"format=flowed" in letter.text or letter.harmful or len(letter.text) > 10_000_000:
        return None
    try:
        text = "\n".join(leaves(message_from_bytes(letter.text, policy=policy.default)))
    except (LookupError, RecursionError, AssertionError):
        return None
    return None if "\ufffd" in text or not text.strip() else re.sub(r"(?m)^(?!>From )(?:> ?)+", "", text.replace("\r", ""))


def faults_of(letter, said, seconds):
    """What is not as it should be on the page of a letter."""
    if said["ran"] is not None:
        yield "a script of it ran"
    yield from (f"element {it}" for it in said["bad"] if not OWN.fullmatch(it))
    yield from (f"it asks {it}" for it in said["asked"])
    if said["wide"] > 1200:
        yield f"it is {said['wide']} pixels wide"
    if seconds > 60:
        yield f"it takes {seconds:.1f} s"
    if said["frame"] != (letter.name == "no head"):
        yield "it stays in its frame" if said["frame"] else "it has no head, and still the frame is gone"
    if not said["frame"]:
        yield from faults_of_view(letter, said)


def faults_of_view(letter, said):
    if letter.subject and flat(said["heading"] or "") != flat(letter.subject):
        yield f"heading {said['heading'][:200]!r}, not {letter.subject[:200]!r}"
    if letter.author and letter.author not in said["names"]:
        yield f"names {said['names'][:4]}, not {letter.author!r}"
    yield from (f"it does not say {it!r}" for it in letter.says if flat(it) not in flat(said["says"]))
    yield from (f"it says {it!r}" for it in letter.never if it in said["says"])
    wanted = plain_text(letter)
    if wanted is not None and not (flat(wanted).startswith(flat(said["text"])) if len(wanted) > 200_000 else flat(wanted) == flat(said["text"])):
        yield f"text {flat(said['text'])[:200]!r}, by Python {flat(wanted)[:200]!r}"
    if letter.files and sorted(said["files"]) != sorted(f"Save {it}" for it in letter.files):
        yield f"files {said['files']}, not {letter.files}"
    if said["named"] != [f"Save {it}" for it in letter.named]:
        yield f"named texts {said['named']}, not {letter.named}"
    if said["open"] != letter.open:
        yield f"quotes that fold are open: {said['open']}, not {letter.open}"
    if said["quotes"] != letter.quotes:
        yield f"quotes {said['quotes']} deep, not {letter.quotes}"
    yield from (f"link {it}" for it in said["links"] if not MAY_LEAD.match(it[1]))
    yield from (f"link without noopener {it}" for it in said["links"] if it[1].startswith("http") and "noopener" not in it[2])


def read_all(trial, site, reader, them):
    """Each letter on its page."""
    for letter in them:
        seconds = reader.read(site.letter(letter.name))
        if letter.large:
            trial.holds(f"{letter.name}: it is said to be large", "This message has 1" in reader.value("document.querySelector('main').textContent"))
            begun = time.monotonic()
            reader.click("document.querySelector('main section[role=status] button')")
            reader.wait("document.querySelector('main article')", 120)
            seconds += time.monotonic() - begun
        said = reader.value(PAGE)
        wrong = [*faults_of(letter, said, seconds)]
        by_python = " and its text is Python's" if plain_text(letter) is not None and not wrong else ""
        trial.holds(f"{reader.name}: {letter.name}: {len(letter.text)} bytes, {said['elements']} elements, {seconds:.2f} s{by_python}", not wrong, "; ".join(wrong) if wrong else "")


def rows(trial, site, reader):
    """The subjects of the letters in the rows of their lists."""
    for name, them in (("letters", ORDINARY), ("harm", HARMFUL)):
        reader.open_rows(site.url(f"/l/{name}/threads"))
        found = reader.value("Object.fromEntries([...document.querySelectorAll('main div > a[href*=\"/m/\"]')].map(it => [it.pathname.split('/')[4], it.textContent]))")
        wanted = {it.name: (flat(found.get(key, "")), flat(it.row or it.subject)) for it, key in zip(them, site.keys[name]) if (it.row or it.subject) and it.name != "no head"}
        wrong = {name: (is_[:80], should[:80]) for name, (is_, should) in wanted.items() if is_ != should}
        trial.check(f"{reader.name}: rows of {name}: subjects that are not as they should be, of {len(wanted)}", wrong, {})
        trial.check(f"{reader.name}: rows of {name}: nothing of it runs", reader.value("window.ran ?? null"), None)


def guarded(trial, site, reader):
    """What the browser refuses the page."""
    reader.read(site.letter("charset koi8-r"))
    tried = "(() => { try { %s; return 'done'; } catch (error) { return error.name; } })()"
    inline = "document.body.append(Object.assign(document.createElement('p'), { onclick: null })), document.body.lastChild.setAttribute('onclick', 'window.ran = 1'), document.body.lastChild.click()"
    trial.check(f"{reader.name} refuses HTML made of text", reader.value(tried % "document.body.innerHTML = '<p>x'"), "TypeError")
    trial.check(f"{reader.name} refuses code made of text", reader.value(tried % "document.createElement('script').text = 'window.ran = 1'"), "TypeError")
    reader.value(tried % inline)
    trial.check(f"{reader.name} runs no code of an attribute", reader.value("window.ran ?? null"), None)
    trial.check(f"{reader.name} asks no other site", reader.later("fetch('https://127.0.0.2:1/').then(() => 'done', it => it.name)"), "TypeError")
    trial.check(f"{reader.name}: nothing is kept", reader.value("[localStorage.length, sessionStorage.length, document.cookie]"), [0, 0, ""])


def ways(trial, site, reader):
    """Through a thread, to months, to the newest, to a reply."""
    keys = site.keys["talk"]
    reader.read(site.message("talk", keys[2]))
    reader.wait("document.querySelector('main nav a[rel=next]')")
    said = reader.value("[...document.querySelectorAll('main nav a')].map(it => [it.textContent, it.getAttribute('href').split('/').pop()])")
    wanted = [["Previous", keys[6]], ["Next", keys[7]], ["In reply to", keys[0]], ["Whole thread", keys[2]]]
    trial.check(f"{reader.name}: from a message through its thread", said, wanted)
    reply = reader.value("[...document.querySelectorAll('.tools a')].map(it => it.href)[0]")
    trial.holds(f"{reader.name}: a reply names what it answers", "In-Reply-To=%3Ct2%40x%3E" in reply and "References=%3Ct0%40x%3E" in reply, reply)
    reader.open_rows(site.url("/l/talk/month/2024-03"))
    trial.check(f"{reader.name}: from a month to those beside it", reader.value("[...document.querySelectorAll('main nav a')].map(it => it.pathname.split('/')[4])"), ["2024-02", "2024-04"])
    trial.holds(f"{reader.name}: a date in the reader's own time", "2024" in reader.value("(() => { const it = document.querySelector('main div a'); it.focus(); return it.title; })()"))
    order = "document.querySelector('main nav a')"
    reader.open_rows(site.url("/l/letters/threads"))
    oldest = reader.value(NEWEST_OF_THREADS)
    reader.click(order)
    reader.wait(f"location.hash == '#newest' && {order}.hash == '#oldest'")
    trial.check(f"{reader.name}: newest first", reader.value(NEWEST_OF_THREADS), sorted(oldest, reverse=True))
    reader.click(order)
    reader.wait(f"location.hash == '#oldest' && {order}.hash == '#newest'")
    trial.check(f"{reader.name}: and oldest first again", reader.value(NEWEST_OF_THREADS) == oldest and len({*oldest}) > 9, True)


def thread_saved(trial, site, reader):
    """A thread as one mbox; stopped; too long."""
    keys, page, button = site.keys["talk"], site.url(f"/l/talk/t/{site.keys['talk'][0]}"), "document.querySelector('main section.tools button')"
    folder = site.folder / "saved"
    folder.mkdir()
    reader.save_into(folder)
    reader.open_rows(page)
    trial.check("a thread may be saved as an mbox", reader.value(f"{button}.textContent"), "Download as mbox (12 messages)")
    reader.click(button)
    reader.wait("document.querySelector('main section.tools [role=status]')?.textContent.startsWith('Saved')")
    file = folder / f"thread-{keys[0][:16]}.mbox"
    reader.wait("false", 2)
    trial.check("the mbox has the messages of the thread, byte for byte", sorted(keys_of(file.read_bytes())) if file.exists() else None, sorted(keys))
    reader.open_rows(page)
    reader.value(f"{button}.click(), {button}.click()")
    reader.wait("document.querySelector('main section.tools [role=status]')?.textContent")
    trial.check("it can be stopped", reader.value("document.querySelector('main section.tools [role=status]').textContent"), "Stopped; nothing was saved.")
    reader.open_rows(site.url(f"/l/long/t/{site.keys['long'][0]}"))
    trial.holds("a longer one says where its messages are", reader.value("document.querySelector('main section.tools').textContent").endswith("all are in the mbox of the list."))


def loaded(trial, site, reader):
    """A page loads the modules that it names, and no other one."""
    for name, url in (("rows", site.url("/l/letters/threads")), ("a message", site.letter("flowed"))):
        (reader.open_rows if name == "rows" else reader.read)(url)
        said = reader.value("[[...document.querySelectorAll('link[rel=modulepreload]')].map(it => it.href), performance.getEntriesByType('resource').map(it => it.name).filter(it => it.includes('/archive/'))]")
        trial.check(f"{reader.name}: {name}: modules that were loaded and not named", sorted({*said[1]} - {*said[0]}), [])


def without(trial, site, reader):
    """Where the script does not run, is not there, or has no message, the page is as the proxy sent it."""
    url = site.letter("charset koi8-r")
    shown = "(() => { const it = document.querySelector('iframe'); return it ? Math.round(it.getBoundingClientRect().top) : null; })()"
    reader.without_script(True)
    reader.open(url)
    time.sleep(1)
    trial.holds("no script: the message stands in its frame at once", 0 < (reader.value(shown) or -1) < 200, reader.value(shown))
    trial.holds("no script: as it came", "=?koi8-r?" in (reader.in_frame("document.body.innerText") or ""))
    reader.open(site.url("/l/letters/threads"))
    trial.holds("no script: rows as the archive writes them", "=?koi8-r?" in reader.value("document.body.innerText"))
    rows_come(trial, site, reader, "no script", 0)
    reader.without_script(False)
    for blocked, what in (("*/archive.js", "the script cannot be had"), ("*/archive/words.js", "a module cannot be had")):
        reader.blocked(blocked)
        rows_come(trial, site, reader, what, 5)
    reader.blocked("*/archive/words.js")
    reader.open(url)
    time.sleep(4)
    trial.holds("a module cannot be had: the frame comes by itself", 0 < (reader.value(shown) or -1) < 200, reader.value(shown))
    trial.holds("a module cannot be had: as it came", "=?koi8-r?" in (reader.in_frame("document.body.innerText") or ""))
    reader.blocked()
    for what, path, wanted in (("withheld", site.message("long", site.keys["long"][-1]), "403 Forbidden: withdrawn"), ("not there", site.message("letters", "0" * 64), "404 Not Found")):
        reader.read(path)
        time.sleep(1)
        trial.holds(f"a message that is {what}: the frame says so", wanted in (reader.in_frame("document.body.innerText") or ""))


def rows_come(trial, site, reader, what, seconds):
    """All rows of a long page are there after so many seconds, also those that wait for the script."""
    reader.open(site.url("/l/long/threads"))
    time.sleep(seconds)
    shown = "[...document.querySelectorAll('main div[class]')].map(it => getComputedStyle(it).display === 'flex')"
    found = reader.value(shown)
    trial.check(f"{what}: rows of a long page that are not shown", (len(found) > 100, found.count(False)), (True, 0))


def saved(trial, site, reader):
    """A file of a mail, saved by its button, is what was sent."""
    reader.save_into(site.folder)
    reader.read(site.letter("a file of 5 MB"))
    reader.click("document.querySelector('.files button')")
    file = site.folder / "big.zip"
    for _ in range(200):
        time.sleep(0.1)
        if file.exists() and file.stat().st_size >= len(BIG_FILE):
            break
    trial.check("a file of 5 MB is saved as it was sent", file.exists() and file.read_bytes() == BIG_FILE, True)


def served(trial, site):
    """What the proxy says of pages and of the script."""
    asked = Asked(site.proxy, "/l/letters/threads")
    said = dict(it.strip().split(" ", 1) for it in asked.one("content-security-policy").split(";"))
    trial.check("what a page may load", {it: said.get(it) for it in ("default-src", "script-src", "connect-src", "require-trusted-types-for", "trusted-types")},
                {"default-src": "'none'", "script-src": "'self'", "connect-src": "'self'", "require-trusted-types-for": "'script'", "trusted-types": "'none'"})
    trial.check("a message's own policy has no script", "script-src" in Asked(site.proxy, f"/l/letters/m/{site.keys['letters'][0]}").one("content-security-policy"), False)
    modules = {f"/archive/{it.name}" for it in (SAMPLES / "proxy" / "archive").glob("*.js")}
    pages = [asked.body, Asked(site.proxy, f"/l/letters/m/{site.keys['letters'][0]}", "-H", "Sec-Fetch-Dest: document").body]
    trial.check("pages of rows and of messages name all modules between them", {it.decode() for it in re.findall(rb'modulepreload" href="([^"]*)"', b"".join(pages))}, modules)
    for path in sorted({"/archive.js"} | modules):
        script = Asked(site.proxy, path)
        trial.check(f"{path} is served as a script", (script.status, script.one("content-type"), script.one("cache-control"), script.one("x-content-type-options")),
                    ("200", "text/javascript; charset=utf-8", "max-age=60", "nosniff"))
        words = r"innerHTML|outerHTML|insertAdjacent|document\.write|eval\(|new Function|DOMParser|localStorage|sessionStorage|indexedDB|document\.cookie|setTimeout\(['\"]"
        trial.check(f"{path} has no word that makes HTML or code of text, or keeps something", re.findall(words, script.body.decode()), [])


def drawn(trial, site, reader, pictures):
    """Each page as it was and as it is."""
    for name, path in ({"threads": site.url("/l/letters/threads")} | {name: site.letter(it) for name, it in PICTURES.items()}).items():
        for width, height in ((1200, 700), (400, 800)):
            for how in ("before", "light", "dark"):
                reader.without_script(how == "before")
                reader.media(dark=how == "dark")
                (reader.open if how == "before" or "/m/" not in path else reader.read)(path, width, height)
                time.sleep(1)
                trial.check(f"drawn: {name} at {width}, {how}", reader.picture(pathlib.Path(pictures) / f"reading-{name}-{width}-{how}.png"), (width, height))
    reader.without_script(False)
    reader.media()


def in_both(trial, site, reader, only):
    if not only:
        rows(trial, site, reader)
        guarded(trial, site, reader)
        loaded(trial, site, reader)
        ways(trial, site, reader)
        reading_access.by_keys(trial, site, reader)
        reading_access.directions(trial, site, reader)
        reading_agree.all_of_it(trial, site, reader)
    read_all(trial, site, reader, [it for it in LETTERS if re.search(only, it.name)])


def in_chromium(trial, site, reader, asked):
    """What only DevTools can try."""
    without(trial, site, reader)
    saved(trial, site, reader)
    thread_saved(trial, site, reader)
    reading_parsed.compared(trial, site, reader, 300)
    reading_parsed.changed(trial, site, reader, 2000)
    reading_access.by_axe(trial, site, reader)
    reading_access.printed(trial, site, reader)
    reading_cost.memory(trial, site, reader)
    reading_cost.twenty(trial, site, reader)
    reading_cost.timed(trial, site, reader, asked.rows)
    if asked.pictures:
        drawn(trial, site, reader, asked.pictures)
    trial.check("what Chromium asked of other sites", sorted(it for it in reader.asked if it != site.url("")), [])


def main():
    asked = words_of(__doc__, pictures={"help": "the folder for what the browser draws"}, only={"default": "", "help": "the letters whose name has this regular expression"},
                     browsers={"default": "chromium,firefox"}, rows={"type": int, "default": 2000, "help": "how many rows a page has whose time is told"},
                     times={"action": "store_true", "help": "that time alone"})
    with Trial() as trial, tempfile.TemporaryDirectory() as folder:
        if not all([trial.has(it) for it in ("nginx", "openssl", "curl")]):
            return
        site = Site(asked.archive, folder, asked.rows)
        with site.proxy:
            if asked.times and trial.has(Browser.found() or "chromium"):
                reader = Chromium(Browser.found(), site.folder / "chromium")
                reading_cost.timed(trial, site, reader, asked.rows)
                reader.close()
            if asked.times:
                return
            served(trial, site)
            if "chromium" in asked.browsers and trial.has(Browser.found() or "chromium"):
                reader = Chromium(Browser.found(), site.folder / "chromium")
                in_both(trial, site, reader, asked.only)
                if not asked.only:
                    in_chromium(trial, site, reader, asked)
                reader.close()
            if "firefox" in asked.browsers and trial.has(Firefox.found() or "firefox-esr"):
                reader = Firefox(Firefox.found(), site.folder / "firefox")
                in_both(trial, site, reader, asked.only)
                reader.close()


if __name__ == "__main__":
    main()
