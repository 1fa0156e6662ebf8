"""reading_access.py: pages by keyboard, in the other direction, on paper, and by axe-core; a part of reading.py."""
import re, time


def tabbed_to(reader, label, most=60):
    """Presses Tab until what has the focus has this text; whether that came."""
    for _ in range(most):
        reader.press("Tab")
        if reader.value("document.activeElement.textContent") == label:
            return True
    return False


def by_keys(trial, site, reader):
    """By keyboard alone: from a list through a thread to a message, the next one, and an attachment."""
    reader.open(site.url("/l/talk/threads"))
    trial.check(f"{reader.name}: Tab reaches a thread", tabbed_to(reader, "thread"), True)
    reader.press("Enter")
    trial.check(f"{reader.name}: Enter opens it", reader.wait("location.pathname.includes('/t/') && document.querySelector('main div[role=list] > [role]')"), True)
    subject = reader.value("document.querySelector('main div a[href*=\"/m/\"]').textContent")
    trial.check(f"{reader.name}: Tab reaches a message", tabbed_to(reader, subject), True)
    reader.press("Enter")
    trial.check(f"{reader.name}: Enter opens it", reader.wait("location.pathname.includes('/m/') && document.querySelector('main nav a[rel=next]')"), True)
    path = reader.value("location.pathname")
    trial.check(f"{reader.name}: Tab reaches the next message", tabbed_to(reader, "Next"), True)
    reader.press("Enter")
    trial.check(f"{reader.name}: Enter opens it", reader.wait(f"location.pathname.includes('/m/') && location.pathname !== '{path}' && document.querySelector('main article')"), True)
    reader.read(site.letter("parts in parts in parts"))
    found = {it: tabbed_to(reader, it, 20) for it in ("Whole thread", "Raw message", "Copy permanent link", "Copy Message-ID", "Save logo.png")}
    trial.check(f"{reader.name}: Tab reaches in their order what can be done", found, dict.fromkeys(found, True))
    reader.read(site.letter("a text of 5 MB"))
    more = "document.querySelector('section.text > button')"
    trial.check(f"{reader.name}: Tab reaches the rest of a long text", tabbed_to(reader, reader.value(f"{more}.textContent")), True)
    reader.press("Enter")
    trial.check(f"{reader.name}: and Enter shows it, with the focus on it", reader.wait(f"{more} === null && document.activeElement.className === 'rest'"), True)


def directions(trial, site, reader):
    """Text from right to left, and the language that a mail says it has."""
    direction = "[...document.querySelectorAll('{}')].map(it => getComputedStyle(it).direction)"
    reader.read(site.letter("right to left"))
    trial.check(f"{reader.name}: Hebrew and Arabic go from right to left", reader.value(direction.format("h1, article pre")), ["rtl"] * 3)
    reader.read(site.letter("charset windows-1255"))
    trial.check(f"{reader.name}: so do those of a charset", {*reader.value(direction.format("h1, article pre"))[:2]}, {"rtl"})
    reader.open_rows(site.url("/l/letters/threads"))
    rows = "[...document.querySelectorAll('main div > a[href*=\"/m/\"]')].filter(it => /^[\u0590-\u06ff]/.test(it.textContent)).map(it => getComputedStyle(it).direction)"
    trial.holds(f"{reader.name}: so do subjects in rows", {*reader.value(rows)} == {"rtl"}, reader.value(rows))
    reader.read(site.letter("a language"))
    trial.check(f"{reader.name}: the language of a page and of its mail", reader.value("[document.documentElement.lang, document.querySelector('article').lang]"), ["en", "de-CH"])


def printed(trial, site, reader):
    """On paper: the message without links and buttons, black on white. With reduced motion nothing moves."""
    reader.read(site.letter("parts in parts in parts"))
    reader.media(dark=True, media="print")
    shown = "[...document.querySelectorAll('nav, .tools, button')].filter(it => it.getBoundingClientRect().height > 0).length"
    trial.check("printed: links and buttons of the page are left out", reader.value(shown), 0)
    colours = reader.value("['color', 'backgroundColor'].map(it => getComputedStyle(document.body)[it])")
    trial.check("printed: black on white, also where the screen is dark", colours, ["rgb(0, 0, 0)", "rgb(255, 255, 255)"])
    reader.media(still=True)
    reader.read(site.letter("no head"))
    moving = "document.getAnimations().filter(it => it.effect.getTiming().duration > 0).length + [...document.querySelectorAll('*')].filter(it => parseFloat(getComputedStyle(it).transitionDuration)).length"
    trial.check("with reduced motion nothing moves", reader.value(moving), 0)
    reader.media()


def axe_of(reader):
    """The source of axe-core, which Chromium's DevTools hold; None where this Chromium has none."""
    reader.open("devtools://devtools/bundled/third_party/lighthouse/lighthouse-dt-bundle.js")
    bundle = reader.value("document.documentElement.textContent") or ""
    at = bundle.find("`/*! axe v")
    return reader.value(re.match(r"`(?:[^`\\]|\\.)*`", bundle[at:], re.DOTALL)[0]) if at >= 0 else None


def by_axe(trial, site, reader):
    """axe-core on pages of each kind, by two widths, light and dark; the thread with its messages below their rows."""
    axe = axe_of(reader)
    if axe is None:
        return trial.skip("axe-core", "this browser's DevTools have none")
    key = site.keys["talk"][0]
    pages = {"lists": "/", "threads": "/l/letters/threads", "thread": f"/l/talk/t/{key}",
             "month": "/l/letters/month/2024-03", "author": "/l/talk/by/a1@example.org"}
    letters = ("quotes of all kinds", "parts in parts in parts", "a mail in a mail", "HTML alone", "many readers", "right to left", "a text of 5 MB", "a text of 16 MB",
               "signed by PGP/MIME", "encrypted", "a patch", "names of files that harm", "no head", "an invitation", "two patches in the text",
               "a long quote above its answer", "a long quote below its answer")
    urls = {name: site.url(path) for name, path in pages.items()} | {it: site.letter(it) for it in letters} | {"answer": site.message("talk", site.keys["talk"][2])}
    for width, height in ((1200, 900), (400, 800)):
        for dark in (False, True):
            reader.media(dark=dark)
            wrong = {name: found for name, url in urls.items() if (found := violations(reader, axe, url, width, height))}
            trial.check(f"axe-core at {width}, {'dark' if dark else 'light'}: violations on {len(urls)} pages", wrong, {})
    reader.media()


def violations(reader, axe, url, width, height):
    (reader.read if "/m/" in url else reader.open_rows)(url, width, height)
    time.sleep(0.5)
    if "/l/talk/t/" in url:
        reader.click("document.querySelector('section[aria-label=Reading] button')")
        reader.wait("document.querySelectorAll('article.below').length === 12")
    reader.value(axe)
    return reader.later("axe.run(document, { resultTypes: ['violations'] }).then(it => it.violations.map(one => one.id + ' ' + one.nodes[0].html.slice(0, 80)))")
