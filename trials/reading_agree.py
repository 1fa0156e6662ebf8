"""reading_agree.py: what pages have to agree on: a thread on one page, dates of rows and of messages, HTML's names; a part of reading.py."""
import html.entities

from letters import ORDINARY

ROW_DATES = """Object.fromEntries([...document.querySelectorAll('main div[role=list] div[class]')].map(it => [it.querySelector('a[href*="/m/"]').pathname.split('/')[4], it.firstChild.textContent]))"""
ID_LINK = """Promise.all(['message', 'parts', 'bytes'].map(it => import(`/archive/${it}.js`))).then(([{ messageElements }, { partOf }, { bytesOf }]) =>
  messageElements(partOf(bytesOf('Message-ID: <a+b/%c@x>\\n\\nbody\\n')), 'talk', '0'.repeat(64))[1].querySelector('dd.address a')?.getAttribute('href') ?? null)"""


def dates(trial, site, reader):
    """A message has one date in its row and on its page, in the minute that the archive files it under."""
    reader.open_rows(site.url("/l/letters/threads"))
    rows, wrong = reader.value(ROW_DATES), {}
    dated = {it.name: key for it, key in zip(ORDINARY, site.keys["letters"]) if it.dated}
    for name, key in dated.items():
        reader.read(site.message("letters", key))
        reader.wait("document.querySelector('main > dl time')")
        said = [it[:16].replace("T", " ") for it in reader.value("[...document.querySelectorAll('main > dl time')].map(it => it.dateTime)")]
        if said != [rows[key]]:
            wrong[name] = (said, rows[key])
    trial.check(f"{reader.name}: dates of pages that are not those of their rows, of {len(dated)}", wrong, {})


def names_of_html(trial, reader, site):
    """The table of names is the standard's, as Python has it."""
    reader.open_rows(site.url("/l/letters/threads"))
    names, bare = reader.later("import('/archive/entities.js').then(it => [Object.fromEntries(it.REFERENCES), [...it.BARE]])")
    wanted = {name: text for name, text in html.entities.html5.items() if name.endswith(";")}
    trial.check(f"{reader.name}: HTML's {len(wanted)} names, and those without a `;`, are those of Python",
                ({f"{name};": text for name, text in names.items()} == wanted, sorted(bare)), (True, sorted(it for it in html.entities.html5 if not it.endswith(";"))))


def on_one_page(trial, site, reader):
    """The messages of a thread below their rows; where a thread is long the page does not offer it."""
    keys = site.keys["talk"]
    reader.open_rows(site.url(f"/l/talk/t/{keys[0]}"))
    start = "document.querySelector('main section[aria-label=Reading] button')"
    trial.check(f"{reader.name}: a thread offers to be read on its page", reader.value(f"{start}.textContent"), "Read all 12 here")
    reader.click(start)
    reader.wait("document.querySelector('section[aria-label=Reading]').textContent.startsWith('All 12')")
    said = reader.value("[...document.querySelectorAll('article.below')].map(it => [it.parentElement.previousElementSibling.querySelector('a[href*=\"/m/\"]').pathname.split('/')[4], it.querySelector('pre').textContent])")
    trial.check(f"{reader.name}: each message is below its row", sorted(said), sorted([key, f"mail {at}\n"] for at, key in enumerate(keys)))
    trial.check(f"{reader.name}: the focus is where that is said", reader.value("document.activeElement.getAttribute('role')"), "status")
    reader.open_rows(site.url(f"/l/long/t/{site.keys['long'][0]}"))
    trial.check(f"{reader.name}: a long thread does not offer it", reader.value(f"{start} === null"), True)


def links_of_a_message(trial, site, reader):
    """Access keys; the Message-ID, which leads to the message where the proxy has a search."""
    reader.read(site.message("talk", site.keys["talk"][2]))
    reader.wait("document.querySelector('main nav a[rel=next]')")
    keys = reader.value("[...document.querySelectorAll('main [accesskey]')].map(it => [it.accessKey, it.textContent])")
    trial.check(f"{reader.name}: access keys", keys, [["p", "Previous"], ["n", "Next"], ["u", "In reply to"], ["t", "Whole thread"], ["r", "Reply"]])
    trial.check(f"{reader.name}: without a search a Message-ID is no link", reader.later(ID_LINK), None)
    reader.value("document.querySelector('nav').append(Object.assign(document.createElement('a'), { href: '/l/talk/search' }))")
    trial.check(f"{reader.name}: with one it is", reader.later(ID_LINK), "/l/talk/id/a%2Bb%2F%25c%40x")


def all_of_it(trial, site, reader):
    dates(trial, site, reader)
    names_of_html(trial, reader, site)
    on_one_page(trial, site, reader)
    links_of_a_message(trial, site, reader)
