"""The feed of a list (Atom, RFC 4287): who wrote when about what, and no text, because feeds live on in the programs that took them."""
import datetime, html, re

from .message import words_decoded
from .pages import escaped
from .view import View

ENTRIES = 30
ROW = re.compile(rb'<div class="d\d+"><a href="[^"]*">[^<]*</a> (?:\(none\)|<a href="[^"]*">([^<]*)</a>) <a href="[^"]*">([^<]*)</a> ')
NEVER = "1970-01-01T00:00:00Z"  # of a feed without an entry, so that it is the same at each time


def feed(service, archive, name):
    """The newest messages: by the pages of this month and the one before, and by the page of all threads if these have none."""
    now = datetime.datetime.now(datetime.timezone.utc)
    months = [now.strftime("%Y-%m"), (now.replace(day=1) - datetime.timedelta(1)).strftime("%Y-%m")]
    entries = [it for month in months for it in newest(archive.get(f"/l/{name}/month/{month}"), now)]
    entries = entries or newest(archive.get(f"/l/{name}/threads"), now)
    list_at = f"{service.site}/l/{name}"
    return (f'<?xml version="1.0" encoding="utf-8"?>\n<feed xmlns="http://www.w3.org/2005/Atom">\n<title>{name}</title>\n<id>{list_at}/threads</id>\n'
            f'<updated>{entries[0][0] if entries else NEVER}</updated>\n<link rel="self" type="application/atom+xml" href="{list_at}/feed"/>\n'
            f'<link rel="alternate" type="text/html" href="{list_at}/threads"/>\n'
            f'{"".join(entry(list_at, *it) for it in entries[:ENTRIES])}</feed>\n').encode()


def newest(page, now):
    """The newest messages of a page that were sent by now: (date, key, author, subject). A message that is dated later waits until then."""
    view = View(page, lambda key: False)
    places = reversed(view.dated("", now.strftime("%Y-%m-%d %H:%M")))
    return [described(page, view, place) for place, _ in zip(places, range(ENTRIES))]


def described(page, view, place):
    found, date = ROW.match(view.row(page, place)), view.date(place)
    return f"{date[:10]}T{date[11:]}:00Z", view.key(place), shown(found[1] or b""), shown(found[2])


def shown(text):
    return " ".join(words_decoded(html.unescape(text.decode("ascii", "replace"))).split())[:500]


def entry(list_at, date, key, author, subject):
    where = f"{list_at}/m/{key}"
    return (f"<entry><title>{escaped(subject)}</title><id>{where}</id><updated>{date}</updated><author><name>{escaped(author).strip() or '(none)'}</name></author>"
            f'<link rel="alternate" href="{where}"/></entry>\n')
