"""The pages of a search, in the form of the archive's own, so that the proxy and its script treat them alike."""
import html, re, urllib.parse

from .asking import Refused
from .index import Missing, TooLong
from .query import LONGEST, Query, Unclear

PAGE, CHOICE = 25, 100  # rows of a page
DEPTH = re.compile(rb'^<div class="d\d+">')
HELP = """<dl class="help"><dt>memory leak</dt><dd>both words, in any of their English forms</dd><dt>"memory leak"</dt><dd>the words in this order</dd>
<dt>leak OR overflow</dt><dd>one of them</dd><dt>-draft</dt><dd>without this word</dd><dt>kern*</dt><dd>words that begin so</dd>
<dt>s: f: b: q:</dt><dd>in the subject, from, body or quotes: s:release f:anna</dd><dt>d:2003-02..2003-05</dt><dd>sent in these days, months or years</dd></dl>
"""


def escaped(text):
    return html.escape("".join(it if it.isprintable() else " " for it in text))


def document(title, main, head=""):
    return f'<!DOCTYPE html>\n<html><head><title>{title}</title><meta name="robots" content="noindex">{head}</head><body>\n{main}</body></html>\n'.encode()


def waiting(said):
    """The page of a reply 503, which comes back by itself."""
    title = "Not ready yet"
    return document(title, f'<h1>{title}</h1>\n<p role="status">{escaped(said.why)} This page comes back by itself.</p>\n')


def form(name, asked, quoted):
    return (f'<form role="search" action="/l/{name}/search"><input type="search" name="q" maxlength="{LONGEST}" value="{escaped(asked)}" aria-label="Search {name}"> '
            f'<label><input type="checkbox" name="quoted" value="1"{" checked" if quoted else ""}> also in quotes</label> <button>Search</button></form>\n')


def search(service, archive, name, fields):
    """The messages that a question finds, 25 on a page."""
    asked, quoted, begin = fields.get("q", ""), fields.get("quoted") == "1", fields.get("o", "0")
    begin = int(begin) if re.fullmatch(r"[0-9]{1,7}", begin) else 0
    top = form(name, asked, quoted)
    try:
        query = Query(asked, quoted)
    except Unclear as why:
        archive.get(f"/l/{name}/month/1900-01")  # (it says 401 of a token that is not valid, and 404 of a list that is not there)
        return sentence(name, top, str(why))
    index, view, page = service.view(archive, name)
    try:
        places = index.found(view, query)
    except TooLong:
        return sentence(name, top, "This search takes too long. Ask for more words, or for longer ones.")
    end = min(begin + PAGE, len(places))
    rows = "".join(row(page, view, it, snippet(service.text(archive, name, index, view.key(it)), query.words)) for it in places[begin:end])
    links = pages_of(name, asked, quoted, begin, len(places))
    return document(f"{name}: search", f'{top}<h1>{name}: {counted(begin, end, len(places))}</h1><div>\n{rows}</div>\n<nav aria-label="Pages">{links}</nav>\n')


def sentence(name, top, said):
    said = f"<p>{escaped(said)}</p>" if said else ""
    return document(f"{name}: search", f"{top}<h1>{name}: search</h1>\n{said}{HELP}")


def counted(begin, end, count):
    if count <= PAGE and not begin:
        return {0: "no message", 1: "1 message"}.get(count, f"{count} messages")
    return f"{begin + 1} to {end} of {count} messages" if begin < end else f"none of {count} messages"


def pages_of(name, asked, quoted, begin, count):
    """Links to the pages before and after."""
    links = []
    for at, label, relation, is_there in ((max(0, begin - PAGE), "Newer", "prev", begin > 0 and count > 0), (begin + PAGE, "Older", "next", begin + PAGE < count)):
        fields = urllib.parse.urlencode({"q": asked, **({"quoted": "1"} if quoted else {}), "o": at}, errors="replace")
        if is_there:
            links.append(f'<a rel="{relation}" href="/l/{name}/search?{escaped(fields)}">{label}</a>')
    return " ".join(links)


def row(page, view, place, found=""):
    """The row of the archive's own page, without the depth that it has in its thread there."""
    line = DEPTH.sub(b'<div class="d0">', view.row(page, place), count=1).decode("ascii", "replace")
    return line.removesuffix("</div>") + (f' <span class="found" dir="auto">{found}</span></div>\n' if found else "</div>\n")


def snippet(said, words):
    """What is around the first of the words that a text has, and the beginning of a text that has none of them as it was asked for."""
    for text in said[2:4]:
        lower = text.lower()
        for word in words[:8] if len(lower) == len(text) else []:
            for stem in (word, word[:max(4, len(word) - 3)]):
                if (at := lower.find(stem)) >= 0:
                    return around(text, at, at + len(stem))
    return escaped(" ".join(said[2][:200].split()))


def around(text, begin, end):
    first, last = max(0, begin - 80), min(len(text), end + 120)
    marked = f"{escaped(text[first:begin])}<mark>{escaped(text[begin:end])}</mark>{escaped(text[end:last])}"
    return f'{"…" if first else ""}{marked}{"…" if last < len(text) else ""}'


def by_message_id(service, archive, name, message_id):
    """Leads to the message of a Message-ID; to a choice if several have it; 404 if the reader is shown none."""
    index, view, page = service.view(archive, name)
    try:
        places = index.of_message_id(view, message_id.strip().removeprefix("<").removesuffix(">"))
    except TooLong as fault:
        raise Missing(name) from fault
    if not places:
        raise Refused(404)
    if len(places) == 1:
        raise Refused(302, b"302 Found\n", {"Location": f"/l/{name}/m/{view.key(places[0])}"})
    rows = "".join(row(page, view, it) for it in places[:CHOICE])
    return document(f"{name}: {len(places)} messages", f"<h1>{name}: {len(places)} messages have this Message-ID</h1><div>\n{rows}</div>\n")
