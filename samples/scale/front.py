#!/usr/bin/env python3
"""front.py: HAProxy's configuration for an archive of many shards, with its maps and the page of all lists.

  front.py SHARDS TO [--port 8080] [--socket /run/haproxy/archive.sock] [--threads 2] [--server WORDS]

SHARDS is a file with one line for each shard and copy:

    SHARD COPY ADDRESS:PORT ADDRESS:PORT [LIST ..]

the shard's name, the copy's, where its servers of colour `a` and of colour `b` answer, and the lists that the shard holds
(`lists.sh` prints them). A shard with one line and one address twice is a keep.sh without copies, that serves (DRAIN, with BACKEND
SHARD-alone and the copy's name as SERVER). `--server` has more words for each server of a copy, as 'ssl verify required ca-file
copies.pem crt front.pem'.

Into TO go haproxy.cfg, lists.map (list to shard), live.map (shard to the colour that is asked), marks.map (colour to the mark that
its servers are asked for all the time) and lists.html. publish.sh changes live.map and marks.map, so what they say of a shard that
is there stays. Status 1 where SHARDS is wrong, as with a list in two shards or an address twice; then nothing is written.
"""
import argparse, html, os, pathlib, re, sys

NAME, LIST, WHERE = "[a-z][a-z0-9]{0,39}", "[a-z][a-z0-9-]{0,39}", r"[^\s:]+:\d+"
NO_MARK = "mark.000000000000"  # which no server has: nobody is asked before the first publish.sh

HEAD = """# made by front.py: do not change by hand
global
  stats socket {socket} mode 600 level admin expose-fd listeners
  server-state-file {to}/servers.state
  nbthread {threads}
  maxconn 4000
  # (publish.sh waits as long after a reload: what is left of before has the maps of before)
  hard-stop-after 30s

defaults
  mode http
  timeout connect 2s
  timeout client 60s
  timeout queue 60s
  # a server that writes a long reply answers no check meanwhile; one that is gone refuses connections, which is seen at once
  timeout check 30s
  option http-server-close
  # requests are GET only and change nothing, so each may be asked again, of another copy
  option redispatch 1
  retry-on all-retryable-errors
  load-server-state-from-file global

frontend archive
  bind 127.0.0.1:{port}
  http-request set-var(txn.shard) path,field(3,/),map({to}/lists.map) if {{ path_beg /l/ }}
  http-request set-var(txn.live) var(txn.shard),map({to}/live.map) if {{ var(txn.shard) -m found }}
  http-request set-var(txn.root) bool(true) if {{ path / }}
  # the shard that is asked has the last word on the token (401); of a page of lists that it allows the lists are all
  http-response return status 200 content-type "text/html; charset=us-ascii" hdr Connection close file {to}/lists.html if {{ var(txn.root) -m bool }} {{ status 200 }}
  use_backend %[var(txn.live),concat(-long)] if {{ var(txn.live) -m end -- -a -b }} {{ path_end /mbox }}
  use_backend %[var(txn.live)] if {{ var(txn.live) -m found }}
"""
# what is no page of a list: any shard that is there answers
ANY = "  use_backend {colour} if {{ str({shard}),map({to}/live.map) -m str {colour} }} {{ nbsrv({colour}) gt 0 }}\n"
NONE = """  default_backend none

backend none
  http-request return status 503 content-type text/plain string "503 Service Unavailable\\n"
"""
# Each server is asked all the time whether it has the mark of its colour: one that comes back with an older file is asked nothing else.
# One that hangs is left after 30 seconds, and what it was asked goes to another.
COPIES = """
backend {colour}
  balance leastconn
  timeout server 30s
  retries 3
  option httpchk
  http-check send meth GET uri / hdr Authorization "Bearer %[str({colour}),map({to}/marks.map)]"
  http-check expect status 200
  default-server check inter 500ms fall 1 rise 1 observe layer4 error-limit 1 on-error mark-down maxconn 4{words}
{servers}
# mboxes go one after the other, and to one copy only while that is there: so they hold short pages up for one of them
backend {colour}-long
  timeout server 120s
  retries 3
{longs}"""
# A keep.sh by itself is away while its file is opened: a request meanwhile waits, a second between two tries, and so it has no check.
KEEPER = """
backend {colour}
  timeout server 120s
  retries 60
  server {copy} {where} maxconn 4
"""


class Shard:
    """The copies of a shard, each with its two addresses, and its lists."""

    def __init__(self, name):
        self.name, self.copies, self.lists = name, [], []

    def is_alone(self):
        return len(self.copies) == 1 and self.copies[0][1] == self.copies[0][2]

    def colours(self):
        return [f"{self.name}-alone"] if self.is_alone() else [f"{self.name}-a", f"{self.name}-b"]

    def live(self, was):
        """The colour that is asked: that of before, where the shard has it."""
        return was if was in self.colours() else self.colours()[0]

    def backends(self, to, words):
        if self.is_alone():
            copy, where, _ = self.copies[0]
            return KEEPER.format(colour=self.colours()[0], copy=copy, where=where)
        return "".join(self.backend(to, words, at, colour) for at, colour in enumerate(self.colours()))

    def backend(self, to, words, at, colour):
        servers = "".join(f"  server {copy} {where[at]}\n" for copy, *where in self.copies)
        longs = "".join(f"  server {copy} {where[at]} maxconn 1 track {colour}/{copy}{words}{' backup' if place else ''}\n"
                        for place, (copy, *where) in enumerate(reversed(self.copies)))
        return COPIES.format(colour=colour, to=to, words=words, servers=servers, longs=longs)


def rows(path):
    """The lines of copies, each with its number and its words; one that is none ends the script."""
    for number, line in enumerate(pathlib.Path(path).read_text().splitlines(), 1):
        words = line.partition("#")[0].split()
        forms = [NAME, NAME, WHERE, WHERE] + [LIST] * (len(words) - 4)
        if words and (len(words) < 4 or not all(map(re.fullmatch, forms, words))):
            sys.exit(f"front.py: line {number} of {path} is no SHARD COPY ADDRESS:PORT ADDRESS:PORT [LIST ..]")
        if words:
            yield number, words


def read(path):
    """The shards. A list in two shards ends the script, and so does an address or a copy that is there twice."""
    shards, owners = {}, {}
    for number, (name, copy, a, b, *lists) in rows(path):
        own = {f"the copy {copy} of {name}": f"line {number}", f"the address {a}": f"line {number}", f"the address {b}": f"line {number}"}
        for what, whose in (own | {f"the list {it}": f"the shard {name}" for it in lists}).items():
            if owners.setdefault(what, whose) != whose:
                sys.exit(f"front.py: line {number} of {path}: {what} is in {owners[what]} already")
        shard = shards.setdefault(name, Shard(name))
        shard.copies.append((copy, a, b))
        shard.lists += [it for it in lists if it not in shard.lists]
    return shards


def page(names):
    """The page of all lists, as the archive itself writes it (docs/HTTP.md)."""
    rows = "".join(f'<div class="d0"><a href="/l/{name}/threads">{name}</a> <a href="/l/{name}/mbox">mbox</a></div>\n' for name in sorted(names))
    return f"<!DOCTYPE html>\n<html><head><title>Lists</title></head><body>\n<h1>Lists</h1>\n{rows}</body></html>\n"


def put(path, text):
    """Whole or not at all."""
    new = path.with_name(f"{path.name}.new")
    new.write_text(text)
    os.replace(new, path)


def known(path):
    """What a map says, where it is there."""
    return dict(line.split() for line in path.read_text().splitlines()) if path.exists() else {}


def configuration(shards, asked, to):
    text = HEAD.format(socket=asked.socket, port=asked.port, to=to, threads=asked.threads)
    for shard in list(shards.values())[:16]:
        text += "".join(ANY.format(colour=colour, shard=shard.name, to=to) for colour in shard.colours())
    words = f" {asked.server}" if asked.server else ""
    return text + NONE + "".join(shard.backends(to, words) for shard in shards.values())


def main():
    words = argparse.ArgumentParser(description=__doc__, formatter_class=argparse.RawDescriptionHelpFormatter)
    words.add_argument("shards", metavar="SHARDS")
    words.add_argument("to", metavar="TO", type=pathlib.Path)
    words.add_argument("--port", default=8080, type=int)
    words.add_argument("--socket", default="/run/haproxy/archive.sock")
    words.add_argument("--threads", default=2, type=int)
    words.add_argument("--server", default="")
    asked = words.parse_args()
    to, shards = asked.to.resolve(), read(asked.shards)
    to.mkdir(parents=True, exist_ok=True)
    live, marks = known(to / "live.map"), known(to / "marks.map")
    put(to / "lists.map", "".join(f"{one} {shard.name}\n" for shard in shards.values() for one in shard.lists))
    put(to / "live.map", "".join(f"{shard.name} {shard.live(live.get(shard.name))}\n" for shard in shards.values()))
    put(to / "marks.map", "".join(f"{it} {marks.get(it, NO_MARK)}\n" for shard in shards.values() for it in shard.colours()))
    put(to / "lists.html", page(one for shard in shards.values() for one in shard.lists))
    put(to / "haproxy.cfg", configuration(shards, asked, to))
    if not (to / "servers.state").exists():
        put(to / "servers.state", "1\n")


if __name__ == "__main__":
    main()
