#!/usr/bin/env python3
"""search.py: a search, a feed and links by Message-ID for an archive; each reader is answered by what the archive shows them.

  search.py --folder FOLDER [--archive HOST:PORT] [--port PORT] [--site URL] [--warm SECONDS]

It answers on 127.0.0.1, behind the proxy (samples/proxy):

  /l/LIST/search?q=WORDS[&quoted=1][&o=FROM]   the rows of the archive's page that the words find, the newest first
  /l/LIST/id/MESSAGE-ID                        leads to the message
  /l/LIST/feed                                 the newest messages (Atom, RFC 4287)

At each search it asks the archive, with the Authorization of the reader or none, for the page of all threads. It makes the reply of
that page and of the texts that the page names. It never reads the database and has no rights of its own. FOLDER holds the index
and can be removed while the service is stopped.

Status: 0 stopped by SIGTERM or SIGINT; 1 FOLDER cannot be used, another service has it, or the port is taken; 2 usage error.
"""
import argparse, html, os, pathlib, re, signal, sys, threading

sys.dont_write_bytecode = True
sys.path[:0] = [str(pathlib.Path(__file__).resolve().parent), str(pathlib.Path(__file__).resolve().parent.parent)]
from archive_search.server import Server
from archive_search.service import Service


def address(text):
    host, _, port = text.rpartition(":")
    if not host or not port.isdecimal() or not 0 < int(port) < 65536:
        raise argparse.ArgumentTypeError(f"{text!r} is not HOST:PORT")
    return host, int(port)


def port(text):
    if not text.isdecimal() or int(text) > 65535:
        raise argparse.ArgumentTypeError(f"{text!r} is not a port, 0 to 65535")
    return int(text)


def site(text):
    if not re.fullmatch(r"https?://[^\s/?#]+/*", text):
        raise argparse.ArgumentTypeError(f"{text!r} is not the address of a site, such as https://lists.example.org")
    return html.escape(text.rstrip("/"))


def words():
    about = argparse.ArgumentParser(prog="search.py", description=__doc__, formatter_class=argparse.RawDescriptionHelpFormatter)
    about.add_argument("--folder", required=True, help="where the index is kept; it is made if it is not there")
    about.add_argument("--archive", default="127.0.0.1:8080", type=address, help="where the archive answers: keep.sh, or HAProxy (%(default)s)")
    about.add_argument("--port", default=8090, type=port, help="where the service answers; 0 takes a free port (%(default)s)")
    about.add_argument("--site", default="https://lists.example.org", type=site, help="the address of the site, for the feed (%(default)s)")
    about.add_argument("--warm", default=30, type=int, help="seconds between two looks at what the public is shown, so that readers find it ready; 0: none (%(default)s)")
    return about.parse_args()


def main():
    asked = words()
    os.umask(0o077)
    try:
        service = Service(asked.folder, asked.archive, asked.site)
        server = Server(asked.port, service)
    except BlockingIOError:
        sys.exit(f"search.py: another service has the folder {asked.folder}")
    except OSError as fault:
        sys.exit(f"search.py: folder {asked.folder}, port {asked.port}: {fault}")
    for it in (signal.SIGTERM, signal.SIGINT):
        signal.signal(it, lambda *_: sys.exit(0))
    with server:
        if asked.warm > 0:
            threading.Thread(target=service.keep_ready, args=(asked.warm,), daemon=True).start()
        print(f"listening on 127.0.0.1:{server.server_address[1]}", flush=True)
        server.serve_forever()


if __name__ == "__main__":
    main()
