"""Answers over HTTP on 127.0.0.1, a few requests at a time."""
import http.server, re, socketserver, sys, threading, urllib.parse

from .asking import CHALLENGE, Archive, Refused, Waiting
from .feed import feed
from .index import Missing
from .pages import by_message_id, search, waiting

AT_ONCE = 6  # requests that are answered at a time: each holds a page of the archive, which may have 20 MB
PEERS = 64  # connections that are held
QUEUED = 20  # seconds that a request waits for its turn
PATIENCE = 10  # seconds for a read of the request, and for the reply to be taken
ROUTE = re.compile(r"/l/([a-z][a-z0-9-]{0,39})/(search|feed|id/(.{1,1500}))")
AUTHORIZATION = re.compile(r"[!-~]+ +[!-~]+")
HTML, ATOM, PLAIN = "text/html; charset=utf-8", "application/atom+xml; charset=utf-8", "text/plain; charset=us-ascii"


class Handler(http.server.BaseHTTPRequestHandler):
    protocol_version, timeout, server_version, sys_version = "HTTP/1.0", PATIENCE, "search", ""

    def do_GET(self):
        try:
            if not self.server.slots.acquire(timeout=QUEUED):
                raise Waiting("Too many readers search at the moment.", 5)
            try:
                kind, body = self.answered()
            finally:
                self.server.slots.release()
            self.reply(200, kind, body)
        except Missing:
            self.wait(Waiting("A part of the index is made again."))
        except Waiting as said:
            self.wait(said)
        except Refused as said:
            self.reply(said.status, PLAIN, said.body, said.fields)

    def answered(self):
        """Returns the type and the body of a page."""
        path, _, query = self.path.partition("?")
        route = ROUTE.fullmatch(path)
        if not route:
            raise Refused(404)
        archive, name, service = Archive(self.server.service.address, self.authorization()), route[1], self.server.service
        if route[2] == "search":
            return HTML, search(service, archive, name, fields_of(query))
        if route[2] == "feed":
            return ATOM, feed(service, archive, name)
        return HTML, by_message_id(service, archive, name, urllib.parse.unquote(route[3], errors="replace"))

    def authorization(self):
        """Returns the Authorization of the reader, which only the archive looks into, or None."""
        values = self.headers.get_all("Authorization", [])
        if len(values) > 1:
            raise Refused(400)
        if not values or not values[0].strip():
            return None
        if not AUTHORIZATION.fullmatch(values[0]):
            raise Refused(401, fields=CHALLENGE)
        return values[0]

    def wait(self, said):
        self.reply(503, HTML, waiting(said), {"Retry-After": str(said.seconds), "Refresh": str(said.seconds)})

    def reply(self, status, kind, body, fields=()):
        self.send_response(status)
        for field, value in {"Content-Type": kind, "Content-Length": str(len(body)), **dict(fields), "Connection": "close"}.items():
            self.send_header(field, value)
        self.end_headers()
        self.wfile.write(body)

    def log_message(self, *_):
        """Nothing is logged here: a question says what its reader looks for."""


def fields_of(query):
    """Returns the fields of a query, of which a search has three."""
    return dict(urllib.parse.parse_qsl(query[:4000])) if query.count("&") < 8 else {}


class Server(socketserver.ThreadingMixIn, http.server.HTTPServer):
    daemon_threads, request_queue_size = True, PEERS

    def __init__(self, port, service):
        self.service, self.slots, self.peers = service, threading.BoundedSemaphore(AT_ONCE), threading.BoundedSemaphore(PEERS)
        super().__init__(("127.0.0.1", port), Handler)

    def server_bind(self):
        """Binds without the name of the machine, for which HTTPServer would ask a resolver."""
        socketserver.TCPServer.server_bind(self)
        self.server_name, self.server_port = self.server_address

    def process_request(self, request, client_address):
        self.peers.acquire()
        super().process_request(request, client_address)

    def process_request_thread(self, request, client_address):
        try:
            super().process_request_thread(request, client_address)
        finally:
            self.peers.release()

    def handle_error(self, request, client_address):
        """A client that is gone is no fault of the service; another fault is one line."""
        fault = sys.exc_info()[1]
        if not isinstance(fault, (BrokenPipeError, ConnectionError, TimeoutError)):
            print(f"search.py: {fault!r}", file=sys.stderr, flush=True)
