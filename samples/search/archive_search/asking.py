"""Asks the archive over HTTP for one reader, with that reader's Authorization, or with none for the public."""
import contextlib, http.client, shutil, tempfile

import mbox

LARGEST_PAGE = 100_000_000  # bytes of a reply that is held in memory; a page of 50,000 messages has some 20 MB
PATIENCE = 120  # seconds in which the archive has to go on
CHALLENGE = {"WWW-Authenticate": 'Bearer realm="archive"'}
OPENING = "The archive is being opened."


class Refused(Exception):
    """A status that answers a request in place of a page, with its body and further fields."""

    def __init__(self, status, body=None, fields=()):
        super().__init__(status)
        self.status, self.fields = status, dict(fields)
        self.body = body or f"{status} {http.client.responses.get(status, '')}\n".encode()


class Waiting(Refused):
    """503: a sentence says what the reader waits for, and after `seconds` the page is asked for again."""

    def __init__(self, why=OPENING, seconds=2):
        super().__init__(503)
        self.why, self.seconds = why, seconds


class Archive:
    """The archive as one reader is shown it."""

    def __init__(self, address, authorization=None):
        self.address, self.authorization = address, authorization

    def asked(self, path):
        """Returns the connection, and the reply once its head has come."""
        connection = http.client.HTTPConnection(*self.address, timeout=PATIENCE)
        try:
            connection.request("GET", path, headers={"Authorization": self.authorization} if self.authorization else {})
            return connection, connection.getresponse()
        except (OSError, http.client.HTTPException) as fault:
            connection.close()
            raise Waiting() from fault

    def get(self, path):
        """Returns the body of a reply with status 200; another status is raised, with the archive's own line."""
        connection, reply = self.asked(path)
        with contextlib.closing(connection):
            try:
                body = reply.read(LARGEST_PAGE + 1)
            except (OSError, http.client.HTTPException) as fault:
                raise Waiting() from fault
        if len(body) > LARGEST_PAGE:
            raise Refused(503, b"503 Service Unavailable: the page of this list is too large to be searched\n")
        if reply.length:
            raise Waiting()  # (the reply broke off: bytes of it are missing)
        if reply.status == 200:
            return body
        if reply.status == 503:
            raise Waiting()
        raise Refused(reply.status, body[:1000], CHALLENGE if reply.status == 401 else ())

    def messages(self, name, folder):
        """Gives the texts of a list's mbox, which goes to a file first: the archive answers nobody else while it writes an mbox."""
        connection, reply = self.asked(f"/l/{name}/mbox")
        with contextlib.closing(connection), tempfile.TemporaryFile(dir=folder) as box:
            if reply.status != 200:
                raise Refused(reply.status)
            try:
                shutil.copyfileobj(reply, box, 1 << 20)
            except (ConnectionError, TimeoutError, http.client.HTTPException) as fault:
                raise Waiting() from fault
            connection.close()
            box.seek(0)
            yield from (text for _, _, text in mbox.messages(box))
