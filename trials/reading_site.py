"""reading_site.py: the lists that reading.py reads, and where their messages are; a part of reading.py."""
import pathlib, re

from trial import Server
from serving import archive
from proxy import NAME, Proxy
from letters import HARMFUL, ORDINARY, mail, word
import mbox


def mbox_of(texts):
    return b"".join(b"From a@example.org Mon Mar 18 08:00:00 2024\n" + it + (b"" if it.endswith(b"\n") else b"\n") + b"\n" for it in texts)


def keys_of(box):
    return [mbox.key_of(text) for _, _, text in mbox.messages(box.splitlines(True))]


def thread_of(count):
    """A thread of so many mails, with subjects in several languages: ten mails have the same one."""
    for at in range(count):
        answers = f"In-Reply-To: <t{(at - 1) // 3}@x>\nReferences: <t0@x> <t{(at - 1) // 3}@x>" if at else ""
        text = mail(("Re: " if at else "") + word(f"Über die Größe von Bäumen и о деревьях {at // 10}", "utf-8", "BQ"[at % 2]), f"mail {at}\n", f"a{at % 50}@example.org", fields=answers)
        head = f"Date: Mon, 18 Mar 2024 {at // 3600 % 24:02}:{at // 60 % 60:02}:{at % 60:02} +0000\nMessage-ID: <t{at}@x>"
        yield re.sub(rb"Date: [^\n]*\nMessage-ID: <[^>]*>", head.encode(), text)


class Site:
    """The lists behind the proxy, and where their messages are."""

    def __init__(self, program, folder, rows):
        self.folder, self.proxy = pathlib.Path(folder), Proxy(folder)
        boxes = {"letters": mbox_of(it.text for it in ORDINARY), "harm": mbox_of(it.text for it in HARMFUL), "talk": mbox_of(thread_of(12)), "long": mbox_of(thread_of(rows))}
        self.keys = {name: keys_of(box) for name, box in boxes.items()}
        if [len(self.keys["letters"]), len(self.keys["harm"])] != [len(ORDINARY), len(HARMFUL)]:
            raise SystemExit("the letters are not as many messages")
        self.named = {it.name: self.message(name, key) for name, those in (("letters", ORDINARY), ("harm", HARMFUL)) for it, key in zip(those, self.keys[name])}
        self.make(program, boxes)
        self.server = Server(program, self.db, 1_000_000, port=self.proxy.behind)

    def make(self, program, boxes):
        self.db = self.folder / "archive.db"
        for name, box in boxes.items():
            file = self.folder / f"{name}.mbox"
            file.write_bytes(box)
            archive(program, "list-add", "--db", self.db, name)
            archive(program, "import", "--db", self.db, name, file)
        archive(program, "withdraw", "--db", self.db, "long", self.keys["long"][-1], "author")

    def url(self, path):
        return f"https://{NAME}:{self.proxy.tls}{path}"

    def message(self, name, key):
        return self.url(f"/l/{name}/m/{key}")

    def letter(self, name):
        """Where the letter of that name is."""
        return self.named[name]
