#!/usr/bin/env python3
"""rest.py: what of an mbox goes on in the next list, once a list is full.

  rest.py DB LIST NEXT POLICY MBOX AFTER REST

AFTER messages of MBOX went into LIST before it was full. REST gets those after them that LIST does not hold: one that it holds may
be withdrawn there, and shall not come back. Printed are the commands of keep.sh that make NEXT, if it is not there, with the
threading and the grants of LIST. Where POLICY has the name of LIST in quotes and not that of NEXT, what a rule says of LIST would
not hold of what goes on in NEXT: then it prints that, ends with status 1, and writes nothing.

DB is a copy of the database (samples/copy.sh).
"""
import datetime, pathlib, re, sqlite3, sys

sys.dont_write_bytecode = True
sys.path.insert(0, str(pathlib.Path(__file__).resolve().parent.parent))
import mbox

KINDS = {1: "member", 2: "subscriber", 3: "moderator"}


def day(number):
    return (datetime.date(1970, 1, 1) + datetime.timedelta(days=number)).isoformat()


def names(policy, name):
    return re.search(rf"""(["']){re.escape(name)}\1""", policy) is not None


def commands(db, list_name, following):
    """The commands that make the list that follows."""
    if db.execute("SELECT 1 FROM list WHERE name = ?", (following,)).fetchone():
        return []
    lines = [f"list-add {following}"]
    if db.execute("SELECT 1 FROM list_option WHERE list = ? AND merge = 0", (list_name,)).fetchone():
        lines.append(f"merge {following} no")
    grants = db.execute("SELECT person, kind, from_day, until_day FROM grant_row WHERE list = ? ORDER BY person, kind", (list_name,))
    return lines + [f"grant {person} {following} {KINDS[kind]} {day(first)} {day(last)}" for person, kind, first, last in grants]


def write_rest(db, list_name, file, after, rest):
    held = {key for (key,) in db.execute("SELECT key FROM message WHERE list = ?", (list_name,))}
    with open(file, "rb") as lines, open(rest, "wb") as out:
        for number, (_, separator, text) in enumerate(mbox.messages(lines), 1):
            if number > after and mbox.key_of(text) not in held:
                out.write(mbox.content(separator) + b"\n" + text + b"\n")


def main(words):
    if words[:1] in (["-h"], ["--help"]):
        return print(__doc__)
    if len(words) != 7:
        sys.exit(__doc__)
    copy, list_name, following, policy, file, after, rest = words
    path = pathlib.Path(policy)
    text = path.read_text("utf-8") if path.exists() else ""
    if names(text, list_name) and not names(text, following):
        print(f"{policy} names {list_name}, and not {following}")
        sys.exit(1)
    db = sqlite3.connect(copy)
    write_rest(db, list_name, file, int(after), rest)
    print(*commands(db, list_name, following), sep="\n")


if __name__ == "__main__":
    main(sys.argv[1:])
