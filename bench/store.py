#!/usr/bin/env python3
"""store.py: how fast the tables take messages in and give them back, beside stock SQLite in the same run.

  bench/store.py [--messages 20000] [--bytes 3000] [--older 50000] [--rounds 3] [--probe PROGRAM] [--folder FOLDER]

Adds --messages messages of --bytes bytes to one list of a new file, by the
program crates/archive_probe and by Python's sqlite3 (the same tables, WAL,
synchronous=FULL, foreign keys on), in turn: each in a transaction of its own,
and in another file in transactions of 500. Then both ask for each message by
its key, far from the one before, and read all rows in order; the program also
walks them one after the other. Each side times its own calls, so the opening
of the file is in none of them. The memory of a call is the most that its whole
process held, from its opening on, as a multiple of the bytes of the texts.
Stock SQLite checks the file that the program made, and its tables are compared
with docs/TABLES.md.

Then it times, in new files, a thousand messages added to a list that holds
1,000 and to one that holds 49,000, and a hundred added where two lists hold
49,000 together and where they hold 52,100, where each `add` counts its list.
And it takes what came with tables 2 and 3 out of a file of --older messages,
by stock SQLite, and times the program's opening of that file, which brings it
over, beside opening the file itself. It prints ratios, and what is asked for beside them.
Build the program first: (cd crates/archive_probe && rt run < stdin).
"""
import hashlib, os, pathlib, re, shutil, sqlite3, subprocess, sys, tempfile, time

from probing import ROOT, read_words

AT_ONCE = 500

# How far a message stands from the one that is asked for next; the program has the same.
STRIDE = 7919

# The texts have no header: sent when they arrived, in January 1970, by nobody.
ADD = ("INSERT INTO message (list, key, sender, arrival, text, withdrawn, embargo, sent, month, author)"
       " VALUES ('soc', ?1, ?2, ?3, ?4, 0, NULL, ?3, 1970 * 12, x'')")
SHOWN = "SELECT key, sender, arrival, text, withdrawn, embargo FROM message WHERE list = 'soc'"
READ = SHOWN + " ORDER BY pos"
ASK = SHOWN + " AND key = ?"


def held_by(pid):
    """The most bytes that a process has held since it began; none where it is gone."""
    try:
        status = pathlib.Path(f"/proc/{pid}/status").read_text()
    except OSError:
        return 0
    most = re.search(r"^VmHWM:\s*(\d+) kB$", status, re.MULTILINE)
    return int(most[1]) * 1024 if most else 0


def probe(program, *words):
    """The nanoseconds that the program prints, one a line, and the most bytes that it held."""
    ran = subprocess.Popen([program, *map(str, words)], stdout=subprocess.PIPE, text=True)
    held = 0
    while ran.poll() is None:
        held = max(held, held_by(ran.pid))
        time.sleep(0.002)
    if ran.returncode:
        sys.exit(f"{program} {' '.join(map(str, words))}: status {ran.returncode}")
    return [int(line) for line in ran.stdout.read().split()], held


def times(program, *words):
    return probe(program, *words)[0]


def text(place, size):
    """A message's text: its place in decimal, and then a line as long as it takes."""
    return f"{place}\n".encode().ljust(size - 1, b"x") + b"\n"


def key(whole):
    return hashlib.sha256(whole).hexdigest()


def row(place, whole):
    return key(whole), b"anna@example.org", place, whole


def stock_file(path, schema):
    """A new file with the tables that the program made, in stock SQLite."""
    stock = sqlite3.connect(path, isolation_level=None)
    stock.execute("PRAGMA journal_mode = WAL")
    stock.execute("PRAGMA synchronous = FULL")
    stock.execute("PRAGMA foreign_keys = ON")
    for made in schema:
        stock.execute(made)
    stock.execute("INSERT INTO list (name) VALUES ('soc')")
    stock.execute("INSERT INTO list_option (list, merge) VALUES ('soc', 1)")
    return stock


def timed(call, *words):
    begun = time.perf_counter_ns()
    call(*words)
    return time.perf_counter_ns() - begun


def stock_add(stock, count, size):
    for place in range(count):
        stock.execute(ADD, row(place, text(place, size)))


def stock_batches(stock, texts):
    """In transactions of 500, of texts that are there before, as the program has them."""
    for begin in range(0, len(texts), AT_ONCE):
        stock.execute("BEGIN")
        stock.executemany(ADD, [row(place, texts[place]) for place in range(begin, min(begin + AT_ONCE, len(texts)))])
        stock.execute("COMMIT")


def stock_ask(stock, keys):
    at = 0
    for _ in keys:
        if stock.execute(ASK, (keys[at],)).fetchone() is None:
            sys.exit("stock SQLite has no message of a key")
        at = (at + STRIDE) % len(keys)


def stock_read(stock, count):
    rows = stock.execute(READ).fetchall()
    if len(rows) != count:
        sys.exit(f"stock SQLite holds {len(rows)} rows")


def schema_of(path):
    """The texts that made the tables and indexes of a file; sqlite_sequence is SQLite's own."""
    made = sqlite3.connect(path)
    texts = made.execute("SELECT sql FROM sqlite_schema WHERE sql IS NOT NULL AND name <> 'sqlite_sequence' ORDER BY rowid")
    return [text for (text,) in texts.fetchall()]


def compare(asked, folder, round):
    """One round: nanoseconds of each call, by the program and by stock SQLite, and the bytes that the program held."""
    count, size = asked.messages, asked.bytes
    paths = {side: os.path.join(folder, f"{side}-{round}.db") for side in ("each", "batch", "stock-each", "stock-batch")}
    texts = [text(place, size) for place in range(count)]
    keys = [key(whole) for whole in texts]
    took = {}
    [took["each"]] = times(asked.probe, "fill", paths["each"], count, size)
    schema = schema_of(paths["each"])
    took["stock each"] = timed(stock_add, stock_file(paths["stock-each"], schema), count, size)
    [took["batch"]] = times(asked.probe, "batch", paths["batch"], count, size)
    stock = stock_file(paths["stock-batch"], schema)
    took["stock batch"] = timed(stock_batches, stock, texts)
    [took["ask"]] = times(asked.probe, "ask", paths["batch"], count, size)
    took["stock ask"] = timed(stock_ask, stock, keys)
    took["open held"] = probe(asked.probe, "open", paths["batch"])[1]
    for call in ("read", "walk"):
        [took[call]], took[f"{call} held"] = probe(asked.probe, call, paths["batch"])
    took["stock read"] = timed(stock_read, stock, count)
    stock.close()
    for side in ("each", "stock-each", "stock-batch"):
        os.remove(paths[side])
    return took


def check(path):
    """What stock SQLite says of a file that the program made."""
    return sqlite3.connect(path).execute("PRAGMA integrity_check").fetchone()[0]


def named(text):
    """The names in backticks."""
    return tuple(re.findall(r"`(\w+)`", text))


def documented():
    """The tables of docs/TABLES.md, each with its columns, keys, ranges and indexes."""
    page = (ROOT / "docs" / "TABLES.md").read_text()
    first, last = re.search(r"^\| `from_day`[^|]*\| days since [0-9-]+, (-?\d+) to (-?\d+)", page, re.MULTILINE).groups()
    days = {it: (first, last) for it in named(re.search(r"^\| (`from_day`[^|]*)\|", page, re.MULTILINE)[1])}
    tables = {}
    for name, columns, keys in re.findall(r"^\| `(\w+)` \| (`\w+` [A-Z].*?) \| (.*?) \|$", page, re.MULTILINE):
        found = {column: (kind, bool(empty)) for column, kind, empty in re.findall(r"`(\w+)` ([A-Z]+)( or NULL)?", columns)}
        primary = re.search(r"primary key(?: (\([^)]*\)|`\w+`))?", keys)
        # (of one foreign key the column before it is meant, of several all before them)
        foreign = {it for before, many in re.findall(r"(.*?)\(foreign key(s?)\)", columns) for it in (named(before) if many else named(before)[-1:])}
        ranges = {column: ends for column, *ends in re.findall(r"`(\w+)` INTEGER (\d) (?:to|or) (\d)", columns)}
        ranges |= {it: list(ends) for it, ends in days.items() if it in found}
        unique = {named(it) for it in re.findall(r"unique (\([^)]*\))", keys)} | {(it,) for it in re.findall(r"`(\w+)` unique", keys)}
        checks = {f"{it} BETWEEN {low} AND {high}" for it, (low, high) in ranges.items()} | {*re.findall(r"`(\w+ <= \w+)`", keys)}
        indexes = {*named(re.search(r"indexes (.*)|$", keys)[1] or "")}
        # (a primary key without names is the only column)
        tables[name] = found, (named(primary[1]) if primary[1] else (*found,)) if primary else (), unique, foreign, checks, indexes
    return tables


def tables_of(path):
    """The tables of a file, as `documented` has them; one that is not STRICT has no columns."""
    stock = sqlite3.connect(path)
    asked = lambda text: stock.execute(text).fetchall()
    tables = {}
    for name, made in asked("SELECT name, sql FROM sqlite_schema WHERE type = 'table' AND name NOT LIKE 'sqlite%'"):
        rows = asked(f"PRAGMA table_info({name})")
        indexes = {(index, origin): tuple(it[2] for it in asked(f"PRAGMA index_info({index})")) for _, index, _, origin, _ in asked(f"PRAGMA index_list({name})")}
        columns = {column: (kind, not filled and not (kind == "INTEGER" and key)) for _, column, kind, filled, _, key in rows} if made.endswith(" STRICT") else {}
        tables[name] = (columns, tuple(it[1] for it in sorted(rows, key=lambda it: it[5]) if it[5]), {those for (_, origin), those in indexes.items() if origin == "u"},
                        {it[3] for it in asked(f"PRAGMA foreign_key_list({name})")}, {*re.findall(r"CHECK \(([^()]*)\)", made)}, {index for index, origin in indexes if origin == "c"})
    stock.close()
    return tables


def in_new_file(asked, folder, call):
    """The times of a call that fills a file of its own."""
    path = os.path.join(folder, "new.db")
    took = times(asked.probe, call, path, asked.bytes)
    for made in (path, path + "-wal"):
        if os.path.exists(made):
            os.remove(made)
    return took


def beside_stock(title, took, call, wanted):
    ours, stock = took[call], took["stock " + call]
    print(f"{title:32} {ours / 1e9:8.2f} s, stock {stock / 1e9:8.2f} s, ratio {ours / stock:6.2f}{wanted}")


def growing(asked, folder, call, titles):
    """Prints the first time of a call beside each of the others."""
    fewer, *others = (min(column) for column in zip(*(in_new_file(asked, folder, call) for _ in range(asked.rounds))))
    for title, more in zip(titles, others):
        print(f"{title:50} {fewer / 1e9:8.3f} s, {more / 1e9:8.3f} s, ratio {more / fewer:6.2f} (at most 2)")


def older(path, to):
    """A copy of a file as of tables 1, and how many messages it holds."""
    shutil.copyfile(path, to)
    stock = sqlite3.connect(to, isolation_level=None)
    for text in ("DROP TABLE address", "DROP TABLE list_option", "UPDATE version SET number = 1", "VACUUM"):
        stock.execute(text)
    [(count,)] = stock.execute("SELECT count(*) FROM message").fetchall()
    stock.close()
    return count


def opening(program, path):
    """The nanoseconds in which the program opens a file that was read before, and closes it."""
    pathlib.Path(path).read_bytes()
    return timed(probe_once, program, "open", path)


def probe_once(*words):
    subprocess.run([*words], stdout=subprocess.DEVNULL, check=True)


def bringing_over(asked, folder):
    """Prints the time of opening a file of tables 1 beside that of opening it again, in the best of the rounds each."""
    paths = new, old, copy = [os.path.join(folder, f"{name}.db") for name in ("newest", "older", "copy")]
    probe(asked.probe, "batch", new, asked.older, asked.bytes)
    count, over, again = older(new, old), [], []
    for _ in range(asked.rounds):
        shutil.copyfile(old, copy)
        over.append(opening(asked.probe, copy))
        again.append(opening(asked.probe, copy))
    with sqlite3.connect(copy) as found:
        [(number,)], lists = found.execute("SELECT number FROM version").fetchall(), found.execute("SELECT list, merge FROM list_option").fetchall()
    found.close()
    if (number, lists) != (3, [("soc", 1)]):
        sys.exit(f"the file was not brought over: it says {number}, and of its lists {lists}")
    ours, theirs = min(over), min(again)
    print(f"opened and brought over, {count} messages: {ours / 1e9:.2f} s, opened {theirs / 1e9:.2f} s, ratio {ours / theirs:.2f} (at most 1.2)")
    for path in paths:
        os.remove(path)


def main():
    words = {name: {"type": int, "default": count} for name, count in (("messages", 20000), ("bytes", 3000), ("older", 50000))}
    asked = read_words(__doc__, **words)
    with tempfile.TemporaryDirectory(dir=asked.folder) as folder:
        rounds = [compare(asked, folder, round) for round in range(asked.rounds)]
        took = {call: min(each[call] for each in rounds) for call in rounds[0]}
        print(f"{asked.messages} messages of {asked.bytes} bytes, best of {asked.rounds} rounds")
        beside_stock("added, a transaction each:", took, "each", " (at most 2)")
        beside_stock("added, 500 in a transaction:", took, "batch", " (at most 1.5)")
        beside_stock("asked for by key:", took, "ask", "")
        beside_stock("read in order:", took, "read", " (at most 2.5)")
        print(f"{'walked, one after the other:':32} {took['walk'] / 1e9:8.2f} s")
        whole = asked.messages * asked.bytes
        held = ", ".join(f"{took[call + ' held'] / whole:.2f} to {call}" for call in ("open", "read", "walk"))
        print(f"held, in multiples of the texts: {held} (at most 1.3)")
        ours = os.path.join(folder, "batch-0.db")
        print(f"integrity_check of stock SQLite: {check(ours)}")
        print(f"tables as in docs/TABLES.md: {'yes' if tables_of(ours) == documented() else 'NO'}")
        growing(asked, folder, "grow", ["a thousand more to 1,000 and to 49,000:"])
        growing(asked, folder, "lists", ["a hundred where two lists hold 49,000 and 52,100:"])
        bringing_over(asked, folder)


if __name__ == "__main__":
    main()
