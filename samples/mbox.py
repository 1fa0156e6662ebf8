#!/usr/bin/env python3
"""mbox.py: looks at an mbox as the archive cuts it (docs/MBOX.md), for what no command tells.

  samples/mbox.py list MBOX           each message: its number, where it begins, its size, its key, its Message-ID
  samples/mbox.py large MBOX          those that an import leaves out as too large
  samples/mbox.py without KEY MBOX    writes the mbox without the messages of that key

MBOX may be /dev/stdin. A message begins with the first byte of its separator line, counted from 0; its size is that of its
whole text, and its key the SHA-256 of that. An mbox that begins with something else than a separator line is refused.

Status 1, with a line on standard error, if MBOX cannot be read or is refused, or if no message has KEY: then all of it was
written. Status 2 for a usage error.
"""
import calendar, hashlib, re, signal, sys

LARGEST = 16_777_216  # bytes of a whole text
MONTHS = {it.lower(): at for at, it in enumerate(calendar.month_abbr) if it}
ZONES = {b"EST": -5, b"EDT": -4, b"CST": -6, b"CDT": -5, b"MST": -7, b"MDT": -6, b"PST": -8, b"PDT": -7}
SEPARATOR = re.compile(
    rb"From +(?:[^ \n]+ +(?-i:at) +)?[^ \n]+ +(?:mon|tue|wed|thu|fri|sat|sun) +"
    rb"(jan|feb|mar|apr|may|jun|jul|aug|sep|oct|nov|dec) +(\d\d?) +(\d\d):(\d\d)(?::(\d\d))?(?: +([+-]\d{4}|[a-z]+))? +(\d{4}) *",
    re.IGNORECASE)
FROM = re.compile(rb"From ")


def content(line):
    """A line without its LF, and without one CR before that or before the end."""
    line = line[:-1] if line.endswith(b"\n") else line
    return line[:-1] if line.endswith(b"\r") else line


def minutes_of(zone):
    if zone is None or zone[:1] not in b"+-":
        return 60 * ZONES.get((zone or b"").upper(), 0)
    minutes = 60 * int(zone[1:3]) + int(zone[3:])
    return None if int(zone[3:]) > 59 else -minutes if zone[:1] == b"-" else minutes


def is_separator(line):
    found = FROM.match(line) and SEPARATOR.fullmatch(content(line))
    if not found:
        return False
    month, day, hour, minute, second, zone, year = found.groups()
    year, day, hour, minute, second = int(year), int(day), int(hour), int(minute), int(second or 0)
    month, zone = MONTHS[month.decode().lower()], minutes_of(zone)
    if zone is None or not 1899 <= year or not 1 <= day <= calendar.monthrange(year, month)[1]:
        return False
    if hour > 23 or minute > 59 or second > 60:
        return False
    # the instant has to lie in the years 1900 to 9998 of UTC
    at = hour * 60 + minute - zone
    first, last = (month, day) == (1, 1), (month, day) == (12, 31)
    return 1900 <= year <= 9998 and not (year == 1900 and first and at < 0) and not (year == 9998 and last and at >= 1440) \
        or year == 1899 and last and at >= 1440 or year == 9999 and first and at < 0


def messages(lines):
    """Gives the offset, the separator line and the whole text of each message."""
    at, begun, follows_empty = 0, None, True
    for line in lines:
        is_empty = not content(line)
        if follows_empty and is_separator(line):
            if begun:
                yield whole(begun)
            begun = (at, line, [])
        elif begun:
            begun[2].append(line)
        elif not is_empty:
            sys.exit(f"mbox.py: no separator line at {at}")
        at += len(line)
        follows_empty = is_empty
    if begun:
        yield whole(begun)


def whole(begun):
    at, separator, lines = begun
    if lines and not content(lines[-1]):
        lines.pop()
    text = b"".join(lines)
    return at, separator, text if not text or text.endswith(b"\n") else text + b"\n"


def key_of(text):
    return hashlib.sha256(text).hexdigest()


def identifier(text):
    head = re.split(rb"\r?\n\r?\n", text[:65536], maxsplit=1)[0]
    found = re.search(rb"^Message-ID:\s*(<[^>\s]*>)", head, re.IGNORECASE | re.MULTILINE)
    return found[1].decode("ascii", "replace") if found else "-"


def show(lines, above):
    for number, (at, _, text) in enumerate(messages(lines), 1):
        if len(text) > above:
            print(number, at, len(text), key_of(text), identifier(text))


def without(key, lines):
    left_out = 0
    for _, separator, text in messages(lines):
        if key_of(text) == key:
            left_out += 1
        else:
            sys.stdout.buffer.write(content(separator) + b"\n" + text + b"\n")
    if not left_out:
        sys.stdout.buffer.flush()
        sys.exit(f"mbox.py: no message has the key {key}")


def main(words):
    what = words[0] if words else ""
    if what in ("-h", "--help"):
        return print(__doc__)
    if {"list": 2, "large": 2, "without": 3}.get(what) != len(words):
        print(__doc__, end="", file=sys.stderr)
        sys.exit(2)
    with open(words[-1], "rb") as lines:
        if what == "without":
            without(words[1], lines)
        else:
            show(lines, LARGEST if what == "large" else -1)


if __name__ == "__main__":
    # (a reader may stop before the end: that ends the script, and is no error)
    signal.signal(signal.SIGPIPE, signal.SIG_DFL)
    try:
        main(sys.argv[1:])
    except OSError as error:
        sys.exit(f"mbox.py: {error}")
