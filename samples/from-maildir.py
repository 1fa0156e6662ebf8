#!/usr/bin/env python3
"""from-maildir.py: writes the messages of a Maildir as an mbox, in the order in which they arrived.

  samples/from-maildir.py MAILDIR > MBOX       all of them
  samples/from-maildir.py MAILDIR FOLDER       those in MAILDIR/new, as one mbox in FOLDER; then they lie in MAILDIR/cur

A message's arrival is the time of its file. The second form is for what comes from now on: as a job that runs every few minutes,
with the folder mail/LIST of an archive that samples/keep.sh keeps. The mbox comes whole, because it is renamed once it is
written; if nothing is new none is made. If the job stops in between, the same messages come again, and an import knows them.

A line of a message that would begin another message of the mbox (docs/MBOX.md) gets a `>` in front. Standard error says how many
messages were written, and how many of them have such a line.
"""
import io, os, pathlib, sys, time

import mbox


def files_of(maildir, folders):
    """The files of a Maildir, by their time and then by their name."""
    if not (maildir / "cur").is_dir():
        sys.exit(f"from-maildir.py: {maildir}: not a Maildir")
    found = [it for name in folders for it in (maildir / name).iterdir() if it.is_file() and not it.name.startswith(".")]
    return sorted(found, key=lambda it: (it.stat().st_mtime_ns, it.name))


def quoted(text):
    """A text without lines that begin another message, and whether it had one."""
    lines, follows_empty, found = io.BytesIO(text).readlines(), True, False
    for at, line in enumerate(lines):
        if follows_empty and mbox.is_separator(line):
            lines[at], found = b">" + line, True
        follows_empty = not mbox.content(line)
    return b"".join(lines), found


def write(files, out):
    """Writes messages as an mbox, and tells how many of them had a line that begins another one."""
    count = 0
    for file in files:
        text, found = quoted(file.read_bytes())
        separator = time.strftime("From - %a %b %e %H:%M:%S %Y\n", time.gmtime(file.stat().st_mtime)).encode()
        out.write(separator + text + (b"\n" if text.endswith(b"\n") else b"\n\n"))
        count += found
    return count


def take_new(maildir, folder):
    """Writes what is new as one mbox in a folder, and puts it away."""
    files = files_of(maildir, ["new"])
    if not files:
        return 0, 0
    name = f"{time.strftime('%Y%m%d%H%M%S')}-{os.getpid()}"
    with open(folder / f"{name}.part", "wb") as out:
        count = write(files, out)
        out.flush()
        os.fsync(out.fileno())
    os.rename(folder / f"{name}.part", folder / f"{name}.mbox")
    for file in files:
        os.rename(file, maildir / "cur" / (file.name if ":2," in file.name else f"{file.name}:2,"))
    return len(files), count


def main(words):
    if words[:1] in (["-h"], ["--help"]):
        return print(__doc__)
    if len(words) not in (1, 2):
        sys.exit(__doc__)
    maildir = pathlib.Path(words[0])
    if len(words) == 2:
        written, count = take_new(maildir, pathlib.Path(words[1]))
    else:
        files = files_of(maildir, ["new", "cur"])
        written, count = len(files), write(files, sys.stdout.buffer)
    if written:
        print(f"{written} messages, {count} of them with a line that begins another one", file=sys.stderr)


if __name__ == "__main__":
    main(sys.argv[1:])
