#!/usr/bin/env python3
"""from-public-inbox.py: writes the messages of a public-inbox (version 2, one commit a message) as an mbox, in their order.

  samples/from-public-inbox.py GIT.. > MBOX     the folders of its epochs: INBOX/git/0.git INBOX/git/1.git

A message's arrival is the time of its commit. What the inbox took away (a file `d`) is left out. It tells on standard error how
many messages it wrote, and how many of them hold a line that the archive takes for the beginning of another one (docs/MBOX.md):
an import counts one more for each.
"""
import subprocess, sys, time

import mbox


def commits(git):
    """The files m and d of all commits, oldest first: the time, the letter, the name of the text."""
    words = ["git", "-C", git, "log", "--reverse", "--first-parent", "--diff-filter=AM", "--no-renames", "--raw", "--no-abbrev", "-m", "--root", "--format=@%ct"]
    ran = subprocess.run(words, stdout=subprocess.PIPE, check=True, text=True)
    for line in filter(None, ran.stdout.splitlines()):
        if line[0] == "@":
            at = int(line[1:])
        else:
            # :OLD MODE NEW-MODE OLD-TEXT TEXT STATUS<TAB>FILE
            head, file = line.split("\t", 1)
            if file in ("m", "d"):
                yield at, file, head.split()[3]


def texts(git, names):
    """The texts of these names, one after the other."""
    with subprocess.Popen(["git", "-C", git, "cat-file", "--batch"], stdin=subprocess.PIPE, stdout=subprocess.PIPE) as ran:
        for name in names:
            ran.stdin.write(f"{name}\n".encode())
            ran.stdin.flush()
            size = int(ran.stdout.readline().split()[2])
            yield ran.stdout.read(size + 1)[:-1]
        ran.stdin.close()


def write(at, text):
    """Writes a message with its separator line, and tells how many messages the archive makes of it."""
    text = text if text.endswith(b"\n") else text + b"\n"
    separator = time.strftime("From - %a %b %e %H:%M:%S %Y\n", time.gmtime(at)).encode()
    sys.stdout.buffer.write(separator + text + b"\n")
    return sum(1 for _ in mbox.messages([separator, *text.splitlines(keepends=True), b"\n"]))


def main(gits):
    if not gits:
        sys.exit(__doc__)
    if gits[0] in ("-h", "--help"):
        return print(__doc__)
    written = cut = 0
    found = {git: [*commits(git)] for git in gits}
    gone = {name for it in found.values() for _, letter, name in it if letter == "d"}
    for git, it in found.items():
        kept = [(at, name) for at, letter, name in it if letter == "m" and name not in gone]
        for (at, _), text in zip(kept, texts(git, [name for _, name in kept])):
            written += 1
            cut += write(at, text) > 1
    print(f"{written} messages, {cut} of them with a line that begins another one", file=sys.stderr)


if __name__ == "__main__":
    try:
        main(sys.argv[1:])
    except subprocess.CalledProcessError as error:
        # (git has said why)
        sys.exit(f"from-public-inbox.py: {error.cmd[2]}: no repository of messages")
