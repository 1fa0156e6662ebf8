#!/usr/bin/env python3
"""Compiles the program that is built once more, in another folder, and says whether that gives the same bytes.

  twice.py

What was found goes to crates/archive/out/compiled-twice, behind the digest of the program, and from there into the identity of the
packages that are made of it. The libraries are taken as they were proved; the program's own crate is proved again, and all of the
program is compiled out of them again, which takes minutes. Status 1 where it was not.
"""
import hashlib, sys, time

import part

PROGRAM = "archive"
# A file that no compiler reads: the toolchain keeps a program by the digest of all files beside its sources, and else gives that one.
UNREAD = "compiled-again.txt"
OUT = part.CRATES / PROGRAM / "out"


def digest(file):
    return hashlib.sha256(file.read_bytes()).hexdigest()


def main(words):
    if words:
        sys.exit(__doc__)
    if not (OUT / "built-by-the-front-door").exists():
        sys.exit("twice: the program is not built here: ./archive --version builds it")
    first = digest(OUT / PROGRAM)
    with part.copied(part.with_those_below(PROGRAM), ()) as top:
        (top / "crates" / PROGRAM / "src" / UNREAD).write_text(f"{time.time_ns()}\n", encoding="utf-8")
        said = []
        if part.run_ci(top, [], said.append) or f"rt: {PROGRAM} proved" not in said:
            sys.exit("\n".join([*said[-5:], "twice: the program was not compiled again"]))
        second = digest(top / "crates" / PROGRAM / "out" / PROGRAM)
    found = f"twice, in two folders: {'the same bytes' if first == second else f'other bytes, sha256 {second}'}"
    (OUT / "compiled-twice").write_text(f"{first}\n{found}\n", encoding="utf-8")
    print(found)
    return 0


if __name__ == "__main__":
    sys.exit(main(sys.argv[1:]))
