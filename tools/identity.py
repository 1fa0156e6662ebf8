#!/usr/bin/env python3
"""Prints the identity of a proof: which text of which commit was proved, and by what.

  identity.py [--library] [TOOLCHAIN]     of the program, or of the library of bindings/; TOOLCHAIN is the line of `rt version`; where it
                                          is not given, rt is asked

The digest is of the names and texts of all .rt and .antt files of its crates, of their lines in crates.txt, and of HANDLES:
two trees for which it is the same have the same text to prove. Wrong bodies and tests are no part of it.
"""
import hashlib, re, subprocess, sys

import due, pages, part

PROGRAM, LIBRARY = "archive", "luvazhimba_c"
# What the package and the library are made of, beside the text that was proved.
MADE_OF = {PROGRAM: ("crates", "crates.txt", "HANDLES", "samples", "docs", "tools", "CHANGELOG.md"), LIBRARY: ("crates", "crates.txt", "HANDLES", "bindings")}
HEADER = ("bindings/luvazhimba.h", r'#define LUV_VERSION "([^"]+)"')
FUNCTION = re.compile(rb"^\s*(?:pub(?:\([a-z ]+\))? )?(?:const )?fn \w+", re.M)


def git(*words):
    return subprocess.run(["git", *words], cwd=part.ROOT, capture_output=True, text=True, check=True).stdout


def sources(name):
    """Returns the files of a crate that are proved, or that its proof is made of, by their names."""
    folder = part.CRATES / name
    return sorted(it for of in ("src", "specs", "proofs") for it in (folder / of).rglob("*") if it.suffix in (".rt", ".antt"))


def digest(names):
    """Returns the digest of the text that is proved of these crates."""
    known, own = part.lines(), hashlib.sha256()
    for file in (it for name in names for it in sources(name)):
        own.update(f"{hashlib.sha256(file.read_bytes()).hexdigest()}  {file.relative_to(part.ROOT)}\n".encode())
    own.update("".join(f"{known[it]}\n" for it in names).encode() + (part.ROOT / "HANDLES").read_bytes())
    return own.hexdigest()


def functions(names):
    """Returns how many functions these crates write; those that a derive writes are proved too, and not counted."""
    return sum(len(FUNCTION.findall(file.read_bytes())) for name in names for file in sources(name) if file.suffix == ".rt")


def changed(name):
    """Returns the files that are not as the commit has them."""
    said = git("status", "--porcelain", "--untracked-files=all", "--no-renames", "-z", "--", *MADE_OF[name])
    return [it[3:] for it in said.split("\0") if it]


def main(words):
    is_library = words[:1] == ["--library"]
    name, words = (LIBRARY, words[1:]) if is_library else (PROGRAM, words)
    if len(words) > 1 or words[:1] == ["--library"]:
        sys.exit(__doc__)
    names = part.with_those_below(name)
    if is_library:
        print(f"library: {LIBRARY} {pages.number(HEADER)}")
    else:
        print(f"program: {PROGRAM} {pages.number(pages.PROGRAM)}, tables {pages.number(pages.TABLES)}")
    print(f"commit: {git('rev-parse', 'HEAD').strip()}")
    print(*(f"changed: {it}" for it in changed(name) or ["nothing"]), sep="\n")
    print(f"toolchain: {words[0] if words else due.version()}")
    print(f"text: sha256 {digest(names)}, of {len(names)} crates")
    print(f"functions: {functions(names)}")
    print(f"handles: {(part.ROOT / 'HANDLES').read_text(encoding='utf-8').strip().partition(': ')[2]}")
    return 0


if __name__ == "__main__":
    sys.exit(main(sys.argv[1:]))
