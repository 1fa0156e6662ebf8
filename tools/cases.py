#!/usr/bin/env python3
"""Lists the tests of the repository: crate, file, what the file says of itself, and each test, whose name is a sentence.

  cases.py          all of them, and the titles of the script crates/run_cases/stdin, which runs the program
  cases.py WORD     those whose crate, file, sentence or title has the word
"""
import pathlib, re, sys

ROOT = pathlib.Path(__file__).resolve().parent.parent


def tests(text):
    """Returns the names of the tests of a file, in their order."""
    return re.findall(r"#\[test\]\s*fn (\w+)", text)


def head(text):
    """Returns what a file of sources says of itself."""
    return " ".join(it.removeprefix("//!").strip() for it in text.splitlines() if it.startswith("//!"))


def listed():
    """Returns a heading and its lines for each file that has tests, by crate and file, and for the script of runs."""
    found = []
    for file in sorted(ROOT.glob("crates/*/src/*.rt")):
        text = file.read_text(encoding="utf-8")
        if tests(text):
            found.append((f"{file.parent.parent.name}::{file.stem}: {head(text)}", tests(text)))
    script = ROOT / "crates" / "run_cases" / "stdin"
    titles = re.findall(r"^# (.+)", script.read_text(encoding="utf-8"), re.M) if script.is_file() else []
    return found + ([("run_cases: the program, by a script", titles)] if titles else [])


def main(words):
    if len(words) > 1 or words[:1] in (["-h"], ["--help"]):
        sys.exit(__doc__)
    for title, lines in listed():
        shown = [it for it in lines if not words or words[0].lower() in f"{title} {it.replace('_', ' ')} {it}".lower()]
        if shown:
            print(f"## {title}", *(f"- {it}" for it in shown), sep="\n")
    return 0


if __name__ == "__main__":
    sys.exit(main(sys.argv[1:]))
