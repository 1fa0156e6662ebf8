#!/usr/bin/env python3
"""Whether each wrong body fits: the file that it names stands in its crate, and each text that it takes away stands there once.

  edits.py     says which do not, a line each

`rt ci` finds that too, but only when it is the crate's turn, and only of those that are due.
"""
import sys

import part


def wrong_in(edit):
    """Returns what is wrong with a wrong body, or None: each line 'old:' is of the file that was named last."""
    name, text, olds = None, None, 0
    for line in edit.read_text(encoding="utf-8").split("\n"):
        if line.startswith("file: "):
            name = line.removeprefix("file: ")
            source = edit.parent.parent / name
            if not source.is_file():
                return f"there is no {name}"
            text = source.read_text(encoding="utf-8")
        if line.startswith("old: "):
            old, olds = line.removeprefix("old: "), olds + 1
            if text is None:
                return "it names no file first"
            if text.count(old) != 1:
                return f"this stands {text.count(old)} times in {name}: {old}"
    return None if olds else "it has no line 'old:'"


def main(words):
    if words:
        sys.exit(__doc__)
    found = [(it, wrong_in(it)) for it in sorted(part.CRATES.glob("*/must-fail/*.edit"))]
    wrong = [f"edits: {it.relative_to(part.CRATES)}: {why}" for it, why in found if why]
    print("\n".join(wrong), end="\n" if wrong else "")
    return 1 if wrong else 0


if __name__ == "__main__":
    sys.exit(main(sys.argv[1:]))
