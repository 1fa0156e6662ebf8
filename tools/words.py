#!/usr/bin/env python3
"""Counts the words of the pages, and those that STYLE.md asks to avoid. Status 1 if there are too many of either.

  words.py            checks both counts
  words.py --pages    prints both for each page

The pages are README.md, CHANGELOG.md, docs with the layers and the manual, and the READMEs of samples, bindings and examples. Code in
backticks and indented commands count as words, but not as words to avoid.
"""
import pathlib, re, sys

ROOT = pathlib.Path(__file__).resolve().parent.parent
MOST_WORDS, MOST_AVOIDED = 50_000, 60
AVOIDED = re.compile(r"\b(?:anew|behind|beside|alone|told|kept|stands|whoever|so\s+many|want\s+of|is\s+none)\b", re.I)
CODE = re.compile(r"^(?:    |```).*$|`[^`\n]*`", re.M)


def pages():
    """Returns the pages that are counted."""
    found = [ROOT / "README.md", ROOT / "CHANGELOG.md", ROOT / "docs" / "archive.1", *(ROOT / "docs").glob("**/*.md"),
             *(it for folder in ("samples", "bindings", "examples") for it in (ROOT / folder).glob("**/README.md"))]
    return sorted(it for it in found if it.is_file())


def counts(page):
    """Returns how many words a page has, and how many of them are to be avoided."""
    text = page.read_text(encoding="utf-8")
    return len(text.split()), len(AVOIDED.findall(CODE.sub("", text)))


def main(words):
    if words not in ([], ["--pages"]):
        sys.exit(__doc__)
    found = {str(it.relative_to(ROOT)): counts(it) for it in pages()}
    count, avoided = (sum(it) for it in zip(*found.values()))
    if words:
        for page, (many, bad) in {**found, "all": (count, avoided)}.items():
            print(f"{many:7,} {bad:4} {page}")
        return 0
    wrong = [f"words: the pages have {count:,} words, of at most {MOST_WORDS:,} (tools/words.py --pages)"] * (count > MOST_WORDS)
    wrong += [f"words: the pages have {avoided} words that STYLE.md asks to avoid, of at most {MOST_AVOIDED} (tools/words.py --pages)"] * (avoided > MOST_AVOIDED)
    print("\n".join(wrong), end="\n" if wrong else "")
    return 1 if wrong else 0


if __name__ == "__main__":
    sys.exit(main(sys.argv[1:]))
