#!/usr/bin/env python3
"""Writes a page of the repository as the package has it: commands by the names that they have there, links to what is there.

  owner_page.py FILE      writes it to standard output; a link to what the package does not hold is its text alone, and what speaks of a
                          clone or of a place in it is left out: a remark in parentheses, a sentence, an item of a list about ./archive
  owner_page.py --list    the pages, each with its place below the package's folder of documentation
"""
import os, re, sys

import part

FOR_OWNERS = ("WALKTHROUGH", "COMMANDS", "POLICY", "REFUSALS", "GLOSSARY", "SECURITY", "WITHDRAWN", "COMPARISON", "TABLES", "HTTP",
              "MBOX", "THREADS", "SCALE", "PROVED")
LAYERS = sorted(it.name for it in (part.ROOT / "docs" / "layers").glob("*.md"))
PLACES = {"docs/INSTALL.md": "README.md", **{f"docs/{it}.md": f"{it}.md" for it in FOR_OWNERS}, **{f"docs/layers/{it}": f"layers/{it}" for it in LAYERS},
          **{f"samples/{it}/README.md": f"examples/{it}/README.md" for it in ("proxy", "scale", "search")}}
# The other files to which these pages lead.
BESIDE = {f"samples/{it}": f"examples/{it}" for it in ("proxy/archive.conf", "proxy/archive.css", "seeds.mbox", "seeds.toml", "members.toml", "soc.mbox")}
LINK = re.compile(r"!?\[([^\]]*)\]\(([^)\s]+)\)")
# What a command is called in a clone, and in a system in which the package is installed; and what is only in a clone.
NAMES = (
    (r"\./archive (?!package\b|--version)(?=[a-z<-])", "luvazhimba "),
    (r"(?m)^    archive (?=[a-z])", "    luvazhimba "),
    (r"/opt/archive/crates/archive/out/archive\b", "/usr/bin/luvazhimba"),
    (r"(?<![\w/])(?:/opt/archive/)?samples/archive(?=[a-z-]*\.(?:service|timer|path)\b)", "/usr/lib/systemd/system/luvazhimba"),
    (r"(?<![\w./-])archive(?=(?:-[a-z]+)?(?:@[.{]|\.(?:service|timer|path)\b))", "luvazhimba"),
    (r"(?<=the user `)archive(?=`)|(?<= -o )archive\b", "luvazhimba"),
    (r"(?<![\w/])(?:/opt/archive/)?samples/((?:keep/|scale/|search/)?[\w-]+\.(?:sh|py))\b", r"/usr/libexec/luvazhimba/\1"),
    (r"(?<![\w/])samples/(?=[a-z])", "/usr/share/doc/luvazhimba/examples/"),
    (r"(?m)^\| `package .*\n", ""),
    (r"/etc/default/archive\b", "/etc/default/luvazhimba"),
    (r"(?<=[ `])archive-search\b(?!\.)", "luvazhimba-search"),
)


# A place that only a clone has.
CLONE = re.compile(r"`[^`\n]*(?:\./(?:archive|check)\b|(?<![\w./])(?:crates|trials|bench|tools)/)[^`\n]*`|\b(?:a|fresh|your) clone\b|root of the repository|builds the program")
ASIDE = re.compile(r"\s?\((?:[^()`]|`[^`]*`)*\)")
SENTENCE, CLAUSE = re.compile(r"(?<=\.)\s+(?=\S)"), re.compile(r"(?<=[.;])\s+(?=\S)")


def without_clone(line):
    """Returns a line of a page without what speaks of a clone; nothing where all of it does."""
    if line.startswith(("    ", "#")) or not CLONE.search(line):
        return line
    if re.match(r"- ", line) and "./archive" in line:
        return ""
    line = ASIDE.sub(lambda it: "" if CLONE.search(it[0]) else it[0], line)
    if line.startswith("|"):
        return "|".join(told_without(it, CLAUSE) for it in line.split("|"))
    return told_without(line, SENTENCE)


def told_without(text, parts):
    """Returns a text without the parts that speak of a clone."""
    if not CLONE.search(text):
        return text
    kept = " ".join(it for it in parts.split(text.rstrip("\n")) if not CLONE.search(it))
    return kept.rstrip(";") + "\n" * text.endswith("\n")


def led(page, link):
    """Returns a link of a page as the package's page has it."""
    text, (file, mark, part_of_it) = link[1], link[2].partition("#")
    if re.match(r"\w+:", link[2]) or not file:
        return link[0]
    wanted = os.path.normpath(os.path.join(os.path.dirname(page), file))
    place = {**PLACES, **BESIDE}.get(wanted)
    return text if place is None else f"[{text}]({os.path.relpath(place, os.path.dirname(PLACES[page]) or '.')}{mark}{part_of_it})"


def as_installed(page, text):
    """Returns the text of a page as the package has it."""
    for form, name in NAMES:
        text = re.sub(form, name, text)
    text = "".join(without_clone(it) for it in LINK.sub(lambda link: led(page, link), text).splitlines(keepends=True))
    return re.sub(r"\n{3,}", "\n\n", text)


def main(words):
    if words == ["--list"]:
        print(*(f"{page} {place}" for page, place in PLACES.items()), sep="\n")
    elif len(words) == 1 and words[0] in PLACES:
        sys.stdout.write(as_installed(words[0], (part.ROOT / words[0]).read_text(encoding="utf-8")))
    else:
        sys.exit(__doc__)
    return 0


if __name__ == "__main__":
    sys.exit(main(sys.argv[1:]))
