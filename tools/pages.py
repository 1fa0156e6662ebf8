#!/usr/bin/env python3
"""Says what the pages name that is not there, and which page nothing leads to. Status 1 where there is such a thing.

  - A link of a page leads to no file of the repository.
  - The README has no link to a page of docs.
  - The README has more than 110 lines, more than 1,500 words, or a point of more than 40.
  - PROVED.md, the pages of layers and DECISIONS.md have more than 15,500 words together.
  - A page of what is there names in backticks a word of two parts, as `read_row` or `ReadRow`, that stands in no source.
  - A table of a page of docs/layers names a function that its crate has not, or a clause that the function has not; or no page of
    them has a crate of the program.
  - README.md does not name a crate of the program, or docs/ARCHITECTURE.md a crate.
  - The text of a sample policy is not the one of which example_policies proves what it hides.
  - README.md shows lines of a function that are not in the source as shown, or shows none.
  - README.md, docs/archive.1, docs/INSTALL.md or CHANGELOG.md has another number of the program, or README.md or CHANGELOG.md another
    number of the tables, than the sources; or in a section of CHANGELOG.md the number of the tables is not the second part of the program's.
"""
import json, pathlib, re, sys

import contracts, part

ROOT = pathlib.Path(__file__).resolve().parent.parent
MOST_LINES, MOST_WORDS, MOST_OF_A_POINT, MOST_OF_PROOFS = 110, 1500, 40, 15_500
LINK = re.compile(r"\]\(([^)\s]+)\)")
QUOTED = re.compile(r"`([^`\n]+)`")
TWO_PARTS = re.compile(r"\b(?:[A-Za-z][A-Za-z0-9]*_\w*[A-Za-z0-9]|[A-Z][a-z0-9]+[A-Z]\w*)\b")
# Pages of what was, and names of the toolchain that no source of the repository has.
OF_BEFORE, OF_THE_TOOLCHAIN = ("CHANGELOG.md", "FIGURES.md"), {"open_trusted"}
SOURCES = ("crates/*/src", "crates/*/specs", "crates/*/proofs", "crates/*/must-fail", "tools", "trials", "samples", "bench", "bindings")
PROGRAM = ("crates/archive_usage/src/building.rt", r'const VERSION: &str = "([^"]+)"')
TABLES = ("crates/archive_tables/src/texts/schema.rt", r"const VERSION: i64 = (\d+)")


def pages():
    """Returns the pages of the repository, whatever the crates hold."""
    folders = (ROOT, *(ROOT / it for it in ("docs", "docs/layers", "bench", "bindings", "examples", "samples")))
    return sorted(it for folder in folders for it in folder.glob("*.md")) + sorted((ROOT / "samples").glob("*/*.md"))


def targets(page):
    """Returns the files that a page leads to."""
    links = LINK.findall(page.read_text(encoding="utf-8"))
    return [it.partition("#")[0] for it in links if not re.match(r"\w+:|#", it)]


def dead_links():
    return [f"{page.relative_to(ROOT)} leads to {it}, which is not there"
            for page in pages() for it in targets(page) if not (page.parent / it).exists()]


def without_link():
    """Returns the pages of docs that the README does not lead to."""
    led_to = {(ROOT / it).resolve() for it in targets(ROOT / "README.md")}
    return [f"README.md has no link to docs/{it.name}" for it in sorted((ROOT / "docs").glob("*.md")) if it.resolve() not in led_to]


def too_long():
    """Returns what is too long in the README for whoever reads it first."""
    text = (ROOT / "README.md").read_text(encoding="utf-8")
    lines, words = text.splitlines(), text.split()
    points = [it for it in lines if re.match(r"\d+\. |- ", it) and len(it.split()) > MOST_OF_A_POINT + 1]
    return ([f"README.md has {len(lines)} lines"] * (len(lines) > MOST_LINES) + [f"README.md has {len(words):,} words"] * (len(words) > MOST_WORDS)
            + [f"README.md has a long point: {it[:60]} .." for it in points])


def too_wordy():
    """Returns how many words say what is proved and decided, where they are too many."""
    files = [ROOT / "docs" / "PROVED.md", ROOT / "docs" / "DECISIONS.md", *(ROOT / "docs" / "layers").glob("*.md")]
    count = sum(len(it.read_text(encoding="utf-8").split()) for it in files if it.is_file())
    return [f"PROVED.md, DECISIONS.md and the pages of layers have {count:,} words"] * (count > MOST_OF_PROOFS)


def words_of(text):
    return {*TWO_PARTS.findall(text)}


def without_source():
    """Returns what pages name that stands in no source."""
    files = [it for folder in SOURCES for it in ROOT.glob(f"{folder}/**/*") if it.is_file() and it.suffix != ".md"]
    there = {*part.lines(), *OF_THE_TOOLCHAIN}.union(*(words_of(f"{it.parent.name} {it.stem} {it.read_text('utf-8', 'replace')}") for it in files))
    found = [(page, word) for page in pages() if page.name not in OF_BEFORE
             for quoted in QUOTED.findall(page.read_text(encoding="utf-8")) for word in sorted(words_of(quoted) - there)]
    return [f"{page.relative_to(ROOT)} names {word}, which stands in no source" for page, word in dict.fromkeys(found)]


def without_room():
    """Returns the crates of the program that the README does not name, and the crates that the page of all crates does not name."""
    wanted = {"README.md": part.with_those_below("archive"), "docs/ARCHITECTURE.md": part.lines()}
    shown = {it: (ROOT / it).read_text(encoding="utf-8") for it in wanted}
    return [f"{page} does not name {name}" for page, names in wanted.items() for name in names if not re.search(rf"\b{name}\b", shown[page])]


def without_contract():
    """Returns what the pages of layers name that no contract has, and the crates of the program that none of them has."""
    texts = {it: it.read_text(encoding="utf-8") for it in sorted((ROOT / "docs" / "layers").glob("*.md"))}
    found = [f"{page.relative_to(ROOT)}: {it}" for page, text in texts.items() for it in contracts.faults(text)]
    there = {it for text in texts.values() for it in re.findall(r"^## (\w+)$", text, re.M)}
    return found + [f"docs/layers has no part on {it}" for it in part.with_those_below("archive") if it not in there]


def number(where):
    """Returns a number that a source names."""
    file, form = where
    return re.search(form, (ROOT / file).read_text(encoding="utf-8"))[1]


def sections():
    """Returns the numbers of the program and of the tables of each section of the changes, newest first."""
    return re.findall(r"^## Program (\S+), tables (\d+)$", (ROOT / "CHANGELOG.md").read_text(encoding="utf-8"), re.M)


def other_numbers():
    """Returns the pages whose number of the program or of the tables is not that of the sources."""
    program, tables = number(PROGRAM), number(TABLES)
    wrong = [] if sections()[:1] == [(program, tables)] else [f"CHANGELOG.md does not begin with 'Program {program}, tables {tables}'"]
    front = (ROOT / "README.md").read_text(encoding="utf-8")
    wrong += [] if f"program {program}, tables {tables}" in front else [f"README.md is not of the program {program}, tables {tables}"]
    manual = (ROOT / "docs" / "archive.1").read_text(encoding="utf-8").partition("\n")[0]
    packages = re.findall(r"\bluvazhimba[-_](\d[\d.]*)\+", (ROOT / "docs" / "INSTALL.md").read_text(encoding="utf-8"))
    return wrong + ([] if f'"archive {program}"' in manual else [f"docs/archive.1 is not of the program {program}"]) + (
        [] if {*packages} == {program} else [f"docs/INSTALL.md has no package of the program {program} alone"])


def without_rule():
    """Returns the sections of the changes whose number of the program is not 0, that of the tables, and a third part."""
    return [f"CHANGELOG.md has a program {program} of tables {tables}" for program, tables in sections() if not re.fullmatch(rf"0\.{tables}\.(\d+|x)", program)]


def other_policies():
    """Returns the sample policies whose text is not that of which a law says what it hides."""
    found = []
    for sample in sorted((ROOT / "samples").glob("*.toml")):
        proved = (ROOT / "crates" / "example_policies" / "specs" / "Samples.antt").read_text(encoding="utf-8")
        text = re.search(rf"^{sample.stem}_text =\n((?:    .*\n)+)", proved, re.M)
        pieces = re.findall(r'codes ("(?:[^"\\]|\\.)*")', text[1] if text else "")
        if "".join(json.loads(it) for it in pieces) != sample.read_text(encoding="utf-8"):
            found.append(f"samples/{sample.name} is not the text {sample.stem}_text of example_policies")
    return found


def other_code():
    """Returns the functions that the README shows otherwise than the sources of archive_pages have them."""
    blocks = re.findall(r"^    pub fn .*\n(?:    .*\n)*", (ROOT / "README.md").read_text(encoding="utf-8"), re.M)
    shown = [re.sub("^    ", "", it, flags=re.M) for it in blocks]
    sources = [it.read_text(encoding="utf-8") for it in (ROOT / "crates" / "archive_pages" / "src").glob("*.rt")]
    wrong = [it.split("(")[0].split("<")[0] for it in shown if not any(it in text for text in sources)]
    return [f"README.md shows '{it}' otherwise than archive_pages has it" for it in wrong] + ([] if shown else ["README.md shows no function"])


def main():
    found = (dead_links() + without_link() + too_long() + too_wordy() + without_source() + without_contract() + without_room() + other_policies()
        + other_numbers() + without_rule() + other_code())
    for it in found:
        print(f"pages: {it}")
    return 1 if found else 0


if __name__ == "__main__":
    sys.exit(main())
