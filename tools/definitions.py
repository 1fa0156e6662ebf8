#!/usr/bin/env python3
"""Compares docs/BELIEVE.md with the sources, and says what does not agree. Status 1 if something does not.

  definitions.py             compares
  definitions.py --write     puts the numbers of BELIEVE.md and the definitions that it shows right
  definitions.py --list      prints the definitions that contracts of public functions cite, each with the comment above it
  definitions.py --headline  prints all that the headline is made of: its clause, each definition by file and line, what it is made of that
                             is declared in the code or by the toolchain, and then what its laws add

  - A definition is cited if a clause of a `pub fn` has a name that the file imports from a crate's specs.
  - BELIEVE.md leads through what the headline is made of, by crate and module, and in its last row through what its laws add. A module
    stands in no row, in two, or in a wrong one; a number of lines, or the sum in the text, is another; or the page does not name
    something that is declared in the code, or by a crate of the toolchain but its std.
  - BELIEVE.md shows definitions: a line that begins with **`crate::Module::name`**, an empty line, and the text of the source, indented. The
    text is another, or the definition is not one of the headline's.
"""
import re, sys

import part, specs

BELIEVE = specs.ROOT / "docs" / "BELIEVE.md"
SHOWN = re.compile(r"^\*\*`(\w+)::([\w.]+)::([^`]+)`\*\*[^\n]*\n\n((?: {4}[^\n]*\n)*)", re.M)
HEADER = re.compile(r'^\s*pub (?:extern "C" )?fn (\w+).*?^\s*\{', re.M | re.S)
CLAUSE = re.compile(r"\b(?:requires|ensures)\b.*?(?=\b(?:requires|ensures)\b|\Z)", re.S)
# What the page is about: a clause of one call, and laws, by file, function and clause.
HEADLINE = (("archive_stored/src/running.rt", "run_and_answer_in_memory", "answered"),)
LAWS = tuple(("archive_pages/src/laws.rt", it, "") for it in (
    "an_allowed_message_is_served", "a_denied_message_gets_403_by_its_rule", "results_depend_on_allowed_messages_only", "a_withdrawn_message_might_never_have_arrived")) + (
    ("archive_pages/src/laws.rt", "a_withheld_message_leaves_no_trace", "always"),)
# How what the headline's call is given is read: the models of its types, by file and type.
MODELS = (("policy_core/src/rules.rt", "Policy"), ("policy_core/src/rules.rt", "Rule"), ("civil_time/src/days.rt", "Day"), ("civil_time/src/instants.rt", "Instant"),
    ("archive_model/src/keys.rt", "Key"), ("mbox_items/src/items.rt", "Item"), ("mbox_items/src/separators.rt", "Envelope"))
HEAD = """# Definitions

The definitions that contracts of public functions cite, each with the comment above it. A module is crates/CRATE/specs/MODULE.antt. The headline is made of those with a star, its laws add those with a plus. *Profile* in a comment means that the rule is this project's.
"""
QUOTED, BRACKETS = re.compile(r"`([^`]+)`"), re.compile(r"\([^)]*\)")


def clauses(header):
    """Returns the text of each clause of a function's header."""
    return CLAUSE.findall(header)


def cited(text, clause_texts):
    """Returns the definitions of this repository that some clauses of a file cite."""
    words, names = set(specs.WORD.findall(" ".join(clause_texts))), specs.places(text)
    return {found for it in words & {*names} if (found := specs.origin(*names[it]))}


def roots(claims):
    """Returns the definitions that some clauses cite, each given by file, function and the name of the clause."""
    found = set()
    for file, function, name in claims:
        text = (specs.CRATES / file).read_text(encoding="utf-8")
        headers = [it[0] for it in HEADER.finditer(text) if it[1] == function]
        found |= cited(text, [it for header in headers for it in clauses(header) if re.match(rf"ensures {name}\W", it)])
    return found


def views(models):
    """Returns the definitions by which some models, each given by file and type, read a value."""
    found = set()
    for file, name in models:
        text = (specs.CRATES / file).read_text(encoding="utf-8")
        for block in re.findall(rf"^impl(?:<[^>]*>)? Model for {name}\b.*?^\}}", text, re.M | re.S):
            found |= cited(text, re.findall(r"ghost (?:Value|view) = .*", block))
    return found


def headline_definitions():
    """Returns what the headline is made of."""
    return specs.with_parts(roots(HEADLINE) | views(MODELS))


def public_definitions():
    """Returns the definitions that contracts of public functions cite."""
    found = set()
    for file in sorted(specs.CRATES.glob("*/src/**/*.rt")):
        text = file.read_text(encoding="utf-8")
        found |= cited(text, [it for header in HEADER.finditer(text) for it in clauses(header[0])])
    return found


def section(module, names, marks):
    """Returns the lines of the page for the definitions of a module, in their order, with their marks."""
    made = specs.modules()[module]
    lines = [f"### {module[1]}", *([made.head] if made.head else []), ""]
    for name in (it for it in made.definitions if it in names):
        lines.append(f"- `{name}`{marks.get((module, name), '')}" + (f": {made.definitions[name].comment}" if made.definitions[name].comment else ""))
    return [*lines, ""]


def made_page(found, marks):
    """Returns the page of some definitions, by crate, lowest first, and by module."""
    lines = [HEAD]
    for crate in part.lines():
        modules = sorted({module for module, _ in found if module[0] == crate})
        lines += [f"## {crate}", ""] if modules else []
        for module in modules:
            lines += section(module, {name for it, name in found if it == module}, marks)
    return "\n".join(lines)


def by_module(found):
    """Returns how many definitions each module has among these, and how many lines they have."""
    sizes = {}
    for module, name in found:
        count, lines = sizes.get(module, (0, 0))
        sizes[module] = count + 1, lines + len(specs.modules()[module].definitions[name].lines)
    return sizes


def named(cell):
    """Returns the modules that a cell of BELIEVE.md names, as `crate`: `Module`, `Module` (`parts`); `crate`: `Module`."""
    found = []
    for part in BRACKETS.sub("", cell).split(";"):
        crate, *names = QUOTED.findall(part) or [""]
        found += [(crate, it) for it in names]
    return found


def rows(page):
    """Returns the cells of each row of the table of BELIEVE.md."""
    return [[it.strip() for it in line.strip("|").split(" | ")] for line in page.splitlines() if re.match(r"\| \d+ \|", line)]


def sum_of(sizes):
    """Returns the sentence that says how large these are."""
    return (f"{sum(count for count, _ in sizes.values()):,} definitions, {sum(lines for _, lines in sizes.values()):,} lines, "
            f"in {len(sizes)} modules")


def source_of(crate, module, name):
    """Returns the text of a definition as its file has it, with the comment above it, up to an empty line. None where there is no such definition."""
    made = specs.modules().get((crate, module))
    if not made or name not in made.definitions:
        return None
    lines = (specs.CRATES / crate / "specs" / f"{module.replace('.', '/')}.antt").read_text(encoding="utf-8").splitlines()
    first = last = made.definitions[name].line - 1
    while first and lines[first - 1].lstrip().startswith("--"):
        first -= 1
    while last < len(lines) and lines[last].strip():
        last += 1
    return lines[first:last]


def with_shown(page):
    """Returns BELIEVE.md with the definitions that it shows as the sources have them; one that is not there is left as it is."""
    def put(found):
        text = source_of(*found.groups()[:3])
        return found[0] if text is None else found[0][:found.start(4) - found.start()] + "".join(f"    {it}\n" for it in text)
    return SHOWN.sub(put, page)


def numbered(page, headline, laws):
    """Returns BELIEVE.md with its numbers as the sources have them: each row's of the headline, and the last row's of what the laws add."""
    page = re.sub(r"[\d,]+ definitions, [\d,]+ lines, in \d+ modules", sum_of(headline), page, count=1)
    out, left = [], len(rows(page))
    for line in page.split("\n"):
        if re.match(r"\| \d+ \|", line):
            left -= 1
            first, cell, _, rest = line.split(" | ", 3)
            counted = [headline.get(it, (0, 0)) for it in named(cell)] if left else laws.values()
            line = " | ".join([first, cell, str(sum(lines for _, lines in counted)), rest])
        out.append(line)
    return "\n".join(out)


def title(crate, module, name):
    """Returns the name under which BELIEVE.md speaks of what is declared: for a type, its cases and what a trait counts the type or trait."""
    parts = [it for it in module.split(".") if it != "TheVariants"]
    return parts[-1] if module.startswith(specs.DECLARED) and parts[-1] != "TheConstants" else name


def believe_faults(page, headline, laws, beyond):
    """Returns what BELIEVE.md lacks, and what it has that is not so."""
    there, only_laws = [[it for row in part for it in named(row[1])] for part in (rows(page), rows(page)[-1:])]
    whole, quoted = {*headline, *laws}, set(re.findall(r"\w+", " ".join(QUOTED.findall(page))))
    found = [f"BELIEVE.md has no row for {crate}::{module}, of which the headline is made" for crate, module in sorted(whole - {*there})]
    found += [f"BELIEVE.md has {crate}::{module}, of which the headline is not made" for crate, module in sorted({*there} - whole)]
    found += [f"BELIEVE.md has {crate}::{module} twice" for crate, module in sorted({it for it in there if there.count(it) > 1})]
    found += [f"BELIEVE.md has {crate}::{module} in a wrong row: the last is of what the laws add" for crate, module in sorted({*there} & whole)
              if ((crate, module) in only_laws) == ((crate, module) in headline)]
    found += [f"BELIEVE.md does not name {it}, of which the headline is made" for it in sorted({title(*it) for it in beyond if it[0] != "std"} - quoted)]
    if not found and numbered(page, headline, laws) != page:
        found.append("BELIEVE.md has other numbers than the sources (tools/definitions.py --write)")
    return found


def shown_faults(page, found):
    """Returns what BELIEVE.md shows that is none of some definitions, or has another text."""
    shown = [it.groups()[:3] for it in SHOWN.finditer(page)]
    wrong = [f"BELIEVE.md shows {crate}::{module}::{name}, of which the headline is not made" for crate, module, name in shown
             if ((crate, module), name) not in found]
    return wrong + ([] if with_shown(page) == page else ["BELIEVE.md shows another text than the sources (tools/definitions.py --write)"])


def place(crate, module, name):
    """Returns where something that no file of specs here makes is to be found."""
    if crate not in specs.own_crates():
        return f"of the toolchain: {crate}: {module}: {name}"
    files = [specs.CRATES / crate / "src" / f"{'/'.join(it for it in module.split('.')[1:] if it[:1].islower())}{end}" for end in (".rt", "/mod.rt")]
    file = next((it for it in files if it.is_file()), specs.CRATES / crate / "src")
    return f"declared: {file.relative_to(specs.ROOT)}: {title(crate, module, name)}"


def listed(found):
    """Returns a line for each of some definitions, by crate, lowest first, module and line."""
    order, lines = [*part.lines()], [(module, specs.modules()[module].definitions[name].line, name) for module, name in found]
    return [f"crates/{module[0]}/specs/{module[1].replace('.', '/')}.antt:{line}: {name}"
            for module, line, name in sorted(lines, key=lambda it: (order.index(it[0][0]), *it))]


def clause_line(file, function, name):
    """Returns where a clause of a function begins, by file and line."""
    text = (specs.CRATES / file).read_text(encoding="utf-8")
    at = re.search(rf"fn {function}\b.*?^ *ensures {name}\b", text, re.M | re.S)
    return f"crates/{file}:{text[:at.end()].count(chr(10)) + 1}: {function}: {name}"


def told(headline, laws):
    """Returns the lines that say all that the headline is made of, and what its laws add."""
    declared = specs.beyond(headline)
    return ["# the headline", *(clause_line(*it) for it in HEADLINE), "# the models by which it reads what it is given",
            *(f"crates/{file}: {name}" for file, name in MODELS), f"# {sum_of(by_module(headline))}", *listed(headline),
            "# beyond specs", *sorted({place(*it) for it in declared}), f"# its laws add {sum_of(by_module(laws))}", *listed(laws),
            *sorted({place(*it) for it in specs.beyond(laws) - declared})]


def main(words):
    if words not in ([], ["--write"], ["--list"], ["--headline"]):
        sys.exit(__doc__)
    headline = headline_definitions()
    laws = specs.with_parts(roots(LAWS)) - headline
    if words == ["--headline"]:
        print(*told(headline, laws), sep="\n")
        return 0
    if words == ["--list"]:
        print(made_page(public_definitions(), {**dict.fromkeys(headline, "*"), **dict.fromkeys(laws, "+")}), end="")
        return 0
    sizes, added = by_module(headline), by_module(laws)
    believe = BELIEVE.read_text(encoding="utf-8")
    if words:
        BELIEVE.write_text(with_shown(numbered(believe, sizes, added)), encoding="utf-8")
        return 0
    found = believe_faults(believe, sizes, added, specs.beyond(headline | laws)) + shown_faults(believe, headline)
    for it in found:
        print(f"definitions: {it}")
    return 1 if found else 0


if __name__ == "__main__":
    sys.exit(main(sys.argv[1:]))
