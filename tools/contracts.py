"""Reads the contracts of the crates' functions, crates/*/src/**/*.rt, for the scripts beside this one."""
import functools, pathlib, re

import specs

FUNCTION = re.compile(r'^\s*(pub )?(?:const )?(?:extern "C" )?fn (\w+)', re.M)
CLAUSE = re.compile(r"^\s*(?:requires|ensures) (?:(\w+) )?\{", re.M)
ROW, QUOTED = re.compile(r"\| `.*\|$"), re.compile(r"`([^`]+)`")


@functools.cache
def clauses(crate):
    """Returns the names of the clauses of each function of a crate, those of one name together."""
    found = {}
    for file in sorted((specs.CRATES / crate / "src").glob("**/*.rt")):
        text = file.read_text(encoding="utf-8")
        begins = [*FUNCTION.finditer(text)]
        for it, end in zip(begins, [*(after.start() for after in begins[1:]), len(text)]):
            found.setdefault(it[2], set()).update(filter(None, CLAUSE.findall(text[it.start():end])))
    return found


def rows(page):
    """Returns the crate, the calls and the clauses of each row of a page's tables, where a heading names the crate."""
    found, crate = [], None
    for line in page.splitlines():
        if heading := re.match(r"## (\w+)", line):
            crate = heading[1] if (specs.CRATES / heading[1]).is_dir() else None
        cells = line.strip("|").split(" | ")
        if crate and ROW.match(line) and len(cells) == 3:
            found.append((crate, [it.split("::")[-1] for it in QUOTED.findall(cells[0])], QUOTED.findall(cells[1])))
    return found


def faults(page):
    """Returns what the rows of a page name that the sources have not: a function of its crate, or a clause of the function."""
    found = []
    for crate, calls, names in rows(page):
        known = clauses(crate)
        files = {it.stem for it in (specs.CRATES / crate / "src").glob("**/*.rt")}
        found += [f"{crate} has no function {call}" for call in calls if call not in known and call not in files]
        found += [f"{crate}::{call} has no clause {name}" for call in calls if call in known for name in names if name not in known[call]]
    return found
