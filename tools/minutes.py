#!/usr/bin/env python3
"""The minutes that each crate takes, in tools/minutes.txt, and the tables of docs/GATE.md that are made of them.

  minutes.py            says whether the page has the tables that the file gives; status 1 where not
  minutes.py --write    writes them into the page

`./check --prove --record` writes the file (gate.py): of each crate that it proved from nothing the minutes by the clock between the end of the last
crate that it stands on and its own, and the day. That includes waiting for a processor. Every other line stays.
"""
import datetime, sys

import build, clauses, part

PAGE = part.ROOT / "docs" / "GATE.md"
FIRST, LAST = "<!-- by tools/minutes.py -->\n", "<!-- end of what tools/minutes.py wrote -->\n"
PROGRAMS = ("sift", "archive")
LANES = (1, 2, 4, 8)
DEAR = 6.0
HEAD = """# The minutes of each crate, as a run of the gate or a first build found them, and the day (tools/minutes.py).
"""


def write(own, file=build.MEASURED):
    """Writes down what each of these crates took, today, and leaves the lines of the others that are there."""
    known = part.lines()
    lines = [it.split() for it in file.read_text(encoding="utf-8").splitlines() if it and not it.startswith("#")] if file.exists() else []
    rows = {name: rest for name, *rest in lines if name in known}
    rows.update({it: [f"{minutes:.1f}", f"{datetime.date.today()}"] for it, minutes in own.items() if it in known})
    file.write_text(HEAD + "".join(" ".join([it, *rows[it]]) + "\n" for it in known if it in rows), encoding="utf-8")


def row(*cells):
    return f"| {' | '.join(map(str, cells))} |\n"


def parts(takes):
    """Returns the table of what the crates take by their kind."""
    program = {it for name in PROGRAMS if name in part.lines() for it in part.with_those_below(name)}
    kinds = {"the program": [], "tests, examples and probes": [], "other libraries": []}
    for it in part.lines():
        kind = "the program" if it in program else "tests, examples and probes" if clauses.BESIDE_THE_PRODUCT.fullmatch(it) else "other libraries"
        kinds[kind].append(it)
    known = {kind: [takes[it] for it in names if it in takes] for kind, names in kinds.items()}
    return row("Crates of", "Measured", "Minutes in sum") + row(*["---"] * 3) + "".join(row(kind, len(it), f"{sum(it):.0f}") for kind, it in known.items() if it)


def first_build(takes):
    """Returns the table of how long the first build takes on one to eight processors, by the order in which the toolchain proves."""
    known = part.lines()
    wanted = {it for name in PROGRAMS if name in known for it in part.with_those_below(name)}
    own = {it: takes[it] for it in known if it in wanted and it in takes}
    below = {it: {*known[it].partition(":")[2].split()} & {*own} for it in own}
    spans = [build.span(below, own, lanes) for lanes in LANES]
    return row("Processors", *LANES) + row(*["---"] * (1 + len(LANES))) + row("minutes of the first build, simulated", *(f"{it:.0f}" for it in spans))


def dear(takes):
    """Returns the table of the crates that take longest."""
    rows = [row(f"`{it}`", f"{minutes:.1f}") for it, minutes in sorted(takes.items(), key=lambda it: -it[1]) if minutes > DEAR]
    return row(f"Crates above {DEAR:.0f} minutes", "Minutes") + row("---", "---") + "".join(rows)


def tables():
    takes = {it: minutes for it, minutes in build.took(build.MEASURED).items() if it in part.lines()}
    return "\n".join([parts(takes), first_build(takes), dear(takes)])


def main(words):
    if words not in ([], ["--write"]):
        sys.exit(__doc__)
    text = PAGE.read_text(encoding="utf-8") if PAGE.exists() else ""
    if text.count(FIRST) != 1 or text.count(LAST) != 1:
        print("minutes: docs/GATE.md has no place for the tables")
        return 1
    head, _, rest = text.partition(FIRST)
    made = f"{head}{FIRST}\n{tables()}\n{LAST}{rest.partition(LAST)[2]}"
    if words:
        PAGE.write_text(made, encoding="utf-8")
    elif made != text:
        print("minutes: docs/GATE.md has other tables than tools/minutes.txt gives: tools/minutes.py --write makes them")
        return 1
    return 0


if __name__ == "__main__":
    sys.exit(main(sys.argv[1:]))
