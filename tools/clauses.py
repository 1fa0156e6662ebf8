#!/usr/bin/env python3
"""Prints how many functions, clauses and lines of clauses each crate of the product has, and says which function has too many clauses,
and which line of a source or a proof is too long. Status 1 where one is.

  clauses.py          a line for each crate, then what is wrong

A clause is a `requires` or an `ensures` of a function or a method in `crates/*/src`, whoever may call it; its lines are those from its
word to its closing brace. What a record of `specs/` says in several fields is one clause. Crates of tests, of examples and of probes
are left out, by their names.

More than MOST clauses on one function is a finding, unless `clauses.txt` beside this script names the function with just that number.
That list only gets shorter and its numbers lower: a number on it that is not the function's is a finding too, so whoever takes a clause
away writes that down, and no other function may take its place.

A line of any crate's `src`, `specs` or `proofs` has at most WIDEST characters. What stands between double quotes does not count: neither
language breaks a literal.
"""
import collections, re, sys

import part

MOST, WIDEST = 5, 200
EXCEPTIONS = part.ROOT / "tools" / "clauses.txt"
BESIDE_THE_PRODUCT = re.compile(r"\w+_tests|example_\w+|(?:\w+_)?probe|run_cases|refused_rows")
TEXT = re.compile(r'"(?:[^"\\]|\\.)*"')
COMMENT = re.compile(r"//[^\n]*")
FUNCTION = re.compile(r"^[ \t]*(?:pub(?:\(\w+\))? )?(?:const )?(?:unsafe )?(?:extern \"C\" )?fn (\w+)", re.M)
UP_TO_BRACE, WORD = re.compile(r"[^{;]*"), re.compile(r"\b(requires|ensures)\b")
OPENING = {"(": ")", "{": "}", "<": ">"}


def closing(text, at):
    """Returns the place of the bracket that closes the one at this place."""
    opens, depth = text[at], 0
    for place in range(at, len(text)):
        if text[place] == opens:
            depth += 1
        elif text[place] == OPENING[opens] and text[place - 1 : place + 1] != "->":
            depth -= 1
            if depth == 0:
                return place
    return len(text)


def clauses_at(text, at):
    """Returns the clauses of the function whose name ends at this place."""
    if text[at : at + 1] == "<":
        at = closing(text, at) + 1
    at, found = closing(text, at) + 1, []
    while True:
        head = UP_TO_BRACE.match(text, at)
        word = WORD.search(head[0])
        if head.end() == len(text) or text[head.end()] == ";" or not (word or "ghost" in head[0].split()):
            return found
        end = closing(text, head.end())
        if word:
            found.append(text[at + word.start() : end + 1])
        at = end + 1


def functions(crate):
    """Returns the clauses of each function of a crate, beside its name as crate::file::function."""
    src, found = part.CRATES / crate / "src", []
    for file in sorted(src.rglob("*.rt")):
        text = COMMENT.sub("", file.read_text(encoding="utf-8"))
        module = "::".join(file.relative_to(src).with_suffix("").parts)
        found += [(f"{crate}::{module}::{it[1]}", clauses_at(text, it.end())) for it in FUNCTION.finditer(text)]
    return found


def exceptions():
    """Returns the number of clauses of each function that may have more than others, by its name."""
    lines = EXCEPTIONS.read_text(encoding="utf-8").splitlines() if EXCEPTIONS.is_file() else []
    return {it.split()[0]: int(it.split()[1]) for it in lines if it.strip() and not it.startswith("#")}


def faults(found):
    """Returns what is wrong with the numbers of clauses, by the functions' names."""
    most, excused = collections.Counter(), exceptions()
    for name, clauses in found:
        most[name] = max(most[name], len(clauses))
    wrong = [f"{name} has {count} clauses, more than {MOST}" for name, count in most.items() if count > MOST and name not in excused]
    wrong += [f"clauses.txt names {name}, which is not there" for name in excused if name not in most]
    wrong += [f"clauses.txt gives {name} {number} clauses, and it has {most[name]}" for name, number in excused.items()
              if name in most and most[name] != number]
    return wrong + [f"clauses.txt names {name}, which needs no exception" for name in excused if 0 < most[name] == excused[name] <= MOST]


def long_lines():
    """Returns each line that is too long, by file and line."""
    files = sorted(it for part_of in ("src", "specs", "proofs") for end in ("rt", "antt") for it in part.CRATES.glob(f"*/{part_of}/**/*.{end}"))
    lines = [(file, at, TEXT.sub('""', line)) for file in files for at, line in enumerate(file.read_text(encoding="utf-8").splitlines(), 1)]
    return [f"{file.relative_to(part.ROOT)}:{at}: {len(line)} characters, more than {WIDEST}" for file, at, line in lines if len(line) > WIDEST]


def main(words):
    if words:
        sys.exit(__doc__)
    every, totals = [], [0, 0, 0, 0]
    for crate in (it for it in part.lines() if not BESIDE_THE_PRODUCT.fullmatch(it)):
        found = functions(crate)
        clauses = [it for _, its in found for it in its]
        counts = [len(found), len(clauses), sum(it.count("\n") + 1 for it in clauses), sum(len(its) > MOST for _, its in found)]
        print(f"clauses: {crate}: {counts[0]} functions, {counts[1]} clauses in {counts[2]} lines, {counts[3]} functions with more than {MOST}")
        every, totals = every + found, [a + b for a, b in zip(totals, counts)]
    print(f"clauses: all: {totals[0]} functions, {totals[1]} clauses in {totals[2]} lines, {totals[3]} functions with more than {MOST}")
    wrong = faults(every) + long_lines()
    for it in wrong:
        print(f"clauses: {it}")
    return 1 if wrong else 0


if __name__ == "__main__":
    sys.exit(main(sys.argv[1:]))
