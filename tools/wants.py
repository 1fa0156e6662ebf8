#!/usr/bin/env python3
"""Whether a want of memory is told where memory was refused: each place that reports one by hand, or that asks for memory by a number that
is written down, is in the list `wants.txt`. Status 1 where one is not, or where a line of the list has no place.

  wants.py            says which they are
  wants.py --list     prints the line of each place as the list has it; for one that is bare the reason is to be written

A growth that is refused comes as `AllocError`, `AllocFailed`, a library's own type for the same, or an error of the database; `?` and
`From` hand it on. Whoever counts a want (`increment`, `count_refusal`) hands over a `MemoryRefusal`, whose field is private: it is made by
`From` of such a refusal, and by hand, `MemoryRefusal(())`, in the file that declares it alone. Whoever writes that, or `X::Memory`, has to be believed. Such a
place is, by the innermost arm, `else` or test around it,

  refused   in an arm `Err(_)` or `Err(refused)`, in the `else` of `let Ok`, or behind `is_err()`: a call refused
  counted   in an arm `Err(refused)`, behind a call that counted `refused.into()`: it was handed on, so it is not in the list
  named     in an arm, or behind a test, that names the same fault by another name: `Memory`, `OutOfMemory`, `is_memory()`
  bare      in none of these: nothing was refused there, and the list says in words why it stands
  asked     a growth whose amount has a number or a constant in it: one that is too large is refused whatever memory there is, so the list
            says in words why it is not (a name that the function binds by `let` is looked at once)

No place are patterns, types, clauses, and what an `impl From` makes. Crates of tests, of examples and of probes are left out.
"""
import collections, re, sys

import clauses, part

LIST = part.ROOT / "tools" / "wants.txt"
MADE = re.compile(
    r"\b(?:[A-Z]\w*::)+(?:Memory|OutOfMemory|NoMemory)\b|(?<![\w:])(?:AllocError|Memory)\b(?!\s*(?:::|>|\{|\())|\bAllocFailed\b(?=\s*\{)|\bMemoryRefusal\b(?=\(\(\)\))"
)
GIVEN = re.compile(r"Err\((?:refused|(?:\w+::)*Refused\(refused\))\)")
NAMED = re.compile(r"\b(?:Memory|OutOfMemory|NoMemory)\b|\.is_memory\(\)")
BLANK = re.compile(r"//[^\n]*|\"(?:[^\"\\]|\\.)*\"|'(?:[^'\\]|\\.)'|^\s*(?:pub(?:\(crate\))? )?(?:ghost )?use [^;]*;", re.M)
GROWTH = re.compile(r"\b(?:with_capacity|reserve|reserve_exact|resize|resize_with|repeat)(?=\()")
WRITTEN = re.compile(r"(?<![\w.])\d[\d_]*|\b[A-Z][A-Z0-9_]+\b")
GHOST = re.compile(r"(?:ensures|requires|ghost)\*?\s*\w*\s*(?:=|:[^{;]*)?\s*\{")
FROM = re.compile(r"\bimpl(?:<[^{]*?>)? From<[^{]*?> for [^{]*\{")
FUNCTION = re.compile(r"\bfn (\w+)")
OTHER_ANSWER = re.compile(r"\.(?:ok_or|ok_or_else|map_err|unwrap_or|unwrap_or_else|or|or_else)$")
STRUCT = re.compile(r"(?<![\w>])(?:[a-z_]\w*::)*[A-Z]\w*(?:::[A-Z]\w*)*$")
NO_STRUCT = re.compile(r"(?:->|\b(?:if|while|match|impl|for|in|enum|struct|trait))\s[^;{}]*$")
OPEN, CLOSE = "([{", ")]}"
# What is wrong with a place that the list lacks.
WRONG = {None: "tells of a want of memory by hand ({}): hand on what was refused by `?` or `From`",
         "asked": "asks for memory by a number that is written down: ask by the length of what is there"}


def closing(text, at):
    """Returns where the bracket at a place closes."""
    depth = 0
    for place in range(at, len(text)):
        depth += (text[place] in OPEN) - (text[place] in CLOSE)
        if not depth:
            return place
    return len(text) - 1


def level(text, at):
    """Returns where the innermost bracket around a place opens, or -1, and what stands between, with blanks for what is in brackets."""
    depth, seen = 0, []
    for place in range(at - 1, -1, -1):
        one = text[place]
        depth += one in CLOSE
        if one in OPEN:
            if not depth:
                return place, "".join(reversed(seen))
            depth -= 1
            seen.append(" " if depth else one)
        else:
            seen.append(one if not depth or one in CLOSE and depth == 1 else " ")
    return -1, "".join(reversed(seen))


def blanks(found):
    return re.sub(r"[^\n]", " ", found)


def code_of(text):
    """Returns a text of the same length with blanks for comments, strings, imports, clauses, and what is made by `From`."""
    text = BLANK.sub(lambda it: blanks(it[0]), text)
    for pattern in (GHOST, FROM):
        at = 0
        while found := pattern.search(text, at):
            at = closing(text, found.end() - 1) + 1
            text = text[: found.start()] + blanks(text[found.start() : at]) + text[at:]
    return text


def is_told(text, found):
    """Returns whether what was found is told there, and is no pattern, type, declaration or side of a comparison."""
    start, end = found.span()
    before, after = text[:start].rstrip(), text[end:].lstrip()
    if before.endswith(("==", "!=")) or re.match(r"[=!]=", after):
        return False
    if found[0] == "MemoryRefusal" and before.endswith("struct"):
        return False
    if re.fullmatch(r"AllocError|Memory", found[0]):
        around = level(text, start)[0]
        if around >= 0 and text[around] == "(":
            around = level(text, around)[0]
        declared = around >= 0 and re.search(r"\benum \w+(?:<[^{}]*>)?\s*$", text[:around])
        if declared or before.endswith(("<", ":", "->", "&", "for", "struct", "as", "dyn")) or after.startswith(">"):
            return False
        if before.endswith(",") and "<" in before[before.rfind("\n") :]:
            return False
    if after[:1] in ("(", "{"):
        end = closing(text, text.index(after[0], end)) + 1
        after = text[end:].lstrip()
    while True:
        if re.match(r"=>|if\b|\|(?!\|)", after) or re.search(r"\blet$|\bmatches!\($", before) or (before.endswith("|") and not before.endswith("||")):
            return False
        around = level(text, start)[0]
        if around < 0 or text[around] not in "({" or not (head := re.search(r"(?:\w+::)*[A-Z]\w*\s*$", text[:around])):
            return True
        start, end = head.start(), closing(text, around) + 1
        before, after = text[:start].rstrip(), text[end:].lstrip()


def pattern_of(text, arrow):
    """Returns the pattern of the arm whose `=>` stands there."""
    opened, between = level(text, arrow)
    at = len(between)
    while at and between[at - 1] != ",":
        at -= 1
        if between[at] == "}" and text[: opened + 1 + between.rfind("{", 0, at)].rstrip().endswith("=>"):
            return text[opened + 2 + at : arrow].strip()
    return text[opened + 1 + at : arrow].strip()


def kind_at(text, place):
    """Returns the kind of a place."""
    at = place
    while True:
        opened, between = level(text, at)
        arrow = between.rfind("=>")
        if arrow > max(between.rfind(","), between.rfind(";")):
            pattern = pattern_of(text, opened + 1 + arrow)
            if GIVEN.fullmatch(pattern) and "(refused.into())" in text[opened + 1 + arrow : place]:
                return "counted"
            return "named" if NAMED.search(pattern) else "refused" if re.fullmatch(r"Err\(_\w*\)", pattern) or GIVEN.fullmatch(pattern) else "bare"
        before = text[: max(opened, 0)].rstrip()
        if opened < 0 or text[opened] == "(" and OTHER_ANSWER.search(before):
            return "bare"
        if text[opened] == "{" and not before.endswith("=>"):
            if before.endswith("else"):
                told = re.split(r"[;}]", level(text, opened)[1])[-1]
                return "refused" if re.match(r"\s*let Ok\(", told) else "bare"
            if test := re.search(r"\bif ([^{};]*)$", before):
                return "named" if NAMED.search(test[1]) else "refused" if test[1].endswith(".is_err()") else "bare"
            if not STRUCT.search(before) or NO_STRUCT.search(before):
                return "bare"
        at = opened


def is_asked(text, found):
    """Returns whether the amount of a growth has a number in it that is written down, there or in the `let` of a name that it has."""
    amount = text[found.end() : closing(text, found.end())]
    body = text[: found.start()]
    body = body[max(body.rfind("fn "), 0) :]
    bound = [it[2] for it in re.finditer(r"\blet (?:mut )?(\w+)(?:: \w+)? = ([^;]*);", body) if re.search(rf"\b{it[1]}\b", amount)]
    return any(WRITTEN.search(it) for it in [amount, *bound])


def function_at(text, place):
    return next(iter([it[1] for it in FUNCTION.finditer(text, 0, place)][-1:]), "-")


def places(crate):
    """Returns each place of a crate: its function as crate::file::function, and its kind."""
    src, found = part.CRATES / crate / "src", []
    for file in sorted(src.rglob("*.rt")):
        text = code_of(file.read_text(encoding="utf-8"))
        module = "::".join(file.relative_to(src).with_suffix("").parts)
        for it in MADE.finditer(text):
            if is_told(text, it) and (kind := kind_at(text, it.start())) != "counted":
                found.append((f"{crate}::{module}::{function_at(text, it.start())}", kind))
        found += [(f"{crate}::{module}::{function_at(text, it.start())}", "asked") for it in GROWTH.finditer(text) if is_asked(text, it)]
    return found


def listed():
    """Returns each line of the list: a function, the kind, and why it stands."""
    lines = LIST.read_text(encoding="utf-8").splitlines() if LIST.is_file() else []
    return [(it.split(None, 2) + [""])[:3] for it in lines if it.strip() and not it.startswith("#")]


def faults(found, known):
    """Returns what is in one of the two and not in the other, and which line gives no reason."""
    have, wanted = collections.Counter(found), collections.Counter((it[0], it[1]) for it in known)
    wrong = [f"{name} {WRONG.get(kind, WRONG[None].format(kind))}" for name, kind in (have - wanted).elements()]
    wrong += [f"wants.txt names {name} {kind}, which is not there" for name, kind in (wanted - have).elements()]
    return wrong + [f"wants.txt gives no reason for {name}" for name, kind, why in known if kind in ("bare", "asked") and not why]


def main(words):
    if words not in ([], ["--list"]):
        sys.exit(__doc__)
    found = [it for crate in part.lines() if not clauses.BESIDE_THE_PRODUCT.fullmatch(crate) for it in places(crate)]
    if words:
        why = {(name, kind): f" {why}" for name, kind, why in listed() if why}
        print("\n".join(f"{name} {kind}{why.get((name, kind), '')}" for name, kind in found))
        return 0
    wrong = faults(found, listed())
    for it in wrong:
        print(f"wants: {it}")
    return 1 if wrong else 0


if __name__ == "__main__":
    sys.exit(main(sys.argv[1:]))
