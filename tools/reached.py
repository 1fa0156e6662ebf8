#!/usr/bin/env python3
"""Which functions of the product nothing reaches that somebody runs: no `main` of a program, and no call of the library for C. Each has to
stand in the list `reached.txt` with the reason why it stays, and the list has nothing else: it only gets shorter. Status 1 where not.

  reached.py            says which they are
  reached.py --list     prints the line of each as the list has it; of one that is new the reason is to be written

A call is found by its name: a free function by the file's own items and its `use` lines, a method by each method of this name in the
crates below, or of a trait above. So a function that is found is not called; one that is not found may be, by a method of the same name
of another type. SHARED has the methods of which the types were looked at. No function of the list is a law (src/laws.rt), what an
`impl` of a trait of std holds, or what a trait declares. Crates of tests, of examples and of probes are left out.
"""
import collections, dataclasses, functools, os, re, sys

import clauses, part

LIST = part.ROOT / "tools" / "reached.txt"
PROGRAMS, LIBRARY = ("archive", "sift"), "luvazhimba_c"
# (file, name): the files whose calls of this name are calls of this method, by the type on which they are made.
SHARED = {
    ("archive_store/src/running.rt", "run"): {"archive_stored/src/running.rt"},
    ("archive_store/src/running.rt", "carry_out"): {"archive_store/src/running.rt"},
    ("archive_store/src/messages.rt", "add"): {"archive_store/src/running.rt"},
    ("archive_store/src/walking.rt", "rows"): {"archive_desk/src/viewing.rt"},
    ("archive_store/src/adopting.rt", "open_in_memory"): {"archive_stored/src/running.rt"},
}
BLANK = re.compile(r"//[^\n]*|\"(?:\\.|[^\"\\])*\"|'(?:\\.[^']*|[^\\'])'", re.S)
OWNER = re.compile(r"^(?:pub(?:\(crate\))? )?(impl|trait)\b([^{;]*)\{", re.M)
FUNCTION = re.compile(r"^[ \t]*(?:pub(?:\(crate\))? )?(?:const )?(extern \"?[C ]*\"? )?fn (\w+)", re.M)
CLAUSES = re.compile(r"(?:\[[^\]]*\]|[^{;\[])*")
CALL = re.compile(r"(\.\s*)?((?:\w+::)*)(\w+)\b")
STD = re.compile(r"\b(Drop|Display|From|Error|Iterator|Deref|IntoIterator|Default|PartialEq|Ord|PartialOrd|Hash|FromStr|Clone)\b")


@dataclasses.dataclass(frozen=True)
class Function:
    crate: str
    file: str
    name: str
    owner: str  # the head of the `impl` or `trait` that it stands in, or nothing
    exported: bool
    body: str

    @property
    def is_of_trait(self):
        return " for " in self.owner or self.owner.startswith("trait")

    @property
    def is_of_std(self):
        return " for " in self.owner and bool(STD.search(self.owner))

    @property
    def words(self):
        module = self.file.split("/src/")[1].removesuffix(".rt").replace("/", "::")
        return f"{self.crate}::{module}::{self.name}"


def closing(text, at, pair):
    """Returns where the bracket at a place closes."""
    depth = 0
    for place in range(at, len(text)):
        depth += (text[place] == pair[0]) - (text[place] == pair[1])
        if not depth:
            return place
    return len(text) - 1


def body_of(text, at):
    """Returns the body of the function whose name ends at a place, behind its clauses; nothing where it has none."""
    rest = closing(text, text.index("(", at), "()") + 1
    while rest < len(text):
        head = CLAUSES.match(text, rest)
        if head.end() >= len(text) or text[head.end()] == ";":
            return ""
        end = closing(text, head.end(), "{}")
        if not re.search(r"\b(requires|ensures)\b", head[0]):
            return text[head.end():end]
        rest = end + 1
    return ""


def functions_of(crate, file, text):
    owners = [(it.start(), closing(text, it.end() - 1, "{}"), f"{it[1]} {' '.join(it[2].split())}") for it in OWNER.finditer(text)]
    for it in FUNCTION.finditer(text):
        around = [owner for start, end, owner in owners if start <= it.start() <= end]
        yield Function(crate, file, it[2], around[-1] if around else "", bool(it[1]), body_of(text, it.end()))


class Product:
    """The functions of all crates but those of tests, examples and probes, and which calls which."""

    def __init__(self):
        self.lines, self.texts, self.functions = part.lines(), {}, []
        for crate in (it for it in self.lines if it == LIBRARY or not clauses.BESIDE_THE_PRODUCT.fullmatch(it)):
            for file in sorted((part.CRATES / crate / "src").rglob("*.rt")):
                name = str(file.relative_to(part.CRATES))
                self.texts[name] = BLANK.sub(lambda it: re.sub(r"[^\n]", " ", it[0]), file.read_text(encoding="utf-8"))
                self.functions += functions_of(crate, name, self.texts[name])
        self.named = collections.defaultdict(list)
        for it in self.functions:
            self.named[it.name].append(it)
        self.traits = collections.defaultdict(set)
        for name, text in self.texts.items():
            for trait in re.findall(r"^pub trait (\w+)", text, re.M):
                self.traits[trait].add(name.split("/")[0])

    @functools.cache
    def below(self, crate):
        own = {*self.lines[crate].partition(":")[2].split()} & {*self.lines}
        return own.union(*(self.below(it) for it in own))

    def is_near(self, one, other):
        """Whether a function could call another one, by their crates, or by the trait that the other's `impl` is of."""
        seen = {one.crate} | self.below(one.crate)
        trait = re.search(r"(\w+)(?:<.*>)? for ", other.owner)
        return other.crate in seen or other.is_of_trait and one.crate in self.below(other.crate) or bool(trait and self.traits[trait[1]] & seen)

    def is_used(self, one, name, other):
        """Whether a free name in a function is this one, by the `use` lines of its file."""
        if other.file == one.file:
            return True
        lines = [it for it in re.findall(r"\buse ([^;]*);", self.texts[one.file]) if re.search(rf"\b{name}\b", it)]
        roots = {it.strip().split("::")[0].strip() for it in lines}
        is_local = any(it in ("crate", "self", "super") or f"{one.crate}/src/{it}.rt" in self.texts for it in roots)
        return is_local and other.crate == one.crate or other.crate in roots or any(it in self.lines and other.crate in self.below(it) for it in roots)

    def is_call(self, one, method, path, name, other):
        """Whether what stands in a function is a call of another one of this name."""
        if other is one or not self.is_near(one, other) or one.file not in SHARED.get((other.file, name), {one.file}):
            return False
        if method:
            return bool(other.owner)
        if not path:
            return not other.owner and self.is_used(one, name, other)
        last = path.strip(":").split("::")[-1]
        if other.owner:
            return last == "Self" or last in other.owner
        return last in (os.path.basename(other.file)[:-3], other.crate, "crate", "self", "super")

    def calls(self, one):
        return {other for method, path, name in CALL.findall(one.body) for other in self.named.get(name, ()) if self.is_call(one, method, path, name, other)}

    def reached(self):
        """Returns all that is reached from where somebody begins; what a trait of std holds is, once its crate is."""
        waiting = [it for it in self.functions if it.name == "main" and it.crate in PROGRAMS or it.exported and it.crate == LIBRARY]
        found = {*waiting}
        while waiting:
            new = self.calls(waiting.pop()) - found
            if not new and not waiting:
                crates = {it.crate for it in found}
                new = {it for it in self.functions if it.is_of_std and it.crate in crates} - found
            found |= new
            waiting += new
        return found

    def unreached(self):
        """Returns the words of the functions that nobody reaches."""
        found = self.reached()
        left = [it for it in self.functions if it not in found and it.crate != LIBRARY and not it.is_of_std and not it.owner.startswith("trait")]
        return sorted(it.words for it in left if not it.file.endswith("/laws.rt"))


def listed():
    """Returns each line of the list: a function, and why it stays."""
    lines = LIST.read_text(encoding="utf-8").splitlines() if LIST.is_file() else []
    return [(it.split(None, 1) + [""])[:2] for it in lines if it.strip() and not it.startswith("#")]


def faults(found, known):
    """Returns what is in one of the two and not in the other, and which line gives no reason."""
    have, wanted = collections.Counter(found), collections.Counter(name for name, _ in known)
    wrong = [f"nothing that somebody runs reaches {it}: remove it" for it in (have - wanted).elements()]
    wrong += [f"reached.txt names {it}, which is reached or is not there" for it in (wanted - have).elements()]
    return wrong + [f"reached.txt gives no reason for {name}" for name, why in known if not why]


def main(words):
    if words not in ([], ["--list"]):
        sys.exit(__doc__)
    found = Product().unreached()
    if words:
        why = dict(listed())
        print("\n".join(f"{it} {why.get(it, '')}".rstrip() for it in found))
        return 0
    wrong = faults(found, listed())
    for it in wrong:
        print(f"reached: {it}")
    return 1 if wrong else 0


if __name__ == "__main__":
    sys.exit(main(sys.argv[1:]))
