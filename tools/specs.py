"""Reads the definitions of the crates, crates/*/specs/*.antt, for the scripts beside this one."""
import functools, pathlib, re, typing

ROOT = pathlib.Path(__file__).resolve().parent.parent
CRATES = ROOT / "crates"
HANDED = re.compile(r"^pub use Rattle\.(\w+)\.specs\.(\w+)$", re.M)
USE = re.compile(r"\b(?:ghost )?use Rattle\.(\w+)\.specs\.([\w.]+?)\.\{([^}]*)\}")
BEGINNING = re.compile(r"( *)((?:(?:abbrev|unfoldable|record|data|pub)\s+)+)(?!mod\b|use\b)([^\s:({]+)")
BLOCK = re.compile(r" *module\b.*\bwhere$")
CASE = re.compile(r"\s*([^\s:({]+)\s*:")
WORD = re.compile(r"[A-Za-z_◌][\w'◌>=-]*")
DECLARED = ("declared.", "contracts.")


class Definition(typing.NamedTuple):
    comment: str   # what stands right above it
    lines: list    # its text, without comments
    indent: int
    has_parts: bool  # a record with fields, or data with cases
    line: int      # where it begins, from 1
    block: str     # the head of the block with parameters in which it stands

    def text(self):
        """Returns what names the definitions that it is made of."""
        return "\n".join([self.block, *self.lines])

    def cases(self):
        """Returns the names of the cases of data."""
        lines = self.lines[1:] if " data " in f" {self.lines[0]}" or self.lines[0].startswith("data ") else []
        return [found[1] for it in lines if (found := CASE.match(it))]


class Module(typing.NamedTuple):
    head: str          # the comment that it begins with
    imports: dict      # where what it imports is made, and under which name, by the name here
    beyond: dict       # the same of what no file of specs here makes: it is declared in the code, or of the toolchain's crates
    definitions: dict  # by name, in their order


def own_crates():
    """Returns the names of this repository's crates."""
    return {it.name for it in CRATES.iterdir()}


@functools.cache
def handed():
    """Returns which module each is that a crate hands on whole from a crate below it, both by crate and name."""
    return {(file.parts[-3], name): (crate, name) for file in sorted(CRATES.glob("*/specs/Lib.antt"))
            for crate, name in HANDED.findall(file.read_text(encoding="utf-8"))}


def places(text, beyond=False):
    """Returns where what a file imports is made, and its name there, by its name here: in the specs of this repository's crates, or beyond."""
    own, found = own_crates(), {}
    for crate, module, names in USE.findall(text):
        if beyond == (crate not in own or module.startswith(DECLARED)):
            for name in filter(None, map(str.strip, names.split(","))):
                there, _, here = name.partition(" as ")
                found[here.strip() or there.strip()] = (handed().get((crate, module), (crate, module)), there.strip())
    return found


def named_in(text, names):
    """Returns those of some names that a text has; of an operator, as ◌≤◌, each of its parts. A block `do` is of ◌>>=◌."""
    words, pieces = set(WORD.findall(text)), set(re.split(r"[\s(){}]+", text))
    pieces |= {">>="} if "do" in words else set()
    return {it for it in names if it in words or ("◌" in it and all(part in pieces for part in it.split("◌") if part))}


def definitions(text):
    """Returns the definitions of a file by their names. One ends at an empty line, or where the next begins."""
    made, comment, now, block = {}, [], None, ""
    for number, line in enumerate(text.splitlines(), 1):
        begins = BEGINNING.match(line)
        if not line.strip():
            comment, now = [], None
        elif BLOCK.match(line):
            comment, now, block = [], None, line
        elif line.strip().startswith("--"):
            comment.append(line.strip().lstrip("-").strip())
        elif begins and not (now and now.has_parts and len(begins[1]) > now.indent):
            block = block if len(begins[1]) > len(block) - len(block.lstrip()) else ""
            now = made[begins[3]] = Definition(" ".join(comment), [line], len(begins[1]), bool(re.search("record|data", begins[2])), number, block)
            comment = []
        else:
            comment = []
            if now:
                now.lines.append(line)
    return made


def head(text):
    """Returns the comment that a file begins with, where imports or an empty line follow it."""
    lines = text.splitlines()
    count = next((at for at, it in enumerate(lines) if not it.startswith("--")), len(lines))
    follows = lines[count] if count < len(lines) else ""
    return "" if BEGINNING.match(follows) else " ".join(it.lstrip("-").strip() for it in lines[:count])


@functools.cache
def modules():
    """Returns the modules of all crates by crate and name, as Calendar of civil_time."""
    found = {}
    for file in sorted(CRATES.glob("*/specs/**/*.antt")):
        text, (crate, _, *parts) = file.read_text(encoding="utf-8"), file.relative_to(CRATES).with_suffix("").parts
        found[crate, ".".join(parts)] = Module(head(text), places(text), places(text, True), definitions(text))
    return found


def origin(module, name):
    """Returns the module that makes what another hands on, and its name there; a case is made by its data. None where nobody does."""
    known = modules().get(module)
    while known and name not in known.definitions:
        data = [it for it, made in known.definitions.items() if name in made.cases()]
        if data:
            return module, data[0]
        if name not in known.imports:
            return None
        module, name = known.imports[name]
        known = modules().get(module)
    return (module, name) if known else None


def parts(module, name):
    """Returns the definitions that one names, each by its module and name."""
    known = modules()[module]
    text = known.definitions[name].text()
    own = {(module, it) for it in named_in(text, {*known.definitions} - {name})}
    return own | {found for it in named_in(text, {*known.imports} - {name}) if (found := origin(*known.imports[it]))}


def beyond(found):
    """Returns what some definitions name that no file of specs here makes, each by its crate, module and name there."""
    known = [(modules()[module], modules()[module].definitions[name].text()) for module, name in found]
    return {(*made.beyond[it][0], made.beyond[it][1]) for made, text in known for it in named_in(text, made.beyond)}


def with_parts(roots):
    """Returns some definitions with all that they are made of, each by its module and name."""
    found, waiting = set(), [*roots]
    while waiting:
        it = waiting.pop()
        if it not in found:
            found.add(it)
            waiting += parts(*it)
    return found
