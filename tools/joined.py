"""Wrong bodies of several functions, tried in one check: the prover tells of each function by itself.

Most of what the check of one wrong body takes is the reading of what was proved below. So those of a crate are tried in as few rounds as no
function has two in one round, each round over a copy of the sources with all its mistakes. One is refused if the prover says of its own
function that a goal of it is not proved: that it calls a function that is not proved does not count. A round in which that is said of a
function without a mistake counts for nothing. What is not refused so (a mistake in a definition or a constant, a limit of the prover, a proof
that names what was taken away, and of course a mistake that is proved) is tried by itself, in a check of its own, and then the crate without a
mistake, which has to pass.
"""
import concurrent.futures, os, pathlib, re, shutil, subprocess, sys, tempfile

import part

# What a check takes of memory, in MB.
NEED = 5000
FUNCTION = re.compile(r"( *)(?:pub(?:\([^)]*\))? +)?(?:const +)?fn +(\w+)")
IMPL = re.compile(r"impl\b(?:<.*?>)? *(?:(?:\w+::)*(\w+)(?:<(?:&?(?:'\w+ )?(?:\w+::)*(\w+))?.*>)? +for +)?(?:\w+::)*(\w+)")
# What the prover says of a function that has no proof, and where an error of a proof stands.
TOLD = re.compile(r"fn (\S+): (no proof|not proved)\b(.*)")
ERROR = re.compile(r"\./proofs/(\S+)/\w+\.antt:\d+:\d+: error: (.*)")
# What it says of a proof that names what a mistake took away, and of a limit of its own.
NAMES = re.compile(r"has no field|is not in scope|has no `|was not admitted")
LIMIT = re.compile(r"ran out of|outgrew the memory limit|stopped at the step limit")


def toolchain():
    """Returns the toolchain's own module on crates, which knows the words of a check, or None where there is none."""
    rt = shutil.which("rt")
    folder = os.path.dirname(os.path.realpath(rt)) if rt else ""
    if not os.path.isfile(f"{folder}/rtlib.py"):
        return None
    sys.path.insert(0, folder)
    import rtlib
    return rtlib


class Mistake:
    """A wrong body: what it changes in which sources, and in which function, if it is in one."""

    def __init__(self, edit):
        self.edit, self.changes, old = edit, {}, ""
        for line in edit.read_text(encoding="utf-8").split("\n"):
            if line.startswith("file: "):
                pairs = self.changes.setdefault(line.removeprefix("file: "), [])
            elif line.startswith("old: "):
                old = line.removeprefix("old: ")
            elif line.startswith("new:"):
                pairs.append((old, line.removeprefix("new:").removeprefix(" ")))
        self.file, self.function, self.type, self.of = "", None, "", ()
        if len(self.changes) == 1:
            [(self.file, pairs)] = self.changes.items()
        if self.file.startswith("src/"):
            text = (edit.parent.parent / self.file).read_text(encoding="utf-8")
            found = {function_at(text, text.find(old)) for old, _ in pairs}
            self.function, self.type, self.of = found.pop() if len(found) == 1 else (None, "", ())

    def apply(self, folder):
        """Makes the mistake in the sources of a folder, and returns whether all that it takes away stood there once."""
        for name, pairs in self.changes.items():
            file = pathlib.Path(folder, name)
            text = file.read_text(encoding="utf-8") if file.is_file() else ""
            for old, new in pairs:
                if text.count(old) != 1:
                    return False
                text = text.replace(old, new)
            file.write_text(text, encoding="utf-8")
        return bool(self.changes)

    def is_of(self, path):
        """Returns whether the prover's path of a function is that of this one: its module, or that of its type, the type with the trait, its name."""
        _, *modules, name = path.split("::")
        if self.type:
            return name == self.function and bool(modules) and modules[-1] in (self.type, self.type + self.of[0], *self.of[1:])
        return name == self.function and modules == [it for it in self.file.removeprefix("src/").removesuffix(".rt").split("/") if it not in ("lib", "main")]


def function_at(text, at):
    """Returns the name of the function in whose body a place lies, or None; what the prover calls the type that it is of, if it is of one, with
    the trait; and what a trait is of, as `AllocError` of `From<AllocError>`, with which the prover's name may end."""
    start, function = text.rfind("\n", 0, at) + 1, None
    indent = len(text[start:]) - len(text[start:].lstrip(" "))
    for line in reversed(text[:start].split("\n")):
        found = None if function else FUNCTION.match(line)
        if found and len(found[1]) < indent:
            function, indent = found[2], len(found[1])
        if indent == 0 and function:
            return function, "", ()
        if function and line.startswith("impl"):
            # (its head may have several lines)
            head = " ".join(text[text.rfind(f"{line}\n", 0, at):].split("{")[0].split())
            of = IMPL.match(head)
            return (function, f"{of[3]}{of[1] or ''}", (of[2] or "", *spelled(head))) if of else (None, "", ())
    return None, "", ()


def spelled(head):
    """Returns the whole names that the prover may give an impl with this head: its type and then its trait, each with what it is of, without
    lifetimes and the impl's own parameters. A path goes by its last word, or by all, as `SqliteError` of `sqlite::Error`; and a type by itself
    has a plus sign before what it is of."""
    depth, end = 0, len("impl")
    for end in range(len("impl"), len(head)):
        depth += (head[end] == "<") - (head[end] == ">")
        if not depth:
            break
    own = {*re.findall(r"[<,] *(?:const )?(\w+)", head[:end])}
    trait, found, of = head[end + 1:].partition(" for ")
    paths = [it.split("::") for part in ((of, trait) if found else (trait,)) for it in re.findall(r"(?<![\w'])(?:\w+::)*\w+", part)]
    paths = [it for it in paths if it[-1] not in own]
    last = [it[-1] for it in paths]
    return ("".join(last), "".join(word[0].upper() + word[1:] for it in paths for word in it), "" if found else "+".join(last))


def rounds_of(mistakes):
    """Returns the mistakes that lie in a function, in as few rounds as no function has two in one."""
    rounds = []
    for it in mistakes:
        if it.function:
            free = [made for made in rounds if all((one.file, one.type, one.of, one.function) != (it.file, it.type, it.of, it.function) for one in made)]
            (free[0] if free else rounds.append([]) or rounds[-1]).append(it)
    return rounds


def refused_by(said, mistakes):
    """Returns which of these mistakes the prover refused, for each what it said, by all that it said of a check with them."""
    reasons, errors = {}, [ERROR.match(it) for it in said]
    for told in filter(None, map(TOLD.match, said)):
        place = told[1].partition("::")[2].replace("::", "/")
        own = [it[2] for it in errors if it and it[1] == place]
        # (of one that only calls what is not proved no goal is named)
        goals = re.search(r"did not prove `[^;]*", told[3])
        if own or goals:
            reasons[told[1]] = own + ([goals[0]] if goals else [])
    of = {path: [it for it in mistakes if it.is_of(path)] for path in reasons}
    if any(len(it) != 1 for it in of.values()):
        return {}
    return {of[path][0]: why[-1] for path, why in reasons.items() if not all(NAMES.search(it) for it in why) and not any(map(LIMIT.search, why))}


def checked(words, crate, mistakes, kept):
    """Returns what the prover says of a copy of a crate with these mistakes, over what it kept in a folder, and its status. None where one of
    them cannot be made."""
    with tempfile.TemporaryDirectory(prefix="archive-joined-") as room:
        for it in ("src", "specs", "proofs"):
            if (crate / it).is_dir():
                shutil.copytree(crate / it, f"{room}/{it}")
        if not all([it.apply(room) for it in mistakes]):
            return None
        how = {"cwd": room, "stdin": subprocess.DEVNULL, "stdout": subprocess.PIPE, "stderr": subprocess.STDOUT, "text": True, "errors": "replace"}
        ran = subprocess.run([*words, "--incremental", kept], check=False, **how)
        return ran.stdout.splitlines(), ran.returncode


def alone(words, crate, mistake, kept):
    """Returns what came of a wrong body by itself, in the words of `rt ci`."""
    found = checked(words, crate, [mistake], kept)
    if not found:
        return "BAD EDIT: what it takes away does not stand there once"
    said, status = found
    if not status:
        return "NOT REFUSED: the crate is still proved with this edit"
    if not said or not said[-1].startswith("logic=not-proved"):
        return f"BAD EDIT: it did not reach the prover: {' '.join(said)[:200]}"
    told = [it for it in said if ": error" in it or TOLD.match(it)]
    first = next((it for it in told if not NAMES.search(it)), None)
    return f"refused: {first[:160]}" if first else f"refused, but says little of the contract, as a proof names what it takes away: {' '.join(told)[:160]}"


def tried_of(rtlib, top, name, may_begin):
    """Returns what came of each wrong body of a crate, by the name of its file; and how many were refused with others. None where one more
    check may not begin."""
    crate, found = top / "crates" / name, {}
    words = [rtlib.RATTLE, "check", *rtlib.Crate(str(crate), str(top), {}).words(["--jobs", "1"], keeps=False)]
    mistakes = [Mistake(it) for it in sorted((part.CRATES / name / "must-fail").glob("*.edit"))]
    with tempfile.TemporaryDirectory(prefix="archive-joined-") as kept:
        for made in rounds_of(mistakes):
            if not may_begin():
                return None
            if ran := checked(words, crate, made, kept):
                found |= {it.edit.name: f"refused: {why}" for it, why in refused_by(ran[0], made).items()}
        together, rest = len(found), [it for it in mistakes if it.edit.name not in found]
        for it in rest:
            if not may_begin():
                return None
            found[it.edit.name] = alone(words, crate, it, kept)
        if rest and checked(words, crate, [], kept)[1]:
            found |= {it.edit.name: "BAD EDIT: the crate itself is not proved" for it in rest}
    return found, together


def tried_in(top, names, may_begin):
    """Returns the same of these crates of a repository that `rt ci` passed, by the names of the crates, several at a time, as memory allows; but
    for those of which a check may not begin any more."""
    rtlib = toolchain()
    with open("/proc/meminfo", encoding="ascii") as it:
        free = int(re.search(r"MemAvailable:\s+(\d+)", it.read())[1]) // 1024
    with concurrent.futures.ThreadPoolExecutor(max(1, min(os.cpu_count() or 1, free // NEED))) as pool:
        found = pool.map(lambda it: tried_of(rtlib, top, it, may_begin), names)
        return {name: it for name, it in zip(names, found) if it}
