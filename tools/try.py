#!/usr/bin/env python3
"""Tests the scripts beside this one and `check`, each by a table of cases, on small repositories that it makes and removes.

  try.py [WORD]     the cases of all scripts, or of those whose name has the word

Where a script calls the toolchain's command it gets a stand-in, which says what the case has it say and writes down what it was asked.
The last line is 'N passed, M failed'; status 0 where M is 0.
"""
import concurrent.futures, contextlib, hashlib, importlib.util, os, pathlib, re, shutil, subprocess, sys, tempfile

TOOLS = pathlib.Path(__file__).resolve().parent

# The stand-in of the toolchain's command: `ci` notes its words and the files that it was given, builds what `builds` names out of
# `program`, says what `says` holds (of wrong bodies only if it was given one), and ends with the number of `status`; `fmt` takes one of two
# spaces after `fn` away; beside the page that `doc` names lies a compiler, which makes an empty file. `try` notes its words, its input and the file of `--data`, writes
# what `writes` holds, says what `tells` holds, and ends with the number of `ends`.
STAND_IN = r'''#!/bin/sh
case $1 in
  version) cat "$STAND_IN/version";;
  fmt) sed -i 's/fn  /fn /g' src/*.rt;;
  ci) shift
    { for word in "$@"; do echo "$word"; done; find . -type f | sed 's|^\./||'; cat crates.txt; } > "$STAND_IN/asked"
    for name in $(cat "$STAND_IN/builds"); do
      mkdir -p "crates/$name/out"; cp "$STAND_IN/program" "crates/$name/out/$name"; chmod +x "crates/$name/out/$name"
    done
    if [ -n "$(find crates -name '*.edit')" ]; then cat "$STAND_IN/says"; else grep -v '^rt: must-fail' "$STAND_IN/says"; fi
    exit "$(cat "$STAND_IN/status")";;
  doc) echo "$STAND_IN/page.md";;
  try) shift
    { for word in "$@"; do echo "$word"; case $word in policy=*) cat "${word#policy=}";; esac; done; echo "in ${PWD##*/}"; cat; } >> "$STAND_IN/asked"
    cat "$STAND_IN/writes"; cat "$STAND_IN/tells" >&2
    exit "$(cat "$STAND_IN/ends")";;
esac
'''
COMPILER = '''#!/bin/sh
while [ "$1" != -o ]; do shift; done
: > "$2"
'''
# A program of worked calls: one growth of memory in each first call, and what it says where that is refused.
ROWS = '''#!/bin/sh
case $REFUSE in
  1 | 1+) echo "sift: Memory, exact true, then answer"; echo "base: Memory, then answer"; echo 1 1 >&9;;
  *) echo "sift: answer, exact true, then answer"; echo "base: answer, then answer"; echo 1 0 >&9;;
esac
'''

# What a trial says of a program that ended.
TRIED = "checked: ended status=0\nrun=ended status=0 runners=1 proved=no\n"

CHAIN = {
    "crates.txt": "# lowest first\nlow: memchr\nmiddle: low\nbeside: low\n# of tests\ntop tests=1: middle low sqlite\n",
    "HANDLES": "Handles allowed: none.\n",
    **{f"crates/{it}/src/lib.rt": f"// {it}\n" for it in ("low", "middle", "beside", "top")},
}
WITH_EDITS = {
    **CHAIN,
    "crates/low/must-fail/f.turns_it.edit": "file: src/lib.rt\n",
    "crates/low/must-fail/g.drops_it.edit": "file: src/lib.rt\n",
    "crates/middle/must-fail/h.counts_one_more.edit": "file: src/lib.rt\n",
}
REFUSED = "rt: must-fail {}: refused, as it must be (a clause is not proved)\n"
ALL_REFUSED = "".join(REFUSED.format(it) for it in ("low/f.turns_it.edit", "low/g.drops_it.edit", "middle/h.counts_one_more.edit"))


@contextlib.contextmanager
def repository(files, /, **told):
    """Gives a small repository with the scripts in it, and the place of the stand-in's texts."""
    with tempfile.TemporaryDirectory(prefix="archive-try-") as room:
        top, stand_in = pathlib.Path(room, "top"), pathlib.Path(room, "stand-in")
        shutil.copytree(TOOLS, top / "tools", ignore=shutil.ignore_patterns("__pycache__", "refused.txt", "clauses.txt", "wants.txt", "reached.txt", "try.py"))
        for name, text in files.items():
            (top / name).parent.mkdir(parents=True, exist_ok=True)
            (top / name).write_text(text, encoding="utf-8")
            (top / name).chmod(0o755 if text.startswith("#!") else 0o644)
        (stand_in / "toolchain" / "bin").mkdir(parents=True)
        usual = {"version": "kit of today", "says": "1 passed, 0 failed\n", "status": "0", "builds": "refused_rows", "program": ROWS,
            "writes": "", "tells": TRIED, "ends": "0"}
        for name, text in {**usual, "rt": STAND_IN, "toolchain/bin/clang": COMPILER, **told}.items():
            (stand_in / name).write_text(text, encoding="utf-8")
            (stand_in / name).chmod(0o755)
        yield top, stand_in


def run(top, stand_in, script, words, given=""):
    """Runs a script of the small repository on this input: its status, what it wrote, and what it wrote of faults."""
    known = {"PATH": f"{stand_in}:{os.environ['PATH']}", "STAND_IN": str(stand_in), "GIT_CEILING_DIRECTORIES": str(top.parent)}
    how = {"capture_output": True, "text": True, "input": given, "check": False}
    ran = subprocess.run([sys.executable, f"tools/{script}", *words], cwd=top, env={**os.environ, **known}, **how)
    return ran.returncode, ran.stdout, ran.stderr


def says(script, words, files, wanted, /, *lines, faults="", **told):
    """A case of a script that ends so and whose output has these lines; and the lines of its standard error, where some are given."""
    def holds():
        with repository(files, **told) as (top, stand_in):
            ended, output, errors = run(top, stand_in, script, words)
            wanting = [it for it in lines if it not in output.splitlines()] + ([faults] if faults not in errors else [])
            return [] if ended == wanted and not wanting else [f"status {ended}", *(f"lacks {it!r}" for it in wanting), output, errors]
    return holds


def is_silent(script, files):
    """A case of a script that finds nothing to say."""
    def holds():
        with repository(files) as (top, stand_in):
            ended = run(top, stand_in, script, [])
            return [] if ended == (0, "", "") else [str(ended)]
    return holds


def asks(script, words, files, given, kept_back, **told):
    """A case of a script that calls `rt ci` with what is given in its words and files, and with nothing that is kept back."""
    def holds():
        with repository(files, **told) as (top, stand_in):
            run(top, stand_in, script, words)
            asked = (stand_in / "asked").read_text(encoding="utf-8").splitlines()
            return [f"not given: {it}" for it in given if it not in asked] + [f"given: {it}" for it in kept_back if it in asked]
    return holds


# ---- part.py

PART = {
    "a crate alone": says("part.py", ["low"], CHAIN, 0, "low"),
    "what a crate stands on, lowest first": lambda: equal(output_of("part.py", ["top"], CHAIN), "low\nmiddle\ntop\n"),
    "what stands beside it is left": lambda: equal(output_of("part.py", ["middle"], CHAIN), "low\nmiddle\n"),
    "below by way of another": lambda: equal(output_of("part.py", ["c"], {"crates.txt": "a: x\nb: a\nc: b\n"}), "a\nb\nc\n"),
    "no such crate": says("part.py", ["none"], CHAIN, 1, faults="part: crates.txt has no crate none"),
    "a library of the toolchain is no crate": says("part.py", ["sqlite"], CHAIN, 1, faults="no crate sqlite"),
    "no word": says("part.py", [], CHAIN, 1, faults="part.py NAME"),
    "two words": says("part.py", ["low", "top"], CHAIN, 1, faults="part.py NAME"),
}


def output_of(script, words, files, **told):
    with repository(files, **told) as (top, stand_in):
        return run(top, stand_in, script, words)[1]


def equal(found, wanted):
    return [] if found == wanted else [f"found {found!r}", f"wanted {wanted!r}"]


# ---- build.py

BUILT = {"says": "rt: low proved\nrt: middle is kept: 3 files\nrt: ok\n1 passed, 0 failed\n", "builds": "middle", "program": "a program"}
MADE = {**CHAIN, "made": "of this\n", "tools/minutes.txt": "# minutes\nlow 2.0\nmiddle 6.0\n"}
TO_BUILD = ["log", "middle=made"]


def takes_the_program():
    """The program is there, can be run, and what it is made of is beside it; the log has what the toolchain said."""
    with repository(MADE, **BUILT) as (top, stand_in):
        ended, _, errors = run(top, stand_in, "build.py", TO_BUILD)
        out = top / "crates" / "middle" / "out"
        told = [ended == 0, (out / "middle").read_text() == "a program", os.access(out / "middle", os.X_OK),
                (out / "built-by-the-front-door").read_text() == "of this\n", len([*out.iterdir()]) == 2, not (top / "made").exists(),
                (top / "log").read_text() == BUILT["says"],
                re.findall(r"^archive: (.*?); (\d+) % of the work is done, after 0 minutes; some (\d+) more$", errors, re.M)
                == [("proved low (1 of 2)", "25", "2"), ("proved middle (2 of 2)", "100", "1")]]
        return [] if all(told) else [str(told), errors]


def leaves_the_old_program():
    """Where the gate fails the program that was there stays."""
    with repository({**MADE, "crates/middle/out/middle": "the old one"}, says="1 passed, 1 failed\n", status="1",
                    **{it: BUILT[it] for it in ("builds", "program")}) as (top, stand_in):
        ended = run(top, stand_in, "build.py", TO_BUILD)[0]
        return equal((ended, (top / "crates/middle/out/middle").read_text(), (top / "made").exists()), (1, "the old one", True))


def takes_an_early_program(writes, wanted):
    """A program that is named first is there though the gate fails, if it writes what it has to."""
    def holds():
        files = {**MADE, "crates/low/stdin": "in\n", "crates/low/stdout": "in\n"}
        with repository(files, says="rt: low proved\n1 passed, 1 failed\n", status="1", builds="low", program=f"#!/bin/sh\n{writes}\n") as (top, stand_in):
            ended, _, errors = run(top, stand_in, "build.py", ["log", "low=made", "middle=other"])
            out = top / "crates" / "low" / "out"
            return equal((ended, (out / "low").exists(), (out / "built-by-the-front-door").exists(), "archive: ./archive low runs from here on\n" in errors), wanted)
    return holds


def schedule(takes, below, lanes, wanted):
    """A case of how long crates take, so many side by side."""
    def holds():
        with tools() as build:
            return equal(build.span({it: {*below.get(it, "")} for it in takes}, takes, lanes), wanted)
    return holds


def never_rises():
    """What is said to be left never rises, however long it takes; and what is kept counts for nothing."""
    with tools() as build, repository(MADE) as (top, _):
        build.part.ROOT = top
        work = build.Work(["low", "middle"], {"low": 2.0, "middle": 6.0}, 4)
        said = [work.left(0)]
        for at in (1, 2, 30, 60):
            said.append(work.left(at))
        work.take("low", False, 60)
        said.append(work.left(60))
        work.take("middle", True, 61)
        said.append(work.left(61))
        return equal((said == sorted(said, reverse=True), said[0], said[-1], work.share()), (True, 8.0, 1, 1.0))


@contextlib.contextmanager
def tools():
    """Gives the module of build.py, as one of its own."""
    sys.path.insert(0, str(TOOLS))
    try:
        spec = importlib.util.spec_from_file_location("build", TOOLS / "build.py")
        module = importlib.util.module_from_spec(spec)
        spec.loader.exec_module(module)
        yield module
    finally:
        sys.path.remove(str(TOOLS))


BUILD = {
    "the program is taken": takes_the_program,
    "a gate that fails leaves the old one": leaves_the_old_program,
    "a program that is named first is there before": takes_an_early_program("cat", (1, True, True, True)),
    "unless it writes something else": takes_an_early_program("echo out", (1, False, False, False)),
    "why it fails is said": says("build.py", TO_BUILD, MADE, 1, faults="archive: what failed, and why (what was said before says more):\n"
        "  low: src/lib.rt:3:1: error: not so\n  rt: low NOT PROVED\n",
        says="== low\nsrc/lib.rt:3:1: error: not so\n  more of it\nrt: low NOT PROVED\n0 passed, 1 failed\n", status="1", builds=""),
    "the copy holds the crates below alone": asks("build.py", TO_BUILD, {**WITH_EDITS, "made": ""},
        ["crates/low/src/lib.rt", "crates/middle/src/lib.rt", "low: memchr", "middle: low", "HANDLES"],
        ["crates/beside/src/lib.rt", "crates/top/src/lib.rt", "beside: low", "crates/low/must-fail/f.turns_it.edit"], **BUILT),
    "and those below each program": asks("build.py", ["log", "beside=other", *TO_BUILD[1:]], MADE,
        ["crates/low/src/lib.rt", "crates/middle/src/lib.rt", "crates/beside/src/lib.rt"], ["crates/top/src/lib.rt"], **BUILT),
    "what a check left is not copied": asks("build.py", TO_BUILD, {**MADE, "crates/low/out/kept": ""},
        ["crates/low/src/lib.rt"], ["crates/low/out/kept"], **BUILT),
    "a folder out further in is copied": asks("build.py", TO_BUILD, {**MADE, "crates/low/proofs/out/F.antt": ""},
        ["crates/low/proofs/out/F.antt"], [], **BUILT),
    "one word": says("build.py", ["log"], CHAIN, 1, faults="build.py LOG NAME=MADE"),
    "crates side by side": schedule({"a": 2.0, "b": 3.0}, {}, 2, 3.0),
    "one after the other": schedule({"a": 2.0, "b": 3.0}, {}, 1, 5.0),
    "one above the other": schedule({"a": 2.0, "b": 3.0}, {"b": "a"}, 4, 5.0),
    "the longest chain first": schedule({"a": 1.0, "b": 3.0, "c": 3.0}, {"c": "a"}, 1, 7.0),
    "what stands on two waits for both": schedule({"a": 1.0, "b": 4.0, "c": 2.0}, {"c": "ab"}, 2, 6.0),
    "nothing": schedule({}, {}, 2, 0.0),
    "what is left never rises": never_rises,
}


# ---- gate.py, with due.py

def recorded(names, version="kit of today", **changed):
    """The repository with a record of these crates, made over the files, and then with these changed."""
    lines = []
    for name in names:
        own, folder = hashlib.sha256(version.encode()), f"crates/{name}/"
        for file in sorted(it for it in WITH_EDITS if it.startswith(folder)):
            text = "".join(it for it in WITH_EDITS[file].splitlines(keepends=True) if not (file.endswith(".rt") and it.startswith("//")))
            own.update(repr((file.removeprefix(folder), text.encode())).encode())
        # (its source is a comment, so it has no statement)
        low = hashlib.sha256(repr(("src/lib.rt", [], [])).encode()).hexdigest()
        own.update(repr([("low", low)] if name == "middle" else []).encode())
        lines.append(f"{name} {own.hexdigest()}\n")
    return {**WITH_EDITS, "tools/refused.txt": "".join(lines), **changed}


def picked(names):
    """Those of the crates that are tried whatever the record says, where there is no history."""
    by = hashlib.sha256(WITH_EDITS["crates.txt"].encode()).hexdigest()
    return [it for it in names if int(hashlib.sha256(f"{by} {it}".encode()).hexdigest(), 16) % 10 == 0]


def in_turn(names):
    """The crates in the order in which their wrong bodies are tried, where there is no history."""
    by = hashlib.sha256(WITH_EDITS["crates.txt"].encode()).hexdigest()
    return sorted(names, key=lambda it: hashlib.sha256(f"{by} {it}".encode()).hexdigest())


# Three crates of 150 wrong bodies each.
MANY = {**CHAIN, **{f"crates/{it}/must-fail/f.is{n}.edit": "file: src/lib.rt\n" for it in ("low", "middle", "beside") for n in range(150)}}


def records_what_was_refused(says_of, wanted, files=WITH_EDITS):
    """A run with --record writes down the crates of which all wrong bodies were refused for what they do."""
    def holds():
        with repository(files, says=f"{says_of}9 passed, 0 failed\n") as (top, stand_in):
            run(top, stand_in, "gate.py", ["--record"])
            return equal([it.split()[0] for it in (top / "tools/refused.txt").read_text().splitlines()], wanted)
    return holds


def records_minutes():
    """A run with --record writes down how long each crate took that was proved, leaves the lines of the others, and makes the tables of GATE."""
    says_of = "rt: low proved\nrt: middle is kept: an earlier run\nrt: top proved\nrt: top: its tests are proved\n1 passed, 0 failed\n"
    page = "text\n\n<!-- by tools/minutes.py -->\n<!-- end of what tools/minutes.py wrote -->\n"
    with repository({**CHAIN, "docs/GATE.md": page, "tools/minutes.txt": "# text\nmiddle 2.0\nlow 7.5 2026-01-01\ngone 1.0\n"}, says=says_of) as (top, stand_in):
        run(top, stand_in, "gate.py", ["--record"])
        written = [it.split() for it in (top / "tools" / "minutes.txt").read_text(encoding="utf-8").splitlines() if not it.startswith("#")]
        checked, said, _ = run(top, stand_in, "minutes.py", [])
        made = (top / "docs" / "GATE.md").read_text(encoding="utf-8")
    return equal(([it[:2] for it in written], [len(it) for it in written], checked, "| Processors | 1 | 2 | 4 | 8 |" in made),
        ([["low", "0.1"], ["middle", "2.0"], ["top", "0.1"]], [3, 2, 3], 0, True))


def record_is_believed():
    """What was recorded over the same text is left the next time, but for what is picked; the digest is the same here and there."""
    with repository(WITH_EDITS, says=f"{ALL_REFUSED}9 passed, 0 failed\n") as (top, stand_in):
        run(top, stand_in, "gate.py", ["--record"])
        return equal((top / "tools/refused.txt").read_text(), recorded(["low", "middle"])["tools/refused.txt"])


WHY = "check: what failed, and why (what was said before says more):"
ROWS_FAIL = "  check: worked calls under refused growths of memory: refused_rows was not built, or did not come to its answers"


def ends(script, files, wanted, edits=0, **told):
    """A case of a script that fails and says these lines before the two of its counts."""
    def holds():
        said = output_of(script, [], files, **told).splitlines()
        return equal(said[-2 - len(wanted):-1], [*wanted, f"check: {edits} wrong bodies tried or kept; 0 processor minutes"])
    return holds


# A module on crates beside the stand-in, and a prover that notes the source that it gets and says what `proves` holds, of a source that was changed
# and comes after so many rounds what `alone` holds.
CRATES_MODULE = """import os
RATTLE = os.environ["STAND_IN"] + "/rattle"
class Crate:
    def __init__(self, folder, root, known): pass
    def words(self, flags, keeps): return flags
"""
PROVER = """#!/bin/sh
{ echo ==; cat src/lib.rt; } >> "$STAND_IN/tried"
if [ "$(grep -c == "$STAND_IN/tried")" -le "$(cat "$STAND_IN/rounds")" ]; then cat "$STAND_IN/proves"; exit 1; fi
if cmp -s src/lib.rt "$STAND_IN/whole"; then exit "$(cat "$STAND_IN/sound")"; fi
cat "$STAND_IN/alone"
! grep -q logic=not-proved "$STAND_IN/alone"
"""
BODIES = {
    **CHAIN,
    "crates/low/src/lib.rt": "fn f() -> u8\n ensures { IsOne result }\n{\n 1\n}\n\npub fn g() -> u8 {\n f() + 2\n}\n\nconst MOST: u8 = 9;\n",
    "crates/low/must-fail/f.is_three.edit": "file: src/lib.rt\nold:  1\nnew:  3\n",
    "crates/low/must-fail/g.adds_four.edit": "file: src/lib.rt\nold: f() + 2\nnew: f() + 4\n",
}
EDITS = ["crates/low/must-fail/f.turns_it.edit", "crates/low/must-fail/g.drops_it.edit"]
OTHER_EDIT = "crates/middle/must-fail/h.counts_one_more.edit"
LITTLE = "rt: must-fail low/f.turns_it.edit: refused, as it must be, but it says little of the contract\n"


def keeps_its_line():
    """A crate that is due and put off for its minutes is not noted, and is named."""
    told = {"rtlib.py": CRATES_MODULE, "rattle": PROVER, "says": "9 passed, 0 failed\n"}
    with repository({**BODIES, "tools/refused.txt": "low of-before\n"}, **told) as (top, stand_in):
        _, output, _ = run(top, stand_in, "gate.py", ["--record", "--minutes", "0"])
        return equal(((top / "tools" / "refused.txt").read_text(encoding="utf-8"), "check: put off the 2 wrong bodies of low, which stay due" in output),
            ("low of-before\n", True))


GATE = {
    "all passes": says("gate.py", [], WITH_EDITS, 0, "10 passed, 0 failed", "check: 3 wrong bodies tried or kept; 0 processor minutes",
        says=f"rt: ok\n{ALL_REFUSED}9 passed, 0 failed\n"),
    "nothing is said of why where all passes": lambda: equal("what failed" in output_of("gate.py", [], WITH_EDITS,
        says=f"{ALL_REFUSED}9 passed, 0 failed\n"), False),
    "the count is the last line": lambda: equal(output_of("gate.py", [], CHAIN, says="rt: ok\n4 passed, 0 failed\n").splitlines()[-1],
        "5 passed, 0 failed"),
    "a proof that fails": says("gate.py", [], CHAIN, 1, "4 passed, 1 failed", says="3 passed, 1 failed\n", status="1"),
    "why it fails stands at the end": ends("gate.py", CHAIN, [WHY, *(f"  {it}" for it in (
        "middle: src/lib.rt:3:1: error: not so", "fn middle::f: not proved", "rt: middle NOT PROVED", "rt: FAILED: middle"))],
        says="== low\nrt: low proved\n== middle\nsrc/lib.rt:3:1: error: not so\n  more of it\nfn middle::f: not proved\n"
             "rt: middle NOT PROVED\nrt: FAILED: middle\n3 passed, 1 failed\n", status="1"),
    "a long line of it is cut": ends("gate.py", CHAIN, [WHY, "  " + "rt: " + "x" * 236 + " .."], says=f"rt: {'x' * 300}\n3 passed, 1 failed\n", status="1"),
    "so are many": ends("gate.py", CHAIN, [WHY, *["  rt: no"] * 40, "  and 2 lines more"], says="rt: no\n" * 42 + "3 passed, 1 failed\n", status="1"),
    "a run that fails and counts nothing": says("gate.py", [], CHAIN, 1, "1 passed, 1 failed", "rt: no room", says="rt: no room\n", status="1"),
    "a run that says nothing": says("gate.py", [], CHAIN, 1, "1 passed, 1 failed", says=""),
    "a run that counts no failure and fails": says("gate.py", [], CHAIN, 1, "4 passed, 1 failed", says="3 passed, 0 failed\n", status="1"),
    "a count with more behind it": says("gate.py", [], CHAIN, 1, "1 passed, 1 failed", says="3 passed, 0 failed (of some)\n"),
    "no program of worked calls": says("gate.py", [], CHAIN, 1, "4 passed, 1 failed", ROWS_FAIL, says="4 passed, 0 failed\n", builds=""),
    "a worked call that comes to another answer": says("gate.py", [], CHAIN, 1, "4 passed, 1 failed", ROWS_FAIL, "FAILED growth 1: sift: answer, exact false, then answer",
        says="4 passed, 0 failed\n", program=ROWS.replace("Memory, exact true", "answer, exact false")),
    "fewer wrong bodies than are due": says("gate.py", [], WITH_EDITS, 1, "  check: of 3 wrong bodies that are due 1 were heard of",
        "10 passed, 1 failed", says=REFUSED.format("low/f.turns_it.edit") + "9 passed, 0 failed\n"),
    "a wrong body that cannot be applied": says("gate.py", [], WITH_EDITS, 1, "10 passed, 1 failed",
        "  rt: must-fail low/f.turns_it.edit: BAD EDIT (a clause is not proved)",
        says=ALL_REFUSED.replace("low/f.turns_it.edit: refused, as it must be", "low/f.turns_it.edit: BAD EDIT") + "9 passed, 0 failed\n"),
    "a wrong body that is proved": ends("gate.py", WITH_EDITS, [WHY, "  rt: must-fail low/g.drops_it.edit: NOT REFUSED: still proved", "  rt: FAILED: low/g.drops_it.edit"],
        says=ALL_REFUSED.replace(REFUSED.format("low/g.drops_it.edit"), "rt: must-fail low/g.drops_it.edit: NOT REFUSED: still proved\n")
             + "rt: FAILED: low/g.drops_it.edit\n8 passed, 1 failed\n", status="1", edits=3),
    "one that is refused is no reason, whatever the prover said of it": ends("gate.py", WITH_EDITS, [WHY, "  rt: FAILED: top (run)"],
        says=ALL_REFUSED.replace("be (a clause is not proved)", "be: ./proofs/f/Answers.antt:1:2: error: `returns`: no") + "rt: FAILED: top (run)\n8 passed, 1 failed\n",
        status="1", edits=3),
    "a wrong body that shows little": says("gate.py", [], WITH_EDITS, 0,
        "check: low/f.turns_it.edit shows little of a contract: change a value, and keep the names", "10 passed, 0 failed",
        says=ALL_REFUSED.replace(REFUSED.format("low/f.turns_it.edit"), LITTLE) + "9 passed, 0 failed\n"),
    "a file that is not laid out": says("gate.py", [], {**CHAIN, "crates/low/src/lib.rt": "fn  f"}, 1, "check: run rt fmt in low",
        "0 passed, 1 failed"),
    "an unknown word": says("gate.py", ["--al"], CHAIN, 1, faults="check: unknown: --al"),
    "--anew is handed on": asks("gate.py", ["--anew"], WITH_EDITS, ["--anew"], []),
    "else it is not": asks("gate.py", [], WITH_EDITS, [], ["--anew"]),
    "without a record all wrong bodies are due": asks("gate.py", [], WITH_EDITS, EDITS, []),
    "a crate whose text is as recorded is left, unless it is picked": asks("gate.py", [], recorded(["low", "middle"]),
        [*(EDITS if picked(["low"]) else []), "crates/low/src/lib.rt"], [] if picked(["low"]) else EDITS),
    "it says what it leaves": says("gate.py", [], recorded(["low"]), 1,
        *([] if picked(["low"]) else ["check: left the 2 wrong bodies of low, whose text is as recorded"])),
    "--all leaves nothing": asks("gate.py", ["--all"], recorded(["low", "middle"]), EDITS, []),
    "after 200 wrong bodies a crate is put off": asks("gate.py", [], MANY, [f"crates/{it}/must-fail/f.is7.edit" for it in in_turn(["low", "middle", "beside"])[:2]],
        [f"crates/{in_turn(['low', 'middle', 'beside'])[2]}/must-fail/f.is7.edit"]),
    "it says which": says("gate.py", [], MANY, 1, f"check: put off the 150 wrong bodies of {in_turn(['low', 'middle', 'beside'])[2]}, which stay due: "
        "one run takes no more crates after 200 wrong bodies, or where it has taken long"),
    "after some minutes all are put off": says("gate.py", ["--minutes", "0"], BODIES, 0, "10 passed, 0 failed",
        *(f"check: put off the {n} wrong bodies of {it}, which stay due: one run takes no more crates after 200 wrong bodies, or where it has taken long" for it, n in (("low", 2),)),
        says="9 passed, 0 failed\n", **{"rtlib.py": CRATES_MODULE, "rattle": PROVER}),
    "minutes that are no number": says("gate.py", ["--minutes", "x"], CHAIN, 1, faults="check: --minutes takes a number, not x\n"),
    "no minutes": says("gate.py", ["--all", "--minutes"], CHAIN, 1, faults="check: --minutes takes a number\n"),
    "an option in their place": says("gate.py", ["--minutes", "--all"], CHAIN, 1, faults="check: --minutes takes a number, not --all\n"),
    "minutes count with --all": says("gate.py", ["--all", "--minutes", "0"], BODIES, 0, "10 passed, 0 failed",
        "check: put off the 2 wrong bodies of low: one run takes no more crates after 200 wrong bodies, or where it has taken long",
        says="9 passed, 0 failed\n", **{"rtlib.py": CRATES_MODULE, "rattle": PROVER}),
    "with --record what they put off keeps its line": keeps_its_line,
    "with --anew they are refused": says("gate.py", ["--anew", "--minutes", "9"], CHAIN, 1, faults="check: --minutes does not go with --anew"),
    "--all with minutes puts none off for their number": asks("gate.py", ["--all", "--minutes", "9"], MANY,
        [f"crates/{it}/must-fail/f.is7.edit" for it in ("low", "middle", "beside")], []),
    "--all puts none off": asks("gate.py", ["--all"], MANY, [f"crates/{it}/must-fail/f.is7.edit" for it in ("low", "middle", "beside")], []),
    "a crate whose code changed is due": asks("gate.py", [], recorded(["low"], **{"crates/low/src/lib.rt": "// low\nfn f() {}\n"}), EDITS, []),
    "a clause of a crate below makes a crate due": asks("gate.py", [], recorded(["low", "middle"], **{"crates/low/src/lib.rt": "fn f()\n ensures { IsOne result }\n{\n}\n"}), [*EDITS, OTHER_EDIT], []),
    "a definition of one does": asks("gate.py", [], recorded(["low", "middle"], **{"crates/low/specs/A.antt": "is_one = refl\n"}), [*EDITS, OTHER_EDIT], []),
    "a body of one does not": asks("gate.py", [], recorded(["low", "middle"], **{"crates/low/src/lib.rt": "fn f() {\n 1\n}\n"}), EDITS, [] if picked(["middle"]) else [OTHER_EDIT]),
    "a comment makes nothing due": asks("gate.py", [], recorded(["low"], **{"crates/low/src/lib.rt": "// low\n/// new\n"}),
        EDITS if picked(["low"]) else [], [] if picked(["low"]) else EDITS),
    "one behind code does": asks("gate.py", [], recorded(["low"], **{"crates/low/src/lib.rt": "use low; // new\n"}), EDITS, []),
    "a crate whose definitions changed is due": asks("gate.py", [], recorded(["low"], **{"crates/low/specs/A.antt": ""}), EDITS, []),
    "a crate whose proofs changed is due": asks("gate.py", [], recorded(["low"], **{"crates/low/proofs/f/A.antt": ""}), EDITS, []),
    "a crate with a wrong body more is due": asks("gate.py", [], recorded(["low"], **{"crates/low/must-fail/n.edit": ""}), EDITS, []),
    "what a program reads makes nothing due": asks("gate.py", [], recorded(["low"], **{"crates/low/stdin": "x"}),
        EDITS if picked(["low"]) else [], [] if picked(["low"]) else EDITS),
    "another toolchain makes all due": asks("gate.py", [], recorded(["low"], version="kit of yesterday"), EDITS, []),
    "all refused: both recorded": records_what_was_refused(ALL_REFUSED, ["low", "middle"]),
    "one that shows little: its crate is not": records_what_was_refused(ALL_REFUSED.replace(REFUSED.format("low/f.turns_it.edit"), LITTLE), ["middle"]),
    "one that is proved: its crate is not": records_what_was_refused(
        ALL_REFUSED.replace("middle/h.counts_one_more.edit: refused, as it must be", "middle/h.counts_one_more.edit: NOT REFUSED"), ["low"]),
    "a crate that was recorded loses its line": records_what_was_refused(
        ALL_REFUSED.replace("low/g.drops_it.edit: refused, as it must be", "low/g.drops_it.edit: NOT REFUSED"), ["middle"],
        recorded(["low"], **{"crates/low/src/lib.rt": "fn f() {}\n"})),
    "the record's digest": record_is_believed,
    "the minutes": records_minutes,
}


# ---- joined.py, as gate.py calls it

F_FAILS = "fn low::f: no proof: expected answers in ./proofs/lib/f/Answers.antt; `search` did not prove `returns`\n"
G_FAILS = "./proofs/g/Answers.antt:3:1: error: `returns`: expected type\nfn low::g: not proved; it calls `low::f`, which is not proved\n"


def tries(proves, refused_together, alone, files=BODIES, words=(), sources=None, rounds=1, says_of="f: error: not so\nlogic=not-proved\n", fails=0, sound="0"):
    """A case of wrong bodies in one check, in which the prover says this: how many count as refused, and which are tried by themselves, of which
    it says this; what the prover got of the source, if that is told; and how many failed. With --anew `rt ci` is given them."""
    def holds():
        said = "".join(REFUSED.format(f"low/{it}") for it in alone) if words else ""
        told = {"rtlib.py": CRATES_MODULE, "rattle": PROVER, "proves": proves, "rounds": str(rounds), "alone": says_of, "sound": sound, "whole": files["crates/low/src/lib.rt"]}
        with repository(files, says=f"{said}9 passed, 0 failed\n", **told) as (top, stand_in):
            _, output, _ = run(top, stand_in, "gate.py", words)
            asked = (stand_in / "asked").read_text(encoding="utf-8").splitlines()
            given = sorted(it.rpartition("/")[2] for it in asked if it.endswith(".edit"))
            found = re.findall(r"check: (\d+) of the \d+ wrong bodies of low", output)
            got = (stand_in / "tried").read_text(encoding="utf-8").split("==\n")[1:] if not words else []
            # (behind those that were tried by themselves the crate without a mistake is tried)
            by_itself = max(0, len(got) - rounds - 1)
            return equal((found, given, by_itself, got[:rounds] if sources is not None else None, re.findall(r"\d+ failed", output)),
                         ([] if words else [str(refused_together)], sorted(alone) if words else [], 0 if words else len(alone), sources, [f"{fails} failed"]))
    return holds


def with_mistakes(**mistakes):
    """The source of these bodies with some of its lines changed."""
    text = BODIES["crates/low/src/lib.rt"]
    for old, new in mistakes.values():
        text = text.replace(old, new)
    return text


F_EDIT, G_EDIT = "f.is_three.edit", "g.adds_four.edit"
TOO_HIGH = {**BODIES, "crates/low/must-fail/MOST.is_ten.edit": "file: src/lib.rt\nold: = 9;\nnew: = 10;\n"}
TWICE_F = {**BODIES, "crates/low/must-fail/f.is_zero.edit": "file: src/lib.rt\nold:  1\nnew:  0\n"}
FROM = {**BODIES, "crates/low/src/lib.rt": BODIES["crates/low/src/lib.rt"] + "\nimpl From<core::AllocError> for Low {\n    fn from(e: AllocError) -> Low {\n        LOW\n    }\n}\n",
    "crates/low/must-fail/from.is_high.edit": "file: src/lib.rt\nold:         LOW\nnew:         HIGH\n"}
FROM_FAILS = "fn low::{}::from: not proved; `search` did not prove `returns`\n"
HELD = {**BODIES, "crates/low/src/lib.rt": BODIES["crates/low/src/lib.rt"] + "\nimpl<'a, R: Reads<u8>> Files<Store<Low>>\n    for Held<'a, R, Low> {\n    fn open(e: u8) -> Low {\n        LOW\n    }\n}\n",
    "crates/low/must-fail/open.is_high.edit": "file: src/lib.rt\nold:         LOW\nnew:         HIGH\n"}
ALONE = {path: it.replace("impl<'a, R: Reads<u8>> Files<Store<Low>>\n    for Held<'a, R, Low> {", "impl<'a, R: Reads<u8>> Held<'a, R, Low> {") for path, it in HELD.items()}
IN_ONE_CHECK = {
    "the trait's argument ends the name of an impl": tries(F_FAILS + G_FAILS + FROM_FAILS.format("LowFromAllocError"), 3, [], files=FROM),
    "or with the module that it is named by": tries(F_FAILS + G_FAILS + FROM_FAILS.format("LowFromCoreAllocError"), 3, [], files=FROM),
    "an impl of another argument is another": tries(F_FAILS + G_FAILS + FROM_FAILS.format("LowFromError"), 0, ["from.is_high.edit", F_EDIT, G_EDIT], files=FROM),
    "an impl whose head takes two lines has its whole name": tries(F_FAILS + G_FAILS + FROM_FAILS.format("HeldLowFilesStoreLow").replace("::from", "::open"), 3, [], files=HELD),
    "an impl of a type by itself has a plus sign before its argument": tries(F_FAILS + G_FAILS + FROM_FAILS.format("Held+Low").replace("::from", "::open"), 3, [], files=ALONE),
    "two functions are tried in one check": tries(F_FAILS + G_FAILS, 2, [], sources=[with_mistakes(f=("\n 1\n", "\n 3\n"), g=("+ 2", "+ 4"))]),
    "one that is proved is tried by itself": tries(F_FAILS + "fn low::g: proved\n", 1, [G_EDIT]),
    "and where it is proved, that has failed": tries(F_FAILS + "fn low::g: proved\n", 1, [G_EDIT], says_of="logic=proved\n", fails=1),
    "so has one that the prover cannot read": tries(F_FAILS + "fn low::g: proved\n", 1, [G_EDIT], says_of="error: no such word\n", fails=1, sound="0"),
    "so have those of a crate that is not proved without them": tries(F_FAILS + "fn low::g: proved\n", 1, [G_EDIT], fails=1, sound="1"),
    "so is one that only calls what is not proved": tries(F_FAILS + "fn low::g: no proof: it calls `low::f`, which is not proved\n", 1, [G_EDIT]),
    "a function without a mistake that fails": tries(F_FAILS + G_FAILS + F_FAILS.replace("::f", "::h"), 0, [F_EDIT, G_EDIT]),
    "a check that says nothing of functions": tries("error[x]: no such thing\nlogic=not-proved\n", 0, [F_EDIT, G_EDIT]),
    "a proof that names what was taken away": tries(F_FAILS + G_FAILS.replace("expected type", "`c.f` has no field 0"), 1, [G_EDIT]),
    "a limit of the prover": tries(F_FAILS + G_FAILS.replace("expected type", "antt ran out of memory"), 1, [G_EDIT]),
    "a constant is tried by itself": tries(F_FAILS + G_FAILS, 2, ["MOST.is_ten.edit"], files=TOO_HIGH),
    "two mistakes of one function take two checks": tries(F_FAILS, 2, [G_EDIT], files=TWICE_F, rounds=2,
        sources=[with_mistakes(f=("\n 1\n", "\n 3\n"), g=("+ 2", "+ 4")), with_mistakes(f=("\n 1\n", "\n 0\n"))]),
    "--anew tries each by itself": tries(F_FAILS + G_FAILS, 0, [F_EDIT, G_EDIT], words=["--anew"]),
}


# ---- trial.py

SIFT = ["middle", "here is how", "sift"]
UNPROVED = "archive: a trial answers, which is compiled now, in minutes, and is not proved; here is how\n"


def answers(words, wanted, given="", files=CHAIN, /, **told):
    """A case of a trial: its status, output and faults behind the first line of them."""
    def holds():
        with repository(files, **told) as (top, stand_in):
            ended, output, errors = run(top, stand_in, "trial.py", words, given)
            return equal((ended, output, errors), (*wanted[:2], UNPROVED + wanted[2]))
    return holds


def hands_on(words, wanted, given="", files=CHAIN):
    """A case of a trial that calls `rt try` so: its words, the policy behind its own, where it stands, and its input."""
    def holds():
        with repository(files) as (top, stand_in):
            run(top, stand_in, "trial.py", words, given)
            asked = (stand_in / "asked").read_text(encoding="utf-8")
            return equal(re.sub(r"=/\S*/archive-trial-[^/]*/", "=", asked), wanted)
    return holds


REFUSES = "checked: ended status=1\nrun=ended status=1 runners=1 proved=no\n"
TRIAL = {
    "what the program writes goes on, to the byte": answers(SIFT, (0, "a\n\nb", ""), writes="a\n\nb"),
    "so does what it says, and its status": answers(SIFT, (1, "", "archive: F1 Read\n"), tells="archive: F1 Read\n" + REFUSES),
    "what it says last without an end of a line": answers(SIFT, (1, "", "archive: F1"), tells="archive: F1" + REFUSES),
    "a program that says what a trial says": answers(SIFT, (0, "", TRIED), tells=TRIED + TRIED),
    "an answer that is too long": answers(SIFT, (75, "", "archive: the answer has more than 1 MiB, and a trial gives no more; here is how\n"), writes="From",
        tells="checked: no-answer: the program wrote more than 1048576 bytes to standard output or to standard error, the limit on each\nrun=no-answer proved=no\n"),
    "a fault": answers(SIFT, (75, "", "archive: the trial came to no answer: checked: fault: index; here is how\n"), writes="From",
        tells="checked: fault: index\nrun=fault runners=1 proved=no\n"),
    "a source that is refused": answers(SIFT, (1, "", "archive: the trial came to no answer: src/main.rt:1:1: error: no such name; here is how\n"),
        tells="src/main.rt:1:1: error: no such name\nrun=none proved=no\n", ends="1"),
    "a trial that fails itself": answers(SIFT, (75, "", "archive: the trial came to no answer: run=none proved=no; here is how\n"),
        tells="run=none proved=no\n", ends="2"),
    "a trial that says nothing": answers(SIFT, (75, "", "archive: the trial came to no answer: it said nothing; here is how\n"), tells=""),
    "words and input": hands_on([*SIFT, "--day", "2003-03-20"], "--seconds\n600\n--\nsift\n--day\n2003-03-20\nin middle\nFrom a\n", "From a\n"),
    "no words": hands_on(SIFT[:2], "--seconds\n600\n--\nin middle\n"),
    "a policy": hands_on([*SIFT, "--policy", "own.toml"], "--seconds\n600\n--data\npolicy=policy\nallow = 1\n--\nsift\n--policy\npolicy\nin middle\n",
        "", {**CHAIN, "own.toml": "allow = 1\n"}),
    "one behind the sign =": hands_on([*SIFT, "--policy=a=b.toml"], "--seconds\n600\n--data\npolicy=policy\nallow = 2\n--\nsift\n--policy=policy\nin middle\n",
        "", {**CHAIN, "a=b.toml": "allow = 2\n"}),
    "one that is not there": hands_on([*SIFT, "--policy", "none.toml"], "--seconds\n600\n--\nsift\n--policy\npolicy\nin middle\n"),
    "an option without its file": hands_on([*SIFT, "--policy"], "--seconds\n600\n--\nsift\n--policy\nin middle\n"),
    "no such crate": says("trial.py", ["none", "how"], CHAIN, 1, faults="trial.py NAME"),
}


# ---- quick.py

TESTED = {
    "crates.txt": "low: memchr\nlow_tests: low\nshown: low\n",
    "crates/shown/status": "3\n",
    "HANDLES": "Handles allowed: none.\n",
    "crates/low/src/lib.rt": "fn f() {}\n",
    "crates/low_tests/src/lib.rt": "#[test]\nfn f() {}\n",
    "crates/shown/src/main.rt": "fn main() {}\n",
    "crates/shown/stdin": "in\n",
    "crates/shown/stdout": "test a::b ... ok\n",
    "crates/shown/args": "one\n",
    "crates/shown/data/a.toml": "x",
}
# (both of the stand-in's trials write the same)
PASSES = {"writes": "test a::b ... ok\n", "tells": "run=ended status=3 runners=1 proved=no\n"}
# Two crates of tests that are tried together, the second of which uses the first.
TOGETHER = {
    "crates.txt": "low: memchr\nstore_tests: low\nrun_tests: store_tests low\n",
    "HANDLES": "Handles allowed: none.\n",
    "crates/low/src/lib.rt": "fn f() {}\n",
    "crates/store_tests/src/lib.rt": "//! The store.\n#![tactic(auto)]\n\npub mod made;\n",
    "crates/store_tests/src/made.rt": "#[test]\nfn a() {}\n",
    "crates/run_tests/src/lib.rt": "//! Runs.\n#![tactic(auto)]\n\nmod b;\nmod c;\n",
    "crates/run_tests/src/b.rt": "use crate::c::d;\nuse store_tests::made::a;\nuse low::f;\n\n#[test]\nfn b() {}\n",
    "crates/run_tests/src/c.rt": "pub fn d() {}\n",
}
# A third, which uses both and is tried alone.
ABOVE = {
    **TOGETHER,
    "crates.txt": "low: memchr\nstore_tests: low\nrun_tests: store_tests low\nstored_tests: run_tests store_tests low\n",
    "crates/stored_tests/src/lib.rt": "use store_tests::made::a;\n\n#[test]\nfn c() {}\n",
}
# Two crates of tests whose cases others run, one by way of the other.
SHARED = {
    "crates.txt": "low: memchr\ndesk_tests: low\npages_tests: desk_tests\nmemory_tests: pages_tests\nstored_tests: desk_tests\n",
    **{f"crates/{it}/src/lib.rt": "pub fn f() {}\n" for it in ("low", "desk_tests", "pages_tests")},
    **{f"crates/{it}/src/lib.rt": "#[test]\nfn f() {}\n" for it in ("memory_tests", "stored_tests")},
}
# Two programs that are tried together, and a third whose `main` is of another kind.
PROGRAMS = {
    "crates.txt": "low: memchr\nsift: low\nprobe: low anyhow\nlisten_probe: low\n",
    "HANDLES": "Handles allowed: none.\n",
    "crates/low/src/lib.rt": "fn f() {}\n",
    "crates/sift/src/main.rt": "//! Sifts.\n#![tactic(auto)]\n\nmod a;\n\nfn main(rt: HostRuntime) -> ExitCode {\n    a::b(&rt)\n}\n",
    "crates/sift/src/a.rt": "use crate::c;\n",
    "crates/sift/status": "3\n",
    "crates/sift/stdin": "in\n",
    "crates/sift/stdout": "out\n",
    "crates/probe/src/main.rt": "fn main(rt: HostRuntime) -> anyhow::Result<()> {\n}\n",
    "crates/probe/args": "one\ntwo\n",
    "crates/probe/data/a.toml": "x",
    "crates/listen_probe/src/main.rt": "fn main() {}\n",
}
CASE = "case={} run=ended status={} runners=1 output={} proved=no\n"
ENDED = {"tells": f"{CASE.format('probe', 0, 'expected')}{CASE.format('sift', 3, 'expected')}cases=2 ended=2 fault=0 differs=0 no-answer=0 proved=no\n"}


def of_two(wanted, /, *lines, tells):
    """A case of two programs that are one, of which this is said."""
    return says("quick.py", ["sift", "probe"], PROGRAMS, wanted, *lines, tells=tells + "cases=2 proved=no\n")


def joined_by(joins, files, names):
    """The texts of the repository that a script makes of crates of another one, by their paths."""
    with repository({**files, "tools/joins.py": joins}) as (top, stand_in), tempfile.TemporaryDirectory() as room:
        at = pathlib.Path(room)
        (at / "crates.txt").write_text("low: memchr\n", encoding="utf-8")
        run(top, stand_in, "joins.py", [room, *names])
        return {str(it.relative_to(at)): it.read_text(encoding="utf-8") for it in at.glob("**/*") if it.is_file()}


def is_one_program():
    """Each program is a module of one, and a case of it: its name before its input, its words, and what it has to write."""
    joins = """import pathlib, sys
import quick
top, *names = sys.argv[1:]
quick.join_programs(pathlib.Path(top), names)
quick.put_cases(pathlib.Path(top, "cases"), names)
"""
    texts, source = joined_by(joins, PROGRAMS, ["sift", "probe"]), "crates/joined_program/src"
    root = texts.pop(f"{source}/main.rt")
    calls = ['"sift" => Ok(sift::main(rt)),', '"probe" => probe::main(rt).map(|()| ExitCode::SUCCESS),']
    return [f"lacks {it}" for it in ["mod sift;\nmod probe;\n", *calls] if it not in root] + equal(texts, {
        "crates.txt": "low: memchr\njoined_program: low anyhow\n",
        f"{source}/sift.rt": "//! Sifts.\n\nmod a;\n\npub fn main(rt: HostRuntime) -> ExitCode {\n    a::b(&rt)\n}\n",
        f"{source}/sift/a.rt": "use crate::sift::c;\n",
        f"{source}/probe.rt": "pub fn main(rt: HostRuntime) -> anyhow::Result<()> {\n}\n",
        "cases/sift": "sift\nin\n", "cases/sift.stdout": "out\n",
        "cases/probe": "probe\n", "cases/probe.stdout": "", "cases/probe.args": "one\ntwo\n",
    })


BOTH = {"writes": "test store_tests::a ... ok\ntest run_tests::b ... ok\n", "tells": "run=ended status=3 runners=1 proved=no\n"}


def is_joined():
    """Each crate is a module of one, and takes what it took, of itself and of another, out of a module."""
    joins = "import pathlib, sys\nimport quick\nquick.join(pathlib.Path(sys.argv[1]), sys.argv[2:])\n"
    source = "crates/joined_tests/src"
    return equal(joined_by(joins, TOGETHER, ["store_tests", "run_tests"]), {
        "crates.txt": "low: memchr\njoined_tests: low store_tests run_tests\n",
        f"{source}/lib.rt": "#[cfg(test)]\npub mod store_tests;\n#[cfg(test)]\npub mod run_tests;\n",
        f"{source}/store_tests.rt": "//! The store.\n\npub mod made;\n",
        f"{source}/store_tests/made.rt": "#[test]\nfn a() {}\n",
        f"{source}/run_tests.rt": "//! Runs.\n\nmod b;\nmod c;\n",
        f"{source}/run_tests/b.rt": "use crate::run_tests::c::d;\nuse crate::store_tests::made::a;\nuse low::f;\n\n#[test]\nfn b() {}\n",
        f"{source}/run_tests/c.rt": "pub fn d() {}\n",
    })


QUICK = {
    "all passes": says("quick.py", ["shown"], TESTED, 0, "1 passed, 0 failed", **PASSES),
    "tests": says("quick.py", ["low_tests"], TESTED, 0, "1 passed, 0 failed", **{**PASSES, "tells": TRIED}),
    "a test that fails": says("quick.py", ["low_tests"], TESTED, 1, "quick: low_tests::a::b ... FAILED", "0 passed, 1 failed",
        **{**PASSES, "writes": "test a::b ... FAILED\n"}),
    "a test that is cut": says("quick.py", ["low_tests"], TESTED, 1, "quick: low_tests::a::b ... FAILED after 900 seconds", "0 passed, 1 failed",
        **{**PASSES, "writes": "test a::b ... FAILED\n    checked: no-answer: the program did not end within the time limit\n    run=no-answer\ntest result: FAILED.\n"}),
    "a program that is cut": says("quick.py", ["shown"], TESTED, 1, "quick: shown: it came to no such end: checked: no-answer: the program did not end within the time limit / run=no-answer proved=no",
        "0 passed, 1 failed", writes="", tells="checked: no-answer: the program did not end within the time limit\nrun=no-answer proved=no\n"),
    "tests that do not end": says("quick.py", ["low_tests"], TESTED, 1, "quick: low_tests: of its 1 tests 0 were tried: run=none proved=no", "0 passed, 1 failed",
        **{**PASSES, "writes": "", "tells": "run=none proved=no\n"}),
    "a test that is not tried": says("quick.py", ["low_tests"], {**TESTED, "crates/low_tests/src/lib.rt": "#[test]\nfn f() {}\n\n#[test]\nfn g() {}\n"}, 1,
        "quick: low_tests: of its 2 tests 1 were tried: run=ended status=3 runners=1 proved=no", "1 passed, 1 failed", **PASSES),
    "two crates together": says("quick.py", [], TOGETHER, 0, "2 passed, 0 failed", **BOTH),
    "one of two": asks("quick.py", ["run_tests"], TOGETHER, ["--test", "in run_tests"], ["in joined_tests"], **PASSES),
    "two that are one crate": asks("quick.py", [], TOGETHER, ["--test", "in joined_tests"], ["in store_tests"], **BOTH),
    "one that is tried alone, by its name": asks("quick.py", [], ABOVE, ["in stored_tests", "in joined_tests"], ["in store_tests", "in run_tests"], **BOTH),
    "a test of the second that is not tried": says("quick.py", [], TOGETHER, 1, "quick: run_tests: of its 1 tests 0 were tried: run=ended status=3 runners=1 proved=no",
        "1 passed, 1 failed", **{**BOTH, "writes": "test store_tests::a ... ok\n"}),
    "each is a module": is_joined,
    "a program that writes something else": says("quick.py", ["shown"], TESTED, 1, "quick: shown: it wrote something else than its file stdout",
        "0 passed, 1 failed", **{**PASSES, "writes": "other\n"}),
    "one that ends with another status": says("quick.py", ["shown"], TESTED, 1, "0 passed, 1 failed", **{**PASSES, "tells": TRIED}),
    "a crate with neither": says("quick.py", ["low"], TESTED, 2, faults="quick: low has no test and no program\n"),
    "nothing runs then": lambda: equal(output_of("quick.py", ["low"], TESTED), ""),
    "one with neither, and one with a test": says("quick.py", ["low", "low_tests"], TESTED, 0, "1 passed, 0 failed",
        faults="quick: low has no test and no program\n", **{**PASSES, "tells": TRIED}),
    "of tests without one, who runs its cases": says("quick.py", ["desk_tests", "low"], SHARED, 2,
        faults="quick: low has no test and no program\nquick: desk_tests has no test and no program: memory_tests and stored_tests run its cases\n"),
    "who alone does": says("quick.py", ["pages_tests"], SHARED, 2, faults="quick: pages_tests has no test and no program: memory_tests runs its cases\n"),
    "all of them": says("quick.py", [], TESTED, 1, "1 passed, 1 failed", **{**PASSES, "tells": TRIED}),
    "an unknown crate": says("quick.py", ["none"], TESTED, 1, faults="quick: crates.txt has no crate none"),
    "two programs that are one": says("quick.py", ["sift", "probe"], PROGRAMS, 0, "2 passed, 0 failed", **ENDED),
    "how they are tried": asks("quick.py", ["sift", "probe"], PROGRAMS, ["--cases", "cases", "--data", "in joined_program"], ["in sift", "in probe", "--"], **ENDED),
    "one of two, as it is": asks("quick.py", ["probe"], PROGRAMS, ["in probe", "--", "two"], ["--cases", "in joined_program"], **ENDED),
    "one whose main is of another kind": asks("quick.py", [], PROGRAMS, ["in joined_program", "in listen_probe"], ["in sift"], **ENDED),
    "one of two writes something else": of_two(1, "quick: sift: it wrote something else than its file stdout", "1 passed, 1 failed",
        tells=CASE.format("probe", 0, "expected") + "| out\n" + CASE.format("sift", 3, "differs")),
    "one of two ends with another status": of_two(1, "quick: sift: it came to no such end: case=sift run=ended status=0 runners=1 output=expected proved=no", "1 passed, 1 failed",
        tells=CASE.format("sift", 0, "expected") + CASE.format("probe", 0, "expected")),
    "one of two does not end": of_two(1, "quick: probe: it came to no such end: checked: no-answer / case=probe run=no-answer proved=no", "1 passed, 1 failed",
        tells=CASE.format("sift", 3, "expected") + "checked: no-answer\ncase=probe run=no-answer proved=no\n"),
    "output that was compared with nothing": of_two(1, "1 passed, 1 failed",
        tells=CASE.format("sift", 3, "expected") + "case=probe run=ended status=0 runners=1 proved=no\n"),
    "nothing is said of one": of_two(1, "1 passed, 1 failed", tells=CASE.format("sift", 3, "expected")),
    "nothing is said after one": says("quick.py", ["sift", "probe"], {**PROGRAMS, "crates/sift/status": "0\n"}, 1, "1 passed, 1 failed", tells=CASE.format("sift", 0, "expected")),
    "two that are refused": says("quick.py", ["sift", "probe"], PROGRAMS, 1, "quick: sift: it came to no such end: no main / run=none proved=no",
        "quick: probe: it came to no such end: no main / run=none proved=no", "0 passed, 2 failed", tells="no main\nrun=none proved=no\n"),
    "each program is a module": is_one_program,
    "what a program is run on": asks("quick.py", ["shown"], TESTED, ["--data", "--", "one", "in shown", "in"], [], **PASSES),
}


# ---- check

SCRIPTS = ("clauses", "definitions", "edits", "manual", "minutes", "pages", "wants", "reached", "words", "try")


def checks(words, wanted, said, faults="", /, **scripts):
    """A case of the script `check`, with scripts that find nothing but where others are given, and a gate and trials that say their words: its
    status, what it writes, and what it says of faults."""
    def holds():
        tells = "import sys\nprint('{}', *sys.argv[1:])\n"
        files = {**{f"tools/{it}.py": "" for it in SCRIPTS}, **{f"tools/{it}.py": tells.format(it) for it in ("gate", "quick")},
                 **{f"tools/{it}.py": text for it, text in scripts.items()}, "check": (TOOLS.parent / "check").read_text(encoding="utf-8")}
        with repository(files) as (top, stand_in):
            how = {"capture_output": True, "text": True, "check": False, "env": {**os.environ, "PATH": f"{stand_in}:{os.environ['PATH']}"}}
            ran = subprocess.run([top / "check", *words], **how)
            return equal((ran.returncode, ran.stdout, faults in ran.stderr), (wanted, said, True))
    return holds


CHECK = {
    "without a word": checks([], 0, "quick\n"),
    "of two crates": checks(["low", "top"], 0, "quick low top\n"),
    "the gate": checks(["--prove"], 0, "gate\n"),
    "the gate with options": checks(["--prove", "--all", "--record"], 0, "gate --all --record\n"),
    "an option of the gate alone": checks(["--all"], 2, "", "check: unknown: --all"),
    "an option that is gone": checks(["--quick"], 2, "", "check: unknown: --quick"),
    "a script that finds something": checks(["--prove"], 1, "0 passed, 1 failed\n", words="import sys\nsys.exit(1)\n"),
}


# ---- edits.py

def with_edit(edit, **changed):
    """A repository with one wrong body more."""
    return {**CHAIN, "crates/low/src/lib.rt": "fn f() {}\nfn g() {}\nfn h() {}\n", "crates/low/must-fail/f.turns_it.edit": edit, **changed}


SAYS = "edits: low/must-fail/f.turns_it.edit: {}"
FITS = {
    "all fit": is_silent("edits.py", with_edit("file: src/lib.rt\nold: fn f() {}\nnew: fn f() { loop {} }\n")),
    "of two files": is_silent("edits.py", with_edit("file: src/lib.rt\nold: fn g\nnew: fn i\nfile: src/low.rt\nold: a\nnew: b\n", **{"crates/low/src/low.rt": "a\n"})),
    "it stands nowhere": says("edits.py", [], with_edit("file: src/lib.rt\nold: fn i() {}\nnew: \n"), 1, SAYS.format("this stands 0 times in src/lib.rt: fn i() {}")),
    "it stands twice and more": says("edits.py", [], with_edit("file: src/lib.rt\nold: () {}\nnew: \n"), 1, SAYS.format("this stands 3 times in src/lib.rt: () {}")),
    "the second text of two": says("edits.py", [], with_edit("file: src/lib.rt\nold: fn g\nnew: fn i\nold: fn j\nnew: fn k\n"), 1, SAYS.format("this stands 0 times in src/lib.rt: fn j")),
    "no such file": says("edits.py", [], with_edit("file: src/low.rt\nold: a\nnew: b\n"), 1, SAYS.format("there is no src/low.rt")),
    "no file is named": says("edits.py", [], with_edit("old: a\nnew: b\n"), 1, SAYS.format("it names no file first")),
    "it takes nothing away": says("edits.py", [], with_edit("file: src/lib.rt\n"), 1, SAYS.format("it has no line 'old:'")),
    "an unknown word": says("edits.py", ["low"], CHAIN, 1, faults="edits.py"),
}


# ---- refused.py

def rows(wanted, *lines, library=True, **changed):
    """A case of a program of worked calls, with some of its texts changed."""
    text = ROWS
    for old, new in changed.items():
        text = text.replace(NAMES[old], new)
    return says("refused.py", ["--program", "./rows", *(["--library", "none"] if library else [])], {"rows": text}, *wanted, *lines)


NAMES = {"refused": "sift: Memory, exact true, then answer", "base": "base: Memory, then answer", "base_call": 'echo "base: Memory, then answer"; ',
         "at_first": "sift: answer, exact true, then answer",
         "end": "1 1 >&9", "none_left": "1 0 >&9"}
# an import of two new messages: what it says where a growth is refused
IMPORTED = "import: Ok(Report { new: 2, known: 0, too_large: 0 }), 2 held, then Ok(Report { new: 0, known: 2, too_large: 0 })"


def imports(stopped, wanted):
    """A case of the imports of such a program, of which the first says so under a refusal."""
    three = [IMPORTED, IMPORTED.replace("2, known: 0", "0, known: 2"), IMPORTED.replace("2, known: 0", "1, known: 1").replace("2 held", "3 held")]
    said = lambda lines: "; ".join(f"echo '{it}'" for it in lines)
    text = f"#!/bin/sh\ncase $REFUSE in\n1 | 1+) {said([stopped, *three[1:]])}; echo 1 1 >&9;;\n*) {said(three)}; echo 1 0 >&9;;\nesac\n"
    return says("refused.py", ["--program", "./rows", "--library", "none"], {"rows": text}, *wanted)


GOOD, BAD = (0, "4 passed, 0 failed"), (1, "2 passed, 2 failed")
STOPPED = "import: Err(ImportStop {{ done: {}, fault: E14(Memory) }}), {} held, then Ok(Report {{ new: {}, known: {}, too_large: 0 }})"
ROWS_CASES = {
    "each call answers, or says that memory is wanting": rows(GOOD),
    "without a library it is built": rows(GOOD, library=False),
    "another answer": rows(BAD, "FAILED growth 1: sift: answer, exact false, then answer",
        "FAILED growth 1+: sift: answer, exact false, then answer", refused="sift: answer, exact false, then answer"),
    "no answer when it is called again": rows(BAD, refused="sift: Memory, exact true, then Memory"),
    "a row that is empty": rows(BAD, "FAILED growth 1: ", base=""),
    "a row less": rows(BAD, base_call=""),
    "a row that nobody knows": rows(BAD, base="other: Memory, then answer"),
    "a program that aborts": rows(BAD, end="1 1 >&9; exit 7"),
    "wrong without a refusal": rows((1, "0 passed, 1 failed"), at_first="sift: another answer"),
    "an import that is whole": imports(IMPORTED, GOOD),
    "one that stopped at the first": imports(STOPPED.format(0, 0, 2, 0), GOOD),
    "one that stopped behind it": imports(STOPPED.format(1, 1, 1, 1), GOOD),
    "one that is said to have done none, and holds one": imports(STOPPED.format(0, 1, 1, 1), BAD),
    "one after which the same import knows too few": imports(STOPPED.format(1, 1, 2, 0), BAD),
    "one that holds more than it was given": imports(STOPPED.format(2, 3, 0, 2), BAD),
    "no program": says("refused.py", ["--program", "./none"], CHAIN, 1, faults="./none is not there"),
}


# ---- cases.py

TESTED = {
    "crates/mail_tests/src/fields.rt": "//! Fields of\n//! known texts.\n#[test]\nfn a_line_ends(rt: HostRuntime) {}\n\nfn no_test() {}\n",
    "crates/mail_tests/src/other.rt": "fn none() {}\n",
    "crates/run_cases/stdin": "# Two mails: in order.\nrun\n# Nothing\n",
}
FIELDS, RUNS = "## mail_tests::fields: Fields of known texts.\n- a_line_ends\n", "## run_cases: the program, by a script\n- Two mails: in order.\n- Nothing\n"
CASES = {
    "all tests and runs": lambda: equal(output_of("cases.py", [], TESTED), FIELDS + RUNS),
    "those of a word, in whatever case": lambda: equal(output_of("cases.py", ["Line ends"], TESTED), FIELDS),
    "those of a crate": lambda: equal(output_of("cases.py", ["run_cases"], TESTED), RUNS),
    "no tests": is_silent("cases.py", {}),
    "two words": says("cases.py", ["a", "b"], TESTED, 1, faults="cases.py WORD"),
}


# ---- definitions.py

# Of a small repository: the headline's clause cites Fits, which is made of Rule, which is made of is_day, of a module that another crate hands
# on; its model cites seen, which is made of Moon, declared in the code, and of an operator, which is made of digest, of the toolchain; one law
# cites Goes.
DEFINED = {
    "crates.txt": "low: memchr\narchive_pages: low\narchive_stored: low\n",
    "crates/low/specs/Days.antt": "-- Days.\nuse Rattle.std.specs.Prelude.{List}\n\n-- a day\nabbrev pub is_day : Type 0\nis_day = T\n",
    "crates/low/specs/Rules.antt": "use Rattle.low.specs.Days.{is_day as day}\n\n-- ---- rules\n\n-- One rule.\n-- It has a day.\npub record Rule where\n  pub on : day\n\n"
                                   "abbrev pub Fits : Rule → Type 0\nFits r = T\n\n-- by steps\npub data Step where\n  up : Step\n",
    "crates/low/specs/Views.antt": "use Rattle.low.specs.declared.days.Moon.{Moon}\nuse Rattle.sums.specs.Sums.{digest}\n\ninfixl 10 ◌>>=◌\nabbrev pub ◌>>=◌ : Type 0\n"
                                   "a >>= f = digest a\n\nmodule _ (m : Moon) where\n  abbrev pub seen : Type 0\n  seen = do\n    T\n\nabbrev pub unseen : Type 0\nunseen = T\n",
    "crates/low/src/days.rt": "pub struct Moon;\n",
    "crates/policy_core/src/rules.rt": "ghost use Rattle.low.specs.Views.{seen, unseen};\n\nimpl Model for Policy {\n    ghost Value = { T };\n\n    ghost view = { λ p. seen p };\n\n"
                                       "    ghost invariant = { λ p. unseen p };\n}\n",
    **{f"crates/{it}.rt": "" for it in ("civil_time/src/days", "civil_time/src/instants", "archive_model/src/keys", "mbox_items/src/items", "mbox_items/src/separators")},
    "crates/low/specs/Other.antt": "pub use Rattle.low.specs.Rules.{Fits}\n",
    "crates/high/specs/Lib.antt": "pub use Rattle.low.specs.Days\n",
    "crates/low/src/lib.rt": "ghost use Rattle.low.specs.Rules.{up as rises};\n\npub fn f(a: u8) -> u8\n    ensures { rises result }\n{\n    a\n}\n",
    "crates/archive_pages/specs/Laws.antt": "-- it goes\nabbrev pub Goes : Type 0\nGoes = T\n",
    "crates/archive_stored/src/running.rt": "ghost use Rattle.low.specs.Other.{Fits};\nghost use Rattle.high.specs.Days.{is_day};\n\n"
                                           "pub fn run_and_answer_in_memory()\n    ensures quiet { is_day }\n    ensures answered { Fits result }\n{\n}\n",
    "crates/archive_pages/src/laws.rt": "ghost use Rattle.archive_pages.specs.Laws.{Goes};\n\npub fn an_allowed_message_is_served()\n    ensures { Goes }\n{}\n",
    "docs/BELIEVE.md": "Of 5 definitions, 11 lines, in 3 modules, `Moon` and `digest`.\n| | Read | Lines | With |\n|---|---|---|---|\n| 1 | `low`: `Rules` (`Fits`), `Days`, `Views` | 11 | a; b |\n"
                       "| 2 | `archive_pages`: `Laws` | 2 | c |\n\n**`low::Days::is_day`**: a day.\n\n    -- a day\n    abbrev pub is_day : Type 0\n    is_day = T\n\nThat is all.\n",
}
LISTED = """## low

### Days
Days.

- `is_day`*: a day

### Rules

- `Fits`*
- `Step`: by steps

## archive_pages

### Laws

- `Goes`+: it goes
"""
TOLD = """# the headline
crates/archive_stored/src/running.rt:6: run_and_answer_in_memory: answered
# the models by which it reads what it is given
crates/policy_core/src/rules.rt: Policy
crates/policy_core/src/rules.rt: Rule
crates/civil_time/src/days.rt: Day
crates/civil_time/src/instants.rt: Instant
crates/archive_model/src/keys.rt: Key
crates/mbox_items/src/items.rt: Item
crates/mbox_items/src/separators.rt: Envelope
# 5 definitions, 11 lines, in 3 modules
crates/low/specs/Days.antt:5: is_day
crates/low/specs/Rules.antt:7: Rule
crates/low/specs/Rules.antt:10: Fits
crates/low/specs/Views.antt:5: ◌>>=◌
crates/low/specs/Views.antt:9: seen
# beyond specs
declared: crates/low/src/days.rt: Moon
of the toolchain: sums: Sums: digest
# its laws add 1 definitions, 2 lines, in 1 modules
crates/archive_pages/specs/Laws.antt:2: Goes
"""


def page_made(files):
    """Returns BELIEVE.md as definitions.py makes it in a small repository."""
    with repository(files) as (top, stand_in):
        run(top, stand_in, "definitions.py", ["--write"])
        return (top / "docs" / "BELIEVE.md").read_text(encoding="utf-8")


def rewritten(old, new):
    """A case of definitions.py that puts right a page in which something is other than the sources have it."""
    return lambda: equal(page_made({**DEFINED, "docs/BELIEVE.md": DEFINED["docs/BELIEVE.md"].replace(old, new)}), DEFINED["docs/BELIEVE.md"])


def changed(edits, *lines):
    """A case of definitions.py where sources or page were changed: it says these lines, or nothing."""
    files = {**DEFINED, **{name: DEFINED[name].replace(*edit) for name, edit in edits.items()}}
    return says("definitions.py", [], files, 1, *lines) if lines else is_silent("definitions.py", files)


SHOWS = "definitions: BELIEVE.md shows another text than the sources (tools/definitions.py --write)"
DEFINITIONS = {
    "what is cited": lambda: equal(output_of("definitions.py", ["--list"], DEFINED).partition("## ")[1:], ("## ", LISTED.removeprefix("## "))),
    "numbers are put right": rewritten("11", "12"),
    "a text that is shown is put right": rewritten("    is_day = T\n", "    is_day = U\n    more\n"),
    "a text that is left out is put in": rewritten("    -- a day\n    abbrev pub is_day : Type 0\n    is_day = T\n", ""),
    "page and sources agree": changed({}),
    "another comment": changed({"crates/low/specs/Days.antt": ("a day", "one day")}, SHOWS),
    "another text": changed({"crates/low/specs/Days.antt": ("is_day = T", "is_day = U")}, SHOWS),
    "a text that is shown and that no headline is made of": changed({"docs/BELIEVE.md": ("low::Days::is_day", "low::Views::unseen")},
        "definitions: BELIEVE.md shows low::Views::unseen, of which the headline is not made"),
    "a text that is shown and that is gone": changed({"docs/BELIEVE.md": ("low::Days::is_day", "low::Days::is_month")},
        "definitions: BELIEVE.md shows low::Days::is_month, of which the headline is not made"),
    "the text of a definition that no headline is made of": changed({"crates/low/specs/Rules.antt": ("  up : Step", "  up : Step\n  down : Step")}),
    "a definition of the headline that is longer": changed({"crates/low/specs/Rules.antt": ("  pub on : day", "  pub on : day\n  pub at : day")},
        "definitions: BELIEVE.md has other numbers than the sources (tools/definitions.py --write)"),
    "a module that the headline is made of no more": changed({"crates/low/specs/Rules.antt": ("  pub on : day", "  pub on : T")},
        "definitions: BELIEVE.md has low::Days, of which the headline is not made"),
    "a module that no row has": changed({"docs/BELIEVE.md": (", `Days`", "")},
        "definitions: BELIEVE.md has no row for low::Days, of which the headline is made"),
    "a module that two rows have": changed({"docs/BELIEVE.md": ("`archive_pages`: `Laws`", "`archive_pages`: `Laws`; `low`: `Days`")},
        "definitions: BELIEVE.md has low::Days twice"),
    "a law that cites another": changed({"crates/archive_pages/src/laws.rt": ("Goes", "Gone")},
        "definitions: BELIEVE.md has archive_pages::Laws, of which the headline is not made"),
    "a module of the headline in the row of its laws": changed({"docs/BELIEVE.md": ("`Days`, `Views` | 11 | a; b |\n| 2 | `archive_pages`: `Laws`",
        "`Views` | 9 | a; b |\n| 2 | `archive_pages`: `Laws`; `low`: `Days`")},
        "definitions: BELIEVE.md has low::Days in a wrong row: the last is of what the laws add"),
    "a definition of a law that is longer": changed({"crates/archive_pages/specs/Laws.antt": ("Goes = T", "Goes = T\n  × T")},
        "definitions: BELIEVE.md has other numbers than the sources (tools/definitions.py --write)"),
    "a model that reads by another": changed({"crates/policy_core/src/rules.rt": ("λ p. seen p", "λ p. unseen p")},
        "definitions: BELIEVE.md has other numbers than the sources (tools/definitions.py --write)"),
    "what is declared, and no page names": changed({"docs/BELIEVE.md": ("`Moon`", "Moon")},
        "definitions: BELIEVE.md does not name Moon, of which the headline is made"),
    "what the toolchain states, and no page names": changed({"docs/BELIEVE.md": ("`digest`", "digest")},
        "definitions: BELIEVE.md does not name digest, of which the headline is made"),
    "all that the headline is made of": lambda: equal(output_of("definitions.py", ["--headline"], DEFINED), TOLD),
    "other words": says("definitions.py", ["--make"], DEFINED, 1, faults="definitions.py --write"),
}


# ---- pages.py

PAGES_FILES = {
    "crates.txt": "low: memchr\nbeside: low\narchive: low\n",
    "README.md": "[a](docs/A.md) [in](docs/INSTALL.md) [whole](docs/ARCHITECTURE.md) [out](https://example.org/x) [here](#here) `low`, `archive` "
                 "program 0.3.1, tables 3\n\n    pub fn eat<T>(\n        row: T,\n    )\n        ensures eaten { T }\n",
    "crates/archive_pages/src/eating.rt": "/// Eats.\npub fn eat<T>(\n    row: T,\n)\n    ensures eaten { T }\n{}\n",
    "docs/A.md": "[back](../README.md#top)\n",
    "docs/ARCHITECTURE.md": "archive: low; beside\n",
    "docs/layers/low.md": "## low\n| Calls | Clause |\n|---|---|\n| `Row::eat`, `low` | `eaten`, `left` | it eats |\n| `drink` | – | it drinks |\n\n## archive\n`main`\n",
    "crates/low/src/low.rt": "pub fn eat()\n    ensures eaten { T }\n    requires left { T }\n{}\n\nfn drink(&self)\n    ensures { T }\n{}\n",
    "docs/archive.1": '.TH ARCHIVE 1 "" "archive 0.3.1" "User Commands"\n',
    "docs/INSTALL.md": "    apt install ./luvazhimba_0.3.1+git*_amd64.deb\n",
    "CHANGELOG.md": "# Changes\n\n## Program 0.3.1, tables 3\n\n## Program 0.0.x, tables 0\n",
    "crates/archive_usage/src/building.rt": 'const VERSION: &str = "0.3.1";\n',
    "crates/archive_tables/src/texts/schema.rt": "pub const VERSION: i64 = 3;\n",
}
PAGES = {
    "all agree": is_silent("pages.py", PAGES_FILES),
    "a link to nothing": says("pages.py", [], {**PAGES_FILES, "docs/A.md": "[b](B.md)"}, 1, "pages: docs/A.md leads to B.md, which is not there"),
    "a page without a link": says("pages.py", [], {**PAGES_FILES, "docs/B.md": "text"}, 1, "pages: README.md has no link to docs/B.md"),
    "another number of the program": says("pages.py", [],
        {**PAGES_FILES, "crates/archive_usage/src/building.rt": 'const VERSION: &str = "0.3.0";\n'}, 1,
        "pages: docs/archive.1 is not of the program 0.3.0", "pages: CHANGELOG.md does not begin with 'Program 0.3.0, tables 3'",
        "pages: docs/INSTALL.md has no package of the program 0.3.0 alone"),
    "a number that is not that of the tables": says("pages.py", [], {**PAGES_FILES, "CHANGELOG.md": PAGES_FILES["CHANGELOG.md"].replace("0.0.x", "0.1.0")}, 1,
        "pages: CHANGELOG.md has a program 0.1.0 of tables 0"),
    "packages of two numbers": says("pages.py", [], {**PAGES_FILES, "docs/INSTALL.md": PAGES_FILES["docs/INSTALL.md"] + "    tar -xf luvazhimba-0.3.0+git.tar.gz\n"}, 1,
        "pages: docs/INSTALL.md has no package of the program 0.3.1 alone"),
    "a function that the README shows otherwise": says("pages.py", [],
        {**PAGES_FILES, "crates/archive_pages/src/eating.rt": PAGES_FILES["crates/archive_pages/src/eating.rt"].replace("{ T }", "{ U }")}, 1,
        "pages: README.md shows 'pub fn eat' otherwise than archive_pages has it"),
    "a README that shows none": says("pages.py", [], {**PAGES_FILES, "README.md": PAGES_FILES["README.md"].partition("\n\n")[0]}, 1, "pages: README.md shows no function"),
    "words that sources have": is_silent("pages.py", {**PAGES_FILES, "docs/A.md": "`low::eat_row`, `EatRow`, `count.adds_one.edit`, `find_..`, `fits_*`, no_word, `archive`",
        "crates/low/src/lib.rt": "fn eat_row() -> EatRow {}", "crates/low/must-fail/count.adds_one.edit": ""}),
    "a word that no source has": says("pages.py", [], {**PAGES_FILES, "docs/A.md": "`low::eat_row(EatRow)`, `eat_row`"}, 1,
        "pages: docs/A.md names EatRow, which stands in no source", "pages: docs/A.md names eat_row, which stands in no source"),
    "a word of a page of what was": is_silent("pages.py", {**PAGES_FILES, "CHANGELOG.md": PAGES_FILES["CHANGELOG.md"] + "`eat_row`\n"}),
    "a function of a layer that is not there": says("pages.py", [], {**PAGES_FILES, "docs/layers/low.md": PAGES_FILES["docs/layers/low.md"].replace("drink`", "sip`")}, 1,
        "pages: docs/layers/low.md: low has no function sip"),
    "a clause of a layer that is not there": says("pages.py", [], {**PAGES_FILES, "docs/layers/low.md": PAGES_FILES["docs/layers/low.md"].replace("–", "`eaten`")}, 1,
        "pages: docs/layers/low.md: low::drink has no clause eaten"),
    "a clause that is gone": says("pages.py", [], {**PAGES_FILES, "crates/low/src/low.rt": PAGES_FILES["crates/low/src/low.rt"].replace("left", "kept")}, 1,
        "pages: docs/layers/low.md: low::eat has no clause left"),
    "a crate of the program that no page of a layer has": says("pages.py", [], {**PAGES_FILES, "docs/layers/low.md": PAGES_FILES["docs/layers/low.md"].replace("## archive", "## beside")}, 1,
        "pages: docs/layers has no part on archive"),
    "a crate of the program that no page shows": says("pages.py", [], {**PAGES_FILES, "docs/ARCHITECTURE.md": "archive: lower\n"}, 1,
        "pages: docs/ARCHITECTURE.md does not name low", "pages: docs/ARCHITECTURE.md does not name beside"),
    "a crate of the program that the README does not show": says("pages.py", [], {**PAGES_FILES, "README.md": PAGES_FILES["README.md"].replace("`low`", "`lower`")}, 1,
        "pages: README.md does not name low"),
    "a README as long as it may be": is_silent("pages.py", {**PAGES_FILES, "README.md": PAGES_FILES["README.md"] + "line\n" * 104}),
    "a README of many lines": says("pages.py", [], {**PAGES_FILES, "README.md": PAGES_FILES["README.md"] + "line\n" * 105}, 1, "pages: README.md has 111 lines"),
    "a README of many words": says("pages.py", [], {**PAGES_FILES, "README.md": PAGES_FILES["README.md"] + "of " * 1489}, 1, "pages: README.md has 1,511 words"),
    "many words of proofs": says("pages.py", [], {**PAGES_FILES, "docs/PROVED.md": "of " * 16_900, "docs/DECISIONS.md": "of " * 100,
        "README.md": PAGES_FILES["README.md"] + "[p](docs/PROVED.md) [d](docs/DECISIONS.md)"}, 1, "pages: PROVED.md, DECISIONS.md and the pages of layers have 17,029 words"),
    "another number at the front": says("pages.py", [], {**PAGES_FILES, "README.md": PAGES_FILES["README.md"].replace("tables 3", "tables 2")}, 1,
        "pages: README.md is not of the program 0.3.1, tables 3"),
    "a point of many words": says("pages.py", [], {**PAGES_FILES, "README.md": PAGES_FILES["README.md"] + f"- {'of ' * 41}\n2. {'of ' * 40}\n"}, 1,
        "pages: README.md has a long point: - of of of of of of of of of of of of of of of of of of of o .."),
    "a page of the samples": says("pages.py", [], {**PAGES_FILES, "samples/a/README.md": "[b](../b.sh)"}, 1,
        "pages: samples/a/README.md leads to ../b.sh, which is not there"),
    "a sample policy as it is proved of": is_silent("pages.py", {**PAGES_FILES, "samples/a.toml": '# a\nb = "c"\n',
        "crates/example_policies/specs/Samples.antt": 'a_text =\n    codes "# a\\n"\n    ++ codes "b = \\"c\\"\\n"\n\n-- more\n'}),
    "a sample policy that is another text than the one that is proved of": says("pages.py", [], {**PAGES_FILES, "samples/a.toml": "b = 1\n",
        "crates/example_policies/specs/Samples.antt": 'a_text =\n    codes "b = 2\\n"\n'}, 1, "pages: samples/a.toml is not the text a_text of example_policies"),
    "another number of the tables": says("pages.py", [], {**PAGES_FILES, "crates/archive_tables/src/texts/schema.rt": "pub const VERSION: i64 = 4;\n"}, 1,
        "pages: CHANGELOG.md does not begin with 'Program 0.3.1, tables 4'"),
}

# ---- clauses.py

NARROW = """pub fn half(n: u8) -> u8
    requires even { n % 2 ≡ 0 }
    ensures half { result * 2 ≡ n } // not of odd ones; those { round
    ensures {
        result ≤ n
    }
{
    n / 2
}

fn plain<F: Fn(u8) -> u8>(f: F) -> u8 {
    f(1)
}
"""
WIDE = NARROW.replace("half", "wide").replace("    ensures {", "    ensures a { ℕ }\n    ensures b { record { n = n } ≡ n }\n    ensures c { ℕ }\n    ensures {")
METHOD = "impl Half {\n    pub fn take<'a, T: Drop>(&mut self, of: &'a T) -> Result<T, ()>\n        ghost top: { ℕ }\n        ensures kept { ℕ }\n    {\n    }\n}\n\ntrait Take {\n    fn take(self)\n        ensures { ℕ };\n}\n"
COUNTED = {"crates.txt": "low: memchr\nlow_tests: low\n", "crates/low/src/lib.rt": NARROW, "crates/low_tests/src/lib.rt": WIDE}
OVER = {**COUNTED, "crates/low/src/deep/er.rt": WIDE}
CLAUSES = {
    "clauses and their lines": lambda: equal(output_of("clauses.py", [], COUNTED),
        "clauses: low: 2 functions, 3 clauses in 5 lines, 0 functions with more than 5\nclauses: all: 2 functions, 3 clauses in 5 lines, 0 functions with more than 5\n"),
    "methods": says("clauses.py", [], {**COUNTED, "crates/low/src/lib.rt": METHOD}, 0,
        "clauses: low: 2 functions, 2 clauses in 2 lines, 0 functions with more than 5"),
    "too many on one function": says("clauses.py", [], OVER, 1, "clauses: low::deep::er::wide has 6 clauses, more than 5",
        "clauses: low: 4 functions, 9 clauses in 13 lines, 1 functions with more than 5"),
    "one that may have as many": says("clauses.py", [], {**OVER, "tools/clauses.txt": "# text\nlow::deep::er::wide 6\n"}, 0),
    "one that has fewer now": says("clauses.py", [], {**OVER, "tools/clauses.txt": "low::deep::er::wide 7\n"}, 1,
        "clauses: clauses.txt gives low::deep::er::wide 7 clauses, and it has 6"),
    "one that has more now": says("clauses.py", [], {**COUNTED, "crates/low/src/lib.rt": WIDE.replace("    ensures a {", "    ensures d { ℕ }\n    ensures a {"),
        "tools/clauses.txt": "low::lib::wide 6\n"}, 1, "clauses: clauses.txt gives low::lib::wide 6 clauses, and it has 7"),
    "one that is gone": says("clauses.py", [], {**COUNTED, "tools/clauses.txt": "low::lib::wide 6\n"}, 1, "clauses: clauses.txt names low::lib::wide, which is not there"),
    "one that needs no exception": says("clauses.py", [], {**COUNTED, "tools/clauses.txt": "low::lib::half 3\n"}, 1,
        "clauses: clauses.txt names low::lib::half, which needs no exception"),
    "a line that is as long as it may be": says("clauses.py", [], {**COUNTED, "crates/low/specs/Low.antt": "-- " + "ℕ" * 197 + "\n"}, 0),
    "a line that is too long": says("clauses.py", [], {**COUNTED, "crates/low_tests/proofs/lib/half/Answers.antt": "\n-- " + "ℕ" * 198 + "\n"}, 1,
        "clauses: crates/low_tests/proofs/lib/half/Answers.antt:2: 201 characters, more than 200"),
    "a text that is long": says("clauses.py", [], {**COUNTED, "crates/low/specs/Low.antt": 'text = codes "' + 'a \\" ' * 60 + '"\n'}, 0),
    "a word": says("clauses.py", ["low"], COUNTED, 1, faults="clauses.py"),
}

# ---- wants.py

# Wants of memory that are handed on, and what only looks like one.
HANDED_ON = """use std::alloc::AllocError;
pub enum Fault {
    /// Memory.
    Memory,
    Read,
}
impl From<AllocError> for Fault {
    fn from(_: AllocError) -> Fault {
        Fault::Memory
    }
}
pub fn copied(alloc: Global, bytes: &[u8]) -> Result<Vec<u8>, Fault>
    ensures memory { result ≡ Err Fault.Memory → bytes.now ≢ [] }
{
    let text = bytes.to_vec(alloc)?; // Fault::Memory
    match said(&text) {
        Err(Fault::Memory) | Err(Fault::Read) if text.is_empty() => Ok(text),
        Err(fault) if fault == Fault::Memory => Err(fault),
        other => Ok(text),
    }
}
pub struct MemoryRefusal(());
impl From<AllocError> for MemoryRefusal {
    fn from(_refused: AllocError) -> MemoryRefusal {
        MemoryRefusal(())
    }
}
fn counted(told: Result<Text, AllocError>) -> Result<Text, Unavailable> {
    match told {
        Ok(text) => Ok(text),
        Err(refused) => {
            wants.increment(refused.into());
            Err(Unavailable)
        }
    }
}
"""
# Each place that tells of one by hand, in a function of its own.
BY_HAND = HANDED_ON + """fn pushed(all: &mut Vec<u8>) -> Result<(), Fault> {
    if all.push(1).is_err() {
        return Err(Fault::Memory);
    }
    let Ok(more) = all.to_vec() else {
        return Err(Stop {
            done: 0,
            fault: Fault::Memory,
        });
    };
    match more.push(2) {
        Ok(()) => {
            done(&more);
        }
        Err(_) => {
            wants.increment(MemoryRefusal(()));
            Err(Fault::Memory)
        }
    }
}
fn told(stop: Stop) -> Fault {
    match stop {
        Stop::Memory(Held { at }) => Fault::Memory,
        Stop::Io(kind) if kind == ErrorKind::OutOfMemory => Fault::Memory,
        Stop::Other => Fault::Read,
    }
}
fn short(length: usize) -> Result<u32, Fault> {
    if length > 4_294_967_295 {
        return Err(Fault::Memory);
    }
    sum.checked_add(1).ok_or(Fault::Memory)
}
"""
PLACES = "low::lib::pushed refused\n" * 4 + "low::lib::told named\n" * 2 + "low::lib::short bare 2^32 bytes\n" * 2
WANTING = {"crates.txt": "low: memchr\nlow_tests: low\n", "crates/low/src/lib.rt": BY_HAND, "crates/low_tests/src/lib.rt": BY_HAND, "tools/wants.txt": "# text\n" + PLACES}


def with_more(more):
    """The same with a function that tells of a want where nothing was refused."""
    return {**WANTING, "crates/low/src/lib.rt": BY_HAND + more}


WANTS = {
    "handed on alone": is_silent("wants.py", {**WANTING, "crates/low/src/lib.rt": HANDED_ON, "tools/wants.txt": ""}),
    "each place listed": is_silent("wants.py", WANTING),
    "the places": lambda: equal(output_of("wants.py", ["--list"], WANTING), PLACES),
    "a body that gives up": says("wants.py", [], with_more("fn f(list: &str) -> Result<(), Fault> {\n    if list.is_empty() {\n        return Err(Fault::Memory);\n    }\n    Ok(())\n}\n"), 1,
        "wants: low::lib::f tells of a want of memory by hand (bare): hand on what was refused by `?` or `From`"),
    "a denial that is counted": says("wants.py", [], with_more("fn f() -> Found {\n    match asked() {\n        Ok(Asked::Denied(_)) => {\n            store.wants.increment(MemoryRefusal(()));\n            Err(Unavailable)\n        }\n        _ => Ok(()),\n    }\n}\n"), 1,
        "wants: low::lib::f tells of a want of memory by hand (bare): hand on what was refused by `?` or `From`"),
    "a refusal that is let go": says("wants.py", [], with_more("fn f() -> Result<(), Fault> {\n    match copied() {\n        Ok(text) => Ok(()),\n        Err(_) => Err(Fault::Memory),\n    }\n}\n"), 1,
        "wants: low::lib::f tells of a want of memory by hand (refused): hand on what was refused by `?` or `From`"),
    "one more where there is one": says("wants.py", [], {**WANTING, "crates/low/src/lib.rt": BY_HAND.replace("    if length >", "    if length == 7 {\n        return Err(Fault::Memory);\n    }\n    if length >")}, 1,
        "wants: low::lib::short tells of a want of memory by hand (bare): hand on what was refused by `?` or `From`"),
    "another arm than the one that is listed": says("wants.py", [], {**WANTING, "crates/low/src/lib.rt": BY_HAND.replace("        Err(_) => {", "        Ok(_) => {")}, 1,
        "wants: low::lib::pushed tells of a want of memory by hand (bare): hand on what was refused by `?` or `From`",
        "wants: wants.txt names low::lib::pushed refused, which is not there"),
    "one that is gone": says("wants.py", [], {**WANTING, "crates/low/src/lib.rt": HANDED_ON, "tools/wants.txt": "low::lib::f named\n"}, 1, "wants: wants.txt names low::lib::f named, which is not there"),
    "a growth by what is there": is_silent("wants.py", with_more("fn f(text: &[u8]) -> Result<Vec<u8>, AllocError> {\n    let held = text.len();\n    let mut own = Vec::with_capacity(Global, held)?;\n    own.reserve(text.len())?;\n    Ok(own)\n}\n")),
    "a growth by a number": says("wants.py", [], with_more("fn f(text: &[u8]) -> Result<Vec<u8>, AllocError> {\n    Vec::with_capacity(Global, text.len() + 1_000_000_000_000_000)\n}\n"), 1,
        "wants: low::lib::f asks for memory by a number that is written down: ask by the length of what is there"),
    "a growth by a number that has a name": says("wants.py", [], with_more("fn f() -> Result<(), AllocError> {\n    let room = MOST * 4;\n    held.reserve_exact(room)?;\n    Ok(())\n}\n"), 1,
        "wants: low::lib::f asks for memory by a number that is written down: ask by the length of what is there"),
    "a growth that is listed has a reason": says("wants.py", [], {**with_more("fn f() -> Result<(), AllocError> {\n    held.reserve(64)\n}\n"), "tools/wants.txt": PLACES + "low::lib::f asked\n"}, 1,
        "wants: wants.txt gives no reason for low::lib::f"),
    "no reason": says("wants.py", [], {**WANTING, "tools/wants.txt": PLACES.replace(" 2^32 bytes", "")}, 1, "wants: wants.txt gives no reason for low::lib::short"),
    "a word": says("wants.py", ["low"], WANTING, 1, faults="wants.py"),
}
# The page of the gate, with other tables than the file gives.
MINUTES = {
    "other tables": says("minutes.py", [], {**CHAIN, "docs/GATE.md": "<!-- by tools/minutes.py -->\n<!-- end of what tools/minutes.py wrote -->\n", "tools/minutes.txt": "low 1.0\n"}, 1,
        "minutes: docs/GATE.md has other tables than tools/minutes.txt gives: tools/minutes.py --write makes them"),
    "no place": says("minutes.py", [], {**CHAIN, "docs/GATE.md": "text\n"}, 1, "minutes: docs/GATE.md has no place for the tables"),
    "a word": says("minutes.py", ["low"], CHAIN, 1, faults="minutes.py"),
}
# A program with a library below it: what it calls, what a fixed call alone calls, a method, a law, and what nobody calls.
REACHING = {
    "crates.txt": "low: memchr\narchive: low\nlow_tests: low\n",
    "crates/archive/src/main.rt": "use low::size;\nfn main() {\n    let held = low::Held::new();\n    size(held.count());\n}\n",
    "crates/low/src/lib.rt": "pub fn size(it: usize) -> usize\n    ensures same { result \u2261 it }\n{\n    own(it)\n}\nfn own(it: usize) -> usize {\n    it\n}\npub fn fixed() {\n    inner()\n}\n"
                             "fn inner() {}\npub struct Held;\nimpl Held {\n    pub fn new() -> Held {\n        Held\n    }\n    pub fn count(&self) -> usize {\n        1\n    }\n"
                             "    pub fn drop_all(&self) {}\n}\nimpl Display for Held {\n    fn fmt(&self) {}\n}\n",
    "crates/low/src/laws.rt": "pub fn it_is_so() {}\n",
    "crates/low_tests/src/lib.rt": "fn tries() {\n    low::fixed();\n    held.drop_all();\n}\n",
    "tools/reached.txt": "# text\nlow::lib::drop_all tests alone\nlow::lib::fixed fixed\nlow::lib::inner called by fixed\n",
}
REACHED = {
    "each is listed": is_silent("reached.py", REACHING),
    "the lines": lambda: equal(output_of("reached.py", ["--list"], REACHING), "low::lib::drop_all tests alone\nlow::lib::fixed fixed\nlow::lib::inner called by fixed\n"),
    "a new one": says("reached.py", [], {**REACHING, "crates/low/src/more.rt": "pub fn own() {}\npub fn other() {}\n"}, 1,
        "reached: nothing that somebody runs reaches low::more::other: remove it", "reached: nothing that somebody runs reaches low::more::own: remove it"),
    "one that is called now": says("reached.py", [], {**REACHING, "crates/archive/src/main.rt": "use low::{size, fixed};\nfn main() {\n    low::Held::new().count();\n    size(1);\n    fixed();\n}\n"}, 1,
        "reached: reached.txt names low::lib::fixed, which is reached or is not there", "reached: reached.txt names low::lib::inner, which is reached or is not there"),
    "no reason": says("reached.py", [], {**REACHING, "tools/reached.txt": REACHING["tools/reached.txt"].replace(" fixed\n", "\n", 1)}, 1, "reached: reached.txt gives no reason for low::lib::fixed"),
    "the library for C": is_silent("reached.py", {**REACHING, "crates.txt": REACHING["crates.txt"] + "luvazhimba_c: low\n", "tools/reached.txt": "low::lib::drop_all tests alone\n",
        "crates/luvazhimba_c/src/calls.rt": "use low::fixed;\npub extern \"C\" fn luv_fixed() -> u8 {\n    fixed()\n}\n"}),
    "a word": says("reached.py", ["low"], REACHING, 1, faults="reached.py"),
}

# ---- identity.py, twice.py, owner_page.py

# The program's crates, with what is no part of the text that is proved.
PROVED_FILES = {
    **{it: PAGES_FILES[it] for it in ("CHANGELOG.md", "crates/archive_usage/src/building.rt", "crates/archive_tables/src/texts/schema.rt")},
    "crates.txt": "low: memchr\nbeside: low\narchive: low\n",
    "HANDLES": "Handles allowed: Net.\n",
    "crates/low/src/lib.rt": "pub fn f() {}\nimpl A {\n    pub(crate) const fn g(&self) {}\n    fn h() {}\n}\n// fn no() {}\n",
    "crates/low/proofs/f/Answers.antt": "x = y\n",
    "crates/low/must-fail/f.turns_it.edit": "file: src/lib.rt\n",
    "crates/archive/src/main.rt": "fn main() {}\n",
    "crates/beside/src/lib.rt": "fn beside() {}\n",
}
LIBRARY_FILES = {
    **PROVED_FILES,
    "crates.txt": "low: memchr\nluvazhimba_c staticlib: low\narchive: low\n",
    "crates/luvazhimba_c/src/lib.rt": "pub fn call() {}\n",
    "bindings/luvazhimba.h": '#define LUV_VERSION "0.4.2"\n',
}
OF_THE_WALK = "Run `./archive` once. Then `./archive sift`: [whole](ARCHITECTURE.md), [commands](COMMANDS.md#sift), [tls](../samples/proxy/README.md), [out](https://example.org/x).\n"


def identity(files, *words):
    """Returns what is said of a proof by its names, and the lines of what is changed."""
    with repository(files) as (top, stand_in):
        git = ("git", "-c", "user.name=a", "-c", "user.email=a@example.org", "-C", str(top))
        for it in (["init", "-q"], ["add", "-A"], ["commit", "-q", "-m", "x"]):
            subprocess.run([*git, *it], check=True)
        (top / "crates" / "low" / "src" / "more.rt").write_text("fn more() {}\n", encoding="utf-8")
        lines = run(top, stand_in, "identity.py", words)[1].splitlines()
        return dict(it.split(": ", 1) for it in lines), [it for it in lines if it.startswith("changed")]


def same_text(files, is_same):
    """A case of two trees whose text to prove is the same or another one."""
    return lambda: equal(identity(PROVED_FILES)[0]["text"] == identity(files)[0]["text"], is_same)


IDENTITY = {
    "of which program, by what, and how many functions": lambda: equal(
        {it: identity(PROVED_FILES)[0][it] for it in ("program", "toolchain", "functions", "handles")},
        {"program": "archive 0.3.1, tables 3", "toolchain": "kit of today", "functions": "5", "handles": "Net."}),
    "by a toolchain that is named": lambda: equal(identity(PROVED_FILES, "kit of yesterday")[0]["toolchain"], "kit of yesterday"),
    "what is not as the commit has it": lambda: equal(identity(PROVED_FILES)[1], ["changed: crates/low/src/more.rt"]),
    "a source is part of the text": same_text({**PROVED_FILES, "crates/low/src/lib.rt": "fn f() {}\n"}, False),
    "a proof is part of it": same_text({**PROVED_FILES, "crates/low/proofs/f/Answers.antt": "x = z\n"}, False),
    "what may be done is part of it": same_text({**PROVED_FILES, "HANDLES": "Handles allowed: none.\n"}, False),
    "what a crate stands on is part of it": same_text({**PROVED_FILES, "crates.txt": PROVED_FILES["crates.txt"].replace("memchr", "toml")}, False),
    "a wrong body is none": same_text({**PROVED_FILES, "crates/low/must-fail/f.turns_it.edit": "file: src/main.rt\n"}, True),
    "a crate beside the program is none": same_text({**PROVED_FILES, "crates/beside/src/lib.rt": "fn other() {}\n"}, True),
    "two words": says("identity.py", ["a", "b"], PROVED_FILES, 1, faults="identity.py [--library] [TOOLCHAIN]"),
    "of the library": lambda: equal(
        {it: identity(LIBRARY_FILES, "--library", "kit of yesterday")[0].get(it) for it in ("program", "library", "toolchain", "functions")},
        {"program": None, "library": "luvazhimba_c 0.4.2", "toolchain": "kit of yesterday", "functions": "5"}),
}
# A program that is built, and what the toolchain says where it compiles that again.
BUILT_HERE = {**CHAIN, "crates.txt": "low: memchr\narchive: low\n", "crates/archive/src/main.rt": "fn main() {}\n", "crates/archive/out/built-by-the-front-door": "kit of today\n",
    "crates/archive/out/archive": "a program"}
COMPILED = {"says": "rt: low is kept: 3 files\nrt: archive proved\n1 passed, 0 failed\n", "builds": "archive", "program": "a program"}
TWICE = {
    "the same bytes": says("twice.py", [], BUILT_HERE, 0, "twice, in two folders: the same bytes", **COMPILED),
    "other bytes": says("twice.py", [], BUILT_HERE, 0, f"twice, in two folders: other bytes, sha256 {hashlib.sha256(b'another one').hexdigest()}",
        **{**COMPILED, "program": "another one"}),
    "it does not pass": says("twice.py", [], BUILT_HERE, 1, faults="not compiled again", **{**COMPILED, "status": "1"}),
    "the program that is kept is no second one": says("twice.py", [], BUILT_HERE, 1, faults="not compiled again",
        **{**COMPILED, "says": "rt: archive is kept: 3 files\n1 passed, 0 failed\n"}),
    "nothing is built": says("twice.py", [], CHAIN, 1, faults="not built here"),
}
OWNER_PAGE = {
    "links and commands": lambda: equal(output_of("owner_page.py", ["docs/WALKTHROUGH.md"], {"docs/WALKTHROUGH.md": OF_THE_WALK}),
        "Then `luvazhimba sift`: whole, [commands](COMMANDS.md#sift), [tls](examples/proxy/README.md), [out](https://example.org/x).\n"),
    "a page below": lambda: equal(output_of("owner_page.py", ["samples/proxy/README.md"], {"samples/proxy/README.md": "[b](../../docs/HTTP.md) `samples/keep.sh` samples/soc.mbox\n"}),
        "[b](../../HTTP.md) `/usr/libexec/luvazhimba/keep.sh` /usr/share/doc/luvazhimba/examples/soc.mbox\n"),
    "units": lambda: equal(output_of("owner_page.py", ["docs/SCALE.md"], {"docs/SCALE.md": "`samples/archive-once.path` `-u archive.service` `archive-copy@.service` archive.db\n"}),
        "`/usr/lib/systemd/system/luvazhimba-once.path` `-u luvazhimba.service` `luvazhimba-copy@.service` archive.db\n"),
    "sentences that speak of a clone": lambda: equal(output_of("owner_page.py", ["docs/INSTALL.md"], {"docs/INSTALL.md":
        "In a clone `./archive package` packs. `./archive --help` helps. `trials/x.py` tried (by `bench/y.py`, today) that.\n\n\nIt is (see `tools/z.py`) so (and so).\n"}),
        "`luvazhimba --help` helps.\n\nIt is so (and so).\n"),
    "items, and cells of a table": lambda: equal(output_of("owner_page.py", ["docs/INSTALL.md"], {"docs/INSTALL.md":
        "- **Built.** `./archive` does.\n- `keep.sh` keeps.\n| `a` | it is; `./archive --version` builds |\n\n    git clone x\n"}),
        "- `keep.sh` keeps.\n| `a` | it is|\n\n    git clone x\n"),
    "a command of a clone alone": lambda: equal(output_of("owner_page.py", ["docs/COMMANDS.md"],
        {"docs/COMMANDS.md": "| `package [FOLDER]` | packs |\n| `check` | looks |\n\n    archive check --db FILE\n"}),
        "| `check` | looks |\n\n    luvazhimba check --db FILE\n"),
    "a page that no owner wants": says("owner_page.py", ["docs/STYLE.md"], {"docs/STYLE.md": ""}, 1, faults="owner_page.py FILE"),
}

# ---- manual.py, words.py

# The help of a small program, as run_cases has it, and its manual.
HELP_TEXT = """# Help
$ --help
Keeps lists

Usage: archive [COMMAND]

Commands:
  sift  Filter an mbox
  drop  Drop a list
  help  Print this

Options:
  -h, --help  Print help

It begins. It ends.

Status: 0 done; 2 usage error.

Example:
  archive drop --db a.db soc
[0]
$ sift --help
Filter an mbox

Usage: archive sift [OPTIONS]

Options:
      --day <DAY>  The day [default: today]
  -h, --help       Print help

Status: 0 done.
Refusals: M1 no mbox.

Example: archive sift < soc.mbox
[0]
$ drop --help
Drop a list

Usage: archive drop --db <FILE> --day <DAY> <NAME>

Arguments:
  <NAME>  A name

Options:
      --db <FILE>  The database
      --day <DAY>  The last day
  -h, --help       Print help

Opens FILE, and creates it if it is missing or empty.

Prints `no list-name`. It is gone.

Status: 0 done.
Refusals: E4 no
list. A list that is gone stays so.

Example: archive drop --db a.db soc
[0]
$ --version
archive 0.3.1
[0]
"""
MANUAL_FILES = {"crates/run_cases/stdout": HELP_TEXT, "docs/archive.1": "old\n"}
LINES_OF_IT = (
    '.TH ARCHIVE 1 "" "archive 0.3.1" "User Commands"', r"archive \- keeps lists", r"\fBarchive sift\fR [\fB\-\-day\fR DAY]",
    r"\fBarchive drop\fR \fB\-\-db\fR FILE \fB\-\-day\fR DAY NAME", "It begins.", "It ends.", r"\fBdrop\fR", "Drop a list.", r"Prints \fBno list\-name\fR.", "It is gone.",
    "Refusals: E4.", "A list that is gone stays so.", "Of sift: The day [default: today].", "Of drop: The last day.", "NAME", "A name.", "0 done; 2 usage error.",
    r"archive drop \-\-db a.db soc", "archive sift < soc.mbox")


def manual(files):
    """Returns the manual that is made in a small repository, what is said of it before, and after."""
    with repository(files) as (top, stand_in):
        before = run(top, stand_in, "manual.py", [])
        made = run(top, stand_in, "manual.py", ["--write"])
        return (top / "docs/archive.1").read_text(encoding="utf-8").splitlines(), before[:2], made, run(top, stand_in, "manual.py", [])


MANUAL = {
    "what is made": lambda: [f"lacks {it!r}" for it in LINES_OF_IT if it not in manual(MANUAL_FILES)[0]],
    "what is said once is not said of each command": lambda: equal([it for it in manual(MANUAL_FILES)[0] if it.startswith("Opens")], []),
    "before and after": lambda: equal(manual(MANUAL_FILES)[1:],
        ((1, "manual: docs/archive.1 is not what the help says (tools/manual.py --write)\n"), (0, "", ""), (0, "", ""))),
    "help that is not there": says("manual.py", [], {**MANUAL_FILES, "crates/run_cases/stdout": HELP_TEXT.replace("$ drop --help", "$ drop -h")}, 1,
        faults="manual: crates/run_cases/stdout has no output of 'drop --help'"),
    "other words": says("manual.py", ["--make"], MANUAL_FILES, 1, faults="manual.py --write"),
}
WORDS_FILES = {"README.md": "one two `told` kept\n\n    told\n", "docs/layers/low.md": "so\nmany words\n", "docs/note.txt": "told " * 60_000, "bench/FIGURES.md": "told " * 60_000}
WORDS = {
    "few words": is_silent("words.py", WORDS_FILES),
    "of each page": says("words.py", ["--pages"], WORDS_FILES, 0, "      5    1 README.md", "      3    1 docs/layers/low.md", "      8    2 all"),
    "too many words": says("words.py", [], {**WORDS_FILES, "samples/proxy/README.md": "word " * 49_993}, 1,
        "words: the pages have 50,001 words, of at most 50,000 (tools/words.py --pages)"),
    "too many to avoid": says("words.py", [], {**WORDS_FILES, "docs/archive.1": "Told " * 59}, 1,
        "words: the pages have 61 words that STYLE.md asks to avoid, of at most 60 (tools/words.py --pages)"),
    "as many as may be": is_silent("words.py", {**WORDS_FILES, "docs/archive.1": "Told " * 58}),
    "other words": says("words.py", ["--page"], WORDS_FILES, 1, faults="words.py --pages"),
}

TABLES = {"manual.py": MANUAL, "words.py": WORDS, "part.py": PART, "build.py": BUILD, "gate.py": GATE, "joined.py": IN_ONE_CHECK, "trial.py": TRIAL, "quick.py": QUICK, "check": CHECK, "edits.py": FITS, "refused.py": ROWS_CASES, "cases.py": CASES,
          "definitions.py": DEFINITIONS, "pages.py": PAGES, "identity.py": IDENTITY, "twice.py": TWICE, "owner_page.py": OWNER_PAGE, "clauses.py": CLAUSES, "wants.py": WANTS, "reached.py": REACHED, "minutes.py": MINUTES}


def main(words):
    cases = [(script, title, holds) for script, table in TABLES.items() for title, holds in table.items() if not words or words[0] in script]
    with concurrent.futures.ThreadPoolExecutor(os.cpu_count()) as runners:
        outcomes = [*runners.map(lambda case: case[2](), cases)]
    for (script, title, _), wrong in zip(cases, outcomes):
        if wrong:
            print(f"try: {script}: {title}", *wrong, sep="\n  ")
    failed = sum(map(bool, outcomes))
    print(f"{len(cases) - failed} passed, {failed} failed")
    return 1 if failed or not cases else 0


if __name__ == "__main__":
    sys.exit(main(sys.argv[1:]))
