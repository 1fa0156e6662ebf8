#!/usr/bin/env python3
"""Runs every test and every program without any proof, by the toolchain's `rt try`.

  quick.py [NAME..]     of these crates alone

Each is compiled with checks and stops at an index out of bounds, a sum that wraps, a failed `unwrap` or a bad access; no contract is looked at.
A trial compiles all libraries below it. So crates of tests that stand on the same libraries are tried together (`TOGETHER`): in a copy of the
repository they are the modules of one crate. So are programs (`PROGRAMS`): a line before the text of its file `stdin` names the one that runs. A
program is run on its files `args`, `stdin` and `data`; what it writes has to be its file `stdout`, and its status that of its file `status`, or
0. A test or a program that does not end in 900 seconds has failed. The last line is 'N passed, M failed', and the status is 0 where M is 0. If a
crate that is named has neither, that is said; if none has any, nothing runs, and the status is 2.
"""
import concurrent.futures, os, re, subprocess, sys, tempfile, threading, time

import part

# What a trial takes of memory, in MB, where its crate stands on `sqlite`, and where it does not; and how many seconds a test or a program may
# run. Under checks code is some ten times as slow. For some seconds one takes up to 7,500, but not all in the same seconds.
LARGE, SMALL, SECONDS = 5500, 1500, "900"
# An interpreter of the toolchain goes first, for some seconds of each test: it gets one step, and what is compiled with checks runs whole.
STEPS = "1"
# Which crates of tests are tried together: each of these trials is compiled once. Those that take longest come first.
TOGETHER = (
    ("stored_tests",),
    ("store_tests", "run_tests"),
    ("mail_tests", "mbox_tests", "thread_tests", "policy_tests", "results_tests", "html_tests", "stream_tests", "request_tests", "listen_tests"),
    ("memory_tests",),
)
# Which programs are tried together, in the same way: those above `sqlite`, and the others.
PROGRAMS = (
    ("run_cases", "archive", "archive_probe", "example_answer", "example_stopped", "refused_rows"),
    ("sift", "probe", "thread_probe", "listen_probe", "example_cut", "example_date", "example_threads", "example_memory"),
)
# The crate that is made of several crates of tests, and the one that is made of several programs.
JOINED, JOINED_PROGRAM = "joined_tests", "joined_program"
# The `main` of a program, and how one of several is called, by what its `main` returns. A program of another kind is tried alone.
MAIN = re.compile(r"^fn main\(rt: HostRuntime\) -> (.*) \{$", re.M)
CALLS = {
    "ExitCode": "Ok({}::main(rt))",
    "anyhow::Result<ExitCode>": "{}::main(rt)",
    "anyhow::Result<()>": "{}::main(rt).map(|()| ExitCode::SUCCESS)",
}
# The `main` of several. No buffer of standard input outlives a call of the toolchain's library, so the program reads all after the first line.
MAIN_OF_SEVERAL = """//! Runs the program that the first line of standard input names.
#![tactic(auto)]

{modules}
use anyhow::bail;
use std::process::ExitCode;

fn main(rt: HostRuntime) -> anyhow::Result<ExitCode> {{
    let mut name = String::new(rt.alloc());
    rt.read_line(&mut name)?;
    match name.as_str().trim_end() {{
{calls}        _ => bail!("standard input names no program"),
    }}
}}
"""
CUT = "checked: no-answer: the program did not end within the time limit"
ENDED = re.compile(r"run=ended status=(\d+) .*proved=no")
# How the run of one program of several ended: its status, and whether it wrote what it has to.
CASE = re.compile(r"case=(\S+) run=(?:ended status=(\d+) .*\boutput=(\w+) proved=no$)?")
OTHER = "it wrote something else than its file stdout"
TEST_LINE = re.compile(r"^\s*#\[test\]\n", re.M)


def stands_on(name, library):
    """Returns whether a crate uses a library, or one below it does."""
    known = part.lines()
    return any(library in used_by(known[it]) for it in part.with_those_below(name))


def used_by(line):
    """Returns the crates that one uses, by its line in crates.txt."""
    return line.partition(":")[2].split()


def tests_of(name):
    """Returns how many tests a crate has."""
    return sum(len(TEST_LINE.findall(it.read_text(encoding="utf-8"))) for it in (part.CRATES / name / "src").glob("**/*.rt"))


def all_below(names):
    """Returns these crates and those that they stand on, lowest first."""
    below = {it for name in names for it in part.with_those_below(name)}
    return [it for it in part.lines() if it in below]


def is_program(name):
    return (part.CRATES / name / "src" / "main.rt").exists()


def has_neither(name):
    """Returns what is said of a crate without a test or a program: of one of tests also which crates of tests run its cases."""
    above = [it for it in part.lines() if name in part.with_those_below(it) and tests_of(it)] if name.endswith("_tests") else []
    cases = f": {' and '.join(above)} {'run' if above[1:] else 'runs'} its cases" if above else ""
    return f"quick: {name} has no test and no program{cases}"


def bytes_of(name, file):
    """Returns what a file beside the sources holds, or nothing where there is none."""
    at = part.CRATES / name / file
    return at.read_bytes() if at.exists() else b""


class Ran:
    """A trial that ended: what it wrote, the lines that were said, the status of what ended, and how many seconds it took: by the clock until
    the first test, by the clock after that, and of a processor."""

    def __init__(self, folder, words, given):
        begun, first = time.monotonic(), None
        with tempfile.TemporaryFile() as said, tempfile.TemporaryFile() as stdin:
            stdin.write(given)
            stdin.seek(0)
            how = {"cwd": folder, "stdin": stdin, "stdout": subprocess.PIPE, "stderr": said}
            with subprocess.Popen(["rt", "try", "--steps", STEPS, "--seconds", SECONDS, *words], **how) as rt:
                wrote = []
                for line in rt.stdout:
                    first = first or time.monotonic()
                    wrote.append(line)
                _, status, used = os.wait4(rt.pid, 0)
                rt.returncode = os.waitstatus_to_exitcode(status)
            said.seek(0)
            self.said = said.read().decode(errors="replace").splitlines()
        self.wrote = b"".join(wrote)
        ended = ENDED.fullmatch(self.said[-1]) if self.said else None
        self.status = int(ended[1]) if ended else None
        over = time.monotonic()
        self.seconds = (first or over) - begun, over - (first or over), used.ru_utime + used.ru_stime


def try_tests(names):
    """Returns how many tests of some crates passed, what is said of the others, and how many seconds all took (`Ran`)."""
    if len(names) == 1:
        return judge(part.CRATES / names[0], {names[0]: tests_of(names[0])}, f"{names[0]}::")
    with part.copied(all_below(names), ()) as top:
        join(top, names)
        return judge(top / "crates" / JOINED, {it: tests_of(it) for it in names}, "")


def add_module(source, name, root, others=()):
    """Makes a crate, whose highest file is `root`, a module among these sources. What it takes of itself, and of one of the `others`, it takes
    of the module."""
    modules = "|".join(others) or "(?!)"
    for file in (part.CRATES / name / "src").glob("**/*.rt"):
        text = re.sub(rf"(?<![\w:])({modules})::", r"crate::\1::", file.read_text(encoding="utf-8"))
        text = re.sub(r"(?<!\w)crate::", f"crate::{name}::", text)
        text = re.sub(rf"crate::\w+::(?=({modules})::)", "crate::", text)
        inside = file.relative_to(part.CRATES / name / "src")
        at = source / f"{name}.rt" if inside.name == root else source / name / inside
        at.parent.mkdir(parents=True, exist_ok=True)
        at.write_text(re.sub(r"^#!\[.*\]\n", "", text, flags=re.M), encoding="utf-8")


def name_joined(top, joined, names, more):
    """Names the crate that is made of these in a copy of the repository: it uses what they use, and these more."""
    known = part.lines()
    uses = dict.fromkeys([*(it for name in names for it in used_by(known[name])), *more])
    with open(top / "crates.txt", "a", encoding="utf-8") as it:
        it.write(f"{joined}: {' '.join(uses)}\n")


def join(top, names):
    """Makes one crate of these crates of tests, each a module, in a copy of the repository. What it takes of another of them it takes of
    its module."""
    source = top / "crates" / JOINED / "src"
    for name in names:
        add_module(source, name, "lib.rt", names)
    (source / "lib.rt").write_text("".join(f"#[cfg(test)]\npub mod {it};\n" for it in names), encoding="utf-8")
    name_joined(top, JOINED, names, names)


def judge(folder, wanted, before):
    """Tries the tests in a folder: so many are wanted of each crate, whose name stands first in that of a test, behind what is set `before` it."""
    ran = Ran(folder, ["--test"], b"")
    lines = ran.wrote.decode(errors="replace").splitlines()
    told = [(before + it.removeprefix("test "), at) for at, it in enumerate(lines) if re.match(r"test (?!result:).* \.\.\. ", it)]
    passed = [it for it, _ in told if it.endswith(" ... ok")]
    failed = [f"{it}{' after ' + SECONDS + ' seconds' if lines[at + 1:at + 2] and lines[at + 1].strip() == CUT else ''}" for it, at in told if not it.endswith(" ... ok")]
    for name, count in wanted.items():
        found = sum(it.startswith(f"{name}::") for it, _ in told)
        if found != count:
            failed.append(f"{name}: of its {count} tests {found} were tried: {' / '.join(ran.said[-3:])}")
    return len(passed), failed, ran.seconds


def data_of(name):
    """Returns the words that give a program its files `data`."""
    at = part.CRATES / name / "data"
    return [w for it in sorted(at.glob("**/*")) if it.is_file() for w in ("--data", f"{it.relative_to(at)}={it}")]


def status_of(name):
    """Returns the status that a program has to end with."""
    return int((bytes_of(name, "status") or b"0").decode())


def try_program(name):
    """Returns the same of a program, which passed if it wrote what it has to."""
    args = bytes_of(name, "args").decode().splitlines()
    ran = Ran(part.CRATES / name, [*data_of(name), *(["--", *args] if args else [])], bytes_of(name, "stdin"))
    if ran.status == status_of(name) and ran.wrote == bytes_of(name, "stdout"):
        return 1, [], ran.seconds
    why = OTHER if ran.status == status_of(name) else f"it came to no such end: {' / '.join(ran.said[-3:])}"
    return 0, [f"{name}: {why}"], ran.seconds


def try_programs(names):
    """Returns the same of several programs, of which one is made."""
    if len(names) == 1:
        return try_program(names[0])
    with part.copied(all_below(names), ()) as top:
        join_programs(top, names)
        folder = top / "crates" / JOINED_PROGRAM
        put_cases(folder / "cases", names)
        ran = Ran(folder, [*(it for name in names for it in data_of(name)), "--cases", "cases"], b"")
    told = by_case(ran.said)
    failed = [f"{it}: {why}" for it in names if (why := failure_of(it, told.get(it, ran.said[-3:])))]
    return len(names) - len(failed), failed, ran.seconds


def by_case(said):
    """Returns what was said of each program of several, by its name. The last line says how its run ended."""
    told, lines = {}, []
    for line in said:
        lines.append(line)
        if it := CASE.match(line):
            told[it[1]], lines = lines, []
    return told


def failure_of(name, said):
    """Returns why a program of several did not pass, by what was said of it, or nothing if it passed."""
    case = CASE.match(said[-1]) if said else None
    if not case or case[1] != name or case[2] is None or int(case[2]) != status_of(name):
        return f"it came to no such end: {' / '.join(said[-3:])}"
    return "" if case[3] == "expected" else OTHER


def main_of(name):
    """Returns what the `main` of a program returns, or nothing if it is of no kind that can be one of several."""
    found = MAIN.search(bytes_of(name, "src/main.rt").decode())
    return found[1] if found and found[1] in CALLS else ""


def join_programs(top, names):
    """Makes one program of these, each a module, in a copy of the repository."""
    source, calls = top / "crates" / JOINED_PROGRAM / "src", ""
    for name in names:
        add_module(source, name, "main.rt")
        file = source / f"{name}.rt"
        file.write_text(MAIN.sub(r"pub \g<0>", file.read_text(encoding="utf-8")), encoding="utf-8")
        calls += f'        "{name}" => {CALLS[main_of(name)].format(name)},\n'
    modules = "".join(f"mod {it};\n" for it in names)
    (source / "main.rt").write_text(MAIN_OF_SEVERAL.format(modules=modules, calls=calls), encoding="utf-8")
    name_joined(top, JOINED_PROGRAM, names, ["anyhow"])


def put_cases(folder, names):
    """Makes the files that each program is run on: its name and its standard input, its words, and what it has to write."""
    folder.mkdir()
    for name in names:
        (folder / name).write_bytes(name.encode() + b"\n" + bytes_of(name, "stdin"))
        (folder / f"{name}.stdout").write_bytes(bytes_of(name, "stdout"))
        if args := bytes_of(name, "args"):
            (folder / f"{name}.args").write_bytes(args)


def grouped(names, together):
    """Returns these crates as they are tried: those of one group together, and each of no group alone."""
    groups = [[it for it in group if it in names] for group in together]
    return [it for it in groups if it] + [[it] for it in names if not any(it in group for group in groups)]


def trials_of(asked):
    """Returns the trials of these crates: of the tests, together or alone, and of the programs. Each has what it is called, whether it stands on
    `sqlite`, and what makes it. Those that take longest come first."""
    with_tests = [it for it in asked if tests_of(it)]
    programs = grouped([it for it in asked if is_program(it)], [[it for it in group if main_of(it)] for group in PROGRAMS])
    tests = [(" ".join(it), stands_on(it[0], "sqlite"), lambda it=it: try_tests(it)) for it in grouped(with_tests, TOGETHER)]
    return tests + sorted([(" ".join(it), stands_on(it[0], "sqlite"), lambda it=it: try_programs(it)) for it in programs], key=lambda it: not it[1])


def told_of(called, trial):
    """Makes a trial, and says what came of it. A program writes nothing before its end, so how long it ran is not known."""
    passed, failed, (compiled, ran, used) = trial()
    took = f"compiled in {compiled:.0f} seconds and ran for {ran:.0f}" if ran else f"compiled and ran in {compiled:.0f} seconds"
    print(f"quick: {called}: {passed} passed, {len(failed)} failed; {took}, {used:.0f} of a processor", flush=True)
    return passed, failed


def lanes():
    """Returns how many lanes there are for all trials, and how many for those of crates that do not stand on `sqlite`, as memory allows."""
    with open("/proc/meminfo", encoding="ascii") as it:
        free = int(re.search(r"MemAvailable:\s+(\d+)", it.read())[1]) // 1024
    processors = len(os.sched_getaffinity(0))
    large = max(1, min(processors, free // LARGE))
    return large, max(0, min(processors - large, (free - large * LARGE) // SMALL))


class Waiting:
    """The trials that have not begun."""

    def __init__(self, trials):
        self.trials, self.lock = [*trials], threading.Lock()

    def take(self, may_be_large):
        """Takes the next trial for a lane: one of a crate that stands on `sqlite` first, if it may be one. None if there is no more for it."""
        with self.lock:
            fit = [it for it in self.trials if it[1]] if may_be_large else []
            fit += [it for it in self.trials if not it[1]]
            if fit:
                self.trials.remove(fit[0])
            return fit[0] if fit else None


def run_lane(waiting, may_be_large):
    """Makes trials one after the other, and returns what came of each."""
    results = []
    while trial := waiting.take(may_be_large):
        results.append(told_of(trial[0], trial[2]))
    return results


def main(words):
    if {*words} & {"-h", "--help"}:
        print(__doc__.strip())
        return 0
    if unknown := {*words} - {*part.lines()}:
        sys.exit(f"quick: crates.txt has no crate {' '.join(sorted(unknown))}")
    asked = [it for it in part.lines() if it in words or not words]
    without = [it for it in asked if words and not tests_of(it) and not is_program(it)]
    for it in without:
        print(has_neither(it), file=sys.stderr)
    if words and without == asked:
        return 2
    waiting = Waiting(trials_of(asked))
    large, small = lanes()
    with concurrent.futures.ThreadPoolExecutor(large + small) as pool:
        begun = [pool.submit(run_lane, waiting, at < large) for at in range(large + small)]
        try:
            results = [it for lane in begun for it in lane.result()]
        except BaseException:
            # (those that are under way end by themselves)
            waiting.trials = []
            raise
    passed, failed = sum(it[0] for it in results), [line for it in results for line in it[1]]
    for line in failed:
        print(f"quick: {line}")
    print(f"{passed} passed, {len(failed)} failed")
    return 1 if failed else 0


if __name__ == "__main__":
    sys.exit(main(sys.argv[1:]))
