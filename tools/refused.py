#!/usr/bin/env python3
"""refused.py: worked calls of the library, with each growth of memory refused in turn, upwards until none is met.

  tools/refused.py [--program PROGRAM] [--library FILE]

The program (crates/refused_rows, which `./check --prove` proves and builds) makes each call twice, and marks the first one. With the
Nth growth of each first call refused (refuse.c, which the toolchain's clang builds), each call has to come to its answer or to
the refusal for want of memory, never to another answer; what an export or a reply counts is what went out, and a beginning of
the whole; the second call comes to the answer. Of an import that stopped the list holds what stands then, and the same import
again knows just these. So once with that growth alone refused, and once with all from it on. Some thousand runs of ten
milliseconds. The last line is 'N passed, M failed', by runs; status 1 where one failed.
"""
import argparse, collections, os, pathlib, re, subprocess, sys, tempfile

ROOT = pathlib.Path(__file__).resolve().parent.parent
MOST = 20_000  # growths of one call, past which the program does not end
MEMORY = r"Memory|Store\(Memory\)|Mbox\(Memory\)"
ANSWER = r"(answer|Memory), then answer"
# what each row of the program may say, with what its first call came to
ROWS = {
    "sift": rf"sift: (answer|{MEMORY}), exact true, then answer", "ids": f"ids: {ANSWER}", "base": f"base: {ANSWER}", "threads": f"threads: {ANSWER}",
    "plain threads": f"plain threads: {ANSWER}", "policy": f"policy: {ANSWER}",
    "denied": rf"denied: (answer|{MEMORY}), then answer", "served": rf"served: (answer|{MEMORY}), then answer",
    "export": rf"export: (Ok\(\d+\)|Err\(ExportStop \{{ written: \d+, fault: (?:Write|{MEMORY}) \}}\)), exact true, then "
              r"(?:Ok\(171\) of 171|Err\(ExportStop \{ written: 10, fault: Write \}\) of 10)",
    "reply": r"reply: (answer|another answer|Broken \{ written: \d+ \}), whole (?:true|false), part (?:true|false), 503 (?:true|false), "
             r"then answer, same true",
    "import": r"import: (Ok\(.*?\)|Err\(.*?\)), \d+ held, then Ok\(.*?\)",
}
# the imports of the program in their order: how many messages are held before, and how many of its two are new
IMPORTS = [(0, 2), (2, 0), (2, 1)]


def is_import_right(line, held_before, new_of_two):
    """Whether what was held after an import, and what the same import said then, fit together."""
    found = re.match(r"import: (.*), (\d+) held, then Ok\(Report \{ new: (\d+), known: (\d+), too_large: 0 \}\)", line)
    if not found:
        return False
    first, held, new, known = found[1], *map(int, found.groups()[1:])
    if not held_before <= held <= held_before + new_of_two or new != held_before + new_of_two - held or new + known != 2:
        return False
    if stop := re.match(r"Err\(ImportStop \{ done: (\d+), fault: \w+\(Memory\) \}\)", first):
        return int(stop[1]) > 0 or held == held_before
    return first.startswith("Ok(") and held == held_before + new_of_two


def is_reply_right(line):
    """Whether the bytes of a reply are what its answer says: all, those of 503, or a beginning."""
    first, whole, part, unavailable = re.match(r"reply: (.*?), whole (\w+), part (\w+), 503 (\w+),", line).groups()
    return (first, whole) == ("answer", "true") or (first, unavailable) == ("another answer", "true") or (first.startswith("Broken") and part == "true")


def judged(lines):
    """(row, what its first call came to, whether the line is as it may be)"""
    imports = [*IMPORTS]
    for line in lines:
        name = line.partition(":")[0]
        found = re.fullmatch(ROWS.get(name, "(?!)"), line)
        is_right = bool(found)
        if found and name == "import":
            is_right = bool(imports) and is_import_right(line, *imports.pop(0))
        if found and name == "reply":
            is_right = is_reply_right(line)
        yield name, re.sub(r"\d+", "N", found[1]) if found else line, is_right


def run(program, library, growth):
    """Status, lines, what was said, and how many growths were refused, with this one refused in each first call."""
    with tempfile.TemporaryFile() as told:
        env = {"LD_PRELOAD": str(library), "REFUSE": growth, "REFUSE_MARKS": "1"}
        # (descriptor 9 is made in the child, so it must not be closed there)
        ran = subprocess.run([program], stdin=subprocess.DEVNULL, stdout=subprocess.PIPE, stderr=subprocess.PIPE, env=env, timeout=60,
                             preexec_fn=lambda: os.dup2(told.fileno(), 9), close_fds=False, check=False)
        told.seek(0)
        # (a program that aborts does not say how many were refused)
        refused = int((told.read().split() or [b"0", b"1"])[1])
    said = re.sub(r"^(begin|end)\n", "", ran.stderr.decode(errors="replace"), flags=re.MULTILINE)
    return ran.returncode, ran.stdout.decode().splitlines(), said, refused


def refuse_each(program, library, rows, onward):
    """Refuses each growth in turn, upwards until none is met: how many runs were right, and how many were not."""
    ends, right, wrong = collections.defaultdict(collections.Counter), 0, 0
    for number in range(1, MOST):
        growth = f"{number}{onward}"
        status, lines, said, refused = run(program, library, growth)
        bad = [f"status {status}, {len(lines)} lines, {said[:200]}"] * (status != 0 or len(lines) != rows)
        for name, came, is_right in judged(lines):
            ends[name][came] += 1
            bad += [came] * (not is_right)
        for it in bad[:3]:
            print(f"FAILED growth {growth}: {it}")
        right, wrong = right + (not bad), wrong + bool(bad)
        if not refused:
            break
    print(f"{'all growths from one on' if onward else 'each growth'} refused, {right + wrong} runs:")
    for name, came in ends.items():
        print(f"  {name:14} " + "; ".join(f"{count} x {what}" for what, count in came.most_common()))
    return right, wrong


def compiler():
    """The toolchain's own clang, which lies beside the page that `rt doc` names."""
    page = pathlib.Path(subprocess.run(["rt", "doc"], capture_output=True, text=True, check=True).stdout.strip())
    return page.parent / "toolchain" / "bin"


def built(folder):
    library, tools = pathlib.Path(folder) / "refuse.so", compiler()
    subprocess.run([tools / "clang", "-O2", "-shared", "-fPIC", "-nostdlib", "-fuse-ld=lld", "-B", tools, "-o", library,
                    ROOT / "tools" / "refuse.c"], check=True)
    return library


def refused(program, library):
    """Both ways to refuse: how many runs were right, and how many were not."""
    status, rows, _, _ = run(program, library, "0")
    if status != 0 or not all(is_right for _, _, is_right in judged(rows)):
        print(f"FAILED without a refusal: status {status}, {rows}")
        return 0, 1
    counts = [refuse_each(program, library, len(rows), onward) for onward in ("", "+")]
    return sum(right for right, _ in counts), sum(wrong for _, wrong in counts)


def main():
    words = argparse.ArgumentParser(description=__doc__, formatter_class=argparse.RawDescriptionHelpFormatter)
    words.add_argument("--program", default=ROOT / "crates" / "refused_rows" / "out" / "refused_rows")
    words.add_argument("--library", help="refuse.c, built")
    words = words.parse_args()
    if not os.access(words.program, os.X_OK):
        sys.exit(f"{words.program} is not there: (cd crates/refused_rows && rt run) builds it")
    with tempfile.TemporaryDirectory() as folder:
        right, wrong = refused(words.program, words.library or built(folder))
    print(f"{right} passed, {wrong} failed")
    sys.exit(1 if wrong else 0)


if __name__ == "__main__":
    main()
