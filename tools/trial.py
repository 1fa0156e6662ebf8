#!/usr/bin/env python3
"""Answers words by a trial: the toolchain's `rt try` compiles the program with checks, proves nothing, runs it once, and keeps no file.

  trial.py NAME HOW-TO-PROVE [WORD..] < FILE     HOW-TO-PROVE is what is said of how the proved program is got

It is for words that want standard input and a policy's file, and leave nothing behind. Standard input has to be a file: of a slow pipe
`rt try` takes what came within two seconds. All that the trial's program writes goes on as it was written; one line on standard error
says that it is not proved. The status is the program's; 75 where the trial gave no answer and the proved program may; and 1 where the
sources are refused, of which there is no program.
"""
import os, re, signal, subprocess, sys, tempfile

import part

# How many bytes a trial writes at most, and how many seconds its program may run.
MOST_OUTPUT, SECONDS = 1 << 20, 600
REFUSED, NO_ANSWER = 1, 75
# The last two lines of a trial whose program ended: all before them the program wrote.
ENDED = re.compile(rb"(?:checked: ended status=\d+\n)?run=ended status=(\d+) [^\n]*proved=no\n\Z")
# The name under which the trial's program finds the policy.
POLICY = "policy"


def without_policy(words):
    """Returns the words with the policy's file under the name that the trial has for it, and the file's own name, if there is one."""
    given, file = [], None
    for at, word in enumerate(words):
        if at and words[at - 1] == "--policy":
            given, file = [*given, POLICY], word
        elif word.startswith("--policy="):
            given, file = [*given, f"--policy={POLICY}"], word.partition("=")[2]
        else:
            given.append(word)
    return given, file


def policy_in(room, file):
    """Puts a policy's file where the trial takes it from, and returns the words that say so: none where it cannot be read."""
    try:
        with open(file, "rb") as it:
            text = it.read()
    except OSError:
        return []
    with open(f"{room}/policy", "wb") as it:
        it.write(text)
    return ["--data", f"{POLICY}={room}/policy"]


def tried(name, words):
    """Tries the program, and returns what it wrote, what was said, and the status. What is told to stop stops the trial."""
    how = {"cwd": part.CRATES / name, "stdout": subprocess.PIPE, "stderr": subprocess.PIPE}
    with subprocess.Popen(["rt", "try", "--seconds", str(SECONDS), *words], **how) as ran:
        try:
            wrote, said = ran.communicate()
        except BaseException:
            # (it ends what it started, where it is asked to end)
            ran.terminate()
            ran.communicate()
            raise
    return wrote, said, ran.returncode


def answer(name, words, how):
    """Tries, passes on what the program wrote, and returns its status; or says why there is no answer."""
    given, file = without_policy(words)
    with tempfile.TemporaryDirectory(prefix="archive-trial-") as room:
        data = [] if file is None else policy_in(room, file)
        wrote, said, status = tried(name, [*data, "--", *given])
    ended = ENDED.search(said)
    if not ended:
        print(f"archive: {why(said)}; {how}", file=sys.stderr)
        return REFUSED if status == 1 and said.endswith(b"run=none proved=no\n") else NO_ANSWER
    sys.stderr.buffer.write(said[: ended.start()])
    sys.stderr.flush()
    sys.stdout.buffer.write(wrote)
    sys.stdout.flush()
    return int(ended[1])


def why(said):
    """Returns why a trial came to no answer, in its own words where none are better."""
    lines = said.decode(errors="replace").splitlines()
    if any("wrote more than" in it for it in lines):
        return f"the answer has more than {MOST_OUTPUT >> 20} MiB, and a trial gives no more"
    told = [it for it in lines if re.match(r"checked: |.*error[:\[]|run=", it)]
    return "the trial came to no answer: " + (told or lines or ["it said nothing"])[0]


def main(words):
    if len(words) < 2 or words[0] not in part.lines():
        sys.exit(__doc__)
    name, how, *asked = words
    for it in (signal.SIGHUP, signal.SIGINT, signal.SIGTERM):
        signal.signal(it, lambda number, _: sys.exit(128 + number))
    print(f"archive: a trial answers, which is compiled now, in minutes, and is not proved; {how}", file=sys.stderr, flush=True)
    try:
        return answer(name, asked, how)
    except BrokenPipeError:
        os.dup2(os.open(os.devnull, os.O_WRONLY), sys.stdout.fileno())
        return 1


if __name__ == "__main__":
    sys.exit(main(sys.argv[1:]))
