#!/usr/bin/env python3
"""bindings.py: the library of bindings/ from Python, beside Python's own mailbox and email; its leaks, and growths refused in turn.

  bench/bindings.py [--messages 50000] [--rounds 3] [--library FOLDER] [--beside FOLDER]

FOLDER (bindings/out) is what bindings/build.sh made. An mbox of --messages ordinary messages (bench/gen_mbox.py) is cut by `cut`
and by `mailbox.mbox`, which have to find as many; of each message the ids, the sent date and the base of its subject are asked
of the library, and the same fields of `email`, by its parser of whole messages and by its parser of headers alone, which give
texts that nobody has read yet. Then all fields, From too, are asked in one reading: by `fields` of each message, and by `fields_of_mbox`,
which cuts the mbox as well; both have to say what the calls before said. Cutting is asked to be 20 times as fast, the fields
10 times. Then the mbox is threaded. Times are
a processor's, and the least of so many rounds, for all of them. bindings/c/calls.c is run under valgrind, and with each growth of
memory refused in turn. With --beside the same calls are first made of another build of the library, in turn with the first.
"""
import argparse, email, email.parser, email.policy, email.utils, importlib, mailbox, os, pathlib, subprocess, sys, tempfile, time

ROOT = pathlib.Path(__file__).resolve().parent.parent
sys.path[:0] = [str(ROOT / "tools"), str(ROOT / "bindings" / "python")]


def least(rounds, call):
    """Returns the seconds of a processor of the fastest round, and what the call returned."""
    best = float("inf")
    for _ in range(rounds):
        begun = time.process_time()
        found = call()
        best = min(best, time.process_time() - begun)
    return best, found


def loaded(folder):
    """Returns the module with the library of this folder."""
    os.environ["LUVAZHIMBA_LIB"] = str(folder.resolve() / "libluvazhimba.so")
    sys.modules.pop("luvazhimba", None)
    return importlib.import_module("luvazhimba")


def cut_by_mailbox(path):
    return len(mailbox.mbox(path, create=False))


NAMES = ("message-id", "references", "in-reply-to", "subject")


def fields_by_email(parse, texts, names=NAMES):
    """Returns how many fields were found of all that threads ask for, or of these names and the date."""
    found = 0
    for text in texts:
        message = parse(text)
        for name in names:
            found += message[name] is not None
        found += email.utils.parsedate_tz(message["date"] or "") is not None
    return found


def fields_by_library(luv, texts, messages, subjects):
    """Returns how many ids were found; the dates and the bases are asked for too."""
    found = 0
    for text, message, subject in zip(texts, messages, subjects):
        found += len(luv.message_ids(text).references)
        luv.sent_date(text, message.arrival)
        luv.base_subject(subject)
    return found


def compare(luv, path, rounds):
    data = path.read_bytes()
    ours, messages = least(rounds, lambda: luv.cut(data))
    theirs, count = least(rounds, lambda: cut_by_mailbox(path))
    print(f"{len(data) / 1e6:.0f} MB, {len(messages)} messages; mailbox finds {count}")
    print(f"cut: {ours:.3f} s, mailbox {theirs:.2f} s: {theirs / ours:.0f} times")
    texts = [data[it.start:it.end] for it in messages]
    headers = email.parser.BytesHeaderParser(policy=email.policy.compat32).parsebytes
    subjects = subjects_of(texts)
    ours, _ = least(rounds, lambda: fields_by_library(luv, texts, messages, subjects))
    for name, parse in (("email.message_from_bytes", email.message_from_bytes), ("BytesHeaderParser", headers)):
        theirs, _ = least(rounds, lambda: fields_by_email(parse, texts))
        print(f"ids, dates and subjects: {ours:.2f} s, {name} {theirs:.2f} s: {theirs / ours:.1f} times")
    three = ours
    theirs, _ = least(rounds, lambda: fields_by_email(headers, texts, (*NAMES, "from")))
    wanted = [(*luv.message_ids(text), luv.sent_date(text, it.arrival)) for text, it in zip(texts, messages)]
    calls = {"fields": lambda: [luv.fields(text, it.arrival) for text, it in zip(texts, messages)], "fields_of_mbox": lambda: luv.fields_of_mbox(data)[1]}
    for what, call in calls.items():
        ours, found = least(rounds, call)
        print(f"{what}: {ours:.2f} s, BytesHeaderParser {theirs:.2f} s: {theirs / ours:.1f} times; the three calls {three:.2f} s: {three / ours:.1f} times")
        if [(it.own, it.references, it.sent) for it in found] != wanted:
            sys.exit(f"{what} does not say what message_ids and sent_date say")
    for what, call in (("threads_of_mbox", lambda: luv.threads_of_mbox(data)), ("threads", lambda: luv.threads(data, messages))):
        seconds, rows = least(rounds, call)
        print(f"{what}: {seconds:.2f} s, {len(rows)} rows")


def subjects_of(texts):
    headers = email.parser.BytesHeaderParser(policy=email.policy.compat32).parsebytes
    return [str(headers(it)["subject"] or "").replace("\n", "").encode("utf-8", "surrogateescape") for it in texts]


def beside(one, other, path, rounds):
    """Says how long the calls of two builds take, made in turn."""
    data = path.read_bytes()
    messages = one.cut(data)
    texts = [data[it.start:it.end] for it in messages]
    subjects = subjects_of(texts)
    calls = {"cut": lambda luv: luv.cut(data), "ids, dates and subjects": lambda luv: fields_by_library(luv, texts, messages, subjects), "threads_of_mbox": lambda luv: luv.threads_of_mbox(data)}
    for what, call in calls.items():
        times = [[least(1, lambda: call(luv))[0] for luv in (one, other)] for _ in range(rounds)]
        ours, theirs = map(min, zip(*times))
        print(f"{what}: {ours:.3f} s, the other build {theirs:.3f} s: {ours / theirs:.2f}")


def leaks(program):
    """Returns whether valgrind finds no fault and no byte that was not given back."""
    words = ["valgrind", "--quiet", "--leak-check=full", "--show-leak-kinds=all", "--errors-for-leak-kinds=all", "--error-exitcode=9", program]
    try:
        ran = subprocess.run(words, capture_output=True, text=True, check=False)
    except FileNotFoundError:
        print("valgrind: not here, so not tried")
        return True
    print(f"valgrind: {'no fault and no leak' if ran.returncode == 0 else ran.stdout[-800:] + ran.stderr[-1500:]}")
    return ran.returncode == 0


def refusals(program, folder):
    """Returns whether each call answers, or refuses and then answers, with each growth of memory refused in turn, and all from it on."""
    import refused
    library, is_right, runs = refused.built(folder), True, 0
    for onward in ("", "+"):
        for number in range(1, refused.MOST):
            status, lines, said, met = refused.run(program, library, f"{number}{onward}")
            runs += 1
            if status:
                is_right = False
                print(f"FAILED growth {number}{onward}: {lines[:3]} {said[:200]}")
            if not met:
                break
    print(f"growths refused in turn: {runs} runs, {'each call refuses or answers, and answers when it is made again' if is_right else 'not all right'}")
    return is_right


def main():
    words = argparse.ArgumentParser(description=__doc__, formatter_class=argparse.RawDescriptionHelpFormatter)
    words.add_argument("--messages", type=int, default=50_000)
    words.add_argument("--rounds", type=int, default=3)
    words.add_argument("--library", type=pathlib.Path, default=ROOT / "bindings" / "out")
    words.add_argument("--beside", type=pathlib.Path)
    words = words.parse_args()
    folder = words.library.resolve()
    with tempfile.TemporaryDirectory() as room:
        path, program = pathlib.Path(room) / "mbox", pathlib.Path(room) / "calls"
        with open(path, "wb") as mbox:
            subprocess.run([sys.executable, ROOT / "bench" / "gen_mbox.py", "--n", str(words.messages)], stdout=mbox, stderr=subprocess.DEVNULL, check=True)
        if words.beside:
            other = loaded(words.beside)
            beside(loaded(folder), other, path, words.rounds)
        compare(loaded(folder), path, words.rounds)
        subprocess.run(["cc", "-std=gnu11", "-g", f"-I{folder}", ROOT / "bindings" / "c" / "calls.c", folder / "libluvazhimba.a", "-o", program], check=True)
        is_right = leaks(program) & refusals(program, room)
    sys.exit(0 if is_right else 1)


if __name__ == "__main__":
    main()
