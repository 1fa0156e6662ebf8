#!/usr/bin/env python3
"""keep.py: samples/keep.sh whole: what it takes in, what it serves, and how long readers get no answer.

  trials/keep.py [--archive PROGRAM] [--script KEEP.SH] [--mails 7000] [--more 20000] [--only NAME]

A reader asks all the time, while a command comes, a large mbox, another policy, a text that is no policy; then as fast as it can;
then the script is killed or stopped in the middle of its work, and begun again. It prints the longest time between two answers,
beside the time of one command on the same file, and asks for at most three times that and a second. The archive holds --mails
messages at first, and --more come. Then eight writers give a hundred commands while an import runs, `--once` works without serving,
commands are mistyped, `--look` prints what its owner has to deal with, and a list gets full. --only NAME tries one of the later parts:
ordered, behind_mail, without_serving, mistyped, looked_at or filled. The last line is 'N passed, N failed, N skipped'.
"""
import os, pathlib, re, shutil, signal, socket, sqlite3, subprocess, sys, tempfile, threading, time

from trial import ROOT, SAMPLES, Trial, output, words_of
from keeper import OPEN, SHUT, Keeper, Reader, one_command
import mbox

FULL = 50_000  # messages of a list


def while_read(trial, keeper, program, what, change, seen, commands=None, pause=0.02):
    """Lets a change come while somebody reads, and tells how long it took to be seen, and how long nobody answered.

    A change that takes so many commands is begun at once, which is at the next look at the folder: so it is seen soon.
    """
    reader = Reader(keeper.port, pause)
    time.sleep(2)
    change()
    took = keeper.until(seen)
    time.sleep(2)
    gap = reader.end()
    one = one_command(program, keeper)
    soon = commands is None or took <= 2 * commands * one + 5
    trial.holds(f"{what}: it is seen{'' if commands is None else ' soon'}", seen() and soon, f"after {took:.1f} s")
    trial.holds(f"{what}: nobody answered for so long", gap <= 3 * one + 1, f"{gap:.2f} s, where one command takes {one:.2f} s")


def key_of_last(file):
    with open(file, "rb") as lines:
        *_, (_, _, text) = mbox.messages(lines)
    return mbox.key_of(text)


def come(trial, keeper, program, more, count):
    """What comes while it is served."""
    still = Reader(keeper.port, 0.02)
    time.sleep(3)
    longest = still.end()
    trial.holds("nothing comes: it answers all the time", still.refused == 0 and still.answered > 10 and longest < 1, f"{still.answered} times, {longest:.2f} s at most")
    while_read(trial, keeper, program, "a command", lambda: keeper.put("commands", "list-add board\nlist-add later\n"), lambda: b"/l/board/" in keeper.page("/"), 3)
    path = f"/l/later/m/{key_of_last(more)}"
    while_read(trial, keeper, program, f"{count} mails", lambda: keeper.mail("later", more), lambda: b" 200 OK" in keeper.page(path))
    counts, sound = keeper.counts()
    trial.check("the mails, and the file", (counts.get("later"), sound), (count, "ok"))
    beside = [f"--db archive.next {it}" in keeper.log() for it in ("board: added", "later mail/later/come.mbox: new ")]
    trial.check("both were done beside the server", beside, [True, True])
    while_read(trial, keeper, program, "another policy", lambda: keeper.put("policy.toml", SHUT), lambda: b"403 Forbidden: shut" in keeper.page(path), 1)
    reader = Reader(keeper.port, 0.02)
    keeper.put("policy.toml", OPEN + "\n[[rule]]\n")
    keeper.until(lambda: "policy.toml: " in keeper.log(), 20)
    time.sleep(2)
    longest = reader.end()
    trial.holds("a text that is no policy: it answers all the time", reader.refused == 0 and reader.answered > 10 and longest < 1, f"{longest:.2f} s at most")
    trial.holds("it is in the log, once", keeper.log().count("policy.toml: archive: P") == 1, [it for it in keeper.log().splitlines() if "policy.toml" in it])
    trial.holds("the policy before it stays", b"403 Forbidden: shut" in keeper.page(path))
    keeper.put("policy.toml", OPEN)
    keeper.shows(path, b" 200 OK", 60)
    trial.holds("and the next good one counts", b" 200 OK" in keeper.page(path))


def loaded(trial, keeper, program):
    """One reader who asks as fast as it can."""
    reader = Reader(keeper.port, 0)
    time.sleep(25)
    gap, one = reader.end(), one_command(program, keeper)
    trial.holds("as fast as it can for 25 s: nobody answered for so long", gap <= 3 * one + 1,
                f"{gap:.2f} s at most, {len(reader.gaps)} times, {sum(reader.gaps):.1f} s in all; {reader.answered} answered, {reader.refused} refused")


def without_room(trial, keeper):
    """Where the copy cannot be worked on (here a folder has its name), the work is done in the file."""
    (keeper.folder / "archive.next").mkdir()
    keeper.put("commands", "list-add roomless\n")
    keeper.shows("/", b"/l/roomless/", 60)
    trial.holds("a copy that cannot be worked on: it is done in the file", b"/l/roomless/" in keeper.page("/") and "--db archive.db roomless: added" in keeper.log())
    shutil.rmtree(keeper.folder / "archive.next")


def not_put_away(trial, keeper):
    """Where what was done cannot be put away (here a folder has the name of commands.done), the archive is served, and it is tried again."""
    held = keeper.folder / "commands.done"
    held.rename(keeper.folder / "held")
    held.mkdir()
    keeper.put("commands", "list-add untidy\n")
    keeper.shows("/", b"/l/untidy/", 60)
    reader = Reader(keeper.port, 0.02)
    time.sleep(3)
    longest = reader.end()
    trial.holds("what was done cannot be put away: it answers all the time", reader.refused == 0 and longest < 1, f"{longest:.2f} s at most")
    held.rmdir()
    (keeper.folder / "held").rename(held)
    keeper.until(lambda: "list-add untidy\n" in held.read_text() and not (keeper.folder / "commands.now").exists(), 60)
    trial.holds("and it is put away later", "list-add board\n" in held.read_text() and "list-add untidy\n" in held.read_text()
                and not (keeper.folder / "commands.now").exists())


def killed(trial, keeper, more):
    """Killed at its work, at several moments; begun again it completes it, and nothing is there twice."""
    for at in (0.1, 1.0, 2.5):
        name = f"again{int(10 * at)}"
        keeper.put("commands", f"list-add {name}\n")
        keeper.mail(name, more)
        time.sleep(at)
        keeper.kill()
        keeper.begin()
        done = keeper.folder / "mail.done" / name
        keeper.until(lambda: done.exists() and any(done.iterdir()) and keeper.page("/"))
        counts, sound = keeper.counts()
        trial.check(f"killed {at} s after work came, and begun again", (counts.get(name), sound), (1000, "ok"))


def stopped(trial, keeper, more, count):
    """Stopped while the work goes on: nothing of it goes on, and what was to be done is done by the next one."""
    keeper.put("commands", "list-add stopped\n")
    keeper.mail("stopped", more)
    first = "--db archive.next stopped: added"
    keeper.until(lambda: first in keeper.log(), 60)
    done = keeper.folder / "mail.done" / "stopped"
    trial.holds("work is under way when it is stopped", first in keeper.log() and not done.exists())
    keeper.process.terminate()
    status = keeper.process.wait(20)
    keeper.until(lambda: not keeper.running(), 0.5)
    trial.check("stopped at its work, it ends with status, and leaves running", (status, keeper.running()), (0, []))
    keeper.begin()
    keeper.until(lambda: done.exists() and keeper.page("/"))
    counts, sound = keeper.counts()
    trial.check("begun again it does what was to be done", (counts.get("stopped"), sound), (count, "ok"))


def without_tokens(trial, room, keeper):
    """A command that could do better another time ends the script, and standard error, which a journal shows to others, has no token."""
    token = "5fW2xkQ0aTz7uYp1"
    lock = sqlite3.connect(keeper.folder / "archive.db")
    lock.execute("BEGIN EXCLUSIVE")
    keeper.put("commands", f"person-add mo {token}\n")
    ran = subprocess.run([*map(str, keeper.words), str(keeper.port)], env=keeper.env, capture_output=True, text=True, timeout=60, check=False)
    lock.close()
    trial.check("a database that is locked: status, standard error", (ran.returncode, ran.stderr),
                (1, "keep.sh: person-add --db archive.db ..: archive: E15 Store\nkeep.sh: what is left is tried again in 6 seconds\narchive: E15 Store\n"))
    trial.check("its commands stay for the next beginning", [it.read_text() for it in (keeper.folder / "commands.now").iterdir()], [f"person-add mo {token}\n"])
    # (the policy, the mail and the commands were made by this trial)
    own = [it for it in keeper.folder.rglob("*") if it.is_file() and it.name != "policy.toml" and it.suffix != ".mbox" and it.parent.name != "commands.now"]
    trial.check("what it makes is its owner's alone: files, and those that others may read", (len(own) > 4, [it.name for it in own if it.stat().st_mode & 0o077]), (True, []))


def not_begun(trial, keeper):
    """What it ends with at once."""
    with socket.create_server(("127.0.0.1", 0)) as peer:
        ran = subprocess.run([*map(str, keeper.words), str(peer.getsockname()[1])], env=keeper.env, capture_output=True, text=True, timeout=60, check=False)
    trial.check("a port that is taken", (ran.returncode, ran.stderr), (1, "archive: F4 Net\n"))
    keeper.put("policy.toml", "[[rule]]\n")
    ran = subprocess.run([*map(str, keeper.words), str(keeper.port)], env=keeper.env, capture_output=True, text=True, timeout=60, check=False)
    trial.holds("a policy.toml that is none, at the beginning", ran.returncode == 1 and ran.stderr.startswith("keep.sh: policy.toml: archive: P"), ran.stderr.strip())


def keys_of(file):
    with open(file, "rb") as lines:
        return [mbox.key_of(text) for _, _, text in mbox.messages(lines)]


def ordered(trial, program, script, room, few, more):
    """Eight writers give a hundred orders at once, while an import runs: all are carried out, each writer's in its order."""
    keeper = Keeper(script, program, room / "ordered")
    keeper.put("policy.toml", OPEN)
    keeper.order("first", "list-add soc\nlist-add more\n")
    keeper.mail("soc", few)
    keeper.begin()
    keys = keys_of(few)[:100]
    keeper.shows(f"/l/soc/m/{keys[0]}", b" 200 OK")
    (keeper.folder / "commands.d" / "folder").mkdir()
    (keeper.folder / "commands.d" / "nowhere").symlink_to("none")
    keeper.mail("more", more)
    keeper.until(lambda: (keeper.folder / "archive.next").exists(), 60)

    def write(writer):
        for number, key in enumerate(keys[writer::8]):
            keeper.order(f"{time.time_ns()}-{writer}-{number}", f"withdraw soc {key} author\n")

    writers = [threading.Thread(target=write, args=(it,)) for it in range(8)]
    runs = "import --db archive.next more" not in keeper.log()
    for it in writers:
        it.start()
    for it in writers:
        it.join()
    trial.holds("eight writers give a hundred orders while an import runs", runs and "import --db archive.next more" not in keeper.log())
    keeper.until(lambda: keeper.log().count(": withdrawn\n") == 100 and not (keeper.folder / "commands.now").exists(), 1200)
    said = [line.split()[5] for line in keeper.log().splitlines() if " withdraw " in line]
    trial.check("orders that were carried out, and refused", (len({*said}), len(said), keeper.log().count(": archive: E")), (100, 100, 0))
    trial.check("writers whose orders are not in their order", [writer for writer in range(8) if [it for it in said if it in keys[writer::8]] != keys[writer::8]], [])
    keeper.shows(f"/l/soc/m/{said[-1]}", b" 403 Forbidden")
    trial.check("those that are not seen", [it for it in keys if b" 403 Forbidden" not in keeper.page(f"/l/soc/m/{it}")], [])
    named = [keeper.log().count(f"commands.d/{it}: it cannot be read, and stays\n") for it in ("folder", "nowhere")]
    trial.check("what cannot be read stays, and is named once", (named, sorted(it.name for it in (keeper.folder / "commands.d").iterdir())), ([1, 1], ["folder", "nowhere"]))
    trial.check("stopped: status", keeper.stop(), 0)


def behind_mail(trial, program, script, room, few, _):
    """Orders are carried out while mail is wanting memory, and waits."""
    stand_in = room / "wanting"
    stand_in.write_text(f'#!/bin/sh\n[ "$1" != import ] || [ ! -e wanting ] || {{ echo "archive: E14 Memory" >&2; exit 1; }}\nexec {program} "$@"\n')
    stand_in.chmod(0o700)
    keeper = Keeper(script, stand_in, room / "behind", AGAIN="300")
    keeper.put("policy.toml", OPEN)
    keeper.put("wanting", "")
    keeper.put("commands", "list-add soc\n")
    keeper.begin()
    keeper.shows("/", b"/l/soc/", 60)
    keeper.mail("soc", few)
    keeper.until(lambda: keeper.log().count(": archive: E14 Memory\n") == 2, 60)
    keeper.order("1", "list-add board\n")
    keeper.shows("/", b"/l/board/", 60)
    left = keeper.folder / "mail" / "soc" / "come.mbox"
    trial.check("mail is wanting memory, and put off: an order is carried out, the mail waits, and is not tried for it",
                (b"/l/board/" in keeper.page("/"), left.exists(), keeper.log().count(": archive: E14 Memory\n")), (True, True, 2))
    (keeper.folder / "wanting").unlink()
    keeper.stop()
    keeper.begin()
    keeper.until(lambda: not left.exists() and keeper.page("/"), 60)
    trial.check("begun again it takes the mail in", (keeper.counts()[0], keeper.stop()), ({"soc": 1000, "board": 0}, 0))


def without_serving(trial, program, script, room, few, _):
    """`--once` does what waits, and says by its status whether all is settled."""
    keeper = Keeper(script, program, room / "once")
    keeper.order("first", "list-add soc\n")
    keeper.mail("soc", few)
    trial.check("--once: commands and mail, without a policy", (keeper.once(), keeper.counts()), ((0, ""), ({"soc": 1000}, "ok")))
    trial.check("--once: nothing waits", keeper.once(), (0, ""))
    keeper.order("1", "list-add unended")
    keeper.order("2", "list-add last\n")
    done = keeper.folder / "commands.done"
    trial.check("--once: a line without an end is one", (keeper.once(), done.read_text()), ((0, ""), "list-add soc\nlist-add unended\nlist-add last\n"))
    lock = sqlite3.connect(keeper.folder / "archive.db")
    lock.execute("BEGIN EXCLUSIVE")
    keeper.order("second", "list-add board\n")
    trial.check("--once: a database that another program has", keeper.once(), (1, "keep.sh: list-add --db archive.db board: archive: E15 Store\n"))
    lock.close()
    trial.check("--once: and again, without it", (keeper.once(), keeper.counts()[0]), ((0, ""), {"soc": 1000, "board": 0, "unended": 0, "last": 0}))
    (keeper.folder / "commands.d" / "folder").mkdir()
    trial.check("--once: a file of commands that cannot be read", keeper.once(), (1, ""))
    (keeper.folder / "commands.d" / "folder").rmdir()
    keeper.put("policy.toml", OPEN)
    keeper.begin()
    keeper.shows("/", b"/l/board/")
    trial.check("--once: beside one that serves", keeper.once(), (1, "keep.sh: another one has this folder, or what it began still runs\n"))
    keeper.stop()
    ran = [subprocess.run([script, *words], env=keeper.env, capture_output=True, text=True, check=False) for words in ((), ("--once",), ("--once", "a", "80"), ("a", "80", "b"))]
    trial.check("usage errors: statuses, and lines", {(it.returncode, it.stderr) for it in ran}, {(2, "keep.sh: usage: FOLDER [PORT], --once FOLDER, or --look FOLDER; --help says more\n")})


def lines_of(file):
    """The lines of a file that are no comments."""
    return [it for it in file.read_text().splitlines() if not it.startswith("#")] if file.exists() else []


def mistyped(trial, program, script, room, few, _):
    """A line that is no command, is a usage error or is refused goes to commands.refused, and `--once` ends with status 1."""
    keeper = Keeper(script, program, room / "mistyped")
    done, refused = keeper.folder / "commands.done", keeper.folder / "commands.refused"
    key, token = keys_of(few)[0], "5fW2xkQ0aTz7uYp1"
    keeper.order("1", "list-add soc\n")
    keeper.mail("soc", few)
    trial.check("nothing was refused: --once, --look", (keeper.once(), keeper.look()), ((0, ""), (0, "")))
    # (the list is there before: as where a command comes a second time after a crash)
    good = ["list-add soc", "list-add board"]
    wrong = [f"withdrw soc {key} author", f"withdraw soc {key} authr", f"withdraw soc {'0' * 64} author", f"person-ad mo {token}", f"person-add mo -{token}", "grant mo"]
    before = keeper.log()
    keeper.order("2", "".join(f"{it}\n" for it in [good[0], *wrong, good[1]]))
    status, said = keeper.once()
    trial.check("mistyped commands: --once", (status, said.count("\n"), "commands.refused" in said, token in said), (1, 1, True, False))
    trial.check("commands.refused has them", lines_of(refused), wrong)
    trial.check("commands.done has the others", lines_of(done), ["list-add soc", *good])
    told = keeper.log().removeprefix(before).splitlines()
    trial.check("log has one line a command", ([it[:2] for it in told], len(told)), (["20"] * 8, 8))
    trial.check("and the file is its owner's alone", oct(refused.stat().st_mode & 0o077) if refused.exists() else None, "0o0")
    status, said = keeper.look()
    shown = [it for it in said.splitlines() if it.startswith("log: ")]
    trial.check("--look: its status, how many lines of the log, and whether it shows a token", (status, len(shown), token in said), (1, 7, False))
    trial.holds("it says how many commands were refused", "\ncommands.refused: 6 " in said, said.splitlines()[-1:])
    trial.check("--once again: nothing is left", keeper.once(), (0, ""))
    if refused.exists():
        keeper.order("3", refused.read_text().replace("withdrw", "withdraw").replace("authr", "author"))
        refused.unlink()
    trial.check("mended and given again: --once, and what was withdrawn", (keeper.once()[0], keeper.log().count(": withdrawn\n")), (1, 1))
    trial.check("what is refused again is there again", lines_of(refused), wrong[2:])
    keeper.order("4", f"person-add mo {token}\n")
    keeper.once()
    named = re.search(r"Tokens stay in (.*)\.$", output(script, "--help"), re.MULTILINE)
    found = {it.name.removesuffix("-wal") for it in keeper.folder.rglob("*") if it.is_file() and token.encode() in it.read_bytes()}
    trial.check("the files with tokens are those that keep.sh --help names", sorted(found), sorted(re.findall(r"[a-z]+(?:\.[a-z]+)?", named[1].replace(" and ", " "))) if named else None)


def state_of(folder):
    """The files of a folder, each with its size and its time."""
    return {it: (it.stat().st_size, it.stat().st_mtime_ns) for it in folder.rglob("*")}


def looked_at(trial, program, script, room, few, _):
    """`--look` finds mail that was refused or was too large, a policy that is none, and what cannot be read."""
    keeper = Keeper(script, program, room / "looked")
    keeper.order("1", "list-add soc\n")
    (room / "large.mbox").write_text("From a@b Tue Mar  4 10:00:00 2003\n\n" + "x\n" * 8_500_000)
    keeper.mail("soc", room / "large.mbox")
    keeper.mail("none", few)
    keeper.once()
    (keeper.folder / "commands.d" / "folder").mkdir()
    keeper.once()
    keeper.put("policy.toml", OPEN)
    keeper.begin()
    keeper.shows("/", b"/l/soc/", 60)
    keeper.put("policy.toml", "[[rule]]\n")
    keeper.until(lambda: "policy.toml: " in keeper.log(), 20)
    keeper.stop()
    before = state_of(keeper.folder)
    status, said = keeper.look()
    wanted = ("soc/come.mbox: new 0 known 0 too-large 1\n", "none/come.mbox: archive: E4 NoList after 0\n", "commands.d/folder: it cannot be read, and stays\n",
              "policy.toml: archive: P", "\npolicy.toml: it is no policy", "\nmail.refused/none/")
    trial.check("--look: its status, and what it does not find", (status, [it for it in wanted if it not in said]), (1, []))
    trial.holds("it changes nothing", state_of(keeper.folder) == before)
    (keeper.folder / "log").rename(keeper.folder / "log.old")
    shutil.rmtree(keeper.folder / "mail.refused")
    (keeper.folder / "commands.d" / "folder").rmdir()
    keeper.put("policy.toml", OPEN)
    keeper.begin()
    keeper.until(lambda: keeper.page("/"), 60)
    keeper.stop()
    trial.check("what was seen to is not shown again", keeper.look(), (0, ""))
    waited_for(trial, keeper, script, room, few)


def waited_for(trial, keeper, script, room, few):
    """`--look` finds what has waited for two hours. Nobody can set the time of such a change, so a stand-in for `find` asks for one of now."""
    (room / "bin").mkdir()
    (room / "bin" / "find").write_text(f'#!/bin/bash\nexec {shutil.which("find")} "${{@/#+120/-120}}"\n')
    (room / "bin" / "find").chmod(0o755)
    late = Keeper(script, "/bin/false", keeper.folder, PATH=f"{room / 'bin'}:{os.environ['PATH']}")
    late.order("1", "list-add late\n")
    late.order(".2", "list-add unfinished\n")
    late.mail("late", few)
    trial.check("--look: what waits now", keeper.look(), (0, ""))
    trial.check("--look: what has waited for two hours", (late.look()[0], sorted(late.look()[1].splitlines())), (1, [f"{it}: it has waited for two hours" for it in ("commands.d/1", "mail/late/come.mbox")]))


def small_mails(file, numbers):
    file.write_text("".join(f"From a@b Tue Mar  4 10:00:00 2003\nSubject: {it}\n\n" for it in numbers))
    return keys_of(file)


def filled(trial, program, script, room, *_):
    """A list gets full: what it refuses is told, or goes on in the next list, if it may."""
    keeper = Keeper(script, program, room / "full")
    mails, over = room / "full.mbox", room / "over.mbox"
    keys = small_mails(mails, range(FULL))
    keeper.order("1", f"list-add soc\nmerge soc no\nperson-add mo 0123456789abcdef\ngrant mo soc moderator 2003-01-01 2003-12-31\n")
    keeper.mail("soc", mails)
    trial.check("a list that is just full", (keeper.once(), keeper.counts()), ((0, ""), ({"soc": FULL}, "ok")))
    shown = output(SAMPLES / "show.sh", keeper.folder / "archive.db").splitlines()[1]
    trial.holds("show.sh says how full it is", shown.startswith(f"soc\t{FULL}\t") and shown.endswith("\t100.0%"), shown)
    keeper.order("2", f"withdraw soc {keys[0]} author\n")
    keeper.once()
    # (the second one that is refused is new, and between new ones stands one that was withdrawn)
    new = small_mails(over, [1, FULL, 0, FULL + 1])
    keeper.mail("soc", over)
    trial.check("without `continue` it is refused", (keeper.once(), keeper.counts()[0]), ((0, ""), {"soc": FULL}))
    full = (keeper.folder / "full").read_text().split(" ", 1)[1].split(": ")
    trial.check("the file `full` says of which list, after how many, and where it lies",
                (full[:2], [str(it.relative_to(keeper.folder)) for it in (keeper.folder / "mail.refused").glob("soc/*.mbox")]), (["soc", "E12 ListFull after 1"], [full[2].strip()]))
    trial.holds("--look has it too", f"full: {(keeper.folder / 'full').read_text().strip()}" in keeper.look()[1].splitlines())
    (keeper.folder / "continue").touch()
    (keeper.folder / "policy.toml").write_text('[[rule]]\nname = "a"\neffect = "allow"\nlists = ["soc"]\n')
    keeper.mail("soc", over)
    keeper.once()
    trial.check("a policy that names the list alone: it is not continued", (keeper.log().count("soc is full, and is not continued: policy.toml names soc, and not soc-2\n"),
                keeper.counts()[0]), (1, {"soc": FULL}))
    (keeper.folder / "policy.toml").write_text(OPEN)
    keeper.mail("soc", over)
    trial.check("it goes on in the next list", (keeper.once(), keeper.counts()), ((0, ""), ({"soc": FULL, "soc-2": 2}, "ok")))
    stock = sqlite3.connect(keeper.folder / "archive.db")
    trial.check("of what it does not hold, in its order", [it for (it,) in stock.execute("SELECT key FROM message WHERE list = 'soc-2' ORDER BY pos")], [new[1], new[3]])
    trial.check("with its grants, and its threading", (stock.execute("SELECT person, kind FROM grant_row WHERE list = 'soc-2'").fetchall(),
                stock.execute("SELECT merge FROM list_option WHERE list = 'soc-2'").fetchall()), ([("mo", 3)], [(0,)]))
    stock.close()
    keeper.mail("soc", over)
    trial.check("the same again changes nothing", (keeper.once(), keeper.counts()[0]), ((0, ""), {"soc": FULL, "soc-2": 2}))


# What follows when the first keeper has ended, each with a folder of its own.
LATER = {it.__name__: it for it in (ordered, behind_mail, without_serving, mistyped, looked_at, filled)}


def main():
    asked = words_of(__doc__, script={"default": SAMPLES / "keep.sh", "help": "another keep.sh"}, mails={"type": int, "default": 7000, "help": "messages at first"},
                     more={"type": int, "default": 20000, "help": "messages that come"},
                     only={"choices": LATER, "help": "one of the later parts"})
    program, script = asked.archive, pathlib.Path(asked.script).resolve()
    with Trial() as trial, tempfile.TemporaryDirectory() as room:
        room = pathlib.Path(room)
        mails, more, few = room / "mails.mbox", room / "more.mbox", room / "few.mbox"
        for file, count in ((mails, asked.mails), (more, asked.more), (few, 1000)):
            output(sys.executable, ROOT / "bench" / "gen_mbox.py", "--n", count, "--out", file)
        if asked.only:
            return LATER[asked.only](trial, program, script, room, few, more)
        keeper = Keeper(script, program, room / "kept")
        keeper.put("policy.toml", OPEN)
        keeper.put("commands", "list-add soc\n")
        keeper.mail("soc", mails)
        keeper.begin()
        try:
            keeper.shows("/", b"/l/soc/")
            trial.check("the first mails", keeper.counts(), ({"soc": asked.mails}, "ok"))
            come(trial, keeper, program, more, asked.more)
            loaded(trial, keeper, program)
            without_room(trial, keeper)
            not_put_away(trial, keeper)
            killed(trial, keeper, few)
            stopped(trial, keeper, more, asked.more)
            keeper.process.send_signal(signal.SIGHUP)
            trial.check("its terminal is gone: it ends with status, and leaves running", (keeper.process.wait(20), keeper.running()), (0, []))
        finally:
            if keeper.process.poll() is None:
                keeper.kill()
        expected = ("keep.sh: policy.toml: ", "keep.sh: list-add --db archive.next roomless: ", "mv: ", "sed: ", "keep.sh: what is left is tried again in ")
        told = (room / "errors").read_text().splitlines()
        trial.check("what it said on standard error, beside what was to be said", [it for it in told if not it.startswith(expected)], [])
        without_tokens(trial, room, keeper)
        not_begun(trial, keeper)
        for does in LATER.values():
            does(trial, program, script, room, few, more)


main()
