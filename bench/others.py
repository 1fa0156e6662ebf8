#!/usr/bin/env python3
"""others.py: what archives of mailing lists take for one list: this one, public-inbox and MHonArc.

  bench/others.py [--archive PROGRAM] [--messages 5000] [--folder FOLDER]

Of one mbox (bench/gen_mbox.py): it is taken in whole; then twenty mails more; then one mail is taken out: withdrawn here, purged from
the history of public-inbox, removed from MHonArc's pages. It prints processor seconds, of all that each starts, and the megabytes that
lie on the disk after the first step. public-inbox (version 2, index `basic`) makes git commits and an index, MHonArc writes a page for
each mail: so these are figures of programs that do different things. Debian's packages are public-inbox and mhonarc.
"""
import argparse, hashlib, os, pathlib, resource, shutil, subprocess, sys, tempfile

import gen_mbox

MORE = 20
# public-inbox has no command that takes an mbox: this is what its importers call.
PUBLIC_INBOX = """use PublicInbox::Config; use PublicInbox::InboxWritable;
my $inbox = PublicInbox::InboxWritable->new(PublicInbox::Config->new->lookup_name('soc'));
open my $mbox, '<', $ARGV[0] or die $!; $inbox->import_mbox($mbox, 'mboxrd');"""


def run(words, folder, given=None):
    """The processor seconds of a command with all that it starts."""
    before = resource.getrusage(resource.RUSAGE_CHILDREN)
    known = {"HOME": str(folder), "PI_CONFIG": str(folder / "config"), "LC_ALL": "C.UTF-8"}
    with open(given or os.devnull, "rb") as source:
        ran = subprocess.run([*map(str, words)], stdin=source, stdout=subprocess.DEVNULL, stderr=subprocess.PIPE, cwd=folder, env={**os.environ, **known}, check=False)
    if ran.returncode:
        sys.exit(f"{words[0]} ended with {ran.returncode}: {ran.stderr.decode(errors='replace')[-300:]}")
    after = resource.getrusage(resource.RUSAGE_CHILDREN)
    return after.ru_utime + after.ru_stime - before.ru_utime - before.ru_stime


def megabytes(path):
    return sum(it.stat().st_blocks * 512 for it in [path, *path.rglob("*")] if not it.is_symlink()) / 1e6


def boxes(folder, count):
    """An mbox of so many messages, one of those that come later, and the text of the one in the middle."""
    asked = argparse.Namespace(n=count + MORE, seed=1, list="soc", start="2003-01-01", years=8, seps="rfc", traps=0.0, crlf=0.0)
    found = [(line, text) for line, text, _ in gen_mbox.Gen(asked).messages()]
    for name, part in (("whole", found[:count]), ("more", found[count:])):
        (folder / f"{name}.mbox").write_bytes(b"".join(it for line, text in part for it in (line, text, b"\n")))
    return found[count // 2][1]


def ours(program, folder, text):
    key = hashlib.sha256(text).hexdigest()
    run([program, "list-add", "--db", "soc.db", "soc"], folder)
    took = [run([program, "import", "--db", "soc.db", "soc", folder / "whole.mbox"], folder)]
    size = megabytes(folder / "soc.db")
    took.append(run([program, "import", "--db", "soc.db", "soc", folder / "more.mbox"], folder))
    return [*took, run([program, "withdraw", "--db", "soc.db", "soc", key, "author"], folder)], size


def public_inbox(folder, text):
    run(["public-inbox-init", "-V2", "-L", "basic", "soc", folder / "inbox", "http://127.0.0.1/soc", "soc@lists.example"], folder)
    took = [run(["perl", "-e", PUBLIC_INBOX, folder / "whole.mbox"], folder)]
    size = megabytes(folder / "inbox")
    took.append(run(["perl", "-e", PUBLIC_INBOX, folder / "more.mbox"], folder))
    (folder / "one").write_bytes(text)
    return [*took, run(["public-inbox-purge", folder / "inbox"], folder, given=folder / "one")], size


def mhonarc(folder, text):
    (folder / "pages").mkdir()
    took = [run(["mhonarc", "-quiet", "-outdir", folder / "pages", folder / "whole.mbox"], folder)]
    size = megabytes(folder / "pages")
    took.append(run(["mhonarc", "-quiet", "-add", "-outdir", folder / "pages", folder / "more.mbox"], folder))
    return [*took, run(["mhonarc", "-quiet", "-rmm", "-outdir", folder / "pages", "100"], folder)], size


def main():
    words = argparse.ArgumentParser(description=__doc__, formatter_class=argparse.RawDescriptionHelpFormatter)
    words.add_argument("--archive", type=pathlib.Path, default=pathlib.Path(__file__).resolve().parent.parent / "crates/archive/out/archive")
    words.add_argument("--messages", type=int, default=5000)
    words.add_argument("--folder")
    asked = words.parse_args()
    with tempfile.TemporaryDirectory(dir=asked.folder) as room:
        folder = pathlib.Path(room)
        text = boxes(folder, asked.messages)
        print(f"{asked.messages} mails, {megabytes(folder / 'whole.mbox'):.1f} MB, load {os.getloadavg()[0]:.0f}")
        each = {"archive": lambda: ours(asked.archive.resolve(), folder, text)}
        each.update({name: lambda run_it=run_it: run_it(folder, text) for name, run_it, wanted in
                     (("public-inbox", public_inbox, "public-inbox-init"), ("mhonarc", mhonarc, "mhonarc")) if shutil.which(wanted)})
        for name, measured in each.items():
            took, size = measured()
            print(f"{name:13} all {took[0]:7.2f} s  {size:7.1f} MB  {MORE} more {took[1]:6.2f} s  one out {took[2]:6.2f} s", flush=True)


main()
