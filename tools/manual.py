#!/usr/bin/env python3
"""Makes the manual page docs/archive.1 from the help that the program prints, as the tested output of run_cases has it.

  manual.py            says whether the manual is as made; status 1 if not
  manual.py --write    writes it
"""
import pathlib, re, sys

ROOT = pathlib.Path(__file__).resolve().parent.parent
HELP = ROOT / "crates" / "run_cases" / "stdout"
MANUAL = ROOT / "docs" / "archive.1"
WIDTH = 76
# What commands say of the order of their inputs, and the manual says once.
ORDER = re.compile(r"(?:Opens FILE|Reads the policy|The policy is read)\b[^.]*\.\s*")
NOTES = (
    "Options and arguments may come in any order; an option may be given once. After `--` no argument is an option, so a TOKEN may begin with -.",
    "Only one program at a time can have FILE open. FILE holds tokens in plain text: create it under umask 077.",
)
REFUSALS = "`archive COMMAND --help` says what each means for the command; docs/REFUSALS.md, where to look first and what to do."
PAGES = "docs/COMMANDS.md, docs/POLICY.md, docs/REFUSALS.md and docs/HTTP.md in the repository; `samples/keep.sh` there runs an archive for years."


def printed(words):
    """Returns what the program prints for these words."""
    found = re.search(rf"^\$ {re.escape(words)}\n(.*?)\n\[0\]$", HELP.read_text(encoding="utf-8"), re.M | re.S)
    if not found:
        sys.exit(f"manual: crates/run_cases/stdout has no output of '{words}'")
    return found[1]


class Command:
    """The help of a command, by its parts."""

    def __init__(self, words):
        self.about, usage, *rest = printed(words).split("\n\n")
        self.usage = usage.removeprefix("Usage: ")
        listed = [it for it in rest if re.match(r"(Commands|Arguments|Options):\n", it)]
        self.lines = [re.split(r" {2,}", line.strip(), maxsplit=1) for it in listed for line in it.split("\n")[1:]]
        self.end = [it for it in rest if it not in listed]

    def values(self):
        """Returns each argument and each option with a value, as the manual names it, and what it is."""
        return [(re.sub("[<>]", "", name), text) for name, text in self.lines if "<" in name]

    def synopsis(self):
        """Returns the words of a call, those that belong together as one."""
        pieces = re.findall(r"--[\w-]+ <\w+>|<\w+>|\S+", re.sub("^archive ", "", self.usage))
        optional = [f"[{name}]" for name, _ in self.values() if name.startswith("--") and name.replace(" ", " <") + ">" not in pieces]
        return [it for piece in pieces for it in (optional if piece == "[OPTIONS]" else [re.sub("[<>]", "", piece)])]

    def paragraphs(self):
        """Returns what the manual has of the end: all but order, statuses and the example, and of the refusals the numbers."""
        listed, _, others = " ".join(next(it for it in self.end if "Refusals:" in it).split()).partition("Refusals:")[2].partition(". ")
        numbers = dict.fromkeys(re.findall(r"\b[A-Z]\d+(?: to [A-Z]\d+)?", listed))
        says = [ORDER.sub("", it, count=1) for it in self.end if not it.startswith(("Status:", "Example:"))]
        return [*filter(None, says), f"Refusals: {', '.join(numbers)}. {others}"]


def roff(text):
    """Returns a text as lines of the manual: a sentence each, and in bold what stands in backticks."""
    text = re.sub(r"`([^`]*)`", "\\\\fB\\1\\\\fR", re.sub("-", r"\\-", " ".join(text.split())))
    return [f"\\&{it}" if it.startswith((".", "'")) else it for it in re.split(r"(?<=[.]) (?=[A-Z])", text)]


def called(command):
    """Returns the lines of a call."""
    name, *words = command.synopsis()
    lines, at = [f"archive {name}"], 0
    for word in words:
        if len(lines[-1]) + 1 + len(word) > WIDTH:
            lines.append(" " * len(f"archive {name}"))
        lines[-1] += f" {word}"
    lines = [re.sub(r"--[a-z-]+", r"`\g<0>`", it) for it in lines]
    lines[0] = lines[0].replace(f"archive {name}", f"`archive {name}`", 1)
    return [re.sub("`([^`]*)`", r"\\fB\1\\fR", it.replace("-", r"\-")) for it in lines]


def listed(name, *paragraphs):
    """Returns the lines of a thing with a heading of its own."""
    first, *others = paragraphs
    return [".TP", *roff(re.sub("^[a-z-]+", r"`\g<0>`", name)), *roff(first), *(line for it in others for line in (".IP", *roff(it)))]


def values(commands):
    """Returns each value of the command line once: an option or an argument, and what it is; where commands differ, of which."""
    found = {}
    for name, command in commands.items():
        for value, text in command.values():
            found.setdefault(value, {}).setdefault(text, []).append(name)
    ordered = sorted(found, key=lambda it: not it.startswith("--"))
    return {it: [f"{text}." if len(found[it]) == 1 else f"Of {', '.join(names)}: {text}." for text, names in found[it].items()] for it in ordered}


def example(paragraph):
    """Returns the lines of an example, whose first word names the program."""
    return [".PP", ".nf", *(it.strip().replace("-", r"\-") for it in paragraph.removeprefix("Example:").strip().split("\n")), ".fi"]


def made():
    """Returns the text of the manual."""
    whole = Command("--help")
    names = [name for name, _ in whole.lines if re.fullmatch("[a-z-]+", name) and name != "help"]
    commands = {name: Command(f"{name} --help") for name in names}
    *says, statuses, examples = whole.end
    filters = next(it for it in commands["sift"].end if it.startswith("Example:"))
    lines = [f'.TH ARCHIVE 1 "" "{printed("--version")}" "User Commands"', ".SH NAME", *roff(f"archive - {whole.about[0].lower()}{whole.about[1:]}"),
             ".SH SYNOPSIS", ".nf", r"\fBarchive\fR < MBOX", *(line for it in commands.values() for line in called(it)),
             r"\fBarchive help\fR [COMMAND]", r"\fBarchive \-\-version\fR", ".fi", ".SH DESCRIPTION"]
    for it in (*says, *NOTES):
        lines += [".PP", *roff(it)]
    lines += [".SH COMMANDS", *(line for name, it in commands.items() for line in listed(name, f"{it.about}.", *it.paragraphs()))]
    lines += [".SH ARGUMENTS AND OPTIONS", *(line for name, texts in values(commands).items() for line in listed(name, " ".join(texts)))]
    lines += [".SH EXIT STATUS", *roff(statuses.removeprefix("Status: ")), ".SH REFUSALS", *roff(REFUSALS)]
    lines += [".SH EXAMPLES", *example(examples), *example(filters), ".SH SEE ALSO", *roff(PAGES)]
    return "\n".join(lines) + "\n"


def main(words):
    if words not in ([], ["--write"]):
        sys.exit(__doc__)
    text = made()
    if words:
        MANUAL.write_text(text, encoding="utf-8")
    elif MANUAL.read_text(encoding="utf-8") != text:
        print("manual: docs/archive.1 is not what the help says (tools/manual.py --write)")
        return 1
    return 0


if __name__ == "__main__":
    sys.exit(main(sys.argv[1:]))
