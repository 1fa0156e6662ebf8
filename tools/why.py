"""Why a run of the toolchain's gate failed: the lines that say so, out of all that it said, for the scripts beside this one."""
import re, sys

# An error with its place, a function that is not proved, and whatever `rt` says but of what passed.
WHY = re.compile(r".*: error[:\[].*|fn \S+: not proved|FAILED .*|rt: (?!note: |warning: |ok;).*")
PASSED = re.compile(r"rt: \w+(: its tests are)? proved|rt: \w+ (is kept: |ran\b).*|rt: \w+: (trying its|\d+ of its|its tests passed).*"
                    r"|rt: must-fail \S+: refused\b.*")
MOST, WIDEST = 40, 240


class Why:
    """The lines that say why something failed."""

    def __init__(self):
        self.lines, self.crate = [], ""

    def hear(self, line):
        if line.startswith("== "):
            self.crate = line.removeprefix("== ")
        elif WHY.match(line) and not PASSED.match(line):
            self.lines.append(line if line.startswith(("rt: ", "fn ")) else f"{self.crate}: {line}")

    def tell(self, who, to=sys.stdout):
        """Says them together, each cut where it is long."""
        print(f"{who}: what failed, and why (what was said before says more):", file=to)
        for it in self.lines[:MOST]:
            print(f"  {it}" if len(it) <= WIDEST else f"  {it[:WIDEST]} ..", file=to)
        if len(self.lines) > MOST:
            print(f"  and {len(self.lines) - MOST} lines more", file=to)
