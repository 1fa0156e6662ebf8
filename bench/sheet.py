#!/usr/bin/env python3
"""sheet.py: what an archive on many machines takes, reckoned from measured figures: memory, processors, network, and how soon a mail is gone.

  bench/sheet.py [--figures bench/copies.json] [--mails 50000000] [--texts 200] [--lists 2000] [--lists-a-shard 1 10] [--copies 2]
                 [--rate 10000] [--mix message=0.9 thread=0.09 threads=0.01] [--memory 128] [--processors 16] [--disk 2] [--wire 1.25]
                 [--fails 2000] [--repaired 24] [--years 100] [--patience 60] [--seed 1]
  bench/sheet.py --small FIGURES --trial FIGURES

The first prints a table for so many mails, GB of texts, lists and copies, asked so many times a second, on machines of so many GB and
processors, whose disks and wires move so many GB a second. A machine fails each --fails hours and is there again after --repaired
hours, both exponential; so many years of that are played through, by a generator with a seed, with one withdrawal an hour.
--figures is what bench/copies.py measured; a value between two sizes lies on the line between them, one beyond the largest is in
proportion to it.

The second looks whether the sheet is any good: it reckons what trials/scale.py measured (--figures of it) in a run with large lists
from copies.py's figures, and from the seconds that the scripts took in a run with small ones (--small). Beside each stand both and
their ratio; the last line has how many lie within a third, and the status is 1 where one does not.
"""
import argparse, heapq, json, math, pathlib, random, statistics, sys

ROOT = pathlib.Path(__file__).resolve().parent.parent
HEADS = 300  # bytes of a reply's head and of its request, on a wire
COMMANDS = 2  # of a batch that withdraws a mail: the withdrawal, and the mark (samples/scale/everywhere.sh), each of which opens the file


class Costs:
    """What was measured, for any size."""

    def __init__(self, figures):
        self.sizes, self.pages = sorted(figures["sizes"], key=lambda it: it["texts"]), figures["pages"]

    def at(self, what, texts):
        """A value for so many bytes of texts: on the line through the two sizes around it, or in proportion to the largest."""
        places = [it["texts"] for it in self.sizes]
        if texts > places[-1]:
            return self.sizes[-1][what] * texts / places[-1]
        last = min(max(sum(place < texts for place in places), 1), len(places) - 1)
        (x, y), (z, w) = [(it["texts"], it[what]) for it in self.sizes[last - 1:last + 1]]
        return max(0, y + (w - y) * (texts - x) / (z - x))

    def threads(self, mails):
        """The bytes of a page of all threads."""
        return mails * self.sizes[-1]["threads"] / self.sizes[-1]["mails"]

    def page(self, kind, who, mails):
        """What a page of a list of so many mails takes: its bytes, or microseconds of the servers, of HAProxy, of nginx."""
        found = self.pages[kind]
        times = self.threads(mails) / found["bytes"] if kind == "threads" else 1
        if who == "bytes":
            return times * found["bytes"]
        # (of many servers each is asked now and then, and the proxy all the time)
        if who == "servers":
            return times * found["haproxy in turn"]["servers"]
        return times * min(it["proxy"] for name, it in found.items() if name.startswith(f"{who} with"))


class Plan:
    """An archive in shards of so many lists."""

    def __init__(self, costs, asked, lists):
        self.costs, self.asked, self.lists = costs, asked, lists
        self.shards = math.ceil(asked.lists / lists)
        self.texts = asked.texts * 1e9 / self.shards
        self.mails = asked.mails / asked.lists

    def memory(self):
        """The GB of a copy of all shards, each with its threads kept."""
        return self.shards * self.costs.at("kept", self.texts) / 1e9

    def disk(self):
        return self.costs.at("disk", self.texts)

    def opening(self):
        """The seconds of a processor until all shards of a copy are open."""
        return self.shards * self.costs.at("open", self.texts)

    def machines(self):
        """How many hold all copies, with one that may be lost: each copy of a shard on another one."""
        full = self.asked.copies * self.memory() / self.asked.memory
        return max(self.asked.copies, math.ceil(full) + 1)

    def requests(self, who):
        """What the requests of a second take: seconds of processors, or MB."""
        total = sum(share * (self.costs.page(kind, who, self.mails) + (HEADS if who == "bytes" else 0)) for kind, share in self.asked.mix.items())
        return total * self.asked.rate / 1e6

    def gone(self):
        """The seconds from a command to `changed`, on machines with nothing else to do, less the scripts' own."""
        file = self.disk() / 1e9
        moved = 2 * file / self.asked.disk + file / self.asked.wire + 2 * file / self.asked.disk  # the keeper's copy, publish.sh's; the wire; brought
        return COMMANDS * self.costs.at("command", self.texts) + moved + self.costs.at("open", self.texts)

    def midnight(self):
        """The seconds until all servers of the next colour are open: by processors, and by what disks are read."""
        share = self.asked.copies * self.shards / self.machines()
        # (a file whose pages are kept is read twice: docs/TABLES.md)
        return share * self.costs.at("open", self.texts) / self.asked.processors, share * self.disk() * 2 / 1e9 / self.asked.disk


class Play:
    """Machines that fail and come back, for so many years."""

    def __init__(self, asked, machines):
        self.asked, self.machines, self.random = asked, machines, random.Random(asked.seed)
        self.hours, self.away = asked.years * 365 * 24, set()
        self.worst, self.dark, self.waits, self.withdrawals = 0, 0.0, 0, 0

    def run(self):
        events = [(self.random.expovariate(1 / self.asked.fails), it) for it in range(self.machines)]
        heapq.heapify(events)
        now = 0.0
        while events[0][0] < self.hours:
            then, machine = heapq.heappop(events)
            self.pass_time(now, then)
            self.away ^= {machine}
            heapq.heappush(events, (then + self.random.expovariate(1 / (self.asked.repaired if machine in self.away else self.asked.fails)), machine))
            now = then
        self.pass_time(now, self.hours)
        return self

    def lost(self):
        """The share of the shards of which no copy is there: neighbours hold the copies of one shard."""
        return sum(all((it + at) % self.machines in self.away for at in range(self.asked.copies)) for it in range(self.machines)) / self.machines

    def pass_time(self, now, then):
        """Notes what holds between two events; of the withdrawals of that time those wait whose copies are not all there."""
        self.worst = max(self.worst, len(self.away))
        self.dark += (then - now) * self.lost()
        held_up = sum(any((it + at) % self.machines in self.away for at in range(self.asked.copies)) for it in range(self.machines)) / self.machines
        self.withdrawals += then - now
        self.waits += (then - now) * held_up


def table(costs, asked):
    plans = [Plan(costs, asked, lists) for lists in asked.lists_a_shard]
    plays = [Play(asked, plan.machines()).run() for plan in plans]
    row = lambda name, say: print(f"| {name} | " + " | ".join(say(plan, play) for plan, play in zip(plans, plays)) + " |")
    row("", lambda plan, _: f"{plan.lists} {'list' if plan.lists == 1 else 'lists'} a shard, {plan.texts / 1e6:,.0f} MB")
    print("|---" * (len(plans) + 1) + "|")
    row("servers a copy", lambda plan, _: f"{plan.shards:,}")
    row("memory a copy, GB", lambda plan, _: f"{plan.memory():,.0f}")
    row(f"machines of {asked.memory:.0f} GB for {asked.copies} copies, one to lose", lambda plan, _: f"{plan.machines()}")
    row("a command; opening a copy of all, seconds of a processor", lambda plan, _: f"{costs.at('command', plan.texts):,.1f}; {plan.opening():,.0f}")
    row(f"{asked.rate:,} requests a second: processors of servers, HAProxy, nginx", lambda plan, _: ", ".join(f"{plan.requests(it):.1f}" for it in ("servers", "haproxy", "nginx")))
    row("and MB a second, not compressed", lambda plan, _: f"{plan.requests('bytes'):,.0f}")
    row("a mail is withdrawn: seconds to `changed`, beside the scripts' own", lambda plan, _: f"{plan.gone():.1f}")
    row("with a machine away, at most as many more", lambda plan, _: f"{asked.patience}")
    row("withdrawals that a machine holds up", lambda plan, play: f"{100 * play.waits / play.withdrawals:.1f} %")
    row("hours a year in which a list has no copy", lambda plan, play: f"{play.dark / asked.years:.2f}")
    row("most machines away at once", lambda plan, play: f"{play.worst} of {play.machines}")
    row("midnight: seconds of all processors; of all disks", lambda plan, _: f"{plan.midnight()[0]:.0f}; {plan.midnight()[1]:.0f}")


def compare(costs, small, trial):
    """What a run of trials/scale.py measured, beside what is reckoned of it."""
    texts, less = trial["texts"], small["texts"]
    pace = trial["stretch"] / small["stretch"]
    median = lambda figures, what: statistics.median(it[what] for it in figures["withdrawals"])
    more = lambda what: (costs.at(what, texts) - costs.at(what, less)) * trial["stretch"]
    rows = {
        "a server holds, MB": (statistics.median(it["held"] for it in trial["server"]) / 1e6, costs.at("kept", texts) / 1e6),
        "a server opens its file, seconds of a processor": (statistics.median(it["spent"] for it in trial["server"]), costs.at("open", texts)),
        "a page, microseconds of the servers": (trial["served"]["microseconds"], (costs.page("message", "servers", 0) + costs.page("thread", "servers", 0)) / 2),
        "a withdrawal until the keeper has it, s": (median(trial, "settled"), median(small, "settled") * pace + COMMANDS * more("command")),
        "then until `changed`, s": (median(trial, "changed") - median(trial, "settled"), (median(small, "changed") - median(small, "settled")) * pace + more("open")),
        "all of it, s": (median(trial, "changed"), median(small, "changed") * pace + COMMANDS * more("command") + more("open")),
    }
    good = 0
    for name, (found, reckoned) in rows.items():
        ratio = reckoned / found if found else math.inf
        good += 3 / 4 <= ratio <= 4 / 3
        print(f"{name}: measured {found:.2f}, reckoned {reckoned:.2f}, ratio {ratio:.2f}")
    print(f"{good} of {len(rows)} within a third")
    return 0 if good == len(rows) else 1


def share(text):
    kind, _, part = text.partition("=")
    if kind not in ("message", "thread", "threads"):
        raise argparse.ArgumentTypeError(f"{kind} is no kind of page: message, thread or threads")
    return kind, float(part)


def main():
    words = argparse.ArgumentParser(description=__doc__, formatter_class=argparse.RawDescriptionHelpFormatter)
    words.add_argument("--figures", type=pathlib.Path, default=ROOT / "bench" / "copies.json")
    words.add_argument("--mails", type=int, default=50_000_000)
    words.add_argument("--lists", type=int, default=2_000)
    words.add_argument("--lists-a-shard", type=int, nargs="+", default=[1, 10])
    words.add_argument("--copies", type=int, default=2)
    words.add_argument("--rate", type=int, default=10_000)
    words.add_argument("--mix", type=share, nargs="+", default=[("message", 0.9), ("thread", 0.09), ("threads", 0.01)])
    words.add_argument("--processors", type=int, default=16)
    for name, value in {"texts": 200, "memory": 128, "disk": 2, "wire": 1.25, "fails": 2000, "repaired": 24, "patience": 60}.items():
        words.add_argument(f"--{name}", type=float, default=value)
    words.add_argument("--years", type=int, default=100)
    words.add_argument("--seed", type=int, default=1)
    words.add_argument("--small", type=pathlib.Path)
    words.add_argument("--trial", type=pathlib.Path)
    asked = words.parse_args()
    asked.mix = dict(asked.mix)
    read = lambda path: json.loads(path.read_text())
    if bool(asked.small) != bool(asked.trial):
        words.error("--small and --trial go together")
    costs = Costs(read(asked.figures))
    sys.exit(compare(costs, read(asked.small), read(asked.trial)) if asked.trial else table(costs, asked))


if __name__ == "__main__":
    main()
