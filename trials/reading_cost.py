"""reading_cost.py: what a page costs its reader and the archive: time, memory, requests; a part of reading.py."""
import os, pathlib, re, statistics, time

from letters import LETTERS


def load():
    return f"load {os.getloadavg()[0]:.0f} on {os.cpu_count()} processors"


def peak(pid):
    """The most memory that a process has held, in bytes."""
    return 1024 * int(re.search(r"VmHWM:\s+(\d+)", pathlib.Path(f"/proc/{pid}/status").read_text())[1])


def memory(trial, site, reader):
    """What the page of a large mail holds at most, beyond that of a small one, as a multiple of the mail; each in a browser of its own."""
    sizes = {it.name: len(it.text) for it in LETTERS}
    for at, name in enumerate(("a mail of 16 MB", "a text of 16 MB")):
        fresh = type(reader)(reader.found(), site.folder / f"fresh-{at}")
        fresh.read(site.letter("charset koi8-r"))
        before = {pid: peak(pid) for pid in fresh.processes()}
        begun = time.monotonic()
        fresh.read(site.letter(name))
        fresh.click("document.querySelector('main section[role=status] button')")
        fresh.wait("document.querySelector('main article')", 120)
        took = time.monotonic() - begun
        more = max(peak(pid) - before.get(pid, min(before.values())) for pid in fresh.processes())
        trial.holds(f"{name}: its page holds at most six times the mail", more <= 6 * sizes[name], f"{more / sizes[name]:.1f} times, {took:.1f} s, {load()}")
        fresh.close()


def twenty(trial, site, reader):
    """Twenty messages one after the other, as fast as they come, and twenty windows at once: each is shown, and no request is one too many."""
    log, keys = site.folder / "access.log", site.keys["long"][:40]
    before = len(log.read_text().splitlines())
    begun = time.monotonic()
    for key in keys[:20]:
        reader.read(site.message("long", key))
        reader.wait("document.querySelector('main nav a[rel]')", 20)
    took = time.monotonic() - begun
    asked = log.read_text().splitlines()[before:]
    statuses = {status: sum(f'" {status} ' in it for it in asked) for status in (200, 304, 429)}
    ours = [it for it in asked if "/l/long/" in it]
    trial.holds("twenty messages in a row: none too many", statuses[429] == 0, f"{statuses} in {took:.1f} s, {load()}")
    trial.check("each is its page, itself and its thread", len(ours), 60)
    targets = [reader.tell("Target.createTarget", url=site.message("long", key))["targetId"] for key in keys[20:]]
    end = time.monotonic() + 60
    while (done := len([it for it in log.read_text().splitlines() if "/t/" in it and any(key in it for key in keys[20:])])) < 20 and time.monotonic() < end:
        time.sleep(0.2)
    asked = log.read_text().splitlines()[before:]
    trial.check("twenty windows at once: those that have their thread, and requests too many", (done, sum('" 429 ' in it for it in asked)), (20, 0))
    for it in targets:
        reader.tell("Target.closeTarget", targetId=it)


TIMES = """(() => {
  const it = performance.getEntriesByType('navigation')[0], paint = performance.getEntriesByName('first-contentful-paint')[0];
  return [it.responseEnd, paint?.startTime ?? 0, it.domContentLoadedEventEnd, it.loadEventEnd].map(Math.round);
})()"""


def worked(reader):
    """The processor's time that the page's main thread has had, in ms."""
    return 1000 * next(it["value"] for it in reader.tell("Performance.getMetrics", reader.session)["metrics"] if it["name"] == "TaskDuration")


def timed(trial, site, reader, count, rounds=11):
    """How long a page of many rows takes to load, with the script and without, in turn: the medians, in ms (told, not judged)."""
    reader.tell("Performance.enable", reader.session, timeDomain="threadTicks")
    found = {True: [], False: []}
    for _ in range(rounds):
        for off in (True, False):
            reader.without_script(off)
            reader.blocked(*["*.js"] * off)
            reader.tell("Page.navigate", reader.session, url="about:blank")
            time.sleep(0.3)
            before = worked(reader)
            reader.open(site.url("/l/long/threads"))
            reader.wait("performance.getEntriesByType('navigation')[0].loadEventEnd > 0")
            loaded = worked(reader)
            time.sleep(1)
            found[off].append([*reader.value(TIMES), loaded - before, worked(reader) - before])
    reader.blocked()
    reader.without_script(False)
    without, with_it = ([round(statistics.median(it)) for it in zip(*found[off])] for off in (True, False))
    clock, worked_until, worked_in_all = (with_it[at] / without[at] for at in (3, 4, 5))
    said = f"without the script {without}, with it {with_it} ms: {clock:.2f} times by the clock, {worked_until:.2f} and {worked_in_all:.2f} by the processor"
    trial.holds(f"{count} rows: fetched, first drawn, read, loaded; of the processor until then, and a second later", without[3] > 0, f"{said}; {rounds} rounds, {load()}")
