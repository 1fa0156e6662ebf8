#!/usr/bin/env python3
"""package.py: the packages of the program, in a Debian 12 and a Debian 13 that it makes, and boots as containers.

  trials/package.py [--archive PROGRAM] [--roots FOLDER] [--only RELEASE]

It packs what `./archive` built, or PROGRAM, and installs it: the main job without systemd; `serve` under the units; an upgrade over a
server that runs, while mail comes; a removal, a purge; install.sh over what is left then. It wants root, debootstrap and
systemd-nspawn, and installs by apt-get what is missing. FOLDER keeps the systems for the next time, which else are made anew.
The last line is 'N passed, N failed, N skipped'.
"""
import contextlib, os, pathlib, re, shutil, subprocess, tempfile, time

from trial import ROOT, SAMPLES, Trial, begun, free_ports, output, words_of

RELEASES = {"bookworm": "Debian 12", "trixie": "Debian 13"}
WANTED = {"debootstrap": "debootstrap", "systemd-nspawn": "systemd-container", "lintian": "lintian", "objcopy": "binutils", "dpkg-deb": "dpkg"}
IN_IT = "systemd,systemd-sysv,dbus,curl,sqlite3,bash-completion,iproute2,procps"
UNITS = ("luvazhimba.service", "luvazhimba-once.service", "luvazhimba-backup.service", "luvazhimba-look.service")
KEPT, BACKUPS = "/var/lib/luvazhimba", "/var/backups/luvazhimba"
PLAIN = {"PATH": "/usr/sbin:/usr/bin:/sbin:/bin", "LC_ALL": "C", "TZ": "UTC", "DEBIAN_FRONTEND": "noninteractive", "TERM": "dumb"}
# What only a clone has: commands, and places.
OF_A_CLONE = r"\./(archive|check)\b|(^|[^A-Za-z./])(crates|trials|bench|tools)/|\b(a|fresh|your) clone\b|root of the repository"
# The commands of an owner: a rule stands on each message, once its `#` are taken away.
WITH_RULES = r"sed -i -E 's/^# (\[\[rule|name =|effect =|withdrawn =|embargo =)/\1/' /etc/luvazhimba/policy.toml"
NEW_MAIL = f"""cd {KEPT} && install -d -o luvazhimba -m 700 mail mail/$1 && install -o luvazhimba -m 600 "$2" mail/$1/.in && mv mail/$1/.in mail/$1/in.mbox"""
NEW_COMMANDS = f"""cd {KEPT} && printf '%s\\n' "$@" > .commands && chown luvazhimba .commands && ln .commands commands && rm .commands"""


def ran(*words, **more):
    """What a program printed on both streams, and its status; it has ten minutes."""
    done = subprocess.run(["timeout", "600", *map(str, words)], stdin=subprocess.DEVNULL, stdout=subprocess.PIPE, stderr=subprocess.STDOUT, text=True, errors="replace", check=False, **more)
    return done.stdout.strip(), done.returncode


class System:
    """A Debian in a folder, in which commands run: without systemd, or booted as a container."""

    def __init__(self, root):
        self.root, self.process = root, None
        self.into = self.plain()

    def plain(self):
        """How a command runs in it without systemd: with processes of its own, which end with the command."""
        return ("unshare", "--mount", "--pid", "--fork", f"--mount-proc={self.root}/proc", "chroot", self.root)

    def sh(self, script, *words):
        """What a script prints there, and its status."""
        return ran(*self.into, "/bin/bash", "-c", script, "bash", *words, env=PLAIN)

    def says(self, script, *words):
        return self.sh(script, *words)[0]

    def boot(self):
        """Boots it with a network of its own. Returns why that fails, or nothing."""
        log = self.root.with_name(f"{self.root.name}.log")
        with open(log, "w", encoding="utf-8") as heard:
            words = ["systemd-nspawn", "-q", "-D", self.root, "--register=no", "--keep-unit", "-b", "--private-network"]
            self.process = begun(subprocess.Popen([*map(str, words)], stdin=subprocess.DEVNULL, stdout=heard, stderr=subprocess.STDOUT, start_new_session=True), group=True)
        for _ in range(300):
            if self.process.poll() is not None:
                break
            if leader := pathlib.Path(f"/proc/{self.process.pid}/task/{self.process.pid}/children").read_text().split():
                self.into = ("nsenter", "-t", leader[0], "-m", "-p", "-n", "-u", "-i", "-C")
                if self.says("systemctl is-system-running") in ("running", "degraded"):
                    return ""
            time.sleep(0.2)
        return " ".join(log.read_text(errors="replace").split())[-200:] or "it does not come up"

    def end(self):
        self.sh("systemctl poweroff")
        with contextlib.suppress(subprocess.TimeoutExpired):
            self.process.wait(60)
        self.into = self.plain()

    def until(self, script, wanted, *words):
        """Whether a script prints this, within two minutes."""
        for _ in range(600):
            if wanted in self.says(script, *words):
                return True
            time.sleep(0.2)
        return False


def can_run(trial):
    """Whether this machine can do it; what it lacks is installed where that can be."""
    if os.getuid() != 0:
        return trial.skip("all of it", "this is not root, which makes systems and boots them")
    missing = [package for program, package in WANTED.items() if not shutil.which(program)]
    if missing and shutil.which("apt-get"):
        ran("apt-get", "update")
        ran("apt-get", "-o", "DPkg::Lock::Timeout=600", "install", "-y", "--no-install-recommends", *missing)
    return all([trial.has(program) for program in WANTED])


def made(release, roots):
    """A system of this release, made where it is not there yet. Returns it, and what was said where it could not be made."""
    root = roots / release
    if not (root / "made").exists():
        shutil.rmtree(root, ignore_errors=True)
        said, status = ran("debootstrap", "--variant=minbase", f"--include={IN_IT}", release, root)
        if status:
            return root, said.splitlines()[-1]
        (root / "made").touch()
    return root, ""


# ---- the packages themselves

def packages(trial, asked, room):
    """Packs twice, in two folders, and looks at what is made. Returns the package for Debian, a newer one, and the files for others."""
    own = asked.archive != ROOT / "crates" / "archive" / "out" / "archive"
    how = [ROOT / "tools" / "package.sh", "--program", asked.archive] if own else [ROOT / "archive", "package"]
    for name in ("one", "two"):
        said, status = ran(*how, room / name)
        trial.check("packages are made", (status, "" if status == 0 else said), (0, ""))
    one, two = (sorted((room / it).iterdir()) for it in ("one", "two"))
    trial.check("made again in another folder they have the same bytes", ([it.name for it in one], [it.read_bytes() for it in one] == [it.read_bytes() for it in two]), ([it.name for it in two], True))
    trial.check("their digests", ran("sha256sum", "--quiet", "-c", "SHA256SUMS", cwd=room / "one"), ("", 0))
    debian, files = (next((room / "one").glob(it)) for it in ("*.deb", "*.tar.gz"))
    trial.check("lintian", ran("lintian", "--allow-root", debian), ("", 0))
    (room / "other").write_text("#!/bin/sh\necho archive 9.9.9\n")
    (room / "other").chmod(0o755)
    said, status = ran(ROOT / "tools" / "package.sh", "--program", room / "other", room / "three")
    trial.holds("a program of another version is not packed", status == 1 and "says 'archive 9.9.9', and the sources" in said and not [*(room / "three").iterdir()], said)
    version = ran(asked.archive, "--version")[0].removeprefix("archive ")
    trial.holds(f"the package's version is one of {version}", output("dpkg-deb", "-f", debian, "Version").startswith(f"{version}+git"))
    trial.holds("it depends on sqlite3, for backup.sh", "sqlite3" in output("dpkg-deb", "-f", debian, "Depends").replace(",", "").split())
    return debian, newer(debian, room), files


def newer(debian, room):
    """The same package with a later version."""
    tree = room / "newer"
    ran("dpkg-deb", "-R", debian, tree)
    control = tree / "DEBIAN" / "control"
    control.write_text(re.sub(r"(?m)^(Version: .*)-1$", r"\1-2", control.read_text()))
    ran("dpkg-deb", "--root-owner-group", "-Zgzip", "--build", tree, room / "newer.deb")
    return room / "newer.deb"


def other_systems(trial, files, room):
    """install.sh: it says what a system lacks before it changes anything, and can put the files below a folder."""
    ran("tar", "-C", room, "-xf", files)
    script = room / files.name.removesuffix(".tar.gz") / "install.sh"
    old = room / "old"
    old.mkdir()
    (old / "getconf").write_text("#!/bin/sh\necho glibc 2.31\n")
    (old / "getconf").chmod(0o755)
    said, status = ran("sh", script, room / "to", env={**os.environ, "PATH": f"{old}:{os.environ['PATH']}"})
    trial.check("install.sh says what is lacking", (status, said.splitlines()[1:]), (1, ["the C library glibc 2.34 or later (here it is 2.31)"]))
    trial.holds("and has changed nothing", not (room / "to").exists())
    said, status = ran("sh", script, room / "to")
    trial.holds("install.sh into a folder", status == 0 and said.startswith("installed: archive "), said)
    (room / "to" / "etc" / "luvazhimba" / "policy.toml").write_text("# mine\n")
    of_before = [room / "to" / it for it in ("usr/libexec/luvazhimba/old.sh", "usr/share/doc/luvazhimba/old/OLD.md", "usr/lib/systemd/system/luvazhimba-old.timer")]
    for it in of_before:
        it.parent.mkdir(parents=True, exist_ok=True)
        it.write_text("of an older package\n")
    trial.check("and again, over it", ran("sh", script, room / "to")[1], 0)
    trial.check("what the newer one lacks is gone", [it.name for it in of_before if it.exists()], [])
    pages_of(trial, room / "to" / "usr/share/doc/luvazhimba")
    trial.check("settings that are there stay", (room / "to" / "etc" / "luvazhimba" / "policy.toml").read_text(), "# mine\n")
    ran("sh", script, "--remove", room / "to")
    trial.check("what --remove leaves", sorted(str(it.relative_to(room / "to")) for it in (room / "to").rglob("*") if it.is_file()), ["etc/default/luvazhimba", "etc/default/luvazhimba-search", "etc/luvazhimba/policy.toml"])
    return script.parent


def pages_of(trial, folder):
    """The pages for owners, and the scripts: they speak of no clone, and each link leads to a file."""
    pages = {it: it.read_text() for it in sorted(folder.rglob("*.md"))}
    trial.check("pages that are not there", [it for it in ("README.md", "WALKTHROUGH.md", "WITHDRAWN.md", "COMPARISON.md", "PROVED.md", "layers/store.md") if folder / it not in pages], [])
    trial.check("lines of pages that speak of a clone", [f"{file.name}: {line[:90]}" for file, text in pages.items() for line in text.splitlines() if re.search(OF_A_CLONE, line)], [])
    links = [(file, it.partition("#")[0]) for file, text in pages.items() for it in re.findall(r"\]\(([^)\s:]+)\)", text)]
    scripts = {it: it.read_text() for it in [*(folder.parents[2] / "libexec/luvazhimba").rglob("*.*"), folder / "examples/mbsyncrc"] if it.is_file()}
    trial.check("scripts, and those that speak of a clone", (len(scripts) > 20, [it.name for it, text in scripts.items() if re.search(r"(^|[^A-Za-z./])(docs|samples)/", text)]), (True, []))
    trial.check("links that lead nowhere", [f"{file.name}: {it}" for file, it in links if it and not (file.parent / it).exists()], [])


# ---- in a system without systemd

def main_job(trial, system, asked, debian):
    """The package in a system where nothing was booted: the main job, an import, a server, and that a purge takes it away."""
    shutil.copyfile(debian, system.root / "p.deb")
    for it in ("soc.mbox", "seeds.mbox", "seeds.toml"):
        shutil.copyfile(SAMPLES / it, system.root / it)
    said, status = system.sh("apt-get install -y --no-install-recommends /p.deb")
    trial.check("apt-get installs it", (status, "" if status == 0 else said[-300:]), (0, ""))
    trial.check("and nothing warns", warnings_in(said), [])
    words = "sift --day 2003-03-20 --min-age 6"
    here = subprocess.run([asked.archive, *words.split()], stdin=open(SAMPLES / "soc.mbox", "rb"), capture_output=True, text=True, check=True).stdout
    trial.check("the main job: as the program does it here", system.says(f"luvazhimba {words} < /soc.mbox"), here.strip())
    trial.check("a list and its mail", system.says("umask 077; cd /tmp; luvazhimba list-add --db s.db seeds; luvazhimba import --db s.db seeds /seeds.mbox; luvazhimba check --db s.db").split("\n"),
                ["added", "new 40 known 0 too-large 0", "ok"])
    port = free_ports(1)[0]
    shown = system.says(f"cd /tmp; luvazhimba serve --db s.db --policy /seeds.toml --day 2024-03-20 --port {port} --count 1 > said & "
                        f"until grep -q listening said; do sleep 0.1; done; curl -s http://127.0.0.1:{port}/l/seeds/threads; wait")
    trial.check("its threads", mails_of(shown), 40)
    identity(trial, system)
    trial.check("completion", system.says(". /usr/share/bash-completion/completions/luvazhimba; complete -p luvazhimba"), "complete -o filenames -F _archive luvazhimba")
    kinds = "COMP_WORDS=(luvazhimba grant --db a.db mo soc ''); COMP_CWORD=6; cd /; _archive; echo ${COMPREPLY[@]}"
    trial.check("of the third word of grant it offers kinds", system.says(f". /usr/share/bash-completion/completions/luvazhimba; {kinds}"), "member subscriber moderator")
    trial.check("a purge warns of nothing", warnings_in(system.says("dpkg -P luvazhimba")), [])
    system.sh("rm -f /tmp/s.db*")
    trial.check("after a purge: the program, the settings, the folders of mail", system.says(f"ls -d /usr/bin/luvazhimba /etc/luvazhimba {KEPT} {BACKUPS} 2> /dev/null").split(), [BACKUPS, KEPT])
    system.sh(f"rm -r {KEPT} {BACKUPS}; userdel luvazhimba")


def by_files(trial, system, tree):
    """install.sh in the same system: it warns of nothing, as where dpkg has not called it, and takes all away again."""
    shutil.copytree(tree, system.root / "root" / "files")
    said, status = system.sh("sh /root/files/install.sh")
    trial.check("install.sh without systemd: status, warnings, the program", (status, warnings_in(said), system.says("ls /usr/bin/luvazhimba")), (0, [], "/usr/bin/luvazhimba"))
    said, status = system.sh("sh /root/files/install.sh --remove")
    trial.check("and with --remove", (status, warnings_in(said), system.says("ls /usr/bin/luvazhimba 2> /dev/null")), (0, [], ""))
    system.sh(f"rm -r /root/files /etc/luvazhimba /etc/default/luvazhimba* {KEPT} {BACKUPS}; userdel luvazhimba")


def warnings_in(said):
    """What dpkg and the scripts of the package warned of."""
    return [it for it in said.splitlines() if re.search(r"deb-systemd-helper|deb-systemd-invoke|warning|error", it, re.IGNORECASE) and "debconf" not in it]


def identity(trial, system):
    """The proof's identity, in the program and beside it."""
    proof = (system.root / "usr/share/doc/luvazhimba/PROOF").read_text()
    installed = system.root / "usr/bin/luvazhimba"
    trial.check("the digest of the program is that of PROOF", output("sha256sum", installed).split()[0], re.search(r"installed: sha256 (\S+)", proof)[1])
    output("objcopy", "--dump-section", f".luvazhimba.proof={system.root / 'section'}", installed, "/dev/null")
    inside = (system.root / "section").read_text()
    trial.holds("it has the lines of PROOF in it", inside and proof == f"{inside}{proof[len(inside):]}" and proof[len(inside):].startswith("installed: "), inside.splitlines()[:2])
    shown = output("readelf", "-p", ".luvazhimba.proof", installed)
    trial.holds("readelf shows it", inside.splitlines()[0] in shown and inside.splitlines()[-1] in shown)


def mails_of(page):
    """How many mails a page of threads shows."""
    return len(set(re.findall(r'href="/l/\w+/m/(\w+)"', page)))


# ---- under its units

def page(system, path="/l/seeds/threads"):
    return system.says(f"curl -s http://127.0.0.1:8080{path}")


def under_units(trial, system, debian):
    """Installed by apt-get: nothing begins by itself; then a list and its mail, by the files of keep.sh, and the service, as docs/INSTALL.md says."""
    shutil.copyfile(debian, system.root / "root" / "p.deb")
    system.sh("apt-get install -y --no-install-recommends /root/p.deb")
    trial.check("nothing begins by itself", system.says("systemctl is-active luvazhimba.service; systemctl is-enabled luvazhimba.service").split(), ["inactive", "disabled"])
    trial.check("its folders are its own", system.says(f"stat -c '%U %a' {KEPT} {BACKUPS}").split("\n"), ["luvazhimba 700"] * 2)
    system.sh(NEW_COMMANDS, "list-add seeds", "person-add mo 5fW2xkQ0aTz7uYp1", "grant mo seeds moderator 2024-01-01 2099-12-31")
    system.sh(NEW_MAIL, "seeds", "/seeds.mbox")
    system.sh("systemctl enable --now luvazhimba.service luvazhimba-backup.timer")
    trial.holds("mail is taken in", system.until(f"cat {KEPT}/log", "new 40 known 0"))
    trial.holds("it is served", system.until("curl -s http://127.0.0.1:8080/", "seeds"))
    trial.check("without a rule nobody is shown a mail", mails_of(page(system)), 0)
    system.sh(WITH_RULES)
    trial.holds("the rules of the sample policy stand on the next page", system.until("curl -s http://127.0.0.1:8080/l/seeds/threads", "/m/"))
    trial.check("mails that are shown", mails_of(page(system)), 40)
    trial.check("it runs as", {*system.says("ps -o user:20= -C luvazhimba").split()}, {"luvazhimba"})
    trial.check("it sees how much memory there is", system.says("nsenter -m -t $(pgrep -o -x luvazhimba) grep -c MemAvailable /proc/meminfo"), "1")
    trial.check("it listens at", system.says("ss -Hltn | awk '{ print $4 }'").split(), ["127.0.0.1:8080"])
    for unit in UNITS:
        said = system.says(f"systemd-analyze security --no-pager {unit}").splitlines()[-1]
        trial.holds(f"exposure of {unit}, at most 1.5", float(re.search(r"[0-9.]+(?= [A-Z])", said)[0]) <= 1.5, said)


def backed_up(trial, system):
    trial.check("a backup", system.says("systemctl start luvazhimba-backup.service; systemctl show -p Result --value luvazhimba-backup.service"), "success")
    trial.check("it is its owner's alone", system.says(f"find {BACKUPS} -perm /077"), "")
    trial.check("it is whole", system.says(f"cp {BACKUPS}/archive-*.db /tmp/b.db && luvazhimba check --db /tmp/b.db && sqlite3 /tmp/b.db 'SELECT count(*) FROM message'").split(), ["ok", "40"])
    trial.holds("it has the policy, and no link", "regular file" in system.says(f"stat -c %F {BACKUPS}/policy.toml") and "[[rule]]" in system.says(f"cat {BACKUPS}/policy.toml"))


def looked_at(trial, system):
    """The unit that looks whether there is something to see to: a mistyped command has it fail, and the journal says which."""
    look = "systemctl start luvazhimba-look.service; systemctl show -p Result --value luvazhimba-look.service"
    trial.check("nothing is to be seen to", system.says(look).splitlines()[-1:], ["success"])
    system.sh(NEW_COMMANDS, "withdrw seeds x author", "person-ad mo 5fW2xkQ0aTz7uYp1")
    trial.holds("a mistyped command goes to commands.refused", system.until(f"cat {KEPT}/commands.refused", "withdrw seeds x author"))
    trial.check("then the unit fails", system.says(look).splitlines()[-1:], ["exit-code"])
    said = system.says("journalctl -u luvazhimba-look --no-pager")
    trial.check("and the journal says why, and no token", ("withdrw ..: no such command" in said, "5fW2xkQ0" in said), (True, False))
    system.sh(f"cd {KEPT}; rm commands.refused; mv log log.old; systemctl start luvazhimba-look.service")


def worked_once(trial, system):
    """The unit that does what waits and serves nothing, in place of the first."""
    system.sh("systemctl stop luvazhimba.service; systemctl start luvazhimba-once.path")
    system.sh(NEW_COMMANDS, "list-add once")
    trial.holds("without a server what waits is done", system.until(f"cat {KEPT}/log", "once: added"))
    trial.holds("and the unit ends well", system.until("systemctl show -p ActiveState,Result luvazhimba-once.service", "Result=success\nActiveState=inactive"))
    system.sh("systemctl stop luvazhimba-once.path; systemctl start luvazhimba.service")
    trial.holds("then it is served", system.until("curl -s http://127.0.0.1:8080/", "/l/once/"))


def upgraded(trial, system, later):
    """A newer package over a server that runs, while mail comes."""
    shutil.copyfile(later, system.root / "root" / "later.deb")
    before = system.says("systemctl show -p MainPID --value luvazhimba.service")
    kept = page(system)
    system.sh(NEW_COMMANDS, "list-add soc")
    system.sh(NEW_MAIL, "soc", "/soc.mbox")
    said, status = system.sh("apt-get install -y --no-install-recommends /root/later.deb")
    trial.check("apt-get upgrades over a server that runs", (status, "" if status == 0 else said[-300:]), (0, ""))
    trial.holds("the server goes on", system.until("systemctl is-active luvazhimba.service", "active") and system.until("curl -s http://127.0.0.1:8080/", "/l/soc/"))
    trial.holds("as a new process, of the program that is there now", before != system.says("systemctl show -p MainPID --value luvazhimba.service")
                and "deleted" not in system.says("readlink /proc/$(pgrep -o -x luvazhimba)/exe"))
    trial.holds("what came meanwhile is taken in", system.until("curl -s http://127.0.0.1:8080/l/soc/threads", "/m/"), mails_of(page(system, "/l/soc/threads")))
    trial.holds("the pages of before are as they were", page(system) == kept)
    trial.check("the settings are as they were", "[[rule]]" in system.says("cat /etc/luvazhimba/policy.toml | grep -v '^#'"), True)


def rows(system):
    """What the tables hold, by stock SQLite."""
    return system.says(f"cp {KEPT}/archive.db /tmp/r.db; rm -f /tmp/r.db-wal; cp {KEPT}/archive.db-wal /tmp/r.db-wal 2> /dev/null; sqlite3 -init /dev/null /tmp/r.db .dump | sha256sum")


def removed(trial, system, later, tree):
    """Removed, purged, and installed over what is left, by install.sh."""
    held, backups = rows(system), system.says(f"ls {BACKUPS}")
    trial.check("a removal warns of nothing", warnings_in(system.says("apt-get remove -y luvazhimba")), [])
    trial.check("removed: the server, the program, the settings", system.says("systemctl is-active luvazhimba.service; ls /usr/bin/luvazhimba /etc/luvazhimba/policy.toml 2> /dev/null").split(), ["inactive", "/etc/luvazhimba/policy.toml"])
    system.sh("apt-get install -y --no-install-recommends /root/later.deb; systemctl start luvazhimba.service")
    trial.holds("installed again it serves what it held, by the policy it had", system.until("curl -s http://127.0.0.1:8080/l/seeds/threads", "/m/") and mails_of(page(system)) == 40)
    trial.check("a purge warns of nothing", warnings_in(system.says("apt-get purge -y luvazhimba")), [])
    trial.check("purged: the server, the program, the settings", system.says("systemctl is-active luvazhimba.service; ls -d /usr/bin/luvazhimba /etc/luvazhimba /etc/default/luvazhimba 2> /dev/null").split(), ["inactive"])
    trial.check("purged: what would begin at boot", system.says("find /etc/systemd -name 'luvazhimba*'"), "")
    trial.check("the mail, its marks and the backups are as they were", (rows(system), system.says(f"ls {BACKUPS}")), (held, backups))
    shutil.copytree(tree, system.root / "root" / "files")
    said, status = system.sh("sh /root/files/install.sh && systemctl enable --now luvazhimba.service")
    trial.check("install.sh over what is left", (status, "" if status == 0 else said[-300:]), (0, ""))
    trial.check("it warns of nothing", warnings_in(said), [])
    system.sh(WITH_RULES)
    trial.holds("it serves what was held", system.until("curl -s http://127.0.0.1:8080/l/seeds/threads", "/m/") and mails_of(page(system)) == 40)
    before = system.says("systemctl show -p MainPID --value luvazhimba.service")
    system.sh("sh /root/files/install.sh")
    trial.holds("install.sh again, over a server that runs", system.until("systemctl is-active luvazhimba.service", "active") and before != system.says("systemctl show -p MainPID --value luvazhimba.service"))
    trial.check("nor does install.sh --remove", warnings_in(system.says("sh /root/files/install.sh --remove")), [])
    trial.check("install.sh --remove: the server, the program, the mail", system.says(f"systemctl is-active luvazhimba.service; ls /usr/bin/luvazhimba {KEPT}/archive.db 2> /dev/null").split(), ["inactive", f"{KEPT}/archive.db"])


def in_release(trial, asked, release, roots, room, things):
    debian, later, tree = things
    kept, why = made(release, roots)
    if why:
        trial.skip(RELEASES[release], f"debootstrap cannot make it here: {why}")
        return
    system = System(room / release)
    ran("cp", "-a", "--reflink=auto", kept, system.root)
    print(f"--- {RELEASES[release]}", flush=True)
    main_job(trial, system, asked, debian)
    by_files(trial, system, tree)
    if why := system.boot():
        trial.skip(f"the units in {RELEASES[release]}", f"systemd-nspawn cannot boot a system here: {why}")
        return
    under_units(trial, system, debian)
    backed_up(trial, system)
    looked_at(trial, system)
    worked_once(trial, system)
    upgraded(trial, system, later)
    removed(trial, system, later, tree)
    system.end()


def main():
    asked = words_of(__doc__, roots={"type": pathlib.Path, "help": "keeps the systems for the next time"}, only={"choices": RELEASES, "help": "in this one alone"})
    with Trial() as trial, tempfile.TemporaryDirectory(prefix="archive-package-") as room:
        room = pathlib.Path(room)
        if can_run(trial):
            roots = (asked.roots or room / "roots").resolve()
            roots.mkdir(parents=True, exist_ok=True)
            debian, later, files = packages(trial, asked, room)
            tree = other_systems(trial, files, room)
            for release in [asked.only] if asked.only else RELEASES:
                in_release(trial, asked, release, roots, room, (debian, later, tree))


main()
