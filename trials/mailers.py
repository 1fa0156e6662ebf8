"""mailers.py: what walk.py gives the walkthrough in place of a machine's mail: Postfix and Mailman 3 with folders of their own, and a
mailbox to fetch by mbsync. All of Debian: postfix mailman3 isync dovecot-imapd.

Postfix is begun by root and delivers to other users alone. So where root walks, the page is walked as USER.
"""
import contextlib, os, pathlib, pwd, shutil, subprocess

from trial import begun, free_ports

USER = "nobody"
RUNNER, IMAP = pathlib.Path("/usr/lib/mailman3/bin/runner"), pathlib.Path("/usr/lib/dovecot/imap")
POSTFIX = """compatibility_level = 3.6
queue_directory = {room}/queue
data_directory = {room}/data
myhostname = lists.example
mydestination = lists.example
inet_interfaces = 127.0.0.1
alias_maps = inline:{{ {{archive={user}}} }}
alias_database =
recipient_delimiter = +
propagate_unmatched_extensions = alias
forward_path = {home}/.forward+$extension
maillog_file = {room}/log
maillog_file_prefixes = {room}
"""
MAILMAN = """[mailman]
layout: here
[paths.here]
var_dir: {room}/var
bin_dir: /usr/lib/mailman3/bin
[mta]
incoming: mailman.mta.null.NullMTA
[archiver.prototype]
enable: yes
"""
MAILBOX = "From: cleo@garden.example\nSubject: Medlars\nMessage-ID: <m@garden.example>\n\nThey want a frost first.\n"


def is_root():
    return os.geteuid() == 0


def give(*folders):
    """Has some folders with all in them belong to the user as whom the page is walked."""
    if is_root():
        subprocess.run(["chown", "-R", USER, *folders], check=True)


def as_user():
    """How a program is begun as that user."""
    return {"user": USER, "group": pwd.getpwnam(USER).pw_gid, "extra_groups": []} if is_root() else {}


@contextlib.contextmanager
def postfix(room, home):
    """Gives the port of a Postfix of its own; none where it cannot be begun."""
    if not is_root() or not shutil.which("postfix"):
        yield None
        return
    port, config = free_ports(1)[0], room / "etc"
    for it in (config, room / "queue", room / "data"):
        it.mkdir(parents=True)
    (config / "main.cf").write_text(POSTFIX.format(room=room, home=home, user=USER))
    shutil.copy("/usr/share/postfix/master.cf.dist", config / "master.cf")
    lines = (config / "master.cf").read_text().splitlines()
    services = [it.split() for it in lines if it.strip() and not it.startswith(("#", " "))]
    # (no service is shut into the queue's folder, and the one of the network has another port)
    changed = [" ".join([str(port) if it[:2] == ["smtp", "inet"] else it[0], *it[1:4], "n", *it[5:]]) for it in services]
    (config / "master.cf").write_text("\n".join(changed) + "\n")
    shutil.chown(room / "data", "postfix")
    known = {"env": {**os.environ, "MAIL_CONFIG": str(config)}, "stdout": subprocess.DEVNULL, "stderr": subprocess.DEVNULL}
    subprocess.run(["postfix", "start"], check=True, **known)
    try:
        yield port
    finally:
        subprocess.run(["postfix", "stop"], **known)


def mailman(room):
    """Has a Mailman 3 of its own keep a list, and gives its configuration; none where the program is not there."""
    if not shutil.which("mailman") or not RUNNER.exists():
        return None
    room.mkdir()
    config, members = room / "mailman.cfg", room / "members"
    config.write_text(MAILMAN.format(room=room))
    members.write_text("ada@garden.example\n")
    give(room)
    known = {"env": {**os.environ, "MAILMAN_CONFIG_FILE": str(config)}, "cwd": room, "stdout": subprocess.DEVNULL, "stderr": subprocess.DEVNULL, **as_user()}
    subprocess.run(["mailman", "create", "seeds@lists.example"], check=True, **known)
    subprocess.run(["mailman", "addmembers", "-W", members, "seeds@lists.example"], check=True, **known)
    for name in ("in", "pipeline", "archive"):
        begun(subprocess.Popen([RUNNER, "-C", config, "-r", f"{name}:0:1"], **known))
    return config


def mailbox(room, folder):
    """Has the sample's mbsync read a mailbox of its own, by a program in place of a server; none where a program is not there."""
    if not shutil.which("mbsync") or not IMAP.exists():
        return None
    for name in ("new", "cur", "tmp"):
        (room / name).mkdir(parents=True)
    (room / "new" / "1.one").write_text(MAILBOX)
    give(room)
    sample = folder / "samples" / "mbsyncrc"
    far = f'Tunnel "{IMAP} -o mail_location=maildir:{room} -o ssl=no 2> /dev/null"'
    kept = [it for it in sample.read_text().splitlines() if not it.startswith(("User ", "PassCmd ", "SSLType "))]
    sample.write_text("\n".join(far if it.startswith("Host ") else it for it in kept) + "\n")
    return room


@contextlib.contextmanager
def ready(room, folder):
    """Gives what the blocks of a page find: words that stand for others, what the shell knows beside, and which blocks have to be left
    out, by a word of theirs and the reason."""
    home = room / "home"
    home.mkdir(parents=True)
    for it in (room, room.parent):
        it.chmod(0o711)
    config, there = mailman(room / "mailman"), mailbox(room / "mailbox", folder)
    give(home, folder)
    with postfix(room / "postfix", home) as port:
        words = {"127.0.0.1:25/": f"127.0.0.1:{port}/", "/var/lib/mailman3": str(room / "mailman" / "var")}
        lacking = {"smtp:": port or "postfix, begun by root", "mailman ": config or "mailman3", "mbsync ": there or "isync and dovecot-imapd"}
        known = {"HOME": str(home), "USER": USER if is_root() else os.environ.get("USER", USER), **({"MAILMAN_CONFIG_FILE": str(config)} if config else {})}
        yield words, known, {word: f"for want of {it}" for word, it in lacking.items() if isinstance(it, str)}
