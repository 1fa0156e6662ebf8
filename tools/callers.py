#!/usr/bin/env python3
"""callers.py: calls the library that C, Python and Rust link (bindings/), from each of them whose compiler is there.

  tools/callers.py [--library FILE]     FILE: libluvazhimba_c.a as the toolchain built it

Each language has a program of calls, which says what each call returned, and an example, which says what an mbox holds. The three
examples have to say what bindings/example.txt says. The calls in C and in Python are made once more on a plain x86-64 processor, by
qemu-x86_64 (Debian: qemu-user). Then it looks at what bindings/build.sh makes, and at how the package is made for Python. The last line is 'N passed, M failed'; status 1 where one failed.
"""
import argparse, os, pathlib, re, shutil, subprocess, sys, tarfile, tempfile, zipfile

ROOT = pathlib.Path(__file__).resolve().parent.parent
BINDINGS = ROOT / "bindings"
# How the library is built: for every x86-64 processor.
CRATE, LIBRARY, CPU = "luvazhimba_c", "libluvazhimba_c.a", "--cpu=x86-64"
PLAIN = ("qemu-x86_64", "-cpu", "qemu64")
PASSED, FAILED = (re.compile(rf"^(?:test result: .*?)?.*?(\d+) {it}", re.M) for it in ("passed", "failed"))
CALLS = ["luv_base_subject", "luv_cut", "luv_fields", "luv_fields_of_mbox", "luv_message_ids", "luv_sent_date", "luv_threads", "luv_threads_of_mbox"]
# Which files have the version.
VERSIONS = {
    "luvazhimba.h": r'#define LUV_VERSION "(.+)"',
    "python/pyproject.toml": r'^version = "(.+)"',
    "python/luvazhimba/__init__.py": r'^__version__ = "(.+)"',
    "rust/Cargo.toml": r'^version = "(.+)"',
    "rust/Cargo.lock": r'name = "luvazhimba"\nversion = "(.+)"',
    "../crates/archive_usage/src/building.rt": r'const VERSION: &str = "(.+)"',
}


def run(words, **how):
    """Returns the status of a command, and what it wrote."""
    ran = subprocess.run(words, stdout=subprocess.PIPE, stderr=subprocess.STDOUT, text=True, errors="replace", timeout=600, check=False, **how)
    return ran.returncode, ran.stdout


def counted(status, text):
    """Returns how many calls of a program passed and how many failed; a program that failed and does not say so is one that failed."""
    passed, failed = (sum(int(it) for it in count.findall(text)) for count in (PASSED, FAILED))
    return passed, failed or int(status != 0 or not passed)


# ---- the languages

def in_c(folder, mbox):
    """Builds both programs in C: what came of the calls, and what the example says."""
    for name in ("calls", "example"):
        status, text = run(["cc", "-std=gnu11", "-O1", "-Wall", "-Wextra", "-Werror", f"-I{folder}", BINDINGS / "c" / f"{name}.c", folder / "libluvazhimba.a", "-o", folder / name])
        if status:
            return (status, text), (status, "")
    return run([folder / "calls"]), run([folder / "example"], stdin=mbox)


def pip(site, what, **more):
    """Installs a package as a user would, fetching nothing."""
    return run([sys.executable, "-m", "pip", "install", "--quiet", "--no-index", "--disable-pip-version-check", "--root-user-action=ignore", "--target", site, what],
               cwd=BINDINGS / "python", env={**os.environ, **more})


def python(*words, **how):
    """Runs Python with what is installed in a folder, and else as it is."""
    return run([sys.executable, *words], env={"PATH": os.environ["PATH"], **how.pop("env", {})}, **how)


def in_python(folder, mbox):
    site = folder / "site"
    install = pip(site, ".", LUVAZHIMBA_LIB=str(folder / "libluvazhimba.so"))
    if install[0]:
        return install, (install[0], "")
    # (beside these programs lie the package's sources, without the library, and a program's own folder comes first)
    for name in ("calls.py", "example.py"):
        shutil.copyfile(BINDINGS / "python" / name, folder / name)
    env = {"PYTHONPATH": str(site)}
    return python(folder / "calls.py", env=env), python(folder / "example.py", env=env, stdin=mbox)


def in_rust(folder, mbox):
    env = {**os.environ, "LUVAZHIMBA_LIB": str(folder), "CARGO_TARGET_DIR": str(folder / "target"), "CARGO_TERM_COLOR": "never"}
    how = {"cwd": BINDINGS / "rust", "env": env}
    return run(["cargo", "test", "--offline", "--quiet"], **how), run(["cargo", "run", "--offline", "--quiet", "--example", "example"], stdin=mbox, **how)


# what each language needs, and how it is tried
LANGUAGES = {"C": ("cc", in_c), "Python": (sys.executable, in_python), "Rust": ("cargo", in_rust)}


def tried(language, folder):
    """Returns how many calls of a language passed and failed; its example is one more."""
    command, call = LANGUAGES[language]
    if not shutil.which(command):
        print(f"callers: {language} is left out: there is no {command}")
        return 0, 0
    with open(BINDINGS / "example.mbox", "rb") as mbox:
        calls, (status, said) = call(folder, mbox)
    (passed, failed), wanted = counted(*calls), (BINDINGS / "example.txt").read_text(encoding="utf-8")
    is_right = status == 0 and said == wanted
    if failed:
        print(calls[1][-2_000:])
    print(f"callers: {language}: {passed} calls passed, {failed} failed; the example says {'what it has to' if is_right else f'something else: {said[:500]}'}")
    return passed + is_right, failed + (not is_right)


# ---- a plain processor

def on_a_plain_processor(folder):
    """Makes the calls in C and in Python where the processor has nothing that not every x86-64 processor has."""
    if not shutil.which(PLAIN[0]):
        print(f"callers: a plain processor is left out: there is no {PLAIN[0]} (Debian: qemu-user)")
        return 0, 0
    words = {"C": [folder / "calls"], "Python": [sys.executable, folder / "calls.py"]}
    passed = failed = 0
    for language, call in words.items():
        if not pathlib.Path(call[-1]).exists():
            continue
        said = run([*PLAIN, *call], env={"PATH": os.environ["PATH"], "PYTHONPATH": str(folder / "site")})
        good, bad = counted(*said)
        if bad:
            print(f"status {said[0]}: {said[1][-1_000:]}")
        print(f"callers: {language} on a plain processor: {good} calls passed, {bad} failed")
        passed, failed = passed + good, failed + bad
    return passed, failed


# ---- what is made

def section_of(file):
    """Returns the identity of the proof that a file carries."""
    return run(["objcopy", "-O", "binary", "--only-section=.luvazhimba.proof", "--set-section-flags", ".luvazhimba.proof=alloc", file, "/dev/stdout"])[1]


def linked_by_pkg_config(folder):
    """Returns what the example in C says that was linked as pkg-config says, with the shared library."""
    env = {**os.environ, "PKG_CONFIG_PATH": str(folder)}
    words = run(["pkg-config", "--cflags", "--libs", "luvazhimba"], env=env)[1].split()
    status, text = run(["cc", BINDINGS / "c" / "example.c", *words, "-o", folder / "shared"])
    if status:
        return text
    with open(BINDINGS / "example.mbox", "rb") as mbox:
        return run([folder / "shared"], stdin=mbox, env={"LD_LIBRARY_PATH": str(folder)})[1]


def made(folder):
    """What bindings/build.sh makes: each thing that is asked of it, what was found, and what it has to be."""
    exports = run(["nm", "-D", "--defined-only", folder / "libluvazhimba.so"])[1].split("\n")
    yield "the shared library exports its calls only", sorted(it.split()[-1] for it in exports if it), CALLS
    yield "its name", re.findall(r"SONAME.*\[(.*)\]", run(["readelf", "-d", folder / "libluvazhimba.so"])[1]), ["libluvazhimba.so"]
    for name in ("libluvazhimba.so", "calls"):
        found = section_of(folder / name)
        yield f"{name} says which text was proved", ("\ntext: sha256 " in found, found.startswith("library: luvazhimba_c ")), (True, True)
    versions = {it: re.findall(form, (BINDINGS / it).read_text(encoding="utf-8"), re.M) for it, form in VERSIONS.items()}
    yield "one version", versions, dict.fromkeys(versions, [*versions.values()][-1][:1])
    if shutil.which("pkg-config"):
        yield "linked by pkg-config", linked_by_pkg_config(folder), (BINDINGS / "example.txt").read_text(encoding="utf-8")


PACKAGED = "luvazhimba-%s.tar.gz"
HOOK = "import backend, sys; print(getattr(backend, sys.argv[1])(sys.argv[2]))"
IMPORTED = "import luvazhimba as luv; print(luv.__version__, luv.base_subject(b'Re: a').text, luv.__file__)"


def packaged(folder):
    """How the package is made for Python, as above."""
    version = re.findall(VERSIONS["python/pyproject.toml"], (BINDINGS / "python" / "pyproject.toml").read_text(encoding="utf-8"), re.M)[0]
    env = {"LUVAZHIMBA_LIB": str(folder / "libluvazhimba.so")}
    names = {it: python("-c", HOOK, it, folder, cwd=BINDINGS / "python", env=env)[1].strip() for it in ("build_sdist", "build_editable")}
    yield "the name of a source distribution", names["build_sdist"], PACKAGED % version
    if names["build_sdist"] == PACKAGED % version:
        with tarfile.open(folder / names["build_sdist"]) as held:
            files = sorted(pathlib.Path(it).name for it in held.getnames())
        yield "its files", files, sorted(["PKG-INFO", "__init__.py", "backend.py", "libluvazhimba.so", "py.typed", "pyproject.toml"])
        installed = pip(folder / "from_source", folder / names["build_sdist"])
        said = python("-c", IMPORTED, cwd=folder, env={"PYTHONPATH": str(folder / "from_source")})
        yield "installed from it", (installed, said), ((0, ""), (0, f"{version} b'a' {folder}/from_source/luvazhimba/__init__.py\n"))
    yield "an editable wheel", names["build_editable"].endswith(".whl"), True
    if names["build_editable"].endswith(".whl"):
        with zipfile.ZipFile(folder / names["build_editable"]) as wheel:
            wheel.extractall(folder / "editable")
        said = python("-c", f"import site; site.addsitedir('{folder}/editable'); {IMPORTED}", cwd=folder, env=env)
        yield "it leads to the sources", said, (0, f"{version} b'a' {BINDINGS}/python/luvazhimba/__init__.py\n")


def looked_at(folder, things):
    """Returns how many things are as they have to be, and how many are not."""
    passed = failed = 0
    for what, found, wanted in things(folder):
        if found != wanted:
            print(f"callers: {what}: {found!r:.600} where {wanted!r:.300} was wanted")
        passed, failed = passed + (found == wanted), failed + (found != wanted)
    print(f"callers: {things.__name__}: {passed} passed, {failed} failed")
    return passed, failed


# ---- all of it

def called(library):
    """Returns how many calls passed and failed, of all languages."""
    with tempfile.TemporaryDirectory(prefix="archive-callers-") as room:
        folder = pathlib.Path(room)
        status, text = run([BINDINGS / "build.sh", folder, library])
        if status:
            print(text)
            return 0, 1
        counts = [*(tried(it, folder) for it in LANGUAGES), on_a_plain_processor(folder), looked_at(folder, made), looked_at(folder, packaged)]
    return sum(passed for passed, _ in counts), sum(failed for _, failed in counts)


def main():
    words = argparse.ArgumentParser(description=__doc__, formatter_class=argparse.RawDescriptionHelpFormatter)
    words.add_argument("--library", type=pathlib.Path, default=ROOT / "crates" / CRATE / "out" / LIBRARY)
    words = words.parse_args()
    if not words.library.exists():
        sys.exit(f"{words.library} is not there: (cd crates/{CRATE} && rt lib {CPU}) builds it")
    passed, failed = called(words.library)
    print(f"{passed} passed, {failed} failed")
    sys.exit(1 if failed else 0)


if __name__ == "__main__":
    main()
