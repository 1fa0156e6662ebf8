"""probing.py: the command line of the scripts beside this one that call crates/archive_probe."""
import argparse, os, pathlib, sys

ROOT = pathlib.Path(__file__).resolve().parent.parent
PROBE = ROOT / "crates" / "archive_probe" / "out" / "archive_probe"


def read_words(about, rounds=3, **more):
    """What is asked for: what is said of `more`, how many rounds, the folder, and the built program."""
    words = argparse.ArgumentParser(description=about, formatter_class=argparse.RawDescriptionHelpFormatter)
    for name, how in more.items():
        words.add_argument(f"--{name}", **how)
    words.add_argument("--rounds", type=int, default=rounds)
    words.add_argument("--folder", help="where the files are made [default: a new one in the system's place for them]")
    words.add_argument("--probe", default=str(PROBE))
    asked = words.parse_args()
    if not os.access(asked.probe, os.X_OK):
        sys.exit(f"{asked.probe} is not there: (cd crates/archive_probe && rt run < stdin) builds it")
    return asked
