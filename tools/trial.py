"""What the trials beside this file share: a build of the program with a changed `main`, from a copy of the crates.

What a trial changes from case to case, `main` reads as digits in front of the text. `build` proves the changed program over
what earlier checks kept; `run_cases` builds without proofs, so that bad accesses stop the program, and runs a folder of cases.
"""
import pathlib
import re
import shutil
import subprocess
import sys

TOP = pathlib.Path(__file__).resolve().parent.parent
PROGRAM = TOP / "crates/tcount"
NAME = pathlib.Path(sys.argv[0]).name


def stored(name):
    """A file that the program's stored run is made of."""
    return (PROGRAM / name).read_text()


def copy_crates(room, changes, *left_out):
    """Copies what is built, and makes the changes to `main`, each an old text that stands there once and a new one."""
    shutil.copytree(TOP / "crates", room / "crates", ignore=shutil.ignore_patterns("must-fail", *left_out))
    for name in ("crates.txt", "HANDLES"):
        shutil.copy(TOP / name, room)
    main = room / "crates/tcount/src/main.rt"
    code = main.read_text()
    for old, new in changes:
        if code.count(old) != 1:
            sys.exit(f"{NAME}: main.rt doesn't have this once: {old.strip()}")
        code = code.replace(old, new)
    main.write_text(code)


def call(words, room):
    """Runs a command of the toolchain over the program of a copy."""
    try:
        return subprocess.run(words, cwd=room / "crates/tcount", stdin=subprocess.DEVNULL, capture_output=True, text=True)
    except FileNotFoundError:
        sys.exit(f"{NAME}: the command 'rt' of the Rattle toolchain isn't on the path")


def build(room, changes):
    """The path of the proved program with these changes, made in a copy that keeps what earlier checks proved."""
    copy_crates(room, changes)
    program = room / "crates/tcount/out/tcount"
    program.unlink(missing_ok=True)
    # It is run once without words, which reads nothing.
    done = call(["rt", "run"], room)
    if not program.exists():
        sys.exit(f"{NAME}: the changed program wasn't built\n{done.stdout}{done.stderr}")
    return program


def write_case(room, name, words, text):
    """A case: the words of the command line, and what stands on standard input."""
    folder = room / "cases"
    folder.mkdir(exist_ok=True)
    (folder / name).write_text(text)
    (folder / f"{name}.args").write_text("".join(f"{word}\n" for word in words))


def run_cases(room, *options):
    """What each case wrote, and the status it ended with; None where it didn't end by itself."""
    done = call(["rt", "try", *options, "--cases", str(room / "cases")], room)
    pieces = re.split(r"^== (\d+\.\d+)\n", done.stdout, flags=re.M)
    written = dict(zip(pieces[1::2], pieces[2::2]))
    ended = {}
    for case, how in re.findall(r"^case=(\d+\.\d+) (run=.*)$", done.stderr, flags=re.M):
        status = re.match(r"run=ended status=(\d+) ", how)
        ended[case] = int(status[1]) if status else None
    if not ended:
        sys.exit(f"{NAME}: nothing ran\n{done.stderr}")
    return written, ended
