"""What parts of the gate share: the crates of crates.txt, and calls of the toolchain's checker over
the libraries that `rt ci` proved.

`rt ci` leaves each library in crates/NAME/out/rlib, with its statements. Other commands of `rt` would
prove those libraries again; what is run after `rt ci` takes them as they are.
"""
import os
import re
import subprocess
import sys

sys.dont_write_bytecode = True
ROOT = os.path.realpath(os.path.join(os.path.dirname(os.path.abspath(__file__)), ".."))


def lines():
    with open(os.path.join(ROOT, "crates.txt"), encoding="utf-8") as file:
        rows = [line.split("#")[0].strip() for line in file]
    return [re.fullmatch(r"([a-z0-9_]+)( +staticlib)?[^:]*:(.*)", row).groups() for row in rows if row]


LINES = lines()
CRATES = [name for name, _, _ in LINES]
STATIC = {name for name, static, _ in LINES if static}
USES = {name: uses.split() for name, _, uses in LINES}


def folder(name):
    return os.path.join(ROOT, "crates", name)


def below(name):
    """The repository's libraries below a crate, each after those that it uses."""
    found = []
    for use in USES[name]:
        if use in USES:
            found += [it for it in [*below(use), use] if it not in found]
    return found


def root_file(name):
    return "src/main.rt" if os.path.isfile(os.path.join(folder(name), "src/main.rt")) else "src/lib.rt"


def rlib(name):
    return os.path.join(folder(name), "out/rlib", f"{name}.rlib")


def newest(name):
    """When a file of the crate was last written."""
    parts = [os.path.join(folder(name), part) for part in ("src", "specs", "proofs")]
    files = [os.path.join(at, it) for part in parts for at, _, names in os.walk(part) for it in names]
    return max(os.stat(file).st_mtime for file in files)


def as_ci_left_them(names):
    """Whether all these libraries stand as `rt ci` made them, which writes no stamp, of today's files."""
    return all(
        os.path.isfile(os.path.join(rlib(name), "format"))
        and not os.path.exists(os.path.join(folder(name), "out/rlib/stamp"))
        and os.stat(rlib(name)).st_mtime >= newest(name)
        for name in names
    )


def build_below(name):
    """Has the libraries below a crate built, by `rt lib` where `rt ci` has not left them all."""
    if as_ci_left_them(below(name)):
        return
    for use in USES[name]:
        if use in USES:
            call(["rt", "lib"], folder(use))


def call(words, cwd):
    """Runs a command, and ends with what it said where it fails."""
    done = subprocess.run(words, cwd=cwd, stdin=subprocess.DEVNULL, stdout=subprocess.PIPE, stderr=subprocess.STDOUT, text=True)
    if done.returncode != 0:
        sys.exit(f"{done.stdout}{os.path.basename(words[0])} {words[1]} failed in {os.path.relpath(cwd, ROOT)}")
    return done.stdout


def kit():
    """The toolchain's folder: `rt doc` prints the path of a page right in it."""
    return os.path.dirname(call(["rt", "doc"], ROOT).strip())


def words(at, name, jobs):
    """The words of the checker `rattle` for a crate, after its command: what `rt` passes."""
    found = ["--crate-name", name, root_file(name)]
    for use in ["std", *USES[name]]:
        found += ["--extern", f"{use}={rlib(use) if use in USES else f'{at}/rlibs/{use}.rlib'}"]
    found += ["-L", f"dependency={at}/rlibs"]
    for use in below(name):
        found += ["-L", f"dependency={os.path.dirname(rlib(use))}"]
    found += ["--antt-project", f"{at}/rattle/logic/antt-project.json", "--logic-built", f"{at}/logic_built"]
    found += ["--jobs", str(jobs)]
    return found + (["--crate-type", "staticlib"] if name in STATIC else [])


def checker(at):
    return f"{at}/bin/rattle"
