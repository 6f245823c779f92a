"""Build a static library of crates.txt, crates/NAME/out/libNAME.a.

    python3 -m tools.libraries NAME            by `rt lib`, which proves what has changed since it last did
    python3 -m tools.libraries NAME --left F   over the libraries that an `rt ci` has left which began after the file F was written

`rt ci` proves a static library and builds none, and `rt lib` proves the libraries below it once more where `rt ci` alone has proved them. So with
--left the crate is checked and compiled over those that it left, by the command that `rt` gives itself. Where one of them is from before, `rt lib`
does it all the same.
"""

import argparse
import os
import pathlib
import shutil
import subprocess
import sys

ROOT = pathlib.Path(__file__).resolve().parents[1]


def kit_home():
    """The folder of the toolchain: where `rt` stands, as `rt` itself finds it; None where there is none."""
    found = shutil.which("rt")
    return pathlib.Path(found).resolve().parents[1] if found else None


def named(text):
    """The names behind each name of crates.txt."""
    lines = (line.split("#")[0] for line in text.splitlines())
    pairs = (line.split(":", 1) for line in lines if ":" in line)
    return {name.split()[0]: names.split() for name, names in pairs}


def libraries_of(name):
    """What a crate names, and the folder in which the library of each stands."""
    return {each: ROOT / "crates" / each / "out/rlib" / f"{each}.rlib" for each in named((ROOT / "crates.txt").read_text(encoding="utf-8"))[name]}


def are_left(libraries, began):
    """Whether an `rt ci` that began then made each library: it writes no stamp, and what it takes from an earlier run it links anew."""
    try:
        return all(not (library.parent / "stamp").exists() and (library / "format").stat().st_ctime_ns > began for library in libraries.values())
    except FileNotFoundError:
        return False


def over_left(name, libraries, home):
    """The command that builds a static library over some libraries."""
    command = [home / "bin/rattle", "build", "--crate-name", name, "src/lib.rt", "--extern", f"std={home}/rlibs/std.rlib"]
    command += ["-L", f"dependency={home}/rlibs"]
    for each, library in libraries.items():
        command += ["--extern", f"{each}={library}", "-L", f"dependency={library.parent}"]
    command += ["--antt-project", home / "rattle/logic/antt-project.json", "--logic-built", home / "logic_built", "--jobs", "2"]
    return [*command, "--links", f"{name}=", "--crate-type", "staticlib", "--toolchain", home / "toolchain", "--backend", "llvm", "-o", f"out/lib{name}.a"]


def main():
    parser = argparse.ArgumentParser(prog="python3 -m tools.libraries")
    parser.add_argument("name", metavar="NAME")
    parser.add_argument("--left", metavar="F")
    given = parser.parse_args()
    home, libraries, folder = kit_home(), libraries_of(given.name), ROOT / "crates" / given.name
    if home is None:
        sys.exit("rt, the Rattle toolchain, is not on the PATH")
    command = ["rt", "lib"]
    if given.left and are_left(libraries, os.stat(given.left).st_mtime_ns):
        (folder / "out").mkdir(exist_ok=True)
        command = over_left(given.name, libraries, home)
    return subprocess.run(command, cwd=folder, check=False).returncode


if __name__ == "__main__":
    sys.exit(main())
