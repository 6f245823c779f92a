"""The programs run as their sources stand, with no proof.

`rt try` compiles a program that is not proved, with checks, and runs it on each file of a folder. Here the programs are the modules of one crate,
each with its `main` under a name of its own, beside what tools/harness.py and tools/direct.py have: the word behind the program's name says which is run.
A run that the checks stop, as at an index past an end, has crashed.
"""

import pathlib
import re
import shutil
import subprocess

from tools import direct, edits, harness

# What is run: four programs, the functions for C, and the calls of tools/direct.py, which are no crate of the repository.
PROGRAMS = ("gateway", "session", "reader", "waveform", "exports", "direct")

# The functions for C are four libraries. Three of them are driven by one program, and the fourth by one that drives a dispatcher by instants.
LIBRARIES = ("exports", "exports_reading", "exports_waves", "exports_instants")
RUNS = (*PROGRAMS, "instants")

# How long a run may take, in seconds, and how many runs may be late before nothing more is run. No run is made on the interpreter that `rt try` has too.
SECONDS = 5
MOST_LATE = 3
STEPS = 1

CASE = re.compile(r"^case=\d+-([a-z]+)-(\d+) run=(\S+)(.*)$")

MAIN = re.compile(r"^fn main\(rt: HostRuntime\)", re.MULTILINE)
ASKS = re.compile(r"^#!\[.*\]\n", re.MULTILINE)


class NotBuilt(Exception):
    """What the compiler or the linker said."""


def dependencies(text):
    """The names behind each name of a list such as crates.txt."""
    lines = (line.split("#")[0] for line in text.splitlines())
    pairs = (line.split(":", 1) for line in lines if ":" in line)
    return {name.split()[0]: names.split() for name, names in pairs}


def ground_up(names, needs):
    """Some names and what they reach, each behind those that it needs."""
    order = []

    def visit(name):
        for needed in needs.get(name, ()):
            visit(needed)
        if name not in order:
            order.append(name)

    for name in names:
        visit(name)
    return order


def as_module(text, program):
    """A program's source as that of a module, which has its `main` under the program's name. What only the prover reads is left out."""
    count = len(MAIN.findall(text))
    if count != 1:
        raise NotBuilt(f"the source of {program} has its 'fn main' {count} times")
    return ASKS.sub("", MAIN.sub(f"pub fn main_of_{program}(rt: HostRuntime)", edits.code(text)))


class Workshop:
    """A copy of the crates' sources in a folder, in which files may be changed and the programs run."""

    def __init__(self, root, folder):
        self.root, self.folder = root, folder
        self.needs = dependencies((root / "crates.txt").read_text(encoding="utf-8"))
        self.needs.update(direct=direct.NEEDS, instants=["exports_instants"])
        self.needs["exports"] = [*self.needs["exports"], "exports_reading", "exports_waves"]
        for crate in (source.parent for source in (root / "crates").glob("*/src")):
            shutil.copytree(crate / "src", folder / "crates" / crate.name / "src")
        own = [name for name in ground_up([*RUNS, *LIBRARIES], self.needs) if name not in (*RUNS, *LIBRARIES)]
        lines = [f"{name}: {' '.join(self.needs[name])}\n" for name in own]
        (folder / "crates.txt").write_text("".join(lines) + f"programs: {' '.join(own)}\n", encoding="utf-8")
        (folder / "crates/programs/src").mkdir(parents=True)
        self.put("streams", {f"src/{path.name}": path.read_text(encoding="utf-8") for path in (root / "crates/streams/src").glob("*.rt")})

    def reached(self, crate):
        """The programs that reach a crate, or are it."""
        return [program for program in RUNS if crate in ground_up([program], self.needs)]

    def original(self, crate, file):
        """A file's text in the repository."""
        return (self.root / "crates" / crate / file).read_text(encoding="utf-8")

    def put(self, crate, files):
        """Change source files of a crate. What a program says on standard error stands on standard output here."""
        for file, text in files.items():
            if file.startswith("src/"):
                text = text.replace("rt.stderr()", "rt.stdout()") if crate == "streams" else text
                (self.folder / "crates" / crate / file).write_text(text, encoding="utf-8")

    def _module(self, name):
        if name in ("exports", "instants"):
            yield f"run_{name}", harness.EXPORTS if name == "exports" else harness.INSTANTS
        if name == "direct":
            yield name, as_module(direct.SOURCE, name)
        for file in ("main.rt", "lib.rt"):
            source = self.folder / "crates" / name / "src" / file
            if source.exists():
                text = source.read_text(encoding="utf-8")
                yield name, as_module(text, name) if file == "main.rt" else ASKS.sub("", edits.code(text))

    def write(self):
        """The crate of all programs."""
        folder, names, starts = self.folder / "crates/programs/src", [], []
        for name, text in (pair for each in dict.fromkeys((*RUNS, *LIBRARIES)) for pair in self._module(each)):
            (folder / f"{name}.rt").write_text(text, encoding="utf-8")
            names.append(name)
            program = name.removeprefix("run_")
            if program in RUNS and name not in LIBRARIES:
                starts.append(f'        "{program}" => {name}::main_of_{program}(rt),')
        mods = "".join(f"mod {name};\n" for name in names)
        (folder / "main.rt").write_text(mods + harness.HEAD.replace("STARTS", "\n".join(starts)), encoding="utf-8")

    def run(self, cases, briefly=False):
        """Run the programs on the cases of a folder, and tell of each its program, its number and how it went; where that is wanted, only up to the first
        that is not as expected."""
        self.write()
        command = ["rt", "try", "--steps", str(STEPS), "--seconds", str(SECONDS), "--cases", str(cases)]
        made, said = 0, []
        with subprocess.Popen(command, cwd=self.folder / "crates/programs", stdin=subprocess.DEVNULL, stdout=subprocess.DEVNULL, stderr=subprocess.PIPE,
                              text=True, errors="replace") as process:
            for run in until(runs_of(process.stderr, said), briefly):
                made += 1
                yield run
            process.terminate()
        if not made:
            raise NotBuilt("".join(said).strip() or "rt try says nothing")


def runs_of(lines, said):
    """The runs that `rt try` tells of, each its program, its number and how it went: 'expected', 'differs', 'crashed' or 'late'. What it says beside them is
    put behind what was said."""
    for line in lines:
        found = CASE.match(line)
        if found is None:
            said.append(line)
        else:
            yield found.group(1), int(found.group(2)), went(found.group(3), found.group(4))


def until(runs, briefly):
    """The runs up to the third that is late, or, where that is wanted, to the first that is not as expected."""
    late = 0
    for run in runs:
        yield run
        late += run[2] == "late"
        if late == MOST_LATE or briefly and run[2] != "expected":
            return


def went(run, rest):
    """How a run went, by what `rt try` says of it."""
    if run == "ended":
        return "expected" if " output=expected" in rest else "differs"
    return "late" if run == "no-answer" else "crashed"
