"""The proved programs, for the commands that run them: only a proved program is run, and no build goes on while another does.

`rt run` proves a program and leaves it in its crate's out/, from where it is taken to target/bin; so does `rt ci` (tools/taken.py). What was
proved is noted in target/proved, for each program the sum of its sources and its own. Where both are as noted, nothing is asked of the toolchain
and nothing is written, so that a checkout that cannot be written runs too.
"""

import contextlib
import errno
import fcntl
import hashlib
import os
import pathlib
import resource
import signal
import subprocess
import tempfile
import time

from tools.output import Trouble, tell

ROOT = pathlib.Path(__file__).resolve().parents[1]
NAMES = ("gateway", "recorder", "reader", "waveform")  # those that a command runs
OTHERS = ("session",)  # those that are only compared
CANNOT_WRITE = (errno.EACCES, errno.EPERM, errno.EROFS)
PIECE = 1 << 16
STACK = 1 << 20  # bytes, more than any of them takes
PROVING = "rt: chose --jobs"  # what `rt` says of each crate that it proves now


# What a program is made of.

def crates_of(name):
    """A crate and those that it names in crates.txt; what is not of this repository is the toolchain's."""
    lines = (ROOT / "crates.txt").read_text(encoding="utf-8").splitlines()
    named = {line.split(":")[0].strip(): line.split(":")[1].split() for line in lines if ":" in line and not line.startswith("#")}
    return [name, *(each for each in named.get(name, ()) if each in named)]


def sum_of(name):
    """A sum over the sources that a program is proved and built from."""
    found = hashlib.sha256((ROOT / "crates.txt").read_bytes())
    for crate in sorted(crates_of(name)):
        folders = [ROOT / "crates" / crate / part for part in ("src", "specs", "proofs")]
        for path in sorted(path for folder in folders for path in folder.rglob("*") if path.suffix in (".rt", ".antt") and path.is_file()):
            data = path.read_bytes()
            found.update(f"{path.relative_to(ROOT)} {len(data)}\n".encode() + data)
    return found.hexdigest()


def noted(name, program):
    """The note that fits a program's bytes and the sources as they are now."""
    return f"{sum_of(name)} {hashlib.sha256(program).hexdigest()}\n"


def ready(name):
    """A program's bytes, if it was proved of the sources as they are; else None."""
    try:
        program = (ROOT / "target/bin" / name).read_bytes()
        return program if (ROOT / "target/proved" / name).read_text(encoding="utf-8") == noted(name, program) else None
    except OSError:
        return None


def is_lost(name):
    """Whether a program is not there, or is another than the one that was proved of these sources: then it is built again."""
    try:
        (ROOT / "target/bin" / name).read_bytes()
        return (ROOT / "target/proved" / name).read_text(encoding="utf-8").startswith(sum_of(name))
    except OSError:
        return not (ROOT / "target/bin" / name).exists()


# Building it.

@contextlib.contextmanager
def lock(path):
    """Hold a lock while a program is built: two builds at once would write the same files."""
    path.parent.mkdir(exist_ok=True)
    with open(path, "w", encoding="utf-8") as file:
        try:
            fcntl.flock(file, fcntl.LOCK_EX | fcntl.LOCK_NB)
        except BlockingIOError:
            tell("gateway: waiting for another build\n")
            fcntl.flock(file, fcntl.LOCK_EX)
        yield file


def follow(check, path):
    """What a build writes into its log, until it has ended: what is proved now is said; what was proved before is not."""
    with open(path, encoding="utf-8", errors="replace") as log:
        rest, ended = "", False
        while not ended:
            ended = check.poll() is not None
            *lines, rest = (rest + log.read()).split("\n")
            for line in lines:
                if line.startswith(PROVING):
                    tell(f"{line}\n")
            if not ended:
                time.sleep(0.05)


def prove(name, held):
    """Prove and build a program, which `rt` then runs on nothing. The build has the lock too, and writes into a file: it goes on, and holds the lock, if
    this process is ended."""
    log = ROOT / "target/build.log"
    with open(log, "wb") as said:
        check = subprocess.Popen(["rt", "run"], cwd=ROOT / "crates" / name, stdin=subprocess.DEVNULL, stdout=said, stderr=subprocess.STDOUT,
                                 pass_fds=(held.fileno(),))
    follow(check, log)
    if check.returncode != 0:
        raise Trouble(log.read_text(encoding="utf-8", errors="replace") + f"gateway: {name} is not proved, so that it is not run")


def take(name):
    """Put a program that was proved just now into target/bin, and note of what it was proved; its bytes."""
    made, path, note = ROOT / "crates" / name / "out" / name, ROOT / "target/bin" / name, ROOT / "target/proved" / name
    for folder in (path.parent, note.parent):
        folder.mkdir(parents=True, exist_ok=True)
    program = made.read_bytes()
    path.unlink(missing_ok=True)  # another may run it
    path.write_bytes(program)
    path.chmod(0o755)
    note.write_text(noted(name, program), encoding="utf-8")
    return program


def build(name):
    """A program's bytes, proved and built where it is not yet."""
    with lock(ROOT / "target/build.lock") as held:
        program = ready(name)  # another may have built it meanwhile
        if program is not None:
            return program
        if is_lost(name):
            tell(f"gateway: {name} is proved before it is run, which takes a few minutes\n")
        prove(name, held)
        return take(name)


def proved(name):
    """A program's bytes, so that a later build does not change it under a run."""
    program = ready(name)
    if program is not None:
        return program
    try:
        return build(name)
    except FileNotFoundError as error:
        raise Trouble(f"gateway: {error.filename}: {error.strerror}; is the Rattle toolchain installed?") from None
    except OSError as error:
        hint = f"; {name} is not built here yet: ./gateway build does it" if error.errno in CANNOT_WRITE else ""
        raise Trouble(f"gateway: {error.filename}: {error.strerror}{hint}") from None


# Running it.

def give_stack():
    """Let programs have as much stack as they take, where only the soft limit is below that: they keep all they have on it."""
    soft, hard = resource.getrlimit(resource.RLIMIT_STACK)
    unlimited = resource.RLIM_INFINITY
    if soft != unlimited and soft < STACK and (hard == unlimited or soft < hard):
        resource.setrlimit(resource.RLIMIT_STACK, (STACK if hard == unlimited else min(STACK, hard), hard))


def start(name, **streams):
    """Run a program from memory: no file of its own is left, however this process ends."""
    program = proved(name)
    give_stack()
    descriptor = os.memfd_create(name)
    try:
        with open(descriptor, "wb", closefd=False) as file:
            file.write(program)
        return subprocess.Popen([name], executable=f"/proc/self/fd/{descriptor}", pass_fds=(descriptor,), stderr=subprocess.PIPE, **streams)
    finally:
        os.close(descriptor)


def trouble_of(name, said, status):
    """What is to be said of a program that has ended: what it said of trouble itself, or else its status where that is not 0."""
    if said or not status:
        return said
    if status == -signal.SIGSEGV:
        return f"gateway: {name} was ended for want of stack; it takes less than {STACK >> 10} KB, see ulimit -s\n"
    return f"gateway: {name} ended with status {status}\n"


def output_of(name, pieces):
    """What a program prints for an input in pieces, piece by piece. Trouble that it tells of is raised at the end."""
    with tempfile.TemporaryFile() as file:
        for piece in pieces:
            file.write(piece)
        file.seek(0)
        with start(name, stdin=file, stdout=subprocess.PIPE) as process:
            while piece := process.stdout.read1(PIECE):
                yield piece
            said = process.stderr.read().decode(errors="replace")
    said = trouble_of(name, said, process.returncode)
    if said:
        raise Trouble(said.rstrip("\n"))


def printed(name, *pieces):
    """All that a program prints for an input."""
    return b"".join(output_of(name, pieces))
