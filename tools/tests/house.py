"""A copy of the repository with a toolchain that proves nothing and builds the simulator as the programs."""

import os
import pathlib
import shutil
import subprocess

ROOT = pathlib.Path(__file__).resolve().parents[2]

# Proves a crate of its own each time it has not been run before, and writes the program, unless it is there. A second one that runs meanwhile is
# noted, and each build. Where there is a file 'slow', it takes a while.
TOOLCHAIN = """#!/usr/bin/env bash
[ "$1" = run ] || exit 2
name=${PWD##*/}
cd ../..
if ! mkdir target/at-work 2>/dev/null; then echo "two at once" >>target/trouble; fi
echo "$name" >>target/builds
[ -e target/bin ] && old=1 || old=
out=crates/$name/out
mkdir -p "$out"
if [ "$old" ]; then echo "rt: nothing has changed since the last proved build, by out/$name.stamp, so nothing is checked now"
else echo "rt: chose --jobs 2 for words"; sleep 0.3; fi
[ -e slow ] && sleep 2
if [ -e fails ]; then echo "words: not proved"; rmdir target/at-work; exit 1; fi
if [ ! -e "$out/$name" ]; then
case $name in reader) kind=read ;; recorder) kind=record ;; waveform) kind=waveform ;; *) kind=file ;; esac
cat >"$out/$name" <<END
#!/usr/bin/env bash
if [ -e "$PWD/says" ]; then echo "$name: standard input: it fails" >&2; exit; fi
cd "$PWD"
case $kind in record | waveform) python3 -m sim $kind 2> >(sed "s/^/$name: the input is refused: /" >&2); exit 0 ;; esac
exec python3 -m sim $kind
END
chmod +x "$out/$name"
fi
rmdir target/at-work
"""

CRATES = "words:\ngateway: words\nrecorder: words\nreader: words\nwaveform: words\n"


class House:
    """The copy, with the toolchain in front of the path."""

    def __init__(self, folder):
        self.folder = pathlib.Path(folder, "a house")
        self.folder.mkdir()
        for name in ("tools", "sim", "plans"):
            shutil.copytree(ROOT / name, self.folder / name, ignore=shutil.ignore_patterns("tests", "__pycache__"))
        shutil.copy(ROOT / "gateway", self.folder)
        (self.folder / "crates.txt").write_text(CRATES, encoding="utf-8")
        for name in ("words", "gateway", "recorder", "reader", "waveform"):
            (self.folder / "crates" / name / "src").mkdir(parents=True)
            (self.folder / "crates" / name / "src/lib.rt").write_text(f"// {name}\n", encoding="utf-8")
        tools = pathlib.Path(folder, "bin")
        tools.mkdir()
        (tools / "rt").write_text(TOOLCHAIN)
        (tools / "rt").chmod(0o755)
        self.environment = {**os.environ, "PATH": f"{tools}:{os.environ['PATH']}"}

    def start(self, *arguments, command=None, where=None, more=(), **streams):
        """Start ./gateway, or another command."""
        streams = {"stdin": subprocess.PIPE, "stdout": subprocess.PIPE, "stderr": subprocess.PIPE, **streams}
        return subprocess.Popen([command or str(self.folder / "gateway"), *arguments], cwd=where or self.folder.parent,
                                env={**self.environment, **dict(more)}, **streams)

    def run(self, *arguments, text="", **how):
        """The status, and what was printed and said."""
        process = self.start(*arguments, **how)
        printed, said = process.communicate(text.encode())
        return process.returncode, (printed or b"").decode(), (said or b"").decode()

    def plan(self, text, name="x.plan"):
        path = self.folder.parent / name
        path.write_text(text, encoding="utf-8")
        return str(path)

    def builds(self):
        """The programs that the toolchain was asked for, in their order."""
        path = self.folder / "target/builds"
        return path.read_text(encoding="utf-8").split() if path.exists() else []
