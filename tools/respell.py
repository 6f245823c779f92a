"""Bring the repository's own definitions and lemmas to today's spelling, in which words are in snake case: lowestIn becomes lowest_in, and
step-a step_a. Run once, at the top, after the kit's own script.

A name is turned if an .antt file of this repository declares it, and in every file that does not have it from a library: in .antt and .rt files,
in the edits, and in the documents where it stands between backquotes. A name that begins with a capital is a type or speaks of one, and stays.
Rust names, strings and file names stay. Where a name becomes one that the file has already, the script says so: a function of Rust may have the
name of its definition, and two definitions may not.
"""

import collections
import pathlib
import re
import sys

DECLARED = re.compile(r"^\s*(?:(?:pub|abbrev|unfoldable)\s+)*([^\s(){}.;,@\"«»:]+)(?:\s+[({][^:]*:[^()]*[)}])*\s+:(\s.*|)$")
WORD = re.compile(r"[^\s(){}.;,@\"«»`]+")
USE = re.compile(r"\buse\s+([^\s;{]+?)\.?\{([^{}]*)\}|\buse\s+([^\s;{]+)\.([^\s;.{]+)")
ANTT = re.compile(r"--(?=\s|-|$)[^\n]*|\"(?:[^\"\\\n]|\\.)*\"|\{-.*?-\}", re.S)
RUST = re.compile(r"//[^\n]*|b?\"(?:[^\"\\]|\\.)*\"|b?'(?:\\.|[^'\\\n])'", re.S)
SPAN = re.compile(r"`[^`\n]*`")
# what a proof of a function declares is named by Rattle, and goes by Rattle's spelling
GOAL = re.compile(r"\btie\.|\bgoal\.")


def snake(name):
    """The name in snake case."""
    return re.sub(r"(?<=[a-z0-9])[A-Z]", lambda m: "_" + m[0].lower(), name).replace("-", "_")


def antt_files():
    return sorted(p for d in ("specs", "proofs") for p in pathlib.Path("crates").glob(f"*/{d}/**/*.antt"))


class Spelled(dict):
    """The names that edits and documents have: a word whose new spelling is a name that is declared now, whichever script turned it."""

    def __init__(self, declared):
        super().__init__()
        self.declared = {snake(name) for name in declared}

    def get(self, word, otherwise=None):
        return snake(word) if word[0].islower() and word != snake(word) and snake(word) in self.declared else otherwise


def declared_names():
    """The names that the files of this repository declare."""
    found = set()
    for path in antt_files():
        for line in path.read_text().splitlines():
            m = DECLARED.match(line)
            if m and not GOAL.search(m[2]) and m[1][0].islower():
                found.add(m[1])
    return found


def foreign(text, crates):
    """The names that a file has from elsewhere than this repository."""
    names = set()
    for m in USE.finditer(text):
        path = m[1] or m[3]
        steps = path.split(".")
        if steps[0] == "Rattle" and len(steps) > 1 and steps[1] in crates:
            continue
        for word in (m[2] or m[4]).split(","):
            names.add(word.split(" as ")[0].strip().split(" ")[-1])
            names.add(word.split(" as ")[-1].strip())
    return names


def turned(text, names, quiet):
    """The text with the names turned, in code and between backquotes in what is quiet; `quiet` finds comments and strings."""

    def words(part):
        return WORD.sub(lambda m: names.get(m[0], m[0]), part)

    out, at = [], 0
    for m in quiet.finditer(text):
        out.append(words(text[at : m.start()]))
        out.append(m[0] if m[0][0] in "\"b'" else SPAN.sub(lambda s: words(s[0]), m[0]))
        at = m.end()
    out.append(words(text[at:]))
    return "".join(out)


def edited(text, names):
    """An edit with the names turned in the lines that the prover reads, and between backquotes elsewhere."""
    out = []
    for line in text.splitlines(keepends=True):
        if re.match(r"(old|new):", line):
            out.append(turned(line, names, RUST))
        else:
            out.append(SPAN.sub(lambda s: WORD.sub(lambda m: names.get(m[0], m[0]), s[0]), line))
    return "".join(out)


def main():
    crates = {p.name for p in pathlib.Path("crates").iterdir()}
    declared = declared_names()
    names = {name: snake(name) for name in declared if name != snake(name)}
    spelled = Spelled(declared)
    new, meet = {}, collections.defaultdict(set)
    for path in antt_files() + sorted(pathlib.Path("crates").glob("*/src/**/*.rt")):
        text = path.read_text()
        lent = foreign(text, crates)
        here = {old: to for old, to in names.items() if old not in lent}
        code = ANTT.sub(" ", text) if path.suffix == ".antt" else RUST.sub(" ", text)
        present = set(WORD.findall(code))
        for old, to in here.items():
            if old in present and (to in present or to in lent):
                meet[(old, to)].add(str(path))
        new[path] = turned(text, here, ANTT if path.suffix == ".antt" else RUST)
    for (old, to), where in sorted(meet.items()):
        print(f"meets: {old} and {to} in {', '.join(sorted(where))}")
    for path in sorted(pathlib.Path("crates").glob("*/must-fail/**/*.edit")):
        new[path] = edited(path.read_text(), spelled)
    pages = [p for p in pathlib.Path(".").glob("*.md")] + sorted(pathlib.Path("docs").glob("**/*.md"))
    for path in pages:
        new[path] = SPAN.sub(lambda s: WORD.sub(lambda m: spelled.get(m[0], m[0]), s[0]), path.read_text())
    count = 0
    for path, text in new.items():
        if text != path.read_text():
            path.write_text(text)
            count += 1
    print(f"{len(names)} names, {count} files")
    return 0


if __name__ == "__main__":
    sys.exit(main())
