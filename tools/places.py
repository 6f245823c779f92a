"""Count the places of a design pass in the sources: python3 -m tools.places [--list] [COMMIT]

A place is a type, a function, a loop or a clause that a pattern finds. The patterns go by the forms and names that the older language
left; what they find is a place to look at, and not yet a fault. Without a commit the files are read as they stand.
"""
import re
import subprocess
import sys
from collections import Counter, defaultdict
from pathlib import Path


def sources(commit, ending):
    """The texts of crates/*/src/*.rt, or of proofs, by path."""
    if commit is None:
        return {str(path): path.read_text() for path in sorted(Path("crates").rglob("*" + ending)) if "out" not in path.parts}
    paths = subprocess.run(["git", "ls-tree", "-r", "--name-only", commit, "crates"], capture_output=True, text=True, check=True).stdout.split("\n")
    return {path: subprocess.run(["git", "show", f"{commit}:{path}"], capture_output=True, text=True, check=True).stdout for path in paths if path.endswith(ending)}


def found(texts, pattern):
    """Each match of a pattern, as 'path:line: text'."""
    for path, text in texts.items():
        for match in re.finditer(pattern, text, re.M):
            line = text.count("\n", 0, match.start()) + 1
            yield f"{path}:{line}: {' '.join(match.group(0).split())[:110]}"


FUNCTION = r"^ *(?:#\[.*\]\n)?(?:pub )?(?:extern \"C\" )?fn (\w+)(?:<[^>]*>)?\(([^{]*?)\)(?: -> ([^\n{]+?))?(?: \{)?\n"


def functions(texts):
    for path, text in texts.items():
        for match in re.finditer(FUNCTION, text, re.M):
            yield path, text.count("\n", 0, match.start()) + 1, match.group(1), match.group(2), (match.group(3) or "").strip()


def shaped(texts):
    """Own enums of the shape of Option or Result: a variant that says that there is nothing, or why not."""
    nothing = r"^    (?:No[A-Z]\w*|None\w+|Never|Un[a-z]\w*|\w*Refused\w*|Malformed\w*|Faulty|CutShort|TooShort)\b"
    for path, text in texts.items():
        for match in re.finditer(r"^(?:pub )?enum (\w+) \{\n(.*?)^\}", text, re.M | re.S):
            others = len(re.findall(r"^    [A-Z]\w*", match.group(2), re.M)) - len(re.findall(nothing, match.group(2), re.M))
            if re.search(nothing, match.group(2), re.M) and others:
                yield f"{path}: enum {match.group(1)}"


def repeated(texts):
    """Facts that stand in the requires of three or more functions."""
    where = defaultdict(list)
    for path, text in texts.items():
        for match in re.finditer(r"requires (?:\w+ )?\{ (.*?) \}\n", text, re.S):
            where[" ".join(match.group(1).split())].append(path)
    for fact, paths in where.items():
        if len(paths) > 2:
            yield f"{len(paths)} functions: {fact}"


def twins(texts):
    """Names that functions of several files share, and functions that differ in a width."""
    names = Counter(name for name, _ in {(name, path) for path, _, name, _, _ in functions(texts) if name not in ("main", "new")})
    for path, line, name, _, _ in functions(texts):
        if names[name] > 1 or re.search(r"_u(8|32|64)$|_seen$|^(two|four|eight)$|^read_(few|some|any)$", name):
            yield f"{path}:{line}: {name}"


HAND = r"same|copy|least|larger|wide|wider|low|rises|later|held|raised|risen|behind|task_of|task_byte|task_in|alike_with|swapped|counted|wire_of"


def by_name(texts, pattern, answers=None):
    for path, line, name, _, answer in functions(texts):
        if re.fullmatch(pattern, name) and (answers is None or re.fullmatch(answers, answer)):
            yield f"{path}:{line}: {name} -> {answer}"


def points(texts, proofs):
    """Each point's kinds of places."""
    yield "1 own enums of the shape of Option or Result", list(shaped(texts))
    yield "1 a flag beside a value", list(found(texts, r"^    (?:pub )?\w+: bool,$"))
    yield "1 a number for a refusal, 0 for none", list(by_name(texts, r"\w*(?:refusal|fault_of|number_of)", "u8"))
    yield "1 a bool that says whether reading or writing was possible", [
        place for place in by_name({p: t for p, t in texts.items() if re.search("streams|printing|session|gateway|recorder|reader|waveform", p)}, r"\w+", "bool")]
    yield "1 a number that stands for none", list(found(texts, r"(?:[!=]= u64::MAX|return u64::MAX|= NO_TASK|NOBODY;|< (?:codes::)?NO_TASK|codes::NO_TASK;)"))
    yield "1 numbers for kinds", list(found(texts, r"^(?:pub )?const \w+: u(?:8|64) = \w+( as u8)?;"))
    yield "2 functions of one name or one shape", list(twins(texts))
    yield "3 loops", list(found(texts, r"^ *(?:'\w+: )?(?:while|loop)\b.*"))
    yield "4 equality, order, conversion and arithmetic by hand", list(by_name(texts, HAND))
    yield "5 facts in the requires of three functions or more", list(repeated(texts))
    yield "5 functions of seven parameters or more", [f"{p}:{n}: {f}" for p, n, f, given, _ in functions(texts) if given.count(":") - given.count("::") * 2 > 6]
    yield "6 a length beside an array", list(found(texts, r"^    (?:pub )?(?:len|count|size|kept): usize,$"))
    yield "6 arrays by task", list(found(texts, r"^    (?:pub )?\w+: \[u\d+; (?:32|limits::TASKS|224)\],$"))
    yield "7 tests of a kind one after the other", list(found(texts, r"^ *if \w+ == \w*_?(?:KIND|codes::\w+)\b.*"))
    yield "8 answers", list(found({p: t for p, t in proofs.items() if p.endswith("Answers.antt")}, r"^pub \S+ : goal\.\S+"))
    yield "8 lines of answers", [line for p, t in proofs.items() if p.endswith("Answers.antt") for line in t.split("\n") if line]


def main(arguments):
    listed = "--list" in arguments
    [commit] = [argument for argument in arguments if not argument.startswith("--")] or [None]
    texts = {path: text for path, text in sources(commit, ".rt").items() if "/src/" in path}
    for kind, places in points(texts, sources(commit, ".antt")):
        print(f"{len(places):5} {kind}")
        if listed and not kind.startswith("8"):
            for place in places:
                print("          " + place)


if __name__ == "__main__":
    main(sys.argv[1:])
