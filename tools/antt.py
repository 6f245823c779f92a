"""The part of antt that the claim on histories is written in: definitions by clauses, and records of statements.

A definition's text is read into tuples: ('num', n), ('var', name), ('app', head, parts), ('proj', of, field), ('lam', names, body),
('let', name, value, body), ('rec', fields), ('pi' or 'sig', names, body), ('arrow', left, right), ('and', parts) and
('op', sign, left, right).
"""

import re
from typing import NamedTuple

TOKEN = re.compile(
    r"\s+|(?P<proj>(?<=[\w')])\.[a-z][\w']*)|(?P<num>\d+)|(?P<name>[A-Za-z_ℕ⊥][\w']*(?:-[\w']+)*)"
    r"|(?P<sign>\[\]|\+\+|&&|\|\||[≡→×⊎≤<+\-*^∷λ.:=(){};,])")

# Each sign that stands between two parts, from the loosest to the tightest, and whether it joins from the right.
SIGNS = (("≡", "≤", "<"), ("∷", "++"), ("||",), ("&&",), ("+", "-"), ("*",), ("^",))
FROM_THE_RIGHT = ("∷", "++", "||", "&&", "^")


class Unread(Exception):
    """A text that is no part of what is read here."""


class Definition(NamedTuple):
    """Its module's parameters, and its clauses: patterns and what they give."""

    scope: object
    params: tuple
    clauses: list


class Statement(NamedTuple):
    """A record: its module's and its own parameters, and its fields with their types."""

    scope: object
    params: tuple
    fields: list


def tokens(text):
    """The words of a text."""
    at, found = 0, []
    while at < len(text):
        match = TOKEN.match(text, at)
        if match is None:
            raise Unread(text[at:at + 20])
        if match.lastgroup:
            found.append((match.lastgroup, match.group()))
        at = match.end()
    return found


class Reader:
    """Reads one expression, or one pattern behind the other."""

    def __init__(self, text):
        self.tokens, self.at = tokens(text), 0

    def peek(self, ahead=0):
        return self.tokens[self.at + ahead] if self.at + ahead < len(self.tokens) else ("end", "")

    def next(self):
        self.at += 1
        return self.tokens[self.at - 1]

    def take(self, word):
        if self.peek()[1] != word:
            raise Unread(f"{self.peek()[1]!r} in place of {word!r}")
        self.at += 1

    def names(self, end):
        found = []
        while self.peek()[1] != end:
            found.append(self.next()[1])
        self.take(end)
        return found

    def expression(self):
        word = self.peek()[1]
        if word == "λ":
            self.next()
            if self.peek()[1] == "(":
                [name] = self.binder()
                self.take(".")
                return ("lam", [name], self.expression())
            return ("lam", self.names("."), self.expression())
        if word == "let":
            return self.local()
        if self.at_binder():
            return self.bound()
        left = self.either()
        if self.peek()[1] == "→":
            self.next()
            return ("arrow", left, self.expression())
        return left

    def local(self):
        self.take("let")
        name = self.next()[1]
        self.take(":")
        self.either()
        self.take("=")
        value = self.expression()
        self.take("in")
        return ("let", name, value, self.expression())

    def at_binder(self):
        ahead = 1
        while self.peek(ahead)[0] == "name":
            ahead += 1
        return self.peek()[1] == "(" and ahead > 1 and self.peek(ahead)[1] == ":"

    def binder(self):
        self.take("(")
        names = self.names(":")
        self.expression()
        self.take(")")
        return names

    def bound(self):
        names = []
        while self.at_binder():
            names += self.binder()
        if self.next()[1] == "→":
            return ("pi", names, self.expression())
        return ("sig", names, self.both())

    def either(self):
        left = self.both()
        if self.peek()[1] == "⊎":
            self.next()
            return ("op", "⊎", left, self.either())
        return left

    def both(self):
        if self.at_binder():
            return self.bound()
        parts = [self.joined(0)]
        while self.peek()[1] == "×":
            self.next()
            parts.append(self.both() if self.at_binder() else self.joined(0))
        return parts[0] if len(parts) == 1 else ("and", parts)

    def joined(self, level):
        if level == len(SIGNS):
            return self.applied()
        left = self.joined(level + 1)
        while self.peek()[1] in SIGNS[level]:
            sign = self.next()[1]
            right = self.joined(level if sign in FROM_THE_RIGHT else level + 1)
            left = ("op", sign, left, right)
        return left

    def applied(self):
        head, parts = self.atom(), []
        while True:
            kind, word = self.peek()
            if kind in ("num", "name") and word not in ("in", "let") or word in ("(", "[]"):
                parts.append(self.atom())
            else:
                return ("app", head, parts) if parts else head

    def atom(self):
        """A part and the fields that are taken of it: a dot stands right behind what it takes a field of."""
        found = self.part()
        while self.peek()[0] == "proj":
            found = ("proj", found, self.next()[1][1:])
        return found

    def part(self):
        kind, word = self.next()
        if kind == "num":
            return ("num", int(word))
        if word == "(":
            inner = self.expression()
            self.take(")")
            return inner
        if word == "record":
            return self.fields()
        if word == "Unit":
            self.at += 3
        if kind != "name" and word != "[]":
            raise Unread(word)
        return ("var", word)

    def fields(self):
        self.take("{")
        found = {}
        while self.peek()[1] != "}":
            name = self.next()[1]
            self.take("=")
            found[name] = self.expression()
            if self.peek()[1] == ";":
                self.next()
        self.take("}")
        return ("rec", found)


def logical_lines(text):
    """The lines of a file with those that go on joined to the first, each with its indent; comments are left out."""
    lines = []
    for line in text.splitlines():
        line = re.sub(r"(^|\s)--( .*)?$", "", line).rstrip()
        indent = len(line) - len(line.lstrip())
        if not line:
            continue
        if lines and indent > lines[-1][0] and not lines[-1][1].endswith(" where"):
            lines[-1][1] += " " + line.lstrip()
        elif lines and line.lstrip()[0] in "})" and indent == lines[-1][0]:
            lines[-1][1] += " " + line.lstrip()
        else:
            lines.append([indent, line.lstrip()])
    return lines


def parameters(text):
    """The names of the parameters of a module or a record."""
    reader, names = Reader(text), []
    while reader.at_binder():
        names += reader.binder()
    return names


def read_definitions(text):
    """The definitions and the records of statements of one file."""
    found, modules, record = {}, [], None
    for indent, line in logical_lines(text):
        modules = [each for each in modules if each[0] < indent]
        if record and indent <= record[0]:
            record = None
        line = re.sub(r"^((abbrev|unfoldable|pub) )+", "", line)
        scope, outer = (modules[-1][1], modules[-1][2]) if modules else (None, ())
        if re.match(r"(use|mod|unfolding|data) ", line):
            record = (indent, None) if line.startswith("data ") else record
        elif line.startswith("module _ "):
            modules.append((indent, object(), tuple(outer) + tuple(parameters(line[9:-6]))))
        elif line.startswith("record "):
            name, rest = re.match(r"record (\S+) (.*): Type 0 where$", line).groups()
            found[name] = Statement(scope, tuple(outer) + tuple(parameters(rest)), [])
            record = (indent, found[name])
        elif record:
            if record[1] is not None:
                name, kind = line.split(" : ", 1)
                record[1].fields.append((name, Reader(kind).expression()))
        elif not re.match(r"\S+ : ", line):
            add_clause(found, scope, outer, line)
    return found


def add_clause(found, scope, outer, line):
    """A clause of a definition, behind those before it."""
    reader = Reader(line)
    name, patterns = reader.next()[1], []
    while reader.peek()[1] != "=":
        patterns.append(reader.atom())
    reader.take("=")
    found.setdefault(name, Definition(scope, tuple(outer), [])).clauses.append((patterns, reader.expression()))
