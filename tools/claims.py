"""Whether a statement holds of a run: the claim's definitions as crates/guarantees/specs has them, computed.

What a statement says of all ways to cut a history or a list of calls in two is tried of each of them; a number that only a bound or an
equation fixes is found by it. A list is ('∷', first, rest) or ('[]',), a variant its name and what it holds, a record a dict.
"""

from tools.antt import Definition, Statement, read_definitions

EMPTY = ("[]",)

# How far a number is tried that nothing fixes: the tasks.
TASKS = 32


def listed(values):
    """A Python list as a list here."""
    made = EMPTY
    for value in reversed(values):
        made = ("∷", value, made)
    return made


def unlisted(value):
    found = []
    while value != EMPTY:
        found.append(value[1])
        value = value[2]
    return found


def joined(left, right):
    for value in reversed(unlisted(left)):
        right = ("∷", value, right)
    return right


def at(values, index, missing=0):
    """An element of a list, or what stands for one that is missing."""
    values = unlisted(values) if isinstance(values, tuple) else values
    return values[index] if index < len(values) else missing


OPERATIONS = {
    "≡": lambda a, b: a == b, "≤": lambda a, b: a <= b, "<": lambda a, b: a < b, "+": lambda a, b: a + b,
    "-": lambda a, b: max(0, a - b), "*": lambda a, b: a * b, "^": lambda a, b: a ** b, "∷": lambda a, b: ("∷", a, b), "++": joined}

# What lower crates define, with how many arguments each has.
GIVEN = {
    "eqb": (2, lambda a, b: a == b), "ltb": (2, lambda a, b: a < b), "leb": (2, lambda a, b: a <= b), "not": (1, lambda a: not a),
    "bit": (1, int), "size": (1, lambda s: s.bit_count()), "member": (2, lambda n, s: bool(s >> n & 1)),
    "insert": (2, lambda n, s: s | 1 << n), "remove": (2, lambda n, s: s & ~(1 << n)),
    "length": (1, lambda l: len(unlisted(l))), "min": (2, min), "max": (2, max),
    "get_or": (3, at), "replicate": (2, lambda n, value: listed([value] * n)), "take": (2, lambda n, l: listed(unlisted(l)[:n])),
    "drop": (2, lambda n, l: listed(unlisted(l)[n:])),
    "copyin_length": (2, at), "execution_length": (2, lambda c, n: at(c, TASKS + n)),
    "copyout_length": (2, lambda c, n: at(c, 2 * TASKS + n)), "spacing": (2, lambda c, n: at(c, 3 * TASKS + n)),
    "settled": (1, lambda copyin: copyin[0] in ("NoneChosen", "Loaded", "Cancelled")),
    "copyin_task": (1, lambda copyin: ("Some", copyin[1]) if len(copyin) > 1 else ("None",))}


# Values that are what they look like, and how many of what they give are kept.
PLAIN = (int, tuple)
MOST_KNOWN = 20_000


class Partial:
    """A function that has some of its arguments."""

    def __init__(self, function, arguments=()):
        self.function, self.arguments = function, arguments


class Claims:
    """Statements by their names, over some definitions and what the runs give."""

    def __init__(self, texts, given):
        self.found = {}
        for text in texts:
            self.found.update(read_definitions(text))
        self.given = {**GIVEN, "highest": (3, self.highest), **given}
        self.tasks = range(TASKS)
        self.known = {}

    def highest(self, priority, since, tasks):
        """The highest task of a set: by priority, then by the original time, which a function gives of each, then by number (6/13)."""
        members = [n for n in range(TASKS) if tasks >> n & 1]
        return ("Some", min(members, key=lambda n: (at(priority, n), self.apply(since, [n]), n))) if members else ("None",)

    # Values.

    def value(self, term, env):
        kind = term[0]
        if kind == "num":
            return term[1]
        if kind == "var":
            return self.named(term[1], env)
        if kind == "proj":
            return self.value(term[1], env)[term[2]]
        if kind == "lam":
            return Partial((term, env))
        if kind == "let":
            return self.value(term[3], {**env, term[1]: self.value(term[2], env)})
        if kind == "rec":
            return {name: self.value(each, env) for name, each in term[1].items()}
        if kind == "op":
            return self.operation(term, env)
        return self.application(term, env)

    def operation(self, term, env):
        _, sign, left, right = term
        if sign in ("&&", "||"):
            first = self.value(left, env)
            return self.value(right, env) if first == (sign == "&&") else first
        return OPERATIONS[sign](self.value(left, env), self.value(right, env))

    def application(self, term, env):
        _, head, parts = term
        if head == ("var", "cond"):
            branch = parts[1] if self.value(parts[0], env) else parts[2]
            value = self.value(branch, env)
            return self.apply(value, [self.value(part, env) for part in parts[3:]])
        arguments = [self.value(part, env) for part in parts]
        if head[0] == "var" and head[1] in self.found and head[1] not in env and all(isinstance(each, PLAIN) for each in arguments):
            return self.remembered(head, env, arguments)
        return self.apply(self.value(head, env), arguments)

    def remembered(self, head, env, arguments):
        """What a definition gives for plain values: a walk along a history is asked again and again at one point of it."""
        key = (head[1], self.own(self.found[head[1]], env), *arguments)
        try:
            if key in self.known:
                return self.known[key]
        except TypeError:  # a module's parameter that is no plain value
            return self.apply(self.value(head, env), arguments)
        if len(self.known) > MOST_KNOWN:
            self.known.clear()
        self.known[key] = self.apply(self.value(head, env), arguments)
        return self.known[key]

    def named(self, name, env):
        if name in env:
            return env[name]
        if name in ("true", "false"):
            return name == "true"
        if name in self.given:
            return Partial(self.given[name]) if isinstance(self.given[name], tuple) else self.given[name]
        if name in self.found:
            return self.apply(Partial(self.found[name], self.own(self.found[name], env)), [])
        return (name,)

    @staticmethod
    def own(found, env):
        """Within its module a definition has the module's parameters."""
        return tuple(env[name] for name in found.params) if found.scope is not None and env.get("scope") is found.scope else ()

    def apply(self, function, arguments):
        if not isinstance(function, Partial):
            return function + tuple(arguments) if arguments else function
        arguments = function.arguments + tuple(arguments)
        made = function.function
        if isinstance(made, Definition):
            count = len(made.params) + len(made.clauses[0][0])
            if len(arguments) < count:
                return Partial(made, arguments)
            body, env = self.clause(made, arguments[:count])
            return self.apply(self.value(body, env), arguments[count:])
        if isinstance(made[0], int):
            return self.apply(made[1](*arguments[:made[0]]), arguments[made[0]:]) if len(arguments) >= made[0] else Partial(made, arguments)
        (_, names, body), env = made
        if len(arguments) < len(names):
            return Partial(made, arguments)
        return self.apply(self.value(body, {**env, **dict(zip(names, arguments))}), arguments[len(names):])

    def clause(self, made, arguments):
        """The clause that fits some arguments, with what its patterns bind."""
        env = {"scope": made.scope, **dict(zip(made.params, arguments))}
        for patterns, body in made.clauses:
            if any(misfits(pattern, value) for pattern, value in zip(patterns, arguments[len(made.params):])):
                continue
            for bound in self.all_matches(patterns, arguments[len(made.params):], {}):
                return body, {**env, **bound}
        raise ValueError("no clause fits")

    def all_matches(self, patterns, values, bound):
        if not patterns:
            yield bound
            return
        for more in self.matches(patterns[0], values[0], None, bound):
            yield from self.all_matches(patterns[1:], values[1:], more)

    # Patterns, and terms with unknowns in them.

    def matches(self, pattern, value, unknown, bound):
        """Each way in which a pattern is a value; of a term with unknowns only those are bound, and `bound` has all else."""
        kind = pattern[0]
        if unknown is None and isinstance(value, int) and numeral(pattern):
            yield from self.counted(pattern, value, bound)
        elif kind == "var" and (is_variable(pattern[1]) if unknown is None else pattern[1] in unknown - set(bound)):
            yield {**bound, pattern[1]: value}
        elif unknown is not None and not names_in(pattern) & unknown - set(bound):
            if self.value(pattern, bound) == value:
                yield bound
        elif kind == "op" and pattern[1] == "+" and pattern[3][0] == "num":
            if value >= pattern[3][1]:
                yield from self.matches(pattern[2], value - pattern[3][1], unknown, bound)
        elif kind == "op" and pattern[1] == "∷":
            if value != EMPTY:
                for more in self.matches(pattern[2], value[1], unknown, bound):
                    yield from self.matches(pattern[3], value[2], unknown, more)
        elif kind == "op" and pattern[1] == "++":
            yield from self.cuts(pattern, value, unknown, bound)
        elif kind == "app":
            if isinstance(value, tuple) and value[0] == pattern[1][1]:
                yield from self.parts_match(pattern[2], value[1:], unknown, bound)
        elif value == (self.named(pattern[1], {}) if kind == "var" else pattern[1]):
            yield bound

    def counted(self, pattern, value, bound):
        """A number as none or one more than another."""
        if pattern[0] == "var":
            if value == 0:
                yield bound
        elif value > 0:
            yield from self.matches(pattern[2][0], value - 1, None, bound)

    def parts_match(self, patterns, values, unknown, bound):
        if not patterns:
            yield bound
            return
        for more in self.matches(patterns[0], values[0], unknown, bound):
            yield from self.parts_match(patterns[1:], values[1:], unknown, more)

    def cuts(self, pattern, value, unknown, bound):
        """Each way to cut a list in two."""
        values, rest = unlisted(value), value
        for at in range(len(values) + 1):
            for more in self.matches(pattern[3], rest, unknown, bound):
                yield from self.matches(pattern[2], listed(values[:at]), unknown, more)
            rest = rest[2] if rest != EMPTY else rest

    def solutions(self, term, unknown, env):
        """Each way to fix unknowns by a premise, or None where it fixes none."""
        if term[0] == "op" and term[1] == "≡":
            for here, there in ((term[2], term[3]), (term[3], term[2])):
                if not names_in(here) & unknown:
                    return self.matches(there, self.value(here, env), unknown, {k: v for k, v in env.items() if k not in unknown})
        if term[0] == "op" and term[1] == "<" and term[2][0] == "var" and not names_in(term[3]) & unknown:
            most = self.value(term[3], env)
            return ({**env, term[2][1]: n} for n in (self.tasks if most == TASKS else range(most)))
        if term[0] == "app" and term[1] == ("var", "EmptySets"):
            return ({**env, term[2][1][1]: rest} for rest in self.value(term[2][0], env).empty_sets())
        return None

    # Statements.

    def holds(self, term, env):
        kind = term[0]
        if kind in ("pi", "arrow"):
            return self.always(term, set(), [], env)
        if kind == "sig":
            return self.somewhere(set(term[1]), [term[2]], env)
        if kind == "and":
            return all(self.holds(part, env) for part in term[1])
        if kind == "let":
            return self.holds(term[3], {**env, term[1]: self.value(term[2], env)})
        if kind == "op":
            return self.holds(term[2], env) or self.holds(term[3], env) if term[1] == "⊎" else self.value(term, env)
        head, parts = (term[1], term[2]) if kind == "app" else (term, [])
        if head[1] in ("⊥", "Unit"):
            return head[1] == "Unit"
        found = self.found[head[1]]
        arguments = self.own(found, env) + tuple(self.value(part, env) for part in parts)
        if isinstance(found, Statement):
            return self.record_holds(found, arguments)
        count = len(found.params) + len(found.clauses[0][0])
        body, inner = self.clause(found, arguments[:count])
        more = {f"argument {place}": argument for place, argument in enumerate(arguments[count:])}
        return self.holds(("app", body[1], body[2] + [("var", name) for name in more]) if more else body, {**inner, **more})

    def record_holds(self, found, arguments, fields=None):
        """Each field of a record holds; those that are no statements are found by the others."""
        env = {"scope": found.scope, **dict(zip(found.params, arguments))}
        data = {name for name, kind in found.fields if is_data(kind)}
        return self.somewhere(data, [kind for name, kind in found.fields if name not in data and (fields is None or name in fields)], env)

    def always(self, term, unknown, open_ones, env):
        kind = term[0]
        if kind == "pi":
            return self.always(term[2], unknown | set(term[1]), open_ones, {k: v for k, v in env.items() if k not in term[1]})
        if kind == "let" and not names_in(term[2]) & unknown:
            return self.always(term[3], unknown, open_ones, {**env, term[1]: self.value(term[2], env)})
        if kind == "arrow":
            if not names_in(term[1]) & unknown:
                return not self.holds(term[1], env) or self.always(term[2], unknown, open_ones, env)
            found = self.solutions(term[1], unknown, env)
            if found is None:
                return self.always(term[2], unknown, open_ones + [term[1]], env)
            return all(self.always(term[2], unknown - set(more), open_ones, more) for more in found)
        for name in unknown & names_in(term):
            return all(self.always(term, unknown - {name}, open_ones, {**env, name: n}) for n in self.tasks)
        return not all(self.holds(each, env) for each in open_ones) or self.holds(term, env)

    def somewhere(self, unknown, parts, env):
        parts = [each for part in parts for each in (part[1] if part[0] == "and" else [part])]
        for at, part in enumerate(parts):
            rest = parts[:at] + parts[at + 1:]
            if part[0] == "sig":
                return self.somewhere(unknown | set(part[1]), [part[2]] + rest, env)
            if not names_in(part) & unknown:
                return self.holds(part, env) and self.somewhere(unknown, rest, env)
        for at, part in enumerate(parts):
            found = self.solutions(part, unknown, env)
            if found is not None:
                return any(self.somewhere(unknown - set(more), parts[:at] + parts[at + 1:], more) for more in found)
        for name in unknown if parts else ():
            return any(self.somewhere(unknown - {name}, parts, {**env, name: n}) for n in self.tasks)
        return True


def misfits(pattern, value):
    """Whether a pattern is of another variant than a value, seen at once."""
    if numeral(pattern):
        return False
    if pattern[0] == "app":
        return value[0] != pattern[1][1]
    if pattern[0] == "var":
        return not is_variable(pattern[1]) and value != (pattern[1],)
    return pattern[:2] == ("op", "∷") and value == EMPTY


def numeral(pattern):
    """Whether a pattern is `zero` or `suc` of another."""
    return pattern == ("var", "zero") or pattern[0] == "app" and pattern[1] == ("var", "suc")


def is_variable(name):
    """Whether a name in a pattern stands for any value."""
    return not name[0].isupper() and name != "[]"


def is_data(kind):
    """Whether a field's type is one of values, and no statement."""
    head = kind[1] if kind[0] == "app" else kind
    return head[0] == "var" and head[1] in ("ℕ", "Bool", "List", "Option")


def names_in(term):
    """The names in a term."""
    kind = term[0]
    if kind == "num":
        return set()
    if kind == "var":
        return {term[1]}
    if kind == "rec":
        return set().union(*(names_in(each) for each in term[1].values()))
    if kind in ("lam", "pi", "sig"):
        return names_in(term[2]) - set(term[1])
    if kind == "let":
        return names_in(term[2]) | names_in(term[3]) - {term[1]}
    if kind == "and":
        return set().union(*(names_in(each) for each in term[1]))
    if kind == "app":
        return names_in(term[1]).union(*(names_in(each) for each in term[2]))
    return names_in(term[1]) if kind == "proj" else set().union(*(names_in(each) for each in term[1:] if isinstance(each, tuple)))
