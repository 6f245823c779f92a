"""The life of a release told in words, interval by interval, with the rule that decided each thing; docs/RULES.md has the rules."""

from sim.dispatcher import COPY_IN_AND_EXECUTE, COPY_IN_CANCELLED, is_higher
from tools.lives import CANCELLED, COPY_IN, COPY_OUT, EXECUTED, EXECUTION, LOADED, LYING, OWN_COPY_IN, READY, THROWN_OUT, WAITING

# What the ticks of each kind of phase are called where they are added up.
PARTS = {
    WAITING: "waiting for the job before", READY: "ready", CANCELLED: "in copy-ins that were cancelled", THROWN_OUT: "in copy-ins that were thrown out",
    LYING: "copied in and then thrown out", COPY_IN: "copy-in", LOADED: "copied in, until the interval's end", OWN_COPY_IN: "copy-in by the processor", EXECUTION: "execution",
    EXECUTED: "executed, until the interval's end", COPY_OUT: "copy-out",
}

# What the engine does for a job before its execution.
ENGINE_PHASES = {
    COPY_IN: "copy-in by the engine", CANCELLED: "copy-in by the engine, which is lost", THROWN_OUT: "copy-in by the engine, which is lost",
    LYING: "copied in, and lost too", LOADED: "copied in; the interval goes on until both units are through (R6)",
}


def ticks(number):
    return f"{number} tick" if number == 1 else f"{number} ticks"


def job_name(job, beside):
    """Another job, and whether it is higher or lower than the one of which is told."""
    rank = "higher" if is_higher(job, beside) else "lower" if is_higher(beside, job) else "equal"
    return f"task {job.task.number} (priority {job.task.priority}, {rank})"


def passes(job, other):
    """Why one of two jobs of the same priority goes first."""
    if job.release == other.release:
        return f"it has the same priority, was released at {job.release} too, and has the lower number"
    waited = f" (it waited until {job.taken}, and its original time counts)" if job.release < job.taken else ""
    return f"it has the same priority and was released earlier, at {job.release}{waited}"


def before_equals(jobs):
    """The jobs of the same priority that come behind one."""
    return f"; behind it, of the same priority: {', '.join(f'task {job.task.number} (released at {job.release})' for job in jobs)}" if jobs else ""


def is_equal(job, other):
    return job.task.priority == other.task.priority


def span_of(begin, end):
    return f"{begin} to {end}"


class Story:
    """Lines of two columns: when, and what."""

    def __init__(self):
        self.lines = []

    def head(self, text):
        self.lines += [("", ""), (None, text)]

    def add(self, when, text):
        self.lines.append((str(when), text))

    def text(self):
        widest = max((len(when) for when, _ in self.lines if when), default=0)
        return "".join(f"{text}\n" if when is None else f"  {when:{widest}}  {text}".rstrip() + "\n" for when, text in self.lines)


def title(life):
    task = life.task
    mark = "latency-sensitive" if task.mark else "not latency-sensitive"
    lengths = f"copy-in L {task.copy_in}, execution C {task.execution}, copy-out U {task.copy_out}"
    spacing = "" if task.spacing is None else f"; spacing {task.spacing}"
    about = f"task {task.number}: priority {task.priority}, {mark}; {lengths}{spacing}"
    if life.skipped:
        return f"The release of task {task.number} at {life.release} was skipped.\n{about}\n"
    return f"The release of task {task.number} at {life.release} was done at {life.completion}: response {ticks(life.response)}.\n{about}\n"


# The release itself.

def tell_too_soon(run, life, story):
    """Why a release was skipped that came sooner than its task's spacing."""
    number, last, spacing = life.task.number, life.skipped.last, life.skipped.spacing
    other = run.lives[last, number]
    story.head(f"The spacing of task {number} is {ticks(spacing)}, and this release came {ticks(life.release - last)} after the one at {last} (step c):")
    counted = f"it waited until {other.taken}, and its original time counts" if other.waits else "taken at once"
    story.add(last, f"the last release of task {number} that was not skipped: {counted}")
    story.add(life.release, f"this release: {ticks(last + spacing - life.release)} too soon, and skipped. It has no job and changes nothing else")
    story.add(last + spacing, "from here on a release is not too soon")


def tell_skipped(run, life, story):
    """Why a release was skipped that found one waiting."""
    since = life.skipped.since
    other = run.lives[since, life.task.number]
    behind = other.waits.behind
    story.head(f"Only one release of a task can wait, and the one at {since} did (step c):")
    number = life.task.number
    story.add(behind.release, f"a release of task {number}: its job was pending until {run.lives[behind.release, number].completion}")
    story.add(since, f"the next release of task {number}: it waited for that, until {other.taken}")
    story.add(life.release, "this release: skipped. It has no job and changes nothing else")


def tell_release(life, story):
    """When it came and when it was taken."""
    number = life.task.number
    if life.waits:
        behind = life.waits.behind
        story.add(life.release, f"released. The job of task {number} released at {behind.release} is pending, so that this release waits (step c)")
        story.add(life.taken, "that job is done; this release is taken, before those of this tick (step c)")
    else:
        story.add(life.release, f"released, and taken at once: no job of task {number} is pending (step c)")
    if life.opens:
        story.add("", f"no interval is open: it belongs to interval {life.first.number}, which begins now")
    else:
        story.add("", f"it belongs to interval {life.first.number}, which is open")


# An interval before its execution.

def head_of(spell, life):
    executed = spell.executed
    if executed is None:
        return "the processor idles"
    verb = "copies in and executes" if spell.interval.work == COPY_IN_AND_EXECUTE else "executes"
    if executed is life.job:
        return f"the processor {verb} this job (R5)"
    blocked = ": this job is blocked in it" if is_higher(life.job, executed) else ""
    return f"the processor {verb} {job_name(executed, life.job)}{blocked}"


def tell_copy_out(spell, life, story):
    """What the engine does before it can choose."""
    job = spell.interval.copied_out
    if job is not None and spell.begin + job.task.copy_out > life.taken:
        story.add(span_of(spell.begin, spell.begin + job.task.copy_out),
                  f"the engine first copies out task {job.task.number}, executed in the interval before (step g)")


def tell_choice(spell, life, story):
    """What the engine chose, and why not this job."""
    choice = spell.choice
    if choice.place < life.place:
        tell_earlier_choice(spell, life, story)
        return
    if choice.job is life.job:
        story.add(choice.time, f"the engine chooses this job, the highest that is ready (R2){before_equals(choice.behind)}")
        return
    why = f": {passes(choice.job, life.job)}" if is_equal(choice.job, life.job) else ""
    story.add(choice.time, f"the engine chooses {job_name(choice.job, life.job)}, which is ready too (R2){why}")


def tell_earlier_choice(spell, life, story):
    """A choice that was made before this job was there."""
    choice, given = spell.choice, spell.gave_way
    once = f"the engine's choice of this interval was made at {choice.time}, and is made once (R2):"
    if choice.job is None:
        story.add(life.taken, f"{once} no job was ready then")
        return
    other = job_name(choice.job, life.job)
    if given is None:
        why = "it is higher" if is_higher(choice.job, life.job) else "it is not lower" if life.task.mark else "this job is not latency-sensitive"
        story.add(life.taken, f"{once} {other}. That copy stays: {why} (R3)")
    else:
        story.add(life.taken, f"{once} {other}")
        if given.time >= life.taken:
            tell_giving_way(given, life, story)
        else:
            story.add("", f"that copy-in gave way at {given.time} to task {given.winner.task.number}, and the engine does not choose again")


def tell_giving_way(given, life, story):
    """A lower copy-in gives way to this job, or to another."""
    done = f"cancels the copy-in of task {given.job.task.number}, which is under way" if given.fate == COPY_IN_CANCELLED else \
        f"throws out the finished copy of task {given.job.task.number}"
    other = f"the release of {job_name(given.winner, life.job)}, latency-sensitive,"
    who = "this release, latency-sensitive and higher," if given.winner is life.job else other
    story.add(given.time, f"{who} {done} (R3)")


def tell_own_loss(given, life, story):
    winner = job_name(given.winner, life.job)
    done = "cancels the copy-in of this job" if given.fate == COPY_IN_CANCELLED else "throws out the finished copy of this job"
    story.add(given.time, f"the release of {winner}, latency-sensitive, {done} (R3); this job is ready again")


def why_not(spell, life):
    """Why another job was promoted, and not this one."""
    other = spell.promoted
    if not life.task.mark:
        earlier = is_equal(other, life.job) and life.release < other.release
        return f"this job{', though released earlier,' if earlier else ''} is not latency-sensitive"
    if life.first is not spell:
        return "this job was not released in it"
    return passes(other, life.job) if is_equal(other, life.job) else "it is the highest"


def tell_end(spell, life, story):
    """What the end of an interval brings to a job that is not executed yet."""
    if spell.promoted is life.job:
        reason = "its copy-in gave way" if spell.gave_way else "nobody was chosen in it"
        story.add(spell.end, f"the interval ends. {reason.capitalize()}, and this is the highest latency-sensitive job released in it: "
                             f"promoted (R4){before_equals(spell.behind)}")
    elif spell.promoted is not None:
        other = job_name(spell.promoted, life.job)
        story.add(spell.end, f"the interval ends; {other}, latency-sensitive and released in it, is promoted: {why_not(spell, life)} (R4)")
    elif spell in life.chosen and not any(where is spell for where, _ in life.gave_way):
        story.add(spell.end, "the interval ends; this job is copied in, and is executed next (R5)")
    elif spell.choice.job is not None and spell.gave_way is None:
        story.add(spell.end, f"the interval ends; task {spell.choice.job.task.number} is copied in, and is executed next (R5)")
    else:
        story.add(spell.end, "the interval ends; nobody is promoted, since no latency-sensitive job was released in it and is ready (R4)")


def tell_interval(spell, life, story):
    story.head(f"interval {spell.number}, {span_of(spell.begin, spell.end)}: {head_of(spell, life)}")
    tell_copy_out(spell, life, story)
    tell_choice(spell, life, story)
    if spell in life.chosen:
        for phase in life.phases:
            if phase.kind in ENGINE_PHASES and spell.begin <= phase.begin < spell.end:
                story.add(span_of(phase.begin, phase.end), ENGINE_PHASES[phase.kind])
        for where, given in life.gave_way:
            if where is spell:
                tell_own_loss(given, life, story)
    tell_end(spell, life, story)


# Its execution and copy-out.

def tell_execution(life, story):
    spell = life.executing
    story.head(f"interval {spell.number}, {span_of(spell.begin, spell.end)}: {head_of(spell, life)}")
    for phase in life.phases:
        if phase.kind in (OWN_COPY_IN, EXECUTION):
            story.add(span_of(phase.begin, phase.end), phase.kind)
        if phase.kind == EXECUTED:
            story.add(span_of(phase.begin, phase.end), "executed; the engine is not through yet, and the interval ends with the later of the two "
                                                       "(R6)")
    out = life.out
    story.head(f"interval {out.number}, {span_of(out.begin, out.end)}: the engine copies this job out, first of all")
    story.add(span_of(life.phases[-1].begin, life.completion), "copy-out; then the job is done")


# The sum.

def sum_of(life):
    parts = life.parts()
    return f"response {life.response} = " + " + ".join(f"{parts[kind]} {text}" for kind, text in PARTS.items() if kind in parts)


def blocked_by(run, life):
    spells = run.blocked(life)
    if not spells:
        return "blocked in no interval: from its taking to its execution the processor never executed a lower-priority job"
    each = (f"interval {spell.number} ({span_of(spell.begin, spell.end)}) by task {spell.executed.task.number}" for spell in spells)
    return f"blocked in {len(spells)} interval{'s' if len(spells) > 1 else ''}: " + ", ".join(each)


def ahead_of(run, life):
    """The jobs that are not lower and were executed between."""
    jobs = [spell.executed for spell in run.between(life) if spell.executed is not None and not is_higher(life.job, spell.executed)]
    if not jobs:
        return ""
    return f"executed before it, not lower: {', '.join(f'task {job.task.number} ({job.start})' for job in jobs)}\n"


def told(run, life):
    """All of it."""
    story = Story()
    if life.skipped:
        (tell_too_soon if life.too_soon else tell_skipped)(run, life, story)
        return title(life) + story.text()
    story.head("the release")
    tell_release(life, story)
    for spell in run.between(life):
        tell_interval(spell, life, story)
    tell_execution(life, story)
    return f"{title(life)}{story.text()}\n{sum_of(life)}\n{blocked_by(run, life)}\n{ahead_of(run, life)}"
