"""Drive cores by the example drivers and hold what each core printed to what `gateway` prints for its releases, and what they refuse to its text. The
last line is 'K passed'.

    python3 link/check_driver.py COUNT DRIVER..
"""

import pathlib
import random
import subprocess
import sys
import tempfile
from collections import Counter

ROOT = pathlib.Path(__file__).resolve().parents[1]
sys.path.insert(0, str(ROOT))

from sim.entries import release_entry, spacing_entry, task_entry
from sim.generate_tables import STRETCH, small_length, some_tasks, with_spacings

GATEWAY = ROOT / "target/bin/gateway"


def merged(rng, spaced):
    """The entries of a table, half of them with spacings where they may be, and for each of some cores its releases (time, task)."""
    tasks = some_tasks(rng, rng.randint(1, 6), small_length, rng.choice((1, STRETCH)))
    numbers = [task[1] for task in tasks]
    cores = rng.sample(range(64), rng.randint(1, 5))
    span = rng.choice((20, 100, 1000))
    table = with_spacings(rng, tasks) if spaced else tasks
    return b"".join(table), {core: sorted({(rng.randrange(span), rng.choice(numbers)) for _ in range(rng.randint(1, 60))}) for core in cores}


def stream(cores):
    """The releases of all cores in one stream, by time."""
    return "".join(f"{core} {time} {task}\n" for time, core, task in sorted((time, core, task) for core in cores for time, task in cores[core]))


def printed_by(driver, tasks, text):
    """What a driver printed, by core."""
    with tempfile.NamedTemporaryFile() as file:
        file.write(tasks)
        file.flush()
        done = subprocess.run([driver, file.name], input=text.encode(), capture_output=True, check=False)
    if done.returncode != 0 or done.stderr:
        raise SystemExit(f"{driver}: status {done.returncode}: {done.stderr.decode()}")
    lines = {}
    for line in done.stdout.decode().splitlines():
        core, rest = line.split(" ", 1)
        lines.setdefault(int(core), []).append(rest)
    return lines


def gateway_lines(data):
    return subprocess.run([str(GATEWAY)], input=data, capture_output=True, check=True).stdout.decode().splitlines()


def later(line, ticks):
    """A line with its times moved."""
    words = line.split()
    places = {"J": (2, 3, 4), "I": (1, 2), "S": (2,)}[words[0]]
    return " ".join(str(int(word) + ticks) if place in places else word for place, word in enumerate(words))


def hold(driver, tasks, cores, expected):
    printed = printed_by(driver, tasks, stream(cores))
    if printed != expected:
        raise SystemExit(f"{driver}: a core printed something else:\n{stream(cores)}\n{printed}\n{expected}")


def random_stream(driver, seed):
    tasks, cores = merged(random.Random(seed), True)
    expected = {core: gateway_lines(tasks + b"".join(release_entry(*release) for release in releases)) for core, releases in cores.items()}
    hold(driver, tasks, cores, expected)


def long_stream(driver, seed):
    """Each core goes on behind tick 1,000,000,000: what comes after long idle time is as a run of its own, on a later clock."""
    rng = random.Random(seed)
    tasks, first = merged(rng, False)
    cores, expected = {}, {}
    for core, releases in first.items():
        cores[core], expected[core] = [], []
        for part in range(4):
            begin = part * 700_000_000
            moved = sorted((time - releases[0][0] * bool(part), task) for time, task in releases)
            cores[core] += [(begin + time, task) for time, task in moved]
            lines = gateway_lines(tasks + b"".join(release_entry(*release) for release in moved))
            expected[core] += [later(line, begin) for line in lines]
    hold(driver, tasks, cores, expected)


def waits(driver):
    """A release that waits over the tick at which a core counts anew where it is idle: it is not, and nothing is lost. Idle, it counts anew."""
    tasks = task_entry(1, 1, 1, 2, 3, 1)
    begin = 500_000_000
    busy = [(begin + time, 1) for time in (-3, 0, 2, 3, 8)]
    again = [(time, 1) for time in (0, 5, 6, 7)]
    expected = gateway_lines(tasks + b"".join(release_entry(*release) for release in busy))
    expected += [later(line, 2 * begin) for line in gateway_lines(tasks + b"".join(release_entry(*release) for release in again))]
    hold(driver, tasks, {3: busy + [(2 * begin + time, task) for time, task in again]}, {3: expected})


def marks(driver):
    """Marks that were changed are handed over to the new dispatcher, those that were set and those that were taken away: plans A and B in turn, with the
    marks from calls."""
    tasks = task_entry(1, 1, 0, 2, 3, 1) + task_entry(2, 2, 1, 2, 4, 1) + task_entry(3, 3, 1, 2, 5, 2)
    unmarked = task_entry(2, 2, 0, 2, 4, 1) + task_entry(3, 3, 0, 2, 5, 2)
    text, expected = "7 0 mark 1 1\n7 0 mark 2 0\n7 0 mark 3 0\n", []
    for begin, last in ((0, 3), (900_000_000, 4), (1_800_000_000, 3), (2_700_000_000, 4)):
        releases = [(0, 3), (2, 2), (last, 1)]
        text += "".join(f"7 {begin + time} {task}\n" for time, task in releases)
        data = task_entry(1, 1, 1, 2, 3, 1) + unmarked + b"".join(release_entry(*release) for release in releases)
        expected += [later(line, begin) for line in gateway_lines(data)]
    printed = printed_by(driver, tasks, text)
    if printed != {7: expected}:
        raise SystemExit(f"{driver}: the marks were not handed over:\n{printed}\n{expected}")


def spacing_over_counts(driver):
    """A spacing goes on where a core counts anew: of a release that the dispatcher before had, which the new one does not know, the driver says whether the
    next one comes too soon. The core counts anew at the release of task 2, between two releases of task 1."""
    ticks, begin = 400_000_000, 600_000_000
    tasks = task_entry(1, 1, 1, 2, 3, 1) + task_entry(2, 2, 0, 2, 4, 1) + spacing_entry(1, ticks)
    first, edge = [(begin - 300_000_000, 1)], 100_000_000
    again = [(0, 2), (edge, 1), (edge + ticks - 1, 1), (edge + ticks, 1)]
    releases = first + [(begin + time, task) for time, task in sorted(again + [(edge - 1, 1)])]
    told = gateway_lines(tasks + b"".join(release_entry(*release) for release in again))
    told.insert(len(gateway_lines(tasks + release_entry(*again[0]))), f"S 1 {edge - 1}")
    expected = gateway_lines(tasks + release_entry(*first[0])) + [later(line, begin) for line in told]
    if len([line for line in expected if line.startswith("S")]) != 2:
        raise SystemExit("two releases come a tick too soon")
    hold(driver, tasks, {4: releases}, {4: expected})


def two_at_a_tick(driver):
    """Two releases of a task on one tick have a tick each, also where the core is idle and both come too soon."""
    tasks = task_entry(1, 1, 1, 2, 3, 1) + spacing_entry(1, 30)
    given = [(0, 1), (10, 1), (11, 1), (30, 1)]
    expected = gateway_lines(tasks + b"".join(release_entry(*release) for release in given))
    hold(driver, tasks, {2: [(0, 1), (10, 1), (10, 1), (30, 1)]}, {2: expected})


def busy_counts(tasks, releases, last=1_000_000_000):
    """The lines of a core that is never idle between its releases: count by count, those that come after a count's last tick held back until it is idle."""
    base, lines, held = 0, [], Counter()
    while releases or held:
        given = []
        for tick in range(max(held.values(), default=0)):
            given += [(tick, task) for task in sorted(held) if held[task] > tick]
        first = len(given)
        while releases and releases[0][0] - base <= last:
            time, task = releases.pop(0)
            given.append((time - base, task))
        if given[:first] and first < len(given) and given[first][0] <= given[first - 1][0]:
            raise SystemExit("a release came while those that were held back were handed in: choose another seed")
        told = gateway_lines(tasks + b"".join(release_entry(*release) for release in given))
        spans = [tuple(map(int, line.split()[1:3])) for line in told if line.startswith("I")]
        if any(one[1] != other[0] for one, other in zip(spans, spans[1:])):
            raise SystemExit("the core was idle: choose another seed")
        lines += [later(line, base) for line in told]
        base += spans[-1][1]
        held = Counter()
        while releases and releases[0][0] <= base:
            held[releases.pop(0)[1]] += 1
    return lines


def never_idle(driver, seed):
    """More than three counts of a core that always has something to do."""
    rng = random.Random(seed)
    tasks = b"".join(task_entry(n, n, rng.randint(0, 1), *(rng.randint(600_000, 1_000_000) for _ in range(3))) for n in (1, 2, 3))
    time, releases = 0, []
    while time < 3_300_000_000:
        releases.append((time, rng.randint(1, 3)))
        time += rng.randint(200_000, 500_000)
    expected = busy_counts(tasks, list(releases))
    if int(expected[-1].split()[2]) < 3_300_000_000 or len([line for line in expected if line.startswith("J")]) < 1000:
        raise SystemExit("the core did not go on")
    hold(driver, tasks, {5: releases}, {5: expected})


TASK = task_entry(1, 1, 1, 2, 3, 1)
SHAPE = "neither CORE TIME TASK nor CORE TIME mark TASK VALUE"
RUBBISH = [
    (b"0 0", 2, f"line 1: {SHAPE}"),
    (b"0 0 1 1", 2, f"line 1: {SHAPE}"),
    (b"\n \n0 0 1 1 1 1 1", 2, f"line 3: {SHAPE}"),
    (b"x 0 1", 2, f"line 1: {SHAPE}"),
    (b"0 -1 1", 2, f"line 1: {SHAPE}"),
    (b"0 0 +1", 2, f"line 1: {SHAPE}"),
    (b"0 0 0x1", 2, f"line 1: {SHAPE}"),
    (b"0 0 1\0", 2, f"line 1: {SHAPE}"),
    (b"0 0 \xff", 2, f"line 1: {SHAPE}"),
    (b"0 0 mark 1", 2, f"line 1: {SHAPE}"),
    (b"0 0 Mark 1 1", 2, f"line 1: {SHAPE}"),
    (b"64 0 1", 2, "line 1: there are cores 0 to 63"),
    (b"4294967296 0 1", 2, "line 1: there are cores 0 to 63"),
    (b"0 9223372036854775808 1", 2, "line 1: a time over 9223372036854775807"),
    (b"0 18446744073709551616 1", 2, "line 1: a time over 9223372036854775807"),
    (b"0 0 32", 2, "line 1: there are tasks 0 to 31"),
    (b"0 0 4294967297", 2, "line 1: there are tasks 0 to 31"),
    (b"0 0 mark 257 1", 2, "line 1: there are tasks 0 to 31"),
    (b"0 0 mark 1 2", 2, "line 1: a mark is 0 or 1"),
    (b"0 0 mark 1 256", 2, "line 1: a mark is 0 or 1"),
    (b"0 0 mark 1 18446744073709551617", 2, "line 1: a mark is 0 or 1"),
    (b"0 5 1\n0 4 1\n", 2, "line 2: the times fall"),
    (b"0 5 1\n0 6" + b" " * 200 + b"1\n", 2, "line 2: it is too long"),
    (b"1" * 1000, 2, "line 1: it is too long"),
    (b"3 7 9", 1, "core 3, tick 7: a task that is not in the table (refusal 16)"),
    (b"0 0 1\n0 1 mark 1 0", 0, "core 0, tick 1: the mark of task 1: a mark change while a job is pending or a release waits (refusal 17)"),
    (b"0 0 mark 9 1", 0, "core 0, tick 0: the mark of task 9: a task that is not in the table (refusal 16)"),
    (b"0 9223372036854775807 1\r\n", 0, None),
    (b"", 0, None),
]


ALL = b"".join(task_entry(n, n, 0, 1, 1, 1) for n in range(32))
SPACED = ALL + b"".join(spacing_entry(n, 1_000_000_000) for n in range(32))
TABLES = [
    (b"", "there is no entry (refusal 12)"),
    (TASK + TASK, "a task number over 31 or given before (refusal 4) at byte 16"),
    (TASK[:9], "an entry is cut short (refusal 1) at byte 0"),
    (ALL + b"x" * 500, "an entry of a kind that does not belong there (refusal 2) at byte 512"),
    (SPACED + b"x" * 500, "an entry of a kind that does not belong there (refusal 2) at byte 704"),
    (SPACED + spacing_entry(0, 1), "a spacing outside 1 to 1,000,000,000, or a second one for a task (refusal 19) at byte 704"),
    (TASK + spacing_entry(1, 0), "a spacing outside 1 to 1,000,000,000, or a second one for a task (refusal 19) at byte 16"),
    (TASK + spacing_entry(2, 5), "a release or a spacing of a task that is not in the table (refusal 8) at byte 16"),
    (TASK + spacing_entry(1, 5) + TASK, "a task or a spacing after a release, or a task after a spacing (refusal 3) at byte 22"),
    (TASK + release_entry(0, 1), "an entry of a kind that does not belong there (refusal 2) at byte 16"),
]


def outcome(driver, words, text, **more):
    done = subprocess.run([driver, *words], input=text, stderr=subprocess.PIPE, check=False, **{"stdout": subprocess.DEVNULL, **more})
    return done.returncode, done.stderr.decode()


def refuses(driver, what, found, status, said):
    text = "" if said is None else f"driver: {said}\n"
    if found != (status, text):
        raise SystemExit(f"{driver}: of {what} it said {found}, not {(status, text)}")


def rubbish(driver, folder):
    """What it refuses, by its status and its text; the number of cases."""
    (folder / "tasks").write_bytes(TASK)
    for text, status, said in RUBBISH:
        refuses(driver, text, outcome(driver, [folder / "tasks"], text), status, said)
    for entries, said in TABLES:
        (folder / "others").write_bytes(entries)
        refuses(driver, entries, outcome(driver, [folder / "others"], b""), 1, f"the tasks: {said}")
    refuses(driver, "no file", outcome(driver, [], b""), 2, "usage: driver TASKS < RELEASES")
    refuses(driver, "two files", outcome(driver, [folder / "tasks"] * 2, b""), 2, "usage: driver TASKS < RELEASES")
    for path in (folder / "missing", folder):
        status, said = outcome(driver, [path], b"")
        if status != 2 or not said.startswith(f"driver: {path}: "):
            raise SystemExit(f"{driver}: of the file {path} it said {said}")
    with open("/dev/full", "wb") as full:
        refuses(driver, "a full disk", outcome(driver, [folder / "tasks"], b"0 0 1", stdout=full), 2, "what occurs cannot be printed")
    return len(RUBBISH) + len(TABLES) + 5


def main():
    count, passed = int(sys.argv[1]), 0
    for driver in sys.argv[2:]:
        for seed in range(count):
            random_stream(driver, seed)
            if seed % 4 == 0:
                long_stream(driver, seed)
        marks(driver)
        waits(driver)
        spacing_over_counts(driver)
        two_at_a_tick(driver)
        for seed in range(3):
            never_idle(driver, seed)
        with tempfile.TemporaryDirectory() as folder:
            passed += rubbish(driver, pathlib.Path(folder))
        passed += count + -(-count // 4) + 7
    print(f"{passed} passed")


if __name__ == "__main__":
    main()
