"""A run as one file for a browser: the page's parts beside this file, with the run's data, put into one."""

import json
import pathlib

from tools.lives import CANCELLED, COPY_IN, COPY_OUT, EXECUTED, EXECUTION, LOADED, LYING, OWN_COPY_IN, READY, THROWN_OUT, WAITING
from tools.shapes import task_colours
from tools.words import told

HERE = pathlib.Path(__file__).resolve().parent

# The kinds of phases, as page.js numbers them.
KINDS = (WAITING, READY, CANCELLED, THROWN_OUT, LYING, COPY_IN, LOADED, OWN_COPY_IN, EXECUTION, EXECUTED, COPY_OUT)
SKIPPED = -1


def data_of(run):
    """What the page draws: the tasks by priority, the intervals, and each release with its phases and what why says of it."""
    number = {kind: at for at, kind in enumerate(KINDS)}
    colours = task_colours(run.table)
    tasks = [{"number": task.number, "priority": task.priority, "mark": task.mark, "lengths": [task.copy_in, task.execution, task.copy_out], "spacing": task.spacing,
              "colours": colours[task.number]} for task in sorted(run.table.values(), key=lambda task: (task.priority, task.number))]
    lives = [[task, time, SKIPPED if life.skipped else life.completion,
              [[number[phase.kind], phase.begin, phase.end] for phase in life.phases], told(run, life)] for (time, task), life in run.lives.items()]
    return {"tasks": tasks, "intervals": [[spell.begin, spell.end, spell.interval.half] for spell in run.spells], "lives": lives}


def escaped(text):
    return text.replace("&", "&amp;").replace("<", "&lt;").replace(">", "&gt;")


def page(run, title):
    """The whole page."""
    data = json.dumps(data_of(run), separators=(",", ":")).replace("<", "\\u003c")
    parts = {"@STYLE@": "page.css", "@SCRIPT@": "page.js"}
    text = (HERE / "page.html").read_text(encoding="utf-8")
    for mark, name in parts.items():
        text = text.replace(mark, (HERE / name).read_text(encoding="utf-8").rstrip("\n"))
    return text.replace("@TITLE@", escaped(title)).replace("@DATA@", data)
