"""The one command: its sub-commands, their help, and the status of whatever happens in one of them."""

import argparse
import importlib
import mmap

from tools import output
from tools.commands import NAMES
from tools.output import REJECTED, TROUBLE, Rejected, Trouble

MEMORY = 64  # megabytes that a command takes at most beside Python itself, where it names no other number

USAGE = "gateway COMMAND [WORDS..]"
ABOUT = """Run plans of the gateway dispatcher, store and read records, and tell why a job waited.

  {commands}

./gateway COMMAND --help says more. A plan is a text file with a line for each task and each release (plans/a.plan is one), - for standard
input. What is printed comes from the proved programs, or is held against what they print; the first use proves them, which takes a
few minutes.

status: 0 done, 1 the plan or the record is refused, 2 trouble with files, memory or the build"""


class Parser(argparse.ArgumentParser):
    """A parser whose words on standard error change no status."""

    def error(self, message):
        output.tell(f"{self.format_usage()}{self.prog}: {output.shown(message, 400)}\n")
        raise SystemExit(TROUBLE)

    def print_help(self, file=None):
        raise SystemExit(output.write_text(self.format_help()))


def module_of(name):
    return importlib.import_module(f"tools.commands.{name}")


def first_line(module):
    return module.__doc__.split("\n")[0]


def about():
    widest = max(map(len, NAMES))
    lines = (f"{name:{widest}}  {first_line(module_of(name))}" for name in NAMES)
    return ABOUT.format(commands="\n  ".join(lines))


def given_words(words):
    """The sub-command's module and its arguments; SystemExit with the status where there is nothing to do."""
    if words[:1] in (["--help"], ["-h"], ["help"]):
        raise SystemExit(output.write_text(f"usage: {USAGE}\n\n{about()}\n"))
    if not words or words[0] not in NAMES:
        said = f"there is no command '{output.shown(words[0])}'" if words else "no command is named"
        output.tell(f"usage: {USAGE}\ngateway: {said}; ./gateway --help lists them\n")
        raise SystemExit(TROUBLE)
    module = module_of(words[0])
    parser = Parser(prog=f"gateway {words[0]}", description=module.__doc__, formatter_class=argparse.RawDescriptionHelpFormatter,
                    epilog="status: 0 done, 1 the plan or the record is refused, 2 trouble with files, memory or the build")
    module.arguments(parser)
    given = parser.parse_args(words[1:])
    if hasattr(module, "check"):
        module.check(parser, given)
    return module, given


def take_room(module):
    """See that there is the memory that a command takes at most. Where Python runs out of it in the middle, it may not even come to an end."""
    room = getattr(module, "MEMORY", MEMORY) << 20
    try:
        mmap.mmap(-1, room).close()
    except OSError:
        raise Trouble(f"gateway: out of memory: this takes up to {room >> 20} MB") from None


def main(words):
    """The status of a command; the one place where trouble is turned into words, but for what tools/gateway.py tells."""
    output.hold_streams()
    try:
        module, given = given_words(words)
        take_room(module)
        return module.main(given)
    except SystemExit as usage:
        return usage.code
    except Rejected as rejected:
        output.tell(f"{rejected}\n")
        return REJECTED
    except Trouble as trouble:
        output.tell(f"{trouble}\n")
    except OSError as error:
        output.say(output.named(error.filename) if isinstance(error.filename, str) else error.filename or "gateway", error)
    return TROUBLE
