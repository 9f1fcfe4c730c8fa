"""The command line of `rebuild-lists`."""

from __future__ import annotations

import argparse
import os
import re
import signal
import sys
from collections.abc import Callable

from . import VERSION
from .check import check
from .damaged import damaged
from .files import said_of
from .formats import FEEDS, RACKS, REQUESTS, WORKERS, Failed, Refused
from .merge import merge
from .program import found
from .put import put
from .serve import serve
from .split import split
from .tell import tell

STATUSES = """The exit status is 0 if all was done, 1 if something is refused or found wrong, or `tell` or `put` find requests that weren't
rebuilt, 2 for a mistake in the arguments and 3 for an I/O error; that of `serve` is the program's if its run failed. rebuild-lists(1) says
more."""
FOLDER = "the folder of the lists and the surviving fragments"
STORE = "the folder of the surviving fragments"
OUT = "a served folder, or one that merge made"


def number(least: int, most: int) -> Callable[[str], int]:
    """A reader of a number in these limits."""
    def read(text: str) -> int:
        if not re.fullmatch("[0-9]{1,9}", text) or not least <= int(text) <= most:
            raise argparse.ArgumentTypeError(f"{text!r} isn't a number from {least} to {most}")
        return int(text)
    return read


class RackAndNumber(argparse.Action):
    """Reads the number of a rack and of a request in its list, or that of a request alone."""

    def __call__(self, parser, namespace, values, option_string=None):
        if len(values) > 2:
            parser.error("RACK and NUMBER, or NUMBER alone, come after the folder")
        limits = [RACKS - 1, REQUESTS - 1] if len(values) == 2 else [10**9 - 1]
        try:
            setattr(namespace, self.dest, [number(0, most)(text) for most, text in zip(limits, values)])
        except argparse.ArgumentTypeError as error:
            parser.error(str(error))


def add(commands: argparse._SubParsersAction[argparse.ArgumentParser], run: Callable[[argparse.Namespace], int], name: str, says: str,
        **arguments: str) -> argparse.ArgumentParser:
    """Adds a command with the arguments that follow it, each with its help. Options are added to what comes back."""
    command = commands.add_parser(name, help=says, description=f"{says[0].upper()}{says[1:]}.", allow_abbrev=False)
    for argument, text in arguments.items():
        command.add_argument(argument, metavar="IN" if argument == "folder" else argument.upper(), help=text)
    command.set_defaults(run=run)
    return command


def add_program(command: argparse.ArgumentParser) -> None:
    command.add_argument("--program", metavar="PATH", default=found(), help="the program [default: rebuild beside this one, or on PATH]")


def add_outs(command: argparse.ArgumentParser) -> None:
    command.add_argument("outs", metavar="OUT", nargs="+", help=OUT)


def add_jobs(commands: argparse._SubParsersAction[argparse.ArgumentParser]) -> None:
    """The commands for a long list in many jobs."""
    command = add(commands, split, "split", "make folders of the requests of a long list",
                  list="the request list: records of rebuild, and no close", store=STORE,
                  work="the folder to make, with in/0, in/1 .. and an empty out")
    command.add_argument("--racks", metavar="N", type=number(1, RACKS), default=RACKS,
                         help=f"racks of a folder, 1 to {RACKS} [default: {RACKS}]")
    command.add_argument("--requests", metavar="N", type=number(1, REQUESTS), default=REQUESTS,
                         help=f"requests of a rack, 1 to {REQUESTS} [default: {REQUESTS}]")
    command.add_argument("--copy", action="store_true", help="copy the surviving fragments, which else are linked")
    command = add(commands, serve, "serve", "serve one of the folders that split made", work="the folder that split made")
    command.add_argument("number", metavar="NUMBER", type=number(0, 10**9 - 1), help="the number of the folder, from 0")
    command.add_argument("--workers", metavar="N", type=number(1, WORKERS), default=1,
                         help=f"the program's threads, 1 to {WORKERS} [default: 1]")
    add_program(command)
    add(commands, merge, "merge", "make one report of the reports of all folders",
        work="the folder that split made, all of it served", result="the folder to make, with report.csv and the rebuilt fragments")


def add_results(commands: argparse._SubParsersAction[argparse.ArgumentParser]) -> None:
    """The commands for what came of a run."""
    command = add(commands, tell, "tell", "count the outcomes in reports, and name what wasn't rebuilt")
    add_outs(command)
    command.add_argument("--lists", metavar="IN", help="also name the requests of this folder that OUT doesn't answer")
    command = add(commands, put, "put", "copy rebuilt fragments into the store, after their digests are compared", store=STORE)
    add_outs(command)
    command.add_argument("--overwrite", action="store_true", help="replace fragments of the store that have different contents")
    command.add_argument("--lists", metavar="IN", action="append",
                         help="the folder of the lists that OUT answers, once for each OUT [default: WORK/in/N for WORK/out/N, or STORE]")
    command = add(commands, damaged, "damaged", "find the survivor without which a contradiction is rebuilt",
                  folder=f"{FOLDER}, or one that split made")
    command.usage = "rebuild-lists damaged [-h] [--feed N] [--program PATH] IN RACK NUMBER\n" \
                    "       rebuild-lists damaged [-h] [--program PATH] WORK NUMBER"
    command.add_argument("numbers", metavar="NUMBER", nargs="+", action=RackAndNumber,
                         help="the number of the rack, and of the request in its list, from 0; with WORK that of the merged report alone")
    command.add_argument("--feed", metavar="N", type=number(0, FEEDS - 1), default=0,
                         help="the feed whose list it is [default: 0]")
    command.set_defaults(wrong=command.error)
    add_program(command)


def parser() -> argparse.ArgumentParser:
    whole = argparse.ArgumentParser(prog="rebuild-lists", epilog=STATUSES, allow_abbrev=False,
                                    description="Reads and writes the lists, reports and fragments of `rebuild farm`.")
    whole.add_argument("--version", "-V", action="version", version=f"rebuild-lists {VERSION}")
    commands = whole.add_subparsers(dest="command", metavar="COMMAND", required=True)
    command = add(commands, check, "check", "say what is wrong with the lists of a folder", folder=FOLDER)
    command.add_argument("out", metavar="OUT", nargs="?", help="the folder that is to be written to, which is checked too")
    add_jobs(commands)
    add_results(commands)
    return whole


def run(args: argparse.Namespace) -> int:
    """Does what the arguments ask, and answers the exit status."""
    try:
        status = args.run(args)
        sys.stdout.flush()
        return status
    except Refused as refused:
        print(refused, file=sys.stderr)
        return 1
    except BrokenPipeError:
        os.dup2(os.open(os.devnull, os.O_WRONLY), sys.stdout.fileno())
        return 3
    except Failed as failed:
        print(failed, file=sys.stderr)
        return 3
    except OSError as error:
        print(said_of(error), file=sys.stderr)
        return 3
    except KeyboardInterrupt:
        return 130


def main() -> int:
    # What is ended leaves no half-made folder.
    for ending in (signal.SIGTERM, signal.SIGHUP):
        signal.signal(ending, lambda received, _: sys.exit(128 + received))
    sys.stdout.reconfigure(errors="backslashreplace", line_buffering=sys.stdout.isatty())
    return run(parser().parse_args())
