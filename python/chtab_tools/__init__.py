"""The commands of `tools/`, each in a module of its own with `main(words)`, and how a command ends.

A fault is one line on standard error and status 1. Ctrl-C, SIGTERM and a closed pipe end a command
as they end any other, by the signal and without a message. Before that, the command ends its
children and removes incomplete files.
"""
from __future__ import annotations

import argparse
import importlib
import os
import re
import signal
import sys
from collections.abc import Callable, Iterable, Sequence
from typing import TYPE_CHECKING, Any, NoReturn

from chtab.errors import ChtabError

if TYPE_CHECKING:
    from chtab.network import Network


# The names of the commands: those of the modules in this folder, of the maps and of the service.
NAMES = "blocks", "nearest", "osm_to_gr", "page", "picture", "reach", "to_geojson", "trips"
SAVED = (
    "read the hierarchy of the graph from FILE, as `chtab save` writes it, and check it; that of "
    "another graph is refused, often by `chtab: saved line 1: size too large`")


class Terminated(BaseException):
    """SIGTERM arrived. It is raised in the main thread, so that everything is closed in order."""


def raise_terminated(number: int, frame: Any) -> NoReturn:
    """The handler of SIGTERM."""
    raise Terminated


def end_by(number: int) -> None:
    """Ends this process by a signal, so that its caller sees which signal ended it."""
    signal.signal(number, signal.SIG_DFL)
    os.kill(os.getpid(), number)


def as_called(text: str) -> str:
    """A help text with the names that commands and documents have where they are installed."""
    text = re.sub(
        rf"(?:tools/)?\b({'|'.join(NAMES)})\.py\b",
        lambda found: "chtab-" + found[1].replace("_", "-"), text)
    return text.replace("./chtab ", "chtab ").replace("docs/", documents())


class Parser(argparse.ArgumentParser):
    """A parser whose help names the commands as this one was called."""

    def format_help(self) -> str:
        """The help text, with the names of commands as this one was called."""
        text = super().format_help()
        return as_called(text) if self.prog.startswith("chtab-") else text


class Formatter(argparse.RawDescriptionHelpFormatter):
    """Formats help with the layout of its text, and with the headings of the program chtab, from
    which manual pages are made."""

    def add_usage(self, usage: Any, actions: Any, groups: Any, prefix: str | None = None) -> None:
        """Adds the forms of the command line, below the heading Usage."""
        super().add_usage(usage, actions, groups, "Usage: ")


def parser_of(name: str, about: str | None) -> Parser:
    """The parser of a command.

    Its help is made from a text: a line on what the command does, lines with the forms of the
    command line, and further paragraphs. It uses the name that the command was called by: NAME.py
    in tools/, or chtab-NAME where it is installed, together with the documents.
    """
    called = os.path.basename(sys.argv[0])
    if not called.startswith("chtab-"):
        called = f"{name}.py"
    does, forms, *rest = (about or "").strip().split("\n\n")
    usage = "\n   or: ".join(form.strip() for form in forms.splitlines())
    examples = next((at for at, part in enumerate(rest) if part.startswith("Example:")), len(rest))
    parser = Parser(
        called, usage=usage, description="\n\n".join([does, *rest[:examples]]),
        epilog="\n\n".join(rest[examples:]), formatter_class=Formatter)
    parser._positionals.title, parser._optionals.title = "Arguments", "Options"
    return parser


def documents() -> str:
    """The folder of the documents: the one that was installed along with the package, or the one of
    a checkout."""
    package = os.path.dirname(os.path.realpath(__file__))
    folder = os.path.abspath(os.path.join(package, "../../../../share/doc/chtab/docs"))
    return f"{folder}/" if os.path.isdir(folder) else "docs/"


def add_network(parser: argparse.ArgumentParser) -> None:
    """Adds the arguments of a command that opens a network and takes places to its roads."""
    add_max_metres(parser, "road")
    add_runs(parser)
    parser.add_argument(
        "out", metavar="OUT", help="the network: OUT.gr, OUT.co and, if it exists, OUT.bends")


def add_max_metres(parser: argparse.ArgumentParser, what: str) -> None:
    """Adds the option to refuse places that are too far from each road, or each node."""
    parser.add_argument(
        "--max-metres", type=float, default=1_000, metavar="M",
        help=f"refuse a place that is more than M metres from each {what} (1,000)")


def add_runs(parser: argparse.ArgumentParser) -> None:
    """Adds the options of a command that runs the program."""
    parser.add_argument("--saved", metavar="FILE", help=SAVED)
    parser.add_argument(
        "--workers", type=int, default=1, metavar="W", help="threads of the program, 1 to 64 (1)")
    parser.add_argument(
        "--program", metavar="FILE",
        help="the program chtab, if it is neither beside this command nor on the path")


def open_network(words: argparse.Namespace) -> Network:
    """Opens the network of such arguments."""
    from chtab.network import Network

    return Network.open(
        words.out + ".gr", words.saved, program=words.program, workers=words.workers, load=False)


def ask_for(needs: Iterable[str]) -> None:
    """Ends the command if one of these modules is missing."""
    for module in needs:
        try:
            importlib.import_module(module)
        except ImportError:
            raise ChtabError(f"{module} is missing (Debian's package python3-{module})") from None


def run(name: str, main: Callable[[Sequence[str]], object], needs: Iterable[str] = ()) -> None:
    """Runs a command on its arguments, and ends the process if the command fails. `needs` are the
    modules without which it can only print help."""
    signal.signal(signal.SIGTERM, raise_terminated)
    words = sys.argv[1:]
    try:
        ask_for(() if {"-h", "--help"} & set(words) else needs)
        main(words)
        sys.stdout.flush()
    except BrokenPipeError:
        end_by(signal.SIGPIPE)
    except KeyboardInterrupt:
        end_by(signal.SIGINT)
    except Terminated:
        end_by(signal.SIGTERM)
    except (ChtabError, OSError) as fault:
        sys.exit(f"{name}: {fault}")
    except MemoryError:
        sys.exit(f"{name}: out of memory")
