"""For the measurements: inputs from a fixed seed, and runs of the built program with their time and memory."""
import argparse
import contextlib
import datetime
import math
import os
import pathlib
import platform
import random
import resource
import statistics
import subprocess
import tempfile
import time
import typing

ROOT = pathlib.Path(__file__).resolve().parent.parent
PROGRAM = ROOT / "crates" / "chtab" / "out" / "chtab"
# The words for each order of contraction, where `save`, or `dist` with routes, builds the hierarchy.
ORDERS = {"depth": ["--deep"], "difference": []}


def built():
    """Proves and builds the program where that has to be done."""
    subprocess.run([ROOT / "chtab", "--help"], stdout=subprocess.DEVNULL, check=True)


def printed(*command):
    """What a command prints."""
    return subprocess.run(command, capture_output=True, text=True, cwd=ROOT).stdout.strip()


def processor():
    """The name of the processor."""
    cpus = pathlib.Path("/proc/cpuinfo")
    lines = cpus.read_text().splitlines() if cpus.exists() else []
    name = next((line.split(":")[1] for line in lines if line.startswith("model name")), platform.processor())
    speed = next((float(line.split(":")[1]) for line in lines if line.startswith("cpu MHz")), 0)
    at = f" @ {speed / 1000:.2f}GHz" if speed and "GHz" not in name else ""
    return f"{name.strip()}{at}, {platform.machine()}"


def stamp():
    """The day and the commit."""
    commit = printed("git", "rev-parse", "--short", "HEAD") + (" and changes" if printed("git", "status", "--porcelain", "crates") else "")
    return f"{datetime.date.today():%d %B %Y}, commit {commit or 'unknown'}".removeprefix("0")


def machine():
    """When, of which commit, and on which machine."""
    return f"On {stamp()}, {os.cpu_count()} processors ({processor()}), load {os.getloadavg()[0]:.1f} at the start."


def put_between(path, begin, text, end):
    """Puts the text between two lines of a document, in place of what stands there."""
    old = path.read_text()
    if begin not in old or end not in old:
        raise SystemExit(f"the lines `{begin}` and `{end}` are not in {path}")
    path.write_text(f"{old[:old.index(begin)]}{begin}\n{text}\n{old[old.index(end):]}")


class Used(typing.NamedTuple):
    """What one run took."""
    seconds: float
    megabytes: float
    processor: float


def used(*command, output=os.devnull, told=None):
    """The seconds, the megabytes at the peak and the seconds of all processors of one run. What it prints goes to a file, or nowhere, and what it
    tells to a file if one is named."""
    with contextlib.ExitStack() as files:
        printed_to = files.enter_context(open(output, "wb"))
        told_to = files.enter_context(open(told, "wb")) if told else None
        start = time.perf_counter()
        process = subprocess.Popen([str(word) for word in command], stdout=printed_to, stderr=told_to)
        _, status, usage = os.wait4(process.pid, 0)
        seconds = time.perf_counter() - start
    if status:
        raise SystemExit(f"{command} ended with {status}")
    return Used(seconds, usage.ru_maxrss / 1024, usage.ru_utime + usage.ru_stime)


def spent():
    """The CPU seconds of this process and of those that it waited for."""
    return sum(usage.ru_utime + usage.ru_stime for usage in map(resource.getrusage, (resource.RUSAGE_SELF, resource.RUSAGE_CHILDREN)))


def each_round(rounds, commands):
    """What each command of a dictionary took, each run once a round: a dictionary a round."""
    return [{name: used(*command) for name, command in commands.items()} for _ in range(rounds)]


def alternating(rounds, commands):
    """The median of the CPU seconds of each command of a dictionary, each run once a round."""
    taken = each_round(rounds, commands)
    return {name: statistics.median(each[name].processor for each in taken) for name in commands}


def spread(values, form=",.2f"):
    """The median of the values of all rounds, and the least and the greatest where there are several."""
    least, middle, most = (format(value, form) for value in (min(values), statistics.median(values), max(values)))
    return middle if len(values) == 1 else f"{middle} ({least} to {most})"


def digits(value):
    """A figure with the two digits that count, as 0.058, 8.6, 25 or 5,500."""
    rounded = float(f"{value:.1e}")
    return f"{rounded:,.{max(0, 1 - math.floor(math.log10(rounded)))}f}"


def nodes_of(graph):
    """The number of nodes of a graph file."""
    with open(graph) as file:
        return next(int(line.split()[2]) for line in file if line.startswith("p"))


class Inputs:
    """A folder of inputs on a road network of so many nodes, gone after `with`."""
    # The script that makes the network.
    maker = "roads.py"

    def __init__(self, nodes):
        self.nodes = nodes

    @property
    def name(self):
        """What the network is called."""
        return f"roads of {self.nodes:,} nodes"

    def __enter__(self):
        self.kept = tempfile.TemporaryDirectory()
        self.folder = pathlib.Path(self.kept.name)
        self.graph = self.network()
        return self

    def __exit__(self, *fault):
        self.kept.cleanup()

    def network(self):
        """Its file. Where CHTAB_ROADS names a folder it is made there, once for all scripts."""
        graph = pathlib.Path(os.environ.get("CHTAB_ROADS", self.folder)) / f"{self.maker.removesuffix('.py')}-{self.nodes}.gr"
        if not graph.exists():
            subprocess.run([ROOT / "bench" / self.maker, str(self.nodes), graph], check=True)
        return graph

    def listed(self, count, kind, letter, width):
        """A file of items with `width` nodes each."""
        path = self.folder / f"{count}.{letter}"
        draw = random.Random(letter)
        with open(path, "w") as file:
            print("p aux sp", kind, count, file=file)
            for _ in range(count):
                print(letter, *(draw.randint(1, self.nodes) for _ in range(width)), file=file)
        return path

    def queries(self, count):
        """A file of so many queries."""
        return self.listed(count, "p2p", "q", 2)

    def listing(self, count):
        """A file of so many sources or targets."""
        return self.listed(count, "ss", "s", 1)

    def saved(self, order):
        """The hierarchy in one of the ORDERS or the quick one, as the program saves it."""
        path = self.folder / f"{order}.ch"
        with open(path, "wb") as file:
            subprocess.run([PROGRAM, "save", *ORDERS.get(order, ["--quick"]), self.graph], stdout=file, check=True)
        return path


class Great(Inputs):
    """The same on roads that are drawn by numpy, since Python alone takes an hour for millions of nodes."""
    maker = "country_roads.py"


class Cities(Inputs):
    """The same on roads with the small cuts of real maps, of about so many nodes."""
    maker = "cities.py"

    def network(self):
        graph = super().network()
        self.nodes = nodes_of(graph)
        return graph

    @property
    def name(self):
        return f"roads with small cuts, {self.nodes:,} nodes"


class Country(Inputs):
    """The same on the shipped network of Liechtenstein."""

    def __init__(self):
        super().__init__(nodes_of(self.network()))

    def network(self):
        return ROOT / "examples" / "liechtenstein.gr"

    @property
    def name(self):
        return "Liechtenstein"


class Bends(Inputs):
    """The same on the roads of Liechtenstein with a node at each bend, made of the shipped map."""

    def __init__(self):
        super().__init__(0)

    def network(self):
        command = [ROOT / "tools" / "osm_to_gr.py", "--quiet", "--nodes", "all", ROOT / "examples" / "liechtenstein.osm.bz2", self.folder / "bends"]
        subprocess.run(command, stdout=subprocess.DEVNULL, check=True)
        graph = self.folder / "bends.gr"
        self.nodes = nodes_of(graph)
        return graph

    @property
    def name(self):
        return f"Liechtenstein with every bend, {self.nodes:,} nodes"


class File(Inputs):
    """The same on the network of a file."""

    def __init__(self, path):
        self.path = pathlib.Path(path)
        super().__init__(nodes_of(path))

    def network(self):
        return self.path

    @property
    def name(self):
        return f"{self.path.name}, {self.nodes:,} nodes"


# Larger networks are made by numpy.
MOST_NODES_IN_PYTHON = 2_000_000
# The words for networks.
NETWORKS = "shipped: the network of Liechtenstein in examples/; bends: the same with a node at each bend; a number: roads of so many nodes with the \
cuts of a grid; cities-NUMBER: such with small cuts; FILE.gr: the network of a file"


def network(word):
    """The inputs on the network that one of these words asks for."""
    named = {"shipped": Country, "bends": Bends}
    if word in named:
        return named[word]()
    if word.startswith("cities-"):
        return Cities(int(word.removeprefix("cities-")))
    if word.endswith(".gr"):
        return File(word)
    return Great(int(word)) if int(word) > MOST_NODES_IN_PYTHON else Inputs(int(word))


def words(about, *networks, **options):
    """What the command line gives: the value of each of these options, or the one named here, and networks, or those named here."""
    parser = argparse.ArgumentParser(description=about, formatter_class=argparse.RawDescriptionHelpFormatter)
    for name, value in options.items():
        many = {"type": int, "nargs": "+"} if isinstance(value, list) else {"type": type(value)}
        parser.add_argument(f"--{name}", default=value, **({"action": "store_true"} if value is False else many))
    if networks:
        parser.add_argument("networks", nargs="*", metavar="NETWORK", default=networks, help=f"{NETWORKS} ({', '.join(networks)} where none is given)")
    return parser.parse_args()
