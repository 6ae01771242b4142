#!/usr/bin/python3
"""Tests the service as one who runs it meets it: files that are replaced, proxies and forged addresses, bodies that are packed, a second
service on the port, one that takes the port over without losing a request, and what the log and the metrics say.

A check that needs a missing package is named and left out. The last line is 'N passed, N failed'.
"""
import collections
import concurrent.futures
import contextlib
import gzip
import http.client
import json
import os
import pathlib
import random
import re
import shutil
import signal
import socket
import subprocess
import threading
import time
import urllib.parse

import numpy

from helpers import running
from helpers.maps import tool, town_at_a_cost
from helpers.moods import STANDIN, holding, mood
from helpers.packages import PYTHON, run_checks
from helpers.running import PROGRAM, ROOT
from helpers.serving import COUNTRY, SERVICE, ask, children_of, raw, running_service, send, told
from helpers.waiting import PATIENCE, until
import chtab
from chtab_server import speeds
from chtab_server.osrm import answering

ROUTE = "/route/v1/car/9.5209,47.1410;9.5450,47.2200?overview=false"


def runs_below(number):
    """The runs of the program below a process."""
    found = []
    for child in children_of(number):
        with contextlib.suppress(OSError):
            name = pathlib.Path(f"/proc/{child}/cmdline").read_bytes().split(b"\0")
            found += [child] if b"ask" in name else runs_below(child)
    return found


def copied(out):
    """A network of one's own."""
    for suffix in "gr", "co":
        shutil.copy(f"{COUNTRY}.{suffix}", f"{out}.{suffix}")


def replaced(path):
    """Writes a file anew, with the same bytes, as tools do it: beside it, and then under its name."""
    shutil.copy(path, f"{path}.new")
    os.replace(f"{path}.new", path)


def files_that_are_replaced():
    """Another file takes the name of one of the network, and then the run dies, or a process: the service answers on by what it was begun with."""
    copied("net")
    for words in (), ("--processes", 2):
        with running_service(*words, out="net") as (child, address):
            before = ask(address, ROUTE)
            for suffix in "gr", "co":
                replaced(f"net.{suffix}")
            pathlib.Path("net.gr").write_text("p sp 1 0\n")
            victims = children_of(child.pid) if words else runs_below(child.pid)
            for victim in victims:
                os.kill(victim, signal.SIGKILL)
            until(lambda: not {*victims} & {*(children_of(child.pid) if words else runs_below(child.pid))}, told)
            until(lambda: answers_well(address) and (not words or len(children_of(child.pid)) == 2), told)
            assert all(ask(address, ROUTE) == before for _ in range(10))
            until(lambda: ask(address, "/health")[1]["status"] == "ready", told)
        assert child.returncode == 0, (child.returncode, open("told").read())
        copied("net")


def answers_well(address):
    with contextlib.suppress(OSError, http.client.HTTPException):
        return ask(address, ROUTE)[0] == 200
    return False


def files_that_are_changed():
    """A file that is written over, so that what was there is gone: what was read before processes were forked answers on, also in processes that take the
    place of those that died."""
    for words in (), ("--processes", 2):
        copied("net")
        with running_service(*words, out="net") as (child, address):
            before = ask(address, ROUTE)
            assert before[0] == 200 and ask(address, "/health")[0] == 200
            with open("net.gr", "a") as file:
                file.write("c changed\n")
            victims = children_of(child.pid) if words else []
            for victim in victims:
                os.kill(victim, signal.SIGKILL)
            until(lambda: not {*victims} & {*children_of(child.pid)}, told)
            until(lambda: answers_well(address) and (not words or len(children_of(child.pid)) == 2), told)
            assert all(ask(address, ROUTE) == before for _ in range(10)) and ask(address, "/health")[0] == 200
        lines = told()
        assert child.returncode == 0 and "Traceback" not in lines and lines.count("\n") < 30, (child.returncode, lines)


def health_is_no_better_than_answers():
    """Where the library fails at each question nothing is answered, and health says so."""
    with mood("fails=0"), running_service(program=STANDIN) as (child, address):
        def is_failing():
            assert ask(address, ROUTE)[0] == 503
            return ask(address, "/health") == (503, {"status": "failing", "waiting": 0})

        until(is_failing, told)


def addresses_that_proxies_name():
    """The client is the last one of the last line, without a port; what a client claims itself counts for nothing, nor does it break the log."""
    cases = (
        (["1.2.3.4"], "1.2.3.4"), (["9.9.9.9, 1.2.3.4"], "1.2.3.4"), (["9.9.9.9", "1.2.3.4"], "1.2.3.4"), (["1.2.3.4", "9.9.9.9, 5.6.7.8"], "5.6.7.8"),
        (["1.2.3.4:5678"], "1.2.3.4"), (["[2001:db8::1]:5678"], "2001:db8::/64"), (["[2001:db8::1]"], "2001:db8::/64"), (["2001:db8::1"], "2001:db8::/64"),
        (["::ffff:1.2.3.4"], "1.2.3.4"), (['x" 200 "'], "x__200__"), ([""], "127.0.0.1"), (["1.2.3.4, "], "127.0.0.1"), ([], "127.0.0.1"),
    )
    with running_service("--proxy", "127.0.0.1", "--log", "access.log") as (_, address):
        for number, (lines, _) in enumerate(cases):
            head = "".join(f"X-Forwarded-For: {line}\r\n" for line in lines)
            assert raw(address, f'GET /health?{number}"quoted" HTTP/1.1\r\nHost: x\r\nConnection: close\r\n{head}\r\n').startswith(b"HTTP/1.1 200")
    for words in (), ("--proxy", "127.0.0.9"):
        with running_service(*words, "--log", "direct.log") as (_, address):
            raw(address, "GET /health HTTP/1.1\r\nHost: x\r\nConnection: close\r\nX-Forwarded-For: 1.2.3.4\r\n\r\n")
    lines = open("access.log").read().splitlines()
    for number, (line, (_, wanted)) in enumerate(zip(lines, cases, strict=True)):
        assert line.split(" ", 1)[1].startswith(f'{wanted} "GET /health?{number}\\x22quoted\\x22" 200 '), (line, wanted)
    assert [line.split()[1] for line in open("direct.log")] == ["127.0.0.1"] * 2, "the header of one that is not the proxy says nothing"


def requests_that_once_failed():
    """Names that no file can have, bodies that are not packed as they say, and a packed one that is huge: each is refused with a line, and no trace."""
    def post(body, encoding):
        head = f"POST /api/route HTTP/1.1\r\nHost: x\r\nConnection: close\r\nContent-Encoding: {encoding}\r\nContent-Length: {len(body)}\r\n\r\n"
        return raw(address, head.encode() + body)

    question = json.dumps({"from": [9.5209, 47.1410], "to": [9.5450, 47.2200]}).encode()
    with running_service() as (child, address):
        for path in "/page/" + "a" * 256, "/page/" + "a/" * 2_000, "/page/%00", "/leaflet/" + "b" * 300, "/page/" + "c" * 20_000, "/page/%2e%2e/service.py":
            status, _, text = send(address, path)
            assert (status, set(json.loads(text))) == (404, {"error"}), (path[:40], status, text)
        before = memory_of(child.pid)
        for body, encoding, status in (
            (b"abcde", "gzip", 400), (gzip.compress(question)[:-9], "gzip", 400), (gzip.compress(question), "gzip", 200), (question, "br", 415),
            (gzip.compress(b" " * 200_000_000), "gzip", 413), (b"abcde", "deflate", 400), (question, "identity", 200), (gzip.compress(b" " * 5_000_000), "gzip", 413),
        ):
            found = post(body, encoding)
            assert found.startswith(f"HTTP/1.1 {status} ".encode()), (encoding, status, found[:300])
        assert memory_of(child.pid) < before + 50e6
        assert ask(address, ROUTE)[0] == 200
    assert open("told").read() == "", open("told").read()


def memory_of(number):
    return 1024 * int(re.search(r"VmHWM:\s+(\d+)", pathlib.Path(f"/proc/{number}/status").read_text())[1])


def ended_service(port, *options):
    """What a service says that is begun on a port and has to end by itself."""
    command = [PYTHON, ROOT / "tools" / "page.py", "--port", port, "--program", PROGRAM, *options, COUNTRY]
    try:
        return subprocess.run(list(map(str, command)), capture_output=True, text=True, timeout=PATIENCE)
    except subprocess.TimeoutExpired:
        raise AssertionError(f"a service with {options} goes on on port {port}") from None


def files_that_are_missing():
    """A network without its coordinates, or without its graph, is refused by a sentence."""
    copied("net")
    for suffix, what in ("co", "coordinates of the graph's nodes"), ("gr", "graph"):
        os.remove(f"net.{suffix}")
        done = subprocess.run([PYTHON, ROOT / "tools" / "page.py", "--program", PROGRAM, "--port", "0", "net"], capture_output=True, text=True)
        assert done.returncode == 1 and done.stderr.startswith(f"chtab-page: net.{suffix} is missing: a service needs the {what}"), done
        assert done.stderr.count("\n") == 1 and not done.stdout, done


def grids_of_streets_are_built_with_few_edges():
    """On a grid of streets the hierarchy of `save --quick`, which a service builds too, has hardly more edges than that by depth, and several workers
    make the same; the way of building that took a hundred times as long there is refused."""
    subprocess.run([ROOT / "bench" / "osm.py", "60000", "streets.osm"], check=True, stdout=subprocess.DEVNULL)
    tool("osm_to_gr", "--quiet", "--turns", "streets.osm", "streets")

    def saved(*words):
        return subprocess.run([PROGRAM, "save", *words, "streets.gr"], check=True, capture_output=True).stdout

    quick, deep = saved("--quick"), saved("--deep")
    edges, least = (len(re.findall(rb"^l ", text, re.MULTILINE)) for text in (quick, deep))
    assert saved("--quick", "--workers", "4") == quick and least > 10_000 and edges < 1.5 * least, (edges, least)
    done = subprocess.run([PROGRAM, "save", "--rounds", "streets.gr"], capture_output=True, text=True)
    assert (done.returncode, done.stdout) == (2, "") and "--rounds" in done.stderr, done


def a_second_service_on_the_port():
    """A second service doesn't share the port of one that runs, whatever its processes, unless it takes the port over; nor does it take what is no
    service of this kind."""
    for first in (), ("--processes", 2):
        with running_service(*first) as (_, address):
            for second in (), ("--processes", 2):
                done = ended_service(address.port, *second)
                assert (done.returncode, done.stdout, done.stderr.count("\n")) == (1, "", 1) and "is taken" in done.stderr and "--takeover" in done.stderr, done
            assert ask(address, ROUTE)[0] == 200
    with socket.create_server(("127.0.0.1", 0)) as other:
        done = ended_service(other.getsockname()[1], "--takeover")
        assert (done.returncode, done.stderr.count("\n")) == (1, 1) and "could be taken over" in done.stderr, done


class Load:
    """Clients that ask on and on: half of them on one connection, as long as the service keeps it, the others on a new one for each request."""

    def __init__(self, address, clients):
        self.address, self.is_over, self.found = address, False, collections.Counter()
        # Each service has the same network, so that each answer is the same.
        self.wanted = send(address, ROUTE)[2]
        assert json.loads(self.wanted)["routes"][0]["distance"] > 5_000, self.wanted
        self.threads = [threading.Thread(target=self.go, args=(place % 2 == 0,)) for place in range(clients)]
        for thread in self.threads:
            thread.start()

    def go(self, is_kept):
        connection = None
        while not self.is_over:
            if connection is None:
                connection = http.client.HTTPConnection(self.address.hostname, self.address.port, timeout=PATIENCE)
            try:
                connection.request("GET", ROUTE, headers={} if is_kept else {"Connection": "close"})
                answer = connection.getresponse()
                text = answer.read()
                self.found[answer.status if text == self.wanted else text[:200]] += 1
                is_over = answer.will_close
            except Exception as fault:
                self.found[repr(fault)] += 1
                is_over = True
            if is_over:
                connection.close()
                connection = None

    def wait_for_more(self, count):
        """Waits until so many requests more have been made."""
        before = self.found.total()
        until(lambda: self.found.total() > before + count)

    def end(self):
        self.is_over = True
        for thread in self.threads:
            thread.join()
        return self.found


def a_new_network_without_a_lost_request():
    """Services take the port over from each other, while clients ask more than 5,000 times: none of the requests is lost, and none goes unanswered."""
    # Clients that keep their connection have as long as they take for one more request.
    with contextlib.ExitStack() as stack:
        child, address = stack.enter_context(running_service("--grace", 2 * PATIENCE, told="told0"))
        load = Load(address, 8)
        try:
            for place, words in enumerate(((), ("--processes", 2), (), ("--processes", 2), ()), 1):
                load.wait_for_more(500)
                then, same = stack.enter_context(running_service("--grace", 2 * PATIENCE, "--takeover", *words, told=f"told{place}", port=address.port))
                assert same == address, open(f"told{place}").read()
                load.wait_for_more(300)
                child.terminate()
                assert child.wait(PATIENCE) == 0
                child = then
            load.wait_for_more(1_500)
        finally:
            found = load.end()
        assert set(found) == {200} and found[200] > 5_000, found
        assert all(open(f"told{place}").read() == "" for place in range(6))


def speeds_that_are_refused():
    """A service does not start with a file of speeds that is wrong, nor on a network without the map's numbers. While it answers, a wrong file leaves the
    speeds before, is reported once, and the next right one is taken; health and metrics have the age."""
    copied("net")
    path = pathlib.Path("speeds.csv")
    nodes = int(re.search(r"^p sp (\d+)", pathlib.Path("net.gr").read_text(), re.MULTILINE)[1])
    numbers = [10**9 + 7 * node for node in range(nodes)]
    words = "--segment-speed-file", "speeds.csv"

    def refusal():
        with running_service(*words, out="net") as (child, _):
            child.wait(PATIENCE)
        assert child.returncode == 1 and "Traceback" not in told(), (child.returncode, told())
        return told()

    path.write_text(f"{numbers[0]},{numbers[1]},50\n")
    assert "net.nodes is missing" in refusal()
    pathlib.Path("net.nodes").write_text("".join(f"{number}\n" for number in numbers))
    wrong = "1,2,0\n", "1,2,-5\n", "1,2,nan\n", "1,2,inf\n", "1,2\n", "1;2;3\n", "a,b,c\n", "from,to,speed\n1,2,3\n", "99999999999999999999,2,50\n", "1,2,\xff\n"
    path.write_bytes(wrong[0].encode())
    assert "speeds.csv" in refusal()
    path.write_text("")
    with running_service(*words, out="net") as (child, address):
        before = ask(address, ROUTE)
        assert before[0] == 200 and 0 <= ask(address, "/health")[1]["speeds"]["age"] < PATIENCE
        for count, text in enumerate(wrong, 1):
            path.with_suffix(".new").write_bytes(text.encode("latin-1"))
            os.replace(path.with_suffix(".new"), path)
            until(lambda: told().count("the speeds before stay") == count, told)
            assert ask(address, ROUTE) == before and ask(address, "/health")[1]["status"] == "ready"
        path.unlink()
        child.send_signal(signal.SIGHUP)
        until(lambda: told().count("the speeds before stay") == len(wrong) + 1, told)
        path.with_suffix(".new").write_text("".join(f"{one},{other},10\n" for one, other in pairs_of("net.gr", numbers)))
        os.utime(path.with_suffix(".new"), (time.time() - 5_000,) * 2)
        os.replace(path.with_suffix(".new"), path)
        until(lambda: ask(address, ROUTE)[1]["routes"][0]["duration"] > 2 * before[1]["routes"][0]["duration"], told)
        assert 4_990 < ask(address, "/health")[1]["speeds"]["age"] < 5_000 + PATIENCE
        metrics = send(address, "/metrics")[2].decode()
        assert 4_990 < int(re.search(r"^chtab_speeds_age_seconds (\d+)$", metrics, re.MULTILINE)[1]) < 5_000 + PATIENCE
    assert child.returncode == 0 and "Traceback" not in told(), told()
    with running_service(out="net") as (child, address):
        assert "speeds" not in ask(address, "/health")[1] and "chtab_speeds" not in send(address, "/metrics")[2].decode()


def pairs_of(graph, numbers):
    """The map's numbers at the ends of the arcs of a graph."""
    return [(numbers[int(tail) - 1], numbers[int(head) - 1]) for tail, head in re.findall(r"^a (\d+) (\d+)", pathlib.Path(graph).read_text(), re.MULTILINE)]


def speeds_keep_the_costs_of_turns():
    """Where turns cost time, a speed takes the place of the map's on the road alone: each turn costs what it did, at its light too."""
    out, draw = town_at_a_cost(), random.Random("speeds and turns")
    with chtab.Network.open(f"{out}.gr", program=PROGRAM) as network:
        roads, numbers = network.roads, answering.numbers_in(f"{out}.nodes", network.nodes)
        ends = list(zip(numbers[roads.tails - 1].tolist(), numbers[roads.heads - 1].tolist()))
        given = {pair: draw.choice((7.5, 30, 130)) for pair in sorted(set(ends)) if draw.random() < 0.6}
        columns = map(numpy.array, zip(*((*pair, speed) for pair, speed in given.items())))
        weights, _ = speeds.Pieces(roads, numbers).weighed(speeds.Speeds(*columns, (0, 0, 0, 0)))
        counts = collections.Counter()
        for arc, (pair, weight, before) in enumerate(zip(ends, weights.tolist(), roads.weights.tolist())):
            road, is_met = int(roads.road_of[arc]), pair in given
            wanted = before if road < 0 or not is_met else max(1, round(float(roads.lines.metres[road]) * 3_600 / given[pair]))
            assert abs(weight - wanted) <= is_met and (road >= 0 or weight == before), (arc, pair, weight, wanted)
            counts[road >= 0, is_met, before > 0] += 1
        assert min(counts[True, True, True], counts[True, False, True], counts[False, True, True]) > 50, counts


def it_says_that_connections_close():
    """While it ends after another service took its port over, each answer says that the connection closes, and idle clients have a while for one."""
    patient = "--grace", 2 * PATIENCE, "--ending", 2 * PATIENCE, "--idle", 2 * PATIENCE
    with contextlib.ExitStack() as stack:
        heard = stack.enter_context(listening("notify"))
        child, address = stack.enter_context(running_service(*patient, told="first", environment={"NOTIFY_SOCKET": os.path.abspath("notify")}))
        connection = http.client.HTTPConnection(address.hostname, address.port, timeout=PATIENCE)
        connection.request("GET", ROUTE)
        first = connection.getresponse()
        assert first.read() and not first.will_close and heard.recv(100) == b"READY=1"
        stack.enter_context(running_service("--takeover", told="second", port=address.port))
        child.terminate()
        assert heard.recv(100) == b"STOPPING=1"
        connection.request("GET", ROUTE)
        then = connection.getresponse()
        assert then.status == 200 and then.read() and then.will_close
        assert child.wait(PATIENCE) == 0, "it ends once it has no connection"
    with running_service(*patient) as (child, address), socket.create_connection((address.hostname, address.port)):
        child.terminate()
        assert child.wait(PATIENCE) == 0, "idle clients keep a service that nobody takes over from ending no longer"


@contextlib.contextmanager
def listening(name):
    """A socket that hears what a service says to systemd."""
    with socket.socket(socket.AF_UNIX, socket.SOCK_DGRAM) as heard:
        heard.bind(name)
        heard.settimeout(PATIENCE)
        yield heard


def systemd_is_notified():
    """A unit of `Type=notify` is ready once the service answers, and hears that it ends."""
    for words, name in ((), "notify"), (("--processes", 2), f"\0chtab-test-notify-{os.getpid()}"):
        with listening(name) as heard:
            path = name.replace("\0", "@") if name[0] == "\0" else os.path.abspath(name)
            with running_service(*words, environment={"NOTIFY_SOCKET": path}) as (child, address):
                assert heard.recv(100) == b"READY=1" and ask(address, ROUTE)[0] == 200
                child.terminate()
                assert heard.recv(100) == b"STOPPING=1"


def the_log_says_why():
    """Why a request was refused, what was no request of HTTP, and which connection was closed for doing nothing."""
    with running_service("--log", "access.log", "--idle", 5) as (_, address):
        with socket.create_connection((address.hostname, address.port)) as silent:
            silent.settimeout(PATIENCE)
            with contextlib.suppress(ConnectionError):
                assert silent.recv(1) == b""
        ask(address, "/route/v1/car/9.5,47.1;9.6,47.2?steps=perhaps")
        ask(address, "/api/route", {"from": [9.5, 47.1]})
        raw(address, b"\x16\x03\x01\x02\x00\x01\x00what\r\n\r\n")
        text = send(address, "/metrics")[2].decode()
    lines = open("access.log").read()
    for told in (
        '" 400 .* "InvalidQuery: steps: one of false, true"\n', '" 400 .* "form: to is missing"\n', '127.0.0.1 "-" 400 0 0.0 "http: this is no request of HTTP',
        '127.0.0.1 "-" 0 0 0.0 "idle: idle for 5 seconds"\n',
    ):
        assert re.search(told, lines), (told, lines)
    for reason in "InvalidQuery", "form", "http", "idle":
        assert f'chtab_refusals_total{{reason="{reason}"}} 1\n' in text, text
    assert re.search(r"^chtab_connections \d+$", text, re.MULTILINE)


GROUPS = (
    (SERVICE, [
        files_that_are_changed, health_is_no_better_than_answers, addresses_that_proxies_name,
        requests_that_once_failed, files_that_are_missing, a_second_service_on_the_port, it_says_that_connections_close,
        systemd_is_notified, the_log_says_why,
        files_that_are_replaced, grids_of_streets_are_built_with_few_edges, a_new_network_without_a_lost_request, speeds_that_are_refused, speeds_keep_the_costs_of_turns,
    ]),
)

if __name__ == "__main__":
    running.build()
    run_checks(GROUPS)
