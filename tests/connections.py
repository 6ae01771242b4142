#!/usr/bin/python3
"""Tests the connections of the service: requests that are sent ahead of their answers, more connections than there may be, whose requests are answered
all the same, what an answer says of the service, and what its processes hold in memory.

A check that needs a missing package is named and left out. The last line is 'N passed, N failed'.
"""
import collections
import concurrent.futures
import contextlib
import http.client
import json
import os
import pathlib
import re
import signal
import socket
import subprocess
import threading
import time

from helpers import running
from helpers.in_process import make
from helpers.maps import tool
from helpers.moods import STANDIN, holding, mood
from helpers.packages import run_checks
from helpers.running import PROGRAM, ROOT
from helpers.serving import SERVICE, ask, children_of, raw, running_service, send, service, told
from helpers.waiting import PATIENCE, until

ROUTE = "/route/v1/car/9.5209,47.1410;9.5450,47.2200?overview=false"
# The clients that send ahead and read nothing, the seconds that they do, and by how much the service may grow: aiohttp alone grows by 400 MB.
GREEDY, SECONDS, GROWTH = 20, 8.0, 40e6
# The seconds in which many clients ask, and after which an idle connection may make way for one of the same address.
ASKING, REST = 5.0, 0.6
# The most bytes that a process of the service holds by itself, without those of a network.
PYTHON_ALONE = 14e6


def resident(number):
    """The bytes of memory that a process holds."""
    text = pathlib.Path(f"/proc/{number}/status").read_text()
    return 1024 * int(re.search(r"^VmRSS:\s+(\d+) kB$", text, re.MULTILINE)[1])


def send_ahead(address, latest):
    """Sends requests as fast as they are taken, and reads no answer."""
    with socket.create_connection((address.hostname, address.port)) as client:
        client.settimeout(0.2)
        while time.monotonic() < latest:
            with contextlib.suppress(TimeoutError):
                client.send(b"GET /page/page.js HTTP/1.1\r\nHost: x\r\n\r\n" * 500)


def requests_ahead_take_no_memory():
    """Clients that send requests and read no answers: no more of them is read, and others are answered as ever."""
    with running_service() as (child, address):
        assert ask(address, ROUTE)[0] == 200
        before, latest = resident(child.pid), time.monotonic() + SECONDS
        greedy = [threading.Thread(target=send_ahead, args=(address, latest)) for _ in range(GREEDY)]
        for each in greedy:
            each.start()
        while time.monotonic() < latest:
            assert ask(address, ROUTE)[0] == 200
            time.sleep(0.2)
        after = resident(child.pid)
        for each in greedy:
            each.join()
        assert after < before + GROWTH, (before, after)
        assert ask(address, ROUTE)[0] == 200
    assert told() == "", told()


def requests_ahead_are_answered():
    """Each of many requests that come in one piece, bodies among them, has its answer in its place; so has one that is cut anywhere."""
    body = json.dumps({"from": [9.5209, 47.1410], "to": [9.5450, 47.2200]}).encode()
    route = f"GET {ROUTE} HTTP/1.1\r\nHost: x\r\n\r\n".encode()
    post = b"POST /api/route HTTP/1.1\r\nHost: x\r\nContent-Length: %d\r\n\r\n%s" % (len(body) + 90_000, body + b" " * 90_000)
    refused = b"GET /route/v1/car/x HTTP/1.1\r\nHost: x\r\n\r\n"
    last = route.replace(b"\r\n\r\n", b"\r\nConnection: close\r\n\r\n")
    with running_service() as (_, address):
        many = (route * 7 + post + refused) * 30
        found = raw(address, many + last)
        statuses = [int(status) for status in re.findall(rb"HTTP/1\.1 (\d+)", found)]
        assert statuses == [*([*[200] * 8, 400] * 30), 200], collections.Counter(statuses)
        codes = [b"Feature" in part for part in found.split(b"HTTP/1.1 ")[1:]]
        assert codes == [*([*[False] * 7, True, False] * 30), False]
        for cut in 1, 30, len(route) - 1, len(route) + 20:
            with socket.create_connection((address.hostname, address.port), timeout=PATIENCE) as client:
                client.sendall((route + last)[:cut])
                time.sleep(0.05)
                client.sendall((route + last)[cut:])
                text = b"".join(iter(lambda: client.recv(1 << 16), b""))
            assert text.count(b'"code": "Ok"') == 2, (cut, text)
    assert told() == "", told()


def too_many_connections():
    """Idle connections, more than there may be files, stop nobody for long: those that have been idle longest make way, and the log says it once a
    minute."""
    for limit, words in ((128, 128), ()), (None, ("--max-connections", 40)), (None, ("--max-connections-of-address", 30)):
        begun = time.monotonic()
        # None is closed because it is idle for long.
        with running_service(*words, "--idle", 10 * PATIENCE, limit=limit) as (child, address), contextlib.ExitStack() as stack:
            for place in range(300):
                client = stack.enter_context(socket.create_connection((address.hostname, address.port), timeout=PATIENCE))
                if place % 3 == 0:
                    with contextlib.suppress(OSError):
                        client.sendall(b"GET / HT")
                if place % 60 == 0:
                    until(lambda: answers(address, "/health") and answers(address, ROUTE))
            until(lambda: answers(address, ROUTE))
            assert all(answers(address, ROUTE) for _ in range(5))
            text = send(address, "/metrics")[2].decode()
            assert int(re.search(r'refusals_total\{reason="connections"\} (\d+)', text)[1]) > 100, text
        lines = told().splitlines()
        assert 1 <= len(lines) <= 1 + (time.monotonic() - begun) / 60 and all("more than there may be" in line for line in lines), lines
    with running_service(limit=(64, 4_096)) as (child, _):
        limits = pathlib.Path(f"/proc/{child.pid}/limits").read_text()
        assert re.search(r"Max open files +4096 +4096", limits), limits


def answers(address, path):
    """Whether the service answers, and not that there are too many connections."""
    with contextlib.suppress(ConnectionError):
        status, value = ask(address, path)
        assert status == 200 or (status, value["error"]) == (503, "there are more connections than there may be; try again in a second"), value
        return status == 200
    return False


def the_longest_idle_makes_way():
    """Of idle connections the one that did nothing for longest makes way, also where an older one asked meanwhile; none that asked a moment ago."""
    until(longest_idle_made_way)


def longest_idle_made_way():
    """Tries it with a service; False where so much time passed between the first connection and the last that the first one had rested."""
    with running_service("--max-connections-of-address", 5) as (_, address), contextlib.ExitStack() as stack:
        clients, begun = [], time.monotonic()

        def connect():
            client = http.client.HTTPConnection(address.hostname, address.port, timeout=PATIENCE)
            clients.append(stack.enter_context(contextlib.closing(client)))
            return answers_on(client)

        assert all(connect() for _ in range(5))
        is_answered = connect()
        if time.monotonic() > begun + 0.8 * REST:
            return False
        assert not is_answered, "the others were answered a moment ago"
        clients.pop()
        time.sleep(REST)
        assert answers_on(clients[0]) and all(connect() for _ in range(3))
        assert [answers_on(client) for client in clients] == [True] + [False] * 3 + [True] * 4
        return True


def answers_on(client):
    """Whether the service answers on a connection, which it may have closed, or tells that it does."""
    with contextlib.suppress(ConnectionError):
        client.request("GET", "/health")
        return json.loads(client.getresponse().read()).get("status") == "ready"
    return False


def a_busy_connection_is_kept():
    """A connection whose request is underway makes way for none; one too many is closed then."""
    with mood(), running_service("--max-connections-of-address", 3, "--idle", 10 * PATIENCE, program=STANDIN) as (_, address):
        with concurrent.futures.ThreadPoolExecutor(3) as clients:
            with holding():
                waiting = [clients.submit(ask, address, ROUTE) for _ in range(3)]
                until(lambda: waiting_seen_from_elsewhere(address) == 3)
                with socket.create_connection((address.hostname, address.port), timeout=PATIENCE) as client:
                    with contextlib.suppress(ConnectionError):
                        assert client.recv(1) == b"", "it is closed"
                status, value = ask(address, "/health")
                assert status == 503 and value["error"] == value["message"] and "more connections" in value["error"], value
            assert [each.result()[0] for each in waiting] == [200] * 3


def waiting_seen_from_elsewhere(address):
    """How many requests wait, asked by a client whose connection is none of the others' address."""
    connection = http.client.HTTPConnection(address.hostname, address.port, timeout=PATIENCE, source_address=("127.0.0.2", 0))
    with contextlib.closing(connection):
        connection.request("GET", "/health")
        return json.loads(connection.getresponse().read())["waiting"]


class Crowd:
    """Clients of one address that ask on connections that they keep, and what became of each request."""

    def __init__(self, address, seconds):
        self.address, self.latest, self.found, self.lock = address, time.monotonic() + seconds, collections.Counter(), threading.Lock()
        self.wanted = send(address, ROUTE)[2]

    def work(self):
        connection = None
        while time.monotonic() < self.latest:
            connection = connection or http.client.HTTPConnection(self.address.hostname, self.address.port, timeout=PATIENCE)
            try:
                connection.request("GET", ROUTE)
                answer = connection.getresponse()
                text = answer.read()
                outcome = answer.status, "the same" if text == self.wanted else json.loads(text)["code"]
                connection = None if answer.will_close else connection
            except OSError as fault:
                outcome, connection = type(fault).__name__, None
            with self.lock:
                self.found[outcome] += 1


def no_request_of_a_crowd_is_cut():
    """More clients than there may be ask from one address: each request is answered, some with the status 503, and no trace is left."""
    with running_service("--max-connections-of-address", 40) as (_, address):
        crowd = Crowd(address, ASKING)
        working = [threading.Thread(target=crowd.work) for _ in range(64)]
        for each in working:
            each.start()
        for each in working:
            each.join()
        assert json.loads(crowd.wanted)["code"] == "Ok" and set(crowd.found) == {(200, "the same"), (503, "InternalError")}, crowd.found
        time.sleep(REST)
        assert ask(address, ROUTE)[0] == 200
    lines = told().splitlines()
    assert len(lines) <= 2 and all("more than there may be" in line for line in lines), lines


def answers_tell_no_versions():
    """The header `Server` of answers of each kind, also of what is no request."""
    with running_service() as (_, address):
        for path in ROUTE, "/", "/page/page.js", "/health", "/metrics", "/nothing", "/api/network", "/route/v1/car/x":
            assert send(address, path)[1].get_all("Server") == ["chtab"], (path, send(address, path)[1].items())
        assert send(address, "/api/route", {"from": [9.5209, 47.1410], "to": [9.5450, 47.2200]})[1].get_all("Server") == ["chtab"]
        for text in "what is this\r\n\r\n", f"GET {ROUTE} HTTP/1.0\r\n\r\n":
            head = raw(address, text).partition(b"\r\n\r\n")[0]
            assert re.findall(rb"(?i)^server: (.*?)\r?$", head, re.MULTILINE) == [b"chtab"], head


def processes_share_their_memory():
    """What is made of a network is in memory once: a process by itself holds little more than Python, and one that is begun anew answers at once."""
    subprocess.run([ROOT / "bench" / "osm.py", "60000", "streets.osm"], check=True, stdout=subprocess.DEVNULL)
    tool("osm_to_gr", "--quiet", "--turns", "--bends", "--names", "streets.osm", "streets")
    with open("streets.ch", "wb") as saved:
        subprocess.run([PROGRAM, "save", "--deep", "streets.gr"], check=True, stdout=saved)
    path = "/route/v1/car/0.01,0.01;0.05,0.06?overview=false"
    with service("streets", "--processes", 2, "--library", make(), "--saved", "streets.ch") as (child, address):
        first = children_of(child.pid)
        held = [private(number) for number in first]
        assert len(held) == 2 and max(held) < PYTHON_ALONE + 60 * nodes_of("streets.gr"), held
        wanted = ask(address, path)
        os.kill(first[0], signal.SIGKILL)
        until(lambda: len(children_of(child.pid)) == 2 and first[0] not in children_of(child.pid))
        assert wanted[0] == 200 and all(ask(address, path) == wanted for _ in range(20))
        assert max(map(private, children_of(child.pid))) < 2 * PYTHON_ALONE + 60 * nodes_of("streets.gr")


def private(number):
    """The bytes that a process has written, and shares with none."""
    text = pathlib.Path(f"/proc/{number}/smaps_rollup").read_text()
    return 1024 * int(re.search(r"^Private_Dirty:\s+(\d+) kB$", text, re.MULTILINE)[1])


def nodes_of(graph):
    return int(re.search(r"^p sp (\d+)", pathlib.Path(graph).read_text(), re.MULTILINE)[1])


LINES = {
    "plain": r'\d{4}-\d\d-\d\dT[\d:]{8}Z 127\.0\.0\.1 "GET /route/v1/car/x" 400 \d+ \d+\.\d "InvalidQuery: coordinate 0 [^"]+"',
    "combined": r'127\.0\.0\.1 - - \[\d\d/[A-Z][a-z]{2}/\d{4}:[\d:]{8} \+0000\] "GET /route/v1/car/x HTTP/1\.1" 400 \d+ '
                r'"http://site\.example/" "a \\x22b\\x22"',
}


def logs_have_forms():
    """The plain form, the combined one of Apache and nginx, and objects of JSON; no text of a client ends a field or a line."""
    head = "GET /route/v1/car/x HTTP/1.1\r\nHost: x\r\nConnection: close\r\nUser-Agent: a \"b\"\r\nReferer: http://site.example/\r\n\r\n"
    for form in "plain", "combined", "json":
        with running_service("--log", f"{form}.log", "--log-form", form) as (_, address):
            raw(address, head)
            raw(address, "what\r\n\r\n")
        lines = pathlib.Path(f"{form}.log").read_text().splitlines()
        assert len(lines) == 2, lines
        if form == "json":
            first, second = map(json.loads, lines)
            assert (first["method"], first["target"], first["status"]) == ("GET", "/route/v1/car/x", 400)
            assert (first["agent"], first["page"]) == ('a "b"', "http://site.example/")
            assert first["reason"] == "InvalidQuery" and first["message"].startswith("coordinate 0") and first["milliseconds"] >= 0 and first["bytes"] > 20
            assert (second["reason"], second["status"], second["address"]) == ("http", 400, "127.0.0.1") and "method" not in second
        else:
            assert re.fullmatch(LINES[form], lines[0]) and ' "-" 400 0 ' in lines[1], lines


GROUPS = (
    (SERVICE, [
        requests_ahead_take_no_memory, requests_ahead_are_answered, too_many_connections, the_longest_idle_makes_way, a_busy_connection_is_kept,
        no_request_of_a_crowd_is_cut, answers_tell_no_versions, logs_have_forms, processes_share_their_memory,
    ]),
)

if __name__ == "__main__":
    running.build()
    run_checks(GROUPS)
