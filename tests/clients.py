#!/usr/bin/python3
"""Tests the service of a network with its clients: what is asked and answered, faults in a line, many clients at once, clients that go away, a program
that dies, and what the service tells browsers.

A check that needs a missing package is named and left out. The last line is 'N passed, N failed'.
"""
import collections
import concurrent.futures
import http.client
import itertools
import json
import random
import signal
import socket
import subprocess
import sys
import time

from helpers import running
from helpers.moods import holding
from helpers.packages import PYTHON, run_checks
from helpers.running import PROGRAM, ROOT
from helpers.serving import COUNTRY, SERVICE, ask, faulty_service, send, service
from helpers.waiting import PATIENCE, until

sys.path.insert(0, str(ROOT / "python"))

import chtab  # noqa: E402
from chtab import files  # noqa: E402

VADUZ, ESCHEN = [9.5209, 47.1410], [9.5450, 47.2200]
# How many answers there are at least: after half of them the memory of the service is as large as it gets.
MANY = 2_000


def requests_are_answered():
    """Routes, tables and reach are those of the package; a tile is a picture."""
    import xml.etree.ElementTree

    with service() as (_, address), chtab.Network.open(f"{COUNTRY}.gr", program=PROGRAM) as network:
        spots = network.snap(*zip(VADUZ, ESCHEN))
        [trip] = network.trip_routes(spots[:1], spots[1:])
        status, route = ask(address, "/api/route", {"from": VADUZ, "to": ESCHEN})
        assert (status, route["properties"]["weight"], route["properties"]["unit"]) == (200, trip.weight, "milliseconds"), route
        assert len(route["geometry"]["coordinates"]) == len(trip.line) and route["properties"]["metres"] == round(trip.metres, 1)
        status, table = ask(address, "/api/table", {"sources": [VADUZ, ESCHEN], "targets": [ESCHEN]})
        assert (status, table) == (200, {"unit": "milliseconds", "weights": [[trip.weight], [0]]}), table
        status, table = ask(address, "/api/table", {"sources": [VADUZ], "targets": [ESCHEN], "within": trip.weight - 1})
        assert table["weights"] == [[None]], table
        status, reach = ask(address, "/api/reach", {"from": VADUZ, "limits": [60_000, 300_000]})
        assert json.loads(json.dumps(network.isochrones(spots[:1], [60_000, 300_000])))["features"] == reach["features"]
        status, known = ask(address, "/api/network")
        assert (known["nodes"], known["unit"], known["title"]) == (network.nodes, "milliseconds", "liechtenstein")
        connection = http.client.HTTPConnection(address.hostname, address.port)
        connection.request("GET", "/roads/12/2156/1439.svg")
        tile = xml.etree.ElementTree.fromstring(connection.getresponse().read())
        assert any(path.get("d") for path in tile.iter("{http://www.w3.org/2000/svg}path"))


def faults_are_told_in_a_line():
    """What is no request gets a status, JSON and a reason, and the service goes on."""
    far, many = [47.1410, 9.5209], [VADUZ] * 1_001
    cases = [
        ("/api/route", b"{", 400, "not JSON"), ("/api/route", b"\xff", 400, "not JSON"), ("/api/route", b"[" * 100_000, 400, "not JSON"),
        ("/api/route", [], 400, "an object"), ("/api/route", {}, 400, "from is missing"),
        ("/api/route", {"from": VADUZ, "to": ESCHEN, "by": 1}, 400, "by is not known"),
        ("/api/route", {"from": VADUZ, "to": [9.5]}, 400, "to is a place"), ("/api/route", {"from": VADUZ, "to": [9.5, "47"]}, 400, "latitude of to"),
        ("/api/route", {"from": VADUZ, "to": [True, 47]}, 400, "longitude of to"), ("/api/route", {"from": VADUZ, "to": [9, 91]}, 400, "latitude of to"),
        ("/api/route", b'{"from": [9.5, NaN], "to": [9.5, 47]}', 400, "latitude of from"),
        ("/api/route", b'{"from": [9.5, 1e999], "to": [9.5, 47]}', 400, "latitude of from"),
        ("/api/route", {"from": VADUZ, "to": far}, 400, "from the nearest road"),
        ("/api/table", {"sources": [], "targets": [VADUZ]}, 400, "sources is a list"),
        ("/api/table", {"sources": many, "targets": [VADUZ]}, 400, "sources is a list"),
        ("/api/table", {"sources": many[:400], "targets": many[:400]}, 400, "at most 100,000 cells"),
        ("/api/table", {"sources": [VADUZ], "targets": [VADUZ], "within": -1}, 400, "within"),
        ("/api/reach", {"from": VADUZ, "limits": []}, 400, "limits"), ("/api/reach", {"from": VADUZ, "limits": [0]}, 400, "a limit"),
        ("/api/reach", {"from": VADUZ, "limits": [1] * 13}, 400, "limits"), ("/api/reach", {"from": VADUZ, "limits": "all"}, 400, "limits"),
        ("/api/route", b" " * 2_000_000, 413, "at most"), ("/api/nothing", {}, 404, ""), ("/nothing", None, 404, ""),
        ("/api/route", None, 405, ""), ("/roads/3/9/0.svg", None, 404, "no such tile"), ("/roads/99/0/0.svg", None, 404, ""),
        ("/page/../service.py", None, 404, ""), ("/leaflet/../../../../etc/passwd", None, 404, ""),
    ]
    with service() as (_, address):
        for path, body, status, told in cases:
            found, value = ask(address, path, body)
            assert found == status and set(value) == {"error"} and told in value["error"], (path, body and str(body)[:80], found, value)
            assert "Traceback" not in value["error"] and "\n" not in value["error"], value
        assert ask(address, "/api/route", {"from": VADUZ, "to": ESCHEN})[0] == 200
    assert open("told").read() == "", open("told").read()


def clients_that_go_away():
    """Clients that leave within a request, after it and within the answer."""
    body = json.dumps({"from": VADUZ, "limits": [600_000]}).encode()
    head = b"POST /api/reach HTTP/1.1\r\nHost: x\r\nContent-Length: %d\r\n\r\n" % len(body)
    with service() as (child, address):
        for cut in [len(head) // 2, len(head) + 9, len(head) + len(body)] * 8:
            with socket.create_connection((address.hostname, address.port)) as client:
                client.sendall((head + body)[:cut])
        assert ask(address, "/api/route", {"from": VADUZ, "to": ESCHEN})[0] == 200 and child.poll() is None
    assert "Traceback" not in open("told").read(), open("told").read()


def memory_of(process):
    """Bytes that a process holds."""
    text = open(f"/proc/{process.pid}/status").read()
    return 1024 * int(next(line.split()[1] for line in text.splitlines() if line.startswith("VmRSS")))


def fifty_clients_for_a_minute():
    """No answer is another one than that to the same request alone, whose weight and metres are those of the package; none is lost, and memory is steady
    from half of the minute on."""
    draw = random.Random("fifty clients")
    coordinates = files.read_coordinates(f"{COUNTRY}.co")
    places = [coordinates.of(draw.choice(coordinates.known())) for _ in range(12)]
    asked = [("/api/route", {"from": start, "to": end}) for start in places for end in places]
    asked += [("/api/table", {"sources": [start], "targets": [end]}) for start in places for end in places]
    with chtab.Network.open(f"{COUNTRY}.gr", program=PROGRAM) as network:
        spots = network.snap(*zip(*places))
        weights = [weight for row in network.trip_table(spots, spots).tolist() for weight in row]
        trips = network.trip_routes(*(spots[list(places)] for places in zip(*itertools.product(range(12), repeat=2))))
    with service() as (child, address):
        alone = [ask(address, *each) for each in asked]
        for (_, route), (_, table), trip, weight in zip(alone[:144], alone[144:], trips, weights, strict=True):
            assert (route["properties"]["weight"], route["properties"]["metres"]) == (weight, round(trip.metres, 1)) and trip.weight == weight, (route, trip)
            assert table["weights"] == [[weight]], (table, weight)

        def work(seed):
            """How many answers were right, or the first that was wrong."""
            draw, count = random.Random(seed), 0
            while time.monotonic() < latest or not count or answered.total() < MANY:
                place = draw.randrange(len(asked))
                found = ask(address, *asked[place])
                if found != alone[place]:
                    return asked[place], found, alone[place]
                count += 1
                answered[seed] = count
            return count

        latest, answered = time.monotonic() + 60, collections.Counter()
        with concurrent.futures.ThreadPoolExecutor(50) as clients:
            working = [clients.submit(work, seed) for seed in range(50)]
            until(lambda: time.monotonic() > latest - 30 and answered.total() > MANY / 2 or any(each.done() for each in working))
            held = memory_of(child)
            counts = [each.result() for each in working]
        assert all(isinstance(count, int) for count in counts), counts
        assert memory_of(child) < 1.1 * held + 5e6, (memory_of(child), held)


def a_full_queue_and_a_program_that_dies():
    """Where too many wait, some get the answer to come again, and none is lost; one that the library has no memory for is told so."""
    with faulty_service("", "--waiting", "4") as (_, address), concurrent.futures.ThreadPoolExecutor(20) as clients:
        with holding():
            asking = [clients.submit(ask, address, "/api/route", {"from": VADUZ, "to": ESCHEN}) for _ in range(20)]
            until(lambda: sum(each.done() for each in asking) == 16)
        found = [each.result() for each in asking]
        assert [status for status, _ in found].count(200) == 4, found
        assert all(status == 200 or (status == 503 and "waiting" in value["error"]) for status, value in found), found
    with faulty_service("fails=0") as (_, address):
        assert ask(address, "/api/table", {"sources": [VADUZ], "targets": [ESCHEN]})[0] == 503
    assert "Traceback" not in open("told").read()


def a_service_ends_well():
    with faulty_service("") as (child, address):
        child.send_signal(signal.SIGINT)
        assert child.wait(PATIENCE) == 0
    assert open("told").read() == ""
    command = [PYTHON, ROOT / "tools" / "page.py", "--program", PROGRAM, "none"]
    done = subprocess.run(list(map(str, command)), capture_output=True, text=True)
    assert (done.returncode, done.stderr.count("\n")) == (1, 1) and "none.gr" in done.stderr, done


def what_browsers_are_told():
    """Each answer says that nothing runs but the page's own files, that types are not guessed, that no other site learns of the page, and
    how long it may be kept."""
    paths = "/", "/page/page.js", "/page/page.css", "/leaflet/leaflet.js", "/api/network", "/roads/12/2156/1439.svg", "/nothing", "/api/route"
    with service() as (_, address):
        for path in paths:
            _, headers, _ = send(address, path)
            policy = dict(part.split(" ", 1) for part in headers["Content-Security-Policy"].split("; "))
            assert policy["default-src"] == "'none'" and policy["script-src"] == policy["style-src"] == policy["connect-src"] == "'self'", (path, policy)
            assert policy["img-src"] == "'self' data:" and policy["frame-ancestors"] == policy["base-uri"] == policy["form-action"] == "'none'", policy
            assert headers["X-Content-Type-Options"] == "nosniff" and headers["Referrer-Policy"] == "no-referrer", (path, headers.items())
            assert headers["Cache-Control"] == ("max-age=3600" if path.startswith("/roads") else "no-cache"), (path, headers.items())
    with service(COUNTRY, "--tiles", "https://{s}.tile.example.org:8443/{z}/{x}/{y}.png") as (_, address):
        _, headers, _ = send(address, "/")
        servers = " ".join(f"https://{letter}.tile.example.org:8443" for letter in "abc")
        assert f"img-src 'self' data: {servers};" in headers["Content-Security-Policy"], headers.items()
        assert headers["Referrer-Policy"] == "strict-origin", headers.items()
    strange = "javascript:alert(1)//{z}/{x}/{y}", "https://a.org; script-src */{z}/{x}/{y}.png", "//a.org/{z}/{x}/{y}.png", "https://[::1/{z}"
    for tiles in strange:
        command = [PYTHON, ROOT / "tools" / "page.py", "--port", 0, "--program", PROGRAM, "--tiles", tiles, COUNTRY]
        done = subprocess.run(list(map(str, command)), capture_output=True, text=True)
        assert (done.returncode, done.stdout, done.stderr.count("\n")) == (1, "", 1) and "is not the address of map tiles" in done.stderr, done


GROUPS = (
    (SERVICE, [
        requests_are_answered, faults_are_told_in_a_line, clients_that_go_away, fifty_clients_for_a_minute,
        a_full_queue_and_a_program_that_dies, a_service_ends_well, what_browsers_are_told,
    ]),
)

if __name__ == "__main__":
    running.build()
    run_checks(GROUPS)
