#!/usr/bin/python3
"""Tests the service of a network for programs: places that are too far, pages of other sites, health, and clients that do nothing.

A check that needs a missing package is named and left out. The last line is 'N passed, N failed'.
"""
import asyncio
import collections
import concurrent.futures
import contextlib
import http.client
import json
import random
import re
import signal
import socket
import subprocess
import threading
import time
import types
import urllib.parse

# First of all, since it puts the package on the path.
from helpers.maps import COUNTRY

import numpy

from helpers import running
from helpers.asking_osrm import on_sphere, write_network
from helpers.commands import command
from helpers.in_process import make
from helpers.moods import STANDIN, holding, mood
from helpers.packages import PYTHON, run_checks
from helpers.running import PROGRAM, ROOT
from helpers.serving import words_of_library
from helpers.waiting import PATIENCE, until
import chtab
from chtab._roads import snapping
from chtab_server import queue, tiles

FIRST_SAVED = ROOT / "examples" / "first.ch"
# Seconds between two parts of a request, so that they come one by one.
PAUSE = 0.02
# The seconds after which a client that does nothing is dropped where that is tried.
IDLE = 2
# More requests than have room for their answers in a socket.
MANY = 1_500
VADUZ, ESCHEN, SEA = [9.5209, 47.1410], [9.5450, 47.2200], [9.5, 46.0]


@contextlib.contextmanager
def service(*words, out=COUNTRY, program=PROGRAM):
    """The address of a service on a free port. It ends well and tells nothing."""
    line = [PYTHON, ROOT / "tools" / "page.py", "--port", 0, "--program", program, *words_of_library(out, program), *words, out]
    child = subprocess.Popen(list(map(str, line)), stdout=subprocess.PIPE, stderr=subprocess.PIPE, text=True)
    try:
        yield urllib.parse.urlsplit(child.stdout.readline().strip())
    finally:
        child.send_signal(signal.SIGINT)
        told = child.communicate(timeout=PATIENCE)[1]
    assert (child.returncode, told) == (0, ""), told


def ask(address, path, body=None, method=None, headers=()):
    """The status, the headers and the value of an answer."""
    connection = http.client.HTTPConnection(address.hostname, address.port, timeout=PATIENCE)
    with contextlib.closing(connection):
        data = None if body is None else json.dumps(body).encode()
        connection.request(method or ("GET" if body is None else "POST"), path, data, dict(headers))
        answer = connection.getresponse()
        text = answer.read()
        return answer.status, answer.headers, json.loads(text) if text else None


def places_that_are_too_far():
    """In a table they are null, with their index and what a person is told; in a route they are refused as A and B."""
    with service() as address, chtab.Network.open(f"{COUNTRY}.gr", program=PROGRAM) as network:
        spots = network.snap(*zip(VADUZ, ESCHEN))
        weights = network.trip_table(spots, spots).tolist()
        status, _, found = ask(address, "/api/table", {"sources": [SEA, VADUZ, ESCHEN], "targets": [VADUZ, SEA, ESCHEN]})
        rows = [None, *([row[0], None, row[1]] for row in weights)]
        assert status == 200 and found["weights"] == rows, found
        metres = network.roads.find_any(*map(lambda part: [part], SEA)).metres[0]
        told = [(each["list"], each["index"], each["metres"], each["error"]) for each in found["faults"]]
        line = f"is {metres / 1000:.0f} km from the nearest road"
        assert told == [("sources", 0, round(metres, 1), f"sources[0] {line}"), ("targets", 1, round(metres, 1), f"targets[1] {line}")], told
        assert "faults" not in ask(address, "/api/table", {"sources": [VADUZ], "targets": [VADUZ]})[2]
        status, _, found = ask(address, "/api/table", {"sources": [SEA, SEA], "targets": [VADUZ]})
        assert (status, found["weights"], len(found["faults"])) == (200, [None, None], 2), found
        status, _, found = ask(address, "/api/table", {"sources": [VADUZ], "targets": [SEA]})
        assert (status, found["weights"]) == (200, [[None]]), found
        for body, told in (
            ({"from": SEA, "to": VADUZ}, f"A {line}"), ({"from": VADUZ, "to": SEA}, f"B {line}"), ({"from": SEA, "to": SEA}, f"A {line}; B {line}"),
        ):
            status, _, found = ask(address, "/api/route", body)
            assert (status, found) == (400, {"error": told}), found
        status, _, found = ask(address, "/api/reach", {"from": SEA, "limits": [1]})
        assert (status, found) == (400, {"error": f"A {line}"}), found
    for metres, text in (640.4, "640 m"), (999.6, "1 km"), (18_612, "18.6 km"), (99_960, "100 km"), (5_467_400, "5,467 km"), (0, "0 m"):
        assert snapping.length_text(metres) == text, (metres, snapping.length_text(metres))


def health_is_told_at_once():
    """Also while requests wait; where no more are taken the status is 503."""
    with mood(), service("--waiting", 2, program=STANDIN) as address, concurrent.futures.ThreadPoolExecutor(2) as clients:
        assert ask(address, "/health")[::2] == (200, {"status": "ready", "waiting": 0})
        body = {"from": VADUZ, "to": ESCHEN}
        with holding():
            waiting = [clients.submit(ask, address, "/api/route", body) for _ in range(2)]
            until(lambda: ask(address, "/health")[2]["waiting"] == 2)
            assert ask(address, "/health")[::2] == (503, {"status": "busy", "waiting": 2})
        assert [each.result()[0] for each in waiting] == [200, 200]
        assert ask(address, "/health")[::2] == (200, {"status": "ready", "waiting": 0})


def pages_of_other_sites_may_ask():
    """Only those that were named, or all; without the option none."""
    body, name = {"from": VADUZ, "to": ESCHEN}, "Access-Control-Allow-Origin"

    def allowed(address, origin, path="/api/route", body=body):
        return ask(address, path, body, headers={"Origin": origin})[1][name]

    with service("--cors", "https://a.example", "--cors", "https://b.example") as address:
        for origin, wanted in ("https://a.example", "https://a.example"), ("https://b.example", "https://b.example"), ("https://c.example", None):
            assert allowed(address, origin) == allowed(address, origin, "/health", None) == allowed(address, origin, "/api/route", {}) == wanted
            status, headers, _ = ask(address, "/api/route", method="OPTIONS", headers={"Origin": origin, "Access-Control-Request-Method": "POST"})
            assert (status, headers[name], headers["Vary"]) == (204, wanted, "Origin"), headers.items()
            assert headers["Access-Control-Allow-Headers"] == "Content-Type" and "POST" in headers["Access-Control-Allow-Methods"]
        assert ask(address, "/nothing", headers={"Origin": "https://a.example"})[0] == 404
        connection = http.client.HTTPConnection(address.hostname, address.port, timeout=PATIENCE)
        connection.request("GET", "/", headers={"Origin": "https://a.example"})
        assert connection.getresponse().headers[name] is None
        connection.close()
    with service("--cors", "*") as address:
        assert allowed(address, "https://c.example") == "*"
    with service() as address:
        assert allowed(address, "https://a.example") is None and ask(address, "/api/route", method="OPTIONS")[0] == 405


def until_closed(client):
    """What the service sends on a connection until it closes it."""
    client.settimeout(PATIENCE)
    found = b""
    with contextlib.suppress(ConnectionError):
        while part := client.recv(1 << 16):
            found += part
    return found


def clients_that_do_nothing_are_dropped():
    """One that sends nothing, half a head, a head a byte at a time, half a body, or a request and then nothing. One that waits for its
    answer is not."""
    body = json.dumps({"from": VADUZ, "to": ESCHEN}).encode()
    head = b"POST /api/route HTTP/1.1\r\nHost: x\r\nContent-Length: %d\r\n\r\n" % len(body)
    with mood(), service("--idle", IDLE, "--sending", IDLE, program=STANDIN) as address:
        def client(sent):
            connection = socket.create_connection((address.hostname, address.port))
            connection.sendall(sent)
            return connection

        begun = time.monotonic()
        with client(b"") as silent, client(head[:20]) as half, client(head) as without_body, client(head + body) as patient:
            with holding():
                assert until_closed(silent) == until_closed(half) == b"" and time.monotonic() - begun > 0.9 * IDLE
                found = until_closed(without_body)
                assert found.startswith(b"HTTP/1.1 408 ") and b"took too long to come" in found, found
            found = until_closed(patient)
            assert found.startswith(b"HTTP/1.1 200 ") and b"LineString" in found, found[:200]
        with client(head[:-2]) as slow:
            until(lambda: not takes_a_byte(slow))
            # It is no answer that closes it, such as one to a head that is too long.
            slow.settimeout(PATIENCE)
            with contextlib.suppress(ConnectionError):
                assert slow.recv(1) == b""


def takes_a_byte(client):
    """Whether the connection is open on which a byte more of a head is sent."""
    with contextlib.suppress(ConnectionError):
        client.sendall(b"X")
        time.sleep(0.25)
        return True
    return False


def ports_that_are_none():
    """A fault of the command line is a line, and no traceback."""
    for word in "99999", "-1", "x", "65536":
        line = [PYTHON, ROOT / "tools" / "page.py", "--program", PROGRAM, "--port", word, COUNTRY]
        done = subprocess.run(list(map(str, line)), capture_output=True, text=True)
        assert done.returncode == 2 and f"{word!r} is no port from 0 to 65535" in done.stderr and "Traceback" not in done.stderr, done
    told = command("page", "--program", PROGRAM, "--host", "none.invalid", COUNTRY, status=1)
    assert told.count("\n") == 1 and "Traceback" not in told, told


def many_clients_get_their_own_answers():
    """Fifty clients at once, each of whose answers is compared, in both forms; a kept connection serves many requests."""
    draw = random.Random("clients")
    with chtab.Network.open(f"{COUNTRY}.gr", program=PROGRAM) as network:
        known = network.coordinates.known()
        ends = [network.coordinates.of(draw.choice(known)) for _ in range(30)]
        spots = network.snap(*zip(*ends))
        wanted = network.trip_table(spots, spots).tolist()
        at = [[round(x, 6), round(y, 6)] for x, y in zip(spots.longitudes.tolist(), spots.latitudes.tolist())]

    def asked(draw, k, l):
        """A request, and what the value of its answer has to be like."""
        weight, kind = wanted[k][l] if wanted[k][l] >= 0 else None, draw.randrange(4)
        text = ";".join("{:.6f},{:.6f}".format(*ends[place]) for place in (k, l))
        if kind == 0:
            return ("POST", "/api/route", json.dumps({"from": ends[k], "to": ends[l]})), lambda value: value["properties"]["weight"] == weight
        if kind == 1:
            query = f"overview={draw.choice(['false', 'full'])}&steps={draw.choice(['true', 'false'])}"
            return ("GET", f"/route/v1/car/{text}?{query}"), lambda value: (
                value["code"] == "NoRoute" if weight is None
                else (value["routes"][0]["duration"], [each["location"] for each in value["waypoints"]]) == (weight / 1000, [at[k], at[l]])
            )
        if kind == 2:
            return ("GET", f"/nearest/v1/car/{text.split(';')[0]}"), lambda value: [each["location"] for each in value["waypoints"]] == [at[k]]
        return ("GET", f"/table/v1/car/{text}?sources=0"), lambda value: value["durations"] == [[0, None if weight is None else weight / 1000]]

    with service() as address:
        def work(seed):
            draw, wrong = random.Random(seed), 0
            connection = http.client.HTTPConnection(address.hostname, address.port, timeout=PATIENCE)
            with contextlib.closing(connection):
                for _ in range(20):
                    request, fits = asked(draw, draw.randrange(30), draw.randrange(30))
                    connection.request(*request)
                    wrong += not fits(json.loads(connection.getresponse().read()))
            return wrong

        with concurrent.futures.ThreadPoolExecutor(50) as clients:
            assert sum(clients.map(work, range(50))) == 0


def answers_end_where_they_say():
    """Requests that come together on one connection: each answer has as many bytes as it says, but one to HEAD has none. The connection is
    closed behind the last one, which is of HTTP 1.0."""
    path = b"/route/v1/car/%f,%f;%f,%f" % (*VADUZ, *ESCHEN)
    lines = b"HEAD %s HTTP/1.1\r\nHost: x", b"GET %s HTTP/1.1\r\nHost: x", b"GET %s HTTP/1.1\r\nHost: x\r\nConnection: keep-alive", b"GET %s HTTP/1.0"
    with service() as address, socket.create_connection((address.hostname, address.port)) as client:
        client.sendall(b"".join(line % path + b"\r\n\r\n" for line in lines))
        found = until_closed(client)
    texts = set()
    for line in lines:
        head, _, found = found.partition(b"\r\n\r\n")
        assert head.startswith(line.split()[2] + b" 200 OK\r\n") and b"\r\nX-Content-Type-Options: nosniff\r\n" in head, head
        size = int(re.search(rb"\r\nContent-Length: (\d+)\r\n", head)[1]) if line.startswith(b"GET") else 0
        texts.add(found[:size])
        found = found[size:]
    assert found == b"" and len(texts) == 2 and json.loads(max(texts))["code"] == "Ok", (found, texts)


class Stream:
    """A connection on which requests are sent as they are, and answers are read one by one."""

    def __init__(self, address, room=None):
        self.client = socket.socket()
        self.client.settimeout(PATIENCE)
        self.client.setsockopt(socket.IPPROTO_TCP, socket.TCP_NODELAY, 1)
        if room is not None:
            self.client.setsockopt(socket.SOL_SOCKET, socket.SO_RCVBUF, room)
        self.client.connect((address.hostname, address.port))
        self.file = self.client.makefile("rb")

    def send(self, *parts):
        """Sends parts of a request, each by itself."""
        for part in parts:
            self.client.sendall(part)
            if len(parts) > 1:
                time.sleep(PAUSE)

    def answer(self, has_body=True):
        """The status, the headers and the body of the next answer; None where the connection was closed."""
        status = self.file.readline().split()
        if not status:
            return None
        headers = http.client.parse_headers(self.file)
        return int(status[1]), headers, self.file.read(int(headers["Content-Length"])) if has_body else b""

    def close(self):
        self.file.close()
        self.client.close()


def each_form_of_a_request_has_the_same_answer():
    """Requests in one piece and in several, with and without a body: the answer has the same headers and the same body. What follows on the connection
    is answered too, and a body of a request is no request."""
    target = b"/route/v1/car/%f,%f;%f,%f?steps=true" % (*VADUZ, *ESCHEN)
    plain, wrong = b"GET %s HTTP/1.1\r\nHost: x\r\n\r\n" % target, b"GET %s&x=1 HTTP/1.1\r\nHost: x\r\n\r\n" % target
    middle = len(plain) // 2
    forms = (
        [plain.replace(b"Host: x", b"connection: keep-alive\r\nHOST:x")], [plain[:1], plain[1:]], [plain[:middle], plain[middle:]], [plain[:-1], plain[-1:]],
        [plain.replace(b";", b"%3B")], [plain.replace(b"GET /", b"GET http://x/")],
        [plain.replace(b"\r\n\r\n", b"\r\nContent-Length: 0\r\n\r\n")], [plain.replace(b"Host: x", b"Host: \xc3\xa4")],
        [plain.replace(b"\r\n\r\n", b"\r\nContent-Length: %d\r\n\r\n" % len(wrong)), wrong],
        [plain.replace(b"\r\n\r\n", b"\r\nTransfer-Encoding: chunked\r\n\r\n"), b"%x\r\n%s\r\n0\r\n\r\n" % (len(wrong), wrong)],
        [plain.replace(b"Host: x", b"Host: x\r\nX-Long: " + 20_000 * b"x")],
    )
    with service() as address:
        with contextlib.closing(Stream(address)) as stream:
            stream.send(plain)
            status, headers, body = stream.answer()
            assert status == 200 and json.loads(body)["code"] == "Ok", (status, body)
            stream.send(wrong)
            status, of_wrong, told = stream.answer()
            assert (status, json.loads(told)["code"]) == (400, "InvalidQuery"), (status, told)
        for form in forms:
            with contextlib.closing(Stream(address)) as stream:
                stream.send(*form)
                found = stream.answer()
                assert found[0] == 200 and found[2] == body and names_of(found[1]) == names_of(headers), (form, found)
                stream.send(plain)
                assert stream.answer()[2] == body, form
                stream.send(wrong)
                found = stream.answer()
                assert (found[0], found[2]) == (400, told) and names_of(found[1]) == names_of(of_wrong), (form, found)
        with contextlib.closing(Stream(address)) as stream:
            stream.send(plain.replace(b"Host: x", b"Connection: close"))
            assert stream.answer()[2] == body and stream.answer() is None


def names_of(headers):
    """The names of headers, and their values but for the time and the length."""
    return {name.lower(): value for name, value in headers.items() if name.lower() not in ("date", "content-length")}


def answers_come_in_the_order_of_requests():
    """While a request waits for its answer, further ones come on the same connection, together and in parts: none overtakes it."""
    target = b"/route/v1/car/%f,%f;%f,%f" % (*VADUZ, *ESCHEN)
    good, wrong, other = (text % target for text in (b"GET %s HTTP/1.1\r\n\r\n", b"GET %s?x=1 HTTP/1.1\r\n\r\n", b"PUT %s HTTP/1.1\r\nContent-Length: 0\r\n\r\n"))
    with mood("slow=1"), service(program=STANDIN) as address:
        for rest, wanted in ([wrong, wrong], [400, 400]), ([wrong + good, wrong], [400, 200, 400]), ([other, wrong], [405, 400]), ([wrong[:9], wrong[9:]], [400]):
            with contextlib.closing(Stream(address)) as stream:
                stream.send(good, *rest)
                found = [stream.answer()[0] for _ in range(1 + len(wanted))]
                assert found == [200, *wanted], (rest, found)


def a_client_that_takes_no_answers_is_held_up():
    """A client that sends more and more requests and takes no answer: the service reads no more of them, and answers all once the client does."""
    query = b"steps=true&overview=full&annotations=true&geometries=geojson"
    request = b"GET /route/v1/car/%f,%f;%f,%f?%s HTTP/1.1\r\n\r\n" % (*VADUZ, *ESCHEN, query)
    with service() as address, contextlib.closing(Stream(address, 4_096)) as stream:
        sent = 0
        while sent < MANY and answered_routes(address) == sent:
            stream.send(request)
            sent += 1
            # The answer to one request has room in any socket, so that it comes for certain, however late.
            latest = time.monotonic() + (PATIENCE if sent == 1 else 2)
            while answered_routes(address) < sent and time.monotonic() < latest:
                time.sleep(0.001)
        assert 1 < sent < MANY and {stream.answer()[0] for _ in range(sent)} == {200}, sent
        assert answered_routes(address) == sent


def answered_routes(address):
    """How many requests for routes the service has answered."""
    connection = http.client.HTTPConnection(address.hostname, address.port, timeout=PATIENCE)
    with contextlib.closing(connection):
        connection.request("GET", "/metrics")
        found = re.search(r'service="route",status="200"} (\d+)', connection.getresponse().read().decode())
    return int(found[1]) if found else 0


def the_loop_answers_for_a_moment_alone():
    """Questions that are answered together in the loop take less than its moment, also where each takes longer than those before; and more of them
    are answered together where each takes less. The CPU time of each thread is what the test says."""
    async def sizes(micros, count):
        """How many questions of so many microseconds were answered together, in the loop."""
        found, loop = [], threading.get_ident()

        def answered(questions):
            taken[threading.get_ident()] += micros[0] * 1e-6 * len(questions)
            if threading.get_ident() == loop:
                found.append(len(questions))
            return questions

        turns = queue.Turns(2, 10_000, 64)
        all_of_them = []
        for each in micros[1:]:
            micros[0] = each
            told = await asyncio.gather(*(turns.answer("x", queue.Task(answered, k, True, 1, True), lambda: False) for k in range(count)))
            assert told == list(range(count))
            all_of_them.append([*found])
            found.clear()
        turns.close()
        return all_of_them

    taken, clock = collections.Counter(), queue.time
    queue.time = types.SimpleNamespace(thread_time=lambda: taken[threading.get_ident()])
    try:
        first, then, last = asyncio.run(sizes([0, 500, 1_000, 10], 1_000))
    finally:
        queue.time = clock
    most = queue.MOMENT / 1e-3
    assert max(first) <= most / 0.5 and max(then[1:]) <= most and min(then[1:-1]) > 4, (first, then)
    assert max(last) == 64, last


def numbers_that_are_none_are_refused():
    """Numbers past any range, of hundreds of digits, and what JSON has no word for: each is a fault of the client's, with a line."""
    huge, place = "1" + "0" * 400, json.dumps(VADUZ)
    with service() as address:
        for path, body, told in (
            ("route", f'{{"from": [{huge}, 47], "to": {place}}}', "longitude of from"), ("route", f'{{"from": {place}, "to": [9, -{huge}]}}', "latitude of to"),
            ("route", f'{{"from": {place}, "to": [NaN, 47]}}', "longitude of to"), ("route", f'{{"from": {place}, "to": [1e999, 47]}}', "longitude of to"),
            ("table", f'{{"sources": [{place}], "targets": [{place}], "within": {huge}}}', "within"), ("reach", f'{{"from": {place}, "limits": [{huge}]}}', "a limit"),
            ("reach", f'{{"from": {place}, "limits": [-Infinity]}}', "a limit"), ("reach", f'{{"from": {place}, "limits": [true]}}', "a limit"),
            ("table", f'{{"sources": [{place}], "targets": [[9.5, {"9" * 5_000}]]}}', "JSON"),
        ):
            connection = http.client.HTTPConnection(address.hostname, address.port, timeout=PATIENCE)
            with contextlib.closing(connection):
                connection.request("POST", f"/api/{path}", body)
                answer = connection.getresponse()
                text = answer.read().decode()
                assert answer.status == 400 and told in json.loads(text)["error"], (body[:60], answer.status, text)


def what_the_library_lacks_is_told():
    """A service that is to answer by the library for C, and can't: it ends with status 1 and a line."""
    for words, told in (
        (["--library", "none.so", "--saved", FIRST_SAVED], "is not chtab's library for C"), (["--library", make(), "--saved", FIRST_SAVED], "saved"),
    ):
        line = [PYTHON, ROOT / "tools" / "page.py", "--port", 0, "--program", PROGRAM, COUNTRY, *words]
        done = subprocess.run(list(map(str, line)), capture_output=True, text=True, timeout=PATIENCE)
        assert done.returncode == 1 and told in done.stderr and "Traceback" not in done.stderr and not done.stdout, (words, done)


def tiles_have_each_road_that_is_near():
    """Tiles of each zoom have the pieces of roads in them and near them, each by its kind, also long ones."""
    draw = random.Random("tiles")
    places = [(draw.gauss(10, wide), draw.gauss(50, wide)) for wide in draw.choices((0.002, 0.05, 2), k=300)]
    pairs = [(one, draw.choice((draw.randint(1, 300), one % 300 + 1))) for one in range(1, 301) for _ in range(2)]
    metres = [on_sphere(places[one - 1], places[other - 1]) for one, other in pairs]
    arcs = [(*pair, round(length * 3.6 / draw.uniform(3, 130) * 1000)) for pair, length in zip(pairs, metres)]
    write_network("far", places, arcs, "c Roads for cars, by hand.\nc Weights are milliseconds.\n")
    with chtab.Network.open("far.gr", program=PROGRAM) as network:
        drawn, roads = tiles.Tiles(network.roads, True), network.roads
        wanted = [[] for _ in tiles.KINDS]
        for road, (forward, backward, length) in enumerate(zip(roads.forward.tolist(), roads.backward.tolist(), roads.lines.metres.tolist())):
            speed = length * 3600 / max(1, min(weight for weight in (forward, backward) if weight >= 0))
            kind = max(place for place, (least, *_) in enumerate(tiles.KINDS) if speed >= least)
            wanted[kind].append(tiles.world(roads.lines.of(road)).reshape(-1))
        assert all(len(own) > 20 for own in wanted), [*map(len, wanted)]
        counts = collections.Counter()
        for zoom in (0, 3, 6, 9, 12, 13, 14, 17) * 12:
            corner = numpy.floor(tiles.world(numpy.array([draw.choice(places)])) * 2**zoom)[0].astype(int)
            for kind, own in enumerate(wanted):
                ends = numpy.array(own) * 2.0**zoom - numpy.tile(corner, 2)
                low, high = numpy.minimum(ends[:, :2], ends[:, 2:]), numpy.maximum(ends[:, :2], ends[:, 2:])
                near = ends[((low <= 1 + 8 / 256) & (high >= -8 / 256)).all(axis=1)]
                found = drawn.near(kind, zoom, corner)
                assert sorted(map(tuple, found.round(6).tolist())) == sorted(map(tuple, near.round(6).tolist())), (zoom, corner, kind)
                counts[zoom] += len(near)
        assert min(counts.values()) > 0, counts


SERVICE = "python3-aiohttp", "python3-numpy", "python3-scipy", "python3-shapely", "libjs-leaflet"
GROUPS = (
    (SERVICE, [
        tiles_have_each_road_that_is_near,
        health_is_told_at_once, answers_end_where_they_say, clients_that_do_nothing_are_dropped, ports_that_are_none, what_the_library_lacks_is_told,
        the_loop_answers_for_a_moment_alone, answers_come_in_the_order_of_requests,
        each_form_of_a_request_has_the_same_answer, a_client_that_takes_no_answers_is_held_up,
        places_that_are_too_far, pages_of_other_sites_may_ask, many_clients_get_their_own_answers, numbers_that_are_none_are_refused,
    ]),
)

if __name__ == "__main__":
    running.build()
    run_checks(GROUPS)
