#!/usr/bin/python3
"""Tests the service under load and as a process of the system: many clients, each of whose answers is compared, also while speeds change; slow and
half-open clients, an address that asks for more than its share, several processes behind one port, how it ends, what it counts and logs, and what
stands before it: nginx and systemd.

  load.py [SECONDS]

Clients ask for SECONDS (10). A check that needs a missing package is named and left out. The last line is 'N passed, N failed'.
"""
import collections
import concurrent.futures
import contextlib
import http.client
import json
import os
import pathlib
import random
import re
import shutil
import signal
import socket
import subprocess
import sys
import threading
import time
import urllib.parse

from helpers import running
from helpers.in_process import make
from helpers.known_answers import EACH, KINDS, Client, Request, Requests, Right, asked_alone
from helpers.moods import STANDIN, holding, mood
from helpers.packages import PYTHON, run_checks
from helpers.running import PROGRAM, ROOT
from helpers.serving import COUNTRY, SERVICE, ask, faulty_service, send, service, waiting_at
from helpers.waiting import PATIENCE, until
from helpers.ways import saved_for
from oracles.telling import metres

sys.path.insert(0, str(ROOT / "python"))

import chtab  # noqa: E402
from chtab import files  # noqa: E402

VADUZ, ESCHEN = [9.5209, 47.1410], [9.5450, 47.2200]
ROUTE = "/route/v1/car/9.5209,47.1410;9.5450,47.2200"
SECONDS = 10.0
# How many clients ask, and how many answers they have to have at least: with these the memory of the service is as large as it gets.
CLIENTS, MANY = 50, 2_000


def processes_below(number):
    """The numbers of all processes below one."""
    children = subprocess.run(["ps", "-o", "pid=", "--ppid", str(number)], capture_output=True, text=True).stdout.split()
    return [each for child in map(int, children) for each in (child, *processes_below(child))]


def living_below(number):
    return [each for each in processes_below(number) if name_of(each)]


def runs_below(number):
    """The runs of the program below a process."""
    return [each for each in processes_below(number) if name_of(each) == "chtab"]


def name_of(number):
    """The name of a process that lives; None where it has ended, also if nobody has asked how."""
    with contextlib.suppress(OSError):
        name, _, rest = pathlib.Path(f"/proc/{number}/stat").read_text().partition("(")[2].rpartition(")")
        return None if rest.split()[0] in "ZX" else name


def memory_of(numbers):
    """Bytes that processes hold and share with none, so that what they share is not counted for each."""
    total = 0
    for number in numbers:
        with contextlib.suppress(OSError):
            text = pathlib.Path(f"/proc/{number}/smaps_rollup").read_text()
            total += 1024 * sum(int(size) for size in re.findall(r"^Private_\w+:\s+(\d+) kB$", text, re.MULTILINE))
    return total


class Clients:
    """Clients that ask at once, until some seconds have gone by and there are as many answers as they have to have at least: what was answered that is
    not what is known, and of each kind of request how many were asked."""

    def __init__(self, address, known, seconds, least):
        self.address, self.known, self.latest, self.least = address, known, time.monotonic() + seconds, least
        self.asked, self.counts, self.wrong, self.lock = list(known), collections.Counter(), [], threading.Lock()

    @property
    def count(self):
        return self.counts.total()

    def is_over(self):
        return time.monotonic() > self.latest and self.count > self.least

    def work(self, seed):
        draw, client = random.Random(seed), Client(self.address)
        while not self.is_over():
            request = draw.choice(self.asked)
            status, text = client.send(request)
            with self.lock:
                self.counts[request.kind] += 1
                self.wrong += [] if (status, text) == (200, self.known[request]) else [(request, status, text[:500], self.known[request][:500])]
        client.close()


@contextlib.contextmanager
def idle_clients(address, count=20):
    """Clients that send half a request and no more, and others that ask for much and read nothing."""
    halves = [socket.create_connection((address.hostname, address.port)) for _ in range(count)]
    for place, client in enumerate(halves):
        request = f"GET {ROUTE}?overview=full&annotations=true HTTP/1.1\r\nHost: x\r\n\r\n".encode()
        with contextlib.suppress(OSError):
            client.sendall(request[:place] if place % 2 else request * 20)
    try:
        yield
    finally:
        for client in halves:
            client.close()


def known_in_country():
    """What is right for requests of all kinds in the country."""
    with chtab.Network.open(f"{COUNTRY}.gr", program=PROGRAM) as network:
        return Right(Requests(network, COUNTRY, "load"))


def fifty_clients(*words):
    """No answer is another one than that to the same request alone, which was compared with what is right; none is lost, and memory is steady from half
    of the time on."""
    with service(COUNTRY) as (_, address):
        known = asked_alone(address, known_in_country())
    assert len(known) > 200 and len({*known.values()}) > 0.9 * len(known), "hardly two requests have the same answer"
    # The service that many ask has kept nothing yet.
    with service(COUNTRY, *words) as (child, address), concurrent.futures.ThreadPoolExecutor(CLIENTS) as clients:
        with idle_clients(address):
            asking = Clients(address, known, SECONDS, MANY)
            working = [clients.submit(asking.work, seed) for seed in range(CLIENTS)]
            for part in 1, 2:
                until(lambda: time.monotonic() > asking.latest - SECONDS + part * SECONDS / 4 and asking.count > part * MANY / 4)
                assert not runs_below(child.pid)
            held = memory_of(own := [child.pid, *processes_below(child.pid)])
            for each in working:
                each.result()
        assert not asking.wrong and asking.count > MANY and min(asking.counts[kind] for kind in KINDS) > MANY / 100, (asking.counts, asking.wrong[:3])
        assert memory_of([child.pid, *processes_below(child.pid)]) < 1.1 * held + 16e6 * (1 + len(own) / 2), held


class Traffic:
    """Two files of speeds for a copy of the country, whose nodes have numbers of a map, and what is right by each of them."""

    def __init__(self, seed):
        draw = random.Random(seed)
        for suffix in "gr", "co":
            shutil.copy(f"{COUNTRY}.{suffix}", f"net.{suffix}")
        with chtab.Network.open("net.gr", program=PROGRAM) as network:
            self.requests = Requests(network, "net", seed)
        arcs, nodes = self.requests.arcs, self.requests.nodes
        numbers = draw.sample(range(10**9, 10**10), len(nodes))
        pathlib.Path("net.nodes").write_text("".join(f"{number}\n" for number in numbers))
        self.rights, self.answers = {}, {}
        for name in "slow", "fast":
            pairs = {pair: draw.uniform(3, 130) for pair in ((tail, head) for tail, head, _ in arcs) if draw.random() < 0.9}
            lines = [f"{numbers[tail - 1]},{numbers[head - 1]},{speed!r}" for (tail, head), speed in pairs.items()]
            # What behind the speed, lines of no road, and an earlier line of the same piece count for nothing.
            lines = [f"{lines[0].rpartition(',')[0]},7", "1,2,50", f"{numbers[0]},5,50,1.5", *(line + draw.choice(("", ",1.5")) for line in lines)]
            pathlib.Path(name).write_text("".join(f"{line}\n" for line in lines))
            weights = []
            for tail, head, weight in arcs:
                length = metres(nodes[tail], nodes[head])
                weights.append((round(length * 3600 / pairs[tail, head]) or 1) if (tail, head) in pairs and length else weight)
            self.rights[name] = Right(self.requests, weights, numbers)

    def put(self, name):
        """Puts a file in the place of the one that the service reads."""
        shutil.copy(name, "speeds.new")
        os.replace("speeds.new", "speeds.csv")

    def ask_alone(self):
        """Asks a service for each file alone, and compares its answers with what is right by this file."""
        for name, right in self.rights.items():
            with service("net", "--segment-speed-file", name) as (_, address):
                self.answers[name] = asked_alone(address, right)
        slow, fast = self.answers.values()
        places = [request for request in slow if request.kind in ("nearest", "one road")]
        assert all(slow[request] == fast[request] for request in places) and sum(slow[request] != fast[request] for request in slow) > 0.9 * (len(slow) - len(places))
        for kind in "lone", "distances", "large", "api route":
            assert sum(self.metres(slow, request) != self.metres(fast, request) for request in slow if request.kind == kind) > EACH / 2, kind

    def metres(self, answers, request):
        """The metres of an answer."""
        return re.findall(rb'"(?:distance|metres)": [\d.]+|"distances": [^"]*', answers[request])

    def fitting(self, request, answer):
        """The files with whose speeds an answer is right."""
        return [name for name, answers in self.answers.items() if answer == (200, answers[request])]


def fifty_clients_while_speeds_change(*words):
    """Speeds are exchanged while fifty clients ask: none fails, each answer is right for one file, and after an exchange no answer is by the file before."""
    traffic = Traffic("traffic")
    traffic.ask_alone()
    traffic.put("slow")
    asked, seen, wrong, lock, ended = traffic.requests.every, collections.Counter(), [], threading.Lock(), threading.Event()
    # The file whose speeds each answer has to have once the exchange is over; None while either will do, as where several processes exchange.
    due = [None]

    def work(address, seed):
        draw, client = random.Random(seed), Client(address)
        while not ended.is_set():
            request, before = draw.choice(asked), due[0]
            answer = client.send(request)
            fits = traffic.fitting(request, answer)
            with lock:
                seen.update(fits)
                if not fits or before == due[0] and before not in (None, *fits):
                    wrong.append((request, before, fits, answer[0], answer[1][:500]))
        client.close()

    def is_by(address, name):
        """Whether each process answers by a file: requests of each kind in turn, each on a connection of its own."""
        for kind in KINDS:
            for request in random.Random(kind).sample([each for each in asked if each.kind == kind], 3 if words else 1):
                client = Client(address)
                fits = traffic.fitting(request, client.send(request))
                client.close()
                if name not in fits:
                    return False
        return True

    with service("net", "--segment-speed-file", "speeds.csv", *words) as (child, address), concurrent.futures.ThreadPoolExecutor(CLIENTS) as clients:
        assert is_by(address, "slow")
        working = [clients.submit(work, address, seed) for seed in range(CLIENTS)]
        try:
            for turn in range(4):
                name, before = ("fast", "slow")[turn % 2], seen.total()
                if turn % 3 == 2:
                    pathlib.Path("speeds.csv").write_bytes(pathlib.Path(name).read_bytes())
                    child.send_signal(signal.SIGHUP)
                else:
                    traffic.put(name)
                until(lambda: is_by(address, name))
                due[0] = None if words else name
                until(lambda: seen.total() > before + MANY / 10)
                due[0] = None
        finally:
            ended.set()
        for each in working:
            each.result(PATIENCE)
    assert not wrong and min(seen["slow"], seen["fast"]) > MANY / 20, (seen, len(wrong), wrong[:3])
    assert "Traceback" not in open("told").read(), open("told").read()


def also_speeds_of_several_processes():
    fifty_clients_while_speeds_change("--processes", "3")


def also_by_several_processes():
    fifty_clients("--processes", "3")


def an_address_takes_its_share():
    """One address with many requests keeps no other waiting: those of others that come later are answered before its last ones. With a proxy it is the
    client that the proxy names."""
    others = "127.0.0.2", "127.0.0.4", "10.1.0.1", "10.1.1.1"
    # Each question takes so long that their order does not depend on which thread the system lets go on first.
    with faulty_service("slow=0.2", "--waiting", "12", "--proxy", "127.0.0.3", "--log", "access.log") as (_, address):
        def trip(place):
            # Trips are never answered together: what is underway makes no room.
            return f"/trip/v1/car/{9.52 + place / 1000:.3f},47.1410;9.5450,47.2200?overview=false"

        def greedy(place):
            return Client(address, "127.0.0.1").send(Request("trip", (), trip(place)))[0]

        def other(client):
            source, headers = (client, {}) if client.startswith("127.") else ("127.0.0.3", {"X-Forwarded-For": f"10.0.0.9, {client}"})
            return Client(address, source).send(Request("trip", (), trip(30)), headers)[0]

        with concurrent.futures.ThreadPoolExecutor(40) as clients:
            waiting = []
            with holding():
                asking = [clients.submit(greedy, place) for place in range(30)]
                # As many wait as may, and each request of another takes the place of one of them.
                until(lambda: sum(each.done() for each in asking) == 18)
                for count, client in enumerate(others, 1):
                    waiting.append(clients.submit(other, client))
                    until(lambda: sum(each.done() for each in asking) == 18 + count)
            found = [each.result() for each in asking]
            assert [each.result() for each in waiting] == [200] * 4 and sorted(found) == [200] * 8 + [503] * 22, found
    answered = re.findall(r'^\S+ (\S+) "[^"]*" 200 ', open("access.log").read(), re.MULTILINE)
    # The run is asked by two threads, of which either may be the next, so that the order is not quite that of turns.
    assert sorted(answered) == sorted([*others, *["127.0.0.1"] * 8]) and set(others) <= set(answered[:10]), answered


def it_ends_once_it_has_answered():
    """SIGTERM lets requests underway come to their answers, takes no more, and ends with status 0; so do several processes."""
    for words in (), ("--processes", "2"):
        with mood(), service(COUNTRY, *words, "--ending", 2 * PATIENCE, program=STANDIN) as (child, address), concurrent.futures.ThreadPoolExecutor(8) as clients:
            # A client that does nothing holds nobody up.
            with socket.create_connection((address.hostname, address.port)):
                with holding():
                    waiting = [clients.submit(ask, address, f"{ROUTE}?overview=false") for _ in range(4)]
                    until(lambda: waiting_at(address) == 4)
                    child.send_signal(signal.SIGTERM)
                    until(lambda: not answers(address))
                assert [each.result()[0] for each in waiting] == [200] * 4
                assert child.wait(PATIENCE) == 0, words
            assert open("told").read() == "", open("told").read()
            assert not answers(address), "it still answers"


def answers(address):
    """Whether a service answers at an address."""
    with contextlib.suppress(ConnectionError, http.client.RemoteDisconnected):
        return ask(address, "/health")[0] in (200, 503)
    return False


def processes_are_begun_anew():
    """A process that is killed is replaced; those of a first process that is killed end; one network that is refused ends all with a line."""
    with service(COUNTRY, "--processes", "2") as (child, address):
        first, second = (number for number in processes_below(child.pid) if name_of(number) != "chtab")
        os.kill(first, signal.SIGKILL)
        count = 2
        until(lambda: first not in (below := living_below(child.pid)) and len(below) == count)
        assert all(ask(address, f"{ROUTE}?overview=false")[0] == 200 for _ in range(10))
        assert "is restarted" in open("told").read()
        below = living_below(child.pid)
        assert second in below and len(below) == count, below
        child.kill()
        until(lambda: not any(name_of(number) for number in below))
    pathlib.Path("none.ch").write_text("what?\n")
    words = [PYTHON, ROOT / "tools" / "page.py", "--port", 0, "--processes", 2, "--program", PROGRAM, "--saved", "none.ch", COUNTRY]
    done = subprocess.run(list(map(str, words)), capture_output=True, text=True, timeout=PATIENCE)
    assert done.returncode == 1 and "saved" in done.stderr and "Traceback" not in done.stderr and not done.stdout, done


def the_library_answers_where_it_fits():
    """The one beside the program, in each process, with no run of the program below; `--pipe` of version 1.1 has no effect."""
    os.mkdir("beside")
    shutil.copy(PROGRAM, "beside/chtab")
    shutil.copy(make(), "beside/libchtab.so.1")
    saved = "--saved", saved_for(f"{COUNTRY}.gr")
    for words in saved, ("--library", *saved), ("--library", make()), (*saved, "--processes", 2), (*saved, "--pipe"), ("--workers", 2), ():
        with service(COUNTRY, *words, program="beside/chtab") as (child, address):
            assert ask(address, f"{ROUTE}?overview=false")[0] == 200 and not runs_below(child.pid), words
            text = send(address, "/metrics")[2].decode()
            assert f"\nchtab_engines {len(processes_below(child.pid)) or 1}\n" in text, text
    os.remove("beside/libchtab.so.1")
    line = [PYTHON, ROOT / "tools" / "page.py", "--program", "beside/chtab", COUNTRY]
    done = subprocess.run(list(map(str, line)), capture_output=True, text=True)
    assert done.returncode == 1 and "`packaging/library` makes it" in done.stderr, done


def the_library_answers_for_networks_with_names():
    """With their saved hierarchies, where they are beside them, and without."""
    os.mkdir("beside")
    shutil.copy(PROGRAM, "beside/chtab")
    shutil.copy(make(), "beside/libchtab.so.1")
    for suffix in "gr", "co":
        shutil.copy(f"{COUNTRY}.{suffix}", f"roads.{suffix}")
    for _ in range(2):
        with service(None, "--network", "car=roads", program="beside/chtab") as (child, address):
            assert ask(address, f"{ROUTE}?overview=false")[0] == 200 and not runs_below(child.pid)
        shutil.copy(saved_for(f"{COUNTRY}.gr"), "roads.ch")


def what_takes_too_long_is_broken_off():
    """The library is asked in parts, and its time is looked at between them: a client is told, and the next one has its answer."""
    coordinates, draw = files.read_coordinates(f"{COUNTRY}.co"), random.Random("too long")
    many = ";".join("{:.6f},{:.6f}".format(*coordinates.of(node)) for node in draw.choices(coordinates.known(), k=4_000))
    words = "--library", make(), "--saved", saved_for(f"{COUNTRY}.gr"), "--max-viaroute-size", 4_000
    with service(COUNTRY, *words, "--timeout", "0.001") as (_, address):
        status, value = ask(address, f"/route/v1/car/{many}?overview=false")
        assert (status, value.get("message")) == (504, "the answer took too long"), (status, str(value)[:200])
        until(lambda: ask(address, f"{ROUTE}?overview=false")[0] == 200)
    with service(COUNTRY, *words) as (_, address):
        status, value = ask(address, f"/route/v1/car/{many}?overview=false")
        assert status == 200 and len(value["routes"][0]["legs"]) == 3_999
    assert open("told").read() == "", open("told").read()


def requests_are_counted_and_logged():
    """Metrics are text that Prometheus' own library reads, summed over processes; each request is a line of the log, and no line is two."""
    from prometheus_client.parser import text_string_to_metric_families

    with service(COUNTRY, "--processes", "2", "--log", "access.log") as (_, address):
        for path in [f"{ROUTE}?overview=false"] * 6 + [f"{ROUTE}?steps=perhaps"] * 3 + ["/nothing", "/table/v1/car/9.5,47.1;9.6,47.2", "/health%0aforged"]:
            send(address, path)
        send(address, "/api/route", {"from": VADUZ, "to": ESCHEN})
        _, headers, text = send(address, "/metrics")
        found = {(one.name, *sorted(one.labels.items())): one.value for family in text_string_to_metric_families(text.decode()) for one in family.samples}
        assert headers["Content-Type"].startswith("text/plain; version=0.0.4")

        def count(service_name, status):
            return found["chtab_requests_total", ("service", service_name), ("status", str(status))]

        assert (count("route", 200), count("route", 400), count("table", 200), count("api", 200), count("page", 404)) == (6, 3, 1, 1, 2), found
        for name, requests in ("route", 9), ("table", 1), ("api", 1):
            labels = ("service", name)
            ranges = [value for key, value in found.items() if key[0] == "chtab_request_seconds_bucket" and labels in key]
            assert len(ranges) == 16 and ranges == sorted(ranges) and ranges[-1] == requests == found["chtab_request_seconds_count", labels], (name, ranges)
            assert 0 < found["chtab_request_seconds_sum", labels] < 60
        assert found["chtab_refusals_total", ("reason", "InvalidQuery")] == 3 and found["chtab_refusals_total", ("reason", "page")] == 2, found
    lines = open("access.log").read().splitlines()
    form = re.compile(r'\d{4}-\d\d-\d\dT\d\d:\d\d:\d\dZ 127\.0\.0\.1 "(GET|POST) \S+" \d{3} \d+ \d+\.\d( "\w+: [^"]+")?')
    assert len(lines) == 14 and all(map(form.fullmatch, lines)), lines
    assert sum(line.endswith('"InvalidQuery: steps: one of false, true"') for line in lines) == 3, lines
    assert sum(f'"GET {ROUTE}?overview=false" 200' in line for line in lines) == 6 and sum("/health%0aforged" in line for line in lines) == 1


def free_ports(count):
    """Ports that nobody listens on."""
    with contextlib.ExitStack() as stack:
        return [stack.enter_context(socket.create_server(("127.0.0.1", 0))).getsockname()[1] for _ in range(count)]


def listens(port):
    with socket.socket() as client:
        return client.connect_ex(("127.0.0.1", port)) == 0


def what_nginx_does_itself(through, path, wanted, plain):
    """Compression, HTTP/2, version 6 of IP, the way from port 80 to TLS, and what it refuses itself, in JSON."""
    assert through(f"{path}?overview=full", "-6", host="[::1]") == (200, wanted)
    assert through(f"{path}?overview=full", "-w", "\n%{http_version}\n%{http_code}")[1].rpartition("\n")[2] == "2"
    sizes = [int(through(f"{path}?overview=full&geometries=geojson&steps=true", "-o", "/dev/null", "-w", "%{size_download}\n%{http_code}", *words)[1])
             for words in ((), ("-H", "Accept-Encoding: gzip"))]
    assert sizes[1] < sizes[0] / 3, sizes
    assert through(f"{path}?overview=full", "--compressed") == (200, wanted)
    line = ["curl", "-s", "-o", "/dev/null", "-w", "%{http_code} %{redirect_url}", "-H", "Host: routes.example.org", f"http://127.0.0.1:{plain}{path}"]
    assert subprocess.run(line, capture_output=True, text=True).stdout == f"308 https://routes.example.org{path}"
    for told, words, status in ("1,048,576 bytes", ("--data-binary", "@large"), 413), ("too long", ("-H", "x: " + "a" * 60_000, "--http1.1"), 400):
        pathlib.Path("large").write_bytes(b" " * 2_000_000)
        found, body = through("/api/route", *words)
        value = json.loads(body)
        assert (found, set(value)) == (status, {"error", "code", "message"}) and told in value["error"] == value["message"], (found, body)
    _, body = through("/health?[1-1500]", "-w", "\n%{http_code}")
    statuses = collections.Counter(re.findall(r"\n(\d{3})", body))
    assert set(statuses) <= {"200", "429"} and statuses["429"] > 10 and body.count("too many requests from your address") >= statuses["429"], statuses


def nginx_stands_before_it():
    """The page of nginx passes on addresses as they came, tells the clients apart, and keeps the counts to itself."""
    text = (ROOT / "packaging" / "nginx.conf").read_text()
    subprocess.run(
        ["openssl", "req", "-x509", "-newkey", "rsa:2048", "-nodes", "-keyout", "key.pem", "-out", "cert.pem", "-days", "2", "-subj", "/CN=routes.example.org"],
        check=True, capture_output=True,
    )
    port, plain = free_ports(2)
    with service(COUNTRY, "--proxy", "127.0.0.1", "--log", "access.log") as (child, address):
        here = os.getcwd()
        # However slowly the many requests come below, most of them are too many.
        assert "rate=100r/s" in text
        text = text.replace("rate=100r/s", "rate=1r/s")
        for old, new in ("127.0.0.1:8080", f"127.0.0.1:{address.port}"), ("listen 443 ssl http2", f"listen 127.0.0.1:{port} ssl http2"), \
                ("listen [::]:443 ssl http2", f"listen [::1]:{port} ssl http2"), ("listen 80;", f"listen 127.0.0.1:{plain};"), ("listen [::]:80;", ""), \
                ("/etc/ssl/CERTIFICATE.pem", f"{here}/cert.pem"), ("/etc/ssl/KEY.pem", f"{here}/key.pem"):
            assert old in text
            text = text.replace(old, new)
        pathlib.Path("site.conf").write_text(text)
        pathlib.Path("nginx.conf").write_text(
            f"daemon off; pid {here}/nginx.pid; error_log {here}/error.log;{' user root;' * (os.getuid() == 0)}\nevents {{}}\nhttp {{ access_log off; "
            + "".join(f"{kind}_temp_path {here}/{kind}; " for kind in ("client_body", "proxy", "fastcgi", "uwsgi", "scgi")) + f"include {here}/site.conf; }}\n"
        )
        assert subprocess.run(["/usr/sbin/nginx", "-t", "-q", "-c", f"{here}/nginx.conf"]).returncode == 0
        server = subprocess.Popen(["/usr/sbin/nginx", "-c", f"{here}/nginx.conf"])
        try:
            until(lambda: server.poll() is not None or listens(port))
            assert server.poll() is None, open("error.log").read()

            def through(path, *words, host="127.0.0.1"):
                line = ["curl", "-sk", "--path-as-is", "-w", "\n%{http_code}", "--resolve", f"routes.example.org:{port}:{host}", *words]
                done = subprocess.run([*line, f"https://routes.example.org:{port}{path}"], capture_output=True, text=True, check=True)
                body, _, status = done.stdout.rpartition("\n")
                return int(status), body

            wanted = send(address, f"{ROUTE}?overview=full")[2].decode()
            encoded = ROUTE.replace(";", "%3B").replace(",", "%2C")
            assert through(f"{encoded}?overview=full", "-H", "X-Forwarded-For: 10.9.9.9") == (200, wanted)
            many = ";".join(f"{VADUZ[0] + place / 100_000:.6f},{VADUZ[1]:.6f}" for place in range(500))
            status, body = through(f"/route/v1/car/{many}?overview=false")
            assert status == 200 and len(json.loads(body)["routes"][0]["legs"]) == 499
            assert through("/metrics")[0] == 403 and through("/health")[0] == 200 and through("/")[0] == 200
            what_nginx_does_itself(through, encoded, wanted, plain)
            child.terminate()
            child.wait(PATIENCE)
            # It takes a request a second once there were too many.
            status, body = until(lambda: (found := through("/health"))[0] != 429 and found)
            assert status == 503 and "does not answer" in json.loads(body)["message"], (status, body)
        finally:
            server.terminate()
            server.wait(PATIENCE)
        assert "10.9.9.9" not in open("access.log").read() and encoded in open("access.log").read()


def units_are_some_of_systemd():
    """systemd finds nothing wrong with the units, thinks them well kept apart, and their commands are some that the tool knows."""
    with open("roads.ch", "wb") as saved:
        subprocess.run([PROGRAM, "save", "--deep", f"{COUNTRY}.gr"], check=True, stdout=saved)
    for source, name in ("chtab-page.service", "chtab-page.service"), ("chtab-page@.service", "chtab-page@roads.service"):
        text = (ROOT / "packaging" / source).read_text()
        [command] = re.findall(r"^ExecStart=(.*)$", text, re.MULTILINE)
        assert "\nType=notify\n" in text
        check_unit(text.replace(command.split()[0], "/usr/bin/python3").replace("Documentation=man:chtab-page(1)\n", ""), name)
        check_command(command.replace("%i", "roads").split()[1:])
    # After a reboot only enabled units are started: the recipe of a new map leaves the old one out.
    for page in ROOT / "packaging" / "chtab-page@.service", ROOT / "docs" / "OPERATING.md":
        steps = re.findall(r"systemctl (.*?)(?= &&|$)", page.read_text(), re.MULTILINE)
        recipe = [step for step in steps if "@NEW" in step or "disable" in step]
        assert recipe == [
            "start chtab-page@NEW", "disable --now chtab-page@OLD", "enable chtab-page@NEW",
        ], (page, steps)


def check_unit(text, name):
    pathlib.Path(name).write_text(text)
    done = subprocess.run(["systemd-analyze", "verify", f"./{name}"], capture_output=True, text=True)
    assert done.returncode == 0 and "chtab-page" not in done.stderr, done
    done = subprocess.run(["systemd-analyze", "security", "--offline=yes", "--threshold=30", f"./{name}"], capture_output=True, text=True)
    assert done.returncode == 0, done.stdout[-300:]


def check_command(words):
    words = [COUNTRY if word == "/var/lib/chtab/roads" else "roads.ch" if word.endswith(".ch") else word for word in words]
    line = [PYTHON, ROOT / "tools" / "page.py", "--port", 0, "--program", PROGRAM, *words]
    child = subprocess.Popen(list(map(str, line)), stdout=subprocess.PIPE, text=True)
    try:
        address = urllib.parse.urlsplit(child.stdout.readline().strip())
        assert ask(address, ROUTE)[0] == 200
        assert f'"GET {ROUTE}" 200' in child.stdout.readline()
    finally:
        child.terminate()
        assert child.wait(PATIENCE) == 0


GROUPS = (
    ((*SERVICE, "python3-polyline"), [fifty_clients, also_by_several_processes, fifty_clients_while_speeds_change, also_speeds_of_several_processes]),
    (SERVICE, [
        processes_are_begun_anew, an_address_takes_its_share,
        it_ends_once_it_has_answered, the_library_answers_where_it_fits, the_library_answers_for_networks_with_names, what_takes_too_long_is_broken_off,
    ]),
    ((*SERVICE, "python3-prometheus-client"), (requests_are_counted_and_logged,)),
    ((*SERVICE, "nginx", "openssl", "curl"), [nginx_stands_before_it]),
    ((*SERVICE, "systemd"), [units_are_some_of_systemd]),
)

if __name__ == "__main__":
    SECONDS = float(sys.argv[1]) if len(sys.argv) > 1 else SECONDS
    running.build()
    run_checks(GROUPS)
