"""The service of a network, as a process of its own, what it answers, and its page in a browser."""
import contextlib
import http.client
import json
import os
import pathlib
import re
import resource
import signal
import socket
import subprocess
import urllib.parse

from helpers.maps import COUNTRY, town, town_at_a_cost
from helpers.moods import STANDIN, mood
from helpers.packages import PYTHON
from helpers.running import PROGRAM, ROOT
from helpers.waiting import PATIENCE
from helpers.ways import saved_for

# Debian's packages that the service needs, and a browser for its page.
SERVICE = "python3-aiohttp", "python3-numpy", "python3-scipy", "python3-shapely", "libjs-leaflet"
BROWSER = *SERVICE, "python3-selenium", "chromium", "chromium-driver"


class Keys:
    """Keys without a letter, as WebDriver numbers them."""

    BACKSPACE, TAB, ENTER, ESCAPE, DELETE = "\ue003", "\ue004", "\ue007", "\ue00c", "\ue017"
    ARROW_LEFT, ARROW_UP, ARROW_RIGHT, ARROW_DOWN = "\ue012", "\ue013", "\ue014", "\ue015"


# Whether services are those of the town, and of the one where turns cost time.
IS_IN_TOWN = IS_AT_A_COST = False


def here():
    """The start of the names of the files of the network that checks ask: those of the country, or
    of the town."""
    return town_at_a_cost() if IS_AT_A_COST else town() if IS_IN_TOWN else COUNTRY


def words_of_library(out, program):
    """The words that give a service a hierarchy of its network, so that it builds none."""
    saved = saved_for(f"{out}.gr") if program == PROGRAM else None
    return [] if saved is None else ["--saved", saved]


def in_town(check, at_a_cost=False):
    """A check with services of the town."""
    def there():
        global IS_IN_TOWN, IS_AT_A_COST
        IS_IN_TOWN, IS_AT_A_COST = True, at_a_cost
        try:
            check()
        finally:
            IS_IN_TOWN = IS_AT_A_COST = False

    there.__name__ = f"{check.__name__}_in_town{'_at_a_cost' * at_a_cost}"
    there.__doc__ = check.__doc__
    return there


def on_both_maps(*checks):
    """These checks with services of the country, and with services of the town."""
    return [*checks, *(in_town(check) for check in checks)]


def on_all_maps(*checks):
    """The same, and with services of the town where turns cost time."""
    return [*on_both_maps(*checks), *(in_town(check, True) for check in checks)]


@contextlib.contextmanager
def service(out="", *words, program=PROGRAM):
    """A service of a network, by default of the one that checks ask, None where the words name networks, on a free port: its process, host and
    port. It ends well."""
    out = here() if out == "" else out
    named = [] if out is None else [*words_of_library(out, program), out]
    command = [PYTHON, ROOT / "tools" / "page.py", "--port", 0, "--program", program, *words, *named]
    child = subprocess.Popen(list(map(str, command)), stdout=subprocess.PIPE, stderr=open("told", "w"), text=True)
    try:
        address = urllib.parse.urlsplit(child.stdout.readline().strip())
        assert address.port, open("told").read()
        yield child, address
    finally:
        child.terminate()
        status = child.wait(PATIENCE)
    assert status in (0, -signal.SIGKILL), status


@contextlib.contextmanager
def faulty_service(words, *more):
    """The same over the stand-in in a mood."""
    with mood(words), service(COUNTRY, *more, program=STANDIN) as found:
        yield found


@contextlib.contextmanager
def running_service(*words, out=COUNTRY, program=PROGRAM, limit=None, told="told", port=0, environment=None):
    """A service: its process and its address. Who asks for it ends it, or it is ended."""
    command = [PYTHON, ROOT / "tools" / "page.py", "--port", port, "--program", program, *words_of_library(out, program), *words, out]

    def lower():
        if limit:
            resource.setrlimit(resource.RLIMIT_NOFILE, limit)

    child = subprocess.Popen(
        list(map(str, command)), stdout=subprocess.PIPE, stderr=open(told, "w"), text=True, preexec_fn=lower, env=environment and os.environ | environment
    )
    try:
        yield child, urllib.parse.urlsplit(child.stdout.readline().strip())
    finally:
        if child.poll() is None:
            child.terminate()
            child.wait(PATIENCE)
        child.stdout.close()


def told():
    return open("told").read()


def children_of(number):
    """The numbers of the processes that a process has begun."""
    try:
        return [int(child) for child in pathlib.Path(f"/proc/{number}/task/{number}/children").read_text().split()]
    except FileNotFoundError:
        return []


def raw(address, text):
    """What the service sends back for these bytes, until it closes the connection."""
    with socket.create_connection((address.hostname, address.port), timeout=PATIENCE) as client:
        client.sendall(text if isinstance(text, bytes) else text.encode("latin-1"))
        found = b""
        with contextlib.suppress(ConnectionError):
            while part := client.recv(1 << 16):
                found += part
    return found


def send(address, path, body=None, method=None):
    """Status, headers and text of an answer. `body` is sent as it is, or as JSON."""
    connection = http.client.HTTPConnection(address.hostname, address.port, timeout=PATIENCE)
    try:
        data = body if body is None or isinstance(body, bytes) else json.dumps(body).encode()
        connection.request(method or ("GET" if body is None else "POST"), path, data)
        answer = connection.getresponse()
        return answer.status, answer.headers, answer.read()
    finally:
        connection.close()


def ask(address, path, body=None, method=None):
    """Status and value of an answer of JSON."""
    status, _, text = send(address, path, body, method)
    return status, json.loads(text)


def waiting_at(address):
    """How many requests the processes of a service have taken and not answered. Each process notes its own every few seconds."""
    return int(re.search(r"^chtab_requests_waiting (\d+)$", send(address, "/metrics")[2].decode(), re.MULTILINE)[1])


def browser(*size):
    """A browser whose page is of this size. Its package is installed before a check that needs it starts."""
    from helpers.browser import Browser

    return Browser(*size)


@contextlib.contextmanager
def shown_page(*size, places="9.5209 47.1410 Vaduz\n9.5450 47.2200 Eschen\n9.5280 47.2390 Ruggell\n", title="Liechtenstein", more=(), out=COUNTRY):
    """The page of the country, or of another network, with these places, in a browser: the service's process and the page."""
    pathlib.Path("places.txt").write_text(places)
    with service(out, "--places", "places.txt", "--title", title, *more) as (child, address), browser(*size) as page:
        page.show(address)
        yield child, page
