#!/usr/bin/python3
"""Tests what the service does with requests in OSRM's form: each refusal with its code, the requests of OSRM's clients as they send them, limits and
profiles by options, and pages that ask in a browser.

A check that needs a missing package is named and left out. The last line is 'N passed, N failed'.
"""
import collections
import contextlib
import functools
import http.client
import http.server
import json
import math
import os
import pathlib
import random
import socket
import subprocess
import threading
import urllib.parse

from helpers import running
from helpers.any_options import drawn_object, drawn_request, options_of_the_page
from helpers.asking_osrm import ESCHEN, PLAIN, TENTH, VADUZ, answer, get, on_sphere, some_nodes, text_of, three
from helpers.maps import tool
from helpers.packages import PYTHON, run_checks
from helpers.running import PROGRAM, ROOT
from helpers.serving import BROWSER, COUNTRY, SERVICE, here, on_all_maps, send, service, shown_page
from helpers.waiting import PATIENCE

# How many requests with drawn options are asked, and what they are drawn by.
REQUESTS, SEED = 1_500, "any options"
REFUSED = (
    ("/route", "InvalidUrl", "has the form"), ("/route/v1", "InvalidUrl", "has the form"), ("/route/v1/car", "InvalidUrl", "has the form"),
    ("/route/v1/car/", "InvalidUrl", "has the form"), (f"/route/v1//{PLAIN}", "InvalidUrl", "has the form"), (f"/route/v1/car/{PLAIN}/x", "InvalidUrl", "form"),
    (f"/route/v1/car/{PLAIN}%", "InvalidUrl", "hexadecimal"), (f"/route/v1/car/{PLAIN}%zz", "InvalidUrl", "hexadecimal"),
    (f"/route/v1/car/{PLAIN}%0a", "InvalidUrl", "printable"), (f"/route/v1/car/{PLAIN}%ff", "InvalidUrl", "printable"),
    (f"/route/v1/car/{PLAIN}%00", "InvalidUrl", "printable"), (f"/route/v1/car/{PLAIN}?overview=%C3%A4", "InvalidUrl", "printable"),
    ("/tile/v1/car/tile(1,2,3).mvt", "InvalidService", "tile: not"), (f"/roote/v1/car/{PLAIN}", "InvalidService", "services are"),
    (f"/route/v2/car/{PLAIN}", "InvalidVersion", "v1"), (f"/route/1/car/{PLAIN}", "InvalidVersion", "v1"),
    *((f"/route/v1/car/{text}", "InvalidQuery", "coordinate") for text in (
        "x", "9.5,47.1;", ";9.5,47.1", "9.5,47.1;;9.6,47.1", "9.5;47.1", "9.5,47.1,3;9.6,47.1", "NaN,47.1;9.5,47.1", "nan,nan;9.5,47.1", "9.5,inf;9.5,47.1",
        "-Infinity,47.1;9.5,47.1", "1e1,47.1;9.5,47.1", "9.5,4.71e1;9.5,47.1", "0x9,47;9,47", "9_5,47;9,47", "9.5,47.1%20;9,47", "--9,47;9,47",
        ".,47.1;9.5,47.1", "9..5,47;9,47", ",;,", "9.5,;9.6,47", ",47;9.6,47", "1%2e.2,47;9,47", "9,5,47,1;9,6,47,1",
    )),
    *((f"/route/v1/car/{text}", "InvalidValue", "coordinate 1") for text in (
        "9.5,47.1;180.1,47", "9.5,47.1;9.5,90.01", "9.5,47.1;9.5,-91", "9.5,47.1;-181,0", f"9.5,47.1;{'9' * 400},0", "9.5,47.1;47.1,95.2",
    )),
    ("/route/v1/car/polyline()", "InvalidQuery", "polyline"), ("/route/v1/car/polyline(_)", "InvalidQuery", "ends within"),
    ("/route/v1/car/polyline(!!)", "InvalidQuery", "character"), ("/route/v1/car/polyline6(%3F%3F)", "InvalidOptions", "two coordinates"),
    ("/route/v1/car/polyline(%3F%3F%3F%3F", "InvalidQuery", "coordinate"), ("/route/v1/car/polyline7(%3F%3F%3F%3F)", "InvalidQuery", "coordinate"),
    (f"/route/v1/car/polyline({'~' * 60})", "InvalidQuery", "character"), ("/route/v1/car/polyline(%3F)", "InvalidQuery", "ends within"),
    ("/route/v1/car/polyline(%3F%3F%3F)", "InvalidQuery", "ends within"),
    (f"/route/v1/car/{';'.join(['9.5,47.1'] * 501)}", "TooBig", "at most 500"), (f"/route/v1/car/polyline({'%3F' * 1_100})", "TooBig", "at most 500"),
    (f"/route/v1/car/{'9' * 33_000}", "TooBig", "characters"), (f"/route/v1/car/{'9' * 32_000}", "InvalidQuery", "coordinate 0"),
    (f"/route/v1/car/{PLAIN}.flatbuffers", "InvalidOptions", "flatbuffers: not supported"), (f"/route/v1/car/{PLAIN}.xml", "InvalidQuery", "coordinate 1"),
    ("/route/v1/car/9.5,47.1", "InvalidOptions", "two coordinates"),
    *((f"/route/v1/car/{PLAIN}?{query}", code, told) for query, code, told in (
        ("alternatives=some", "InvalidQuery", "alternatives"), ("alternatives=-1", "InvalidQuery", "alternatives"), ("alternatives=", "InvalidQuery", "alternatives"),
        *((f"bearings={text}", "InvalidQuery", "bearings") for text in ("361,20;", "0,181;", "0;", "x,20;", ",20;", "0,;", "-1,20;", "0,20,5;", "0.5,20;")),
        ("bearings=0,20", "InvalidOptions", "1 elements for 2"), ("bearings=0,20;;", "InvalidOptions", "3 elements for 2"),
        ("approaches=opposite;curb", "InvalidQuery", "approaches: one of"), ("approaches=curb", "InvalidOptions", "1 elements"), ("exclude=motorway", "InvalidValue", "no network without motorway"), ("exclude=x", "InvalidValue", "some of toll"),
        ("snapping=some", "InvalidQuery", "snapping"), ("waypoints=0", "InvalidValue", "first and the last"), ("waypoints=1;0;2", "InvalidOptions", "waypoints: an index"),
        ("waypoints=0;1&steps=true", "InvalidOptions", "waypoints: not supported with steps"), ("waypoints=", "InvalidQuery", "waypoints"),
        ("annotations=all", "InvalidQuery", "annotations"), ("annotations=", "InvalidQuery", "annotations"), ("steps=1", "InvalidQuery", "steps"),
        ("steps=", "InvalidQuery", "steps"), ("overview=none", "InvalidQuery", "overview"), ("geometries=wkt", "InvalidQuery", "geometries"),
        ("radiuses=5", "InvalidOptions", "1 elements for 2"), ("radiuses=5;5;5", "InvalidOptions", "3 elements for 2"), ("radiuses=-1;", "InvalidQuery", "radiuses"),
        ("radiuses=NaN;", "InvalidQuery", "radiuses"), ("radiuses=1e3;", "InvalidQuery", "radiuses"), ("radiuses=inf;", "InvalidQuery", "radiuses"),
        ("continue_straight=perhaps", "InvalidQuery", "continue_straight"), ("skip_waypoints=yes", "InvalidQuery", "skip_waypoints"),
        ("generate_hints=maybe", "InvalidQuery", "generate_hints"), ("sources=0", "InvalidQuery", "sources: not an option of route"),
        ("number=3", "InvalidQuery", "number: not an option"), ("overview=full&overview=false", "InvalidQuery", "given twice"), ("overview", "InvalidQuery", "NAME=VALUE"),
        ("=full", "InvalidQuery", "NAME=VALUE"), ("overview=full&", "InvalidQuery", "NAME=VALUE"), ("overview=full%26steps=true", "InvalidQuery", "overview"),
        ("<script>=1", "InvalidQuery", "not an option"),
    )),
    ("/route/v1/car/9.5209,47.1410;9.5,46.0?radiuses=;1000", "NoSegment", "coordinate 1 is"), ("/nearest/v1/car/9.5,46.0?radiuses=10", "NoSegment", "coordinate 0 is"),
    ("/table/v1/car/9.5,46.0;9.5209,47.1410?radiuses=1;1", "NoSegment", "coordinate 0 is"),
    *((f"/table/v1/car/{PLAIN}?{query}", code, told) for query, code, told in (
        ("fallback_speed=0", "InvalidOptions", "fallback_speed: metres"), ("fallback_speed=-1", "InvalidQuery", "fallback_speed"), ("fallback_speed=", "InvalidQuery", "fallback"),
        ("fallback_speed=1000001", "InvalidOptions", "1,000,000"), ("fallback_coordinate=middle", "InvalidQuery", "fallback_coordinate: one of"),
        ("scale_factor=0", "InvalidOptions", "scale_factor"), ("scale_factor=-1", "InvalidQuery", "scale_factor"), ("scale_factor=x", "InvalidQuery", "scale_factor"),
        ("scale_factor=NaN", "InvalidQuery", "scale_factor"), ("scale_factor=1000000000.1", "InvalidOptions", "at most 1,000,000,000"),
        ("scale_factor=" + "9" * 308, "InvalidOptions", "at most 1,000,000,000"), ("sources=2", "InvalidOptions", "from 0 to 1"), ("sources=-1", "InvalidQuery", "sources"),
        ("sources=0;", "InvalidQuery", "sources"), ("sources=", "InvalidQuery", "sources"), ("destinations=0,1", "InvalidQuery", "destinations"),
        ("destinations=0;1;0", "InvalidOptions", "more than"), ("sources=99999999999", "InvalidQuery", "sources"), ("annotations=speed", "InvalidQuery", "annotations"),
        ("annotations=true", "InvalidQuery", "annotations"), ("steps=true", "InvalidQuery", "steps: not an option of table"),
    )),
    ("/table/v1/car/9.5,47.1", "InvalidOptions", "two coordinates"), (f"/table/v1/car/{';'.join(['9.5,47.1'] * 1_001)}", "TooBig", "at most 1,000"),
    (f"/table/v1/car/{';'.join(['9.5,47.1'] * 400)}", "TooBig", "at most 100,000 cells"),
    (f"/table/v1/car/{';'.join(['9.5,47.1'] * 101)}?annotations=distance", "TooBig", "with distances has at most 10,000 cells"),
    (f"/nearest/v1/car/{PLAIN}", "TooBig", "at most 1 coordinates"), ("/nearest/v1/car/9.5,47.1?number=0", "InvalidOptions", "number"),
    ("/nearest/v1/car/9.5,47.1?number=101", "TooBig", "at most 100"), ("/nearest/v1/car/9.5,47.1?number=x", "InvalidQuery", "number"),
    ("/nearest/v1/car/9.5,47.1?number=-1", "InvalidQuery", "number"), ("/nearest/v1/car/9.5,47.1?number=9999999999", "InvalidQuery", "number"),
    *((f"/trip/v1/car/{PLAIN}?{query}", code, told) for query, code, told in (
        ("roundtrip=yes", "InvalidQuery", "roundtrip"), ("source=last", "InvalidQuery", "source"), ("destination=first", "InvalidQuery", "destination"),
        ("alternatives=true", "InvalidQuery", "alternatives: not an option of trip"), ("continue_straight=true", "InvalidQuery", "not an option"),
        ("exclude=toll,ferry", "InvalidValue", "without toll and ferry"), ("approaches=kerb;", "InvalidQuery", "approaches"),
    )),
    ("/trip/v1/car/9.5,47.1", "InvalidOptions", "two coordinates"), (f"/trip/v1/car/{';'.join(['9.5,47.1'] * 101)}", "TooBig", "at most 100"),
    ("/trip/v1/car/9.5209,47.1410;9.5,46.0?radiuses=;1000", "NoSegment", "coordinate 1 is"),
    *((f"/match/v1/car/{PLAIN}?{query}", code, told) for query, code, told in (
        ("timestamps=1", "InvalidOptions", "1 elements for 2"), ("timestamps=2;1", "InvalidOptions", "timestamps"), ("timestamps=1;x", "InvalidQuery", "timestamps"),
        ("timestamps=;", "InvalidQuery", "timestamps"), ("timestamps=1.5;2", "InvalidQuery", "timestamps"), ("gaps=join", "InvalidQuery", "gaps"),
        ("tidy=1", "InvalidQuery", "tidy"), ("waypoints=0", "InvalidValue", "first and the last"), ("waypoints=0;1&steps=true", "InvalidOptions", "waypoints: not supported with"), ("approaches=curb;", "InvalidOptions", "approaches: not"),
        ("source=first", "InvalidQuery", "not an option of match"),
    )),
    ("/match/v1/car/9.5,47.1", "InvalidOptions", "two coordinates"), (f"/match/v1/car/{';'.join(['9.5,47.1'] * 501)}", "TooBig", "at most 500"),
    ("/match/v1/car/9.5,46.0;9.5,46.001", "NoMatch", "no roads"),
)


def what_is_refused():
    """Each refusal has the status 400, one of OSRM's codes and a line; the service answers on, and tells nothing on standard error."""
    with service() as (_, address):
        for path, code, told in REFUSED:
            status, headers, text = send(address, path)
            value = json.loads(text)
            assert (status, value["code"], set(value)) == (400, code, {"code", "message"}) and told in value["message"], (path[:200], status, value)
            assert headers["Content-Type"].startswith("application/json") and headers["X-Content-Type-Options"] == "nosniff"
        for raw in b"GET /route/v1/car/%s HTTP/1.1\r\nHost: x\r\n\r\n" % (b"9" * 70_000), b"what is this\r\n\r\n", b"GET /\xff\x00 HTTP/1.1\r\n\r\n":
            status, value = raw_answer(address, raw)
            assert status == 400 and value["code"] == "InvalidUrl", (raw[:40], value)
        assert get(address, f"/route/v1/car/{PLAIN}")[0] == 200
        most, one = (answer(address, "table", [VADUZ, ESCHEN], scale_factor=scale)["durations"][0][1] for scale in ("1000000000", "1"))
        assert math.isclose(most, 1e9 * one, rel_tol=1e-6), (most, one)
        status, _, text = send(address, f"/route/v1/car/{PLAIN}", method="PUT")
        assert (status, set(json.loads(text))) == (405, {"code", "message"}), text
    assert open("told").read() == "", open("told").read()


def requests_are_posted():
    """What follows the profile in an address may be the body of a request: the answer is the same, also to what no address has room for."""
    with service() as (_, address):
        places = text_of(three())
        for name, query in ("route", "overview=full&steps=true"), ("table", "annotations=duration,distance"), ("trip", ""), ("match", "radiuses=20;20;20"):
            wanted = get(address, f"/{name}/v1/car/{places}?{query}")
            for path, body in (f"/{name}/v1/car", f"{places}?{query}\n"), (f"/{name}/v1/car/", f"{places}.json?{query}"):
                status, _, text = send(address, path, body.encode())
                assert (status, json.loads(text)) == wanted, (name, text[:200])
        one, status = text_of(three()[:1]), get(address, f"/nearest/v1/car/{text_of(three()[:1])}")[0]
        assert send(address, "/nearest/v1/car", one.encode())[0] == status == 200
        many = ";".join([places] * 166)
        status, _, text = send(address, "/match/v1/car/", f"{many}?radiuses={';'.join(['5.000000000000000000000000000000000000000000000000000000000001'] * 498)}".encode())
        assert json.loads(text)["code"] in ("Ok", "NoMatch"), text[:200]
        for path, body, code in (
            ("/route/v1/car", b"", "InvalidUrl"), ("/route/v1/car", b"x", "InvalidQuery"), ("/route/v1/car?steps=true", places.encode(), "InvalidUrl"),
            ("/route/v1/car", "9.5,47.1;9.6,47.1\u00e4".encode(), "InvalidUrl"), ("/route/v1/car", b"9.5,47.1;9.6,47.1\0", "InvalidUrl"),
            ("/route/v1", places.encode(), "InvalidUrl"), ("/route/v1/car", b"/" * 900_000, "InvalidUrl"), ("/tile/v1/car", b"1", "InvalidService"),
        ):
            status, _, text = send(address, path, body)
            assert (status, json.loads(text)["code"]) == (400, code), (path, body[:40], text)
        assert send(address, "/route/v1/car", b" " * 1_100_000)[0] == 413
    assert open("told").read() == "", open("told").read()


def any_options_get_an_answer():
    """Requests with all options of docs/SERVICE.md, drawn, some strange, in the address or in a body, and in JSON: each is answered, or refused by a line,
    and nothing is printed on standard error."""
    draw, counts, seen = random.Random(SEED), collections.Counter(), set()
    places = [*three(), *some_nodes(20, "any options")[1]]
    with service(None, "--network", f"car={here()}", "--network", f"car/toll={here()}") as (_, address):
        connection = http.client.HTTPConnection(address.hostname, address.port, timeout=PATIENCE)

        def asked(method, target, body=None):
            connection.request(method, target, body)
            found = connection.getresponse()
            value = json.loads(found.read())
            refusal = {"error"} if target.startswith("/api/") else {"code", "message"}
            is_right = value.get("code", "Ok") == "Ok" if found.status == 200 else found.status == 400 and set(value) == refusal and value.get("code") != "Ok"
            assert is_right, (target, body, found.status, value)
            return value

        for _ in range(REQUESTS):
            target = drawn_request(draw, places)
            value, name = asked("GET", target), target.split("/")[1]
            counts[name, value["code"]] += 1
            counts["toll", value["code"]] += "exclude=toll" in target
            if value["code"] == "Ok":
                seen |= {(name, option.partition("=")[0]) for option in target.partition("?")[2].split("&")}
            if draw.random() < 0.2:
                head, tail = target.split("/v1/car/")
                assert asked("POST", f"{head}/v1/car", tail) == value, target
            if draw.random() < 0.1:
                path, body = drawn_object(draw, places)
                counts[path, "error" not in asked("POST", path, body)] += 1
        connection.close()
    assert open("told").read() == "", open("told").read()
    assert all(counts[name, "Ok"] > REQUESTS / 100 for name in ("route", "table", "nearest", "trip", "match", "toll")), counts
    assert all(counts[f"/api/{name}", is_answered] > REQUESTS / 300 for name in ("route", "table", "reach") for is_answered in (False, True)), counts
    assert (left_out := options_of_the_page() - seen) == set(), left_out


def raw_answer(address, sent):
    with socket.create_connection((address.hostname, address.port), timeout=PATIENCE) as client:
        client.sendall(sent)
        found = b""
        while part := client.recv(1 << 16):
            found += part
    head, _, body = found.partition(b"\r\n\r\n")
    return int(head.split()[1]), json.loads(body)


def places_without_a_way():
    """A route that doesn't exist is `NoRoute`, a cell without one is null; a graph in other units has no durations."""
    files_of("one", [(1, 2, 5_000)], "c Roads for bicycles, by hand.\nc Weights are milliseconds.\n")
    with service("one", "--profile", "driving") as (_, address):
        status, value = get(address, "/route/v1/driving/9.5001,47.1;9.5,47.1")
        assert (status, value["code"]) == (400, "NoRoute"), value
        table = answer(address, "table", [(9.5, 47.1), (9.51, 47.1)], "driving", annotations="distance,duration")
        assert table["durations"] == [[0, 5], [None, 0]] and table["distances"][1][0] is None, table
        scaled = answer(address, "table", [(9.5, 47.1), (9.51, 47.1)], "driving", scale_factor="2.5")
        assert scaled["durations"] == [[0, 12.5], [None, 0]] and open("told").read() == "", open("told").read()
        assert abs(table["distances"][0][1] - on_sphere((9.5, 47.1), (9.51, 47.1))) < TENTH
        assert get(address, "/route/v1/bicycle/9.5,47.1;9.51,47.1")[1]["code"] == "InvalidValue"
        assert get(address, "/trip/v1/driving/9.5,47.1;9.51,47.1")[1]["code"] == "NoTrips"
        [trip] = answer(address, "trip", [(9.51, 47.1), (9.5, 47.1)], "driving", roundtrip="false")["trips"]
        assert trip["duration"] == 5, trip
        [route] = answer(address, "route", [(9.5, 47.1), (9.51, 47.1)], "driving", steps="true")["routes"]
        assert route["legs"][0]["steps"][0]["mode"] == "cycling" and route["duration"] == 5
    files_of("two", [(1, 2, 5_000), (2, 1, 4_000)], "c Weights are metres.\n")
    with service("two") as (_, address):
        assert get(address, "/route/v1/car/9.5,47.1;9.51,47.1")[1]["code"] == "InvalidService"


def files_of(out, arcs_there, comments):
    """A graph of two nodes, a hundredth of a degree apart."""
    open(f"{out}.gr", "w").write(comments + f"p sp 2 {len(arcs_there)}\n" + "".join(f"a {u} {v} {w}\n" for u, v, w in arcs_there))
    open(f"{out}.co", "w").write(comments + "p aux sp co 2\nv 1 9500000 47100000\nv 2 9510000 47100000\n")


# What clients send, as their sources have it: the client, the target, and what it reads of the answer.
A, B, C = "9.5209,47.1410", "9.6079,47.1020", "9.5280,47.2390"
STEPS = "overview=false&alternatives=true&steps=true"


def of_steps(value):
    """What Leaflet Routing Machine and osrm-text-instructions read of a route."""
    assert len(value["routes"]) >= 1 and all(isinstance(waypoint["hint"], str) for waypoint in value["waypoints"])
    for leg in value["routes"][0]["legs"]:
        assert isinstance(leg["summary"], str) and len(leg["steps"]) >= 2
        for step in leg["steps"]:
            maneuver = step["maneuver"]
            assert step["geometry"] and isinstance(step["name"], str) and step["mode"] and len(maneuver["location"]) == 2
            assert {maneuver["bearing_before"], maneuver["bearing_after"]} <= set(range(360))
            assert maneuver["type"] in ("depart", "arrive") or maneuver["modifier"], maneuver


def of_table(value):
    """What VROOM and R's osrm read of a table."""
    for name in "durations", "distances":
        for row in value.get(name, []):
            assert all(isinstance(cell, (int, float)) for cell in row)
    assert value["durations"] and len(value["sources"]) == len(value["durations"]) and len(value["destinations"][0]["location"]) == 2


def of_line(value):
    assert len(value["routes"][0]["geometry"]["coordinates"]) > 2 and value["routes"][0]["duration"] > 0 and value["routes"][0]["distance"] > 0


def of_trip(value):
    assert {waypoint["waypoint_index"] for waypoint in value["waypoints"]} == set(range(len(value["waypoints"]))) and value["trips"][0]["geometry"]


def of_match(value):
    assert len(value["tracepoints"]) >= 2 and 0 <= value["matchings"][0]["confidence"] <= 1 and value["matchings"][0]["legs"]


def is_there(value):
    assert value["code"] == "Ok"


CLIENTS = (
    ("Leaflet Routing Machine", f"/route/v1/driving/{A};{B}?{STEPS}", of_steps),
    ("Leaflet Routing Machine", f"/route/v1/driving/{A};{B}?{STEPS}&hints=abcDEF;ghiJKL", of_steps),
    ("Leaflet Routing Machine", f"/route/v1/driving/{A};{B}?{STEPS}&hints=;", of_steps),
    ("Leaflet Routing Machine", f"/route/v1/driving/{A};{C};{B}?overview=false&alternatives=false&steps=true&hints=;;&continue_straight=true", of_steps),
    ("Leaflet Routing Machine", f"/route/v1/driving/{A};{B}?overview=full", is_there), ("Leaflet Routing Machine", f"/route/v1/driving/{A};{B}?overview=simplified", is_there),
    ("osrm-frontend", f"/route/v1/driving/{A};{B}?{STEPS}&hints=;", of_steps), ("osrm-frontend", f"/route/v1/bike/{A};{B}?{STEPS}&hints=;", of_steps),
    ("osrm-text-instructions", f"/route/v1/driving/{A};{B}?steps=true&overview=full&geometries=geojson", of_steps),
    ("VROOM", f"/table/v1/car/{A};{B};{C}?annotations=duration,distance", of_table), ("VROOM", f"/table/v1/driving/{A};{B};{C}?annotations=duration", of_table),
    ("VROOM", f"/route/v1/car/{A};{B};{C}?alternatives=false&steps=false&overview=full&continue_straight=false", is_there),
    ("R osrm", f"/table/v1/driving/{A};{B};{C}?annotations=duration,distance&generate_hints=false", of_table),
    ("R osrm", f"/table/v1/driving/{A};{B};{C}?sources=0&destinations=1;2&annotations=duration&generate_hints=false", of_table),
    ("R osrm", f"/route/v1/driving/{A};{B}?alternatives=false&geometries=geojson&steps=false&overview=simplified&generate_hints=false", of_line),
    ("R osrm", f"/trip/v1/driving/{A};{B};{C}?steps=false&geometries=geojson&overview=simplified&generate_hints=false", of_trip),
    ("R osrm", f"/nearest/v1/driving/{A}?number=1&generate_hints=false", is_there), ("R osrm", f"/nearest/v1/driving/{A}?number=5&generate_hints=false", is_there),
    ("routingpy", f"/route/v1/driving/{A};{B}?alternatives=false&steps=false&continue_straight=false&annotations=false&geometries=geojson&overview=full", of_line),
    ("routingpy", f"/route/v1/driving/{A};{B}?bearings=90,180;0,180&radiuses=200;200&geometries=geojson", of_line),
    ("routingpy", f"/table/v1/driving/{A};{B};{C}?annotations=duration,distance", of_table),
    ("osrm-py", f"/route/v1/driving/{A};{B}?annotations=speed,duration&hints=;", is_there), ("osrm-py", f"/route/v1/driving/{A};{B}?annotations=true&steps=true", of_steps),
    ("osrm-py", f"/trip/v1/driving/{A};{B};{C}?roundtrip=true&source=any&destination=any&steps=false&annotations=false", of_trip),
    ("osrm-py", "/match/v1/driving/9.5209,47.1410;9.5212,47.1412;9.5216,47.1414?steps=false&overview=simplified&geometries=polyline&annotations=false"
                "&timestamps=1;9;17&radiuses=25;25;25&gaps=split&tidy=false", of_match),
    ("navigation apps", f"/route/v1/driving/{A};{B}?bearings=0,180;&approaches=unrestricted;unrestricted&hints=;&snapping=any&steps=true", of_steps),
    ("Viking", "/route/v1/driving/9.520900000000001,47.141000000000005;9.607900000000001,47.102000000000004?geometries=geojson&overview=full", of_line),
)


def clients_get_what_they_ask_for():
    """The requests of OSRM's clients as they are, each with what it reads of the answer; a page of another site, and a client that closes."""
    with service(COUNTRY, "--cors", "*") as (_, address):
        for client, path, reads in CLIENTS:
            status, value = get(address, path)
            assert (status, value["code"]) == (200, "Ok"), (client, path, value)
            reads(value)
        connection = http.client.HTTPConnection(address.hostname, address.port)
        connection.request("GET", CLIENTS[0][1], headers={"Origin": "https://maps.example"})
        found = connection.getresponse()
        assert found.headers["Access-Control-Allow-Origin"] == "*" and found.status == 200
        connection.close()
        with socket.create_connection((address.hostname, address.port), timeout=PATIENCE) as client:
            path = next(path for name, path, _ in CLIENTS if name == "VROOM")
            client.sendall(f"GET {path} HTTP/1.1\r\nHost: x\r\nAccept: */*\r\nConnection: Close\r\n\r\n".encode())
            text = b"".join(iter(lambda: client.recv(1 << 16), b"")).decode()
        assert json.loads(text[text.index("{"):text.rindex("}") + 1])["code"] == "Ok"


def names_of_profiles():
    """Any name of a profile is taken, unless some are given; several networks are chosen by it."""
    for words, names in ((), ("car", "driving", "x")), (("--profile", "driving"), ("driving",)), (("--profile", "a", "--profile", "b"), ("a", "b")):
        with service(COUNTRY, *words) as (_, address):
            for name in {"car", "driving", "x", "a", "b"}:
                status, value = get(address, f"/nearest/v1/{name}/{A}")
                is_known = not words or name in names
                assert (status, value["code"]) == ((200, "Ok") if is_known else (400, "InvalidValue")), (words, name, value)
    files_of("one", [(1, 2, 5_000), (2, 1, 7_000)], "c Roads for bicycles, by hand.\nc Weights are milliseconds.\n")
    files_of("two", [(1, 2, 1_000), (2, 1, 2_000)], "c Roads for cars, by hand.\nc Weights are milliseconds.\n")
    words = [PYTHON, ROOT / "tools" / "page.py", "--port", 0, "--program", PROGRAM]
    with service(None, "--network", "bicycle=one", "--network", "car=two") as (_, address):
        for name, seconds, mode in ("bicycle", 5, "cycling"), ("car", 1, "driving"):
            [route] = answer(address, "route", [(9.5, 47.1), (9.51, 47.1)], name, steps="true")["routes"]
            assert route["duration"] == seconds and route["legs"][0]["steps"][0]["mode"] == mode, (name, route)
            table = answer(address, "table", [(9.5, 47.1), (9.51, 47.1)], name)
            assert table["durations"][0][1] == seconds, table
        assert get(address, "/route/v1/foot/9.5,47.1;9.51,47.1")[1] == {"code": "InvalidValue", "message": "the profiles are bicycle, car"}
        status, _, text = send(address, "/api/route", {"from": [9.5, 47.1], "to": [9.51, 47.1]})
        assert status == 200 and json.loads(text)["properties"]["weight"] == 5_000, "the first network is that of the page"
    for more in (["--network", "car=one", "one"], [], ["--network", "car"], ["--network", "a=one", "--network", "a=two"], ["--network", "a=one", "--profile", "b"]):
        done = subprocess.run(list(map(str, words + more)), capture_output=True, text=True)
        assert done.returncode == 2 and "Traceback" not in done.stderr, (more, done)


def classes_are_excluded():
    """Requests that exclude classes of ways are answered by the network without them, in whatever order they name them; others by the whole one."""
    subprocess.run([ROOT / "examples" / "town.py"], check=True)
    for name, words in ("whole", ()), ("no_toll", ("--exclude", "toll")), ("neither", ("--exclude", "ferry,toll")):
        tool("osm_to_gr", "--quiet", "--part", "large", *words, "town.osm", name)
    east, west = (13.293, 53.569), (13.262, 53.569)
    ashore, across = (13.2882, 53.5540), (13.3068, 53.5540)
    networks = "car=whole", "car/toll=no_toll", "car/toll,ferry=neither", "foot=whole"
    with service(None, *(word for each in networks for word in ("--network", each))) as (_, address):
        found = {}
        for query in "", "exclude=", "exclude=toll", "exclude=%74oll", "exclude=toll,ferry", "exclude=ferry,toll":
            status, value = get(address, f"/table/v1/car/{text_of([west, east, ashore, across])}?{query}")
            assert status == 200, value
            found[query] = value["durations"][1][0], value["durations"][2][3]
        assert found[""] == found["exclude="] and found["exclude=toll"] == found["exclude=%74oll"] and found["exclude=toll,ferry"] == found["exclude=ferry,toll"]
        assert found[""][0] < found["exclude=toll"][0] == found["exclude=toll,ferry"][0] and found[""][1] == found["exclude=toll"][1] > 600, found
        assert found["exclude=toll,ferry"][1] is None
        for path in f"/route/v1/car/{PLAIN}?exclude=ferry", f"/route/v1/foot/{PLAIN}?exclude=toll", f"/nearest/v1/car/{A}?exclude=motorway":
            assert get(address, path)[1]["code"] == "InvalidValue", path
        assert get(address, f"/route/v1/bus/{PLAIN}")[1]["message"] == "the profiles are car, foot"
    for word in "car/=whole", "car/x=whole", "car/toll,=whole":
        done = subprocess.run([PYTHON, ROOT / "tools" / "page.py", "--network", word], capture_output=True, text=True)
        assert done.returncode == 2 and "Traceback" not in done.stderr, done


def limits_are_options():
    """The sizes of requests by osrm-routed's names. A larger table is answered, with distances too."""
    many = some_nodes(130, "limits")[1]
    with service(COUNTRY, "--max-viaroute-size", 3, "--max-table-size", 120, "--max-trip-size", 4, "--max-matching-size", 5, "--max-nearest-size", 2) as (_, address):
        for name, most in ("route", 3), ("trip", 4), ("match", 5), ("table", 120):
            status, value = get(address, f"/{name}/v1/car/{text_of(many[:most + 1])}?radiuses={';'.join(['unlimited'] * (most + 1))}")
            assert value == {"code": "TooBig", "message": f"at most {most:,} coordinates"}, (name, value)
        assert answer(address, "route", many[:3]) and answer(address, "trip", many[:4])
        table = answer(address, "table", many[:120], annotations="duration,distance")
        assert len(table["distances"]) == 120 and len(table["distances"][119]) == 120
        assert get(address, f"/nearest/v1/car/{A}?number=3")[1]["code"] == "TooBig" and len(answer(address, "nearest", [VADUZ], number=2)["waypoints"]) == 2
    for word in "0", "-1", "x", "100001", "\u0663":
        done = subprocess.run([PYTHON, ROOT / "tools" / "page.py", "--max-table-size", word, COUNTRY], capture_output=True, text=True)
        assert done.returncode == 2 and "is no number from 1 to 100000" in done.stderr, done


def other_sites_and_the_page():
    """A page asks for a route in a browser, and draws it: that of the service itself, and one of another site that was allowed."""
    with another_site() as other, shown_page(more=("--cors", other.rstrip("/"))) as (_, page):
        found = page.driver.execute_async_script(
            "const [path, done] = arguments; const { state } = await import('/page/page.js'); const answer = await (await fetch(path)).json();"
            "const line = L.geoJSON(answer.routes[0].geometry).addTo(state.map.map);"
            "done([answer.code, answer.routes[0].duration, line.getLayers()[0].getLatLngs().map(at => [at.lng, at.lat])]);",
            f"/route/v1/car/{PLAIN}?geometries=geojson&overview=full",
        )
        wanted = answer(page.address, "route", [VADUZ, ESCHEN], geometries="geojson", overview="full")["routes"][0]
        assert found == ["Ok", wanted["duration"], wanted["geometry"]["coordinates"]] and not page.faults()
        page.driver.get(other)
        found = page.driver.execute_async_script(
            "const [path, done] = arguments; fetch(path).then(answer => answer.json()).then(value => done(value.code), fault => done(String(fault)));",
            urllib.parse.urljoin(page.address.geturl(), f"/route/v1/car/{PLAIN}"),
        )
        assert found == "Ok", found


@contextlib.contextmanager
def another_site():
    """The address of a site with an empty page."""
    os.mkdir("site")
    pathlib.Path("site/index.html").write_text("<p>another site</p>")
    handler = functools.partial(http.server.SimpleHTTPRequestHandler, directory="site")
    handler.func.log_message = lambda *_: None
    with http.server.ThreadingHTTPServer(("127.0.0.1", 0), handler) as server:
        threading.Thread(target=server.serve_forever, daemon=True).start()
        yield f"http://127.0.0.1:{server.server_port}/"
        server.shutdown()


GROUPS = (
    ((*SERVICE, "python3-polyline"), [
        what_is_refused, places_without_a_way, clients_get_what_they_ask_for, names_of_profiles, classes_are_excluded, limits_are_options,
        *on_all_maps(requests_are_posted, any_options_get_an_answer),
    ]),
    (BROWSER, [other_sites_and_the_page]),
)

if __name__ == "__main__":
    running.build()
    run_checks(GROUPS)
