"""Requests in OSRM's form, and in JSON, with options that are drawn, most of them as they should be, some strange."""
import json
import math
import re
import urllib.parse

from helpers.running import ROOT

WORDS = ("", "true", "false", "x", "0", "1", "-1", "all", "nan", "1e9", "%00", "any", "default", "unlimited")
OF_LINES = {
    "overview": ("simplified", "full", "false"), "geometries": ("polyline", "polyline6", "geojson"), "steps": ("true", "false"),
    "annotations": ("true", "false", "nodes", "duration,distance", "speed,nodes,datasources", "weight", "distance"),
}
OF_ALL = {"generate_hints": ("true", "false"), "skip_waypoints": ("true", "false"), "snapping": ("default", "any"), "exclude": ("", "toll", "motorway", "ferry,toll")}
OPTIONS = {
    "route": OF_LINES | {"alternatives": ("true", "false", "3"), "continue_straight": ("default", "true", "false")},
    "table": {
        "annotations": ("duration", "distance", "duration,distance", "distance,duration"), "scale_factor": ("2", "0.5"), "fallback_speed": ("10", "0.5", "0"),
        "fallback_coordinate": ("input", "snapped"), "sources": ("0", "all", "1;0"), "destinations": ("1", "all", "0;1"),
    },
    "nearest": {"number": ("1", "3", "7")},
    "trip": OF_LINES | {"roundtrip": ("true", "false"), "source": ("any", "first"), "destination": ("any", "last")},
    "match": OF_LINES | {"gaps": ("split", "ignore"), "tidy": ("true", "false")},
}


def drawn_place(draw, places):
    """A place near one of some, at one, or anywhere."""
    x, y = draw.choice(places)
    luck = draw.random()
    if luck < 0.05:
        return draw.uniform(-180, 180), draw.uniform(-90, 90)
    off = 0 if luck < 0.2 else draw.choice((0.000003, 0.0002, 0.003))
    return x + draw.gauss(0, off), y + draw.gauss(0, off)


def elements(draw, count, *words):
    """A list with an element for each coordinate, now and then one too many."""
    return ";".join(draw.choice(words) for _ in range(count + (draw.random() < 0.03)))


def drawn_options(draw, service, count):
    """Options of a service for so many coordinates."""
    found = {name: draw.choice(words) for name, words in (OPTIONS[service] | OF_ALL).items() if draw.random() < 0.25}
    if draw.random() < 0.4:
        found["bearings"] = elements(draw, count, "", f"{draw.randrange(361)},{draw.randrange(181)}", f"{draw.randrange(361)},30")
    if draw.random() < 0.2:
        found["radiuses"] = elements(draw, count, "", "unlimited", str(round(math.exp(draw.uniform(0, 9)), 1)))
    if draw.random() < 0.25:
        found["approaches"] = elements(draw, count, "", "curb", "unrestricted")
    if draw.random() < 0.1:
        found["hints"] = elements(draw, count, "", "x-_=")
    if service in ("route", "match") and draw.random() < 0.25:
        found["waypoints"] = ";".join(str(place) for place in range(count) if place in (0, count - 1) or draw.random() < 0.5)
    if service == "match" and draw.random() < 0.4:
        found["timestamps"] = ";".join(str(place * draw.choice((5, 5, 70))) for place in range(count))
    if draw.random() < 0.08:
        found[draw.choice([*found, "strange"])] = draw.choice(WORDS)
    return found


def drawn_request(draw, places):
    """The target of a request near some places."""
    service = draw.choice((*OPTIONS, "route", "table"))
    count = 1 if service == "nearest" else draw.choice((2, 2, 3, 5, 12))
    if service == "match":
        x, y = drawn_place(draw, places)
        chosen = [(x + step * 0.0004, y + draw.gauss(0, 0.0002)) for step in range(count)]
    else:
        chosen = [drawn_place(draw, places) for _ in range(count)]
    if count > 2 and draw.random() < 0.2:
        chosen[1] = chosen[0]
    query = "&".join(f"{name}={value}" for name, value in drawn_options(draw, service, count).items())
    text = text_of(draw, [(max(-180, min(180, x)), max(-90, min(90, y))) for x, y in chosen])
    return f"/{service}/v1/car/{text}?{query}".rstrip("?")


def text_of(draw, places):
    """Places in one of the forms that an address may have them in."""
    import polyline  # Debian's package is installed before a check that needs it starts.

    luck = draw.random()
    if luck < 0.1:
        digits = draw.choice((5, 6))
        return f"polyline{'6' * (digits == 6)}({urllib.parse.quote(polyline.encode([(y, x) for x, y in places], digits))})"
    text = ";".join(f"{x:.6f},{y:.6f}" for x, y in places)
    return urllib.parse.quote(text) if luck < 0.15 else f"{text}.json" if luck < 0.2 else text


def options_of_the_page():
    """The options that docs/SERVICE.md names, each with a service: {(service, option)}."""
    text = (ROOT / "docs" / "SERVICE.md").read_text().partition("| of | option |")[2].partition("\n\n")[0]
    found, of = set(), ()
    for first, names in re.findall(r"^\| ([^|]*?) ?\| (`[^|]*?) \|", text, re.MULTILINE):
        of = (*OPTIONS,) if first == "all services" else re.findall(r"`(\w+)`", first) or of
        found |= {(service, name) for service in of for name in re.findall(r"`(\w+)`", names)}
    assert {name for service, name in found if service == "nearest"} > {"number", "hints"} and len(found) > 60, found
    return found


STRANGE = None, True, "x", "", -1, 0.5, 10**400, 1e999, [], {}, [[]], [9.5], [9.5, "47.1"], [9.5, 47.1, 0], [200, 0], [9.5, -91]


def drawn_object(draw, places):
    """The address of a request in JSON, and its body: about one in three is strange."""
    def value(usual):
        return draw.choice(STRANGE) if draw.random() < 0.06 else usual

    def listed(most):
        return value([value(list(drawn_place(draw, places))) for _ in range(draw.randint(1, most))])

    path = draw.choice(("route", "table", "table", "reach"))
    if path == "route":
        found = {"from": value(list(draw.choice(places))), "to": value(list(drawn_place(draw, places)))}
    elif path == "table":
        found = {"sources": listed(9), "targets": listed(9)} | ({"within": value(draw.randrange(10**6))} if draw.random() < 0.4 else {})
    else:
        found = {"from": value(list(draw.choice(places))), "limits": value([value(draw.randrange(1, 400_000)) for _ in range(draw.randint(1, 3))])}
    if draw.random() < 0.04:
        found[draw.choice([*found, "strange"])] = draw.choice(STRANGE)
    if draw.random() < 0.04:
        del found[draw.choice([*found])]
    text = json.dumps(value(found))
    return f"/api/{path}", text[:draw.randrange(len(text))] if draw.random() < 0.02 else text
