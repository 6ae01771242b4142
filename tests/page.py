#!/usr/bin/python3
"""Tests the page of a service in a browser (headless Chromium, driven by Selenium): with a mouse, by keyboard alone, and with names that are HTML. How
the page looks is tested by `looks.py`, and what the service answers by `clients.py`.

A check that needs a missing package is named and left out. The last line is 'N passed, N failed'.
"""
import itertools
import json
import pathlib
import subprocess
import sys
import time

from helpers import running
from helpers.maps import tool
from helpers.packages import run_checks
from helpers.running import PROGRAM, ROOT
from helpers.serving import BROWSER, COUNTRY, Keys, ask, browser, service, shown_page
from helpers.writing import write_graph

sys.path.insert(0, str(ROOT / "python"))

import chtab  # noqa: E402
from chtab import files  # noqa: E402

VADUZ, ESCHEN = [9.5209, 47.1410], [9.5450, 47.2200]
# A metre along the equator, in degrees.
METRE = 1 / 111_195


def weight_by_dist(network, start, end):
    """The weight of a trip by runs of `chtab dist` over the ends of both roads."""
    spots = network.snap(*zip(start, end))
    ways = list(itertools.product((0, 1), (0, 1)))
    pairs = [(spots.out_nodes[0, out], spots.in_nodes[1, into]) for out, into in ways]
    parts = [spots.out_weights[0, out] + spots.in_weights[1, into] for out, into in ways]
    known = [(pair, part) for pair, part in zip(pairs, parts) if min(pair) > 0]
    files.write_queries("trip.p2p", [pair for pair, _ in known])
    text = subprocess.run([PROGRAM, "dist", f"{COUNTRY}.gr", "trip.p2p"], capture_output=True, text=True, check=True).stdout
    assert known, pairs
    return min(answer.weight + part for answer, (_, part) in zip(files.read_answers(text.splitlines()), known))


def is_right(page, network, way="there"):
    """Whether the page shows the weight from A to B, or back, as `chtab dist` has it."""
    start, goal = ("start", "goal") if way == "there" else ("goal", "start")
    return page.weight(way) == str(weight_by_dist(network, page.at(start), page.at(goal)))


def a_page_with_routes_and_reach():
    """Two clicks, both ways, a drag, reach and back, and a service that dies."""
    with shown_page() as (child, page), chtab.Network.open(f"{COUNTRY}.gr", program=PROGRAM) as network:
        assert page.driver.title == "Liechtenstein" and "Vaduz" in page.text("map")
        assert page.find("goal").get_attribute("placeholder").startswith("Goal: a name or 47."), "an example lies in the network"
        page.fill("start", "esch")
        page.click(VADUZ)
        assert page.text("start") == "Vaduz" and page.text("goal") == "", "a press on the map takes no name from the list"
        page.click(ESCHEN)
        page.wait("route")
        assert page.text("start") == "Vaduz" and page.text("goal") == "Eschen"
        assert is_right(page, network) and is_right(page, network, "back")
        line = page.line()
        assert len(line) > 10 and network.snap(*zip(*line)).metres.max() < 2
        before = page.weight()
        page.drag("goal", [9.5280, 47.2390])
        page.until(lambda: page.weight() != before and is_right(page, network))
        assert abs(page.at("goal")[1] - 47.2390) < 0.004, page.at("goal")
        page.find("mode-reach").click()
        page.wait("reach")
        assert len(page.all("path.band")) == 5 and not page.find("goal").is_displayed()
        page.find("mode-route").click()
        page.wait("route")
        page.find("swap").click()
        page.wait("route")
        assert abs(page.at("start")[1] - 47.2390) < 0.004 and is_right(page, network)
        assert not page.faults(), page.faults()
        child.kill()
        child.wait()
        page.click([9.51, 47.1])
        page.wait("error")
        assert "does not answer" in page.message(), page.message()


def a_page_where_there_is_no_way():
    """A one-way road: one direction has a way; a road that hangs apart: none has; a place in the sea is refused with its distance."""
    write_graph("road.gr", 4, [(1, 2, 60_000), (3, 4, 1000), (4, 3, 1000)])
    files.write_coordinates("road.co", [(0, 0), (2000 * METRE, 0), (0, 1500 * METRE), (2000 * METRE, 1500 * METRE)])
    with service("road") as (_, address), browser() as page:
        page.show(address)
        assert page.find("start").get_attribute("placeholder") == "Start: 0.01, 0.01", "where no place has a name none is asked for"
        page.click([1800 * METRE, 0])
        page.click([200 * METRE, 0])
        page.wait("noway")
        assert page.message() == "There is no way from A to B." and page.weight() == "" and page.weight("back") != ""
        page.click([1000 * METRE, 1500 * METRE])
        page.until(lambda: "either direction" in page.message())
        page.find("clear").click()
        page.wait("idle")
        page.page("map.setZoom(12, { animate: false }) && null")
        page.click([0, -6000 * METRE])
        page.click([200 * METRE, 0])
        page.wait("error")
        assert "m from the nearest road" in page.message(), page.message()


def a_page_by_keyboard_alone():
    """Places are set, moved and taken away, and both views are used, without a mouse."""
    hamlets = "".join(f"9.{515 + number} 47.10 Weiler {number}\n" for number in range(9))
    places = f"{hamlets}9.5209 47.1410 Vaduz\n9.5450 47.2200 Eschen\n"
    with shown_page(places=places) as (_, page), chtab.Network.open(f"{COUNTRY}.gr", program=PROGRAM) as network:
        page.tab_to("start")
        names_in_the_list(page)
        page.keys("vaduz", Keys.ENTER)
        assert page.at("start") == VADUZ and page.text("start") == "Vaduz" and page.focus() == "start"
        page.keys(Keys.TAB, "47.2200, 9.5450", Keys.ENTER)
        page.wait("route")
        assert page.at("goal") == ESCHEN and is_right(page, network) and is_right(page, network, "back")
        faulty_places(page)
        moved_pins(page, network)
        both_views(page)


def names_in_the_list(page):
    """The list has the names that are like the text, those that begin with it first. Keys go through it, and Tab takes the marked name."""
    def names():
        return [option.text for option in page.all("[role=option]")]

    page.keys("e")
    assert names() == ["Eschen", *(f"Weiler {number}" for number in range(7))], names()
    page.keys(Keys.ARROW_DOWN)
    marked = page.run("return document.getElementById(document.activeElement.getAttribute('aria-activedescendant')).textContent")
    assert marked == "Weiler 0" and page.find("start").get_attribute("aria-expanded") == "true"
    page.keys(Keys.ESCAPE)
    assert page.text("start") == "" and names() == [] and page.state() == "idle"
    page.keys(Keys.ARROW_DOWN, Keys.ARROW_UP, Keys.ARROW_UP, Keys.TAB)
    assert page.text("start") == "Weiler 6" and page.focus() == "goal", "a list that scrolls is no stop of its own"
    page.with_shift(Keys.TAB)
    page.keys(Keys.BACKSPACE, Keys.ENTER)
    assert page.text("start") == "" and page.page("state.map.at('start')") is None, "a field that is emptied takes its place away"


def faulty_places(page):
    """What is no place is refused in a line below its field; the place that was set stays."""
    cases = ("nowhere", "is called “nowhere”"), ("147.2, 9.5", "latitude 147.2"), ("47.2, 190", "longitude 190"), ("47.2", "is called “47.2”")
    for typed, told in cases:
        page.fill("goal", typed, Keys.ENTER)
        assert told in page.text("goal-fault") and page.find("goal").get_attribute("aria-invalid") == "true", (typed, page.text("goal-fault"))
        assert page.at("goal") == ESCHEN and page.focus() == "goal"
    page.keys(Keys.ESCAPE)
    assert page.text("goal") == "Eschen" and page.text("goal-fault") == ""
    for typed in "47,22; 9,545", "47.22 9.545", "47.22° N, 9.545° E", "+47.220 , 9.5450", "47.22N 9.545E":
        page.fill("goal", "Vaduz", Keys.ENTER)
        page.fill("goal", typed, Keys.ENTER)
        assert page.at("goal") == ESCHEN, (typed, page.at("goal"), page.text("goal-fault"))
    page.wait("route")


def moved_pins(page, network):
    """Arrow keys move a pin, with Shift farther, and the route follows; Delete takes it away."""
    page.tab_to("pin")
    label = page.run("return document.activeElement.getAttribute('aria-label')")
    assert label == "A: Vaduz", label
    before = page.at("start")
    page.keys(Keys.ARROW_RIGHT)
    page.until(lambda: is_right(page, network))
    step = page.at("start")[0] - before[0]
    assert step > 0 and page.at("start")[1] == before[1], (before, page.at("start"))
    page.keys(Keys.ARROW_UP, Keys.ARROW_LEFT)
    assert page.at("start")[1] > before[1] and abs(page.at("start")[0] - before[0]) < step / 2
    page.with_shift(Keys.ARROW_RIGHT)
    assert 4 < (page.at("start")[0] - before[0]) / step < 6, (step, page.at("start"))
    page.until(lambda: page.state() == "route" and is_right(page, network))
    heard = page.text("said")
    page.keys(*[Keys.ARROW_DOWN] * 12)
    page.until(lambda: page.state() == "route" and is_right(page, network))
    assert heard.startswith("A to B: ") and page.text("said") != heard, "screen readers are told what changed"
    for _ in range(20):
        page.with_shift(Keys.ARROW_LEFT)
    is_seen = "return document.activeElement.contains(document.elementFromPoint((box.left + box.right) / 2, (box.top + box.bottom) / 2))"
    page.until(lambda: page.run(f"const box = document.activeElement.getBoundingClientRect(); {is_seen}"), "the map follows a pin that leaves it")
    page.page("map.panBy([2000, 0], { animate: false }) && null")
    page.with_shift(Keys.TAB)
    page.tab_to("pin")
    page.until(lambda: page.run(f"const box = document.activeElement.getBoundingClientRect(); {is_seen}"), "the map moves to a pin that has the focus")
    page.keys(Keys.DELETE)
    assert page.focus() == "start" and page.text("start") == "" and page.wait("idle")
    page.keys("vaduz", Keys.ENTER)
    page.wait("route")


def both_views(page):
    """Tabs by arrow keys, the slider, and the way that is chosen."""
    page.tab_to("mode-route", back=True)
    page.keys(Keys.ARROW_RIGHT)
    page.wait("reach")
    assert page.focus() == "mode-reach" and page.find("mode-reach").get_attribute("aria-selected") == "true"
    page.tab_to("longest")
    page.keys(Keys.ARROW_RIGHT)
    page.until(lambda: page.find("longest").get_attribute("aria-valuetext") == "20 min")
    page.until(lambda: page.state() == "reach" and "within 20 min" in page.text("said"))
    assert "16–20 min" in page.find("bands").text
    page.tab_to("mode-reach", back=True)
    page.keys(Keys.ARROW_LEFT)
    page.wait("route")
    page.tab_to("back")
    page.keys(Keys.ENTER)
    page.until(lambda: page.state() == "route" and page.find("back").get_attribute("aria-pressed") == "true")


HOSTILE = (
    "<img src=x onerror=ran('image')>", "</script><script>ran('script')</script>", "\"'><svg onload=ran('svg')>", "javascript:ran('link')",
    "<a href=\"javascript:ran('anchor')\">Vaduz</a>", "&lt;img src=x onerror=ran('twice')&gt;", "{{ran('template')}} ${ran('literal')} `'\"",
    "</title><style>#panel { display: none }</style>", "<iframe srcdoc='<script>parent.ran(1)</script>'></iframe>",
)
# What runs before the page: a function that hostile names would call, notes that are hostile, and a list of what the browser refused to run.
TRAP = """
window.found = [];
window.refused = [];
window.ran = what => found.push(what);
addEventListener("securitypolicyviolation", event => refused.push(event.violatedDirective));
const real = window.fetch;
window.fetch = async (path, request) => {
  const answer = await real(path, request);
  return path === "api/network" ? Response.json({ ...await answer.json(), notes: NOTES }) : answer;
};
"""


def names_are_never_run():
    """Places, a title and notes that are HTML, and a message that repeats a name, are shown letter by letter, and nothing of them runs."""
    places = [[9.5 + 0.012 * (number % 3), 47.08 + 0.05 * (number // 3)] for number in range(len(HOSTILE))]
    lines = "".join(f"{x} {y} {name}\n" for (x, y), name in zip(places, HOSTILE))
    pathlib.Path("places.txt").write_text(lines)
    with service(COUNTRY, "--places", "places.txt", "--title", HOSTILE[1]) as (_, address), browser() as page:
        page.before_each_page(TRAP.replace("NOTES", json.dumps(HOSTILE[0])))
        page.show(address)
        time.sleep(0.5)
        assert page.run("return [found, refused]") == [[], []], page.run("return [found, refused]")
        assert page.driver.title == page.text("title") == HOSTILE[1]
        assert HOSTILE[0] in page.find("map").text and all(name in page.text("map") for name in HOSTILE), page.text("map")
        for end, name in zip(itertools.cycle(("start", "goal")), HOSTILE):
            page.fill(end, name)
            assert page.all("[role=option]")[0].text == name, name
            page.find("title").click()
            assert page.text(end) == name, (name, page.text(end))
        page.find("mode-reach").click()
        page.wait("reach", "error")
        page.fill("start", "<img src=y onerror=ran('fault')>")
        page.find("title").click()
        assert "<img src=y onerror=ran('fault')>" in page.text("start-fault")
        time.sleep(0.5)
        assert page.run("return [found, refused]") == [[], []], page.run("return [found, refused]")
        assert page.run("return document.querySelectorAll('main img:not(.leaflet-tile), main script, main a[href^=javascript], main iframe').length") == 0
        assert not page.faults(), page.faults()


def html_that_gets_in_is_not_run():
    """Where a fault of the page let HTML in, the browser would still refuse to run it."""
    with shown_page() as (_, page):
        page.run("""
            window.found = []; window.refused = []; window.ran = what => found.push(what);
            addEventListener("securitypolicyviolation", event => refused.push(event.violatedDirective));
            const inside = document.createElement("div");
            inside.innerHTML = `<img src=x onerror=ran('handler')><a id=link href="javascript:ran('link')">link</a><p id=styled style='color: red'>`;
            document.body.append(inside);
            const script = document.createElement("script");
            script.textContent = "ran('script')";
            document.body.append(script);
            document.getElementById("link").click();
        """)
        page.until(lambda: len(page.run("return refused")) >= 4, "four refusals")
        assert page.run("return found") == [], page.run("return found")
        assert page.run("return getComputedStyle(document.getElementById('styled')).color") != "rgb(255, 0, 0)"


# What runs before the page: the service refuses both routes, the one from B to A first.
FAR = """
const real = window.fetch;
window.fetch = async (path, request) => {
  if (path !== "api/route") return real(path, request);
  const isBack = JSON.parse(request.body).from[1] > 47.2;
  if (!isBack) await new Promise(done => setTimeout(done, 300));
  return Response.json({ error: isBack ? "A is 18.6 km from the nearest road" : TOLD }, { status: 400 });
};
"""


def places_are_called_as_the_page_calls_them():
    """A fault of the service that names A or B is shown as it is, for the request from A to B, and the fields are marked."""
    cases = ("B is 18.6 km from the nearest road", ["goal"]), ("A is 1.2 km from the nearest road; B is 18.6 km from the nearest road", ["start", "goal"])
    with service() as (_, address):
        for told, marked in cases:
            with browser() as page:
                page.before_each_page(FAR.replace("TOLD", json.dumps(told)))
                page.show(address)
                page.click(VADUZ)
                page.click(ESCHEN)
                page.wait("error")
                assert page.message() == f"{told}.", page.message()
                assert [found.get_attribute("id") for found in page.all("[aria-invalid=true]")] == marked, told
                page.find("clear").click()
                page.wait("idle")
                assert page.message() == "" and not page.all("[aria-invalid=true]"), page.message()


def with_names():
    """The country with the names of its streets, and the bends of its roads."""
    tool("osm_to_gr", "--quiet", "--bends", "--names", f"{COUNTRY}.osm.bz2", "named")
    return "named"


def rows(page):
    return page.run("return [...document.querySelectorAll('#turns button > span:first-child')].map(part => part.textContent)")


def last_row(page):
    """The last row of the list, which is read once: the page may empty the list between two readings."""
    return (rows(page) or [None])[-1]


def a_list_of_turns():
    """Each maneuver of the chosen way has a row, which shows its point: by a press, and by arrow keys."""
    with shown_page(out=with_names()) as (_, page):
        page.fill("start", "vaduz", Keys.ENTER)
        page.fill("goal", "eschen", Keys.ENTER)
        page.wait("route")
        there = page.until(lambda: last_row(page) == "Arrive at B" and rows(page))
        assert there[0].startswith("Head ") and there[-1] == "Arrive at B" and any("Feldkircher Strasse" in row for row in there), there
        assert there[1].startswith("Leave Adlerkreisel") and not any("undefined" in row for row in there), there
        _, value = ask(page.address, "/route/v1/x/{},{};{},{}?steps=true&overview=false".format(*page.at("start"), *page.at("goal")))
        steps = value["routes"][0]["legs"][0]["steps"]
        shown = [step for step, before in zip(steps, [None, *steps]) if not (step["maneuver"]["type"].startswith("exit") and before["maneuver"].get("exit"))]
        assert len(shown) == len(there)
        page.all("#turns button")[2].click()
        assert point(page) == shown[2]["maneuver"]["location"]
        page.find("there").click()
        page.until(lambda: rows(page) == there)
        page.find("there").click()
        page.until(lambda: page.state() == "route" and rows(page))
        page.tab_to("back")
        page.keys(Keys.TAB)
        for place, key in enumerate((Keys.ARROW_DOWN, Keys.ARROW_DOWN, Keys.ARROW_UP)):
            page.keys(key)
            row = (1, 2, 1)[place]
            assert page.run("return document.activeElement.textContent").startswith(there[row]) and point(page) == shown[row]["maneuver"]["location"]
        page.keys(Keys.TAB)
        assert page.focus() == "swap", "the list is one stop"
        page.find("back").click()
        page.until(lambda: last_row(page) == "Arrive at A")
        page.find("mode-reach").click()
        page.wait("reach")
        assert not page.find("turns-part").is_displayed() and not page.faults()


def point(page):
    return page.page("[state.map.point.getLatLng()].map(at => [at.lng, at.lat].map(part => Number(part.toFixed(6))))[0]")


def places_on_the_way():
    """They are set on the map, and by keyboard; the way leads over them, in their order, and a fault calls them as the page does."""
    with shown_page() as (_, page), chtab.Network.open(f"{COUNTRY}.gr", program=PROGRAM) as network:
        page.fill("start", "vaduz", Keys.ENTER)
        page.press_long([9.53, 47.18])
        assert page.page("state.vias.length") == 0 and not page.find("via").is_displayed(), "without A and B there is no way"
        page.fill("goal", "eschen", Keys.ENTER)
        page.wait("route")
        direct = int(page.weight())
        page.fill("via", "ruggell", Keys.ENTER)
        page.until(lambda: page.state() == "route" and page.weight() == str(over(network, page, "start", "via1", "goal")))
        assert int(page.weight()) > direct and page.text("via") == "" and page.focus() == "via"
        page.press_long([9.51, 47.16])
        page.until(lambda: page.state() == "route" and page.weight() == str(over(network, page, "start", "via1", "via2", "goal")))
        labels = [pin.get_attribute("aria-label") for pin in page.all(".pin")]
        assert labels[2] == "1: Ruggell" and labels[3].startswith("2: "), labels
        page.until(lambda: {"Arrive at 1", "Arrive at 2"} <= set(rows(page)))
        page.find("swap").click()
        page.until(lambda: page.state() == "route" and page.weight() == str(over(network, page, "start", "via2", "via1", "goal")))
        page.run("document.querySelectorAll('.pin')[3].focus()")
        page.keys(Keys.DELETE)
        page.until(lambda: page.state() == "route" and page.page("state.vias.length") == 1)
        page.fill("via", "48.1, 11.6", Keys.ENTER)
        page.wait("error")
        assert page.message().startswith("2 is ") and "from the nearest road" in page.message(), page.message()
        page.find("clear").click()
        page.wait("idle")
        assert page.page("state.vias.length") == 0 and len(page.all(".pin")) == 0 and not page.faults()


def over(network, page, *ends):
    places = [page.at(end) for end in ends]
    return sum(weight_by_dist(network, one, other) for one, other in zip(places, places[1:]))


def the_map_and_the_address():
    """A button shows the whole network; a place that is refused doesn't move the map; the address keeps what is shown, and none of it is run."""
    with shown_page() as (_, page):
        bounds = "(bounds => [bounds.getWest(), bounds.getSouth(), bounds.getEast(), bounds.getNorth()])(map.getBounds())"
        page.page("map.setView([47.14, 9.52], 16, { animate: false }) && null")
        page.find("fit").click()
        west, south, east, north = page.page("state.network.bounds")
        page.until(lambda: (found := page.page(bounds))[0] <= west and found[1] <= south and found[2] >= east and found[3] >= north)
        page.fill("start", "vaduz", Keys.ENTER)
        before = page.page(bounds)
        page.fill("goal", "48.1, 11.6", Keys.ENTER)
        page.wait("error")
        time.sleep(0.5)
        assert page.page(bounds) == before, "the map stays"
        page.fill("goal", "eschen", Keys.ENTER)
        page.wait("route")
        page.fill("via", "ruggell", Keys.ENTER)
        page.until(lambda: page.state() == "route" and page.page("state.vias.length") == 1)
        page.find("back").click()
        page.until(lambda: page.state() == "route" and page.find("back").get_attribute("aria-pressed") == "true")
        address, weights = page.run("return location.href"), [page.weight(), page.weight("back")]
        assert "#a=47.141000,9.520900&b=47.220000,9.545000&via=47.239000,9.528000&way=back" in address, address
        page.driver.get("about:blank")
        page.driver.get(address)
        page.wait("route")
        assert [page.weight(), page.weight("back")] == weights and page.at("via1") == [9.528, 47.239] and page.text("goal") == "Eschen"
        page.find("mode-reach").click()
        page.wait("reach")
        page.driver.refresh()
        page.wait("reach")
        assert page.find("mode-reach").get_attribute("aria-selected") == "true"
        for strange in "#a=<img src=x onerror=alert(1)>&b=999,999", "#a=1,2,3&via=;;x", "#%00%ff", "#a=NaN,NaN&b=Infinity,0", "#mode=javascript:alert(1)":
            page.driver.get("about:blank")
            page.driver.get(page.address.geturl() + strange)
            page.wait("idle")
            assert not page.faults(), page.faults()


GROUPS = (
    (BROWSER, [
        a_page_with_routes_and_reach, a_page_where_there_is_no_way, a_page_by_keyboard_alone, names_are_never_run,
        html_that_gets_in_is_not_run, places_are_called_as_the_page_calls_them, a_list_of_turns, places_on_the_way, the_map_and_the_address,
    ]),
)

if __name__ == "__main__":
    running.build()
    run_checks(GROUPS)
