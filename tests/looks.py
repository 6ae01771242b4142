#!/usr/bin/python3
"""Tests how the page of a network looks in a browser: on low screens and on phones everything is reached and nothing lies on anything else,
texts and lines stand out from what is behind them, the colours of reach are those of the legend, and screen readers are told what is where.

A check that needs a missing package is named and left out. The last line is 'N passed, N failed'.
"""
import itertools
import re

from helpers import running
from helpers.packages import run_checks
from helpers.serving import BROWSER, Keys, send, shown_page

# The least contrast of texts, and of lines and borders (WCAG 2.2, level AA, 1.4.3 and 1.4.11), and the least side of a target in pixels.
TEXT, LINE, TARGET = 4.5, 3.0, 44
# Pixels of a page, and whether it is touched: a computer, a low window, a phone, one on its side, and a small one.
COMPUTER, LOW, PHONE, LYING, SMALL = (1280, 820), (1280, 257), (390, 844, True), (844, 390, True), (320, 568, True)
CONTROLS = "button, input, [role=option], .pin, .leaflet-control-zoom a"
ON_THE_MAP = "#panel", ".notes", ".leaflet-control-scale", ".leaflet-control-zoom"
# The colours of the bands of reach, for `measure`.
BANDS = "...[0, 1, 2, 3, 4].map(band => variable(`--band-${band}`))"
# The boxes of what is shown of these, on the panel each scrolled into view first: what it is, its edges, and whether a press at its middle
# meets it.
BOXES = """
const isShown = element => element.checkVisibility({ visibilityProperty: true }) && element.getBoundingClientRect().width > 1;
return [...document.querySelectorAll(arguments[0])].filter(isShown).map(element => {
  element.closest("#map") || element.scrollIntoView({ block: "nearest" });
  const { left, top, right, bottom } = element.getBoundingClientRect();
  const met = document.elementFromPoint((left + right) / 2, (top + bottom) / 2);
  return [element.id || element.className || element.textContent, left, top, right, bottom, element.contains(met)];
});
"""


def states(page):
    """Brings the page into each of its states, one after the other, and tells which it is."""
    yield "idle"
    page.fill("start", "e")
    yield "names"
    page.keys(Keys.ESCAPE)
    page.fill("start", "nowhere", Keys.ENTER)
    yield "unknown"
    page.fill("start", "vaduz", Keys.ENTER)
    page.fill("goal", "eschen", Keys.ENTER)
    page.wait("route")
    # The list of turns comes after the route.
    page.until(lambda: page.all("#turns button"))
    yield "route"
    page.find("back").click()
    page.until(lambda: page.state() == "route" and page.find("back").get_attribute("aria-pressed") == "true" and page.all("#turns button"))
    yield "back"
    page.find("mode-reach").click()
    page.wait("reach")
    yield "reach"
    page.fill("start", "48.1, 11.6", Keys.ENTER)
    page.wait("error")
    yield "error"


def check_room(page, state, safe=(0, 0, 0, 0)):
    """Each control is as large as a finger, can be brought into view and pressed; what stands on the map lies apart, in the screen's safe
    part, whose distances from the left, upper, right and lower edge are `safe`."""
    width, height = page.run("return [innerWidth, innerHeight]")
    low, high = (safe[0] - 0.5, safe[1] - 0.5), (width - safe[2] + 0.5, height - safe[3] + 0.5)
    # The map doesn't move to a place that is refused.
    controls = CONTROLS.replace(", .pin", "") if page.state() == "error" else CONTROLS
    for name, left, top, right, bottom, is_met in page.run(BOXES, controls):
        assert right - left >= TARGET and bottom - top >= TARGET, (state, name, right - left, bottom - top)
        assert is_met and low[0] <= left and low[1] <= top and right <= high[0] and bottom <= high[1], (state, name, left, top, right, bottom)
    boxes = page.run(BOXES, ", ".join(ON_THE_MAP))
    assert len(boxes) >= 3, boxes
    for name, left, top, right, bottom, _ in boxes:
        is_panel = name == "panel"
        assert 0 <= left and 0 <= top and right <= width + 0.5 and bottom <= height + 0.5, (state, name, left, top, right, bottom)
        assert is_panel or (low[0] <= left and low[1] <= top and right <= high[0] and bottom <= high[1]), (state, name, left, top, right, bottom)
    for one, other in itertools.combinations(boxes, 2):
        is_apart = one[3] <= other[1] + 0.5 or other[3] <= one[1] + 0.5 or one[4] <= other[2] + 0.5 or other[4] <= one[2] + 0.5
        assert is_apart, (state, one, other)
    assert page.run("return [scrollX, scrollY, document.documentElement.scrollWidth - innerWidth]") == [0, 0, 0], state


def a_low_window():
    """At 1280 by 257 pixels the panel is scrolled by a wheel, and each button is reached."""
    from selenium.webdriver import ActionChains
    from selenium.webdriver.common.actions.wheel_input import ScrollOrigin

    with shown_page(*LOW) as (_, page):
        for state in states(page):
            page.until(lambda: has_settled(page))
            check_room(page, state)
            page.run("document.getElementById('panel').scrollTop = 0")
            ActionChains(page.driver).scroll_from_origin(ScrollOrigin.from_element(page.find("title")), 0, 2000).perform()
            page.until(lambda: page.run("return panel.scrollTop > 0 && panel.scrollTop + panel.clientHeight > panel.scrollHeight - 2"))
            assert page.run("return document.getElementById('clear').getBoundingClientRect().bottom <= innerHeight"), state


def phones():
    """On phones, upright and on their side, with notches and round corners: a sheet that folds, controls as large as a finger, and all of
    the map's notes."""
    for size, safe in (PHONE, (0, 0, 0, 0)), (PHONE, (0, 47, 0, 34)), (LYING, (47, 0, 47, 21)), (SMALL, (0, 20, 0, 0)):
        with shown_page(*size) as (_, page):
            page.order("Emulation.setSafeAreaInsetsOverride", insets=dict(zip(("left", "top", "right", "bottom"), safe)))
            for state in states(page):
                page.until(lambda: has_settled(page))
                check_room(page, (size, safe, state), safe)
            if size != LYING:
                folded_sheet(page, size, safe)


def has_settled(page):
    """Whether the map moves no more, and its controls stand just above the sheet."""
    return page.run("""
        const [panel, notes] = ["#panel", ".notes"].map(name => document.querySelector(name).getBoundingClientRect());
        return !document.querySelector(".leaflet-pan-anim, .leaflet-zoom-anim") && (panel.left > 0 || Math.abs(notes.bottom - panel.top) < 1);
    """)


def folded_sheet(page, size, safe):
    """The sheet lies at the lower edge and leaves the map a third of the screen; it is folded by its button and unfolded by a swipe."""
    def box():
        return page.run("const { left, top, right, bottom } = panel.getBoundingClientRect(); return [left, top, right, bottom]")

    width, height, _ = size
    left, top, right, bottom = box()
    assert (left, right, bottom) == (0, width, height) and top >= height * 0.33, box()
    page.find("fold").click()
    assert box()[1] > height * 0.7 and page.find("fold").get_attribute("aria-expanded") == "false" and not page.find("clear").is_displayed()
    page.until(lambda: has_settled(page))
    check_room(page, (size, safe, "folded"), safe)
    touch = {"x": width / 2, "y": box()[1] + 20}
    page.order("Input.dispatchTouchEvent", type="touchStart", touchPoints=[touch])
    page.order("Input.dispatchTouchEvent", type="touchMove", touchPoints=[{**touch, "y": touch["y"] - 120}])
    page.order("Input.dispatchTouchEvent", type="touchEnd", touchPoints=[])
    page.until(lambda: page.find("clear").is_displayed() and page.find("fold").get_attribute("aria-expanded") == "true")


def texts_that_stand_out():
    """Each text has a contrast of 4.5 to 1 at least in each state, also below the mouse and with the focus, on computers and phones."""
    for size in COMPUTER, PHONE:
        with shown_page(*size) as (_, page):
            for state in states(page):
                check_texts(page, (size, state), "texts(document.body)")
                for element in page.all("button, input[type=text], [role=option], .leaflet-bar a"):
                    if element.is_displayed() and element.is_enabled():
                        page.hover(element)
                        check_texts(page, (size, state, "below the mouse"), "texts(words[0])", element)
            grounds = f"[variable('--ground'), {BANDS}].map(ground => contrast(colour(style(words[0]).color), ground))"
            found = page.measure(grounds, page.all(".place")[0])
            assert min(found) >= TEXT, found


def check_texts(page, state, text, *words):
    """The texts have enough contrast. An expression that fails gives a message in place of a list."""
    found = page.measure(text, *words)
    assert isinstance(found, list) and (found or words), (state, found)
    faint = [each for each in found if each["ratio"] < TEXT]
    assert not faint, (state, faint)


def lines_that_stand_out():
    """Roads, routes, the borders of bands, of fields and of what has the focus have a contrast of 3 to 1 at least."""
    with shown_page(*COMPUTER) as (_, page):
        for state in states(page):
            if state in ("route", "back"):
                found = page.measure("lines('.way-line:not(.below), .beside', variable('--ground'))")
                assert len(found) >= 4 and min(found) >= LINE, (state, found)
            if state == "reach":
                found = page.measure(f"lines('.band', variable('--ground'), {BANDS})")
                assert len(found) == 5 and min(found) >= LINE, found
            borders = page.measure("[...document.querySelectorAll('.end input, .way')].filter(isShown).map(border)")
            assert min(borders) >= LINE, (state, borders)
        stops = []
        while page.focus() not in stops or len(stops) < 3:
            stops.append(page.focus())
            outline = page.measure("outline(document.activeElement)")
            assert page.focus() == "" or (outline["width"] >= 2 and outline["ratio"] >= LINE), (stops, outline)
            page.keys(Keys.TAB)
        assert {"start", "clear", "map"} <= set(stops) and any("pin" in stop for stop in stops), stops


def roads_that_stand_out():
    """At each zoom roads are seen on the ground by their pixels, and on each band by the colours of their lines."""
    with shown_page(*COMPUTER) as (_, page):
        for tile in "10/539/359", "11/1078/719", "12/2156/1439", "13/4312/2878", "14/8625/5756", "16/34500/23027":
            count, whole = page.measure(f"roadsThatStandOut('/roads/{tile}.svg', {LINE})")
            assert whole > 20 and count >= 0.95 * whole, (tile, count, whole)
            _, _, text = send(page.address, f"/roads/{tile}.svg")
            colours = set(re.findall(r'stroke="(#[0-9a-f]{6})"', text.decode()))
            borders = [shade for shade in colours if is_dark(shade)]
            found = page.measure(f"words[0].flatMap(shade => [{BANDS}].map(band => contrast(colour(resolved(shade)), band)))", borders)
            assert found and min(found) >= LINE, (tile, borders, found)


def is_dark(shade):
    """Whether a colour is one of a border, and not of what lies between two."""
    return sum(bytes.fromhex(shade[1:])) < 384


def bands_of_the_legends_colours():
    """Each band of reach has exactly the colour that the legend gives it, however many lie within each other."""
    with shown_page(*COMPUTER) as (_, page):
        page.fill("start", "vaduz")
        page.find("mode-reach").click()
        page.wait("reach")
        page.run("for (const part of document.querySelectorAll('.leaflet-tile-pane, .leaflet-tooltip-pane, .leaflet-marker-pane, path:not(.band)'))"
                 " part.style.display = 'none'")
        counts = page.measure(f"bandsAsInTheLegend({page.picture()!r})")
        assert len(counts) == 5 and all(right > 20 and wrong == 0 for right, wrong in counts), counts
        order = page.measure("['.leaflet-reach-pane', '.leaflet-tile-pane'].map(pane => Number(style(document.querySelector(pane)).zIndex))")
        assert order[0] < order[1], "roads are drawn over the bands"


def a_page_for_screen_readers():
    """All that takes the focus has a name, parts and headings say what is where, and what is found or wrong is said as it comes."""
    with shown_page() as (_, page):
        page.fill("start", "vaduz", Keys.ENTER)
        page.fill("goal", "eschen", Keys.ENTER)
        page.wait("route")
        known, stops = page.parts()
        wanted = {
            ("main", ""), ("region", "Liechtenstein"), ("region", "Map"), ("heading", "Liechtenstein"), ("heading", "Places"), ("heading", "Routes"),
            ("tablist", "What the map shows"), ("tab", "Route"), ("tabpanel", "Route"), ("combobox", "A, the start"), ("combobox", "B, the goal"),
            ("button", "A: Vaduz"), ("button", "B: Eschen"), ("application", "Map of the roads"), ("status", ""), ("alert", ""),
        }
        assert wanted <= known, wanted - known
        assert len(stops) > 10 and all(name for _, name in stops), stops
        assert page.text("said").startswith("A to B: ") and any(name.startswith("A to B ") for _, name in stops), stops
        page.find("mode-reach").click()
        page.wait("reach")
        known, stops = page.parts()
        assert ("heading", "Reach") in known and ("tabpanel", "Reach") in known and ("button", "B: Eschen") not in known, known
        assert any(role == "slider" and name.startswith("Within") for role, name in stops), stops


GROUPS = (
    (BROWSER, [
        a_low_window, phones, texts_that_stand_out, lines_that_stand_out, roads_that_stand_out, bands_of_the_legends_colours,
        a_page_for_screen_readers,
    ]),
)

if __name__ == "__main__":
    running.build()
    run_checks(GROUPS)
