"""A browser without a window, and the page that it shows: Chromium, driven by Selenium."""
import base64
import os
import pathlib

from selenium import webdriver
from selenium.webdriver import ActionChains, Keys
from selenium.webdriver.chrome.service import Service
from selenium.webdriver.common.by import By

from helpers import waiting

MEASURES = (pathlib.Path(__file__).parent / "contrast.js").read_text()
WORDS = "--headless=new", "--disable-gpu", "--disable-dev-shm-usage", "--no-proxy-server", "--window-size=1280,900"
# Elements that Tab may come to before the one that is looked for.
MOST_STOPS = 25


class Browser:
    """A browser, and the page that it shows, as wide and high as a computer's window or of another size."""

    def __init__(self, width=1280, height=820, touch=False):
        options = webdriver.ChromeOptions()
        for word in (*WORDS, *(["--no-sandbox"] if os.getuid() == 0 else [])):
            options.add_argument(word)
        self.driver = webdriver.Chrome(service=Service("/usr/bin/chromedriver"), options=options)
        self.driver.set_script_timeout(waiting.PATIENCE)
        self.driver.set_page_load_timeout(waiting.PATIENCE)
        self.resize(width, height, touch)

    def __enter__(self):
        return self

    def __exit__(self, *_):
        self.driver.quit()

    def resize(self, width, height, touch=False):
        """Makes the page so many pixels wide and high, on a screen that is touched or not."""
        size = {"width": width, "height": height, "deviceScaleFactor": 1, "mobile": touch}
        self.order("Emulation.setDeviceMetricsOverride", **size)
        self.order("Emulation.setTouchEmulationEnabled", enabled=touch)

    def order(self, command, **words):
        """A command of the browser's own interface for tools, and what it answers."""
        return self.driver.execute_cdp_cmd(command, words)

    def before_each_page(self, text):
        """A script that runs before those of each page that is shown from now on."""
        self.order("Page.addScriptToEvaluateOnNewDocument", source=text)

    def show(self, address):
        self.address = address
        self.driver.get(address.geturl())
        self.wait("idle")

    def run(self, text, *words):
        """What a script gives that ends with `return`."""
        return self.driver.execute_script(text, *words)

    def page(self, text, *words):
        """The value of an expression over the page's `state`, its `map` (Leaflet's) and these `words`."""
        script = (
            "const [words, done] = arguments; import('/page/page.js').then(({ state }) => { const map = state.map.map;"
            f"return {text}; }}).then(done, fault => done(String(fault)));"
        )
        return self.driver.execute_async_script(script, list(words))

    def measure(self, text, *words):
        """The value of an expression over the functions of contrast.js and these `words`."""
        script = f"{MEASURES}\nconst [words, done] = arguments; Promise.resolve({text}).then(done, fault => done(String(fault)));"
        return self.driver.execute_async_script(script, list(words))

    def find(self, name):
        return self.driver.find_element(By.ID, name)

    def all(self, selector):
        return self.driver.find_elements(By.CSS_SELECTOR, selector)

    def until(self, holds, told=""):
        """Waits until a call gives what is true, and gives it."""
        return waiting.until(holds, lambda: (told, self.state(), self.message()))

    def wait(self, *states):
        """Waits until the page is in one of these states."""
        return self.until(lambda: self.state() in states and self.state(), states)

    def state(self):
        return self.run("return document.body.dataset.state")

    def message(self):
        return self.text("message")

    def text(self, name):
        """The text of an element, shown or not; of a field what stands in it."""
        return self.run("const found = document.getElementById(arguments[0]); return found.value ?? found.textContent", name)

    def faults(self):
        """What the browser found wrong with the page, without answers that tell of a fault of the user."""
        return [line for line in self.driver.get_log("browser") if line["level"] == "SEVERE" and "status of 400" not in line["message"]]

    # The keyboard.

    def keys(self, *keys):
        """Presses keys, wherever the focus is."""
        ActionChains(self.driver).send_keys(*keys).perform()

    def with_shift(self, key):
        ActionChains(self.driver).key_down(Keys.SHIFT).send_keys(key).key_up(Keys.SHIFT).perform()

    def fill(self, name, *keys):
        """Types over what stands in a field. Where it has no focus yet, the mouse gives it."""
        if self.focus() != name:
            self.find(name).click()
        ActionChains(self.driver).key_down(Keys.CONTROL).send_keys("a").key_up(Keys.CONTROL).send_keys(*keys).perform()

    def focus(self):
        """The id of what has the focus, or its classes."""
        return self.run("const found = document.activeElement; return found.id || found.className")

    def tab_to(self, name, back=False):
        """Goes by the key Tab, or back by Shift and Tab, to the element of this id or class."""
        for _ in range(MOST_STOPS):
            if name in self.focus().split():
                return
            self.with_shift(Keys.TAB) if back else self.keys(Keys.TAB)
        raise AssertionError(f"no Tab leads to {name}")

    # The mouse.

    def pixel(self, place):
        """Where a place is, from the middle of the map."""
        text = "[map.latLngToContainerPoint([words[1], words[0]]), map.getSize()]"
        at, size = self.page(text, *place)
        return [round(at["x"] - size["x"] / 2), round(at["y"] - size["y"] / 2)]

    def click(self, place):
        ActionChains(self.driver).move_to_element_with_offset(self.find("map"), *self.pixel(place)).click().perform()

    def press_long(self, place):
        """A long press on the map, which a mouse makes by its right button."""
        ActionChains(self.driver).move_to_element_with_offset(self.find("map"), *self.pixel(place)).context_click().perform()

    def hover(self, element):
        ActionChains(self.driver).move_to_element(element).perform()

    def drag(self, end, place):
        """Drags a pin to a place."""
        (x, y), (u, v) = self.pixel(self.at(end)), self.pixel(place)
        actions = ActionChains(self.driver).move_to_element_with_offset(self.find("map"), x, y - 20).click_and_hold()
        # Leaflet takes a move of more than three pixels for a drag, and leaves that first move out.
        for part in (4 / max(abs(u - x), abs(v - y)), 0.5, 1):
            actions = actions.move_to_element_with_offset(self.find("map"), round(x + (u - x) * part), round(y + (v - y) * part) - 20)
        actions.pause(0.3).release().perform()

    # What it shows.

    def at(self, end):
        """Where a pin is: [longitude, latitude], as the page asks for it."""
        return self.page("[state.map.at(words[0])].map(at => [at.lng, at.lat].map(part => Number(part.toFixed(7))))[0]", end)

    def weight(self, way="there"):
        return self.find(way).get_attribute("data-weight")

    def line(self):
        """The places of the route that is drawn as chosen."""
        return self.page(
            "(() => { let found = []; state.map.answer.eachLayer(group => group.eachLayer?.(line => {"
            "if (/chosen/.test(line.options.className)) found = line.getLatLngs().map(at => [at.lng, at.lat]); })); return found; })()"
        )

    def parts(self):
        """What screen readers are told: the roles and names of all parts, and in order of those that take the focus."""
        known, stops = set(), []
        for node in self.order("Accessibility.getFullAXTree")["nodes"]:
            if not node["ignored"] and "name" in node:
                part = node["role"]["value"], node["name"]["value"]
                known.add(part)
                stops += [part] if any(each["name"] == "focusable" for each in node["properties"]) else []
        return known, stops

    def picture(self):
        """What the page looks like: the bytes of a PNG, in base 64."""
        return self.order("Page.captureScreenshot")["data"]

    def save(self, path):
        pathlib.Path(path).write_bytes(base64.b64decode(self.picture()))
