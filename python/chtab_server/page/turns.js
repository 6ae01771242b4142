// The list of turns: a row for each maneuver of the chosen way, which shows its point on the map.
import { byId } from "./panel.js";
import { lengthTold, maneuverTold } from "./words.js";

/** The rows of a route of OSRM's interface: their text, length in metres and point. `names` are what its places are called. */
export function rowsOf(route, names) {
  return route.legs.flatMap(({ steps }, leg) => steps.map((step, index) => {
    const text = maneuverTold(step, steps[index - 1], names[leg + 1], leg > 0 && index === 0);
    return { text, metres: step.distance, at: step.maneuver.location };
  })).filter(({ text }) => text);
}

/** Shows rows, none with []. `show(at)` is called with the point of the row that is pressed, or gone to by arrow keys. */
export function showTurns(rows, show) {
  byId("turns-part").hidden = !rows.length;
  byId("turns").replaceChildren(...rows.map((row, index) => {
    const item = document.createElement("li");
    const button = document.createElement("button");
    button.type = "button";
    button.tabIndex = index ? -1 : 0;
    const [text, length] = ["span", "span"].map(name => document.createElement(name));
    text.textContent = row.text;
    length.textContent = row.metres ? lengthTold(row.metres) : "";
    length.className = "metres";
    button.append(text, length);
    button.addEventListener("click", () => show(row.at));
    button.addEventListener("focus", () => button.matches(":focus-visible") && show(row.at));
    item.append(button);
    return item;
  }));
}

/** Arrow keys, Home and End go from row to row; Tab goes to the list once, and on. */
export function beginTurns() {
  byId("turns").addEventListener("keydown", event => {
    const buttons = [...byId("turns").querySelectorAll("button")];
    const here = buttons.indexOf(document.activeElement);
    const ways = { ArrowDown: here + 1, ArrowUp: here - 1, Home: 0, End: buttons.length - 1 };
    const next = buttons[ways[event.key]];
    if (Object.hasOwn(ways, event.key)) {
      event.preventDefault();
    }
    if (next) {
      buttons[here].tabIndex = -1;
      next.tabIndex = 0;
      next.focus({ focusVisible: true });
      next.scrollIntoView({ block: "nearest" });
    }
  });
}
