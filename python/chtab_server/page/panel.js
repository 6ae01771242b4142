// The panel: what was found, in words.
import { lengthTold, weightTold } from "./words.js";

const BANDS = 5;
const NO_WAY = { there: "There is no way from A to B.", back: "There is no way from B to A." };
const UNITS = { milliseconds: ["min", 60000], metres: ["km", 1000] };
const ARROWS = { there: ["A → B", "A to B"], back: ["B → A", "B to A"] };

export const byId = id => document.getElementById(id);

function span(className, text) {
  const made = document.createElement("span");
  made.className = className;
  made.textContent = text;
  return made;
}

/** Shows what is wrong, or with "" that nothing is. */
export function tell(message) {
  byId("message").textContent = message;
}

/** Says what was found: screen readers announce it, and a folded sheet shows it. */
export function say(words) {
  byId("said").textContent = words;
}

/** Shows the weights and lengths of both ways. `chosen` is the one that is marked: "there" or "back". */
export function showWays(ways, chosen, unit) {
  const told = Object.keys(ARROWS).map(name => {
    const { weight, metres } = ways[name].properties;
    const words = weight === null ? ["no way"] : [weightTold(weight, unit), ...(unit === "metres" ? [] : [lengthTold(metres)])];
    showWay(name, weight, words, name === chosen);
    return `${ARROWS[name][1]}: ${words.join(", ")}.`;
  });
  const missing = Object.keys(NO_WAY).filter(name => !ways[name].geometry);
  tell(missing.length === 2 ? "There is no way between A and B, in either direction." : missing.map(name => NO_WAY[name]).join(""));
  say(told.join(" "));
}

function showWay(name, weight, [first, second = ""], isChosen) {
  const line = byId(name);
  const arrow = span("arrow", "");
  const [seen, heard] = ARROWS[name];
  arrow.append(span("", seen), span("unseen", heard));
  arrow.firstChild.setAttribute("aria-hidden", "true");
  line.replaceChildren(arrow, span("weight", first), span("metres", second));
  line.dataset.weight = weight ?? "";
  line.setAttribute("aria-pressed", isChosen);
}

/** The weight of one step of the slider: a minute or a kilometre. For a graph without a unit it depends on the number of nodes. */
function unitSize(network) {
  return UNITS[network.unit]?.[1] ?? Math.max(1, Math.round(network.nodes / 30));
}

/** The limits of the bands that the slider asks for, as weights. */
export function limitsOf(network) {
  const longest = Number(byId("longest").value);
  return Array.from({ length: BANDS }, (_, band) => Math.round(longest * (band + 1) / BANDS * unitSize(network)));
}

/** Shows the slider's limit in words, and the colours of the bands. */
export function showBands(network) {
  const longest = weightTold(Number(byId("longest").value) * unitSize(network), network.unit).replace(".0", "");
  byId("longest-told").textContent = longest;
  byId("longest").setAttribute("aria-valuetext", longest);
  const [name, size] = UNITS[network.unit] ?? ["", 1];
  const ends = [0, ...limitsOf(network)].map(limit => (limit / size).toLocaleString("en"));
  byId("bands").replaceChildren(...ends.slice(1).map((end, band) => {
    const item = document.createElement("li");
    const square = document.createElement("i");
    square.className = `band-${band}`;
    item.append(square, `${ends[band]}–${end} ${name}`.trim());
    return item;
  }));
}
