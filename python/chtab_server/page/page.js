// The page of a network: two places and the ways between them, or one place and what is reached from it.
import * as address from "./address.js";
import { PlaceField } from "./field.js";
import { letterOf, RoadMap } from "./map.js";
import { byId, limitsOf, say, showBands, showWays, tell } from "./panel.js";
import { ask, reachFrom, Refused, turnsOver, waysOver } from "./service.js";
import { beginSheet, covered } from "./sheet.js";
import { beginTurns, rowsOf, showTurns } from "./turns.js";
import { pointTold } from "./words.js";

const ENDS = ["start", "goal"];
// The field of a place on the way, and how many of these there may be.
const VIA = "via", MOST_VIAS = 8;
const MODES = ["route", "reach"];
// Milliseconds after the last move of a pin in which reach is not asked for.
const REST = 300;

/** What the page shows now. `request` is underway, `isBehind` says that a pin has moved since, `later` is the timer of a request that
 * waits, and `isSought` says that the map has to move to the answer. `vias` has the pins of places on the way, in order, of which `made` were
 * set up to now. */
export const state = {
  network: null, map: null, fields: {}, mode: "route", way: "there", request: null, isBehind: false, later: 0, isSought: false, vias: [], made: 0,
};

const lonLat = at => [at.lng, at.lat].map(part => Number(part.toFixed(7)));
const show = name => {
  document.body.dataset.state = name;
};

/** The name of the place at a point, or the point itself. */
const told = at => state.map.nameNear(at) ?? pointTold(at);

/** The pins that the way leads over. */
const stops = () => ["start", ...state.vias, "goal"];

/** Sets a place, or with null takes it away, and asks anew. */
function setPlace(end, at) {
  state.map.setPin(end, at);
  if (!at) {
    state.vias = state.vias.filter(via => via !== end);
  }
  tell("");
  showPlaces();
  return update();
}

function showPlaces() {
  const isRoute = state.mode === "route";
  for (const end of ENDS) {
    const at = state.map.at(end);
    state.fields[end].show(at ? told(at) : "");
  }
  for (const end of stops()) {
    const at = state.map.at(end);
    state.map.describePin(end, letterOf(end, state.vias), at ? told(at) : "", isRoute || end === "start");
  }
  byId("via-line").hidden = !isRoute || !ENDS.every(end => state.map.at(end)) || state.vias.length >= MOST_VIAS;
  byId("goal-line").hidden = !isRoute;
  byId("swap").hidden = !isRoute;
  byId("hint").hidden = Boolean(state.map.at("start") && (!isRoute || state.map.at("goal")));
  byId("reach-view").hidden = isRoute;
  const [start, goal, ...vias] = [...ENDS, ...state.vias].map(end => state.map.at(end));
  address.write({ start, goal, vias, mode: state.mode, way: state.way });
}

/** Adds a place on the way. */
function addVia(at) {
  if (at && state.mode === "route" && ENDS.every(end => state.map.at(end)) && state.vias.length < MOST_VIAS) {
    const end = `${VIA}${state.made += 1}`;
    state.vias.push(end);
    setPlace(end, at);
  }
}

/** Asks for what the page has to show now. A request that is still underway is withdrawn. */
async function update() {
  clearTimeout(state.later);
  state.request?.abort();
  const request = new AbortController();
  state.request = request;
  state.isBehind = false;
  const [start, goal] = ENDS.map(end => state.map.at(end));
  if (!start || (state.mode === "route" && !goal)) {
    showAnswer({});
    moveToAnswer();
    return;
  }
  document.body.classList.add("busy");
  show("busy");
  const answered = answerFor(lonLat(start), request.signal);
  const showing = await answered.then(answer => () => showAnswer(answer), fault => () => showFault(fault));
  if (state.request === request) {
    showing();
    moveToAnswer();
    if (state.isBehind) {
      update();
    } else if (document.body.dataset.state === "route") {
      tellTurns(request);
    }
  }
}

/** Shows the turns of the chosen way, as long as nothing else is asked for. */
async function tellTurns(request) {
  state.turning = request;
  if (state.network.unit !== "milliseconds") {
    return;
  }
  const ends = state.way === "there" ? stops() : stops().reverse();
  const names = ends.map(end => letterOf(end, state.vias));
  const route = await turnsOver(ends.map(end => lonLat(state.map.at(end))), state.network.profile, request.signal).catch(() => null);
  if (route && state.turning === request) {
    showTurns(rowsOf(route, names), at => state.map.showPoint(at));
  }
}

function moveToAnswer() {
  if (state.isSought) {
    state.isSought = false;
    state.map.keepInView();
  }
}

async function answerFor(start, signal) {
  if (state.mode === "route") {
    const ends = stops();
    return { ways: await waysOver(ends.map(end => lonLat(state.map.at(end))), ends.map(end => letterOf(end, state.vias)), signal) };
  }
  const limits = limitsOf(state.network);
  return { reach: await reachFrom(start, limits, signal), limits };
}

/** Ends a request, and shows both ways, reach, or where there is neither that nothing was asked. */
function showAnswer({ ways, reach, limits }) {
  endRequest();
  tell("");
  byId("route-view").hidden = !ways;
  if (ways) {
    state.map.showWays(ways, state.way);
    showWays(ways, state.way, state.network.unit);
    show(ways[state.way].geometry ? "route" : "noway");
  } else if (reach) {
    state.map.showReach(reach, limits);
    say(`The map shows what is reached from A within ${byId("longest-told").textContent}.`);
    show("reach");
  } else {
    say("");
    show("idle");
  }
}

function showFault(fault) {
  endRequest();
  byId("route-view").hidden = true;
  say("");
  tell(fault instanceof Refused ? fault.message : `The page has a fault: ${fault.message}`);
  // A message calls the places as the page does, and tells of several in one line. The map stays, since a place may be far away.
  const clauses = fault.message.split("; ");
  for (const end of ENDS) {
    state.fields[end].mark(clauses.some(clause => clause.startsWith(`${letterOf(end, [])} is `)));
  }
  state.isSought = false;
  show("error");
}

function endRequest() {
  state.request = null;
  state.turning = null;
  state.map.clearAnswer();
  showTurns([]);
  document.body.classList.remove("busy");
}

/** While a pin moves the route follows it, one request after the other. Reach, which takes longer, waits until the pin rests. */
function follow() {
  showPlaces();
  if (state.mode === "reach") {
    clearTimeout(state.later);
    state.later = setTimeout(update, REST);
  } else if (state.request) {
    state.isBehind = true;
  } else {
    update();
  }
}

function choose(mode) {
  state.mode = mode;
  state.isSought = true;
  for (const name of MODES) {
    const tab = byId(`mode-${name}`);
    tab.setAttribute("aria-selected", name === mode);
    tab.tabIndex = name === mode ? 0 : -1;
  }
  byId("view").setAttribute("aria-labelledby", `mode-${mode}`);
  tell("");
  state.map.clearAnswer();
  showTurns([]);
  byId("route-view").hidden = true;
  showBands(state.network);
  showPlaces();
  return update();
}

/** Arrow keys go from one tab to the other. */
function onTabKey(event) {
  const ways = { ArrowRight: 1, ArrowLeft: -1, Home: -MODES.indexOf(state.mode), End: MODES.length - 1 - MODES.indexOf(state.mode) };
  if (Object.hasOwn(ways, event.key)) {
    event.preventDefault();
    choose(MODES[(MODES.indexOf(state.mode) + ways[event.key] + MODES.length) % MODES.length]);
    byId(`mode-${state.mode}`).focus();
  }
}

function swap() {
  const [start, goal] = ENDS.map(end => state.map.at(end));
  state.vias.reverse();
  state.map.setPin("start", goal);
  return setPlace("goal", start);
}

function clear() {
  for (const end of ["start", ...state.vias]) {
    state.map.setPin(end, null);
  }
  state.vias = [];
  return setPlace("goal", null);
}

/** Sets the place that a field names. The map moves where it isn't seen. */
function chosen(end, at) {
  state.isSought = Boolean(at);
  return setPlace(end, at);
}

/** What the map does with clicks and pins. */
const handlers = {
  clicked: at => setPlace(!state.map.at("start") || state.mode === "reach" ? "start" : "goal", at),
  moving: follow,
  moved: end => setPlace(end, state.map.at(end)),
  pressedLong: addVia,
  removed: end => {
    setPlace(end, null);
    byId(ENDS.includes(end) ? end : VIA).focus();
  },
};

function beginControls() {
  for (const mode of MODES) {
    byId(`mode-${mode}`).addEventListener("click", () => choose(mode));
    byId(`mode-${mode}`).addEventListener("keydown", onTabKey);
  }
  for (const way of ["there", "back"]) {
    byId(way).addEventListener("click", () => {
      state.way = way;
      showPlaces();
      update();
    });
  }
  byId("places").addEventListener("submit", event => event.preventDefault());
  byId("longest").addEventListener("input", () => showBands(state.network));
  byId("longest").addEventListener("change", update);
  byId("swap").addEventListener("click", swap);
  byId("clear").addEventListener("click", clear);
  byId("fit").addEventListener("click", () => state.map.fit());
  beginTurns();
}

/** Sets what the page's address says. */
function beginAddress() {
  const { start, goal, vias, mode, way } = address.read(location.hash, MOST_VIAS);
  state.way = way;
  state.map.setPin("start", start);
  state.map.setPin("goal", goal);
  if (start && goal) {
    state.vias = vias.map((_, index) => `${VIA}${index + 1}`);
    state.made = vias.length;
    vias.forEach((at, index) => state.map.setPin(state.vias[index], at));
  }
  choose(mode);
}

async function begin() {
  beginSheet();
  try {
    state.network = await ask("api/network");
    const { title, places, bounds: [west, south, east, north] } = state.network;
    document.title = title;
    byId("title").textContent = title;
    state.map = new RoadMap("map", state.network, handlers, covered);
    const example = [(south + north) / 2, (west + east) / 2].map(degrees => degrees.toFixed(2)).join(", ");
    state.fields = Object.fromEntries(ENDS.map(end => [end, new PlaceField(end, places, example, at => chosen(end, at))]));
    state.fields[VIA] = new PlaceField(VIA, places, example, at => {
      state.fields[VIA].show("");
      addVia(at);
    });
  } catch (fault) {
    tell(fault instanceof Refused ? fault.message : `The page has a fault: ${fault.message}`);
    show("error");
    return;
  }
  beginControls();
  beginAddress();
}

begin();
