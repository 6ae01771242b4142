// The map: roads, places with names, the two pins, and what was found.
/* global L */

// How many pixels an arrow key moves a pin, without and with Shift.
const STEP = 10, STRIDE = 50;
const ARROWS = { ArrowLeft: [-1, 0], ArrowRight: [1, 0], ArrowUp: [0, -1], ArrowDown: [0, 1] };
const LETTERS = { start: "A", goal: "B" };
/** What a pin is called: A, B, or the number of a place on the way. */
export const letterOf = (end, vias) => LETTERS[end] ?? String(vias.indexOf(end) + 1);
// A point so many metres from a place, or nearer, is called by the place's name.
const NEAR = 300;
// A click within so many milliseconds after a pin was dropped belongs to the drop.
const DROP = 250;

const element = (name, className, ...children) => {
  const made = document.createElement(name);
  made.className = className;
  made.append(...children);
  return made;
};
const latLng = ([longitude, latitude]) => [latitude, longitude];

export class RoadMap {
  /** Makes a map in an element of the page. `network` is the service's description of it. `handlers` has the functions that are called on
   * what the user does: `clicked(at)`, `moving(end)`, `moved(end)` and `removed(end)`. `covered()` gives how much of the map is covered,
   * in pixels from each edge: {top, right, bottom, left}. */
  constructor(into, network, handlers, covered) {
    Object.assign(this, { network, handlers, covered, pins: { start: null, goal: null }, dropped: -Infinity });
    this.animate = !matchMedia("(prefers-reduced-motion: reduce)").matches;
    const motion = Object.fromEntries(["fadeAnimation", "zoomAnimation", "markerZoomAnimation", "inertia"].map(name => [name, this.animate]));
    this.map = L.map(into, { zoomControl: false, minZoom: 3, maxZoom: 19, zoomSnap: .25, attributionControl: false, ...motion });
    this.fit();
    this.addControls();
    this.addLayers();
    this.addLabels();
    this.map.on("click", event => performance.now() - this.dropped < DROP || handlers.clicked(event.latlng));
    this.map.on("contextmenu", event => handlers.pressedLong(event.latlng));
  }

  /** Shows the whole network. */
  fit() {
    const [west, south, east, north] = this.network.bounds;
    this.map.fitBounds([[south, west], [north, east]], this.clear());
  }

  /** How far a pin has to stay from the map's edges, so that all of it is seen: options of Leaflet's `fitBounds`. */
  clear() {
    const { top, right, bottom, left } = this.covered();
    return { paddingTopLeft: [left + 30, top + 50], paddingBottomRight: [right + 70, bottom + 30], animate: this.animate };
  }

  addControls() {
    const notes = L.control({ position: "bottomright" });
    notes.onAdd = () => element("div", "notes", ["chtab", this.network.notes].filter(Boolean).join(" | "));
    notes.addTo(this.map);
    L.control.scale({ imperial: false, position: "bottomright" }).addTo(this.map);
    L.control.zoom({ position: "bottomright" }).addTo(this.map);
  }

  addLayers() {
    this.map.createPane("ground");
    this.map.createPane("reach");
    if (this.network.tiles) {
      document.body.classList.add("tiled");
      L.tileLayer(this.network.tiles, { maxZoom: 19, pane: "ground" }).addTo(this.map);
    }
    L.tileLayer("roads/{z}/{x}/{y}.svg", { maxZoom: 19, opacity: this.network.tiles ? .55 : 1 }).addTo(this.map);
    this.answer = L.featureGroup().addTo(this.map);
  }

  addLabels() {
    const style = { radius: 3, weight: 1.5, opacity: 1, fillOpacity: 1, interactive: false, className: "dot-of-place" };
    this.labels = this.network.places.map(({ name, at }) => {
      const dot = L.circleMarker(latLng(at), style);
      // The label is an element, because Leaflet takes a string for HTML.
      dot.bindTooltip(element("span", "", name), { permanent: true, direction: "right", offset: [5, 0], className: "place" });
      return dot.addTo(this.map).getTooltip();
    });
    // Screen readers find the same names in the lists of the fields.
    this.map.getPane("tooltipPane").setAttribute("aria-hidden", "true");
    this.map.on("zoomend", () => this.showLabels());
    this.showLabels();
  }

  /** Shows each label that overlaps no earlier one, and hides the others. */
  showLabels() {
    const shown = [];
    for (const label of this.labels.map(tooltip => tooltip.getElement())) {
      const box = label.getBoundingClientRect();
      const isFree = shown.every(other => box.right < other.left || other.right < box.left || box.bottom < other.top || other.bottom < box.top);
      label.style.visibility = isFree ? "visible" : "hidden";
      if (isFree) {
        shown.push(box);
      }
    }
  }

  // Pins.

  /** Where a pin is, {lat, lng} in degrees, or null where it is not set. */
  at(end) {
    return this.pins[end]?.getLatLng() ?? null;
  }

  /** Sets a pin to a point, or with null takes it away. */
  setPin(end, at) {
    if (!at) {
      this.pins[end]?.remove();
      this.pins[end] = null;
    } else if (this.pins[end]) {
      this.pins[end].setLatLng(at);
    } else {
      this.pins[end] = this.addPin(end, at);
    }
  }

  addPin(end, at) {
    const head = element("b", LETTERS[end] ? end : "via", element("i", "", LETTERS[end] ?? ""));
    const icon = L.divIcon({ className: "pin", html: head, iconSize: [44, 44], iconAnchor: [22, 42] });
    const pin = L.marker(at, { icon, draggable: true, zIndexOffset: 500 }).addTo(this.map);
    pin.on("drag", () => this.handlers.moving(end)).on("dragend", () => {
      // After a fast drop the map gets a click too.
      this.dropped = performance.now();
      this.handlers.moved(end);
    });
    const words = { role: "button", "aria-roledescription": "pin", "aria-describedby": "pin-help" };
    Object.entries(words).forEach(([name, value]) => pin.getElement().setAttribute(name, value));
    pin.getElement().addEventListener("keydown", event => this.onKey(end, event));
    pin.getElement().addEventListener("focus", () => this.keepPinInView(pin));
    return pin;
  }

  /** Gives a pin its letter and its name for screen readers, and shows or hides it. */
  describePin(end, letter, told, isShown) {
    const pin = this.pins[end]?.getElement();
    if (pin) {
      pin.querySelector("i").textContent = letter;
      pin.setAttribute("aria-label", `${letter}: ${told}`);
      pin.hidden = !isShown;
    }
  }

  onKey(end, event) {
    if (event.key === "Delete" || event.key === "Backspace") {
      event.preventDefault();
      this.handlers.removed(end);
    } else if (Object.hasOwn(ARROWS, event.key) && !event.altKey && !event.ctrlKey && !event.metaKey) {
      event.preventDefault();
      const pixels = L.point(ARROWS[event.key]).multiplyBy(event.shiftKey ? STRIDE : STEP);
      const pin = this.pins[end];
      pin.setLatLng(this.map.unproject(this.map.project(pin.getLatLng()).add(pixels)));
      this.keepPinInView(pin);
      this.handlers.moving(end);
    }
  }

  /** Moves the map to a pin that has the focus by the keyboard, where it isn't seen. */
  keepPinInView(pin) {
    if (pin.getElement().matches(":focus-visible")) {
      this.map.panInside(pin.getLatLng(), this.clear());
    }
  }

  /** The name of the nearest place to a point, or null where none is near. */
  nameNear(at) {
    let [name, least] = [null, NEAR];
    for (const place of this.network.places) {
      const metres = this.map.distance(latLng(place.at), at);
      [name, least] = metres < least ? [place.name, metres] : [name, least];
    }
    return name;
  }

  /** Moves the map, and zooms out where it has to, so that the pins and what was found are seen beside the panel. */
  keepInView() {
    const bounds = this.answer.getBounds();
    for (const pin of Object.values(this.pins).filter(pin => pin && !pin.getElement().hidden)) {
      bounds.extend(pin.getLatLng());
    }
    const { paddingTopLeft: [left, top], paddingBottomRight: [right, bottom] } = this.clear();
    const size = this.map.getSize();
    const isSeen = ({ x, y }) => x >= left && y >= top && x <= size.x - right && y <= size.y - bottom;
    const corners = bounds.isValid() ? [bounds.getNorthWest(), bounds.getSouthEast()] : [];
    if (!corners.every(at => isSeen(this.map.latLngToContainerPoint(at)))) {
      this.map.fitBounds(bounds, { ...this.clear(), maxZoom: this.map.getZoom() });
    }
  }

  // What was found.

  clearAnswer() {
    this.answer.clearLayers();
    this.point = null;
  }

  /** Marks the point of a maneuver, [longitude, latitude], and moves the map where it isn't seen. */
  showPoint(at) {
    this.point?.remove();
    this.point = L.circleMarker(latLng(at), { radius: 9, weight: 4, opacity: 1, fillOpacity: 1, interactive: false, className: "turn-point" });
    this.point.addTo(this.answer);
    this.map.panInside(latLng(at), this.clear());
  }

  /** Draws both ways, Features of GeoJSON, and over them the chosen one: "there" or "back". */
  showWays(ways, chosen) {
    for (const name of [chosen === "there" ? "back" : "there", chosen]) {
      if (ways[name].geometry) {
        this.drawWay(name, ways[name], name === chosen);
      }
    }
  }

  drawWay(name, way, isChosen) {
    const draw = style => L.geoJSON(way, { interactive: false, style: { lineCap: "round", lineJoin: "round", opacity: 1, ...style } }).addTo(this.answer);
    draw({ weight: isChosen ? 10 : 6, className: "way-line below" });
    draw(isChosen ? { weight: 6, className: `way-line chosen ${name}` } : { weight: 4, dashArray: "1 8", className: `way-line other ${name}` });
    if (isChosen) {
      const { from, to } = way.properties;
      const [start, goal] = name === "there" ? [from, to] : [to, from];
      this.drawGap("start", start.at);
      this.drawGap("goal", goal.at);
    }
  }

  /** The line from a pin to the road that its place was taken to. */
  drawGap(end, at) {
    L.polyline([this.at(end), latLng(at)], { weight: 2.5, dashArray: "1 6", opacity: 1, interactive: false, className: "beside" }).addTo(this.answer);
  }

  /** Draws a collection of GeoJSON with a polygon for each limit; `limits` are in the order of the bands' colours. */
  showReach(reach, limits) {
    const style = feature => ({
      weight: 1.2, opacity: 1, fillOpacity: 1, className: `band band-${limits.indexOf(feature.properties.limit)}`,
    });
    const largestFirst = [...reach.features].sort((one, other) => other.properties.limit - one.properties.limit);
    L.geoJSON(largestFirst, { interactive: false, pane: "reach", style }).addTo(this.answer);
  }
}
