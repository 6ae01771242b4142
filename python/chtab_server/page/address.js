// What the page shows, as the part of its address behind #: A, B, places on the way, the mode and the way.

const PLACE = /^(-?\d{1,3}(?:\.\d+)?),(-?\d{1,3}(?:\.\d+)?)$/;

function pointIn(text) {
  const found = PLACE.exec(text);
  const [lat, lng] = found ? found.slice(1).map(Number) : [NaN, NaN];
  return Math.abs(lat) <= 90 && Math.abs(lng) <= 180 ? { lat, lng } : null;
}

const told = at => `${at.lat.toFixed(6)},${at.lng.toFixed(6)}`;

/** What an address says: {start, goal, vias, mode, way}; a place that is none is left out. */
export function read(hash, most) {
  const words = new URLSearchParams(hash.replace(/^#/, ""));
  const [start, goal] = ["a", "b"].map(name => pointIn(words.get(name) ?? ""));
  const vias = (words.get("via") ?? "").split(";").map(pointIn).filter(Boolean).slice(0, most);
  return { start, goal, vias, mode: words.get("mode") === "reach" ? "reach" : "route", way: words.get("way") === "back" ? "back" : "there" };
}

/** Writes what the page shows into its address; the way back of the browser stays as it is. */
export function write({ start, goal, vias, mode, way }) {
  const parts = [
    ...(start ? [`a=${told(start)}`] : []), ...(goal ? [`b=${told(goal)}`] : []), ...(vias.length ? [`via=${vias.map(told).join(";")}`] : []),
    ...(mode === "route" ? [] : [`mode=${mode}`]), ...(way === "there" ? [] : [`way=${way}`]),
  ];
  const hash = parts.length ? `#${parts.join("&")}` : "";
  if (hash !== location.hash) {
    history.replaceState(null, "", hash || location.pathname + location.search);
  }
}
