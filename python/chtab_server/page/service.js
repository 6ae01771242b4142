// What the page asks the service for: docs/SERVICE.md has the requests.

/** A refusal, whose message is a sentence for the user. */
export class Refused extends Error {}

/** The answer to a request: a GET, or with fields a POST. A `Refused` says what went wrong, an `AbortError` that `signal` withdrew it. */
export async function ask(path, fields, signal) {
  const request = fields && { method: "POST", headers: { "Content-Type": "application/json" }, body: JSON.stringify(fields) };
  let answer, value;
  try {
    answer = await fetch(path, { ...request, signal });
    value = await answer.json();
  } catch (fault) {
    signal?.throwIfAborted();
    throw new Refused(answer ? "The service's answer is not JSON." : "The service does not answer. Is it still running?");
  }
  if (!answer.ok) {
    throw new Refused(sentence(String(value?.error ?? `the service refused with status ${answer.status}`)));
  }
  return value;
}

/** The best ways over some places, [longitude, latitude] each, there and back: Features of GeoJSON. `names` are what the places are called. */
export async function waysOver(places, names, signal) {
  const asked = [wayOver(places, names, signal), wayOver([...places].reverse(), [...names].reverse(), signal)];
  // The faults of both are alike, and those of the way there are shown.
  await Promise.allSettled(asked);
  return { there: await asked[0], back: await asked[1] };
}

/** The best way from each of some places to the next, as one Feature. */
async function wayOver(places, names, signal) {
  const asked = places.slice(1).map((place, index) => ask("api/route", { from: places[index], to: place }, signal).catch(fault => {
    // Messages call the places of a request A and B.
    throw fault instanceof Refused ? new Refused(renamed(fault.message, { A: names[index], B: names[index + 1] })) : fault;
  }));
  await Promise.allSettled(asked);
  const parts = await Promise.all(asked);
  const [first, last] = [parts[0].properties, parts.at(-1).properties];
  const isWay = parts.every(({ geometry }) => geometry);
  const sum = name => (isWay ? parts.reduce((total, { properties }) => total + properties[name], 0) : null);
  return {
    type: "Feature",
    properties: { ...first, to: last.to, weight: sum("weight"), metres: sum("metres") },
    geometry: isWay ? { type: "LineString", coordinates: parts.flatMap(({ geometry }) => geometry.coordinates) } : null,
  };
}

/** A message whose clauses call places by other names. */
function renamed(message, names) {
  return message.split("; ").map(clause => clause.replace(/^[AB](?= is )/, letter => names[letter])).join("; ");
}

/** The route of OSRM's interface over some places, with its maneuvers. */
export async function turnsOver(places, profile, signal) {
  const value = await ask(`route/v1/${encodeURIComponent(profile)}/${places.map(place => place.join(",")).join(";")}?steps=true&overview=false&geometries=geojson`, null, signal);
  return value.routes[0];
}

/** What is reached from a place within limits, which are weights: a collection of GeoJSON. */
export function reachFrom(start, limits, signal) {
  return ask("api/reach", { from: start, limits }, signal);
}

/** A line of the service as a sentence. */
function sentence(line) {
  return line.charAt(0).toUpperCase() + line.slice(1) + (/[.!?]$/.test(line) ? "" : ".");
}
