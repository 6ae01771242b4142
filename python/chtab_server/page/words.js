// Weights, lengths and places in words.

/** A weight: hours and minutes where the graph's unit is milliseconds, a length where it is metres, and else the number. */
export function weightTold(weight, unit) {
  if (unit === "metres") {
    return lengthTold(weight);
  }
  if (unit !== "milliseconds") {
    return weight.toLocaleString("en");
  }
  const minutes = weight / 60000;
  const whole = Math.round(minutes);
  if (whole >= 60) {
    return `${Math.floor(whole / 60)} h ${whole % 60} min`;
  }
  return minutes < 9.95 ? `${minutes.toFixed(1)} min` : `${whole} min`;
}

/** A length, from metres. */
export function lengthTold(metres) {
  return metres < 999.5 ? `${Math.round(metres)} m` : `${(metres / 1000).toFixed(metres < 99950 ? 1 : 0)} km`;
}

/** A point of the map, {lat, lng} in degrees, as a field takes it. */
export function pointTold(at) {
  return `${at.lat.toFixed(5)}, ${at.lng.toFixed(5)}`;
}

const COMPASS = ["north", "northeast", "east", "southeast", "south", "southwest", "west", "northwest"];
const onto = (step, word = "onto") => {
  const name = step.name || step.ref;
  return name ? ` ${word} ${name}` : "";
};
const towards = step => (step.destinations ? ` towards ${step.destinations}` : onto(step));
const sideOf = step => step.maneuver.modifier.replace("slight ", "").replace("sharp ", "");

// What is said of each maneuver of OSRM's interface.
const MANEUVERS = {
  turn: step => (step.maneuver.modifier === "straight" ? `Go straight on${onto(step)}` : `Turn ${step.maneuver.modifier}${onto(step)}`),
  continue: step => (step.maneuver.modifier === "uturn" ? "Make a U-turn" : `Turn ${step.maneuver.modifier}${onto(step, "to stay on")}`),
  "new name": step => `Continue${onto(step)}`,
  "end of road": step => `At the end of the road turn ${step.maneuver.modifier}${onto(step)}`,
  fork: step => `Keep ${sideOf(step)} at the fork${onto(step)}`,
  merge: step => `Merge ${sideOf(step)}${onto(step)}`,
  "on ramp": step => `Take the ramp${towards(step)}`,
  "off ramp": step => `Take the exit${towards(step)}`,
  notification: step => (step.mode === "ferry" ? `Take the ferry${onto(step, "")}` : `Leave the ferry${onto(step)}`),
  roundabout: step => ringTold(step, "the roundabout"),
  rotary: step => ringTold(step, step.rotary_name),
  "exit roundabout": step => `Leave the roundabout${onto(step)}`,
  "exit rotary": step => `Leave ${step.rotary_name}${onto(step)}`,
};

function ringTold(step, ring) {
  return step.maneuver.exit ? `At ${ring} take exit ${step.maneuver.exit}${onto(step)}` : `Enter ${ring}`;
}

/** A step of OSRM's interface in words, or "" where the one before it has said it: leaving a ring by the exit that was said, and setting out anew
 * from a place on the way. `goal` is what the end of its leg is called. */
export function maneuverTold(step, before, goal, isNext) {
  const { type, exit, bearing_after: bearing } = step.maneuver;
  if (type === "depart") {
    return isNext ? "" : `Head ${COMPASS[Math.round(bearing / 45) % 8]}${onto(step, "on")}`;
  }
  if (type === "arrive") {
    return `Arrive at ${goal}`;
  }
  return type.startsWith("exit") && exit && before?.maneuver.exit === exit ? "" : (MANEUVERS[type] ?? MANEUVERS.turn)(step);
}
