// Places by name and by coordinates.
import { Refused } from "./service.js";

// A number of degrees, with the letter of its half of the globe or without; then another one.
const DEGREES = String.raw`([+-]?\d+(?:\.\d+)?)\s*°?\s*`;
const PAIR = new RegExp(String.raw`^${DEGREES}([NS])?(?:\s*[,;]\s*|\s+|(?<=[NS]))${DEGREES}([EW])?$`, "i");

/** Text as it is compared: without accents and case. */
function plain(text) {
  return text.normalize("NFD").replace(/\p{M}/gu, "").toLowerCase().trim();
}

/** The places whose names have the text in them, at most so many: first those it is all of, then those it begins. */
export function placesLike(text, places, most) {
  const wanted = plain(text);
  const ranks = [name => name === wanted, name => name.startsWith(wanted), name => name.includes(wanted)];
  const rankOf = name => ranks.findIndex(isLike => isLike(name));
  const found = places.map(place => [rankOf(plain(place.name)), place]).filter(([rank]) => rank >= 0);
  return found.sort(([one], [other]) => one - other).slice(0, most).map(([, place]) => place);
}

/** The point that a text has as `latitude, longitude` in degrees, or null where it has another form. Numbers out of range are refused. */
export function pointIn(text) {
  const words = text.trim().replaceAll("\u2212", "-");
  // Degrees may have decimal commas where a blank or a semicolon parts them.
  const found = PAIR.exec(words) ?? PAIR.exec(words.replace(/(\d),(\d)/g, "$1.$2"));
  if (!found) {
    return null;
  }
  const lat = Number(found[1]) * (/s/i.test(found[2]) ? -1 : 1);
  const lng = Number(found[3]) * (/w/i.test(found[4]) ? -1 : 1);
  if (Math.abs(lat) > 90) {
    throw new Refused(`The latitude ${lat} is not from -90 to 90. Type the latitude, then the longitude.`);
  }
  if (Math.abs(lng) > 180) {
    throw new Refused(`The longitude ${lng} is not from -180 to 180. Type the latitude, then the longitude.`);
  }
  return { lat, lng };
}

/** The point of the place that a text names: by its whole name, by coordinates, or unless `isWhole` by a part of its name. */
export function pointOf(text, places, isWhole) {
  const [like] = placesLike(text, places, 1);
  const isNamed = like && plain(like.name) === plain(text);
  const point = isNamed ? null : pointIn(text);
  if (!point && !isNamed && (isWhole || !like)) {
    throw new Refused(`No place here is called “${text.trim()}”. Type ${places.length ? "another name, or " : ""}latitude, longitude.`);
  }
  return point ?? { lat: like.at[1], lng: like.at[0] };
}
