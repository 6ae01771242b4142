// A field that takes a place: its name, with a list of those that are like it, or `latitude, longitude`.
import { placesLike, pointOf } from "./places.js";
import { Refused } from "./service.js";

// Names in the list, at most.
const MOST = 8;
const NAMES = { start: "Start", goal: "Goal", via: "On the way" };

export class PlaceField {
  /** Takes over the field of this end, "start" or "goal", its list and its line for faults. `example` is a point that may be typed. `choose` is
   * called with each point that the user chooses, and with null when the field is emptied. */
  constructor(end, places, example, choose) {
    [this.input, this.list, this.fault] = ["", "-list", "-fault"].map(part => document.getElementById(end + part));
    this.input.placeholder = `${NAMES[end]}: ${places.length ? "a name or " : ""}${example}`;
    this.places = places;
    this.choose = choose;
    // The text of the place that is set, the places in the list, and the index of the one that is marked.
    this.settled = "";
    this.offered = [];
    this.marked = -1;
    this.input.addEventListener("input", () => this.offer(this.input.value));
    this.input.addEventListener("keydown", event => this.onKey(event));
    this.input.addEventListener("focus", () => this.input.select());
    // Who presses elsewhere has not chosen the name that is marked: only a whole name is taken then.
    this.input.addEventListener("blur", () => this.settle(-1, true));
    // A press on the list leaves the focus in the field.
    this.list.addEventListener("pointerdown", event => event.preventDefault());
    this.list.addEventListener("click", event => this.settle([...this.list.children].indexOf(event.target.closest("li"))));
  }

  /** Shows the text of the place that is set now. */
  show(text) {
    this.settled = text;
    this.input.value = text;
    this.close();
    this.tell("");
  }

  /** Shows what is wrong with the place, or with "" that nothing is. */
  tell(fault) {
    this.fault.textContent = fault;
    this.mark(Boolean(fault));
  }

  /** Marks the field as one whose place is at fault. */
  mark(isWrong) {
    this.input.setAttribute("aria-invalid", isWrong);
  }

  onKey(event) {
    const keys = {
      ArrowDown: () => (this.offered.length ? this.move(1) : this.offer(this.input.value === this.settled ? "" : this.input.value)),
      ArrowUp: () => this.move(-1),
      Enter: () => this.settle(this.marked),
      Escape: () => this.show(this.settled),
    };
    if (event.key === "Tab") {
      this.settle(this.marked);
    } else if (Object.hasOwn(keys, event.key) && !event.isComposing) {
      event.preventDefault();
      keys[event.key]();
    }
  }

  /** Lists the places that are like a text. Where something was typed, the first is marked. */
  offer(text) {
    this.tell("");
    this.offered = placesLike(text, this.places, MOST);
    this.list.replaceChildren(...this.offered.map((place, index) => this.option(place.name, index)));
    this.list.hidden = !this.offered.length;
    this.input.setAttribute("aria-expanded", !this.list.hidden);
    this.marked = -1;
    if (text.trim()) {
      this.move(1);
    }
  }

  option(name, index) {
    const option = document.createElement("li");
    option.id = `${this.list.id}-${index}`;
    option.setAttribute("role", "option");
    option.textContent = name;
    return option;
  }

  /** Marks the next name of the list, or the one before. */
  move(by) {
    const count = this.offered.length;
    if (!count) {
      return;
    }
    this.marked = this.marked < 0 ? (by > 0 ? 0 : count - 1) : (this.marked + by + count) % count;
    for (const [index, option] of [...this.list.children].entries()) {
      option.setAttribute("aria-selected", index === this.marked);
    }
    this.input.setAttribute("aria-activedescendant", this.list.children[this.marked].id);
    this.list.children[this.marked].scrollIntoView({ block: "nearest" });
  }

  close() {
    this.offered = [];
    this.marked = -1;
    this.list.hidden = true;
    this.list.replaceChildren();
    this.input.setAttribute("aria-expanded", "false");
    this.input.removeAttribute("aria-activedescendant");
  }

  /** Takes the name of this index in the list. Where there is none it takes the text: coordinates, a name, or unless `isWhole` a part of one. */
  settle(index, isWhole = false) {
    const text = this.input.value;
    const chosen = this.offered[index];
    this.close();
    if (!chosen && text === this.settled) {
      return;
    }
    try {
      const point = chosen ? { lng: chosen.at[0], lat: chosen.at[1] } : text.trim() ? pointOf(text, this.places, isWhole) : null;
      this.choose(point);
    } catch (fault) {
      if (!(fault instanceof Refused)) {
        throw fault;
      }
      this.tell(fault.message);
    }
  }
}
