// The panel as a sheet at the lower edge of a phone, which can be folded.

// Pixels that a finger has to move on the sheet's head to fold or unfold it.
const SWIPE = 30;
const panel = document.getElementById("panel");
const fold = document.getElementById("fold");

/** Whether the panel is a sheet now. */
export const isSheet = () => getComputedStyle(fold).display !== "none";

/** What is covered of the map, by the panel and by the screen's notches: pixels from each of its edges. */
export function covered() {
  const box = panel.getBoundingClientRect();
  const variables = getComputedStyle(document.documentElement);
  const [top, right, bottom, left] = ["--top", "--right", "--bottom", "--left"].map(name => parseFloat(variables.getPropertyValue(name)) || 0);
  return isSheet() ? { top, right, bottom: window.innerHeight - box.top, left } : { top, right, bottom, left: box.right };
}

function setFolded(isFolded) {
  document.body.classList.toggle("folded", isFolded);
  fold.setAttribute("aria-expanded", !isFolded);
  fold.setAttribute("aria-label", isFolded ? "Show more" : "Show less");
}

/** Makes the sheet's head fold it, by the button or by a swipe, and keeps the map's controls above it. */
export function beginSheet() {
  const head = panel.querySelector("header");
  let from = null;
  fold.addEventListener("click", () => setFolded(!document.body.classList.contains("folded")));
  head.addEventListener("pointerdown", event => {
    from = event.clientY;
  });
  window.addEventListener("pointerup", event => {
    if (from !== null && isSheet() && Math.abs(event.clientY - from) > SWIPE) {
      setFolded(event.clientY > from);
    }
    from = null;
  });
  const measure = () => document.documentElement.style.setProperty("--covered", `${isSheet() ? covered().bottom : 0}px`);
  new ResizeObserver(measure).observe(panel, { box: "border-box" });
  window.addEventListener("resize", measure);
  measure();
}
