// What the keys do, and the theme.

const THEMES = ["auto", "light", "dark"];

function nextTheme() {
  const theme = THEMES[(THEMES.indexOf(document.documentElement.dataset.theme ?? "auto") + 1) % THEMES.length];
  document.documentElement.dataset.theme = theme;
  byId("theme").textContent = `Theme: ${theme}`;
}

const KEYS = [
  [["ArrowLeft"], "←", "previous record", () => select(view.selected - 1)],
  [["ArrowRight"], "→", "next record", () => select(view.selected + 1)],
  [["Shift+ArrowLeft"], "Shift ←", "previous record of the same row", () => selectInRow(-1)],
  [["Shift+ArrowRight"], "Shift →", "next record of the same row", () => selectInRow(1)],
  [["["], "[", "previous step", () => selectStep(-1)],
  [["]"], "]", "next step", () => selectStep(1)],
  [["PageUp"], "Page ↑", "100 records back", () => select(view.selected - 100)],
  [["PageDown"], "Page ↓", "100 records on", () => select(view.selected + 100)],
  [["Home"], "Home", "first record", () => select(0)],
  [["End"], "End", "last record", () => select(count - 1)],
  [["+", "="], "+", "zoom in", () => zoom(1.5)],
  [["-"], "−", "zoom out", () => zoom(1 / 1.5)],
  [["0"], "0", "the whole run", fit],
  [["a"], "a", "move the view to the left", () => pan(-0.25)],
  [["d"], "d", "move the view to the right", () => pan(0.25)],
  [["/"], "/", "search: text", () => byId("text").focus()],
  [["n"], "n", "next match", () => goToHit(1)],
  [["N", "Shift+N"], "Shift N", "previous match", () => goToHit(-1)],
  [["m"], "m", "mark this record, or take the mark away", toggleMark],
  [["Escape"], "Esc", "clear the search", clearSearch],
  [["t"], "t", "theme: auto, light, dark", nextTheme],
  [["?"], "?", "this list", () => byId("help").showModal()],
];
const KEY_OF = new Map(KEYS.flatMap(([keys, , , act]) => keys.map((key) => [key, act])));

// Keys that an element has for itself.
function keepsKey(target, key) {
  if (byId("help").open) return true;
  if (target.matches("input[type=number], input[type=search], select")) return true;
  if (target.matches("input[type=range]")) return ["ArrowLeft", "ArrowRight", "Home", "End", "PageUp", "PageDown"].includes(key);
  return target.matches(".table-scroll, .chart-scroll") && ["ArrowLeft", "ArrowRight"].includes(key);
}

document.addEventListener("keydown", (event) => {
  if (event.ctrlKey || event.metaKey || event.altKey) return;
  const name = event.shiftKey && event.key.length > 1 ? `Shift+${event.key}` : event.key;
  const act = KEY_OF.get(name);
  if (!act || keepsKey(event.target, event.key)) return;
  event.preventDefault();
  act();
});
