// What the pointer does on the time line and on the overview.

// So many pixels from a record a pointer still points at it.
const NEAR = 12;

const plotPoint = (event) => {
  const box = byId("line").getBoundingClientRect();
  return [event.clientX - box.left - SVG.label, event.clientY - box.top];
};

function showTip(event, index, step) {
  const tip = byId("tip");
  const { who, words } = inWords(index);
  tip.innerHTML = `<p class="said"><b>${escapeText(who)}</b> ${escapeText(words)}</p>`
    + `<p><code>${escapeText(recordAt(index).text)}</code> <span class="soft">record ${grouped(index + 1)}</span></p>`
    + (step >= 0 ? `<p class="step">Step: <b>${escapeText(stepTitle(step))}</b></p>${factList(stepFacts(step))}` : "");
  tip.hidden = false;
  const left = Math.min(event.clientX + 16, innerWidth - tip.offsetWidth - 8);
  const below = event.clientY + 20 + tip.offsetHeight < innerHeight;
  tip.style.left = `${Math.max(8, left)}px`;
  tip.style.top = `${below ? event.clientY + 20 : Math.max(8, event.clientY - tip.offsetHeight - 14)}px`;
}

// Shows the step under the pointer, or the record that is near.
function point(event) {
  const [x, y] = plotPoint(event);
  const found = recordAtPoint(x, y);
  const step = found ? stepAtColumn(found.row, Math.floor(view.start + x / view.scale)) : -1;
  if (!found || (step < 0 && found.distance > NEAR)) return leave();
  view.pointed = step;
  markArrows(step);
  if (step >= 0) showChart(objectOf.get(steps.object[step])?.chart ?? 0, step, view.selected);
  else showSelectedChart();
  return showTip(event, found.index, step);
}

function leave() {
  byId("tip").hidden = true;
  if (view.pointed < 0) return;
  view.pointed = -1;
  markArrows(-1);
  showSelectedChart();
}

// A drag moves the view, but for one that begins on a text, which selects it.
const drag = { at: null, start: 0, moved: false, onText: false };
const surface = byId("line-scroll");
surface.addEventListener("pointerdown", (event) => {
  if (event.button !== 0) return;
  drag.onText = event.target.closest("text") !== null;
  drag.at = drag.onText ? null : event.clientX;
  drag.start = view.start;
  drag.moved = false;
});
surface.addEventListener("pointermove", (event) => {
  if (drag.at === null) return point(event);
  if (Math.abs(event.clientX - drag.at) > 3 && !drag.moved) {
    drag.moved = true;
    surface.setPointerCapture(event.pointerId);
    leave();
  }
  return drag.moved && setView(drag.start - (event.clientX - drag.at) / view.scale, view.scale);
});
surface.addEventListener("pointerup", (event) => {
  const wasClick = drag.onText ? !String(getSelection()) : !drag.moved;
  drag.at = null;
  drag.moved = false;
  const found = recordAtPoint(...plotPoint(event));
  if (wasClick && found && found.index >= 0) select(found.index, { move: false });
});
surface.addEventListener("pointerleave", () => { if (!drag.moved) { drag.at = null; leave(); } });
surface.addEventListener("wheel", (event) => {
  if (event.ctrlKey) {
    event.preventDefault();
    zoom(Math.exp(-event.deltaY / 240), plotPoint(event)[0]);
  } else if (event.shiftKey || Math.abs(event.deltaX) > Math.abs(event.deltaY)) {
    event.preventDefault();
    setView(view.start + (event.deltaX || event.deltaY) / view.scale, view.scale);
  }
}, { passive: false });

const overview = byId("overview");
function moveWindow(event) {
  const x = event.clientX - overview.getBoundingClientRect().left - SVG.label;
  setView(x / leastScale() - view.width / view.scale / 2, view.scale);
}
overview.addEventListener("pointerdown", (event) => { overview.setPointerCapture(event.pointerId); moveWindow(event); });
overview.addEventListener("pointermove", (event) => { if (event.buttons & 1) moveWindow(event); });
