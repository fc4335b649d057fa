// The controls, and what is done when the page has been read.

const CLICKS = {
  first: () => select(0), previous: () => select(view.selected - 1),
  next: () => select(view.selected + 1), last: () => select(count - 1),
  "zoom-in": () => zoom(1.5), "zoom-out": () => zoom(1 / 1.5), fit,
  "hit-previous": () => goToHit(-1), "hit-next": () => goToHit(1),
  theme: nextTheme, "help-open": () => byId("help").showModal(),
};
for (const [id, act] of Object.entries(CLICKS)) byId(id).addEventListener("click", act);
byId("scrub").addEventListener("input", () => select(Number(byId("scrub").value)));
byId("number").addEventListener("change", () => select(Number(byId("number").value) - 1));
for (const id of ["kind", "owner", "only"]) byId(id).addEventListener("change", search);
byId("text").addEventListener("input", search);
byId("text").addEventListener("keydown", (event) => {
  if (event.key === "Enter") goToHit(event.shiftKey ? -1 : 1);
  else if (event.key === "Escape") clearSearch();
});
byId("list").addEventListener("scroll", drawList);
isNarrowPage.addEventListener("change", () => setList(list.shown));
byId("list").addEventListener("click", (event) => {
  const item = event.target.closest(".item");
  if (item && !String(getSelection())) select(Number(item.dataset.index));
});

function fillControls() {
  const words = [...new Set(wordAt)].sort();
  byId("kind").innerHTML += words.map((word) => `<option>${word}</option>`).join("");
  byId("owner").innerHTML += model.rows.map((row, place) => `<option value="${place}">${escapeText(row.name)}</option>`).join("");
  byId("of").textContent = `of ${grouped(count)}`;
  byId("scrub").max = Math.max(count - 1, 0);
  byId("number").max = Math.max(count, 1);
  byId("keys").innerHTML = KEYS.map(([, name, words]) => `<div><dt><kbd>${name}</kbd></dt><dd>${words}</dd></div>`).join("")
    + "<div><dt><kbd>Ctrl wheel</kbd></dt><dd>zoom at the pointer</dd></div><div><dt><kbd>drag</kbd></dt><dd>move the view</dd></div>";
  const tabs = model.charts.map(({ name }, place) => `<button type="button" data-chart="${place}">${escapeText(name)}</button>`);
  byId("chart-tabs").innerHTML = tabs.join("");
  byId("chart-tabs").hidden = model.charts.length < 2;
  byId("chart-tabs").addEventListener("click", (event) => {
    if (event.target.dataset.chart === undefined) return;
    view.chart = Number(event.target.dataset.chart);
    showChart(view.chart, -1, view.selected);
  });
}

fillLegend();
fillControls();
resizeLine();
// A long run is first shown in part, from a little before its first stimulus on.
const BEFORE_FIRST = 0.1;
if (view.scale < NARROW) setView(columns[model.stimuli.first[0] ?? 0] - BEFORE_FIRST * (view.width / NARROW_START), NARROW_START);
new ResizeObserver(resizeLine).observe(byId("line-scroll"));
setList(null);
select(placeOfAddress() ?? model.opensAt);
// A link to a record chooses by itself: the address may still name that record, and in a page beside another one it is the outer page's.
document.addEventListener("click", (event) => {
  const link = event.target.closest("a[href^='#record=']");
  if (!link || event.ctrlKey || event.metaKey) return;
  event.preventDefault();
  select(placeOfAddress(link.hash));
});
addEventListener("hashchange", () => { if (placeOfAddress() !== null) select(placeOfAddress()); });
if (!count) { showMoment(-1); showSelectedChart(); }
