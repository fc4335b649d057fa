// Which record is chosen, and the search for others.

// The place of the record that an address names, or null.
function placeOfAddress(hash = location.hash) {
  const number = Number(/^#record=(\d+)$/.exec(hash)?.[1]);
  return number ? Math.min(number, count) - 1 : null;
}

// The address follows the chosen record, once no other one has been chosen for a moment: a browser takes few changes.
// A page beside another one has none of its own.
const ADDRESS_DELAY = 200;
const hasAddress = location.protocol !== "about:";
let addressTimer = 0;
function followByAddress() {
  if (!hasAddress) return;
  clearTimeout(addressTimer);
  addressTimer = setTimeout(() => {
    if (placeOfAddress() !== view.selected) history.replaceState(null, "", `#record=${view.selected + 1}`);
  }, ADDRESS_DELAY);
}

function select(index, { move = true } = {}) {
  if (!count) return;
  view.selected = Math.max(0, Math.min(index, count - 1));
  byId("number").value = view.selected + 1;
  byId("scrub").value = view.selected;
  const { who, words } = inWords(view.selected);
  byId("scrub").setAttribute("aria-valuetext", `record ${view.selected + 1}: ${who} ${words}`);
  byId("now").innerHTML = `<b>${escapeText(who)}</b> ${escapeText(words)}`;
  followByAddress();
  if (move) reveal(view.selected);
  requestDraw();
  showMoment(view.selected);
  revealInList(view.selected);
  showSelectedChart();
  showHits();
}

function chartOf(index, step) {
  const row = model.rows[model.rowOf[index]];
  const priority = step >= 0 ? steps.object[step] : row?.kind === "object" ? row.priority : null;
  return objectOf.get(priority)?.chart ?? view.chart ?? model.objects[0].chart;
}

function showSelectedChart() {
  const step = count ? stepOfRecord(view.selected) : -1;
  view.chart = chartOf(view.selected, step);
  showChart(view.chart, step, view.selected);
}

// What a record can be found by: its line, who it is and what it says, and the block of its entry.
const searchable = [];
function searchText(index) {
  if (searchable[index] === undefined) {
    const { who, words } = inWords(index);
    const record = recordAt(index);
    const at = ENTRY_AT[record.word];
    const block = at !== undefined && record.numbers[at] ? ` block ${record.numbers[at]}.${record.numbers[at + 1]}` : "";
    searchable[index] = `${record.text} ${who} ${words}${block}`.toLowerCase();
  }
  return searchable[index];
}

const wanted = () => ({ text: byId("text").value.trim().toLowerCase(), word: byId("kind").value, row: byId("owner").value });
const isAny = ({ text, word, row }) => text === "" && word === "" && row === "";

function isHit(index, { text, word, row }) {
  return (word === "" || wordAt[index] === word) && (row === "" || model.rowOf[index] === Number(row))
    && (text === "" || searchText(index).includes(text));
}

function search() {
  const what = wanted();
  view.hits = [];
  if (!isAny(what)) for (let index = 0; index < count; index += 1) if (isHit(index, what)) view.hits.push(index);
  setList(byId("only").checked && !isAny(what) ? view.hits : null);
  if (view.hits.length && !view.hits.includes(view.selected)) goToHit(1);
  else select(view.selected, { move: false });
}

// Nothing is searched for any more; what is chosen stays.
function clearSearch() {
  for (const id of ["text", "kind", "owner"]) byId(id).value = "";
  byId("text").blur();
  search();
}

function showHits() {
  const place = countBelow(view.hits.length, (k) => view.hits[k], view.selected);
  const at = view.hits[place] === view.selected ? `${grouped(place + 1)} of ` : "";
  byId("hits").textContent = isAny(wanted()) ? "" : `${at}${grouped(view.hits.length)}`;
}

function goToHit(direction) {
  const { hits, selected } = view;
  if (!hits.length) return;
  const below = countBelow(hits.length, (k) => hits[k], selected);
  const next = direction > 0 ? below + (hits[below] === selected ? 1 : 0) : below - 1;
  select(hits[(next + hits.length) % hits.length]);
}

// Marks the chosen record; what lies between it and the one chosen later is counted. A second time it takes the mark away.
function toggleMark() {
  view.mark = view.mark === view.selected ? null : view.selected;
  requestDraw();
  showMoment(view.selected);
}

// The next or the previous record of the same row.
function selectInRow(direction) {
  const own = recordsOfRow[model.rowOf[view.selected]] ?? [];
  const place = countBelow(own.length, (k) => own[k], view.selected) + direction;
  if (own[place] !== undefined) select(own[place]);
}

// The next or the previous step of any row.
function selectStep(direction) {
  const below = countBelow(stepCount, (k) => steps.first[k], view.selected + (direction > 0 ? 1 : 0));
  const step = direction > 0 ? below : below - 1;
  if (steps.first[step] !== undefined) select(steps.first[step]);
}
