// The view of the time line: its bands, which columns are in view and how wide they are.

const SVG = { label: 172, axis: 26, overview: 34, object: 62, other: 30, strip: 36, head: 24 };
// So many pixels has a letter of a name at most, as a rule.
const LETTER = 7.6;
const WIDEST_RECORD = 64;
// A run whose records would be narrower than this is first shown in part, in this width.
const NARROW = 1.5;
const NARROW_START = 8;
const MOST_ARROWS = 900;
const MARK_LETTERS = {
  assert: "!", spent: "B", spill: "L", full: "F", short: "S", nodefer: "N", defer: "D", recall: "R", flush: "X",
};
const DEPTHS = 6;
const depthLook = (depth) => `d${Math.min(depth, DEPTHS - 1)}`;

const view = { start: 0, scale: 1, width: 0, selected: 0, mark: null, pointed: -1, hits: [] };
const escapeText = (text) => text.replace(/[&<>"]/g, (c) => ({ "&": "&amp;", "<": "&lt;", ">": "&gt;", '"': "&quot;" })[c]);
const px = (value) => Math.round(value * 10) / 10;
const xOf = (column) => (column - view.start) * view.scale;
const middleOf = (index) => xOf(columns[index] + 0.5);
const inView = (left, right) => right >= view.start && left <= view.start + view.width / view.scale;

// The bands from the top: heads, rows, and lines of queues and pools, with their place and height.
const bands = (() => {
  const list = [];
  let y = 0;
  const add = (kind, height, more) => { list.push({ kind, y, height, ...more }); y += height; };
  const marked = new Set(model.marks.map(([index]) => model.rowOf[index]));
  const heightOf = (row, place) => (row.kind === "object" || marked.has(place) ? SVG.object : SVG.other);
  model.rows.forEach((row, place) => add("row", heightOf(row, place), { row: place }));
  add("head", SVG.head, { text: "Queue lengths" });
  const addStrip = (name, series, most, first) => add("strip", SVG.strip, { name, series, most, first });
  model.objects.forEach(({ name, lengths, capacity }) => addStrip(name, lengths, capacity, 0));
  if (model.pools.length) add("head", SVG.head, { text: "Free blocks" });
  model.pools.forEach(({ free, blocks }, place) => addStrip(`pool ${place + 1}`, free, blocks, blocks));
  return list;
})();
const rowBands = bands.filter((band) => band.kind === "row");
const lineHeight = bands.at(-1).y + bands.at(-1).height + 6;

// The track of an object's states lies below its bars, above the ticks.
const TRACK = { height: 13, above: 10 };
const isObjectBand = (band) => model.rows[band.row].kind === "object";

// The upper and lower edge of the bars of a row.
function barEdges(row, depth = 0) {
  const band = rowBands[row];
  const inset = Math.min(depth, 2) * 2;
  const top = band.height > 40 ? 18 : 5;
  const below = isObjectBand(band) ? TRACK.above + TRACK.height + 2 : 10;
  return [band.y + top + inset, band.y + band.height - below - inset];
}

// How wide a column is where the whole run is in view.
const leastScale = () => Math.min(view.width / span, WIDEST_RECORD);

function setView(start, scale) {
  view.scale = Math.min(Math.max(scale, leastScale()), WIDEST_RECORD);
  const shown = view.width / view.scale;
  view.start = Math.max(0, Math.min(start, span - shown));
  requestDraw();
}

function zoom(factor, x = xOf(columns[view.selected] ?? 0)) {
  const at = x >= 0 && x <= view.width ? x : view.width / 2;
  const column = view.start + at / view.scale;
  const scale = Math.min(Math.max(view.scale * factor, leastScale()), WIDEST_RECORD);
  setView(column - at / scale, scale);
}

const pan = (share) => setView(view.start + (share * view.width) / view.scale, view.scale);
const fit = () => setView(0, 0);

// Scrolls the rows so that a record's row is among those in sight.
function revealRow(index) {
  const [band, panel] = [rowBands[model.rowOf[index]], byId("line-scroll")];
  if (band.y < panel.scrollTop) panel.scrollTop = band.y;
  else if (band.y + band.height > panel.scrollTop + panel.clientHeight) {
    panel.scrollTop = band.y + band.height - panel.clientHeight;
  }
}

// Moves the view so that a record is in it.
function reveal(index) {
  revealRow(index);
  const shown = view.width / view.scale;
  const column = columns[index];
  if (column < view.start + shown * 0.06 || column + 1 > view.start + shown * 0.94) setView(column - shown / 2, view.scale);
}

let isRequested = false;
function requestDraw() {
  if (isRequested) return;
  isRequested = true;
  requestAnimationFrame(() => { isRequested = false; drawLine(); });
}

// Things too narrow to be told apart are drawn together: spans of one row and look that touch become one.
class Spans {
  constructor() { this.open = new Map(); this.paths = new Map(); }

  add(look, left, right, top, bottom) {
    const key = `${look} ${top}`;
    const span = this.open.get(key);
    if (span && left <= span.right + 1.5) { span.right = Math.max(span.right, right); return; }
    this.open.set(key, { look, left, right: Math.max(right, left + 1), top, bottom });
    if (span) this.close(span);
  }

  close({ look, left, right, top, bottom }) {
    const path = `M${px(left)} ${px(top)}H${px(right)}V${px(bottom)}H${px(left)}Z`;
    this.paths.set(look, (this.paths.get(look) ?? "") + path);
  }

  markup() {
    for (const span of this.open.values()) this.close(span);
    return [...this.paths].map(([look, path]) => `<path class="dense ${look}" d="${path}"/>`).join("");
  }
}
