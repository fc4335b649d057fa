// The time line as a whole: lines of queues and pools, names, axis, overview, and what is where in it.

// A line of steps; where several lie in one pixel, it shows the least and the most.
function stripPath(band) {
  const { series, most, first, y, height } = band;
  const yOf = (value) => px(y + height - 5 - (Math.min(value, most) / Math.max(most, 1)) * (height - 12));
  let next = countBelow(series.length, (k) => columns[series[k][0]], Math.floor(view.start));
  let value = next ? series[next - 1][1] : first;
  let path = `M0 ${yOf(value)}`;
  const end = view.start + view.width / view.scale + 1;
  while (next < series.length && columns[series[next][0]] <= end) {
    const x = Math.round(middleOf(series[next][0]));
    let [low, high] = [value, value];
    while (next < series.length && Math.round(middleOf(series[next][0])) === x) {
      value = series[next][1];
      [low, high] = [Math.min(low, value), Math.max(high, value)];
      next += 1;
    }
    path += `H${x}V${yOf(low)}V${yOf(high)}V${yOf(value)}`;
  }
  const right = Math.min(view.width, xOf(lastColumn + 1));
  return { line: `${path}H${px(right)}`, base: yOf(0), right };
}

function drawStrips() {
  return bands.filter((band) => band.kind === "strip").map((band) => {
    const { line, base, right } = stripPath(band);
    return `<path class="strip-area" d="${line}V${base}H0Z"/><path class="strip-base" d="M0 ${base}H${px(right)}"/>`
      + `<path class="strip" d="${line}"/>`;
  }).join("");
}

function drawBands() {
  return bands.filter((band, place) => band.kind !== "head" && place % 2).map(({ y, height }) => (
    `<rect class="band" x="0" y="${y}" width="${view.width + SVG.label}" height="${height}"/>`)).join("");
}

const shorten = (text, letters) => (text.length > letters ? `${text.slice(0, letters - 1)}…` : text);
const valueAt = (band, index) => {
  const next = countBelow(band.series.length, (k) => band.series[k][0], index + 1);
  return next ? band.series[next - 1][1] : band.first;
};

const labelText = (look, x, y, words) => `<text class="${look}" x="${x}" y="${y}">${escapeText(words)}</text>`;

// Names at the left, with the state, the length or the free blocks at the chosen record.
function drawLabels() {
  const moment = momentAt(view.selected);
  const letters = Math.floor((SVG.label - 20) / LETTER);
  const right = SVG.label - 10;
  return bands.map((band) => {
    const middle = band.y + band.height / 2 + 4;
    if (band.kind === "head") return labelText("head", 10, band.y + 17, band.text);
    if (band.kind === "strip") {
      const value = `${valueAt(band, view.selected)}/${band.most}`;
      const name = shorten(band.name, letters - value.length - 1);
      return labelText("strip-name", 10, middle, name) + labelText("value", right, middle, value);
    }
    const row = model.rows[band.row];
    if (row.kind !== "object") return labelText("name", 10, middle, shorten(row.name, letters));
    const state = stateName(row.priority, moment.object(row.priority).state);
    return labelText("name", 10, band.y + 26, shorten(row.name, letters - 3))
      + labelText("value", right, band.y + 26, String(row.priority))
      + labelText("state-name", 10, band.y + band.height - TRACK.above - 1, shorten(state, letters));
  }).join("");
}

function niceStep(least) {
  const power = 10 ** Math.floor(Math.log10(Math.max(least, 1)));
  return [1, 2, 5, 10].map((k) => k * power).find((step) => step >= least);
}

// The number of the chosen record's column, where it is in view.
function axisTag() {
  const x = middleOf(view.selected);
  if (!count || x < -1 || x > view.width + 1) return null;
  const label = grouped(columns[view.selected] + 1);
  const width = label.length * 7.2 + 12;
  const left = Math.max(0, Math.min(x - width / 2, view.width - width));
  const markup = `<rect class="tag" x="${px(left)}" y="2" width="${px(width)}" height="18" rx="4"/>`
    + labelText("tag-text", px(left + width / 2), 15, label);
  return { left, width, markup };
}

function drawAxis() {
  const step = niceStep(70 / view.scale);
  const end = Math.min(lastColumn, view.start + view.width / view.scale);
  const tag = axisTag();
  let markup = "";
  for (let column = Math.ceil((view.start + 1) / step) * step - 1; column <= end; column += step) {
    if (column < 0) continue;
    const x = xOf(column + 0.5);
    const text = grouped(column + 1);
    const half = text.length * 3.6 + 3;
    markup += `<path class="grid" d="M${px(x)} 20v6"/>`;
    const isFree = x >= half && x <= view.width - half && !(tag && x + half > tag.left && x - half < tag.left + tag.width);
    if (isFree) markup += `<text class="tick-text" x="${px(x)}" y="15">${text}</text>`;
  }
  const hits = new Set(view.hits.map((index) => Math.round(middleOf(index))).filter((x) => x >= 0 && x <= view.width));
  const path = [...hits].map((x) => `M${x} 26l-4 -6h8z`).join("");
  byId("axis").innerHTML = `<text class="axis-name" x="10" y="15">${model.hasColumns ? "column" : "record"}</text>`
    + `<svg x="${SVG.label}" width="${view.width}" height="${SVG.axis}">${markup}`
    + `<path class="hit" d="${path}"/>${tag?.markup ?? ""}</svg>`;
}

function drawCursor() {
  const x = xOf(columns[view.selected] ?? 0);
  return `<rect class="cursor" x="${px(x)}" y="0" width="${px(Math.max(view.scale, 1.5))}" height="${lineHeight}"/>`;
}

// The mark, from which what lies up to the chosen record is counted.
function drawMark() {
  if (view.mark === null) return "";
  return `<path class="mark-line" d="M${px(middleOf(view.mark))} 0V${lineHeight}"/>`;
}

function drawLine() {
  drawAxis();
  drawWindow();
  const { bars, texts } = drawBars();
  const layers = [
    drawCursor(), drawMark(), drawCeilings(), drawTicks(), drawStates(), drawInterruptions(), bars, drawArrows(), texts, drawMarks(), drawStrips(),
  ];
  byId("line").innerHTML = `${drawBands()}<g class="labels">${drawLabels()}</g>`
    + `<svg id="plot" x="${SVG.label}" width="${view.width}" height="${lineHeight}">${layers.join("")}</svg>`
    + `<path class="divider" d="M${SVG.label - 0.5} 0V${lineHeight}"/>`;
  markArrows(view.pointed);
}

// Shows the arrows of a step more strongly than the others; none for -1.
function markArrows(step) {
  const plot = byId("plot");
  plot.classList.toggle("pointing", step >= 0);
  for (const path of plot.querySelectorAll(".arrow")) {
    const [origin, post, take] = model.arrows[path.dataset.arrow];
    const own = step >= 0 && (take === steps.first[step]
      || (model.rowOf[origin] === steps.row[step] && post >= steps.first[step] && post <= steps.last[step]));
    path.classList.toggle("on", own);
  }
}

// The overview: the bars of the whole run, and the part that is in view.
function drawOverview() {
  const spans = new Spans();
  const scale = leastScale();
  const height = (SVG.overview - 8) / model.rows.length;
  const add = (look, things, number) => {
    const top = 4 + things.row[number] * height;
    const [left, right] = [columns[things.first[number]], columns[things.last[number]] + 1];
    spans.add(look, left * scale, right * scale, top, top + Math.max(height - 0.6, 0.8));
  };
  for (let step = 0; step < stepCount; step += 1) add(depthLook(steps.depth[step]), steps, step);
  for (let number = 0; number < model.stimuli.first.length; number += 1) add("stim", model.stimuli, number);
  const told = model.marks.filter(([, word]) => ["stops", "refused"].includes(markLook(word)));
  const marks = told.map(([index]) => Math.round((columns[index] + 0.5) * scale));
  const path = [...new Set(marks)].map((x) => `M${x} 0v4`).join("");
  byId("overview").innerHTML = `<text class="axis-name" x="10" y="21">whole run</text>`
    + `<svg x="${SVG.label}" width="${view.width}" height="${SVG.overview}">${spans.markup()}`
    + `<path class="overview-marks" d="${path}"/><g id="window"></g></svg>`;
}

function drawWindow() {
  const scale = leastScale();
  const left = view.start * scale;
  const width = Math.min((view.width / view.scale) * scale, view.width);
  const x = ((columns[view.selected] ?? 0) + 0.5) * scale;
  const down = `V${SVG.overview}`;
  const outside = `M0 0H${px(left)}${down}H0ZM${px(left + width)} 0H${view.width}${down}H${px(left + width)}Z`;
  const size = `width="${px(Math.max(width - 1.5, 3))}" height="${SVG.overview - 1.5}"`;
  byId("window").innerHTML = `<path class="outside" d="${outside}"/>`
    + `<rect class="window" x="${px(left + 0.75)}" y="0.75" ${size} rx="3"/>`
    + `<path class="at" d="M${px(x)} 0${down}"/>`;
}

// Where there is room, the column of names has the longest name with a number beside it.
const wideLabel = Math.min(Math.max(172, ...model.objects.map(({ name }) => name.length * LETTER + 52)), 260);

// Fits the drawings to the panel's width; keeps what is in view where the whole run isn't.
function resizeLine() {
  const outer = byId("line-scroll").clientWidth;
  SVG.label = outer < 620 ? 114 : wideLabel;
  const isFit = !view.width || view.scale <= leastScale() + 1e-9;
  view.width = Math.max(outer - SVG.label, 60);
  for (const [id, height] of [["overview", SVG.overview], ["axis", SVG.axis], ["line", lineHeight]]) {
    byId(id).setAttribute("width", outer);
    byId(id).setAttribute("height", height);
  }
  drawOverview();
  if (isFit) fit();
  else setView(view.start, view.scale);
}

// The row and the nearest record at a point of the plot: the record of that row whose column is nearest.
function recordAtPoint(x, y) {
  const band = rowBands.find((entry) => y >= entry.y && y < entry.y + entry.height);
  if (!band || x < 0) return null;
  const own = recordsOfRow[band.row];
  const column = view.start + x / view.scale - 0.5;
  const next = countBelow(own.length, (k) => columns[own[k]], column);
  const near = [own[next - 1], own[next]].filter((index) => index !== undefined);
  if (!near.length) return { row: band.row, index: -1, distance: Infinity };
  const index = near.reduce((best, other) => (Math.abs(columns[other] - column) < Math.abs(columns[best] - column) ? other : best));
  return { row: band.row, index, distance: Math.abs(columns[index] - column) * view.scale };
}
