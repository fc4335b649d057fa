// The rows of the time line: bars, ceilings, ticks, arrows and marks.

function barText(words, left, right, y) {
  const from = Math.max(left, 0) + 6;
  const letters = Math.floor((Math.min(right, view.width) - from - 3) / 6.7);
  if (letters < 2) return "";
  const shown = words.length <= letters ? words : letters > 2 ? `${words.slice(0, letters - 1)}…` : "";
  return shown && `<text class="bar-text" x="${px(from)}" y="${px(y)}">${escapeText(shown)}</text>`;
}

function bar(look, left, right, top, bottom) {
  const size = `width="${px(Math.max(right - left, 1))}" height="${px(bottom - top)}"`;
  return `<rect class="bar ${look}" x="${px(left)}" y="${px(top)}" ${size} rx="3"/>`;
}

// A step's bar; where it is interrupted the bar is empty and dashed.
function stepBar(step, dense, texts) {
  const [left, right] = [xOf(columns[steps.first[step]]), xOf(columns[steps.last[step]] + 1)];
  const depth = steps.depth[step];
  const look = `${depthLook(depth)}${steps.label[step] < 0 ? " start" : ""}`;
  const [top, bottom] = barEdges(steps.row[step], depth);
  if (right - left < 5) {
    dense.add(look, left, right, top, bottom);
    return "";
  }
  const pauses = steps.pauses[step].map(([first, last]) => [xOf(columns[first]), xOf(columns[last] + 1)]);
  let markup = pauses.length ? bar(`${look} waits`, left, right, top, bottom) : "";
  let from = left;
  for (const [first, last] of [...pauses, [right, right]]) {
    if (first - from > 0.5 && first > 0 && from < view.width) markup += bar(look, from, first, top, bottom);
    from = last;
  }
  if (steps.cut[step]) markup += `<path class="cut ${look}" d="M${px(right + 3)} ${px(top)}V${px(bottom)}"/>`;
  texts.push(barText(stepTitle(step), left, pauses.length ? pauses[0][0] : right, (top + bottom) / 2 + 4));
  return markup;
}

// The state of each object, as spans in a track of its own; states keep their colour.
const STATE_LOOKS = 8;
const statesOfRow = model.rows.map(() => []);
for (const [word, index, priority, state] of model.changes) {
  const row = word === "state" ? rowOfObject.get(priority) : undefined;
  if (row !== undefined) statesOfRow[row].push([index, state]);
}

// Where a pixel has more columns than five, what lies in a bin of some pixels is summed up.
const DENSE = 0.2;
const BIN = 2;
const DEGREES = 8;

// From where to where an object is in which state, in columns, as far as it is in view.
function stateSpans(own) {
  const end = view.start + view.width / view.scale;
  const spans = [];
  for (let k = Math.max(countBelow(own.length, (n) => columns[own[n][0]], Math.floor(view.start)) - 1, 0); k < own.length; k += 1) {
    const [index, state] = own[k];
    if (columns[index] > end) break;
    spans.push({ state, first: columns[index], last: k + 1 < own.length ? columns[own[k + 1][0]] : lastColumn + 1 });
  }
  return spans;
}

// The same by bins, each with the state that takes most of it.
function binnedSpans(spans) {
  const perBin = BIN / view.scale;
  const found = [];
  let next = 0;
  for (let from = view.start; from < Math.min(view.start + view.width / view.scale, lastColumn + 1); from += perBin) {
    const shares = new Map();
    while (next < spans.length && spans[next].last <= from) next += 1;
    for (let k = next; k < spans.length && spans[k].first < from + perBin; k += 1) {
      const share = Math.min(spans[k].last, from + perBin) - Math.max(spans[k].first, from);
      shares.set(spans[k].state, (shares.get(spans[k].state) ?? 0) + share);
    }
    const [state] = [...shares].reduce((most, other) => (other[1] > most[1] ? other : most), [0, 0]);
    if (found.length && found.at(-1).state === state) found.at(-1).last = from + perBin;
    else found.push({ state, first: from, last: from + perBin });
  }
  return found;
}

const STATE_LETTER = 6.4;

function statesOfBand(band) {
  const { priority } = model.rows[band.row];
  const top = band.y + band.height - TRACK.above - TRACK.height;
  const exact = stateSpans(statesOfRow[band.row]);
  const shapes = [];
  const texts = [];
  let drawn = -1;
  for (const { state, first, last } of view.scale < DENSE ? binnedSpans(exact) : exact) {
    const [left, right] = [Math.max(xOf(first), -2), Math.min(xOf(last), view.width + 2)];
    if (!state || Math.round(right) <= drawn) continue;
    drawn = Math.round(right);
    const place = `x="${px(left)}" y="${px(top)}" height="${TRACK.height}"`;
    shapes.push(`<rect class="state-span s${state % STATE_LOOKS}" ${place} width="${px(Math.max(right - left, 1))}"/>`);
    if (right - left >= 10) shapes.push(`<rect class="state-edge s${state % STATE_LOOKS}" ${place} width="1.5"/>`);
    const from = Math.max(left, 0) + 4;
    const letters = Math.floor((right - from - 2) / STATE_LETTER);
    if (letters >= 3) texts.push(labelText("state-text", px(from), px(top + 10), shorten(stateName(priority, state), letters)));
  }
  return shapes.join("") + texts.join("");
}

const drawStates = () => rowBands.filter(isObjectBand).map(statesOfBand).join("");

// How much of each bin steps or stimuli take, in degrees, of which little has a finer scale than much.

function densityOf(things, numbers, band) {
  const bins = new Float64Array(Math.ceil(view.width / BIN) + 1);
  const perBin = BIN / view.scale;
  const from = countBelow(numbers.length, (k) => columns[things.last[numbers[k]]], Math.floor(view.start));
  for (let k = from; k < numbers.length; k += 1) {
    const left = (columns[things.first[numbers[k]]] - view.start) / perBin;
    const right = (columns[things.last[numbers[k]]] + 1 - view.start) / perBin;
    if (left >= bins.length) break;
    for (let bin = Math.max(Math.floor(left), 0); bin < right && bin < bins.length; bin += 1) {
      bins[bin] += Math.min(right, bin + 1) - Math.max(left, bin);
    }
  }
  const [top, bottom] = barEdges(band.row);
  const paths = Array.from({ length: DEGREES }, () => "");
  bins.forEach((share, bin) => {
    if (share > 0) paths[Math.min(Math.floor(Math.sqrt(share) * DEGREES), DEGREES - 1)] += `M${bin * BIN} ${px(top)}h${BIN}V${px(bottom)}h${-BIN}Z`;
  });
  return paths;
}

const shade = (look, degree, path) => `<path class="shade ${look}" fill-opacity="${(degree + 1) / DEGREES}" d="${path}"/>`;

function shadesOfBand(look, things, numbers, band) {
  if (!numbers.length) return "";
  return densityOf(things, numbers, band).map((path, degree) => path && shade(look, degree, path)).join("");
}

const drawDensity = () => rowBands.map((band) => shadesOfBand("d0", steps, stepsOfRow[band.row], band)
  + shadesOfBand("stim", model.stimuli, stimuliOfRow[band.row], band)).join("");

// The bars, and the texts that stand on them above the arrows.
function drawBars() {
  byId("line-panel").classList.toggle("summed", view.scale < DENSE);
  if (view.scale < DENSE) return { bars: drawDensity(), texts: "" };
  const dense = new Spans();
  const texts = [];
  let markup = "";
  for (let step = 0; step < stepCount; step += 1) {
    if (inView(columns[steps.first[step]], columns[steps.last[step]] + 1)) markup += stepBar(step, dense, texts);
  }
  const { stimuli } = model;
  for (let number = 0; number < stimuli.first.length; number += 1) {
    const [first, last] = [columns[stimuli.first[number]], columns[stimuli.last[number]] + 1];
    if (!inView(first, last)) continue;
    const [left, right] = [xOf(first), xOf(last)];
    const [top, bottom] = barEdges(stimuli.row[number]);
    if (right - left < 5) dense.add("stim", left, right, top, bottom);
    else {
      markup += bar("stim", left, right, top, bottom);
      texts.push(barText(stimulusWords(stimuli.row[number], stimuli.place[number]), left, right, (top + bottom) / 2 + 4));
    }
  }
  return { bars: dense.markup() + markup, texts: texts.join("") };
}

// A thin line joins an interrupted bar with the bar that interrupts it, at both ends.
function drawInterruptions() {
  if (view.scale < 1) return "";
  let path = "";
  for (let step = 0; step < stepCount; step += 1) {
    for (const [first, last] of steps.pauses[step]) {
      if (!inView(columns[first], columns[last] + 1)) continue;
      const [from, to] = [steps.row[step], model.rowOf[first]];
      const [[fromTop, fromBottom], [toTop, toBottom]] = [barEdges(from, steps.depth[step]), barEdges(to)];
      const [y, end] = to < from ? [fromTop, toBottom] : [fromBottom, toTop];
      for (const x of [xOf(columns[first]), xOf(columns[last] + 1)]) path += `M${px(x)} ${px(y)}V${px(end)}`;
    }
  }
  return path && `<path class="interrupts" d="${path}"/>`;
}

function drawCeilings() {
  const { ceilings } = model;
  let markup = "";
  if (view.scale < DENSE) return markup;
  for (let number = 0; number < ceilings.first.length; number += 1) {
    const [first, last] = [columns[ceilings.first[number]], columns[ceilings.last[number]] + 1];
    if (!inView(first, last)) continue;
    const rows = rowBands.filter(({ row }) => (model.hasCeilings
      ? model.rows[row].kind === "object" && model.rows[row].priority <= ceilings.ceiling[number]
      : row === ceilings.row[number]));
    if (!rows.length) continue;
    const [top, bottom] = [rows[0].y, rows.at(-1).y + rows.at(-1).height];
    const width = Math.max((last - first) * view.scale, 1);
    markup += `<rect class="ceiling" x="${px(xOf(first))}" y="${top}" width="${px(width)}" height="${bottom - top}"/>`;
    markup += `<path class="ceiling-top" d="M${px(xOf(first))} ${top + 1}h${px(width)}"/>`;
  }
  return markup;
}

// The records in view, by place in order.
function shownRecords() {
  const from = countBelow(count, (index) => columns[index], Math.floor(view.start));
  const to = countBelow(count, (index) => columns[index], Math.ceil(view.start + view.width / view.scale) + 1);
  return [from, to];
}

function drawTicks() {
  if (view.scale < 3) {
    return `<path class="ticks" d="${rowBands.map((band) => kernelHaze(band)).join("")}"/>`;
  }
  const [from, to] = shownRecords();
  let path = "";
  for (let index = from; index < to; index += 1) {
    const band = rowBands[model.rowOf[index]];
    const tall = wordAt[index] === "look" || wordAt[index] === "stim" || wordAt[index] === "settle" ? 8 : 4;
    path += `M${px(middleOf(index))} ${band.y + band.height - 2}v${-tall}`;
  }
  return `<path class="ticks" d="${path}"/>`;
}

// Where records are too many to draw, the kernel's row shows where there are any.
function kernelHaze(band) {
  if (model.rows[band.row].kind !== "kernel") return "";
  const own = recordsOfRow[band.row];
  let path = "";
  for (let x = 0; x < view.width; x += 2) {
    const at = countBelow(own.length, (k) => columns[own[k]], view.start + x / view.scale);
    if (at < own.length && xOf(columns[own[at]]) < x + 2) path += `M${x + 1} ${band.y + band.height - 2}v-5`;
  }
  return path;
}

// An arrow from a post to a take: down or up between rows, over the bars within one.
function arrowDrawing(origin, take) {
  const [from, to] = [model.rowOf[origin], model.rowOf[take]];
  const [x, end] = [middleOf(origin), middleOf(take)];
  const [fromTop, fromBottom] = barEdges(from, depthAt(from, origin));
  const [toTop, toBottom] = barEdges(to, depthAt(to, take));
  const down = from <= to;
  const y = from < to ? fromBottom : fromTop;
  const tip = down ? toTop : toBottom;
  const back = tip + (down ? -5 : 5);
  const bend = from === to ? tip - 17 : (y + back) / 2;
  return `<path class="stem" d="M${px(x)} ${px(y)}C${px(x)} ${px(bend)} ${px(end)} ${px(bend)} ${px(end)} ${px(back)}"/>`
    + `<path class="tip" d="M${px(end - 3)} ${px(back)}L${px(end)} ${px(tip)}L${px(end + 3)} ${px(back)}Z"/>`;
}

function depthAt(row, index) {
  const step = stepAt(row, index);
  return step < 0 ? 0 : steps.depth[step];
}

const ARROWS = ["post", "publication", "time-event", "last-in"];

function drawArrows() {
  const shown = [];
  const isSeen = (index) => inView(columns[index], columns[index] + 1);
  model.arrows.forEach(([origin, , take], number) => { if (isSeen(origin) || isSeen(take)) shown.push(number); });
  if (shown.length > MOST_ARROWS) {
    byId("line-panel").classList.add("many");
    return "";
  }
  byId("line-panel").classList.remove("many");
  return shown.map((number) => {
    const [origin, , take, kind] = model.arrows[number];
    return `<g class="arrow ${ARROWS[kind]}" data-arrow="${number}">${arrowDrawing(origin, take)}</g>`;
  }).join("");
}

const LOOKS = {
  assert: "stops", spent: "stops", spill: "stops", full: "refused", short: "refused", nodefer: "refused", pub: "pub",
};
const markLook = (word) => LOOKS[word] ?? "aside";

function markSymbol(word, x, y) {
  if (word === "pub") return `<path class="mark pub" d="M${px(x)} ${y}l5.5 6l-5.5 6l-5.5 -6z"/>`;
  const look = markLook(word);
  return `<g class="mark ${look}"><rect x="${px(x - 6.5)}" y="${y}" width="13" height="13" rx="${look === "aside" ? 6.5 : 2}"/>`
    + `<text x="${px(x)}" y="${y + 10}">${MARK_LETTERS[word]}</text></g>`;
}

// Marks stand as letters where there is room; where records are narrow, all but stops are thin lines.
function drawMarks() {
  const lastOf = rowBands.map(() => -Infinity);
  const paths = { refused: new Set(), aside: new Set(), pub: new Set() };
  let markup = "";
  for (const [index, word] of model.marks) {
    const column = columns[index];
    if (!inView(column, column + 1)) continue;
    const row = model.rowOf[index];
    const x = middleOf(index);
    const y = rowBands[row].y + (rowBands[row].height > 40 ? 2 : 7);
    const look = markLook(word);
    if (look === "stops" || (view.scale >= NARROW && x - lastOf[row] >= 14)) {
      markup += markSymbol(word, x, y);
      lastOf[row] = x;
    } else paths[look].add(`M${Math.round(x) + 0.5} ${y + 2}v8`);
  }
  return Object.entries(paths).map(([look, path]) => (path.size ? `<path class="more-marks ${look}" d="${[...path].join("")}"/>` : "")).join("") + markup;
}
