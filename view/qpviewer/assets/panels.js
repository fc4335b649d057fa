// The panels under the time line: the state at a record, the charts, the list of records.

const entryWords = (entry) => labelOf(entry.label) + (entry.pool ? ` · ${entry.pool}.${entry.block}\u00a0r${entry.reference}` : "");

// A narrow page leaves such fields out.
const NONE = '<span class="none">–</span>';

function chips(entries) {
  return entries.length ? `<ol class="chips">${entries.map((entry) => `<li>${escapeText(entryWords(entry))}</li>`).join("")}</ol>` : NONE;
}

// What an object is doing at a record.
function doing(priority, index) {
  const row = rowOfObject.get(priority);
  const step = row === undefined ? -1 : stepAt(row, index);
  if (step < 0) return "–";
  return `${stepTitle(step)}${isPaused(step, index) ? ", interrupted" : ""}`;
}

// Who holds a reference of a block.
function holder(moment, pool, block, reference) {
  const isIt = (entry) => entry && entry.pool === pool && entry.block === block && entry.reference === reference;
  for (const [priority, object] of moment.objects) {
    if (object.queue.some(isIt)) return `queue of ${objectName(priority)}`;
    if (object.deferred.some(isIt)) return `deferred by ${objectName(priority)}`;
    if (isIt(object.current)) return `step of ${objectName(priority)}`;
  }
  return "a call under way";
}

function bodyRow(heads, [head, ...cells]) {
  const rest = cells.map((cell, k) => `<td data-head="${heads[k + 1]}"><div>${cell}</div></td>`);
  return `<tr><th scope="row" data-head="${heads[0]}">${head}</th>${rest.join("")}</tr>`;
}

function table(heads, rows) {
  const top = heads.map((head) => `<th scope="col">${head}</th>`).join("");
  const body = rows.map((row) => bodyRow(heads, row)).join("");
  return `<div class="table-scroll" tabindex="0"><table><thead><tr>${top}</tr></thead><tbody>${body}</tbody></table></div>`;
}

function factList(facts) {
  const items = facts.map(([head, words]) => `<div><dt>${head}</dt><dd>${escapeText(words)}</dd></div>`);
  return `<dl class="facts-of">${items.join("")}</dl>`;
}

const hasDeferred = model.changes.some(([word]) => word === "deferred");
const hasVars = model.objects.some(({ vars }) => Object.keys(vars).length);
const hasSaid = model.changes.some(([word]) => word === "said");

// An object's state, with its variables below.
function stateCell(priority, { state, vars }) {
  const values = [...vars].map(([name, value]) => `<span>${escapeText(name)} = ${escapeText(value)}</span>`).join(", ");
  return escapeText(stateName(priority, state)) + (values && `<div class="vars">${values}</div>`);
}

function objectTable(moment, index) {
  const rows = model.objects.map(({ name, priority }) => {
    const object = moment.object(priority);
    const step = doing(priority, index);
    return [
      escapeText(name), stateCell(priority, object), step === "–" ? NONE : escapeText(step),
      chips(object.queue), chips(object.deferred), object.said ?? NONE,
    ];
  });
  const shown = [0, 1, 2, 3, ...(hasDeferred ? [4] : []), ...(hasSaid ? [5] : [])];
  const heads = ["Object", hasVars ? "State, variables" : "State", "Step", "Queue, next first", "Deferred, oldest first", "Last said"];
  return table(shown.map((k) => heads[k]), rows.map((row) => shown.map((k) => row[k])));
}

function blockTable(moment) {
  const blocks = [...moment.blocks.values()].filter((block) => block.given || block.references.size)
    .sort((a, b) => a.pool - b.pool || a.block - b.block);
  if (!model.pools.length) return "";
  if (!blocks.length) return '<p class="small">All blocks are free.</p>';
  const rows = blocks.map(({ pool, block, label, references }) => {
    const held = [...references].map((r) => `r${r} <span class="soft">${escapeText(holder(moment, pool, block, r))}</span>`);
    return [`${pool}.${block}`, escapeText(labelOf(label)), held.join("<br>") || '<span class="none">none</span>'];
  });
  return table(["Block", "Event", "References"], rows);
}

function otherFacts(moment) {
  const armed = [...moment.counters].filter(([, value]) => value).map(([timer, value]) => `${timerName(timer)} ${value}`);
  const ceilings = [...moment.ceilings].filter(([, value]) => value).map(([row, value]) => `${model.rows[row].name} ${value}`);
  const sets = new Map();
  for (const { signal, priority } of moment.subscribers.values()) sets.set(signal, [...(sets.get(signal) ?? []), objectName(priority)]);
  const facts = [];
  if (armed.length) facts.push(["armed", armed.join(", ")]);
  if (ceilings.length) facts.push(["ceilings", ceilings.join(", ")]);
  for (const [signal, names] of sets) facts.push([`subscribe to ${escapeText(signalName(signal))}`, names.join(", ")]);
  return facts.length ? factList(facts) : "";
}

const takes = steps.first.filter((first, step) => steps.label[step] >= 0);

// What lies between the mark and a record: records, steps that begin, posts.
function betweenMarks(index) {
  if (view.mark === null) return "";
  const [from, to] = [Math.min(view.mark, index), Math.max(view.mark, index)];
  const within = (list, size) => countBelow(size, (k) => list[k], to) - countBelow(size, (k) => list[k], from);
  const parts = [[to - from, "record"], [within(takes, takes.length), "step"], [within(posts, posts.length), "post"]];
  const words = parts.map(([number, one]) => `${grouped(number)} ${one}${number === 1 ? "" : "s"}`);
  return `<p class="between">From record ${grouped(from + 1)} to record ${grouped(to + 1)}: ${words.join(", ")}</p>`;
}

function showMoment(index) {
  if (!count) {
    byId("moment").innerHTML = '<p class="small">This journal has no records.</p>';
    return;
  }
  const record = recordAt(index);
  const moment = momentAt(index);
  byId("moment").innerHTML = `<p class="record-line"><code>${escapeText(record.text)}</code> `
    + `<span class="soft">lane ${record.lane}, record ${grouped(index + 1)}</span></p>`
    + betweenMarks(index) + objectTable(moment, index) + blockTable(moment) + otherFacts(moment);
}

// The step that a record belongs to, or else the last one of its object before it; -1 where there is none.
function stepOfRecord(index) {
  const row = model.rowOf[index];
  if (row === undefined || model.rows[row].kind !== "object") return -1;
  return stepAt(row, index);
}

// Shows the chart of an object, with a step's exits, entries and state after, and who is in which state.
function showChart(chart, step, index) {
  for (const tab of document.querySelectorAll("#chart-tabs button")) {
    tab.setAttribute("aria-pressed", String(Number(tab.dataset.chart) === chart));
  }
  for (const box of document.querySelectorAll(".chart-box")) box.hidden = Number(box.dataset.chart) !== chart;
  const box = byId(`chart-${chart}`);
  const list = step >= 0 ? { exits: steps.exits[step], entries: steps.entries[step] } : { exits: [], entries: [] };
  const isTaken = (state, row) => step >= 0 && steps.state[step] === Number(state) && steps.handler[step] === Number(row);
  for (const state of box.querySelectorAll(".state")) {
    const number = Number(state.dataset.state);
    const isAfter = step >= 0 && !steps.cut[step] && steps.after[step] === number;
    state.classList.toggle("left", list.exits.includes(number));
    state.classList.toggle("entered", list.entries.includes(number));
    state.classList.toggle("after", isAfter);
    for (const row of state.querySelectorAll(".row")) {
      row.classList.toggle("took", isTaken(number, row.dataset.row));
    }
    showWho(state, chart, number, index);
  }
  for (const edge of box.querySelectorAll(".edge")) {
    edge.classList.toggle("took", isTaken(edge.dataset.from, edge.dataset.row));
  }
  for (const initial of box.querySelectorAll(".initial")) {
    const state = Number(initial.dataset.init);
    const isStart = step >= 0 && steps.label[step] < 0;
    initial.classList.toggle("took", step >= 0 && (state ? steps.inits[step].includes(state) : isStart));
  }
  byId("step-words").innerHTML = step >= 0
    ? `<p class="said"><b>${escapeText(objectName(steps.object[step]))}</b> ${escapeText(stepTitle(step))}</p>`
      + factList(stepFacts(step))
    : '<p class="small">Point at a step, or choose a record of one, to see what it exits and enters.</p>';
}

function showWho(state, chart, number, index) {
  const moment = momentAt(index);
  const isHere = (object) => object.chart === chart && moment.object(object.priority).state === number;
  const names = model.objects.filter(isHere).map(({ name }) => name);
  const who = state.querySelector(".who");
  const room = Number(who.dataset.room);
  let text = names.join(", ");
  for (let kept = names.length - 1; text.length > room && kept >= 0; kept -= 1) {
    text = `${names.slice(0, kept).join(", ")} +${names.length - kept}`;
  }
  who.textContent = text.trim();
}

// A listed record has one line, and two on a narrow page.
const isNarrowPage = matchMedia("(max-width: 700px)");
const listRow = () => (isNarrowPage.matches ? 46 : 24);
const list = { shown: null, length: 0 };

const listedAt = (place) => (list.shown ? list.shown[place] : place);

function setList(shown) {
  list.shown = shown;
  list.length = shown ? shown.length : count;
  byId("list-inner").style.height = `${list.length * listRow()}px`;
  drawList();
}

function drawList() {
  const outer = byId("list");
  const height = listRow();
  const from = Math.max(0, Math.floor(outer.scrollTop / height) - 4);
  const to = Math.min(list.length, from + Math.ceil(outer.clientHeight / height) + 8);
  let markup = "";
  for (let place = from; place < to; place += 1) {
    const index = listedAt(place);
    const { who, words } = inWords(index);
    const look = index === view.selected ? "item selected" : "item";
    markup += `<div class="${look}" data-index="${index}" style="top:${place * height}px" title="${escapeText(words)}">`
      + `<span class="place">${grouped(index + 1)}</span><code>${escapeText(recordAt(index).text)}</code>`
      + `<span class="words"><b>${escapeText(who)}</b> ${escapeText(words)}</span></div>`;
  }
  byId("list-inner").innerHTML = markup;
}

// Scrolls the list so that a record is in it, where it is listed at all.
function revealInList(index) {
  const place = list.shown ? countBelow(list.length, listedAt, index) : index;
  if (place >= list.length || listedAt(place) !== index) return drawList();
  const outer = byId("list");
  const height = listRow();
  const top = place * height;
  if (top < outer.scrollTop || top + height > outer.scrollTop + outer.clientHeight) outer.scrollTop = top - outer.clientHeight / 2;
  return drawList();
}
