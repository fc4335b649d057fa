// The page's data: the records in order, the model made of them, and the state behind any record.

const byId = (id) => document.getElementById(id);
const model = JSON.parse(byId("model").textContent);
const lines = byId("record-lines").textContent.split("\n").filter((line) => line !== "");
const count = lines.length;
const columns = Int32Array.from(model.columns);
const lastColumn = count ? columns[count - 1] : 0;
// The columns that the whole view has: one more than there are, so that what is cut off at the end is seen to be.
const span = lastColumn + 2;
const steps = model.steps;
const stepCount = steps.first.length;

// A number as a reader groups it, as 12,345.
const grouped = (number) => number.toLocaleString("en");

// A record of the order: its lane, word, numbers, and its line as the journal has it.
function recordAt(index) {
  const [lane, word, ...numbers] = lines[index].split(" ");
  return { lane: Number(lane), word, numbers: numbers.map(Number), text: lines[index].slice(lane.length + 1) };
}

// Where the entry of a record begins among its numbers.
const ENTRY_AT = { took: 4, post: 5, lifo: 4, defer: 1, recall: 1, flush: 1 };
const wordAt = lines.map((line) => line.split(" ", 2)[1]);

// The event that a record tells of, as a number of `model.labels`, or -1.
const labelAt = new Int32Array(count).fill(-1);
for (const [word, index, , ...rest] of model.changes) {
  if (word === "queued" || word === "front" || word === "deferred" || word === "undeferred" || word === "refused") labelAt[index] = rest[0];
  else if (word === "given") labelAt[index] = rest[1];
}
steps.first.forEach((first, step) => { labelAt[first] = steps.label[step]; });

// Groups the numbers 0, 1 .. by their row, in order.
function byRow(rows) {
  const groups = model.rows.map(() => []);
  rows.forEach((row, number) => groups[row].push(number));
  return groups;
}

const recordsOfRow = byRow(model.rowOf);
// The records that post an entry, in order.
const posts = wordAt.flatMap((word, index) => (word === "post" || word === "lifo" ? [index] : []));
const stepsOfRow = byRow(steps.row);
const stimuliOfRow = byRow(model.stimuli.row);

// How many of the ascending numbers `key(0)`, `key(1)` .. below `size` are less than `value`.
function countBelow(size, key, value) {
  let low = 0;
  let high = size;
  while (low < high) {
    const middle = (low + high) >> 1;
    if (key(middle) < value) low = middle + 1;
    else high = middle;
  }
  return low;
}

// The step of a row from whose first to whose last record a key ascends over a value, or -1.
function stepWhere(row, key, value) {
  const own = stepsOfRow[row];
  const place = countBelow(own.length, (k) => key(steps.first[own[k]]), value + 1) - 1;
  return place >= 0 && key(steps.last[own[place]]) >= value ? own[place] : -1;
}

// The step of a row that a record stands in, or that a column goes through.
const stepAt = (row, index) => stepWhere(row, (k) => k, index);
const stepAtColumn = (row, column) => stepWhere(row, (k) => columns[k], column);

const isPaused = (step, index) => steps.pauses[step].some(([first, last]) => first <= index && index <= last);

const objectOf = new Map(model.objects.map((object) => [object.priority, object]));
const objectName = (priority) => objectOf.get(priority)?.name ?? `object ${priority}`;
const rowOfObject = new Map(model.rows.flatMap((row, place) => (row.kind === "object" ? [[row.priority, place]] : [])));
const signalName = (number) => model.signals[number] ?? `signal ${number}`;
const timerName = (number) => model.timers[number - 1] ?? `time event ${number}`;

function stateName(priority, number) {
  const chart = model.charts[objectOf.get(priority)?.chart];
  return chart?.states[number - 1] ?? (number ? `state ${number}` : "–");
}

// What the records up to one leave: objects, blocks, time events, ceilings.
class Moment {
  constructor() {
    this.index = -1;
    this.next = 0;
    this.objects = new Map();
    for (const { priority, vars } of model.objects) this.object(priority).vars = new Map(Object.entries(vars));
    this.blocks = new Map();
    this.counters = new Map();
    this.ceilings = new Map();
    this.subscribers = new Map();
  }

  object(priority) {
    if (!this.objects.has(priority)) {
      this.objects.set(priority, { state: 0, queue: [], deferred: [], current: null, said: null, vars: new Map() });
    }
    return this.objects.get(priority);
  }

  block(pool, block) {
    const key = `${pool}.${block}`;
    if (!this.blocks.has(key)) this.blocks.set(key, { pool, block, label: -1, given: false, references: new Set() });
    return this.blocks.get(key);
  }

  // Another moment with the same content, which goes on by itself.
  copy() {
    const copy = new Moment();
    copy.index = this.index;
    copy.next = this.next;
    for (const [priority, object] of this.objects) {
      copy.objects.set(priority, { ...object, queue: [...object.queue], deferred: [...object.deferred], vars: new Map(object.vars) });
    }
    for (const [key, block] of this.blocks) copy.blocks.set(key, { ...block, references: new Set(block.references) });
    for (const kind of ["counters", "ceilings", "subscribers"]) copy[kind] = new Map(this[kind]);
    return copy;
  }

  forward(index) {
    const { changes } = model;
    while (this.next < changes.length && changes[this.next][1] <= index) {
      const [word, , ...numbers] = changes[this.next];
      CHANGES[word](this, ...numbers);
      this.next += 1;
    }
    this.index = index;
  }
}

const entryOf = (label, pool, block, reference) => ({ label, pool, block, reference });

const CHANGES = {
  queued: (moment, priority, ...entry) => moment.object(priority).queue.push(entryOf(...entry)),
  front: (moment, priority, ...entry) => moment.object(priority).queue.unshift(entryOf(...entry)),
  taken: (moment, priority) => { moment.object(priority).current = moment.object(priority).queue.shift() ?? null; },
  deferred: (moment, priority, ...entry) => moment.object(priority).deferred.push(entryOf(...entry)),
  undeferred: (moment, priority) => moment.object(priority).deferred.shift(),
  state: (moment, priority, state) => { moment.object(priority).state = state; },
  assigned: (moment, priority, name, value) => moment.object(priority).vars.set(name, value),
  said: (moment, priority, value) => { moment.object(priority).said = value; },
  given: (moment, pool, block, label) => Object.assign(moment.block(pool, block), { given: true, label }),
  returned: (moment, pool, block) => { moment.block(pool, block).given = false; },
  made: (moment, pool, block, reference) => moment.block(pool, block).references.add(reference),
  dropped: (moment, pool, block, reference) => moment.block(pool, block).references.delete(reference),
  counter: (moment, timer, value) => moment.counters.set(timer, value),
  ceiling: (moment, row, value) => moment.ceilings.set(row, value),
  refused: () => {},
  joined: (moment, signal, priority) => moment.subscribers.set(`${signal} ${priority}`, { signal, priority }),
  left: (moment, signal, priority) => moment.subscribers.delete(`${signal} ${priority}`),
};

// Moments on the way, so that going back begins near.
const BETWEEN = 5000;
const stops = [new Moment()];
let latest = stops[0].copy();

// What the records up to this one leave. It stands until the next call.
function momentAt(index) {
  const stop = Math.min(Math.floor((index + 1) / BETWEEN), stops.length - 1);
  if (index < latest.index || stops[stop].index > latest.index) latest = stops[stop].copy();
  while ((index + 1) / BETWEEN >= stops.length) {
    latest.forward(stops.length * BETWEEN - 1);
    stops.push(latest.copy());
  }
  latest.forward(index);
  return latest;
}
