// Records and steps in words.

const plural = (number, one) => `${number} ${number === 1 ? one : one.replace(/y$/, "ie") + "s"}`;
const labelOf = (label) => (label >= 0 ? model.labels[label] : "an event");

// The signed value of a number of 64 bits, which a number of the script can't hold.
const signed = (token) => BigInt.asIntN(64, BigInt(token));

const ASSERTIONS = {
  1: ([, , queue]) => `asserts: the queue of ${objectName(queue)} is full`,
  2: ([, , pool]) => `asserts: pool ${pool} has no free block`,
  3: ([, , timer]) => `asserts: ${timerName(timer)} is armed already`,
  4: ([, , timer], [ticks, interval]) => `asserts: ${timerName(timer)} can’t have ${ticks} ticks and interval ${interval}`,
  5: () => "asserts: its own queue is full, so nothing goes in front",
};

function members(set) {
  const names = [];
  for (let bit = 31; bit >= 0; bit -= 1) if (Math.floor(set / 2 ** bit) % 2) names.push(objectName(bit + 1));
  return names.length ? names.join(", ") : "nobody";
}

function stimulusWords(row, place) {
  const source = model.rows[row].name.split(" ")[1] - 1;
  return model.sources[source]?.[place - 1] ?? `stimulus ${place}`;
}

// The records that drop the last reference to a block.
const lastDrops = new Set(model.lastDrops);

// What a record says, without who says it.
const TOLD = {
  begin: () => "starts",
  took: (n, event) => `takes ${event}`,
  nil: () => "finds its queue empty",
  seen: ([, queue, f, l, m]) => `sees ${f + l > m ? plural(f + l - m, "entry") : "no entry"} for ${objectName(queue)}`,
  run: ([o, state, row]) => `${stateName(o, state)} handles it by row ${row}`,
  none: () => "no state handles it",
  exit: ([o, state]) => `exits ${stateName(o, state)}`,
  enter: ([o, state]) => `enters ${stateName(o, state)}`,
  init: ([o, state]) => `takes the initial transition of ${stateName(o, state)}`,
  done: () => "is done",
  new: ([, pool, , block], event) => `gets block ${pool}.${block} for ${event}`,
  short: ([, pool, , free, reserve]) => `is refused: pool ${pool} has ${free} free, reserve ${reserve}`,
  inc: ([, pool, block, r]) => `makes reference ${r} of block ${pool}.${block}`,
  dec: ([, pool, block, , k], event, text, isLast) => `drops ${isLast ? "the last reference" : `reference ${k}`} of block ${pool}.${block}`,
  back: ([, pool, , block]) => `gives block ${pool}.${block} back`,
  post: ([, queue], event) => `posts ${event} to ${objectName(queue)}`,
  lifo: (n, event) => `posts ${event} to itself, in front`,
  full: ([, queue, , , , margin], event) => `posts ${event}, which is refused by the queue of ${objectName(queue)}, margin ${margin}`,
  pub: ([, signal, , set]) => `publishes ${signalName(signal)} to ${members(set)}`,
  lock: ([, ceiling]) => `raises the ceiling to ${ceiling}`,
  unlock: ([, ceiling]) => `puts the ceiling back to ${ceiling}`,
  defer: (n, event) => `defers ${event}`,
  nodefer: ([o]) => `can’t defer: ${objectOf.get(o)?.canDefer ?? true ? "its deferred list is full" : "it has no deferred list"}`,
  recall: (n, event) => `recalls ${event}`,
  norecall: () => "has nothing to recall",
  flush: (n, event) => `drops the deferred ${event}`,
  sub: ([, signal]) => `subscribes to ${signalName(signal)}`,
  unsub: ([, signal]) => `unsubscribes from ${signalName(signal)}`,
  same: ([, signal]) => `changes no subscription of ${signalName(signal)}`,
  arm: ([, timer, , ticks, interval]) => `arms ${timerName(timer)} with ${plural(ticks, "tick")}, interval ${interval}`,
  disarm: ([, timer, , former]) => `disarms ${timerName(timer)}, which had ${plural(former, "tick")} left`,
  rearm: ([, timer, , former, ticks]) => `rearms ${timerName(timer)}, from ${former} to ${plural(ticks, "tick")}`,
  idle: ([, timer]) => `finds ${timerName(timer)} disarmed`,
  tick: ([, timer, , counter]) => `counts ${timerName(timer)} down to ${counter}`,
  fire: ([, timer]) => `lets ${timerName(timer)} fire`,
  settle: () => "settles",
  assert: (numbers, event, text) => ASSERTIONS[numbers[1]](numbers, text.split(" ").slice(4).map(signed)),
  spent: () => "has spent its budget",
  spill: ([, length]) => `stops: the lane is full with ${length} records`,
  look: ([, k, floor]) => `begins look ${k}, with floor ${floor}`,
  rest: ([, k]) => `rests behind look ${k}`,
};

// Who made a record, as its row is called, and what it says.
function inWords(index) {
  const record = recordAt(index);
  const row = model.rowOf[index];
  const words = record.word === "stim"
    ? `stimulus ${record.numbers[1]}: ${stimulusWords(row, record.numbers[1])}`
    : record.word === "say"
      ? `says ${signed(record.text.split(" ")[2])}`
      : TOLD[record.word](record.numbers, labelOf(labelAt[index]), record.text, lastDrops.has(index));
  return { who: model.rows[row].name, words };
}

const stepTitle = (step) => (steps.label[step] < 0 ? "start" : labelOf(steps.label[step]));

// A step's handler, exits, entries, initial transitions and the state after, each as a pair of a head and words.
function stepFacts(step) {
  const priority = steps.object[step];
  const names = (list) => list.map((state) => stateName(priority, state)).join(", ");
  const facts = [];
  if (steps.state[step]) facts.push(["handled by", `${stateName(priority, steps.state[step])}, row ${steps.handler[step]}`]);
  else if (steps.label[step] >= 0) facts.push(["handled by", "no state"]);
  facts.push(["exits", names(steps.exits[step]) || "none"], ["enters", names(steps.entries[step]) || "none"]);
  if (steps.inits[step].length) facts.push(["initial of", names(steps.inits[step])]);
  if (steps.said[step].length) facts.push(["says", steps.said[step].join(", ")]);
  facts.push([steps.cut[step] ? "cut off in" : "state after", stateName(priority, steps.after[step])]);
  return facts;
}
