// The legend: what the journal has of all that is drawn.

const SAMPLE = 'x="1" y="3" width="24" height="12" rx="3"';
const sampleBar = (look) => `<rect class="bar ${look}" ${SAMPLE}/>`;
const sampleArrow = (look) => `<g class="arrow ${look}"><path class="stem" d="M3 3C3 14 20 3 20 11"/>`
  + '<path class="tip" d="M17 11L20 16L23 11Z"/></g>';
const SAMPLE_CEILING = '<rect class="ceiling" x="1" y="2" width="24" height="14"/><path class="ceiling-top" d="M1 3h24"/>';

const SAMPLE_STATES = ["s1", "s2"].map((look, k) => `<rect class="state-span ${look}" x="${1 + 12 * k}" y="3" width="12" height="12"/>`
  + `<rect class="state-edge ${look}" x="${1 + 12 * k}" y="3" width="1.5" height="12"/>`).join("");
const SAMPLE_SHADES = [0, 2, 4, 7].map((degree, k) => shade("d0", degree, `M${1 + 6 * k} 3h6v12h-6Z`)).join("");

const DEPTH_WORDS = ["step", "interrupts one step", "interrupts two", "three", "four", "five or more"];
const ARROW_WORDS = ["post to its take", "publication", "time event", "posted in front"];
const MARK_WORDS = {
  pub: "published", full: "refused: queue full", short: "refused: blocks short", nodefer: "refused: no room to defer",
  defer: "deferred", recall: "recalled", flush: "dropped", assert: "assertion", spent: "budget spent", spill: "lane full",
};

const hasDepth = (depth) => steps.depth.some((d, step) => steps.label[step] >= 0 && Math.min(d, DEPTHS - 1) === depth);

// Whether the journal has it, how it is drawn, and what it is.
const LEGEND = [
  [steps.label.includes(-1), sampleBar("d0 start"), "start"],
  ...DEPTH_WORDS.map((words, depth) => [hasDepth(depth), sampleBar(depthLook(depth)), words]),
  [steps.pauses.some((list) => list.length), sampleBar("d0 waits"), "interrupted"],
  [model.stimuli.first.length, sampleBar("stim"), "stimulus"],
  [statesOfRow.some((own) => own.length), SAMPLE_STATES, "states"],
  ...ARROW_WORDS.map((words, kind) => [model.arrows.some((arrow) => arrow[3] === kind), sampleArrow(ARROWS[kind]), words]),
  [model.ceilings.first.length, SAMPLE_CEILING, "ceiling"],
  ...Object.entries(MARK_WORDS).map(([word, words]) => [model.marks.some((mark) => mark[1] === word), markSymbol(word, 13, 3), words]),
];

function fillLegend() {
  const items = LEGEND.filter(([has]) => has)
    .map(([, drawing, words]) => `<li><svg width="27" height="19" aria-hidden="true">${drawing}</svg>${words}</li>`);
  byId("legend").innerHTML = `${items.join("")}<li class="when-summed"><svg width="27" height="19" aria-hidden="true">${SAMPLE_SHADES}</svg>`
    + 'the darker, the more of it is steps; ceilings are drawn from a closer view on</li>'
    + '<li class="when-many">arrows are drawn from a closer view on</li>';
}
