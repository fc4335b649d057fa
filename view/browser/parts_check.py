"""The parts of a picture: the track of states, variables, density, the mark, the first view, and two runs beside each other."""

from itertools import combinations

from pages import BESIDE, EXAMPLES, LAMP, PHILOSOPHERS, SECONDS, Browser, long_journal, run_of, story_of
from qpviewer.beside import beside_page

#: The colour of each state's look as it is seen, over the panel, and the colour of its name.
SEEN = """(() => {
  const channels = (colour) => colour.match(/[0-9.]+/g).slice(0, 3).map(Number);
  const panel = channels(getComputedStyle(byId("line-panel")).backgroundColor);
  const plot = byId("plot");
  plot.innerHTML += Array.from({ length: STATE_LOOKS }, (_, k) => `<rect class="state-span s${k} tried"/>`).join("") + '<text class="state-text tried"/>';
  const looks = [...plot.querySelectorAll("rect.tried")].map((rect) => {
    const { fill, fillOpacity } = getComputedStyle(rect);
    return channels(fill).map((value, k) => value * fillOpacity + panel[k] * (1 - fillOpacity));
  });
  return { looks, ink: channels(getComputedStyle(plot.querySelector("text.tried")).fill) };
})()"""
#: What is left of a name that has room beside it: the states' names, each with the width of its span.
NAMES = """[...document.querySelectorAll("#plot .state-text")].map((text) => text.textContent)"""

#: The journal of `examples/dry` under `sim`, whose pool is empty at the fourth post of a burst.
DRY = b"""\
qp 1 0 100000
lane 0
begin 1
enter 1 1
done 1
begin 2
enter 2 1
done 2
look 0 1 0
seen 0 2 1 0 0
took 2 1 0 1 0 4 0
run 2 1 1
look 0 2 2
new 2 1 0 0 0 5 1
inc 2 1 0 0
post 2 1 1 0 0 1 0 0
look 0 3 2
look 0 4 2
new 2 1 1 1 0 5 2
inc 2 1 1 0
post 2 1 2 0 0 1 1 0
look 0 5 2
look 0 6 2
new 2 1 2 2 0 5 3
inc 2 1 2 0
post 2 1 3 0 0 1 2 0
look 0 7 2
assert 2 2 1 3 0
lane 1
stim 0 1 1
post 0 2 1 0 0 0 4 0
end 3
"""


def luminance(colour: list[float]) -> float:
    parts = [value / 255 for value in colour]
    red, green, blue = (part / 12.92 if part <= 0.03928 else ((part + 0.055) / 1.055) ** 2.4 for part in parts)
    return 0.2126 * red + 0.7152 * green + 0.0722 * blue


def contrast(one: list[float], other: list[float]) -> float:
    """The contrast of two colours, from 1 to 21, as WCAG has it."""
    low, high = sorted((luminance(one), luminance(other)))
    return (high + 0.05) / (low + 0.05)


def looks_apart(looks: int) -> bytes:
    """A lamp that takes posts with so many looks before each take in the first half, and one in the second."""
    kernel, source, look = ["begin 1", "enter 1 1", "done 1"], [], 0
    for k in range(1, 2001):
        for _ in range(looks if k <= 1000 else 1):
            look += 1
            kernel.append(f"look 0 {look} 0")
        kernel += [f"took 1 {k} 0 {k} 0 4 0", "none 1", "done 1"]
        source += [f"stim 0 {k} {look}", f"post 0 1 {k} 0 {k - 1} 0 4 0"]
    return "\n".join(["qp 1 0 1000000", "lane 0", *kernel, "lane 1", *source, "end 0", ""]).encode()


class Parts(Browser):
    """Each part shows what it is there for."""

    def test_states_can_be_told_apart_and_read(self) -> None:
        """The colours of the looks differ as they are seen, and names can be read on each of them, in both themes."""
        page = self.page("philosophers", PHILOSOPHERS)
        for dark in (False, True):
            with self.subTest(dark=dark):
                self.chromium.view(1280, 900, dark)
                self.chromium.open(page)
                seen = self.value(SEEN)
                self.assertEqual(len(seen["looks"]), 8)
                for one, other in combinations(seen["looks"], 2):
                    self.assertGreater(sum((a - b) ** 2 for a, b in zip(one, other)) ** 0.5, 25, (one, other))
                for look in seen["looks"]:
                    self.assertGreater(contrast(look, seen["ink"]), 4.5, look)

    def test_the_track_of_states(self) -> None:
        """A philosopher thinks, is hungry, eats: three colours, with names where there is room; the track lies between bars and ticks."""
        for width in (400, 1280):
            with self.subTest(width=width):
                self.chromium.view(width, 900)
                self.chromium.open(self.page("port", BESIDE["philosophers-port"]))
                self.value("fit(); drawLine()")
                spans = self.value("""[...document.querySelectorAll("#plot .state-span")].map((rect) => {
                  const own = rowBands.findIndex((band) => Number(rect.getAttribute("y")) > band.y && Number(rect.getAttribute("y")) < band.y + band.height);
                  const [y, height] = ["y", "height"].map((name) => Number(rect.getAttribute(name)));
                  return [model.rows[own].name, rect.classList[1], y - barEdges(own)[1], rowBands[own].y + rowBands[own].height - y - height, height];
                })""")
                looks: dict[str, set[str]] = {}
                for name, look, above, below, height in spans:
                    looks.setdefault(name, set()).add(look)
                    self.assertGreaterEqual(above, 1)
                    self.assertGreaterEqual(below, 9)
                    self.assertGreaterEqual(height, 12)
                self.assertEqual(looks.pop("table"), {"s1"})
                self.assertEqual(set(looks), {"ann", "bob", "cat", "dan", "eve"})
                self.assertEqual(set().union(*looks.values()), {"s1", "s2", "s3"})
                names = self.value(NAMES)
                self.assertIn("serving", names)
                whole = {"thinking", "hungry", "eating", "serving"}
                self.assertTrue(all(name in whole or name.endswith("…") and any(one.startswith(name[:-1]) for one in whole) for name in names), names)

    def test_the_states_are_those_of_the_moment(self) -> None:
        """In the middle of each span, the object is in the state whose look it has."""
        self.chromium.view(1280, 900)
        self.chromium.open(self.page("philosophers", PHILOSOPHERS))
        differing = self.value("""rowBands.filter(isObjectBand).flatMap((band) => {
          const { priority } = model.rows[band.row];
          return stateSpans(statesOfRow[band.row]).filter(({ state, first, last }) => (
            last > first && momentAt(Math.floor((first + last - 1) / 2)).object(priority).state !== state));
        })""")
        self.assertEqual(differing, [])

    def variables(self) -> dict[str, str]:
        """What stands below each object's state."""
        rows = self.value("[...document.querySelectorAll('#moment .vars')].map(vars => [vars.closest('tr').cells[0].innerText, vars.innerText])")
        return {name.strip(): words for name, words in rows}

    def test_variables(self) -> None:
        """They begin as the system says, and end as the example's summary does: the forks in use are those of who eats."""
        forks = {"ann": (1, 2), "bob": (2, 4), "cat": (4, 8), "dan": (8, 16), "eve": (16, 1)}
        told = {name: f"l = {left}, r = {right}" for name, (left, right) in forks.items()}
        self.chromium.view(1280, 900)
        for name, files in ({"sim": PHILOSOPHERS} | BESIDE).items():
            with self.subTest(name):
                self.chromium.open(self.page(name, files), "#record=1")
                self.assertEqual(self.variables(), told | {"table": "used = 0"})
                self.value("select(count - 1)")
                eating = [line[0] for line in story_of(files).object_lines() if line[8] == "eating"]
                used = sum(sum(forks[who]) for who in eating)
                self.assertEqual(self.variables(), told | {"table": f"used = {used}"})
                if name == "sim":
                    self.assertEqual((sorted(eating), used), (["ann", "dan"], 27))

    def test_variables_go_back(self) -> None:
        self.chromium.view(1280, 900)
        self.chromium.open(self.page("philosophers", PHILOSOPHERS), "#record=620")
        self.value("select(0)")
        self.assertEqual(self.variables()["table"], "used = 0")

    def test_density(self) -> None:
        """Where a whole run is drawn, the half with more of it in steps is the darker one."""
        self.chromium.view(1280, 900)
        self.chromium.open(self.page("apart", LAMP, looks_apart(40)))
        self.value("fit(); drawLine()")
        self.assertTrue(self.value("byId('line-panel').classList.contains('summed')"))
        # Of 45 records of a round 3 are the step's, then 3 of 6.
        share = self.value("""(() => {
          const paths = densityOf(steps, stepsOfRow[0], rowBands[0]);
          const degreeAt = (x) => paths.findIndex((path) => path.includes(`M${x - x % BIN} `));
          return [0.2, 0.98].map((part) => degreeAt(Math.round(xOf(lastColumn) * part)));
        })()""")
        self.assertEqual(share, [int((3 / 45) ** 0.5 * 8), int((3 / 6) ** 0.5 * 8)])
        shown = "getComputedStyle(document.querySelector('.when-summed')).display"
        self.assertEqual(self.value(shown), "flex")
        self.value("setView(0, 8); drawLine()")
        self.assertEqual(self.value(shown), "none")

    def test_a_hundred_thousand_records_drawn_whole(self) -> None:
        """Shades of several degrees, states by bins, no ceilings; and it is drawn within a second on a free machine."""
        for width in (400, 1280):
            with self.subTest(width=width):
                self.chromium.view(width, 900)
                self.assertLess(self.chromium.open(self.page("long", LAMP, long_journal(100_000))), SECONDS)
                spent = self.value("(() => { fit(); const begin = performance.now(); drawLine(); return performance.now() - begin; })()")
                self.assertLess(spent, 1000 * SECONDS)
                self.assertGreater(self.value("document.querySelectorAll('#plot .shade').length"), 0)
                self.assertEqual(self.value("document.querySelectorAll('#plot .ceiling, #plot .bar').length"), 0)
                self.assertLess(self.value("byId('line').innerHTML.length"), 200_000)

    def test_bins_have_the_state_that_takes_most_of_them(self) -> None:
        self.chromium.open(self.page("lamp", LAMP, long_journal(100)))
        found = self.value("""(() => {
          setView(0, leastScale());
          const bin = BIN / view.scale;
          const spans = [[1, 0, 0.6], [2, 0.6, 1], [3, 1, 1.1], [2, 1.1, 3]].map(([state, first, last]) => ({ state, first: first * bin, last: last * bin }));
          return binnedSpans(spans).slice(0, 2).map(({ state, first, last }) => [state, Math.round(first / bin), Math.round(last / bin)]);
        })()""")
        self.assertEqual(found, [[1, 0, 1], [2, 1, 3]])

    def between(self) -> str | None:
        return self.value("document.querySelector('.between')?.innerText ?? null")

    def test_the_mark(self) -> None:
        """Records, steps and posts between two records; a second time the mark goes."""
        self.chromium.view(1280, 900)
        self.chromium.open(self.page("lamp", LAMP, long_journal(14)))
        self.assertIsNone(self.between())
        self.chromium.key("Home")
        self.chromium.key("m")
        self.assertEqual(self.between(), "From record 1 to record 1: 0 records, 0 steps, 0 posts")
        self.chromium.key("End")
        last = self.selected()
        self.assertEqual(self.between(), f"From record 1 to record {last}: {last - 1} records, 1 step, 1 post")
        self.assertEqual(self.value("document.querySelectorAll('#plot .mark-line').length"), 1)
        self.chromium.key("m")
        self.chromium.key("Home")
        self.assertEqual(self.between(), f"From record 1 to record {last}: {last - 1} records, 1 step, 1 post")
        self.chromium.key("End")
        self.chromium.key("m")
        self.assertIsNone(self.between())
        self.assertEqual(self.value("document.querySelectorAll('#plot .mark-line').length"), 0)

    def test_what_lies_between_two_records_is_counted_as_the_journal_has_it(self) -> None:
        story = story_of(PHILOSOPHERS)
        words = [record.word for _, record in story.records()]
        self.chromium.view(1280, 900)
        self.chromium.open(self.page("philosophers", PHILOSOPHERS), "#record=100")
        self.chromium.key("m")
        self.value("select(399)")
        within = words[99:399]
        steps, posts = within.count("took"), within.count("post") + within.count("lifo")
        self.assertEqual(self.between(), f"From record 100 to record 400: 300 records, {steps} steps, {posts} posts")

    def test_the_first_view(self) -> None:
        """A run opens at its first stimulus, which is in view; one that was stopped, where it was stopped."""
        table = {"philosophers": PHILOSOPHERS, "lamp": LAMP, "port": BESIDE["philosophers-port"]}
        for width in (400, 1280):
            for name, files in table.items():
                with self.subTest(name, width=width):
                    self.chromium.view(width, 900)
                    self.chromium.open(self.page(name, files, long_journal(100_000) if name == "lamp" else None))
                    first = self.value("wordAt.indexOf('stim') + 1")
                    self.assertEqual(self.selected(), first)
                    x, shown = self.value("[middleOf(view.selected), view.width]")
                    self.assertTrue(0 <= x <= shown)
        self.chromium.open(self.page("crowded-out", run_of("crowded-out")))
        self.assertEqual(self.value("wordAt[view.selected]"), "assert")

    def test_escape_clears_the_search(self) -> None:
        """In the field and beside it; the record that is chosen stays."""
        self.chromium.view(1280, 900)
        self.chromium.open(self.page("philosophers", PHILOSOPHERS))
        for where in ("byId('text').focus()", "document.activeElement.blur()"):
            with self.subTest(where):
                self.value("byId('text').value = 'eating'; byId('text').dispatchEvent(new Event('input'))")
                self.value("byId('only').checked || byId('only').click()")
                chosen = self.selected()
                self.assertGreater(self.value("view.hits.length"), 0)
                self.value(where)
                self.chromium.key("Escape")
                self.assertEqual(self.value("[view.hits.length, byId('text').value, byId('hits').textContent, list.length]"), [0, "", "", 620])
                self.assertEqual(self.selected(), chosen)
                self.assertNotEqual(self.value("document.activeElement.id"), "text")

    def test_the_action_that_asserted(self) -> None:
        """Stands in the head of the page."""
        self.chromium.view(1280, 900)
        files = (EXAMPLES / "dry" / "dry.toml", EXAMPLES / "dry" / "stimuli.txt", EXAMPLES / "dry" / "stimuli.txt")
        self.chromium.open(self.page("dry", files, DRY))
        self.assertEqual(self.value("document.querySelector('.top .stop').innerText"),
                         "reader asserts: pool 1 has no free block, doing post writer COMMAND(n), at record 28")

    def test_two_runs_beside_each_other(self) -> None:
        """Both frames open where the runs part, and each is a page by itself."""
        text = PHILOSOPHERS[2].read_text()
        line = next(line for line in text.splitlines() if line.startswith("look 0 5 "))
        one, other = story_of(PHILOSOPHERS), story_of(PHILOSOPHERS, text.replace(line, f"{line[:-1]}9", 1).encode())
        page = self.write("both", beside_page(one, other, ("table.toml", "two.txt", "a.txt", "b.txt")))
        parted = next(index for index, (_, record) in enumerate(one.records()) if record.text == line)
        for width in (400, 1280):
            with self.subTest(width=width):
                self.chromium.view(width, 900)
                self.chromium.open(page)
                frames = "['first', 'second'].map((id) => document.getElementById(id).contentWindow.eval({}))"
                self.assertEqual(self.value(frames.format('"view.selected"')), [parted, parted])
                self.assertEqual(self.value(frames.format('"recordAt(view.selected).text"')), [line, f"{line[:-1]}9"])
                self.assertIn(f"record {parted + 1}", self.value("document.getElementById('told').innerText"))
                self.assertEqual(self.value("document.documentElement.scrollWidth - document.documentElement.clientWidth"), 0)
                self.value(frames.format('"select(view.selected + 1)"'))
                self.value("new Promise(done => setTimeout(done, 400))")
                self.assertEqual(self.value(frames.format('"view.selected"')), [parted + 1, parted + 1])

    def test_a_link_within_a_frame_chooses_its_record(self) -> None:
        one = story_of(run_of("crowded-out"))
        page = self.write("both", beside_page(one, one, ("s.toml", "s.txt", "a.txt", "b.txt")))
        self.chromium.view(1280, 900)
        self.chromium.open(page)
        frame = "document.getElementById('second').contentWindow.eval({})"
        self.assertEqual(self.value(frame.format('"view.selected"')), 0)
        self.value(frame.format("\"document.querySelector('.top .stop a').click()\""))
        self.chromium.settle()
        self.assertEqual(self.value(frame.format('"wordAt[view.selected]"')), "assert")
