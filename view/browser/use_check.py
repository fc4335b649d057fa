"""Keys, the scrubber, search, links and the pointer."""

from pages import PHILOSOPHERS, Browser, run_of
from qpviewer.verdict import read_verdict


class Use(Browser):
    """What a page does for who uses it."""

    def test_a_stopped_run_opens_where_it_was_stopped(self) -> None:
        self.chromium.view(1440, 900)
        for name, words, record in (("crowded-out", "lamp asserts: the queue of lamp is full, doing post me X, at record ", "assert 1 1 1 2 0 1"),
                                    ("out-of-budget", "lamp has spent its budget, at record ", "spent 1")):
            self.chromium.open(self.page(name, run_of(name)))
            self.assertEqual(self.value("recordAt(view.selected).text"), record)
            stopped = self.selected()
            self.assertEqual(self.value("document.querySelector('.top .stop').innerText"), f"{words}{stopped}")
            self.value("select(0)")
            self.value("document.querySelector('.top .stop a').click()")
            self.chromium.settle()
            self.assertEqual(self.selected(), stopped)

    def test_an_interrupted_step_is_drawn_dashed_to_the_end(self) -> None:
        self.chromium.view(1440, 900)
        self.chromium.open(self.page("cut-in-publication", run_of("cut-in-publication")))
        self.assertEqual(self.value("doing(1, count - 1)"), "GO, interrupted")

    def test_a_verdict_is_shown_at_its_record(self) -> None:
        files = run_of("switched")
        journal = files[2].read_text().replace("look 0 2 0", "look 0 2 1").encode()
        self.chromium.view(1440, 900)
        self.chromium.open(self.page("floor", files, journal, read_verdict("broken D19 lane 0")))
        self.assertEqual(self.value("recordAt(view.selected).text"), "look 0 2 1")
        self.assertIn("broken D19 lane 0", self.value("document.querySelector('.notice').innerText"))

    def test_the_address_follows_and_moves(self) -> None:
        self.chromium.view(1440, 900)
        self.chromium.open(self.page("philosophers", PHILOSOPHERS), "#record=20")
        self.assertEqual(self.selected(), 20)
        self.chromium.key("ArrowRight")
        self.value("new Promise(done => setTimeout(done, 400))")
        self.assertEqual(self.value("location.hash"), "#record=21")
        self.value("location.hash = '#record=300'")
        self.chromium.settle()
        self.assertEqual(self.selected(), 300)

    def test_texts_are_found(self) -> None:
        self.chromium.view(1440, 900)
        self.chromium.open(self.page("philosophers", PHILOSOPHERS))
        for text, hit in (("hungry(4", "HUNGRY(4"), ("enters eating", "enters eating"), ("block 1.0", ""), ("TIMEOUT", "TIMEOUT")):
            self.value(f"byId('text').value = '{text}'; byId('text').dispatchEvent(new Event('input'))")
            hits = self.value("view.hits")
            self.assertTrue(hits, text)
            self.assertIn(hit, self.told(self.selected()))
            self.assertEqual(self.selected() - 1, next(index for index in hits if index >= self.selected() - 1))
        self.value("byId('text').value = 'no such text'; byId('text').dispatchEvent(new Event('input'))")
        self.assertEqual(self.value("byId('hits').textContent"), "0")
        self.chromium.key("Home")
        self.chromium.key("/")
        self.assertEqual(self.value("document.activeElement.id"), "text")

    def test_what_a_step_said_stands_with_its_chart(self) -> None:
        self.chromium.view(1440, 900)
        self.chromium.open(self.page("varied-calls", run_of("varied-calls")))
        self.value("select(wordAt.indexOf('say'))")
        self.chromium.settle()
        self.assertRegex(self.value("byId('step-words').innerText"), r"says\s+-?[0-9]")

    def test_keys(self) -> None:
        self.chromium.view(1440, 900)
        self.chromium.open(self.page("philosophers", PHILOSOPHERS))
        for key, shift, record in (
            ("Home", False, 1), ("ArrowRight", False, 2), ("ArrowRight", False, 3), ("ArrowLeft", False, 2), ("End", False, 620),
            ("ArrowRight", False, 620), ("PageUp", False, 520), ("PageDown", False, 620), ("Home", False, 1),
            ("]", False, 6), ("[", False, 1),
        ):
            self.chromium.key(key, shift)
            self.assertEqual(self.selected(), record, key)
        row = self.value("model.rowOf[view.selected]")
        self.chromium.key("ArrowRight", shift=True)
        self.assertEqual(self.value("model.rowOf[view.selected]"), row)
        scale = self.value("view.scale")
        self.chromium.key("+")
        self.assertGreater(self.value("view.scale"), scale)
        start = self.value("view.start")
        self.chromium.key("d")
        self.assertGreater(self.value("view.start"), start)
        self.chromium.key("0")
        self.assertEqual(self.value("view.start"), 0)
        self.chromium.key("t")
        self.assertEqual(self.value("document.documentElement.dataset.theme"), "light")
        self.chromium.key("?")
        self.assertTrue(self.value("byId('help').open"))
        self.chromium.key("Escape")
        self.assertFalse(self.value("byId('help').open"))

    def test_controls_are_reached_by_tab(self) -> None:
        self.chromium.view(1440, 900)
        self.chromium.open(self.page("philosophers", PHILOSOPHERS))
        reached = []
        for _ in range(30):
            self.chromium.key("Tab")
            reached.append(self.value("document.activeElement.id || document.activeElement.tagName"))
        for control in ("theme", "help-open", "first", "number", "scrub", "zoom-in", "fit", "text", "kind", "owner", "hit-next",
                        "line-panel", "only", "list"):
            self.assertIn(control, reached)

    def test_scrubber(self) -> None:
        self.chromium.view(1440, 900)
        self.chromium.open(self.page("philosophers", PHILOSOPHERS))
        self.value("byId('scrub').focus()")
        self.chromium.key("End")
        self.value("byId('scrub').value = 259; byId('scrub').dispatchEvent(new Event('input'))")
        self.assertEqual(self.selected(), 260)
        cells = "[...document.querySelectorAll('#moment tbody tr')].map(tr => [...tr.cells].map(cell => cell.innerText))"
        rows = [[" ".join(cell.split()) for cell in row] for row in self.value(cells)]
        self.assertIn(["ann", "thinking l = 1, r = 2", "–", "TIMEOUT EAT(5) · 1.0 r5 EAT(3) · 1.1 r5", "–"], rows)
        self.assertIn(["1.1", "EAT(3)", "r4 step of bob r5 queue of ann"], rows)
        self.assertIn(["2.0", "HUNGRY(4, 8, 16)", "r3 deferred by table"], rows)
        self.assertEqual(self.value("document.querySelector('#list .selected .place').textContent"), "260")

    def test_search(self) -> None:
        self.chromium.view(1440, 900)
        self.chromium.open(self.page("philosophers", PHILOSOPHERS))
        self.value("byId('kind').value = 'defer'; byId('kind').dispatchEvent(new Event('change'))")
        hits = self.value("view.hits.map(index => index + 1)")
        self.assertEqual(self.selected(), hits[0])
        self.value("document.activeElement.blur()")
        self.chromium.key("n")
        self.assertEqual(self.selected(), hits[1])
        self.chromium.key("N", shift=True)
        self.assertEqual(self.selected(), hits[0])
        self.assertEqual(self.value("byId('hits').textContent"), f"1 of {len(hits)}")
        self.value("byId('only').click()")
        self.assertEqual(self.value("list.length"), len(hits))
        self.value("byId('owner').value = '1'; byId('owner').dispatchEvent(new Event('change'))")
        self.assertEqual(self.value("byId('hits').textContent"), "0")

    def test_pointing_at_a_step(self) -> None:
        self.chromium.view(1440, 1100)
        self.chromium.open(self.page("philosophers", PHILOSOPHERS), "#record=100")
        x, y = self.value("""(() => {
          setView(80, 14); drawLine();
          const box = byId("line").getBoundingClientRect();
          return [box.left + SVG.label + middleOf(104), box.top + barEdges(rowOfObject.get(4))[0] + 9];
        })()""")
        self.chromium.pointer("mouseMoved", x, y)
        self.assertFalse(self.value("byId('tip').hidden"))
        pairs = "[...document.querySelectorAll('#tip dl div')].map(fact => [...fact.children].map(e => e.textContent))"
        facts = dict(self.value(pairs))
        self.assertEqual((facts["exits"], facts["enters"], facts["state after"]), ("thinking", "hungry", "hungry"))
        state = "document.querySelector('.chart-box:not([hidden]) .state.{}').dataset.state"
        self.assertEqual([self.value(state.format(look)) for look in ("left", "entered", "after")], ["1", "2", "2"])
        self.chromium.pointer("mousePressed", x, y, button="left", clickCount=1)
        self.chromium.pointer("mouseReleased", x, y, button="left", clickCount=1)
        self.assertEqual(self.selected(), 105)
        start = self.value("view.start")
        self.chromium.pointer("mouseWheel", x, y, deltaX=200, deltaY=0)
        self.assertGreater(self.value("view.start"), start)
        scale = self.value("view.scale")
        self.chromium.pointer("mouseWheel", x, y, deltaX=0, deltaY=-240, modifiers=2)
        self.assertGreater(self.value("view.scale"), scale)
