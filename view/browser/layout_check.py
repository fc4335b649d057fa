"""Where things stand in a page, at several widths, light and dark."""

from pathlib import Path

from pages import BESIDE, PHILOSOPHERS, SHOWN, WIDTHS, Browser, run_of

#: Pairs of texts that lie on each other, within each part of the page that has texts at places of their own.
OVERLAPS = """(() => {
  const found = [];
  for (const part of ["#axis", "#line .labels", "#plot", ".chart-box:not([hidden]) .chart"]) {
    const texts = [...document.querySelectorAll(`${part} text`)].filter((text) => text.textContent);
    const boxes = texts.map((text) => text.getBoundingClientRect());
    boxes.forEach((a, i) => boxes.slice(i + 1).forEach((b, j) => {
      if (a.left < b.right - 1 && b.left < a.right - 1 && a.top < b.bottom - 3 && b.top < a.bottom - 3) {
        found.push(`${part}: ${texts[i].textContent} | ${texts[i + 1 + j].textContent}`);
      }
    }));
  }
  return found;
})()"""
#: Texts of a chart outside their box, and controls outside the page.
OUTSIDE = """(() => {
  const found = [];
  for (const state of document.querySelectorAll(".chart-box:not([hidden]) .state")) {
    const box = state.querySelector("rect").getBoundingClientRect();
    for (const text of state.querySelectorAll("text")) {
      const place = text.getBoundingClientRect();
      if (text.textContent && (place.left < box.left || place.right > box.right + 1)) found.push(text.textContent);
    }
  }
  for (const control of document.querySelectorAll("button, select, input")) {
    if (control.getBoundingClientRect().right > innerWidth) found.push(control.id);
  }
  return found;
})()"""
SIDEWAYS = "document.documentElement.scrollWidth - document.documentElement.clientWidth"


class Layout(Browser):
    """Nothing lies on anything else, and what belongs together stands together."""

    def pages(self) -> dict[str, Path]:
        files = {"philosophers": PHILOSOPHERS} | BESIDE | {name: run_of(name) for name in SHOWN}
        return {name: self.page(name, of) for name, of in files.items()}

    def test_nothing_overlaps_or_is_cut_off(self) -> None:
        for name, page in self.pages().items():
            for width in WIDTHS:
                for dark in (False, True):
                    with self.subTest(name, width=width, dark=dark):
                        self.look(name, page, width, dark)

    def look(self, name: str, page: Path, width: int, dark: bool) -> None:
        self.chromium.view(width, 900, dark)
        self.chromium.open(page, "#record=20")
        self.assertEqual(self.value(SIDEWAYS), 0)
        charts = self.value("model.charts.length")
        for chart in range(charts):
            self.value(f"showChart({chart}, -1, view.selected)")
            self.assertEqual(self.value(OVERLAPS), [])
            self.assertEqual(self.value(OUTSIDE), [])
        if self.folder:
            self.value("showSelectedChart()")
            self.chromium.view(width, self.value("document.documentElement.scrollHeight"), dark)
            self.chromium.settle()
            self.chromium.picture(self.folder / f"{name}-{width}-{'dark' if dark else 'light'}.png", whole=False)

    def test_the_records_words_stay_in_sight(self) -> None:
        page = self.page("philosophers", PHILOSOPHERS)
        for width in (360, 1440):
            with self.subTest(width=width):
                self.chromium.view(width, 700)
                self.chromium.open(page, "#record=104")
                self.assertEqual(self.value("byId('now').innerText"), self.told(104))
                self.value("scrollTo(0, document.documentElement.scrollHeight)")
                self.chromium.settle()
                top, bottom = self.value("(() => { const b = byId('now').getBoundingClientRect(); return [b.top, b.bottom]; })()")
                self.assertGreaterEqual(top, 0)
                self.assertLess(bottom, 200)

    def test_the_moment_stands_beside_the_rows_or_below_them(self) -> None:
        places = """[...document.querySelectorAll('#line-panel, #moment-panel')].map((panel) => {
          const box = panel.getBoundingClientRect();
          return [box.left, box.top, box.right, box.bottom];
        })"""
        page = self.page("philosophers", PHILOSOPHERS)
        for width in (1200, 1440, 1920):
            self.chromium.view(width, 900)
            self.chromium.open(page)
            rows, moment = self.value(places)
            self.assertGreaterEqual(moment[0], rows[2], width)
            self.assertEqual(moment[1], rows[1], width)
        self.chromium.view(360, 800)
        self.chromium.open(page)
        rows, moment = self.value(places)
        self.assertTrue(0 <= moment[1] - rows[3] < 40)

    def test_the_chosen_records_row_is_in_sight(self) -> None:
        self.chromium.view(1440, 420)
        self.chromium.open(self.page("philosophers", PHILOSOPHERS))
        for name in ("source 1", "table", "ann"):
            self.value(f"select(model.rowOf.indexOf(model.rows.findIndex(row => row.name === '{name}')))")
            self.chromium.settle()
            top, bottom, height = self.value("""(() => {
              const [band, panel] = [rowBands[model.rowOf[view.selected]], byId("line-scroll")];
              return [band.y - panel.scrollTop, band.y + band.height - panel.scrollTop, panel.clientHeight];
            })()""")
            self.assertGreaterEqual(top, 0, name)
            self.assertLessEqual(bottom, height, name)

    def test_pictures_of_the_tour(self) -> None:
        """Those that docs/TOUR.md shows, where pictures are asked for."""
        if not self.folder:
            self.skipTest("no pictures are asked for")
        for name, files, record, height, start in (
            ("philosophers", PHILOSOPHERS, 104, 1690, 40), ("philosophers-port", BESIDE["philosophers-port"], 150, 660, 0),
        ):
            self.chromium.view(1440, height)
            self.chromium.open(self.page(files[2].name, files), f"#record={record}")
            if start:
                self.value(f"setView({start}, 6.2)")
            self.chromium.settle()
            self.chromium.picture(self.folder / f"{name}.png", whole=False)
