"""The words of pages, and pages of long journals."""

from pages import BESIDE, LAMP, PHILOSOPHERS, SECONDS, SHOWN, Browser, long_journal, run_of, story_of


class Words(Browser):
    """The script's words and moments."""

    def test_script_and_text_say_the_same(self) -> None:
        """The page's script and the text of a run have the same words for each record."""
        known = {name: run_of(name) for name in SHOWN} | {"philosophers": PHILOSOPHERS} | BESIDE
        known |= {name: run_of(name) for name in ("armed-without-ticks", "crowded-out", "out-of-budget", "refused-post")}
        for name, files in known.items():
            with self.subTest(name):
                story = story_of(files)
                told = [list(story.in_words(index)) for index in range(len(story.order.places))]
                self.chromium.open(self.page(name, files))
                shown = self.value("lines.map((line, index) => Object.values(inWords(index)))")
                self.assertEqual([[who, words.replace("’", "'")] for who, words in shown], told)

    def test_going_back_is_going_anew(self) -> None:
        self.chromium.open(self.page("long", LAMP, long_journal(30_000)))
        differing = self.value("""[29000, 4999, 5000, 17, 10000, 9999, 0, 28000].filter((index) => {
          const anew = new Moment();
          anew.forward(index);
          const told = (moment) => JSON.stringify([...moment.objects]);
          return told(anew) !== told(momentAt(index));
        })""")
        self.assertEqual(differing, [])

    def test_a_hundred_thousand_records(self) -> None:
        page = self.page("long", LAMP, long_journal(100_000))
        self.chromium.view(1440, 900)
        seconds = self.chromium.open(page)
        self.assertGreater(self.value("count"), 99_990)
        print(f"100,000 records: opened in {seconds:.2f} s")
        self.assertLess(seconds, SECONDS)
        for name, act in (("whole run", "fit()"), ("near", "setView(50000, 8)"), ("last record", "select(count - 1)"),
                          ("one back", "select(count - 2)"), ("search", "byId('kind').value = 'took'; search()"),
                          ("text", "byId('kind').value = ''; byId('text').value = 'on'; search()")):
            timed = f"const begin = performance.now(); {act}; drawLine(); return performance.now() - begin;"
            spent = self.value(f"(() => {{ {timed} }})()")
            print(f"  {name}: {spent:.0f} ms")
            self.assertLess(spent, 1000 * SECONDS)
