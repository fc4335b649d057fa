"""A viewer of journals: reads a system, its stimuli and a journal, and writes one page that shows the run.

It is a viewer, and nothing of it is proved. `qp check` says whether a journal is lawful; a page is made of any
journal whose text is in the format, lawful or not.

| Module | What it does |
|---|---|
| `command`, `files` | the words of a call, the files, and what is said where one can't be drawn |
| `faults` | why a file can't be drawn |
| `system` with `toml_table` and `system_parts`, `stimuli`, `journal` | the three files as values |
| `touches` | which word a record draws a number on, or shows |
| `order` | one order of all records, and the column of each |
| `naming` | names of objects, signals and events as a reader knows them |
| `rows` | the rows of the time line, and whose each record is |
| `words_told` | queues, blocks, pools and time events, record by record |
| `steps_told` | steps, stimuli, ceilings, states and deferred lists, record by record |
| `story` | both together, as the value that the page's script draws |
| `chart_layout`, `chart_svg` | a chart as a picture |
| `place` with `word_laws` and `word_places`, `shapes`, `object_places`, `course_places` over `actions`, `source_places` | the record at which a verdict fails, why, and the history around it; `place_command` prints it |
| `verdict`, `suspects` with `sites`, `object_suspects`, `lane_suspects`, `tree` | a verdict, and the first record of an object or a lane that doesn't fit |
| `foreign` | what a journal names and its system doesn't have |
| `record_words`, `run_text` | records in words, and runs as text |
| `beside`, `perfetto` | two runs side by side, and a run as trace events |
| `holders` | who holds the blocks of a pool |
| `positions` | the line of each value of a system's file |
| `coverage`, `low_water` | rows taken, and the least that was free, over any number of journals |
| `page` | the page: its parts, style and script in one file |
"""
