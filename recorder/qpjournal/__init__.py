"""Makes stimuli and a journal of what `qp_record.h` recorded.

Nothing of it is proved; `qp check` says whether the journal is lawful.

| Module | What it does |
|---|---|
| `command` | the words of a call, the files, and what is told |
| `pieces` | the bytes as whole pieces; what is hurt |
| `records` | the records of a buffer |
| `trace` | pieces put together, lane by lane; what is missing |
| `counting` | the numbers of operations, where one order has none |
| `blocks` | lives of blocks; their names, so that each is the least free one; their numbers |
| `queues` | entries of queues by their references; counts of posts and takes |
| `timers` | counters of time events; where one isn't armed |
| `told` | all of these together |
| `object_lane`, `source_lane` with `lane` | a lane's records as those of a journal |
| `stimulus` | the lines of a source |
| `stops` | where a lane may stop |
| `asserted` | a run that ended at an assertion: the others are cut back |
| `making` | the whole: stimuli and journal |
| `window` | a trace that just stops, cut back and ended by an assertion of its own |
| `follow` | the run in words while its bytes come |

The files of a system and of a journal are read by the viewer's readers (`view/qpviewer`).
"""
