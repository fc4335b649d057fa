"""Tests of `board/`, called by `board/test`.

| Module | What it tries |
|---|---|
| `places` | where things are, and the runs of the examples |
| `generating` with `made_charts` and `made_texts` | random systems with stimuli, each by a number |
| `tables_trial` | the tables of systems: read back, and with each number changed; the enum of the header; words and refusals of the commands |
| `desk_trial` | journal, line and status of the C program beside those of `qp run` |
| `wrong` | interpreters with one wrong line, and the run that finds each |
| `threads_trial` | runs with a thread for each object, judged |
| `cortex_trial` | exact journals and runs under interrupts on a Cortex-M3 in QEMU; sizes |
| `qpc_trial` | sources for QP/C 8 over a stand-in, judged |
| `page_trial` | the commands of docs/BOARD.md |
"""
