"""Trials of the recorder: the examples built, run under threads, and judged.

| Module | What it does |
|---|---|
| `places` | where things stand; the systems |
| `building` | compilers, sanitizers, programs; what is left where the recorder is off |
| `judging` | a run, its journal, its verdict |
| `lawful` | many runs of each example |
| `seeded` | each seeded fault with its verdict and its record |
| `stopped` | traces that just stop, and buffers that overflow |
| `at_once` | runs that stop at once at an assertion |
| `hurt` | traces that a line hurts |
| `following` | traces that are followed over a pseudo-terminal |
| `reading` | traces by hand, without a compiler |
| `wire` | pieces made by hand, and taken apart |
"""
