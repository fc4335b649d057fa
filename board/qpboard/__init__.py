"""Prints a system as C: tables for the interpreter `qp_board.h`, or sources for QP/C 8.

Nothing of it is proved. Each print of tables is read back and compared with the system.

| Module | What it does |
|---|---|
| `command` | the words of `board/qpc`, its files, and what is told where one can't be read or written |
| `asked` | what the built program says of the files, before anything is printed |
| `numbers` | the bytes of the tables' code with their operands: the one part that printing and reading back share |
| `code` | actions and guards as bytes |
| `c_names` | names of the system as names of C |
| `chart_text` | a chart as lines of a comment |
| `tables` | the texts of `NAME.h` and `NAME.c` |
| `printed` | the text of `NAME.c` as its arrays |
| `decoding` | bytes of code as actions and guards |
| `read_back` | what of printed tables differs from the system |
| `qpc_values`, `qpc_chart`, `qpc_sources`, `qpc_gaps` | sources for QP/C 8, and what of the system doesn't map |
| `stimuli_text` | stimuli as tables of the desk |
| `building`, `desk` | the tables compiled with a host of `board/host` and run, by the words of `qp run` |

The files of a system and of stimuli are read by the viewer's readers (`view/qpviewer`).
"""
