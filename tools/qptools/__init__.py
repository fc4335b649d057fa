"""Tools beside the program: refusals in words, tests of charts. Nothing of them is proved; they read files by `qpviewer`."""
