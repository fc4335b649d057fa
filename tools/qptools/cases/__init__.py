"""Tests of charts: cases of a system under stimuli, with what has to come of them under each kernel."""
