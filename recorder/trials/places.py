"""Where things stand, and the runs that are tried."""

from pathlib import Path
from typing import NamedTuple

ROOT = Path(__file__).resolve().parents[2]
RECORDER = ROOT / "recorder"
EXAMPLE = RECORDER / "example"
PROGRAM = ROOT / "crates" / "qp_cli" / "out" / "qp_cli"
VIEW = ROOT / "view"


class Run(NamedTuple):
    """A run: the example's file, its system and its stimuli."""

    app: str
    system: Path
    stimuli: Path


RUNS = {
    "lamp": Run("lamp", ROOT / "examples" / "lamp.toml", ROOT / "examples" / "go.txt"),
    "telemetry": Run("telemetry", ROOT / "examples" / "telemetry" / "system.toml", ROOT / "examples" / "telemetry" / "stimuli.txt"),
    "philosophers": Run("philosophers", ROOT / "examples" / "philosophers" / "table.toml", EXAMPLE / "dinner.txt"),
    "workshop": Run("workshop", EXAMPLE / "workshop.toml", EXAMPLE / "workshop.txt"),
    "pressed": Run("workshop", EXAMPLE / "workshop.toml", EXAMPLE / "pressed.txt"),
    "crowd": Run("workshop", EXAMPLE / "workshop.toml", EXAMPLE / "crowd.txt"),
    "hunger": Run("philosophers", ROOT / "examples" / "philosophers" / "table.toml", EXAMPLE / "hunger.txt"),
}
#: Runs that come to an assertion, most times.
ASSERTING = ("crowd", "hunger")
#: Runs of other stimuli stand beside these.
EXAMPLES = ("lamp", "telemetry", "philosophers", "workshop")
APPS = sorted({run.app for run in RUNS.values()})
ONE, LANES = 1, 2
FORMS = {ONE: "one buffer", LANES: "a buffer for each thread"}
