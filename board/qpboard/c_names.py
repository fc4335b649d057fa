"""Names of a system's things as names of C."""

import re

from qpviewer.system_parts import Chart, System


class CNames:
    """`GO_SIG` for a signal, `AO_lamp` for an object, `lamp_on_STATE` for a state; `_` is added to one that stands already."""

    def __init__(self, system: System):
        self._taken: set[str] = set()
        self.signals = {name: self._new(f"{name}_SIG") for name in system.signals}
        self.objects = {owner.name: self._new(f"AO_{owner.name}") for owner in system.objects}
        self.states = {
            (chart.name, state.name): self._new(f"{chart.name}_{state.name}_STATE")
            for chart in charts_of(system) for state in chart.states
        }

    def _new(self, name: str) -> str:
        while name in self._taken:
            name += "_"
        self._taken.add(name)
        return name


def charts_of(system: System) -> list[Chart]:
    """The charts that an object has, in the order of the objects: the others take no part."""
    return list(dict.fromkeys(owner.chart for owner in system.objects))


def file_name_of(system_file: str) -> str:
    """The name of the printed files: that of the system's file, as far as a name of C may have it."""
    stem = re.sub(r"[^A-Za-z0-9_]", "_", re.sub(r".*/", "", system_file).removesuffix(".toml"), flags=re.ASCII)
    return stem if re.match(r"[A-Za-z]", stem) else f"system_{stem}"
