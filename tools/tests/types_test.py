"""The types of the Python parts are checked by Debian's mypy, where it is there."""

import os
import shutil
import subprocess
import tempfile
import unittest

from qptools.program import TOP

#: The packages, by the folder in which each stands.
PACKAGES = {"view": "qpviewer", "tools": "qptools", "recorder": "qpjournal", "board": "qpboard", "bench": "qpbench"}
#: It takes some seven of processor time.
SECONDS = 600


@unittest.skipUnless(shutil.which("mypy"), "there is no mypy")
class Types(unittest.TestCase):
    """No value is used where its type doesn't fit, nor a value that may be missing where one is needed."""

    def test_types_fit(self) -> None:
        packages = [word for name in PACKAGES.values() for word in ("-p", name)]
        environment = os.environ | {"MYPYPATH": ":".join(PACKAGES)}
        with tempfile.TemporaryDirectory() as cache:
            ran = subprocess.run(["mypy", "--config-file=", f"--cache-dir={cache}", "--python-version=3.11", "--check-untyped-defs", *packages],
                                 cwd=TOP, env=environment, capture_output=True, text=True, timeout=SECONDS)
        self.assertEqual((ran.returncode, ran.stderr), (0, ""), ran.stdout)

    def test_each_package_is_there(self) -> None:
        """Every folder of a package with Python files is one of those that are checked."""
        found = {(path.parent.parent.name, path.parent.name) for path in TOP.glob("*/qp*/*.py")}
        self.assertEqual(found, set(PACKAGES.items()))


if __name__ == "__main__":
    unittest.main()
