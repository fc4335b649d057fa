"""What came of cases as a JUnit file, which continuous integration reads: a suite for each file of cases, and in it a test for each case under
each kernel. A case that differs is a failure, one without a run an error. tools/tests/junit.xsd has the form."""

import re
from collections.abc import Sequence
from pathlib import Path
from xml.etree import ElementTree
from xml.etree.ElementTree import Element, SubElement

from .tried import Tried

#: What XML can't have, even escaped.
_NO_CHARACTER = re.compile("[^\t\n\r\x20-\ud7ff\ue000-\ufffd\U00010000-\U0010ffff]")


def junit_of(tried: Sequence[Tried], faults: Sequence[str] = ()) -> bytes:
    """The file; `faults` are files of cases that can't be run, each in a line."""
    root = Element("testsuites")
    suites: dict[Path, list[Tried]] = {}
    for one in tried:
        suites.setdefault(one.case.source.path, []).append(one)
    for path, of in suites.items():
        _suite(root, path, of)
    if faults:
        suite = SubElement(root, "testsuite", {"name": "files of cases", **_counts(len(faults), 0, len(faults), 0.0)})
        for fault in faults:
            test = SubElement(suite, "testcase", {"name": "can be read", "classname": _shown(fault.partition(":")[0]), "time": "0.000"})
            _told(test, "error", fault, "")
    numbers = [(len(of), *_faulty(of)) for of in suites.values()]
    root.attrib |= _counts(len(tried) + len(faults), sum(failed for _, failed, _ in numbers),
                           sum(errors for _, _, errors in numbers) + len(faults), sum(one.seconds for one in tried))
    ElementTree.indent(root)
    return ElementTree.tostring(root, "utf-8", xml_declaration=True) + b"\n"


def _suite(root: Element, path: Path, tried: list[Tried]) -> None:
    failed, errors = _faulty(tried)
    counts = _counts(len(tried), failed, errors, sum(one.seconds for one in tried))
    suite = SubElement(root, "testsuite", {"name": _shown(str(path)), **counts})
    for one in tried:
        names = {"name": _shown(one.name), "classname": _shown(str(path.parent))}
        test = SubElement(suite, "testcase", {**names, "time": f"{one.seconds:.3f}"})
        if one.failures:
            _told(test, "error" if one.is_error else "failure", one.failures[0].words, one.failures_text())


def _faulty(tried: list[Tried]) -> tuple[int, int]:
    """How many failed, and how many had no run."""
    errors = sum(1 for one in tried if one.is_error)
    return sum(1 for one in tried if one.failures) - errors, errors


def _counts(tests: int, failures: int, errors: int, seconds: float) -> dict[str, str]:
    return {"tests": str(tests), "failures": str(failures), "errors": str(errors), "skipped": "0", "time": f"{seconds:.3f}"}


def _told(test: Element, kind: str, message: str, text: str) -> None:
    SubElement(test, kind, {"message": _shown(message), "type": kind}).text = _shown(text)


def _shown(text: str) -> str:
    """A text with a sign for each letter that XML can't have."""
    return _NO_CHARACTER.sub("\ufffd", text)
