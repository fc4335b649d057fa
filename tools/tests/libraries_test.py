"""The order in which libraries are built."""

import threading
import time
import unittest

from qptools.libraries import all_below, build_all, lengths_above, read_crates, shares
from qptools.program import TOP

CRATES = "a:\nb: a clap\nc: a\nd: b c   # a comment\ntop: d\nbeside: a\n\n# nothing\n"


class Libraries(unittest.TestCase):
    """Libraries of a small repository, and of this one."""

    def setUp(self) -> None:
        self.below = read_crates(CRATES)

    def test_crates(self) -> None:
        self.assertEqual(self.below, {"a": [], "b": ["a"], "c": ["a"], "d": ["b", "c"], "top": ["d"], "beside": ["a"]})

    def test_lowest_first_and_no_others(self) -> None:
        self.assertEqual(all_below("top", self.below), ["a", "b", "c", "d"])
        order = all_below("qp_cli", read_crates((TOP / "crates.txt").read_text()))
        self.assertEqual(len(order), len(set(order)))
        self.assertIn("qp_run", order)

    def test_ways_to_the_top(self) -> None:
        sizes = {"a": 1, "b": 5, "c": 2, "d": 1}
        self.assertEqual(lengths_above(["a", "b", "c", "d"], self.below, sizes.__getitem__), {"a": 7, "b": 6, "c": 3, "d": 1})

    def run_all(self, jobs: int, fails: str = "") -> tuple[list[str], list[str], int]:
        begun, built, at_once, most = [], set(), [0], [0]
        lock = threading.Lock()

        def build(name: str, share: int) -> int:
            self.assertIn(share, range(1, jobs + 1))
            with lock:
                self.assertTrue(built.issuperset(self.below[name]), f"{name} before those below it")
                begun.append(name)
                at_once[0] += 1
                most[0] = max(most[0], at_once[0])
            time.sleep(0.02)
            with lock:
                at_once[0] -= 1
                built.add(name)
            return int(name == fails)

        failed = build_all("top", self.below, jobs, lambda name: 2 if name == "c" else 1, build, lambda line: None)
        return begun, failed, most[0]

    def test_crates_without_company_get_several_jobs(self) -> None:
        self.assertEqual(shares(1, 0, 4), [4])
        self.assertEqual(shares(3, 0, 4), [4, 2, 2])
        self.assertEqual(shares(1, 2, 4), [4])
        self.assertEqual(shares(2, 2, 4), [1, 1])
        self.assertEqual(shares(0, 1, 4), [])
        self.assertEqual(shares(1, 0, 1), [1])

    def test_several_at_once(self) -> None:
        self.assertEqual(self.run_all(1), (["a", "c", "b", "d"], [], 1))
        begun, failed, most = self.run_all(4)
        self.assertEqual((begun[0], set(begun[1:3]), begun[3], failed, most), ("a", {"b", "c"}, "d", [], 2))

    def test_what_stands_on_one_that_failed_isnt_begun(self) -> None:
        begun, failed, _ = self.run_all(2, "b")
        self.assertEqual((set(begun), failed), ({"a", "b", "c"}, ["b"]))
