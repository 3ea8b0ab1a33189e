"""Tests of the translation of ads in HTCondor's long form, beside the program whose parser decides."""

import contextlib
import io
import os
import unittest
from typing import List, Tuple
from unittest import mock

import from_condor
from classad_pool import Pool, Refused
from test_classad_pool import PROGRAM

DATA = os.path.join(os.path.dirname(os.path.abspath(__file__)), "testdata")


def translated(file: str, command: str) -> Tuple[str, List[str]]:
    """The script that is made of a file, and what is told of it."""
    made, told = io.StringIO(), io.StringIO()
    with open(os.path.join(DATA, file), encoding="utf-8") as ads, mock.patch("sys.stdin", ads):
        with contextlib.redirect_stdout(made), contextlib.redirect_stderr(told):
            from_condor.main([command, "--program", PROGRAM])
    return made.getvalue(), told.getvalue().splitlines()


class Numbers(unittest.TestCase):
    def test_exponents_are_written_out(self) -> None:
        self.assertEqual(from_condor.written_out("1.5E+02"), "150.0")
        self.assertEqual(from_condor.written_out("2.5e-3 * Cpus"), "0.0025 * Cpus")
        self.assertEqual(from_condor.written_out("3.0E+00"), "3.0")
        self.assertEqual(from_condor.written_out("5."), "5.0")

    def test_whole_numbers_names_and_strings_stay(self) -> None:
        text = "Slot1E5 + 0x1F + 017 + '1E5' == \"1.5E+02 \\\" 2E3\""
        self.assertEqual(from_condor.written_out(text), text)


class Names(unittest.TestCase):
    def test_names_are_made_to_fit(self) -> None:
        taken = {}
        self.assertEqual(from_condor.pool_name("submit.org#12.0#17", taken), "submit.org-12.0-17")
        self.assertEqual(from_condor.pool_name("submit.org#12.0#17", taken), "submit.org-12.0-17-2")
        self.assertEqual(len(from_condor.pool_name("x" * 200, taken)), 64)


class Ads(unittest.TestCase):
    def test_ads_are_divided_by_blank_lines(self) -> None:
        ads = [*from_condor.read_ads(["A = 1\n", "B == 2\n", "\n", "\n", "C = A =?= 3\n"])]
        self.assertEqual([[it.name for it in ad.attributes] for ad in ads], [["A"], ["C"]])
        self.assertEqual(ads[1].attributes[0].text, "A =?= 3")

    def test_machines_and_jobs_run(self) -> None:
        machines, of_machines = translated("machines.ads", "advertise")
        jobs, of_jobs = translated("jobs.ads", "submit")
        self.assertTrue([it for it in of_machines if it.startswith("line 222: Bad is left out (grammar)")])
        self.assertIn("line 120: this is no `Name = value`, and is left out", of_jobs)
        with Pool(PROGRAM) as pool:
            replies = pool.script(machines + jobs)
            self.assertEqual(len(replies), 30)
            self.assertFalse([it for it in replies if isinstance(it, Refused)])
            self.assertIn('START = Owner != "guest"', pool.show("slot2@node01.pool.example.org").text)
            self.assertEqual(pool.evalin("slot1@node02.pool.example.org", "size(ChildMemory)").text, "3")
            offered = {it.job for it in pool.negotiate().all_offers()}
            self.assertIn("submit.pool.example.org-101.0-1700000001", offered)


if __name__ == "__main__":
    unittest.main()
