"""Commits of tables, and those that can be taken for one another, by whole runs."""

import unittest

from common import needs_program
from scenarios import A, client, finished, frame, run_lines

ALONE = f"node A {A}"

GROUP = "01:00:5e:01:02:03"


def gone(number):
    return f"gone A {client(number)} -"


def comes_and_goes(number, times):
    """The lines of a client that comes so many times and goes between, a commit for each."""
    comes, goes = [frame("A", number), "run 1000"], [gone(number), "run 1000"]
    return comes + (goes + comes) * (times - 1)


class Groups(unittest.TestCase):
    @needs_program
    def test_a_group_stays_until_it_is_left(self):
        """The sum is one that another program computed."""
        lines = [
            ALONE, f"join A {GROUP} 4094", "run 601000", "show A tl", f"leave A {GROUP} 4094",
            "run 1000", "show A tl",
        ]
        self.assertEqual(run_lines(lines), finished([
            "tl A version=1 clients=1", "vlan 4094 sum=3a10b974", f"c {GROUP} 4094 -- age=-",
            "tl A version=2 clients=0",
        ]))


class Aliases(unittest.TestCase):
    """Commits under one byte whose tables have one sum: as 1 xor 2 is 5 xor 6, clients 1 and 2 have
    that of 5 and 6, and the four together have 0."""

    @needs_program
    def test_commit_257_has_the_alias_1(self):
        """Clients 1 and 2 are there until commit 1, and 5 from commit 2 on, with which 6 comes and
        goes until commit 257."""
        lines = [
            ALONE, frame("A", 1), frame("A", 2), "run 1000", gone(1), gone(2), frame("A", 5),
            "run 1000", *comes_and_goes(6, 128),
        ]
        self.assertEqual(run_lines(lines), finished(["alias A 257 1"]))

    @needs_program
    def test_a_first_commit_has_an_alias(self):
        """Three clients are there, and a fourth comes 128 times and goes 127 times: commit 256 is
        under byte 0, and the sums of the four are 0."""
        lines = [
            ALONE, frame("A", 1), frame("A", 2), frame("A", 5), "run 1000",
            *comes_and_goes(6, 128), "reboot A",
        ]
        self.assertEqual(run_lines(lines), finished(["alias A 256 0", "alias A 257 256"]))

    @needs_program
    def test_many_first_commits_have_no_alias(self):
        """Commit 2 is under byte 2; behind it there are 260 first commits, under byte 0, and commit
        263, which is under byte 1 and has the sums 0, as commit 1 hasn't."""
        lines = [
            ALONE, frame("A", 9), "run 1000", frame("A", 3), "run 1000", *["reboot A"] * 260,
            *(frame("A", number) for number in (1, 2, 5, 6)), "run 1000",
        ]
        self.assertEqual(run_lines(lines), finished([]))
