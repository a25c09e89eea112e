"""Nodes that reboot: what they forget, what others see of it, and what was under way."""

import unittest

from common import needs_program
from scenarios import A, B, DUO, client, finished, frame, received, run_lines

ALONE = f"node A {A}"

# A has a link from B that holds each frame: frame N is B's number N, of 100 seconds.
HELD = [*DUO[:2], "link B A pattern=h", "run 100000"]


def originator(seq, seen, next_node, metric):
    """The originators of A, of which there is one, B."""
    return ["o A algo=iv count=1", f"o {B} seq={seq} seen={seen} next={next_node} metric={metric}"]


def committed(age):
    """The local table of A with client 1, in commit 1."""
    return ["tl A version=1 clients=1", "vlan - sum=81a0d314", f"c {client(1)} - -- age={age}"]


class Alone(unittest.TestCase):
    """A node that reboots begins anew, with the settings that it had."""

    def shown(self, *lines):
        return run_lines([ALONE, *lines])

    @needs_program
    def test_a_node_that_reboots_begins_anew(self):
        ended = self.shown(
            frame("A", 1), "run 1000", "reboot A", "show A tl", frame("A", 1), "run 1000",
            "show A tl",
        )
        self.assertEqual(ended, finished(["tl A version=0 clients=0", *committed(1000)]))

    @needs_program
    def test_a_byte_is_counted_from_the_first_commit_since_the_reboot(self):
        """The checksums of clients 1, 2, 5 and 6 are together 0, as those of commit 257, which has
        no client. That is a first commit, under byte 0, and 263 is under byte 1."""
        ended = self.shown(
            frame("A", 9), "run 1000", frame("A", 3), "run 1000", *["reboot A"] * 260,
            *[frame("A", number) for number in (1, 2, 5, 6)], "run 1000", "show A tl",
        )
        self.assertEqual(ended, finished([
            "tl A version=1 clients=4", "vlan - sum=00000000",
            *[f"c {client(number)} - -- age=1000" for number in (1, 2, 5, 6)],
        ]))

    @needs_program
    def test_its_ticks_go_on(self):
        """It commits at 1000 and 2000, though it reboots at 1500."""
        ended = self.shown(
            "run 1500", "reboot A", frame("A", 1), "run 499", "show A tl", "run 1", "show A tl",
        )
        self.assertEqual(ended, finished([
            "tl A version=0 clients=1", f"c {client(1)} - -- age=499", *committed(500),
        ]))

    @needs_program
    def test_its_settings_stay_and_its_tables_go(self):
        ended = self.shown(
            "alfred A mode primary", "set A wifi on", "set A mcast 3", "set A gw server 10 1",
            "alfred A put 64 1 hi", "join A 01:00:5e:01:02:03 -",
            f"arp A {client(1)} 10.0.0.1 10.0.0.2 -", "reboot A", "reboot A", "alfred A get 64",
            "show A alf", "show A gw", "show A mc", "show A dat", frame("A", 1), "show A tl",
        )
        self.assertEqual(ended, finished([
            "arp A 10.0.0.2 none",
            "alfred A get 64 empty",
            "alfred A mode=primary facts=0",
            "gw A mode=server chosen=-",
            "mc A count=0",
            "dat A count=0",
            "tl A version=0 clients=1",
            f"c {client(1)} - w- age=0",
        ]))


class SeenByOthers(unittest.TestCase):
    """Others see a node that reboots by its numbers."""

    @needs_program
    def test_a_number_far_below_begins_a_life(self):
        """Number 1 is 99 below 100, and begins a life. Number 100 is not far from it. Number 2 is
        too early for another life, and late."""
        lines = [
            *DUO, "run 100000", "reboot B", "run 1001", "show A o", "deliver 398", "run 1000",
            "show A o",
        ]
        self.assertEqual(run_lines(lines), finished([
            *originator(1, 0, B, 12), *originator(100, 0, B, 12),
        ]))

    @needs_program
    def test_far_is_64_below(self):
        """Number 1 is 64 below 65. It is 63 below 64, and came before."""
        for moment, shown in (
            (65_000, originator(1, 0, B, 12)), (64_000, originator(64, 0, B, 250)),
        ):
            ended = run_lines([*DUO, f"run {moment}", "reboot B", "run 1001", "show A o"])
            self.assertEqual(ended, finished(shown))

    @needs_program
    def test_own_numbers_come_back_once_they_are_new(self):
        """B sends A's numbers 1 to 3 on once, so none comes back to A before its number 4."""
        lines = [
            *DUO, "run 3000", "reboot A", "run 4500", "show A o", "run 502", "show A o",
        ]
        self.assertEqual(run_lines(lines), finished([
            *originator(7, 499, "-", 0), *originator(8, 1, B, 10),
        ]))

    @needs_program
    def test_a_far_number_begins_a_life_once_in_30_seconds(self):
        newest_100, newest_36 = originator(100, 0, "-", 0), originator(36, 0, "-", 0)
        first = ["deliver 100", "deliver 37", "show A o", "deliver 36", "show A o"]
        again = [
            "deliver 100", "deliver 36", "deliver 100", "run 29999", "deliver 36", "show A o",
            "run 1", "deliver 36", "show A o",
        ]
        for lines in (first, again):
            self.assertEqual(run_lines([*HELD, *lines]), finished([*newest_100, *newest_36]))

    @needs_program
    def test_a_reboot_under_algorithm_v(self):
        lines = [
            "algo v", *DUO, "run 3000", "reboot A", "show A n", "run 1500", "show A n", "show A o",
            "show B o",
        ]
        self.assertEqual(run_lines(lines), finished([
            "n A algo=v count=0",
            "n A algo=v count=1",
            f"n {B} tp=10 seen=499",
            "o A algo=v count=1",
            f"o {B} seq=4 seen=499 next={B} metric=10",
            "o B algo=v count=1",
            f"o {A} seq=3 seen=499 next={A} metric=10",
        ]))


class UnderWay(unittest.TestCase):
    """What is under way at a reboot finds nothing."""

    @needs_program
    def test_the_reply_to_a_probe_from_before(self):
        lines = [*DUO, "run 3000", "ping A B", "reboot A", "run 10", "ping A B", "run 10"]
        self.assertEqual(run_lines(lines), finished(["ping A B seq=1 noroute"]))

    @needs_program
    def test_the_answer_to_a_request_from_before(self):
        """It comes to the node that asked."""
        lines = [*DUO, frame("A", 1), "run 2002", "reboot B", "run 1", "show B tg"]
        self.assertEqual(run_lines(lines), finished([received(1, "B", 1), "tg B count=0"]))

    @needs_program
    def test_a_request_that_comes_behind_the_reboot(self):
        """The node that is asked has no route back."""
        lines = [*DUO, frame("A", 1), "run 2001", "reboot A", "run 2", "show B tg"]
        self.assertEqual(run_lines(lines), finished([
            received(1, "B", 1), "tg B count=1",
            f"t {A} held=- told=1 state=none entries=0",
        ]))

    @needs_program
    def test_broadcasts_and_a_commit_that_are_taken_for_earlier_ones(self):
        """Broadcasts 1 and 2 were taken before. Commit 3 is told as commit 1 was."""
        lines = [
            *DUO, frame("A", 1), frame("A", 2), "run 3000", "reboot A", frame("A", 5),
            frame("A", 6), "run 5000", "show B tg",
        ]
        self.assertEqual(run_lines(lines), finished([
            received(1, "B", 1),
            received(1, "B", 2),
            "alias A 3 1",
            "tg B count=1",
            f"t {A} held=1 told=1 state=ok entries=2",
            f"e {client(1)} - --",
            f"e {client(2)} - --",
        ]))
