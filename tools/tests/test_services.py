"""Calls for gateways, and frames of groups, by whole runs."""

import unittest

from common import needs_program
from scenarios import B, DUO, client, finished, frame, received, run_lines

# Two nodes under algorithm V, with a link each way, of throughput 100.
PAIR_UNDER_V = ["algo v", *DUO[:2], "link A B tp=100", "link B A tp=100"]

CALL = f"dhcp A {client(1)} - x"

# B offers 10 down and 1 up, and A has chosen it.
CHOSEN = [*PAIR_UNDER_V, "set B gw server 10 1", "set A gw client best", "run 2000"]


class Gateways(unittest.TestCase):
    @needs_program
    def test_a_call_goes_to_the_chosen_gateway(self):
        ended = run_lines([*CHOSEN, CALL, "run 1"], "--frames", "client")
        self.assertEqual(ended, finished([
            "f15 2000 A>B unicast by=gw 400f320002000000000bffffffffffff02000000010188b578",
            received(2001, "B", 1),
        ]))

    @needs_program
    def test_a_call_goes_to_all_where_none_is_chosen(self):
        self.assertEqual(run_lines([*PAIR_UNDER_V, CALL], "--frames", "client"), finished([
            "f1 0 A>B bcast 010f32000000000102000000000affffffffffff02000000010188b578",
        ]))

    @needs_program
    def test_a_server_chooses_none(self):
        lines = [*CHOSEN, "show A gw", "set A gw server 1 2", "show A gw"]
        of_b = f"g {B} down=10 up=1 metric=100"
        self.assertEqual(run_lines(lines), finished([
            f"gw A mode=client chosen={B}", of_b, "gw A mode=server chosen=-", of_b,
        ]))


class Groups(unittest.TestCase):
    GROUP = "01:00:5e:01:00:05"

    @needs_program
    def test_a_group_goes_to_its_receivers(self):
        lines = [
            *PAIR_UNDER_V, f"join B {self.GROUP} -", "run 1003", frame("A", 1, dst=self.GROUP),
            "run 1", "show B mc",
        ]
        self.assertEqual(run_lines(lines, "--frames", "client"), finished([
            "f11 1003 A>B unicast by=mc 400f320102000000000b01005e01000502000000010188b578",
            received(1004, "B", 1, dst=self.GROUP),
            "mc B count=1",
            f"j {self.GROUP} -",
        ]))

    @needs_program
    def test_a_group_goes_to_those_that_want_all_of_its_kind(self):
        """B wants all that begin with 01:00:5e."""
        lines = [
            *PAIR_UNDER_V, "set B mcast 2", "run 1001", frame("A", 1, dst=self.GROUP),
            frame("A", 1, dst="33:33:00:00:00:02"), "show A mc",
        ]
        self.assertEqual(run_lines(lines, "--frames", "client"), finished([
            "f9 1001 A>B unicast by=mc 400f320002000000000b01005e01000502000000010188b578",
            "mc A count=1",
            f"m {B} flags=02",
        ]))
