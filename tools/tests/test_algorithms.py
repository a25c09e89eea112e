"""The choice of the routing algorithm, and routes and neighbours under V, by whole runs."""

import unittest

from common import needs_program
from scenarios import A, B, DUO, client, finished, frame, received, run_lines

NODES = DUO[:2]

# Links of throughput 100 one way, and 50 the other.
DUO_UNDER_V = ["algo v", *NODES, "link A B tp=100", "link B A tp=50"]


class Choice(unittest.TestCase):
    """The algorithm is chosen before the first node."""

    @needs_program
    def test_the_last_choice_counts_and_the_clock_stays(self):
        lines = [
            "algo v", "run 7", "algo iv", "algo v", *NODES, "link A B", "run 500", "show A n",
        ]
        self.assertEqual(run_lines(lines, "--frames", "ogm"), finished([
            "f1 507 A>B elp 030f02000000000a00000001000001f4", "n A algo=v count=0",
        ]))

    @needs_program
    def test_it_is_not_chosen_behind_a_node(self):
        lines = ["algo v", "algo iv", NODES[0], "show A o", "algo v", "show A o"]
        told = "batmesh: line 5: algo after node\n"
        self.assertEqual(run_lines(lines), (1, "o A algo=iv count=0\n", told))


class UnderV(unittest.TestCase):
    @needs_program
    def test_a_route_has_the_throughput_of_its_links(self):
        lines = [*DUO_UNDER_V, "run 1500", "show A o", "show A n"]
        self.assertEqual(run_lines(lines), finished([
            "o A algo=v count=1",
            f"o {B} seq=1 seen=499 next={B} metric=100",
            "n A algo=v count=1",
            f"n {B} tp=100 seen=499",
        ]))

    @needs_program
    def test_a_table_and_a_ping_come_over(self):
        lines = [*DUO_UNDER_V, frame("A", 1), "run 1500", "show B tg", "ping A B", "run 2"]
        self.assertEqual(run_lines(lines), finished([
            received(1, "B", 1),
            "tg B count=1",
            f"t {A} held=1 told=1 state=ok entries=1",
            f"e {client(1)} - --",
            "ping A B seq=1 reply ttl=50 rtt=2",
        ]))

    @needs_program
    def test_a_neighbour_is_down_5_seconds_after_its_last_elp(self):
        """Of what B sends A hears the ELP of 1000 and then that of 7500."""
        lines = [
            "algo v", *NODES, "link A B tp=100", f"link B A pattern=...{'x' * 25}",
            "run 6000", "show A n", "run 1", "show A n", "show A o", "run 1500", "show A n",
            "show A o",
        ]
        self.assertEqual(run_lines(lines), finished([
            "n A algo=v count=1",
            f"n {B} tp=100 seen=4999",
            "n A algo=v count=0",
            "o A algo=v count=1",
            f"o {B} seq=1 seen=5000 next=- metric=0",
            "n A algo=v count=1",
            f"n {B} tp=100 seen=0",
            "o A algo=v count=1",
            f"o {B} seq=1 seen=6500 next={B} metric=100",
        ]))
