"""Questions for IP addresses, and the pairs that nodes keep, by whole runs."""

import unittest

from common import needs_program
from scenarios import A, DUO, client, finished, node_mac, run_lines

# Three nodes in a row under algorithm V, with A and B at its ends. The one between them takes no
# part in the ARP table.
THREE_IN_A_ROW = [
    "algo v", *DUO[:2], f"node C {node_mac(12)}", "link A C tp=100", "link C A tp=100",
    "link B C tp=100", "link C B tp=100", "set C dat off",
]


def question(node, number, asked, vid="-"):
    """The line of a question of this client, for the IP address of that number."""
    return f"arp {node} {client(number)} 10.0.0.{number} 10.0.0.{asked} {vid}"


def pair(number, age, vid="-"):
    return f"d 10.0.0.{number} {vid} {client(number)} age={age}"


class Pairs(unittest.TestCase):
    @needs_program
    def test_a_pair_is_known_for_five_minutes(self):
        lines = [
            f"node A {A}", question("A", 1, 9, 7), "run 299999", "show A dat", "run 1",
            "show A dat",
        ]
        self.assertEqual(run_lines(lines), finished([
            "arp A 10.0.0.9 none", "dat A count=1", pair(1, 299_999, 7), "dat A count=0",
        ]))

    @needs_program
    def test_a_question_goes_over_two_hops(self):
        """The node between the two learns nothing on the way."""
        lines = [
            *THREE_IN_A_ROW, question("B", 2, 9), "run 3100", question("A", 1, 2), "run 10",
            "show A dat", "show B dat", "show C dat",
        ]
        self.assertEqual(run_lines(lines), finished([
            "arp B 10.0.0.9 none",
            f"arp A 10.0.0.2 is {client(2)} dht",
            "dat A count=2", pair(1, 10), pair(2, 6),
            "dat B count=2", pair(1, 8), pair(2, 3110),
            "dat C count=0",
        ]))

    @needs_program
    def test_a_pair_of_another_vlan_is_another_one(self):
        lines = [
            *THREE_IN_A_ROW, question("B", 2, 9), "run 3100", question("A", 1, 2, 7), "run 10",
            question("C", 3, 2), "show A dat",
        ]
        self.assertEqual(run_lines(lines), finished([
            "arp B 10.0.0.9 none", "arp C 10.0.0.2 off", "dat A count=1", pair(1, 10, 7),
        ]))
