"""Tables that don't fit one packet: their parts may be lost, come again, and come from another."""

import unittest

from common import needs_program
from scenarios import A, ALL, B, finished, node_mac, run_lines

NODES = [f"node A {A}", f"node B {B}"]
LINKS = ["link A B", "link B A"]

# Frame 5 of the link from A to B is lost: the second part of A's first answer, link frame 11.
LOSSY = ["link A B pattern=.....x..............................", "link B A"]


def client(number):
    """The address of a client: 02:00:00:01:00:00 for number 0."""
    return f"02:00:00:01:{number // 256:02x}:{number % 256:02x}"


def seen(count):
    return [f"frame A {client(number)} {ALL} - x" for number in range(count)]


def entries(count):
    return [f"e {client(number)} - --" for number in range(count)]


def table(node, nodes, *lines):
    return [f"tg {node} count={nodes}", *lines]


def none(told):
    return f"t {A} held=- told={told} state=none entries=0"


def ok(version, count):
    return f"t {A} held={version} told={version} state=ok entries={count}"


class Parts(unittest.TestCase):
    """B asks A at 2001, and A answers at 2002 in two parts, which would be there at 2003."""

    @needs_program
    def test_a_lost_part_comes_while_the_table_is_told(self):
        lines = [
            *NODES, *seen(1025), *LOSSY, "run 2003", "show B tg", "run 1000", "deliver 11",
            "show B tg",
        ]
        wanted = [*table("B", 1, none(1)), *table("B", 1, ok(1, 1025), *entries(1025))]
        self.assertEqual(run_lines(lines), finished(wanted))

    @needs_program
    def test_a_lost_part_comes_behind_another_announcement(self):
        """It is of no use then, and B asks again at 5001."""
        lines = [
            *NODES, *seen(1025), *LOSSY, "run 2003", "join A 01:00:5e:00:00:01 -", "run 1000",
            "deliver 11", "show B tg", "run 1999", "show B tg", "run 1", "show B tg",
        ]
        group = "e 01:00:5e:00:00:01 - --"
        wanted = [
            *table("B", 1, none(2)), *table("B", 1, none(2)),
            *table("B", 1, ok(2, 1026), group, *entries(1025)),
        ]
        self.assertEqual(run_lines(lines), finished(wanted))

    @needs_program
    def test_a_node_on_the_way_answers_in_parts(self):
        """C hears A's message of 7000 at 7002 and asks A, whose answer would be there at 7006.

        B has the table, and its answer in A's stead is there at 7004.
        """
        lines = [
            *NODES, *seen(1025), *LINKS, "run 5000", f"node C {node_mac(12)}", "link B C",
            "link C B", "run 2003", "show C tg", "run 1", "show C tg",
        ]
        other = f"t {B} held=0 told=0 state=ok entries=0"
        wanted = [
            *table("C", 2, none(1), other),
            *table("C", 2, ok(1, 1025), *entries(1025), other),
        ]
        self.assertEqual(run_lines(lines), finished(wanted))
