"""The network as nodes put it among their facts and show it, by whole runs."""

import json
import unittest

from common import needs_program
from scenarios import A, ALL, B, DUO, client, finished, frame, node_mac, run_lines

ALONE = f"node A {A}"

# Two primaries with links both ways.
PAIR = [*DUO, "alfred A mode primary", "alfred B mode primary", "set A vis on"]

# A node with a part in the store, under algorithm V.
HUB = ["algo v", ALONE, "alfred A mode primary", "set A vis on"]


def picture(node, neighbours=(), clients=()):
    """What a node tells of itself: neighbours with their metrics, and clients with their VLANs."""
    return {
        "clients": [f"{number}/{vid}" for number, vid in clients],
        "neighbors": [{"metric": metric, "router": router} for router, metric in neighbours],
        "node": node,
    }


def vis(node, *pictures):
    return f"vis {node} {json.dumps(pictures, separators=(',', ':'))}"


class Pictures(unittest.TestCase):
    @needs_program
    def test_of_no_fact_there_is_none(self):
        self.assertEqual(run_lines([ALONE, "show A vis"]), finished([vis("A")]))

    @needs_program
    def test_one_is_put_at_a_round(self):
        lines = [
            ALONE, "alfred A mode primary", "set A vis on", frame("A", 1), "run 9999", "show A vis",
            "run 1", "show A vis", "show A alf",
        ]
        self.assertEqual(run_lines(lines), finished([
            vis("A"),
            vis("A", picture(A, clients=[(client(1), "-")])),
            "alfred A mode=primary facts=1",
            f"a {A} 1 1 local age=0 00010200000001010000",
        ]))

    @needs_program
    def test_without_a_part_in_the_store_none_is_put(self):
        lines = [ALONE, "set A vis on", "run 10000", "alfred A mode secondary", "show A vis"]
        self.assertEqual(run_lines(lines), finished([vis("A")]))

    @needs_program
    def test_the_last_one_lives_for_ten_minutes(self):
        lines = [
            ALONE, "alfred A mode secondary", "set A vis on", "run 10000", "set A vis off",
            "run 599999", "show A vis", "run 1", "show A vis",
        ]
        self.assertEqual(run_lines(lines), finished([vis("A", picture(A)), vis("A")]))

    @needs_program
    def test_primaries_show_each_other(self):
        """They know each other from 10001 on, and push at 20000."""
        of_a = picture(A, neighbours=[(B, 144)])
        of_b = picture(B, neighbours=[(A, 144)], clients=[(client(3), "7")])
        lines = [
            *PAIR, "set B vis on", frame("B", 3, vid=7), "run 20000", "show A vis", "run 1",
            "show A vis",
        ]
        self.assertEqual(run_lines(lines), finished([
            f"recv 1 A 7 {client(3)} {ALL} x", vis("A", of_a), vis("A", of_a, of_b),
        ]))

    @needs_program
    def test_what_a_node_told_comes_back(self):
        """B still has A's picture when A's own fact died."""
        lines = [
            *PAIR, "run 20001", "set A vis off", "run 600000", "show A alf", "show A vis",
        ]
        self.assertEqual(run_lines(lines), finished([
            "alfred A mode=primary facts=1",
            f"a {A} 1 1 synced age=0 0102000000000b0000009000",
            vis("A", picture(A, neighbours=[(B, 144)])),
        ]))

    @needs_program
    def test_it_has_the_first_sixteen_neighbours_and_128_clients(self):
        for clients, nodes in ((128, 16), (129, 17)):
            with self.subTest(clients=clients, nodes=nodes):
                lines = [*HUB, *(frame("A", number) for number in range(clients))]
                for number in range(16, 16 + nodes):
                    lines += [
                        f"node N{number} {node_mac(number)}", f"link A N{number} tp=100",
                        f"link N{number} A tp=100",
                    ]
                shown = picture(
                    A,
                    neighbours=[(node_mac(number), 100) for number in range(16, 32)],
                    clients=[(client(number), "-") for number in range(128)],
                )
                ended = run_lines([*lines, "run 10000", "show A vis"])
                self.assertEqual(ended, finished([vis("A", shown)]))

    @needs_program
    def test_lines_are_refused(self):
        for line, reason in (
            ("set A vis", "missing word"), ("set A vis 1", "out of range"),
            ("show A viz", "out of range"), ("alfred A put 1 1 x", "out of range"),
            ("set B vis on", "unknown name"), ("show A vis x", "extra word"),
        ):
            with self.subTest(line):
                self.assertEqual(
                    run_lines([ALONE, line]), (1, "", f"batmesh: line 2: {reason}\n")
                )
