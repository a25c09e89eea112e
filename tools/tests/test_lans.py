"""LANs and their gateways: who holds a client, and what goes from one side to the other."""

import unittest

from common import needs_program
from scenarios import B, DUO, client, finished, frame, node_mac, received, run_lines

NODES = DUO[:2]

# Two nodes without a link that are the gateways of a LAN.
TWO_GATEWAYS = [*NODES, "lan L A B"]

# On the LAN: a client's frames with the texts x and y, and the claims of A and of B for it.
X, Y = "ffffffffffff02000000010188b578", "ffffffffffff02000000010188b579"
CLAIM_OF_A = "ff430500000102000000000a88b60200000001010000"
CLAIM_OF_B = "ff430500000102000000000b88b60200000001010000"


class Claims(unittest.TestCase):
    LINES = [
        *TWO_GATEWAYS, frame("L", 1), "run 2", "show A cl", "show B cl", frame("L", 1), "run 1",
        "show A tl", "show B tl",
    ]
    HELD = [
        "cl A lan=L count=1", f"k {client(1)} - holder={B} age=0",
        "cl B lan=L count=1", f"k {client(1)} - holder={B} age=0",
    ]
    TABLES = [
        "tl A version=0 clients=0", "tl B version=0 clients=1", f"c {client(1)} - -- age=0",
    ]

    @needs_program
    def test_the_last_claim_of_a_client_stands(self):
        self.assertEqual(run_lines(self.LINES), finished([*self.HELD, *self.TABLES]))

    @needs_program
    def test_the_frames_on_the_lan_are_printed(self):
        self.assertEqual(run_lines(self.LINES, "--frames", "all"), finished([
            f"l1 0 L client {X}",
            f"l2 1 L claim {CLAIM_OF_A}",
            f"l3 1 L claim {CLAIM_OF_B}",
            *self.HELD,
            f"l4 2 L client {X}",
            *self.TABLES,
        ]))


class Loops(unittest.TestCase):
    """A broadcast doesn't loop over the mesh and the LAN."""

    @needs_program
    def test_a_broadcast_of_the_lan_does_not_loop(self):
        """Its holder alone sends it over the mesh, and the other gateway holds it back."""
        lines = [
            *TWO_GATEWAYS, "link A B", "link B A", frame("L", 1), "run 2", frame("L", 1, "y"),
            "run 10",
        ]
        self.assertEqual(run_lines(lines, "--frames", "all"), finished([
            f"l1 0 L client {X}",
            f"l2 1 L claim {CLAIM_OF_A}",
            f"l3 1 L claim {CLAIM_OF_B}",
            f"l4 2 L client {Y}",
            f"f1 3 B>A bcast 010f32000000000102000000000b{Y}",
            f"f2 4 A>B bcast 010f31000000000102000000000b{Y}",
        ]))

    @needs_program
    def test_a_broadcast_of_the_mesh_does_not_loop(self):
        """Both gateways claim at first, then the holder alone puts it on the LAN."""
        lines = [
            *TWO_GATEWAYS, f"node C {node_mac(12)}", "link C A", "link C B", frame("C", 1),
            "run 3", frame("C", 1, "y"), "run 3",
        ]
        self.assertEqual(run_lines(lines, "--frames", "all"), finished([
            f"f1 0 C>A bcast 010f32000000000102000000000c{X}",
            f"f2 0 C>B bcast 010f32000000000102000000000c{X}",
            f"l1 1 L claim {CLAIM_OF_A}",
            f"l2 1 L claim {CLAIM_OF_B}",
            f"f3 3 C>A bcast 010f32000000000202000000000c{Y}",
            f"f4 3 C>B bcast 010f32000000000202000000000c{Y}",
            f"l3 4 L client {Y}",
            received(5, "L", 1, "y"),
        ]))


class Places(unittest.TestCase):
    @needs_program
    def test_a_node_shows_its_lan_and_a_client_may_go_that_never_came(self):
        lines = [NODES[0], "show A cl", "lan L A", "show A cl", f"gone L {client(1)} -"]
        self.assertEqual(run_lines(lines), finished([
            "cl A lan=- count=0", "cl A lan=L count=0",
        ]))
