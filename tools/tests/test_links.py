"""Messages, client frames and probes over links, by whole runs."""

import unittest

from common import needs_program
from scenarios import B, DUO, client, finished, frame, node_mac, received, run_lines

NOBODY = "02:00:00:00:01:09"


class Messages(unittest.TestCase):
    @needs_program
    def test_originator_messages_are_printed(self):
        lines = [*DUO, "run 1000"]
        rest = "00ff000c020100000401000401000000"
        self.assertEqual(run_lines(lines, "--frames", "ogm"), finished([
            f"f1 1000 A>B iv_ogm 000f32000000000102000000000a02000000000a{rest}",
            f"f2 1000 B>A iv_ogm 000f32000000000102000000000b02000000000b{rest}",
        ]))
        self.assertEqual(run_lines(lines, "--frames", "client"), finished([]))

    @needs_program
    def test_originators_and_neighbours_are_shown(self):
        self.assertEqual(run_lines([*DUO, "run 3000", "show A o", "show A n"]), finished([
            "o A algo=iv count=1",
            f"o {B} seq=2 seen=999 next={B} metric=11",
            "n A algo=iv count=1",
            f"n {B} rq=2 eq=2",
        ]))

    @needs_program
    def test_a_message_that_comes_twice_counts_once(self):
        ended = run_lines([*DUO, "run 1000", "deliver 1", "run 1", "show B n"])
        self.assertEqual(ended, finished([
            "n B algo=iv count=1", "n 02:00:00:00:00:0a rq=1 eq=0",
        ]))

    @needs_program
    def test_a_tie_goes_to_the_lower_address(self):
        c, d = node_mac(12), node_mac(13)
        lines = [
            *DUO, f"node C {c}", f"node D {d}", "link A C", "link B D", "link C A", "link C D",
            "link D B", "link D C", "run 3500", "show A o",
        ]
        self.assertEqual(run_lines(lines), finished([
            "o A algo=iv count=3",
            f"o {B} seq=3 seen=499 next={B} metric=17",
            f"o {c} seq=3 seen=499 next={c} metric=17",
            f"o {d} seq=3 seen=498 next={B} metric=2",
        ]))


class ClientFrames(unittest.TestCase):
    @needs_program
    def test_a_client_frame_goes_where_its_receiver_is(self):
        """The client roams from A to B: a mark leads to it, and later a table."""
        lines = [
            *DUO, frame("A", 1, dst=NOBODY), "run 5000", frame("B", 1, dst=NOBODY), "run 500",
            frame("A", 2, "hi", client(1)), "run 1000", frame("A", 2, "hi", client(1)), "run 1",
        ]
        rest = "02000000000b02000000010102000000010288b56869"
        self.assertEqual(run_lines(lines, "--frames", "client"), finished([
            f"lost 0 A - {client(1)} {NOBODY} unknown",
            f"lost 5000 B - {client(1)} {NOBODY} unknown",
            f"f24 5500 A>B unicast by=roam 400f3200{rest}",
            received(5501, "B", 2, "hi", client(1)),
            f"f29 6500 A>B unicast by=table 400f3201{rest}",
            received(6501, "B", 2, "hi", client(1)),
        ]))

    @needs_program
    def test_a_frame_to_a_group_prints_nothing_where_it_is_given(self):
        self.assertEqual(run_lines([*DUO, frame("A", 1, dst="01:00:5e:00:00:fb")]), finished([]))


class Probes(unittest.TestCase):
    @needs_program
    def test_pings_and_traceroutes_are_answered(self):
        lines = [*DUO, "ping A B", "run 3000", "ping A B", "traceroute A B", "run 2"]
        self.assertEqual(run_lines(lines), finished([
            "ping A B seq=1 noroute",
            "ping A B seq=2 reply ttl=50 rtt=2",
            "trace A B hop=1 B rtt=2 end",
        ]))
