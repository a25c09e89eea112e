"""Long packets that are cut at a node and put together at another, by whole runs."""

import unittest

from common import needs_program
from scenarios import A, ALL, B, DUO, finished, node_mac, run_lines

C = node_mac(12)
CLIENT, OTHER = "02:00:00:00:01:01", "02:00:00:00:01:02"

# Frame 8 of the link from A to B is lost: the second of the two that carry A's first cut packet.
LOSSY = "link A B pattern=........x......................................................."

# A takes B for its gateway and cuts packets of more than 300 bytes. The next link frame is 15.
CHOOSE = ["link B A", "set B gw server 10 1", "set A gw client best", "set A frag 300", "run 2000"]

# A has C for its gateway, and the middle one of the three cuts. The next link frame is 73.
IN_THE_MIDDLE = [
    "algo v", f"node A {A}", f"node B {B}", f"node C {C}",
    "link A B", "link B A", "link B C", "link C B",
    "set C gw server 10 1", "set A gw client best", "set B frag 300", "run 4000",
]


def under_v(link="link A B"):
    return ["algo v", f"node A {A}", f"node B {B}", link, *CHOOSE]


def call(count, vid="-"):
    """A client's call for a gateway, whose packet has 24 bytes beside so many letters."""
    return f"dhcp A {CLIENT} {vid} {'a' * count}"


def came(moment, count, node="B", vid="-"):
    return f"recv {moment} {node} {vid} {CLIENT} {ALL} {'a' * count}"


def letters(count):
    return "61" * count


class Whole(unittest.TestCase):
    """What is cut comes whole, once for each time that all of it came."""

    @needs_program
    def test_a_long_frame_under_algorithm_iv(self):
        lines = [
            *DUO, "set A frag 300", f"frame A {CLIENT} 02:00:00:00:01:09 - x", "run 5000",
            f"frame B {CLIENT} 02:00:00:00:01:09 - x", "run 500",
            f"frame A {OTHER} {CLIENT} - hi", "run 1000",
            f"frame A {OTHER} {CLIENT} - {'a' * 300}", "run 1",
        ]
        self.assertEqual(run_lines(lines), finished([
            f"lost 0 A - {CLIENT} 02:00:00:00:01:09 unknown",
            f"lost 5000 B - {CLIENT} 02:00:00:00:01:09 unknown",
            f"recv 5501 B - {OTHER} {CLIENT} hi",
            f"recv 6501 B - {OTHER} {CLIENT} {'a' * 300}",
        ]))

    @needs_program
    def test_one_byte_more_is_cut(self):
        """A packet of 300 bytes goes whole; of one of 301 the first fragment has 300."""
        lines = [*under_v(), call(276), call(277), "run 1"]
        head = f"400f320002000000000bffffffffffff{CLIENT.replace(':', '')}88b5"
        self.assertEqual(run_lines(lines, "--frames", "client"), finished([
            f"f15 2000 A>B unicast by=gw {head}{letters(276)}",
            f"f16 2000 A>B frag 410f320002000000000b02000000000a0001012d{head}{letters(256)}",
            f"f17 2000 A>B frag 410f321002000000000b02000000000a0001012d{letters(21)}",
            came(2001, 276),
            came(2001, 277),
        ]))

    @needs_program
    def test_a_node_on_the_way_cuts(self):
        lines = [*IN_THE_MIDDLE, call(300), "run 2"]
        head = f"02000000000cffffffffffff{CLIENT.replace(':', '')}88b5"
        self.assertEqual(run_lines(lines, "--frames", "client"), finished([
            f"f73 4000 A>B unicast by=gw 400f3200{head}{letters(300)}",
            "f80 4001 B>C frag 410f310002000000000c02000000000b00010144"
            f"400f3100{head}{letters(256)}",
            f"f81 4001 B>C frag 410f311002000000000c02000000000b00010144{letters(44)}",
            came(4002, 300, "C"),
        ]))

    @needs_program
    def test_the_longest_line(self):
        """Its packet of 4,097 bytes has fifteen fragments: all of them make it whole again."""
        again = [f"deliver {number}" for number in range(15, 29)]
        lines = [*under_v(), call(4069, 7), "run 1", *again, "run 1", "deliver 29"]
        self.assertEqual(
            run_lines(lines), finished([came(2001, 4069, vid=7), came(2002, 4069, vid=7)])
        )


class Repeated(unittest.TestCase):
    """Fragments that come again, late or behind a reboot."""

    @needs_program
    def test_doubled(self):
        lines = [*under_v("link A B pattern=2"), call(277), "run 2"]
        self.assertEqual(run_lines(lines), finished([came(2001, 277), came(2002, 277)]))

    @needs_program
    def test_a_lost_one_within_ten_seconds(self):
        """The first fragment came at 2001: 9,999 later the other one still joins it."""
        lines = [*under_v(LOSSY), call(277), "run 10000", "deliver 16"]
        self.assertEqual(run_lines(lines), finished([came(12_000, 277)]))

    @needs_program
    def test_a_lost_one_at_ten_seconds(self):
        """10,000 later it begins anew, and the first is missing."""
        lines = [*under_v(LOSSY), call(277), "run 10001", "deliver 16", "run 1", "deliver 15"]
        self.assertEqual(run_lines(lines), finished([came(12_002, 277)]))

    @needs_program
    def test_numbers_go_on_over_a_reboot(self):
        lines = [*under_v(), call(277), "run 1", "reboot A", "run 4000", call(277), "run 1"]
        head = f"400f320002000000000bffffffffffff{CLIENT.replace(':', '')}88b5"
        self.assertEqual(run_lines(lines, "--frames", "client"), finished([
            f"f15 2000 A>B frag 410f320002000000000b02000000000a0001012d{head}{letters(256)}",
            f"f16 2000 A>B frag 410f321002000000000b02000000000a0001012d{letters(21)}",
            came(2001, 277),
            f"f49 6001 A>B frag 410f320002000000000b02000000000a0002012d{head}{letters(256)}",
            f"f50 6001 A>B frag 410f321002000000000b02000000000a0002012d{letters(21)}",
            came(6002, 277),
        ]))

    @needs_program
    def test_a_reboot_forgets_what_came(self):
        lines = [
            *under_v(LOSSY), call(277), "run 1", "reboot B", "deliver 16", "deliver 15",
        ]
        self.assertEqual(run_lines(lines), finished([came(2001, 277)]))


class Lengths(unittest.TestCase):
    """The lengths of packets that a node may be told to cut at."""

    @needs_program
    def test_lengths(self):
        node = f"node A {A}"
        within = [node, "set A frag 0", "set A frag 300", "set A frag 65535"]
        self.assertEqual(run_lines(within), finished([]))
        for words, reason in [
            ("A frag 299", "out of range"), ("A frag 65536", "out of range"),
            ("A frag x", "bad number"), ("A frag", "missing word"),
            ("B frag 300", "unknown name"),
        ]:
            said = f"batmesh: line 2: {reason}\n"
            self.assertEqual(run_lines([node, f"set {words}"]), (1, "", said), words)
