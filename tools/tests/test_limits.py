"""Each limit of a scenario: what is at it is carried out, and what is one past it is refused."""

import unittest

from common import needs_program
from scenarios import (
    DUO, client, finished, frame, limited, node_mac, run_bytes, run_lines, text_of,
)

CLIENTS = 4096
VLANS = 16
NODES = 64
LINKS = 512
LANS = 16
CLOCK = 1_099_511_627_776
FRAMES = 4_194_304
FRAME_BYTES = 536_870_912
LINE = 4096
INPUT = 67_108_864
CUTS = 65_535


def nodes(count):
    return [f"node n{number} {node_mac(number)}" for number in range(count)]


def links(count):
    """So many links among 64 nodes: each node to the next, each to the next but one, ..."""
    return [
        f"link n{number % NODES} n{(number + 1 + number // NODES) % NODES}"
        for number in range(count)
    ]


class OfTheMesh(unittest.TestCase):
    """What a mesh, a node and the clock have at most."""

    @needs_program
    def test_nodes(self):
        self.assertEqual(run_lines(nodes(NODES)), finished([]))
        self.assertEqual(run_lines(nodes(NODES + 1)), limited(NODES + 1, "nodes"))

    @needs_program
    def test_links(self):
        within = nodes(NODES) + links(LINKS)
        self.assertEqual(run_lines(within), finished([]))
        self.assertEqual(
            run_lines([*within, "link n0 n32"]), limited(len(within) + 1, "links")
        )

    @needs_program
    def test_lans(self):
        within = nodes(LANS + 1) + [f"lan l{number} n{number}" for number in range(LANS)]
        self.assertEqual(run_lines(within), finished([]))
        number = len(within) + 1
        self.assertEqual(run_lines([*within, f"lan l n{LANS}"]), limited(number, "lans"))
        # What the line says of itself comes first.
        said = f"batmesh: line {number}: attached\n"
        self.assertEqual(run_lines([*within, "lan l n0"]), (1, "", said))

    @needs_program
    def test_clients(self):
        """The last place is a group's, and one that leaves makes room for another."""
        first = ["node A 02:00:00:00:00:0a"]
        within = first + [frame("A", number) for number in range(1, CLIENTS)]
        within += ["join A 01:00:5e:00:00:01 -", frame("A", 1, "again")]
        table = [f"tl A version=0 clients={CLIENTS}", "c 01:00:5e:00:00:01 - -- age=-"]
        table += [f"c {client(number)} - -- age=0" for number in range(1, CLIENTS)]
        self.assertEqual(run_lines([*within, "show A tl"]), finished(table))
        number = len(within) + 1
        for line in (frame("A", CLIENTS), "join A 01:00:5e:00:00:02 -"):
            self.assertEqual(run_lines([*within, line]), limited(number, "clients"))
        for line in (f"gone A {client(7)} -", "leave A 01:00:5e:00:00:01 -"):
            self.assertEqual(run_lines([*within, line, frame("A", CLIENTS)]), finished([]))
        # The limit is named before that of VLANs, and is one of each node.
        line = frame("A", CLIENTS, vid="17")
        self.assertEqual(run_lines([*within, line]), limited(number, "clients"))
        other = ["node B 02:00:00:00:00:0b", frame("B", CLIENTS)]
        self.assertEqual(run_lines(within + other), finished([]))

    @needs_program
    def test_vlans(self):
        vids = ["-", *range(1, VLANS)]
        within = ["node A 02:00:00:00:00:0a", *(frame("A", 1, vid=vid) for vid in vids)]
        table = [f"tl A version=0 clients={VLANS}"]
        table += [f"c {client(1)} {vid} -- age=0" for vid in vids]
        shown = [*within, frame("A", 1, vid="15"), "show A tl"]
        self.assertEqual(run_lines(shown), finished(table))
        for line in (frame("A", 1, vid="4094"), "join A 01:00:5e:00:00:01 16"):
            self.assertEqual(run_lines([*within, line]), limited(len(within) + 1, "vlans"))
        line = f"gone A {client(1)} 3"
        self.assertEqual(run_lines([*within, line, frame("A", 1, vid="16")]), finished([]))

    @needs_program
    def test_cuts(self):
        """A packet that comes again and again to the node on its way is cut each time."""
        within = [
            "algo v", *(f"node {name} 02:00:00:00:00:0{name.lower()}" for name in "ABC"),
            "link A B", "link B A", "link B C", "link C B", "set C gw server 10 1",
            "set A gw client best", "set B frag 300", "run 4000",
            f"dhcp A {client(1)} - {'a' * 300}", "run 1", *["deliver 73"] * (CUTS - 1),
        ]
        self.assertEqual(run_lines(within), finished([]))
        number = len(within) + 1
        self.assertEqual(run_lines([*within, "deliver 73"]), limited(number, "cuts"))

    @needs_program
    def test_clock(self):
        self.assertEqual(run_lines([f"run {CLOCK}"]), finished([]))
        self.assertEqual(run_lines([f"run {CLOCK}", "run 1"]), limited(2, "clock"))
        self.assertEqual(run_lines(["run 1", f"run {CLOCK}"]), limited(2, "clock"))
        table = "tl A version=0 clients=0"
        late = ["run 1001", "node A 02:00:00:00:00:0a", f"run {CLOCK}", "show A tl"]
        self.assertEqual(run_lines(late), limited(3, "clock"))
        late = [f"run {CLOCK}", "node A 02:00:00:00:00:0a", "show A tl", "run 1"]
        self.assertEqual(run_lines(late), limited(4, "clock", [table]))


class OfFrames(unittest.TestCase):
    """How many link frames there are at most, and how many bytes they have.

    The first of 64 nodes has links to the 63 others, and the second has one to the first. All of
    them lose all frames. So a client's frame to all stations is 63 link frames at the first node
    and one at the second. It has 28 bytes beside its text: 14 of the broadcast's header, and 14 of
    the client's two addresses and the type.

    By their number, with texts of one byte: 66,576 at the first are 66,576 * 63 = 4,194,288 link
    frames, and 16 at the second fill 4,194,304.

    By their bytes, with texts of 1,000: 8,289 at the first are 8,289 * 63 * 1,028 = 536,828,796
    bytes, and one more were 64,764. So 42,116 are left of 536,870,912. At the second 40 are 41,120
    bytes, and one of a text of 968 has the 996 that are left.

    Within a run both nodes send their originator message each 1,000 ms, the first on 63 links, the
    second on one. It has 24 bytes, a container of 4 and one of 8, and with one client a VLAN of 8,
    and a change of 12 bytes in the first three: 64 * 56 = 3,584 bytes.
    """

    def setUp(self):
        self.lines = nodes(NODES)
        self.lines += [f"link n0 n{number} pattern=x" for number in range(1, NODES)]
        self.lines += ["link n1 n0 pattern=x"]

    def give(self, first, second, text, *more):
        """The lines of so many frames at the first and the second node, and some more."""
        given = [frame("n0", 1, text)] * first + [frame("n1", 2, text)] * second
        return [*self.lines, *given, *more]

    @needs_program
    def test_frames(self):
        within = self.give(66_576, 16, "x")
        self.assertEqual(run_lines(within), finished([]))
        number = len(within) + 1
        told = f"batmesh: line {number}: no such frame\n"
        self.assertEqual(run_lines([*within, f"deliver {FRAMES + 1}"]), (1, "", told))
        # The first node would send the last one on.
        self.assertEqual(run_lines([*within, f"deliver {FRAMES}"]), limited(number, "frames"))
        for node in ("n0", "n1"):
            line = frame(node, 1, "x")
            self.assertEqual(run_lines([*within, line]), limited(number, "frames"))

    @needs_program
    def test_frames_at_once(self):
        """Of those of one act all or none are sent."""
        within = self.give(66_576, 0, "x")
        self.assertEqual(
            run_lines([*within, frame("n0", 1, "x")]), limited(len(within) + 1, "frames")
        )
        within = self.give(66_575, 16, "x", frame("n0", 1, "x"))
        self.assertEqual(run_lines(within), finished([]))
        within = self.give(66_575, 17, "x", frame("n0", 1, "x"))
        self.assertEqual(run_lines(within), limited(len(within), "frames"))

    @needs_program
    def test_what_is_named_first(self):
        """Frames of 128 bytes fill both limits at once: `frames` is named, and `clients` before
        it, since a client is seen before its frame is sent."""
        self.assertEqual(FRAME_BYTES, 128 * FRAMES)
        seen = [frame("n0", number) for number in range(3, CLIENTS + 2)]
        self.lines[NODES:NODES] = seen
        within = self.give(66_576, 16, "x" * 100)
        self.assertEqual(run_lines(within), finished([]))
        number = len(within) + 1
        for line in (frame("n0", 1), frame("n1", 2)):
            self.assertEqual(run_lines([*within, line]), limited(number, "frames"))
        line = frame("n0", CLIENTS + 2)
        self.assertEqual(run_lines([*within, line]), limited(number, "clients"))

    @needs_program
    def test_frames_in_a_run(self):
        within = self.give(66_575, 15, "x", "run 1000", "run 999")
        self.assertEqual(run_lines(within), finished([]))
        self.assertEqual(
            run_lines([*within, "run 1", "show n0 n"]), limited(len(within) + 1, "frames")
        )

    @needs_program
    def test_frame_bytes(self):
        within = self.give(8_289, 40, "x" * 1000, frame("n1", 2, "x" * 968))
        self.assertEqual(run_lines(within), finished([]))
        number = len(within) + 1
        for node in ("n0", "n1"):
            line = frame(node, 1, "x")
            self.assertEqual(run_lines([*within, line]), limited(number, "frame-bytes"))
        within = self.give(8_289, 40, "x" * 1000, frame("n1", 2, "x" * 969))
        self.assertEqual(run_lines(within), limited(len(within), "frame-bytes"))
        within = self.give(8_290, 0, "x" * 1000)
        self.assertEqual(run_lines(within), limited(len(within), "frame-bytes"))

    @needs_program
    def test_frame_bytes_in_a_run(self):
        """42,116 - 3,584 is 38,532: 37 of a text of 1,000, and one of 468."""
        more = [frame("n1", 2, "x" * 468), "run 1000", "run 999", "run 1"]
        within = self.give(8_289, 37, "x" * 1000, *more)
        self.assertEqual(run_lines(within), limited(len(within), "frame-bytes"))
        more = [frame("n1", 2, "x" * 469), "run 1000"]
        within = self.give(8_289, 37, "x" * 1000, *more)
        self.assertEqual(run_lines(within), limited(len(within), "frame-bytes"))


class OfTheInput(unittest.TestCase):
    """How many bytes a line and an input have at most."""

    @needs_program
    def test_line(self):
        table = ["tl A version=0 clients=0"]
        shown = b"node A 02:00:00:00:00:0a\nshow A tl\n"
        self.assertEqual(run_bytes(shown + b"#" * LINE), finished(table))
        self.assertEqual(run_bytes(shown + b"#" * LINE + b"\n"), finished(table))
        past = limited(3, "line", table)
        self.assertEqual(run_bytes(shown + b"#" * (LINE + 1)), past)
        # A carriage return counts.
        self.assertEqual(run_bytes(shown + b"#" * LINE + b"\r\n"), past)
        self.assertEqual(run_bytes(shown + b"#" * (LINE - 1) + b"\r\n"), finished(table))

    @needs_program
    def test_input(self):
        """The byte past the input's last one may be the one past a line's too: it is the line's."""
        whole = (b"#" * (LINE - 1) + b"\n") * (INPUT // LINE)
        self.assertEqual(len(whole), INPUT)
        self.assertEqual(run_bytes(whole), finished([]))
        self.assertEqual(run_bytes(whole + b"\n"), limited(INPUT // LINE + 1, "input"))
        open_line = whole[:-LINE] + b"#" * LINE
        self.assertEqual(run_bytes(open_line), finished([]))
        self.assertEqual(run_bytes(open_line + b"\n"), limited(INPUT // LINE, "input"))
        self.assertEqual(run_bytes(open_line + b"#"), limited(INPUT // LINE, "line"))

    @needs_program
    def test_lines_before_the_end_of_the_input(self):
        shown = text_of([*DUO, "show A n"]).encode()
        last = b"show B n"
        rest = INPUT - len(shown) - len(last)
        fill = (b"#" * (LINE - 1) + b"\n") * (rest // LINE) + b"\n" * (rest % LINE)
        number = shown.count(b"\n") + fill.count(b"\n") + 1
        of_a, of_b = "n A algo=iv count=0", "n B algo=iv count=0"
        self.assertEqual(run_bytes(shown + fill + last), finished([of_a, of_b]))
        past = limited(number, "input", [of_a])
        self.assertEqual(run_bytes(shown + fill + last + b"\n"), past)
