"""Runs that go far: long, of many clients, of large texts, and meshes that the program makes."""

import unittest

from common import needs_program
from scenarios import (
    A, ALL, B, DUO, client, finished, frame, node_mac, received, run_lines, text_of,
)

STEP, PLUS, WRAP = 1_103_515_245, 12_345, 2**31


class Draws:
    """The draws of a generated mesh: each multiplies, adds and keeps 31 bits."""

    def __init__(self, nodes):
        self.state = nodes

    def below(self, most):
        self.state = (STEP * self.state + PLUS) % WRAP
        return self.state // 65_536 % most


def generated_lines(nodes):
    """The lines that `--generate` carries out: a ring, and clients for 60 seconds."""
    lines = ["algo iv", *(f"node n{number} {node_mac(number)}" for number in range(nodes))]
    for number in range(nodes):
        other = (number + 1) % nodes
        lines.append(f"link n{number} n{other} pattern=.........x")
        lines.append(f"link n{other} n{number} pattern=.........x")
    draws = Draws(nodes)
    for second in range(1, 61):
        number = draws.below(4 * nodes)
        node = f"n{draws.below(nodes)}"
        lines.append(f"frame {node} 02:00:00:00:01:{number:02x} {ALL} - g{second}")
        lines.append("run 1000")
    return lines


def counted(nodes):
    """What the run of the lines prints and shows in the end, counted."""
    shows = [f"show n{number} {table}" for number in range(nodes) for table in ("tg", "tl")]
    status, printed, told = run_lines(generated_lines(nodes) + shows, "--frames", "all")
    assert (status, told) == (0, ""), told
    lines = [line.split() for line in printed.splitlines()]
    frames = sum(line[0][0] == "f" and line[0][1:].isdigit() for line in lines)
    recv = sum(line[0] == "recv" for line in lines)
    # A node has no more commits than seconds, so its version is their number.
    commits = sum(int(line[2].removeprefix("version=")) for line in lines if line[0] == "tl")
    agreed = sum(line[0] == "t" and line[4] == "state=ok" for line in lines)
    return (
        f"generated nodes={nodes} frames={frames} recv={recv} commits={commits} ok={agreed}"
        f" of={nodes * (nodes - 1)}"
    )


class Generated(unittest.TestCase):
    """A mesh that is generated has the counts of its lines' run."""

    @needs_program
    def test_meshes_are_those_of_their_lines(self):
        for nodes in (3, 9, 63):
            ended = run_lines([], "--generate", str(nodes))
            self.assertEqual(ended, finished([counted(nodes)]))

    @needs_program
    def test_the_choice_of_frames_changes_nothing(self):
        """The line of eight nodes is one that another program counted too."""
        line = "generated nodes=8 frames=6950 recv=375 commits=74 ok=56 of=56"
        for choice in ("ogm", "none", "client", "all"):
            ended = run_lines([], "--frames", choice, "--generate", "8")
            self.assertEqual(ended, finished([line]))
        self.assertEqual(run_lines([], "--generate=8", "--frames=all"), finished([line]))

    @needs_program
    def test_a_mesh_of_64_nodes_is_counted_alike(self):
        """The most nodes, twice."""
        line = "generated nodes=64 frames=88173 recv=1491 commits=60 ok=1973 of=4032"
        for _ in range(2):
            self.assertEqual(run_lines([], "--generate", "64"), finished([line]))


class Long(unittest.TestCase):
    """More seconds than two bytes count, and more commits than one."""

    @needs_program
    def test_two_nodes_for_100_002_seconds(self):
        """Message 100,001 came 999 ms ago. Of the last 64 all came, and all own ones but the
        newest were back: so the link is floor(255 * 63 / 64) = 251, the penalty none, and the
        value floor(255 * 251 * 255 / 65,025) = 251."""
        rows = [
            "o A algo=iv count=1",
            f"o {B} seq=100001 seen=999 next={B} metric=251",
            "n A algo=iv count=1",
            f"n {B} rq=64 eq=63",
        ]
        ended = run_lines([*DUO, "run 100002000", "show A o", "show A n"])
        self.assertEqual(ended, finished(rows))

    @needs_program
    def test_an_alias_above_commit_100_000(self):
        """Commit 1 has clients 1 and 2, commit 100,097 has 5 and 6: 1 xor 2 is 5 xor 6, so both
        have one checksum, and 391 * 256 is between them, so one byte. Each commit between them has
        one client, which comes again after 1,001 commits: so never in 256,000 under one byte."""
        last = 391 * 256 + 1
        tables = {1: [1, 2], last: [5, 6]}
        lines, present = [f"node A {A}"], []
        for commit in range(1, last + 1):
            table = tables.get(commit, [7 + commit % 1001])
            lines += [f"gone A {client(number)} -" for number in present]
            lines += [frame("A", number) for number in table]
            lines.append("run 1000")
            present = table
        self.assertEqual(run_lines(lines), finished([f"alias A {last} 1"]))


class Many(unittest.TestCase):
    """Large texts, tables, and many marks and probes."""

    @needs_program
    def test_a_text_of_4_000_bytes_is_handed_out(self):
        text = "0123456789" * 400
        lines = [*DUO, frame("A", 1, text), "run 1"]
        self.assertEqual(run_lines(lines), finished([received(1, "B", 1, text)]))

    @needs_program
    def test_full_answers_go_in_one_packet_or_in_parts(self):
        """B hears A at 1001 without a route to it, asks at 2001, and A answers at 2002."""
        for count in (1024, 1025, 4096):
            clients = range(1, count + 1)
            lines = DUO[:2] + [frame("A", number) for number in clients] + DUO[2:]
            before = ["tg B count=1", f"t {A} held=- told=1 state=none entries=0"]
            after = ["tg B count=1", f"t {A} held=1 told=1 state=ok entries={count}"]
            after += [f"e {client(number)} - --" for number in clients]
            ended = run_lines([*lines, "run 2002", "show B tg", "run 1", "show B tg"])
            self.assertEqual(ended, finished(before + after))

    @needs_program
    def test_the_parts_of_an_answer(self):
        """Frames 10 and 11 are the two packets of the answer; the second has one record."""
        lines = DUO[:2] + [frame("A", number) for number in range(1, 1026)] + DUO[2:]
        status, printed, _ = run_lines([*lines, "run 2003"], "--frames", "all")
        self.assertEqual(status, 0)
        answers = [line.split() for line in printed.splitlines() if " A>B utvlv " in line]
        self.assertEqual([words[0] for words in answers], ["f10", "f11"])
        packets = [bytes.fromhex(words[-1]) for words in answers]
        self.assertEqual([len(packet) for packet in packets], [12_328, 52])
        # Version 2 of a translation table: 8 bytes, a VLAN of 8 and a record of 12.
        head, body = packets[1][20:24], packets[1][24:]
        self.assertEqual(head.hex(), "0402001c")
        self.assertEqual((body[:8] + body[12:]).hex(), "1401000100010002" + "00000000"
                         + "00000000" + client(1025).replace(":", "") + "0000")

    @needs_program
    def test_101_clients_roam(self):
        """Each is seen at B, which knows it at A and tells A so; A has a mark of each."""
        clients = range(1, 102)
        lines = DUO + [frame("A", number) for number in clients] + ["run 5000"]
        lines += [frame("B", number) for number in clients] + ["run 1", "show A tg", "show A tl"]
        printed = [received(1, "B", number) for number in clients]
        printed += [received(5001, "A", number) for number in clients]
        printed += ["tg A count=1", f"t {B} held=0 told=0 state=ok entries=0"]
        printed += [f"r {client(number)} - to={B}" for number in clients]
        ended = run_lines(lines)
        shown = text_of(printed) + "tl A version=1 clients=0\n"
        self.assertEqual(ended[0], 0)
        # The last commit still has them all, so a checksum stands below.
        self.assertTrue(ended[1].startswith(shown), ended[1][-300:])

    @needs_program
    def test_a_traceroute_while_40_pings_are_open(self):
        lines = [*DUO, "run 3000", *["ping A B"] * 40, "traceroute A B", "run 2"]
        printed = [f"ping A B seq={seq} reply ttl=50 rtt=2" for seq in range(1, 41)]
        printed += ["trace A B hop=1 B rtt=2 end"]
        self.assertEqual(run_lines(lines), finished(printed))


class Reboots(unittest.TestCase):
    """Reboots in a row, and numbers far ahead."""

    @needs_program
    def test_10_000_reboots_in_a_row(self):
        """Each makes a first commit, and none has an alias. Behind them commit 10,002 is the first
        under byte 1 since commit 1, and has its table."""
        lines = [f"node A {A}", frame("A", 1), "run 1000", *["reboot A"] * 10_000]
        shown = ["show A tl", frame("A", 1), "run 1000", "show A tl"]
        printed = [
            "tl A version=0 clients=0", "tl A version=1 clients=1", "vlan - sum=81a0d314",
            f"c {client(1)} - -- age=1000",
        ]
        self.assertEqual(run_lines(lines + shown), finished(printed))

    def newest_behind(self, *numbers):
        """The newest number that A knows of B behind these of its messages, which came at once."""
        lines = [*DUO[:2], "link B A pattern=h", "run 65537000"]
        lines += [f"deliver {number}" for number in numbers]
        status, printed, told = run_lines([*lines, "show A o"])
        self.assertEqual((status, told), (0, ""))
        return printed.splitlines()[1].split()[2]

    @needs_program
    def test_a_number_65_536_ahead_begins_a_life(self):
        """In the new life number 1 is far below and comes too early for another. A number 65,535
        ahead is none of a new life, so there number 1 begins one."""
        self.assertEqual(self.newest_behind(1, 65_537, 1), "seq=65537")
        self.assertEqual(self.newest_behind(1, 65_536, 1), "seq=1")


class Gateways(unittest.TestCase):
    """A gateway that falls silent."""

    @needs_program
    def test_another_is_chosen_in_the_place_of_a_silent_one(self):
        """A hears B up to 3001, so B is no neighbour from 8001 on, and the second tick at 9000
        chooses C. B is heard again behind 52 held frames, of which it sends five a second: by then
        C is the old choice, and stays."""
        lines = ["algo v", *DUO[:2], "node C 02:00:00:00:00:0c", "link A B tp=100"]
        lines += [f"link B A tp=100 pattern={'.' * 12 + 'h' * 52}"]
        lines += ["link A C tp=50 pattern=h", "link C A tp=50"]
        lines += ["set B gw server 10 1", "set C gw server 20 2", "set A gw client stable"]
        printed = []
        shown = [(7500, "b", 100), (1000, "b", 0), (500, "c", 0), (6500, "c", 100)]
        for length, chosen, metric in shown:
            lines += [f"run {length}", "show A gw"]
            printed += [
                f"gw A mode=client chosen=02:00:00:00:00:0{chosen}",
                f"g {B} down=10 up=1 metric={metric}",
                "g 02:00:00:00:00:0c down=20 up=2 metric=50",
            ]
        self.assertEqual(run_lines(lines), finished(printed))


class Groups(unittest.TestCase):
    """The most receivers of a group's frame that get one each, and one more."""

    GROUP = "01:00:5e:01:00:05"

    def sent_to_receivers(self, count):
        """The client frames that A sends when so many of its neighbours want a group, by their
        kind and reason, and how many of the neighbours hand the frame out."""
        nodes = [f"n{number}" for number in range(count)]
        lines = ["algo v", DUO[0]]
        lines += [f"node {node} {node_mac(32 + place)}" for place, node in enumerate(nodes)]
        lines += [f"link A {node}" for node in nodes] + [f"link {node} A" for node in nodes]
        lines += [f"set {node} mcast 2" for node in nodes]
        lines += ["run 1001", frame("A", 1, dst=self.GROUP), "run 1"]
        status, printed, told = run_lines(lines, "--frames", "client")
        self.assertEqual((status, told), (0, ""))
        words = [line.split() for line in printed.splitlines()]
        sent = [line[3:-1] for line in words if line[0][0] == "f" and line[2].startswith("A>")]
        handed_out = {line[2] for line in words if line[0] == "recv"}
        self.assertEqual(handed_out, set(nodes))
        return sent

    @needs_program
    def test_sixteen_receivers_get_one_each(self):
        self.assertEqual(self.sent_to_receivers(16), [["unicast", "by=mc"]] * 16)

    @needs_program
    def test_seventeen_receivers_get_a_broadcast(self):
        """It goes over each of A's links."""
        self.assertEqual(self.sent_to_receivers(17), [["bcast"]] * 17)


class Facts(unittest.TestCase):
    """How far facts go: in parts, over the ages, and where messages are lost."""

    # A is a secondary, and hears at 10001 that B is a primary; it pushes to B at 20000.
    TOLD = ["algo v", *DUO, "alfred A mode secondary", "alfred B mode primary"]

    def parts_pushed(self, sizes):
        """The lengths behind the kinds of the messages that A pushes of facts of these texts."""
        put = [f"alfred A put {64 + place} 1 {'x' * size}" for place, size in enumerate(sizes)]
        status, printed, told = run_lines([*self.TOLD, *put, "run 20000"], "--frames", "client")
        self.assertEqual((status, told), (0, ""))
        words = [line.split() for line in printed.splitlines()]
        sent = [bytes.fromhex(line[-1])[24:] for line in words if line[4:5] == ["by=alfred"]]
        return [(message[0], int.from_bytes(message[2:4], "big")) for message in sent]

    @needs_program
    def test_as_many_facts_as_fit_go_into_a_part(self):
        """Two facts of 1,000 and 376 bytes have 1,396 with their heads of 10, and with the four of
        the part the 1,400 that fit. One byte more, and the second is in a part of its own. An end
        has four bytes."""
        self.assertEqual(self.parts_pushed([1000, 376]), [(0, 1400), (3, 4)])
        self.assertEqual(self.parts_pushed([1000, 377]), [(0, 1014), (0, 391), (3, 4)])
        parts = [(0, 391), (0, 1014), (0, 1014), (3, 4)]
        self.assertEqual(self.parts_pushed([377, 1000, 1000]), parts)

    @needs_program
    def test_all_types_of_two_nodes_come_whole(self):
        """A pushes 192 facts of 1,000 bytes, a part each, and B has as many of its own. B's answer
        has one of either."""
        types = range(64, 256)
        put = [f"alfred {node} put {kind} 9 {kind:01000d}" for kind in types for node in "AB"]
        rows = [f"a {mac} {kind} 9 {mark} age={age} {kind:01000d}"
                for mac, mark, age in ((A, "first", 0), (B, "local", 20_001)) for kind in types]
        lines = [*self.TOLD, *put, "run 20001", "show B alf", "alfred A get 255", "run 2"]
        answer = [f"alfred A get 255 {mac} 9 {255:01000d}" for mac in (A, B)]
        printed = ["alfred B mode=primary facts=384", *rows, *answer]
        self.assertEqual(run_lines(lines), finished(printed))

    @needs_program
    def test_a_fact_that_is_put_once_lives_for_half_an_hour(self):
        """A's own fact is live up to 599,999, so A pushes it last at 590000, and B has it up to
        1190000. B pushes it to C at that moment too, and C has it up to 1790000."""
        lines = [*self.TOLD, "node C 02:00:00:00:00:0c", "link B C", "link C B"]
        lines += ["alfred C mode primary", "alfred A put 64 1 once"]
        printed = []
        now = 0
        for node, mark, last in (("A", "local", 599_999), ("B", "first", 1_190_000),
                                 ("C", "synced", 1_790_000)):
            mode = "secondary" if node == "A" else "primary"
            lines += [f"run {last - now}", f"show {node} alf", "run 1", f"show {node} alf"]
            printed += [f"alfred {node} mode={mode} facts=1", f"a {A} 64 1 {mark} age=599999 once"]
            printed += [f"alfred {node} mode={mode} facts=0"]
            now = last + 1
        self.assertEqual(run_lines(lines), finished(printed))

    def kept_of_held(self, *more):
        """The head of B's table behind these lines, where A's push of two parts was held.

        Before 20000 two link probes were sent 20 times, two more with A's message, B's and the copy
        of B's 19 times, and B's announcement twice: 20 * 2 + 19 * 5 + 2 = 137 frames. Then come A's
        probe and message, the parts of its push, 140 and 141, and the end, 142.
        """
        lines = [line + " pattern=h" if line == "link A B" else line for line in self.TOLD]
        lines += [f"alfred A put {kind} 1 {kind:01000d}" for kind in (64, 65)]
        status, printed, told = run_lines([*lines, "run 20000", *more, "show B alf"])
        self.assertEqual((status, told), (0, ""))
        return printed.splitlines()[0]

    NONE, BOTH = "alfred B mode=primary facts=0", "alfred B mode=primary facts=2"

    @needs_program
    def test_a_push_counts_once_it_is_whole(self):
        first, second, end = "deliver 140", "deliver 141", "deliver 142"
        self.assertEqual(self.kept_of_held(first, second), self.NONE)
        self.assertEqual(self.kept_of_held(first, end), self.NONE)
        self.assertEqual(self.kept_of_held(end, second, second, end), self.NONE)
        self.assertEqual(self.kept_of_held(end, second, second, first), self.BOTH)

    @needs_program
    def test_a_push_that_is_open_for_a_minute_is_forgotten(self):
        first, rest = "deliver 140", ["deliver 141", "deliver 142"]
        self.assertEqual(self.kept_of_held(first, "run 59999", *rest), self.BOTH)
        self.assertEqual(self.kept_of_held(first, "run 60000", *rest), self.NONE)
        self.assertEqual(self.kept_of_held(first, "run 60000", *rest, first), self.BOTH)
