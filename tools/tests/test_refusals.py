"""Each text by which a line or the words are refused."""

import unittest

from common import needs_program
from scenarios import A, ALL, B, DUO, finished, frame, run_bytes, run_lines

NODE = [f"node A {A}"]
TABLE = "tl A version=0 clients=0"

# The lines before, and the line that is refused for this reason.
REFUSED = [
    ("unknown command", [], "x"),
    ("unknown command", NODE, "Node B " + B),
    ("missing word", [], "run"),
    ("missing word", NODE, f"frame A 02:00:00:00:01:01 {ALL} -"),
    ("missing word", ["algo v"], "algo"),
    ("bad name", [], "show 1"),
    ("bad mac", [], "node A x"),
    ("bad number", [], "run x"),
    ("bad number", NODE, f"frame A 02:00:00:00:01:01 {ALL} 4095 x"),
    ("bad number", DUO[:2], "link A B loss=10"),
    ("out of range", [], "run 0"),
    ("out of range", [], f"node A {ALL}"),
    ("out of range", NODE, "show A local"),
    ("out of range", ["algo v"], "algo V"),
    ("extra word", [], "run 1 x"),
    ("extra word", DUO[:2], "link A B tp=1 delay=1 pattern=. x"),
    ("extra word", ["algo v"], "algo v v"),
    ("extra word", NODE, "lan L" + " A" * 17),
    ("unknown name", [], "show A tl"),
    ("unknown name", NODE, "ping A B"),
    ("unknown name", DUO, "ping X X"),  # the names are looked at before what else is asked
    ("unknown name", DUO[:3], "link A X"),
    ("name taken", NODE, f"node A {B}"),
    ("name taken", NODE, f"node A {A}"),  # the name is looked at before the address
    ("address taken", NODE, f"node B {A}"),
    ("address taken", NODE, f"node B {A.upper()}"),
    ("same node", NODE, "link A A"),
    ("same node", NODE, "ping A A"),
    ("same node", NODE, "traceroute A A"),
    ("link taken", DUO, "link A B"),
    ("algo after node", NODE, "algo iv"),
    ("unknown name", DUO[:2], "lan L L"),
    ("unknown name", [*DUO[:2], "lan L A"], "lan M C L"),
    ("wrong kind", [*DUO[:2], "lan L A"], "lan M L C"),
    ("wrong kind", [*DUO[:2], "lan L A"], "lan L L"),
    ("wrong kind", [*DUO[:2], "lan L A"], "show L cl"),
    ("wrong kind", [*DUO[:2], "lan L A"], "link L B"),
    ("wrong kind", [*DUO[:2], "lan L A"], "ping B L"),
    ("wrong kind", [*DUO[:2], "lan L A"], "join L 01:00:5e:00:00:fb -"),
    ("name taken", DUO[:2], "lan A A A"),
    ("name taken", [*DUO[:2], "lan L A"], "lan L A"),
    ("name taken", [*DUO[:2], "lan L A"], "node L 02:00:00:00:00:0c"),
    ("attached", DUO[:2], "lan L A A"),
    ("attached", [*DUO[:2], "lan L A"], "lan M B A"),
    ("attached", [*DUO[:2], "lan L A"], frame("A", 1)),
    ("attached", [*DUO[:2], "lan L A"], "gone A 02:00:00:00:01:01 -"),
    ("attached", [*DUO[:2], "lan L A"], "arp A 02:00:00:00:01:01 10.0.0.1 10.0.0.2 -"),
    ("wrong kind", [*DUO[:2], "lan L A"], "arp L 02:00:00:00:01:01 10.0.0.1 10.0.0.2 -"),
    ("bad number", NODE, "arp A 02:00:00:00:01:01 10.0.0.1 10.0.0.256 -"),
    ("out of range", NODE, "arp A 01:00:5e:00:00:fb 10.0.0.1 10.0.0.2 -"),
    ("attached", [*DUO[:2], "lan L A"], "dhcp A 02:00:00:00:01:01 - x"),
    ("wrong kind", [*DUO[:2], "lan L A"], "dhcp L 02:00:00:00:01:01 - x"),
    ("out of range", NODE, "alfred A mode server"),
    ("out of range", NODE, "alfred A put 63 1 x"),
    ("out of range", NODE, "alfred A put 256 1 x"),
    ("out of range", NODE, "alfred A put 64 256 x"),
    ("out of range", NODE, "alfred A put 64 1 " + "x" * 1_001),
    ("out of range", NODE, "alfred A put 64 1 " + "x" * 1_000 + " "),
    ("out of range", NODE, "alfred A put 64 1 " + "\u00e9" * 500 + "x"),
    ("out of range", NODE, "alfred A get 63"),
    ("out of range", NODE, "alfred A get 256"),
    ("out of range", NODE, "alfred A push 64 1 x"),
    ("bad number", NODE, "alfred A put 64 x"),
    ("missing word", NODE, "alfred A put 64 1"),
    ("missing word", NODE, "alfred A put 64 1 \t"),
    ("extra word", NODE, "alfred A get 64 1"),
    ("extra word", NODE, "alfred A mode off x"),
    ("unknown name", NODE, "alfred B get 64"),
    ("wrong kind", [*DUO[:2], "lan L A"], "alfred L get 64"),
    ("unknown command", NODE, "Reboot A"),
    ("missing word", NODE, "reboot"),
    ("extra word", NODE, "reboot A b"),
    ("bad name", NODE, "reboot 1"),
    ("unknown name", NODE, "reboot X"),
    ("wrong kind", [*DUO[:2], "lan L A"], "reboot L"),
    ("attached", [*DUO[:2], "lan L A"], "reboot A"),
    ("no such frame", [], "deliver 0"),
    ("no such frame", [], "deliver 1"),
    ("no such frame", [*DUO, frame("A", 1)], "deliver 2"),
]

# Words that aren't taken: from one to five of them.
NOT_TAKEN = [
    ["--help"],
    ["--frames"],
    ["--frames=some"],
    ["--generate=2"],
    ["x", "y"],
    ["--frames", "some"],
    ["--generate", "65"],
    ["--generate", "x"],
    ["--generate", "3", "x"],
    ["--frames", "all", "--generate", "2"],
    ["--frames", "all", "--frames", "none"],
    ["--generate", "3", "--generate", "3"],
    ["--frames", "ogm", "--generate", "8", "x"],
    ["--frames", "all", "x", "--generate", "8"],
    ["--frames", "all", "x", "y", "z"],
]


class Lines(unittest.TestCase):
    @needs_program
    def test_each_reason(self):
        for reason, before, line in REFUSED:
            with self.subTest(line=line):
                number = len(before) + 1
                said = f"batmesh: line {number}: {reason}\n"
                self.assertEqual(run_lines([*before, line, "decode 00"]), (1, "", said))

    @needs_program
    def test_bytes_that_are_no_text(self):
        for line in (b"\xff", b"# \xff", b"node \xff"):
            ended = run_bytes(f"node A {A}\nshow A tl\n".encode() + line + b"\nshow A tl\n")
            said = "batmesh: line 3: bad utf-8\n"
            self.assertEqual(ended, (1, TABLE + "\n", said))

    @needs_program
    def test_a_frame_that_was_sent_comes_again(self):
        lines = [*DUO, frame("A", 1), "deliver 1"]
        self.assertEqual(run_lines(lines), finished([f"recv 0 B - 02:00:00:00:01:01 {ALL} x"]))


class Facts(unittest.TestCase):
    """What is at the end of a range is taken; the refusals above have what is one past it."""

    @needs_program
    def test_types_and_versions(self):
        lines = [*NODE, "alfred A put 255 255 last", "alfred A put 64 0 first", "show A alf"]
        lines += ["alfred A get 64", "alfred A get 255"]
        printed = [
            "alfred A mode=off facts=2",
            f"a {A} 64 0 local age=0 first",
            f"a {A} 255 255 local age=0 last",
            "alfred A get 64 off",
            "alfred A get 255 off",
        ]
        self.assertEqual(run_lines(lines), finished(printed))

    @needs_program
    def test_texts(self):
        for text in ("x", "x" * 1_000, "x" * 999 + " ", "\u00e9" * 500):
            lines = [*NODE, "alfred A mode primary", f"alfred A put 64 1 {text}", "alfred A get 64"]
            with self.subTest(bytes=len(text.encode())):
                self.assertEqual(run_lines(lines), finished([f"alfred A get 64 {A} 1 {text}"]))


class Words(unittest.TestCase):
    @needs_program
    def test_words_that_are_not_taken(self):
        for words in NOT_TAKEN:
            with self.subTest(words=words):
                self.assertEqual(run_lines([], *words), (2, "", "batmesh: usage\n"))
