"""Transcripts, over lines whose output is written down, and over the program where it is built."""

from common import EXAMPLES, Folder, needs_program, run_tool

# A scenario, and what the stand-in prints of its lines by number, in the forms of the program.
SCENARIO = """# A client roams from A to B.
node A 02:00:00:00:00:0a
node B 02:00:00:00:00:0b
link A B
link B A
frame A 02:00:00:00:01:01 ff:ff:ff:ff:ff:ff - at A
run 5000
frame B 02:00:00:00:01:01 ff:ff:ff:ff:ff:ff - at B
run 1500
show A tg
show A o
"""
PRINTED = {
    7: ["recv 1 B - 02:00:00:00:01:01 ff:ff:ff:ff:ff:ff at A"],
    10: [
        "tg A count=1",
        "t 02:00:00:00:00:0b held=1 told=1 state=ok entries=1",
        "e 02:00:00:00:01:01 - --",
    ],
    11: [
        "o A algo=iv count=1",
        "o 02:00:00:00:00:0b seq=6 seen=499 next=02:00:00:00:00:0b metric=30",
    ],
}


class Transcript(Folder):
    def transcript(self, *words, text=SCENARIO, refused=None):
        scenario = self.write("s.scn", text)
        program = self.stand_in(PRINTED, refused)
        return run_tool("transcript", scenario, *words, program=program)

    def test_each_line_stands_with_its_number_its_moment_and_its_output(self):
        status, out, said = self.transcript()
        self.assertEqual((status, said), (0, ""))
        lines = out.decode().splitlines()
        self.assertEqual(lines[0], "    1         0  # A client roams from A to B.")
        self.assertEqual(lines[6:9], [
            "    7         0  run 5000",
            "                 | recv 1 B - 02:00:00:00:01:01 ff:ff:ff:ff:ff:ff at A",
            "    8      5000  frame B 02:00:00:00:01:01 ff:ff:ff:ff:ff:ff - at B",
        ])
        self.assertEqual(lines[10], "   10      6500  show A tg")
        self.assertEqual(len(lines), 11 + 6)

    def test_names_stand_for_the_nodes_addresses_alone(self):
        _, out, _ = self.transcript("--names")
        self.assertIn("| t B held=1", out.decode())
        self.assertIn("| o B seq=6 seen=499 next=B metric=30", out.decode())
        self.assertIn("| e 02:00:00:00:01:01 - --", out.decode())

    def test_rows_say_whose_they_are(self):
        _, out, _ = self.transcript("--rows", "--names")
        self.assertIn("| A tg: t B held=1", out.decode())
        self.assertIn("| A tg of B: e 02:00:00:00:01:01", out.decode())
        self.assertIn("| A o: o B seq=6", out.decode())
        self.assertIn("| recv 1 B", out.decode())

    def test_a_refused_line_is_the_last_with_the_programs_text_and_status(self):
        status, out, said = self.transcript(refused=10)
        self.assertEqual((status, said), (1, "batmesh: line 10: unknown name\n"))
        self.assertEqual(out.decode().splitlines()[-1], "   10      6500  show A tg")

    def test_a_file_that_isnt_there_is_told(self):
        status, _, said = run_tool("transcript", self.folder / "none")
        self.assertEqual(status, 2)
        self.assertIn("tools/transcript: can't read", said)

    def test_a_program_that_isnt_there_is_told(self):
        status, _, said = run_tool("transcript", self.write("s", SCENARIO), program="/none")
        self.assertEqual(status, 2)
        self.assertIn("there is no program /none", said)


@needs_program
class WithTheProgram(Folder):
    def test_the_examples_print_what_stands_beside_them(self):
        for scenario in sorted(EXAMPLES.glob("*.scn")):
            if scenario.with_suffix(".args").exists():
                continue  # its call has words that a transcript's has not
            with self.subTest(scenario.name):
                _, out, _ = run_tool("transcript", scenario)
                bar = " " * 17 + "| "
                printed = [
                    line.removeprefix(bar) for line in out.decode().splitlines()
                    if line.startswith(bar)
                ]
                stored = scenario.with_suffix(".out").read_text().splitlines()
                self.assertEqual(printed, stored)
