"""Weather, over a mesh whose frames are written down, and over the program where it is built."""

import json
import re
import unittest

import batmesh_run
from common import EXAMPLES, Folder, load_tool, needs_program, printed_of, run_tool

weather = load_tool("weather")

NODES = "node A 02:00:00:00:00:0a\nnode B 02:00:00:00:00:0b\n"
PAIR = NODES + "link A B\nlink B A\n"
CHAIN = PAIR + "node C 02:00:00:00:00:0c\nlink B C\nlink C B\n"


class WrittenMesh:
    """Stands for the program: it sends the frames that are written down, by moment, as ends."""

    def __init__(self, frames):
        self._frames = [
            (moment, f"f{number} {moment} {ends} elp 030f")
            for number, (moment, ends) in enumerate(frames, start=1)
        ]
        self._now = 0
        self.delivered = []  # moments and numbers

    def say(self, text):
        command, *words = text.split()
        if command == "deliver":
            self.delivered.append((self._now, int(words[0])))
        if command != "run":
            return []
        begin, self._now = self._now, self._now + int(words[0])
        return [line for moment, line in self._frames if begin < moment <= self._now]


def expand(text, frames):
    """The plain lines of a scenario over a mesh that sends these frames, and the mesh."""
    lines = batmesh_run.scenario_lines(text)
    mesh = WrittenMesh(frames)
    expansion = weather.Expansion(mesh, weather.forecast_of(lines))
    for line in lines:
        expansion.take(line)
    expansion.end()
    return expansion.plain, mesh


def both_ways(*moments):
    return [(moment, ends) for moment in moments for ends in ("A>B", "B>A")]


class Weather(unittest.TestCase):
    def test_a_link_that_failed_delivers_again_when_it_is_up(self):
        text = PAIR + "run 1500\n#! down A B\nrun 1000\n#! up A B\nrun 1000\n"
        plain, mesh = expand(text, both_ways(1000, 2000, 3000))
        self.assertEqual(mesh.delivered, [(1001, 1), (3001, 5)])
        self.assertEqual(plain, [
            "node A 02:00:00:00:00:0a", "node B 02:00:00:00:00:0b", "link A B pattern=h",
            "link B A", "run 1001", "deliver 1", "run 499", "# weather: down A B", "run 1000",
            "# weather: up A B", "run 501", "deliver 5", "run 499",
        ])

    def test_what_was_sent_before_the_link_failed_still_comes(self):
        _, mesh = expand(PAIR + "run 1000\n#! down A B\nrun 1000\n", both_ways(1000, 2000))
        self.assertEqual(mesh.delivered, [(1001, 1)])

    def test_the_links_own_delay_and_pattern_count(self):
        text = NODES + "link A B delay=3 pattern=.x2h\n#! loss A B 0\nrun 5000\n"
        plain, mesh = expand(text, [(moment, "A>B") for moment in (1000, 2000, 3000, 4000)])
        self.assertEqual(mesh.delivered, [(1003, 1), (3003, 3), (3006, 3)])
        self.assertIn("# held: link A B delay=3 pattern=.x2h", plain)
        self.assertIn("link A B delay=3 pattern=h", plain)

    def test_frames_of_one_moment_are_delivered_by_their_numbers(self):
        text = PAIR + "#! loss A B 0\n#! loss B A 0\nrun 1002\n"
        _, mesh = expand(text, both_ways(1000))
        self.assertEqual(mesh.delivered, [(1001, 1), (1001, 2)])

    def test_each_frame_of_an_example_comes_when_its_link_would_bring_it(self):
        vector = json.loads((EXAMPLES / "vectors" / "ping.json").read_text())
        text = (EXAMPLES / "ping.scn").read_text()
        links = [step for step in vector["steps"] if step["command"] == "link"]
        calm = "".join(f"#! loss {link['from']} {link['to']} 0\n" for link in links)
        frames = [(frame["moment"], f"{frame['from']}>{frame['to']}") for frame in vector["frames"]]
        self.assertEqual(len(frames), vector["frame_count"])
        plain, mesh = expand(text.replace("run 8500\n", calm + "run 8500\n"), frames)
        self.assertEqual(mesh.delivered, [
            (moment + 1, number) for number, (moment, _) in enumerate(frames, start=1)
        ])
        runs = [int(line.split()[1]) for line in plain if line.startswith("run")]
        self.assertEqual(sum(runs), 8520)

    def test_a_dead_node_neither_sends_nor_hears(self):
        frames = [(1000, ends) for ends in ("A>B", "B>A", "B>C", "C>B")]
        frames += [(1500, ends) for ends in ("B>C", "C>B")]
        _, mesh = expand(CHAIN + "run 1200\n#! dead C\nrun 1000\n", frames)
        self.assertEqual(mesh.delivered, [(1001, 3), (1001, 4)])

    def test_what_is_under_way_to_a_node_that_dies_is_lost(self):
        _, mesh = expand(CHAIN + "run 1000\n#! dead C\nrun 9\n", [(1000, "B>C"), (1000, "C>B")])
        self.assertEqual(mesh.delivered, [(1001, 2)])

    def test_loss_is_drawn_by_the_seed(self):
        frames = [(1000 * number, "A>B") for number in range(1, 201)]

        def came(loss, seed):
            text = f"{PAIR}#! seed {seed}\n#! loss A B {loss}\nrun 201000\n"
            return [number for _, number in expand(text, frames)[1].delivered]

        self.assertEqual(len(came(0, 1)), 200)
        self.assertEqual(came(100, 1), [])
        self.assertEqual(came(30, 1), came(30, 1))
        self.assertNotEqual(came(30, 1), came(30, 2))
        # Of 200 draws some 60 lose; fewer than 30 or more than 90 come once in 100,000 seeds.
        self.assertTrue(110 <= len(came(30, 1)) <= 170)

    def test_what_cant_be_is_told_with_its_line(self):
        for text, told in (
            ("#! rain\n", "line 1: weather is one of"),
            ("#! down A\n", "line 1: the form is #! down A B"),
            ("#! loss A B 101\n", "line 1: a loss is at most 100 percent"),
            ("#! seed 1\n#! seed 2\n", "line 2: the seed was given before"),
            (NODES + "#! down A B\n", "line 3: no link from A to B stands here"),
            (NODES + "#! dead A\n", "line 3: no link from or to A stands here"),
            (PAIR + "#! dead A\n#! up A B\n", "line 6: A is dead"),
            (NODES + "link A B pattern=y\n", "line 3: a pattern has 1 to 64"),
        ):
            with self.assertRaises(batmesh_run.Trouble) as caught:
                expand(text, [])
            self.assertIn(told, str(caught.exception))


class OverAPipe(Folder):
    """The whole tool, over a stand-in that sends two frames in the sixth line that it is given."""

    TEXT = PAIR + "#! loss A B 0\nrun 1001\n"
    PRINTED = {6: ["f1 1000 A>B elp 030f", "f2 1000 B>A elp 030f"]}

    def test_the_plain_scenario_is_printed(self):
        program = self.stand_in(self.PRINTED)
        status, out, said = run_tool("weather", self.write("s.scn", self.TEXT), program=program)
        self.assertEqual((status, said), (0, ""))
        self.assertEqual(out.decode().splitlines()[3:], [
            "link A B pattern=h", "link B A", "# weather: loss A B 0", "run 1001", "deliver 1",
        ])

    def test_a_refused_line_is_told_with_its_number(self):
        program = self.stand_in({}, refused=3)
        status, _, said = run_tool("weather", self.write("s.scn", self.TEXT), program=program)
        self.assertEqual((status, said), (2, "tools/weather: line 3: unknown name\n"))


@needs_program
class WithTheProgram(Folder):
    def expanded(self, text):
        status, out, said = run_tool("weather", self.write("s.scn", text))
        self.assertEqual((status, said), (0, ""))
        return out.decode()

    def test_weather_that_does_nothing_leaves_the_tables_as_they_are(self):
        text = CHAIN + "run 20000\nshow A o\nshow C o\n"
        calm = text.replace("run", "#! loss A B 0\n#! loss C B 0\nrun", 1)
        self.assertEqual(printed_of(self.expanded(calm)), printed_of(text))

    def test_a_dead_node_is_forgotten_after_200_seconds(self):
        text = (EXAMPLES / "weather" / "dead_node.scn").read_text()
        printed = printed_of(self.expanded(text))
        counts = [int(count) for count in re.findall(r"o A algo=iv count=(\d)", "\n".join(printed))]
        self.assertEqual(counts, [2, 1])
        self.assertEqual([line for line in printed if line.startswith(("ping", "lost"))], [
            "ping A C seq=1 reply ttl=49 rtt=4",
            "ping A C seq=3 noroute",
            "lost 225100 A - 02:00:00:00:01:02 02:00:00:00:01:01 unknown",
        ])

    def test_a_detour_stands_six_seconds_after_a_link_failed(self):
        text = (EXAMPLES / "weather" / "failed_link.scn").read_text()
        printed = printed_of(self.expanded(text))
        hops = re.findall(r"o \S+0c seq=\d+ seen=\d+ next=\S+:(\w+)", "\n".join(printed))
        self.assertEqual(hops, ["0c", "0c", "0b", "0b", "0c"])

    def test_a_refused_line_is_told_with_its_number(self):
        status, _, said = run_tool("weather", self.write("s.scn", NODES + "show C o\n"))
        self.assertEqual((status, said), (2, "tools/weather: line 3: unknown name\n"))

