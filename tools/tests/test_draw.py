"""Pictures: what Graphviz and gnuplot are given, and what they make of it where they are there."""

import batmesh_run
from common import EXAMPLES, Folder, load_tool, needs_command, needs_program, run_tool

draw = load_tool("draw")

# Three nodes, and tables as the program prints them, with a node that has no name here.
NODES = {"A": "02:00:00:00:00:0a", "B": "02:00:00:00:00:0b", "C": "02:00:00:00:00:0c"}
TABLES = """o B algo=iv count=0
o A algo=iv count=3
o 02:00:00:00:00:0b seq=3 seen=499 next=02:00:00:00:00:0b metric=17
o 02:00:00:00:00:0c seq=3 seen=498 next=02:00:00:00:00:0b metric=2
o 02:00:00:00:00:0d seq=3 seen=498 next=- metric=0""".splitlines()


def links(*texts):
    return batmesh_run.links_of(batmesh_run.scenario_lines("\n".join(texts)))


class Mesh(Folder):
    def test_routes_are_the_rows_with_a_next_hop(self):
        self.assertEqual(draw.routes_of(TABLES, NODES), [
            draw.Route("A", "B", "B", 17), draw.Route("A", "C", "B", 2)
        ])

    def test_a_link_bears_the_routes_over_it_and_its_loss(self):
        given = draw.mesh_source(
            NODES, links("link A B pattern=.x", "link B A", "link B C pattern=...h"),
            draw.routes_of(TABLES, NODES),
        )
        edges = [line for line in given.splitlines() if "->" in line]
        self.assertIn('label="B 17\\nC 2\\nloses 50 %"', edges[0])
        self.assertIn("penwidth=2", edges[0])
        self.assertEqual(edges[1], '  "B" -> "A" [];')
        self.assertIn('label="loses 25 %"', edges[2])

    def test_the_tables_behind_the_last_line_count(self):
        earlier = ["o A algo=iv count=1", "o 02:00:00:00:00:0b seq=1 seen=1 next=- metric=0"]
        self.assertEqual(draw.last_tables(earlier + TABLES, ["A", "B"]), TABLES)
        self.assertEqual(
            draw.with_shows("node A 02:00:00:00:00:0a", ["A"]),
            "node A 02:00:00:00:00:0a\nshow A o\n",
        )

    def test_what_cant_be_drawn_is_told(self):
        for text, words, told in (
            ("# nothing\n", [], "has no node line"),
            ("node A 02:00:00:00:00:0a\n", ["--to", "B"], "has no node B"),
            ("node A 02:00:00:00:00:0a\n", ["--convergence"], "two nodes and a link"),
            ("link A B loss=3\n", [], "line 1: loss=3 is no option of a link"),
        ):
            status, _, said = run_tool("draw", self.write("s.scn", text), *words)
            self.assertEqual(status, 2)
            self.assertIn(told, said)


class Convergence(Folder):
    def test_each_link_loses_the_wanted_share_by_drawn_marks(self):
        mesh = links("link A B", "link B A delay=3 pattern=x")
        text = draw.lossy_scenario(NODES, mesh, 50, 1, 2)
        made = links(*[line for line in text.splitlines() if line.startswith("link")])
        self.assertEqual([link.loss for link in made], [0.5, 0.5])
        self.assertEqual([link.delay for link in made], [1, 3])
        self.assertNotEqual(made[0].pattern, made[1].pattern)
        self.assertEqual(text.count("run 1000"), 2)
        self.assertEqual(text, draw.lossy_scenario(NODES, mesh, 50, 1, 2))
        self.assertNotEqual(text, draw.lossy_scenario(NODES, mesh, 50, 2, 2))

    def test_pairs_count_where_links_lead_both_ways(self):
        chain = links("link A B", "link B A", "link B C", "link C B")
        self.assertEqual(draw.reached_pairs("ABC", chain), 6)
        self.assertEqual(draw.reached_pairs("ABC", chain[:3]), 2)

    def test_the_first_second_with_all_routes_counts(self):
        none = ["o A algo=iv count=0", "o B algo=iv count=0"]
        both = [
            "o A algo=iv count=1",
            "o 02:00:00:00:00:0b seq=3 seen=499 next=02:00:00:00:00:0b metric=17",
            "o B algo=iv count=1",
            "o 02:00:00:00:00:0a seq=3 seen=499 next=02:00:00:00:00:0a metric=17",
        ]
        pair = {"A": NODES["A"], "B": NODES["B"]}
        self.assertEqual(draw.seconds_to_routes(none + none + both + both, pair, 2), 3)
        self.assertIsNone(draw.seconds_to_routes(none + none, pair, 2))


class Pictures(Folder):
    @needs_command("dot", "graphviz")
    def test_graphviz_draws_the_mesh(self):
        given = draw.mesh_source(NODES, links("link A B"), draw.routes_of(TABLES, NODES))
        made = draw.make_picture(["dot", "-Tsvg"], "graphviz", given)
        self.assertIn(b"<svg", made)

    @needs_command("gnuplot", "gnuplot-nox")
    def test_gnuplot_plots_the_rows(self):
        given = draw.plot_source([(0, 3, 3, 4, 5), (10, 3, 5, 9, 4)], 5, 60)
        self.assertIn(b"<svg", draw.make_picture(["gnuplot"], "gnuplot-nox", given))

    def test_a_program_that_isnt_there_is_named_with_its_package(self):
        with self.assertRaises(batmesh_run.Trouble) as caught:
            draw.make_picture(["no-such-program"], "its-package", "")
        self.assertIn("apt-get install its-package", str(caught.exception))


@needs_program
class WithTheProgram(Folder):
    def test_the_example_is_drawn_with_the_routes_of_its_table(self):
        status, out, _ = run_tool("draw", "--source", "--to", "D", EXAMPLES / "diamond.scn")
        self.assertEqual(status, 0)
        self.assertIn('"A" -> "B" [color="#0b5fa5", penwidth=2, label="D 2"];', out.decode())
        self.assertIn('"A" -> "C" [];', out.decode())

    def test_two_nodes_without_loss_have_their_routes_after_three_seconds(self):
        status, out, _ = run_tool(
            "draw", "--convergence", "--source", "--seeds", "1", "--until", "5",
            EXAMPLES / "two_nodes.scn",
        )
        self.assertEqual(status, 0)
        self.assertIn("\n0 3 3 3 1\n", out.decode())
