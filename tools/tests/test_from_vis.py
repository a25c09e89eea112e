"""Pictures of real meshes. vis.json and vis.jsondoc are the examples of batadv-vis' manual."""

import json
import unittest

import batmesh_run
from common import DATA, Folder, load_tool, needs_program, printed_of, run_tool

from_vis = load_tool("from_vis")

MESHVIEWER = {
    "timestamp": "2026-01-01T00:00:00Z",
    "nodes": [
        {"node_id": "a", "hostname": "Rathaus-Süd 1", "mac": "02:00:00:00:00:0A"},
        {"node_id": "b", "hostname": "Rathaus-Süd 2", "mac": "02:00:00:00:00:0b"},
        {"node_id": "c", "hostname": "gone", "mac": "02:00:00:00:00:0c", "is_online": False},
    ],
    "links": [
        {"type": "wifi", "source": "a", "target": "b", "source_tq": 0.5, "target_tq": 1},
        {"type": "wifi", "source": "b", "target": "c", "source_tq": 1, "target_tq": 1},
    ],
}
GRAPH = {
    "version": 1,
    "batadv": {
        "directed": False,
        "nodes": [{"id": "02:00:00:00:00:0a"}, {"id": "02:00:00:00:00:0b"}],
        "links": [{"source": 0, "target": 1, "tq": 1.3333, "bidirect": True}],
    },
}


class Reading(unittest.TestCase):
    def test_both_forms_of_batadv_vis_tell_the_same_mesh(self):
        document = from_vis.mesh_of((DATA / "vis.jsondoc").read_text())
        lines = from_vis.mesh_of((DATA / "vis.json").read_text())
        self.assertEqual(document, lines)
        self.assertEqual(len(document.nodes), 6)
        self.assertEqual(
            document.clients["fe:f0:00:00:04:01"], ["00:00:43:05:00:04", "fe:f1:00:00:04:01"]
        )
        quality = document.links["fe:f0:00:00:02:01", "fe:f0:00:00:01:01"]
        self.assertAlmostEqual(255 * quality, 251, places=0)

    def test_an_interface_counts_as_its_node(self):
        text = json.dumps({"vis": [
            {"primary": "02:00:00:00:00:0a", "secondary": ["02:00:00:00:01:0a"], "neighbors": []},
            {"primary": "02:00:00:00:00:0b", "neighbors": [
                {"router": "02:00:00:00:00:0b", "neighbor": "02:00:00:00:01:0a", "metric": "2.0"}
            ]},
        ]})
        mesh = from_vis.mesh_of(text)
        self.assertEqual(mesh.links, {("02:00:00:00:00:0b", "02:00:00:00:00:0a"): 0.5})

    def test_a_meshviewers_offline_nodes_are_left_out(self):
        mesh = from_vis.mesh_of(json.dumps(MESHVIEWER))
        self.assertEqual(list(mesh.nodes), ["02:00:00:00:00:0a", "02:00:00:00:00:0b"])
        self.assertEqual(list(mesh.links.values()), [0.5, 1.0])

    def test_a_graphs_quality_is_the_inverse_and_holds_both_ways(self):
        mesh = from_vis.mesh_of(json.dumps(GRAPH))
        self.assertEqual([round(quality, 2) for quality in mesh.links.values()], [0.75, 0.75])

    def test_what_cant_be_read_is_told_with_its_place(self):
        for text, told in (
            ("{\n x", "line 2: this isn't JSON"),
            ("[]", "this is none of"),
            ('{"vis": [{"secondary": []}]}', "vis[0]: there is no 'primary'"),
            ('{"vis": [{"primary": "x"}]}', "vis[0].primary: 'x' is no address"),
            ('{"vis": [{"primary": "01:00:5e:00:00:01"}]}', "isn't the address of one station"),
            ('{"primary": "02:00:00:00:00:0a"}\n{"router": "02:00:00:00:00:0a", "neighbor": "y"}',
             "line 2: 'y' is no address"),
            ('{"nodes": 3, "links": []}', "the JSON isn't built as"),
        ):
            with self.assertRaises(batmesh_run.Trouble) as caught:
                from_vis.mesh_of(text)
            self.assertIn(told, str(caught.exception))


class Writing(Folder):
    def scenario(self, document, *words):
        status, out, said = run_tool("from_vis", self.write("v.json", json.dumps(document)), *words)
        self.assertEqual((status, said), (0, ""))
        return out.decode().splitlines()

    def test_names_are_made_plain_and_kept_apart(self):
        lines = self.scenario(MESHVIEWER)
        self.assertIn("# Rathaus_S_d_1 is Rathaus-Süd 1", lines)
        self.assertIn("node Rathaus_S_d_1 02:00:00:00:00:0a", lines)
        mesh = from_vis.Mesh({f"02:00:00:00:00:{i:02x}": "1-very-long-hostname" for i in range(12)})
        names = list(from_vis.scenario_names(mesh).values())
        self.assertEqual(names[:2], ["n_1_very_long_ho", "n_1_very_long__2"])
        self.assertEqual(len(set(names)), 12)
        self.assertTrue(all(len(name) <= 16 for name in names))

    def test_a_link_loses_what_its_quality_tells(self):
        links = [line for line in self.scenario(MESHVIEWER) if line.startswith("link")]
        pattern = links[0].partition("pattern=")[2]
        self.assertEqual((len(pattern), pattern.count("x")), (64, 32))
        self.assertEqual(links[1], "link Rathaus_S_d_2 Rathaus_S_d_1")
        self.assertNotEqual(links, [
            line for line in self.scenario(MESHVIEWER, "--seed", 1) if line.startswith("link")
        ])

    def test_the_way_back_is_added_on_demand(self):
        picture = (DATA / "vis.jsondoc").read_text()
        for words, count in (([], 5), (["--both"], 10)):
            _, out, _ = run_tool("from_vis", self.write("v.json", picture), *words)
            links = [line for line in out.decode().splitlines() if line.startswith("link")]
            self.assertEqual(len(links), count)

    def test_of_a_large_mesh_the_nodes_around_one_are_chosen(self):
        ring = {"batadv": {
            "nodes": [{"id": f"02:00:00:00:00:{i:02x}"} for i in range(100)],
            "links": [{"source": i, "target": (i + 1) % 100, "tq": 1} for i in range(100)],
        }}
        path = self.write("v.json", json.dumps(ring))
        status, _, said = run_tool("from_vis", path)
        self.assertEqual(status, 2)
        self.assertIn("100 nodes, where a scenario takes 64: choose with --around NODE", said)
        lines = self.scenario(ring, "--around", "02:00:00:00:00:0a", "--nodes", "3")
        nodes = {line.split()[2] for line in lines if line.startswith("node")}
        self.assertEqual(nodes, {f"02:00:00:00:00:{i}" for i in ("09", "0a", "0b")})

    @needs_program
    def test_the_program_carries_the_scenario_out(self):
        _, out, _ = run_tool("from_vis", DATA / "vis.jsondoc")
        self.assertTrue(printed_of(out.decode())[-1].startswith("o "))
