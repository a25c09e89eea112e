"""The vectors: each against its scenario, the output stored beside it, and the schema."""

import importlib.util
import json
import unittest

import batmesh_run
from common import EXAMPLES, load_tool, needs_program, run_tool

vectors = load_tool("vectors")
STORED = {path.stem: path for path in sorted(vectors.VECTORS.glob("*.json"))}
SCHEMA = STORED.pop("schema")


def frame_line(frame):
    """The printed line of a vector's frame."""
    reason = [f"by={frame['by']}"] if "by" in frame else []
    ends = f"{frame['from']}>{frame['to']}"
    head = [f"f{frame['number']}", str(frame["moment"]), ends, frame["kind"], *reason]
    return " ".join([*head, frame["bytes"]])


def stored_vectors():
    return {name: json.loads(path.read_text()) for name, path in STORED.items()}


class Stored(unittest.TestCase):
    def test_each_scenario_has_its_vector(self):
        scenarios = vectors.scenario_files().keys()
        self.assertLessEqual(STORED.keys(), scenarios)
        if missing := sorted(scenarios - STORED.keys()):
            self.skipTest(f"tools/vectors has to make the vectors of {', '.join(missing)}")

    def test_what_steps_print_is_the_output_beside_the_scenario(self):
        for name, vector in stored_vectors().items():
            with self.subTest(name):
                self.compare_output(vector)

    def compare_output(self, vector):
        beside = (EXAMPLES.parent / vector["scenario"]).with_suffix(".out")
        stored = beside.read_text().splitlines()
        printed = [text for step in vector["steps"] for text in step.get("printed", [])]
        self.assertEqual(printed, [line for line in stored if not batmesh_run.frame_of(line)])
        frames = {frame["number"]: frame_line(frame) for frame in vector["frames"]}
        for line in stored:
            if frame := batmesh_run.frame_of(line):
                self.assertEqual(frames[frame.number], line)

    def test_steps_and_tables_are_those_of_the_lines(self):
        for name, vector in stored_vectors().items():
            with self.subTest(name):
                self.compare_steps(vector)

    def compare_steps(self, vector):
        lines = batmesh_run.scenario_lines((EXAMPLES.parent / vector["scenario"]).read_text())
        moments = batmesh_run.moments_of(lines)
        lines = [line for line in lines if line.words]
        for line, step in zip(lines, vector["steps"]):
            made = vectors.step_with_result(line, moments[line.number], step.get("printed", []))
            self.assertEqual(step, made)
        self.assertTrue(len(vector["steps"]) == len(lines) or vector["status"] != 0)

    def test_each_is_of_the_form_that_the_schema_has(self):
        if importlib.util.find_spec("jsonschema") is None:
            self.skipTest("jsonschema isn't installed (python3-jsonschema)")
        import jsonschema

        schema = json.loads(SCHEMA.read_text())
        for name, vector in stored_vectors().items():
            with self.subTest(name):
                jsonschema.validate(vector, schema)

    @needs_program
    def test_each_is_what_the_program_prints(self):
        status, _, said = run_tool("vectors", "--check")
        self.assertEqual(status, 0, said)


class Reading(unittest.TestCase):
    """Forms that no stored scenario prints, from docs/SCENARIO.md."""

    def test_events_are_read(self):
        for printed, event in (
            ("ping A B seq=3 unreachable from=X", {
                "event": "ping", "node": "A", "target": "B", "seq": 3, "result": "unreachable",
                "by": "X",
            }),
            ("trace A B noroute", {
                "event": "trace", "node": "A", "target": "B", "result": "noroute",
            }),
            ("trace A B hop=2 X unreachable", {
                "event": "trace", "node": "A", "target": "B", "hop": 2, "by": "X",
                "result": "unreachable",
            }),
            ("alias A 3 1", {"event": "alias", "node": "A", "commit": 3, "earlier": 1}),
            ("lost 7 A 9 02:00:00:00:01:01 02:00:00:00:01:09 noroute", {
                "event": "lost", "moment": 7, "node": "A", "vid": 9,
                "source": "02:00:00:00:01:01", "destination": "02:00:00:00:01:09",
                "reason": "noroute",
            }),
        ):
            self.assertEqual(vectors.event_of(printed), event)

    def test_a_fact_keeps_the_blanks_of_its_text(self):
        line = batmesh_run.scenario_lines("alfred A put  64 007 a  fact off ")[0]
        self.assertEqual(vectors.step_of(line), {
            "node": "A", "deed": "put", "type": 64, "version": 7, "text": "a  fact off ",
        })
        told = "alfred B get 64 02:00:00:00:00:0a 7 a  fact off "
        fact = {"source": "02:00:00:00:00:0a", "type": 64, "version": 7, "text": "a  fact off "}
        self.assertEqual(vectors.event_of(told), {"event": "alfred", "node": "B", **fact})
        row = "a 02:00:00:00:00:0a 64 7 synced age=5 a  fact off "
        self.assertEqual(vectors.table_of(["alfred B mode=primary facts=1", row]), {
            "mode": "primary", "facts": 1, "rows": [{**fact, "mark": "synced", "age": 5}],
        })

    def test_a_refusal_of_decode_keeps_its_cause_and_numbers(self):
        for printed, bad in (
            ("bad short have=23 need=24", {"cause": "short", "have": 23, "need": 24}),
            ("bad version 14", {"cause": "version", "version": 14}),
            ("bad cut place=4", {"cause": "cut", "place": 4}),
        ):
            self.assertEqual(vectors.packets_of([printed]), {"packets": [], "bad": bad})

    def test_a_text_keeps_its_blanks(self):
        line = batmesh_run.scenario_lines("frame A  02:00:00:00:01:01 ff:ff:ff:ff:ff:ff 7\ta  b ")
        self.assertEqual(vectors.step_of(line[0])["text"], "a  b ")
