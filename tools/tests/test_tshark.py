"""tshark and `decode` read the same of the packets of an example and of the frames of runs."""

import json

import batmesh_run
import capture
from common import (
    DATA, EXAMPLES, PROGRAM, Folder, load_tool, needs_command, needs_dpkt, needs_program, run_tool,
    running,
)
from tshark_lines import as_told_by_both, can_be_read, read_packets

to_pcap = load_tool("to_pcap")

TO_ALL = bytes.fromhex("ffffffffffff02000000000a4305")


@needs_command("tshark", "tshark")
@needs_dpkt
class Tshark(Folder):
    def read(self, packets):
        """What tshark reads of packets behind an Ethernet header."""
        path = self.folder / "capture"
        with path.open("wb") as out:
            capture.write_pcap(out, ((place, packet) for place, packet in enumerate(packets)))
        return list(read_packets(path))

    def test_the_packets_of_the_example_are_read_as_decode_prints_them(self):
        steps = json.loads((EXAMPLES / "vectors" / "decode.json").read_text())["steps"]
        read = self.read(TO_ALL + bytes.fromhex(step["bytes"]) for step in steps)
        compared = 0
        for step, lines in zip(steps, read, strict=True):
            if lines is not None:
                self.assertEqual(lines, as_told_by_both(step["printed"]))
                compared += 1
        self.assertGreaterEqual(compared, 15)

    @needs_program
    def test_the_frames_of_linux_are_read_as_decode_prints_them(self):
        _, out, _ = run_tool("from_pcap", DATA / "linux.pcap")
        printed = decoded(out.decode())
        read = list(read_packets(DATA / "linux.pcap"))
        self.assertEqual(len(read), len(printed))
        for lines, texts in zip(read, printed):
            self.assertEqual(lines, as_told_by_both(texts))

    @needs_program
    def test_each_frame_of_each_example_is_read_as_decode_prints_it(self):
        sent, unread, frames = 0, 0, {}
        for scenario in sorted([*EXAMPLES.glob("*.scn"), *EXAMPLES.glob("linux/*.scn")]):
            for frame, packet in sent_packets(scenario.read_text()):
                sent += 1
                frames.setdefault(packet, f"{scenario.name} {frame.head}")
        read = self.read(frames)
        printed = decoded("".join(f"decode {packet[14:].hex()}\n" for packet in frames))
        for head, lines, texts in zip(frames.values(), read, printed, strict=True):
            if can_be_read(texts):
                self.assertEqual(lines, as_told_by_both(texts), head)
            else:
                unread += 1
        different = f"{sent} frames, {len(frames)} different"
        print(f"of {different}, tshark read all but {unread} as decode does", flush=True)


def sent_packets(text):
    """The link frames of a run, each with the Ethernet frame that to_pcap makes of it."""
    nodes = batmesh_run.nodes_of(batmesh_run.scenario_lines(text))
    with running(PROGRAM):
        frames = batmesh_run.frames_of(batmesh_run.run(text, "all").printed)
    return [
        (frame, to_pcap.ethernet_frame(frame, nodes)) for frame in frames if not frame.of_lan
    ]


def decoded(text):
    """What the program prints of each decode line of a scenario."""
    lines = [line for line in batmesh_run.scenario_lines(text) if line.words]
    with running(PROGRAM):
        return batmesh_run.run_by_line(lines)[0]
