"""Captures out and in, over frames that are written down in the examples' rows."""

import struct
import subprocess
import sys
import unittest
from decimal import Decimal
from unittest import mock

import capture
from batmesh_run import Trouble
from common import DATA, EXAMPLES, Folder, needs_dpkt, run_tool

ROWS = EXAMPLES / "vectors" / "rows"
# A link probe with the number 1 and the interval 500 ms, and Ethernet headers from A to all.
PROBE = bytes.fromhex("030f02000000000a00000001000001f4")
TO_ALL = bytes.fromhex("ffffffffffff02000000000a")
MESH = bytes.fromhex("4305")
IP = bytes.fromhex("0800")


def decoded(printed):
    """The comments and the bytes of a scenario that from_pcap made."""
    lines = printed.decode().splitlines()
    return list(zip(lines[::2], (line.removeprefix("decode ") for line in lines[1::2])))


def pcap(order, packets, nano=False, link_type=1):
    """A pcap file, written down by hand; each packet is seconds, parts, bytes and wire length."""
    data = struct.pack(order + "IHHIIII", 0xA1B23C4D if nano else 0xA1B2C3D4, 2, 4, 0, 0, 65535,
                       link_type)
    for seconds, parts, packet, length in packets:
        data += struct.pack(order + "IIII", seconds, parts, len(packet), length) + packet
    return data


def block(order, kind, body):
    length = 12 + len(body)
    return struct.pack(order + "II", kind, length) + body + struct.pack(order + "I", length)


def pcapng(order, resolution, offset, stamp, packet):
    """A pcapng file with an idle interface, and one whose stamps are 10 to the -resolution s."""
    section = struct.pack(order + "IHHq", 0x1A2B3C4D, 1, 0, -1)
    idle = struct.pack(order + "HHI", 1, 0, 0)
    options = struct.pack(order + "HHBxxxHHqHH", 9, 1, resolution, 14, 8, offset, 0, 0)
    stamps = stamp >> 32, stamp & 0xFFFFFFFF
    head = struct.pack(order + "IIIII", 1, *stamps, len(packet), len(packet))
    return (
        block(order, 0x0A0D0D0A, section)
        + block(order, 1, idle)
        + block(order, 1, idle + options)
        + block(order, 6, head + packet + bytes(-len(packet) % 4))
    )


@needs_dpkt
class Out(Folder):
    def capture(self, name, *words):
        status, out, said = run_tool("to_pcap", ROWS / f"{name}.scn", ROWS / f"{name}.out", *words)
        self.assertEqual((status, said), (0, ""))
        return out

    def test_a_message_is_for_all_stations_at_its_moment_in_milliseconds(self):
        out = self.capture("first_messages")
        message = bytes.fromhex(
            "000f32000000000102000000000a02000000000a00ff000c020100000401000401000000"
        )
        self.assertEqual(out[:4], b"\xd4\xc3\xb2\xa1")
        seconds, parts, held, length = struct.unpack("<IIII", out[24:40])
        self.assertEqual((seconds, parts, held, length), (1, 0, 50, 50))
        self.assertEqual(out[40:90], TO_ALL + MESH + message)

    def test_a_unicast_packet_is_for_the_neighbour(self):
        out = self.capture("roamed_client")
        seconds, parts = struct.unpack("<II", out[24:32])
        self.assertEqual((seconds, parts), (5, 500000))
        self.assertEqual(out[40:54].hex(), "02000000000b02000000000a4305")

    def test_a_round_trip_keeps_bytes_and_moments(self):
        rows = (ROWS / "roamed_client.out").read_text().splitlines()
        sent = [row.split() for row in rows if row.startswith("f")]
        self.assertEqual(len(sent), 2)
        for words in ([], ["--ng"]):
            capture = self.write("capture", self.capture("roamed_client", *words))
            status, out, _ = run_tool("from_pcap", capture)
            self.assertEqual(status, 0)
            for frame, (comment, data) in zip(sent, decoded(out), strict=True):
                self.assertEqual(data, frame[-1])
                self.assertEqual(comment.split()[2], frame[1])
                self.assertIn("02:00:00:00:00:0a > 02:00:00:00:00:0b", comment)
                self.assertEqual(" ".join(frame[:-1]) in comment, bool(words))

    def test_a_frame_at_the_beginning_keeps_its_moment(self):
        scenario = self.write("s", "node A 02:00:00:00:00:0a\nnode B 02:00:00:00:00:0b\nlink A B\n")
        frames = self.write("f", f"f1 0 A>B elp {PROBE.hex()}\n")
        for words in ([], ["--ng"]):
            _, out, _ = run_tool("to_pcap", scenario, frames, *words)
            _, out, _ = run_tool("from_pcap", self.write("capture", out))
            self.assertEqual(decoded(out)[0][0].split()[2], "0")

    def test_a_lan_frame_stands_as_it_is(self):
        scenario = self.write("s", "node A 02:00:00:00:00:0a\n")
        frame = bytes.fromhex("ffffffffffff02000000010188b56869")
        frames = self.write("f", f"l1 7 L client {frame.hex()}\n")
        _, out, _ = run_tool("to_pcap", scenario, frames)
        self.assertEqual(out[40:], frame)

    def test_what_cant_be_is_told(self):
        nobody = self.write("nobody", "node A 02:00:00:00:00:0a\n")
        frames = self.write("f", "f1 1000 A>B elp 030f\n")
        status, _, said = run_tool("to_pcap", nobody, frames)
        self.assertEqual(status, 2)
        self.assertIn("frame 1 names B", said)
        status, _, said = run_tool("to_pcap", nobody, nobody)
        self.assertEqual(status, 2)
        self.assertIn("tells of a frame", said)


@needs_dpkt
class In(Folder):
    def lines(self, data):
        status, out, said = run_tool("from_pcap", self.write("capture", data))
        self.assertEqual((status, said), (0, ""))
        return out.decode().splitlines()

    def test_both_byte_orders_and_both_parts_of_a_second_are_read(self):
        packet = TO_ALL + MESH + PROBE
        for order in "<>":
            for nano, parts, moment in ((False, 250, "7000.25"), (True, 250, "7000.00025")):
                data = pcap(order, [(7, parts, packet, len(packet))], nano)
                self.assertEqual(self.lines(data), [
                    f"# 1 {moment} 02:00:00:00:00:0a > ff:ff:ff:ff:ff:ff", "decode " + PROBE.hex()
                ])

    def test_each_interface_of_pcapng_has_its_own_parts_of_a_second(self):
        packet = TO_ALL + MESH + PROBE
        for order in "<>":
            for resolution, moment in ((3, "12345"), (6, "10002.345"), (9, "10000.002345")):
                data = pcapng(order, resolution, 10, 2345, packet)
                self.assertEqual(self.lines(data)[0].split()[2], moment)

    def test_moments_of_real_captures_lose_nothing(self):
        packet = TO_ALL + MESH + PROBE
        data = pcapng("<", 9, 0, 1795742100176677123, packet)
        self.assertEqual(self.lines(data)[0].split()[2], "1795742100176.677123")

    def test_vlan_tags_and_cooked_headers_are_taken_off(self):
        tagged = TO_ALL + bytes.fromhex("88a800058100e007") + MESH + PROBE
        cooked = bytes.fromhex("0001 0001 0006 02000000000a 0000") + MESH + PROBE
        newer = MESH + bytes.fromhex("0000 00000003 0001 00 06 02000000000a 0000") + PROBE
        for link_type, packet, words in (
            (1, tagged, "02:00:00:00:00:0a > ff:ff:ff:ff:ff:ff vlan 5 vlan 7"),
            (113, cooked, "02:00:00:00:00:0a > -"),
            (276, newer, "02:00:00:00:00:0a > -"),
        ):
            data = pcap("<", [(1, 0, packet, len(packet))], link_type=link_type)
            self.assertEqual(self.lines(data), [f"# 1 1000 {words}", "decode " + PROBE.hex()])

    def test_what_is_cut_or_too_long_or_empty_is_a_comment(self):
        long = TO_ALL + MESH + bytes(2045)
        packets = [(1, 0, TO_ALL + MESH + PROBE, 99), (2, 0, long, len(long)),
                   (3, 0, TO_ALL + MESH, 14), (4, 0, TO_ALL + IP + PROBE, 30)]
        lines = self.lines(pcap("<", packets))
        self.assertEqual([line.split(", ")[-1] for line in lines], [
            "cut: 30 of 99 bytes were kept", "too long for a line: 2045 bytes", "empty",
            "# 1 packets of other types were passed over",
        ])
        fits = TO_ALL + MESH + bytes(2044)
        self.assertEqual(len(self.lines(pcap("<", [(1, 0, fits, len(fits))]))[1]), 4095)

    def test_frames_of_linux_come_out_as_they_lie_in_the_file(self):
        data = (DATA / "linux.pcap").read_bytes()
        lines = self.lines(data)
        place, number = 24, 0
        while place < len(data):
            seconds, parts, held, _ = struct.unpack_from("<IIII", data, place)
            packet = data[place + 16 : place + 16 + held]
            comment, line = lines[2 * number : 2 * number + 2]
            self.assertEqual(line, "decode " + packet[14:].hex())
            self.assertEqual(Decimal(comment.split()[2]), 1000 * seconds + Decimal(parts) / 1000)
            place, number = place + 16 + held, number + 1
        self.assertEqual(len(lines), 2 * number)

    def test_what_is_no_capture_is_told(self):
        packet = TO_ALL + MESH + PROBE
        whole = pcap("<", [(1, 0, packet, len(packet))])
        for data, told in (
            (b"", "fewer than four bytes"),
            (b"node A 02:00", "neither as pcap nor as pcapng"),
            (whole[:-1], "packet 1 ends behind the end"),
            (whole + b"\0", "packet 2 ends behind the end"),
            (pcapng("<", 6, 0, 0, packet)[:-1], "which can't be"),
        ):
            status, _, said = run_tool("from_pcap", self.write("capture", data))
            self.assertEqual(status, 2)
            self.assertIn(told, said)
        status, _, said = run_tool("from_pcap", self.folder / "none")
        self.assertEqual(status, 2)
        self.assertIn("can't read", said)


class WithoutDpkt(unittest.TestCase):
    """What is done where this python3 has no dpkt."""

    def setUp(self):
        for name, value in (("dpkt", None), ("DEBIANS_PYTHON", "/debians/python3")):
            patch = mock.patch.object(capture, name, value)
            patch.start()
            self.addCleanup(patch.stop)

    def need(self, has_it):
        with (
            mock.patch.object(capture, "has_dpkt", return_value=has_it),
            mock.patch.object(sys, "argv", ["tools/from_pcap", "x.pcap"]),
            mock.patch("os.execv", side_effect=SystemExit) as go_on,
        ):
            try:
                capture.need_dpkt()
            finally:
                self.gone_on = go_on.call_args

    def test_the_tool_goes_on_in_debians_python(self):
        with self.assertRaises(SystemExit):
            self.need(has_it=True)
        words = ["/debians/python3", "tools/from_pcap", "x.pcap"]
        self.assertEqual(self.gone_on.args, (words[0], words))

    def test_where_none_has_it_the_package_is_named(self):
        with self.assertRaises(Trouble) as caught:
            self.need(has_it=False)
        self.assertIn("apt-get install python3-dpkt", str(caught.exception))
        self.assertIsNone(self.gone_on)

    def test_what_isnt_there_or_fails_has_no_dpkt(self):
        self.assertFalse(capture.has_dpkt("/no/python3"))
        with mock.patch("subprocess.run", return_value=subprocess.CompletedProcess([], 1)):
            self.assertFalse(capture.has_dpkt("python3"))
