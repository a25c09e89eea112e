"""Frames that Linux sent, as `decode` prints them."""

import unittest

from common import needs_program
from scenarios import A, B, finished, node_mac, run_lines

C = node_mac(12)

# Frames that batman-adv 2022.3 of Linux 6.1 sent between network namespaces, from the byte after
# Ethernet on, each with the fields that tshark 4.0.17 and batctl 2023.0 tell of it.
OF_LINUX = {
    "an ELP with four more bytes, of a chain of nodes that ran algorithm V": (
        "030f02000000000a2d11bb4f000001f400000000",
        [
            f"packet elp orig={A} seq=756136783 interval=500",
            "rest 4",
        ],
    ),
    "an OGM that announces a VLAN of wire number 0x8000, of nodes that ran alfred": (
        "000f300000bf46f002000000000c02000000000b00040060040100500101000280e6d60c800000006c7cbcd600"
        "0000000000000033330000000100000000000002000000fe0c00000000000002000000fe0c8000000000003333"
        "ff00fe0c00000000000001005e0000010000060200041800000002010000",
        [
            f"packet iv_ogm ttl=48 flags=00 seq=12535536 orig={C} prev={B} tq=4 tvlv=96",
            "tvlv 4 version=1 len=80 flags=01 ttvn=1 vlans=2 changes=5",
            "vlan 0 sum=80e6d60c",
            "vlan - sum=6c7cbcd6",
            "change 00 33:33:00:00:00:01 -",
            "change 00 02:00:00:00:fe:0c -",
            "change 00 02:00:00:00:fe:0c 0",
            "change 00 33:33:ff:00:fe:0c -",
            "change 00 01:00:5e:00:00:01 -",
            "tvlv 6 version=2 len=4 flags=18",
            "tvlv 2 version=1 len=0",
        ],
    ),
    "two OGMs in one frame, of nodes that ran alfred": (
        "000f3200d63d702d02000000000a02000000000a00ff00240401001401010002a64731e4800000006c7cbcd600"
        "000000060200041800000002010000"
        "000f300000bf46f602000000000c02000000000b001c0024040100140101000280e6d60c800000006c7cbcd600"
        "000000060200041800000002010000",
        [
            f"packet iv_ogm ttl=50 flags=00 seq=3594350637 orig={A} prev={A} tq=255 tvlv=36",
            "tvlv 4 version=1 len=20 flags=01 ttvn=1 vlans=2 changes=0",
            "vlan 0 sum=a64731e4",
            "vlan - sum=6c7cbcd6",
            "tvlv 6 version=2 len=4 flags=18",
            "tvlv 2 version=1 len=0",
            f"packet iv_ogm ttl=48 flags=00 seq=12535542 orig={C} prev={B} tq=28 tvlv=36",
            "tvlv 4 version=1 len=20 flags=01 ttvn=1 vlans=2 changes=0",
            "vlan 0 sum=80e6d60c",
            "vlan - sum=6c7cbcd6",
            "tvlv 6 version=2 len=4 flags=18",
            "tvlv 2 version=1 len=0",
        ],
    ),
    "a full table in a unicast TVLV packet, of nodes with bridge loop avoidance": (
        "440f320002000000000a02000000000b005000000401004c14020003542cb2e7800000001d10cfc080010000a1"
        "ce5d89000000000000000002000000fe0b00000000000002000000fe0b80000000000002000000fe0b80010000"
        "00000200000007010000",
        [
            f"packet utvlv ttl=50 dst={A} src={B} tvlv=80",
            "tvlv 4 version=1 len=76 flags=14 ttvn=2 vlans=3 changes=4",
            "vlan 0 sum=542cb2e7",
            "vlan 1 sum=1d10cfc0",
            "vlan - sum=a1ce5d89",
            "change 00 02:00:00:00:fe:0b -",
            "change 00 02:00:00:00:fe:0b 0",
            "change 00 02:00:00:00:fe:0b 1",
            "change 00 02:00:00:00:07:01 -",
        ],
    ),
    "a request for a table, of nodes with bridge loop avoidance": (
        "440f320002000000000a02000000000b002000000401001c12010003a64731e480000000ef7b4cc38001000000"
        "2f340f00000000",
        [
            f"packet utvlv ttl=50 dst={A} src={B} tvlv=32",
            "tvlv 4 version=1 len=28 flags=12 ttvn=1 vlans=3 changes=0",
            "vlan 0 sum=a64731e4",
            "vlan 1 sum=ef7b4cc3",
            "vlan - sum=002f340f",
        ],
    ),
}


class OfLinux(unittest.TestCase):
    @needs_program
    def test_frames_of_linux_are_decoded(self):
        for frame, (digits, printed) in OF_LINUX.items():
            with self.subTest(frame):
                self.assertEqual(run_lines([f"decode {digits}"]), finished(printed))
