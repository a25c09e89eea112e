"""Captures, as Wireshark and tcpdump write them: pcap and pcapng, read and written over dpkt.

The layouts of headers and blocks are dpkt's. Its readers aren't used, since they leave out how long
a packet was on the wire and know one interface alone. Nothing here is proved.
"""

import os
import struct
import subprocess
import sys
from dataclasses import dataclass
from decimal import Decimal
from fractions import Fraction

from batmesh_run import Trouble

try:
    import dpkt
except ImportError:
    dpkt = None

DEBIANS_PYTHON = "/usr/bin/python3"
ETHERNET, COOKED, COOKED_2 = 1, 113, 276  # link types
MESH_TYPE = 0x4305
VLAN_TYPES = (0x8100, 0x88A8, 0x9100)
SNAP_LENGTH = 262144
SECTION, INTERFACE, OLD_PACKET, SIMPLE_PACKET, PACKET = 0x0A0D0D0A, 1, 2, 3, 6  # pcapng blocks


def need_dpkt():
    """Goes on in Debian's python3 where that alone has dpkt; else says how dpkt is come by."""
    if dpkt is not None:
        return
    if sys.executable != DEBIANS_PYTHON and has_dpkt(DEBIANS_PYTHON):
        os.execv(DEBIANS_PYTHON, [DEBIANS_PYTHON, *sys.argv])
    raise Trouble(
        "dpkt isn't installed for this python3: `apt-get install python3-dpkt` has it for "
        f"{DEBIANS_PYTHON}, `pip install dpkt` for another"
    )


def has_dpkt(python):
    """Whether another python3 has dpkt."""
    try:
        done = subprocess.run([python, "-c", "import dpkt"], stderr=subprocess.DEVNULL, check=False)
    except OSError:
        return False
    return done.returncode == 0


@dataclass(frozen=True)
class Packet:
    """A packet of a capture. Its moment is in milliseconds, None where the capture tells none."""

    number: int
    moment: Fraction
    link_type: int
    data: bytes
    wire_length: int
    comment: str = ""


@dataclass(frozen=True)
class Payload:
    """What a packet holds behind its link header. An address is None where the header has none."""

    source: str
    destination: str
    vlans: tuple
    type: int
    data: bytes


def address_text(data):
    return data.hex(":")


def payload_of(packet):
    """The payload of a packet, or None where its link header isn't whole or known."""
    data = packet.data
    if packet.link_type == ETHERNET and len(data) >= 14:
        return _behind_tags(address_text(data[6:12]), address_text(data[:6]), data[12:])
    if packet.link_type == COOKED and len(data) >= 16:
        return _behind_tags(address_text(data[6:12]), None, data[14:])
    if packet.link_type == COOKED_2 and len(data) >= 20:
        return _behind_tags(address_text(data[12:18]), None, data[:2] + data[20:])
    return None


def _behind_tags(source, destination, data):
    """The payload behind an ethertype and the VLAN tags that it begins."""
    vlans = ()
    while len(data) >= 6 and int.from_bytes(data[:2], "big") in VLAN_TYPES:
        vlans += (int.from_bytes(data[2:4], "big") & 0xFFF,)
        data = data[4:]
    return Payload(source, destination, vlans, int.from_bytes(data[:2], "big"), data[2:])


# Reading


def packets_of(data):
    """The packets of a capture, in its order."""
    need_dpkt()
    if len(data) < 4:
        raise Trouble("this is no capture: it has fewer than four bytes")
    if int.from_bytes(data[:4], "big") == SECTION:
        return _pcapng_packets(data)
    return _pcap_packets(data)


def _pcap_packets(data):
    magic = int.from_bytes(data[:4], "big")
    kind = dpkt.pcap.MAGIC_TO_PKT_HDR.get(magic)
    if kind is None:
        raise Trouble("this is no capture: it begins neither as pcap nor as pcapng")
    little = kind.__hdr_fmt__[0] == "<"
    file_kind = dpkt.pcap.LEFileHdr if little else dpkt.pcap.FileHdr
    header = _unpacked(file_kind, data, 0, "the file's head")
    nano = magic in (dpkt.pcap.TCPDUMP_MAGIC_NANO, dpkt.pcap.PMUDPCT_MAGIC_NANO)
    parts = 10**9 if nano else 10**6
    place, number = dpkt.pcap.FileHdr.__hdr_len__, 0
    while place < len(data):
        number += 1
        head = _unpacked(kind, data, place, f"packet {number}")
        begin = place + kind.__hdr_len__
        place = begin + head.caplen
        if place > len(data):
            raise Trouble(f"packet {number} ends behind the end of the file")
        moment = 1000 * (head.tv_sec + Fraction(head.tv_usec, parts))
        yield Packet(number, moment, header.linktype & 0xFFFF, data[begin:place], head.len)


def _unpacked(kind, data, place, what):
    """The header of a kind that begins at a place of the file."""
    end = place + kind.__hdr_len__
    if end > len(data):
        raise Trouble(f"{what} ends behind the end of the file")
    return kind(data[place:end])


@dataclass(frozen=True)
class Interface:
    """An interface of a pcapng capture: a moment is offset + stamp / parts, in seconds."""

    link_type: int
    snap_length: int
    parts: int
    offset: int

    def moment(self, high, low):
        return 1000 * (self.offset + Fraction((high << 32) + low, self.parts))


def _pcapng_packets(data):
    order, interfaces, number = "<", [], 0
    for kind, block in _blocks(data):
        if kind == SECTION:
            order, interfaces = _order_of_section(block), []
        elif kind == INTERFACE:
            interfaces.append(_interface(order, block))
        elif kind in (PACKET, OLD_PACKET, SIMPLE_PACKET):
            number += 1
            yield _packet(number, kind, order, block, interfaces)


def _order_of_section(block):
    return "<" if block[8:12] == b"\x4d\x3c\x2b\x1a" else ">"


def _blocks(data):
    """The blocks of a pcapng file, each with its type."""
    order, place = "<", 0
    while place < len(data):
        if len(data) - place < 12:
            raise Trouble(f"the block at byte {place} ends behind the end of the file")
        if int.from_bytes(data[place : place + 4], "big") == SECTION:
            order = _order_of_section(data[place : place + 12])
        kind, length = struct.unpack_from(order + "II", data, place)
        if length < 12 or length % 4 or place + length > len(data):
            raise Trouble(f"the block at byte {place} tells a length of {length}, which can't be")
        yield kind, data[place : place + length]
        place += length


def _interface(order, block):
    head = dpkt.pcapng.InterfaceDescriptionBlock()
    if order == "<":
        head = dpkt.pcapng.InterfaceDescriptionBlockLE()
    head.unpack_hdr(block)
    parts, offset = 10**6, 0
    for code, value in _options(order, block[16:-4]):
        if code == dpkt.pcapng.PCAPNG_OPT_IF_TSRESOL and value:
            parts = (2 if value[0] & 0x80 else 10) ** (value[0] & 0x7F)
        elif code == dpkt.pcapng.PCAPNG_OPT_IF_TSOFFSET and len(value) == 8:
            offset = struct.unpack(order + "q", value)[0]
    return Interface(head.linktype, head.snaplen, parts, offset)


def _options(order, data):
    """The options of a block, as code and value."""
    while len(data) >= 4:
        code, length = struct.unpack_from(order + "HH", data)
        if code == dpkt.pcapng.PCAPNG_OPT_ENDOFOPT:
            return
        yield code, data[4 : 4 + length]
        data = data[4 + length + -length % 4 :]


def _packet(number, kind, order, block, interfaces):
    """The packet of a block of one of the three kinds that hold one."""
    if kind == SIMPLE_PACKET:
        interface = _interface_at(number, interfaces, 0)
        length = struct.unpack_from(order + "I", block, 8)[0]
        held = min(length, interface.snap_length or length, len(block) - 16)
        return Packet(number, None, interface.link_type, block[12 : 12 + held], length)
    head = _packet_head(kind, order)
    if len(block) < head.__hdr_len__:
        raise Trouble(f"packet {number} has a block that is too short")
    head.unpack_hdr(block)
    interface = _interface_at(number, interfaces, head.iface_id)
    begin = head.__hdr_len__ - 4
    end = begin + head.caplen
    if end > len(block) - 4:
        raise Trouble(f"packet {number} ends behind the end of its block")
    options = dict(_options(order, block[end + -head.caplen % 4 : -4]))
    comment = options.get(dpkt.pcapng.PCAPNG_OPT_COMMENT, b"").decode(errors="replace")
    moment = interface.moment(head.ts_high, head.ts_low)
    return Packet(number, moment, interface.link_type, block[begin:end], head.pkt_len, comment)


def _packet_head(kind, order):
    if kind == PACKET:
        chosen = (dpkt.pcapng.EnhancedPacketBlock, dpkt.pcapng.EnhancedPacketBlockLE)
    else:
        chosen = (dpkt.pcapng.PacketBlock, dpkt.pcapng.PacketBlockLE)
    return chosen[order == "<"]()


def _interface_at(number, interfaces, place):
    if place >= len(interfaces):
        raise Trouble(f"packet {number} names interface {place}, which no block describes")
    return interfaces[place]


# Writing


def write_pcap(out, packets):
    """Writes Ethernet packets, each as its moment in milliseconds and its bytes."""
    need_dpkt()
    writer = dpkt.pcap.Writer(out, snaplen=SNAP_LENGTH, linktype=dpkt.pcap.DLT_EN10MB)
    for moment, data in packets:
        writer.writepkt_time(data, Decimal(moment) / 1000)


def write_pcapng(out, interfaces, packets):
    """Writes Ethernet packets, each as interface, moment in milliseconds, bytes and comment."""
    need_dpkt()
    out.write(bytes(dpkt.pcapng.SectionHeaderBlockLE()))
    for name in interfaces:
        block = dpkt.pcapng.InterfaceDescriptionBlockLE(snaplen=SNAP_LENGTH)
        block.opts = _ended([_option(dpkt.pcapng.PCAPNG_OPT_IF_NAME, name)])
        out.write(bytes(block))
    for interface, moment, data, comment in packets:
        stamp = 1000 * moment
        block = dpkt.pcapng.EnhancedPacketBlockLE(
            iface_id=interface, ts_high=stamp >> 32, ts_low=stamp & 0xFFFFFFFF, pkt_data=data
        )
        block.opts = _ended([_option(dpkt.pcapng.PCAPNG_OPT_COMMENT, comment)])
        out.write(bytes(block))


def _option(code, text):
    return dpkt.pcapng.PcapngOptionLE(code=code, data=text.encode())


def _ended(options):
    return options + [dpkt.pcapng.PcapngOptionLE()]
