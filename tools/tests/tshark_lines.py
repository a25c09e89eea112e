"""What tshark reads of mesh packets, in the lines in which the program's `decode` prints it."""

import re
import subprocess
import xml.etree.ElementTree as ElementTree

# For each packet type: the word of its line, tshark's prefix, and the fields by the line's names.
# tshark tells no length of what follows a packet's head, so `data=` isn't among them. An OGM of
# algorithm V isn't there: tshark 4.0 stops at its flags, by a bug that it tells of itself.
KINDS = {
    0x00: ("iv_ogm", "iv_ogm", {
        "ttl": "ttl", "flags": "flags", "seq": "seq", "orig": "orig", "prev": "prev_sender",
        "tq": "tq", "tvlv": "tvlv_len",
    }),
    0x01: ("bcast", "bcast", {"ttl": "ttl", "seq": "seq", "orig": "orig"}),
    0x03: ("elp", "elp", {"orig": "orig", "seq": "seq", "interval": "interval"}),
    0x40: ("unicast", "unicast", {"ttl": "ttl", "ttvn": "ttvn", "dst": "dst"}),
    0x41: ("frag", "unicast_frag", {
        "ttl": "ttl", "no": "no", "prio": "priority", "dst": "dst", "orig": "orig", "seq": "seq",
        "total": "total_size",
    }),
    0x42: ("unicast4", "unicast_4addr", {
        "ttl": "ttl", "ttvn": "ttvn", "dst": "dst", "src": "src", "sub": "subtype",
    }),
    0x43: ("icmp", "icmp", {
        "ttl": "ttl", "msg": "msg_type", "dst": "dst", "orig": "orig", "uid": "uid", "seq": "seq",
    }),
    0x44: ("utvlv", "unicast_tvlv", {"ttl": "ttl", "dst": "dst", "src": "src", "tvlv": "len"}),
}
TT = "batadv.tvlv.tt."


def read_packets(capture):
    """The lines of each packet of a capture; None of one that tshark can't read to its end."""
    command = ["tshark", "-r", str(capture), "-T", "pdml"]
    with subprocess.Popen(command, stdout=subprocess.PIPE, stderr=subprocess.DEVNULL) as tshark:
        for _, packet in ElementTree.iterparse(tshark.stdout):
            if packet.tag == "packet":
                yield _packet_lines(packet)
                packet.clear()


def can_be_read(lines):
    """Whether tshark can read the packets that `decode` prints so."""
    return not any(line.startswith("packet ogm2 ") for line in lines)


def as_told_by_both(lines):
    """Lines of `decode` without what tshark doesn't tell."""
    kept = [line for line in lines if line.split()[0] not in ("rest", "bad")]
    return [re.sub(r" data=\d+", "", line) for line in kept]


def _packet_lines(packet):
    protocols = packet.findall("proto")
    read = [protocol for protocol in protocols if protocol.get("name") == "batadv"]
    if not read or any(protocol.get("name") == "_ws.malformed" for protocol in protocols):
        return None
    lines = []
    for protocol in read:
        kind = int(_shown(protocol, "batadv.batman.packet_type"), 0)
        if kind not in KINDS:
            return None
        lines += _head_and_containers(protocol, *KINDS[kind])
    return lines


def _head_and_containers(protocol, word, prefix, names):
    fields = []
    for name, field in names.items():
        shown = _shown(protocol, f"batadv.{prefix}.{field}")
        fields.append(f"{name}={_flags(shown) if name == 'flags' else shown}")
    yield f"packet {word} {' '.join(fields)}"
    for container in protocol.findall("proto"):
        yield from _container(container)


def _container(container):
    kind = int(_shown(container, "batadv.tvlv.length"), 0)
    version = int(_shown(container, "batadv.tvlv.version"), 0)
    line = f"tvlv {kind} version={version} len={_shown(container, 'batadv.tvlv.len')}"
    match kind, version:
        case 1, 1:
            down, up = (_shown(container, f"batadv.tvlv.gw.{name}_speed") for name in ("dl", "ul"))
            yield f"{line} down={down} up={up}"
        case 4, 1:
            yield from _table(container, line)
        case 5, 1:
            client = _shown(container, "batadv.batman.addr")
            vid = _vid(_shown(container, "batadv.tvlv.roam.vid"))
            yield f"{line} mac={client} vid={vid}"
        case 6, 2:
            yield f"{line} flags={_flags(_shown(container, 'batadv.tvlv.mcast.flags'))}"
        case _:
            yield line


def _table(container, line):
    """The lines of a translation table: its own, then those of its VLANs and of its records."""
    rows = container.findall("proto")
    vlans = [row for row in rows if _shown(row, TT + "vlan.vid") is not None]
    changes = [row for row in rows if _shown(row, TT + "change.vid") is not None]
    flags, byte = _flags(_shown(container, TT + "flags")), _shown(container, TT + "ttvn")
    count = _shown(container, TT + "num_vlan")
    yield f"{line} flags={flags} ttvn={byte} vlans={count} changes={len(changes)}"
    for row in vlans:
        total = int(_shown(row, TT + "vlan.crc"), 0)
        yield f"vlan {_vid(_shown(row, TT + 'vlan.vid'))} sum={total:08x}"
    for row in changes:
        flags, client = _flags(_shown(row, TT + "change.flags")), _shown(row, TT + "change.addr")
        yield f"change {flags} {client} {_vid(_shown(row, TT + 'change.vid'))}"


def _shown(protocol, name):
    field = protocol.find(f"field[@name='{name}']")
    return None if field is None else field.get("show")


def _flags(shown):
    return f"{int(shown, 0):02x}"


def _vid(shown):
    wire = int(shown, 0)
    if wire == 0:
        return "-"
    return str(wire & 0x7FFF) if wire & 0x8000 else f"raw:{wire}"
