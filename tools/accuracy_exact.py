"""The packets of a capture and exact answers over them, with the header layouts of dpkt and nothing of flymon.

dpkt's own reading of a whole frame goes further than the rules of docs/FORMATS.md: it takes off labels of other kinds, reads
IPv6 extension headers, wants whole TCP headers and cuts at lengths that headers tell. So its headers are laid one behind the
other here, as those rules say.
"""
from __future__ import annotations

import functools
from typing import BinaryIO, Dict, Iterator, List, NamedTuple, Optional, Sequence, Tuple

import dpkt

from accuracy_script import FIELDS, Task

MICROSECONDS, NANOSECONDS = 0xA1B2C3D4, 0xA1B23C4D
FILE_HEADERS = {MICROSECONDS: dpkt.pcap.PktHdr, NANOSECONDS: dpkt.pcap.PktHdr,
                0xD4C3B2A1: dpkt.pcap.LEPktHdr, 0x4D3CB2A1: dpkt.pcap.LEPktHdr}
MOST_CAPTURED = 262144
TAGS = (dpkt.ethernet.ETH_TYPE_8021Q, dpkt.ethernet.ETH_TYPE_8021AD)
Value = Tuple[int, ...]


class Damage(Exception):
    """A record that is not whole: the message that it gets, and how many bytes stand before it."""

    def __init__(self, message: str, place: int) -> None:
        super().__init__(message)
        self.message, self.place = message, place


class EthernetHeader(dpkt.Packet):
    __hdr__ = dpkt.ethernet.Ethernet.__hdr__


class TagHeader(dpkt.Packet):
    __hdr__ = dpkt.ethernet.VLANtag8021Q.__hdr__


class Ipv4Header(dpkt.Packet):
    __hdr__ = dpkt.ip.IP.__hdr__
    __bit_fields__ = dpkt.ip.IP.__bit_fields__


class Ipv6Header(dpkt.Packet):
    __hdr__ = dpkt.ip6.IP6.__hdr__
    __bit_fields__ = dpkt.ip6.IP6.__bit_fields__


class TcpHeader(dpkt.Packet):
    __hdr__ = dpkt.tcp.TCP.__hdr__
    __bit_fields__ = getattr(dpkt.tcp.TCP, "__bit_fields__", {})


class Packet(NamedTuple):
    fields: Value
    length: int
    ttl: int
    flags: int


def records_of(file: BinaryIO) -> Iterator[Tuple[bytes, int]]:
    """Frames and original lengths of a capture whose header flymon has taken; ends with Damage at a record that is not whole."""
    head = file.read(dpkt.pcap.FileHdr.__hdr_len__)
    record_header = FILE_HEADERS[dpkt.pcap.FileHdr(head).magic]
    place = len(head)
    while True:
        head = file.read(record_header.__hdr_len__)
        if not head:
            return
        if len(head) < record_header.__hdr_len__:
            raise Damage(f"short record at {place}", place)
        header = record_header(head)
        if header.caplen > MOST_CAPTURED:
            raise Damage(f"big record at {place} length {header.caplen}", place)
        frame = file.read(header.caplen)
        if len(frame) < header.caplen:
            raise Damage(f"short record at {place}", place)
        place += len(head) + len(frame)
        yield frame, header.len


def number_of(octets: bytes) -> int:
    return int.from_bytes(octets, "big")


def transport_of(proto: int, rest: bytes) -> Tuple[int, int, int]:
    """Ports and flags, where so much of the header is there."""
    if proto not in (dpkt.ip.IP_PROTO_TCP, dpkt.ip.IP_PROTO_UDP) or len(rest) < 4:
        return 0, 0, 0
    header = TcpHeader(rest[:20].ljust(20, b"\0"))
    has_flags = proto == dpkt.ip.IP_PROTO_TCP and len(rest) >= 14
    return header.sport, header.dport, header.flags & 0xFF if has_flags else 0


@functools.lru_cache(maxsize=4096)
def parts_of(frame: bytes) -> Tuple[Value, int, int]:
    """Fields in the order of FIELDS, TTL and flags of a frame; what is not there is 0."""
    if len(frame) < 14:
        return (0,) * len(FIELDS), 0, 0
    layer = EthernetHeader(frame)
    kind, rest = layer.type, layer.data
    for _ in range(2):
        if kind not in TAGS or len(rest) < 4:
            break
        layer = TagHeader(rest)
        kind, rest = layer.type, layer.data
    if kind == dpkt.ethernet.ETH_TYPE_IP and len(rest) >= 20:
        four = Ipv4Header(rest[:20])
        end = four.hl * 4
        if four.v == 4 and 20 <= end <= len(rest):
            behind = rest[end:] if four.offset == 0 else b""
            source, destination, flags = transport_of(four.p, behind)
            addresses = number_of(four.src), number_of(four.dst)
            return (*addresses, source, destination, four.p, four.tos, kind, 0, 0), four.ttl, flags
    if kind == dpkt.ethernet.ETH_TYPE_IP6 and len(rest) >= 40:
        six = Ipv6Header(rest[:40])
        if six.v == 6:
            source, destination, flags = transport_of(six.nxt, rest[40:])
            addresses = number_of(six.src), number_of(six.dst)
            return (0, 0, source, destination, six.nxt, six.fc, kind, *addresses), six.hlim, flags
    return (0, 0, 0, 0, 0, 0, kind, 0, 0), 0, 0


def packets_of(file: BinaryIO) -> Iterator[Packet]:
    for frame, length in records_of(file):
        fields, ttl, flags = parts_of(frame)
        yield Packet(fields, length, ttl, flags)


def weight_of(attribute: str, packet: Packet) -> int:
    if attribute == "packets":
        return 1
    if attribute == "bytes":
        return packet.length
    if attribute == "ttl":
        return packet.ttl
    return packet.flags if attribute == "flags" else 0


def joined(kind: str, before: Optional[int], weight: int) -> int:
    """The exact answer for a flow after one more packet."""
    if before is None:
        return weight
    if kind == "sumax_max":
        return max(before, weight)
    if kind == "flag_or":
        return before | weight
    if kind == "flag_and":
        return before & weight
    return before + weight


class Counted:
    """Exact answers of one task by flow, over the packets from its start to an end."""

    def __init__(self, task: Task, end: int) -> None:
        self.task, self.end = task, end
        self.flows: Dict[Value, int] = {}
        self.outside: Dict[Value, None] = {}
        self.seen: Dict[Value, Tuple[Value, bool]] = {}  # of fields the key value, and whether the filter matches
        self.packets = 0

    def take(self, packet: Packet, place: int) -> None:
        """The packet that has so many before it in the capture."""
        seen = self.seen.get(packet.fields)
        if seen is None:
            seen = self.task.value_of(packet.fields), self.task.matches(packet.fields)
            self.seen[packet.fields] = seen
        value, matches = seen
        if matches and self.task.start <= place < self.end:
            self.packets += 1
            weight = weight_of(self.task.attribute, packet)
            self.flows[value] = joined(self.task.kind, self.flows.get(value), weight)
        elif self.task.kind == "bloom":
            self.outside[value] = None

    def missing(self) -> Sequence[Value]:
        """Key values of packets outside the window or the filter, of which none is a flow of the task."""
        return [value for value in self.outside if value not in self.flows]


def count(capture: str, windows: Sequence[Tuple[Task, int]]) -> Tuple[List[Counted], int]:
    """Exact answers of tasks, each up to so many packets, in one pass over the capture, and how many packets it has."""
    counts = [Counted(task, end) for task, end in windows]
    packets = 0
    try:
        with open(capture, "rb") as file:
            for packet in packets_of(file):
                for counted in counts:
                    counted.take(packet, packets)
                packets += 1
    except Damage:
        pass  # the script asks for no packet there, or flymon had told of it
    return counts, packets


def damage_of(capture: str) -> Tuple[int, Optional[Damage]]:
    """How many whole records there are, and the damage behind them."""
    whole = 0
    try:
        with open(capture, "rb") as file:
            for _ in records_of(file):
                whole += 1
    except Damage as damage:
        return whole, damage
    return whole, None
