"""Lists the ancillary data fields of a capture: list_capture.py PORT CAPTURE.pcap

An example over jibhotran.py. It takes classic pcap with Ethernet, with VLAN tags or without, IPv4 and UDP and nothing else; `pcapframes` takes more.
"""

import struct
import sys

import jibhotran as j


def payloads(capture: bytes, port: int):
    """The UDP payloads to the port."""
    order = {b"\xd4\xc3\xb2\xa1": "<", b"\xa1\xb2\xc3\xd4": ">"}.get(capture[:4])
    if order is None:
        sys.exit("not a classic pcap file")
    at = 24
    while at + 16 <= len(capture):
        size = struct.unpack(order + "I", capture[at + 8 : at + 12])[0]
        packet, at = capture[at + 16 : at + 16 + size], at + 16 + size
        ip = 14
        while packet[ip - 2 : ip] == b"\x81\x00":
            ip += 4
        if packet[ip - 2 : ip] != b"\x08\x00" or len(packet) < ip + 20 or packet[ip + 9] != 17:
            continue
        udp = ip + 4 * (packet[ip] & 15)
        if len(packet) < udp + 8 or struct.unpack(">H", packet[ip + 6 : ip + 8])[0] & 0x3FFF:
            continue  # cut, or a fragment
        to, length = struct.unpack(">HH", packet[udp + 2 : udp + 6])
        if to == port:
            yield packet[udp + 8 : udp + length]


def main(arguments):
    if len(arguments) != 3:
        sys.exit(__doc__)
    port = int(arguments[1])
    with open(arguments[2], "rb") as file:
        capture = file.read()
    gatherer = None
    for octets in payloads(capture, port):
        try:
            if gatherer is None:
                head = j.read_strict(j.RFC8331, octets).head
                gatherer = j.Depacketizer(head.source, head.payload_type)
            kind, field = gatherer.arrive(j.RFC8331, octets)
        except j.Refused as refused:
            print(refused)
            continue
        if kind == j.WHOLE:
            print(f"field at {field.timestamp}, F {field.f}, {len(field.records)} records in {field.packets} packets")
            for r in field.records:
                print(f"  line {r.line} DID {r.did:02x} SDID {r.sdid:02x}: " + " ".join(f"{w:03x}" for w in r.words))
    if gatherer is not None:
        print("fresh {}, late {}, missing {}".format(*gatherer.counts))


if __name__ == "__main__":
    main(sys.argv)
