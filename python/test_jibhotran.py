"""The Python calls against the library: round trips, every kind of answer, refusals with their index."""

import contextlib
import io
import pathlib
import random
import re
import struct
import sys
import tempfile
import unittest

import jibhotran as j
import list_capture

ROOT = pathlib.Path(__file__).resolve().parent.parent
A = j.Record(0, 9, 0, 0, 0, 0x41, 5)
B = j.Record(1, 0x7FF, 0xFFF, 1, 3, 0x61, 2, (0x2AA, 0x155))
HEAD = j.Head(1, 112, 1, 7, 1000, 2)


def some(r):
    words = tuple(r.randrange(4, 1020) for _ in range(r.randrange(20)))
    return j.Record(r.randrange(2), r.randrange(2048), r.randrange(4096), 0, 0, r.randrange(256), r.randrange(256), words)


class Packets(unittest.TestCase):
    def test_round_trip(self):
        r = random.Random(1)
        for layout, f in ((j.RFC8331, 2), (j.DRAFTS, 0)):
            for n in range(30):
                head = j.Head(r.randrange(2**32), r.randrange(128), r.randrange(2), r.randrange(2**32), r.randrange(2**32), f)
                records = [some(r) for _ in range(n)]
                octets = j.write(layout, head, records)
                self.assertEqual(j.read(layout, octets), j.Packet(head, records, 0))
                self.assertEqual(j.read_strict(layout, octets), j.Packet(head, records, 0))

    def test_octets(self):
        octets = j.write(j.RFC8331, HEAD, [A, B])
        self.assertEqual(octets[20:32].hex(), "009000009060580246000000")
        self.assertEqual(octets[32:].hex(), "ffffff835850240aaa555640")

    def test_checksum(self):
        octets = bytearray(j.write(j.RFC8331, HEAD, [A, B]))
        octets[27] ^= 1
        packet = j.read(j.RFC8331, bytes(octets))
        self.assertEqual((packet.records, packet.left_out), ([B], 1))
        with self.assertRaises(j.Refused) as refused:
            j.read_strict(j.RFC8331, bytes(octets))
        self.assertEqual((refused.exception.number, refused.exception.index), (11, 0))

    def test_refusals(self):
        for octets, number in ((b"", 2), (bytes(12), 3), (b"\x80" + bytes(11), 5)):
            with self.assertRaises(j.Refused) as refused:
                j.read(j.RFC8331, octets)
            self.assertEqual(refused.exception.number, number)
        with self.assertRaises(j.Refused) as refused:
            j.write(j.RFC8331, HEAD, [A, A._replace(line=2048)])
        self.assertEqual((refused.exception.number, refused.exception.index), (20, 1))
        with self.assertRaises(j.Refused) as refused:
            j.read(2, b"")
        self.assertEqual(refused.exception.number, 254)


    def test_numbers_too_large(self):
        for head in (HEAD._replace(source=2**32), HEAD._replace(payload_type=368), HEAD._replace(f=258), HEAD._replace(number=-1)):
            self.assertRaises(OverflowError, j.write, j.RFC8331, head, [A])
        for record in (A._replace(line=65536 + 9), A._replace(words=(65536 + 512,)), A._replace(c=-1)):
            self.assertRaises(OverflowError, j.write, j.RFC8331, HEAD, [record])
        for wanted in (j.wanted, j.wanted_of):
            self.assertRaises(OverflowError, wanted, 0x161, 2, [])
            self.assertRaises(OverflowError, wanted, 0x61, 2, [(0x161, 2)])
        for vpid in (256, 65536 + 132, -1):
            self.assertRaises(OverflowError, j.sdp_write, [], vpid)
        self.assertRaises(OverflowError, j.Outlet().offer, 256, b"packet")


class Fields(unittest.TestCase):
    def test_depacketizer(self):
        d = j.Depacketizer(1, 112)
        head = lambda n, mark: j.Head(1, 112, mark, n, 1000 if n < 8 else 2501, 2)
        arrive = lambda n, mark, records: d.arrive(j.RFC8331, j.write(j.RFC8331, head(n, mark), records))
        self.assertEqual(arrive(7, 1, [A]), (j.SKIPPED, None))
        self.assertEqual(arrive(8, 0, [A]), (j.HELD, None))
        self.assertEqual(arrive(9, 0, []), (j.HELD, None))
        kind, field = arrive(10, 1, [B])
        self.assertEqual((kind, field), (j.WHOLE, j.Field(2501, 2, [A, B._replace(index=2)], packets=3)))
        with self.assertRaises(j.Refused) as refused:
            arrive(10, 1, [B])
        self.assertEqual(refused.exception.number, 32)
        self.assertEqual(d.counts, (4, 1, 0))

    def test_file(self):
        r = random.Random(2)
        kept = [(r.randrange(2**32), r.choice([0, 2, 3]), [some(r) for _ in range(k)]) for k in range(6)]
        file = j.file_begin() + b"".join(j.file_write(*field) for field in kept)
        self.assertEqual([tuple(field[:3]) for field in j.fields(file)], kept)
        with self.assertRaises(j.Refused) as refused:
            list(j.fields(file[:-1]))
        self.assertEqual(refused.exception.number, 9)


class Rest(unittest.TestCase):
    def test_parameters(self):
        text = j.sdp_write([(0x61, 2), (0x41, 5)], 132)
        self.assertEqual(text, "DID_SDID={0x61,0x02};DID_SDID={0x41,0x05};VPID_Code=132")
        self.assertEqual(j.sdp_read(text), ([(0x61, 2), (0x41, 5)], 132))
        with self.assertRaises(j.Refused) as refused:
            j.sdp_read("VPID_Code=1; VPID_Code=2")
        self.assertEqual((refused.exception.number, refused.exception.index), (42, 1))
        for wanted in (j.wanted, j.wanted_of):
            self.assertTrue(wanted(0x61, 2, []) and wanted(0x80, 3, [(0x80, 2)]) and wanted(2, 1, [(5, 5), (2, 1)]))
            self.assertFalse(wanted(0x61, 3, [(0x61, 2)]))

    def test_line(self):
        line, end = j.line_write([0x200] * 40, 3, [A, B])
        self.assertEqual(line[:6], [0x200] * 3 + [0, 0x3FF, 0x3FF])
        found, after = j.line_read(line, 3, 0, 9, 0)
        self.assertEqual(after, end)
        self.assertEqual([x.words for x in found], [A.words, B.words])

    def test_outlet(self):
        o = j.Outlet()
        for k in range(8):
            o.offer(0, b"reload %d" % k)
        with self.assertRaises(j.Refused) as refused:
            o.offer(0, b"one more")
        self.assertEqual(refused.exception.number, 62)
        o.offer(3, b"quiet")
        self.assertEqual([o.take()[0] for _ in range(3)], [0, 3, 0])

    def test_frames(self):
        self.assertEqual(list(j.frames(b"\0\2ab\0\0\0\5abc")), [b"ab", b""])


class Example(unittest.TestCase):
    """The example on a capture of the recorded power cycle, in both orders of octets; each packet once to the port and once to another."""

    listed = """field at 2501, F 2, 1 records in 1 packets
  line 9 DID 41 SDID 05: 
refused 36 0
field at 93002, F 2, 1 records in 1 packets
  line 9 DID 41 SDID 05: 
refused 32 0
fresh 2, late 1, missing 0
"""

    def capture(self, order):
        packets = j.frames((ROOT / "differential/tests/power-cycle.rtp").read_bytes())
        octets = struct.pack(order + "IHHIIII", 0xA1B2C3D4, 2, 4, 0, 0, 65535, 1)
        for packet in packets:
            for port in (20000, 20001):
                udp = struct.pack(">HHHH", 5000, port, 8 + len(packet), 0) + packet
                ip = struct.pack(">BBHHHBBH4s4s", 0x45, 0, 20 + len(udp), 0, 0, 64, 17, 0, bytes(4), bytes(4)) + udp
                frame = bytes(12) + b"\x08\x00" + ip + bytes(7)
                octets += struct.pack(order + "IIII", 0, 0, len(frame), len(frame)) + frame
        return octets

    def test_list_capture(self):
        for order in "<>":
            with tempfile.NamedTemporaryFile() as file, contextlib.redirect_stdout(io.StringIO()) as printed:
                file.write(self.capture(order))
                file.flush()
                list_capture.main([file.name, "20000", file.name])
            self.assertEqual(printed.getvalue(), self.listed)


class Header(unittest.TestCase):
    text = (ROOT / "include/jibhotran.h").read_text()

    def test_numbers(self):
        defined = re.findall(r"^#define JIBHOTRAN_(\w+) (\d+)$", self.text, re.M)
        named = {name: int(value) for name, value in defined if hasattr(j, name)}
        self.assertEqual(named, {name: getattr(j, name) for name in named})
        own = {name for name, value in vars(j).items() if name.isupper() and isinstance(value, int)}
        self.assertEqual(own, set(named))

    def test_refusals(self):
        numbers = {name: int(value) for name, value in re.findall(r"^    JIBHOTRAN_(\w+) = ([1-9]\d*)", self.text, re.M)}
        self.assertEqual(numbers, {refusal.name: refusal.value for refusal in j.Refusal})

    def test_calls(self):
        declared = re.findall(r"^uint8_t jibhotran_(\w+)\(([^)]*)\);", self.text, re.M)
        self.assertEqual({name: parameters.count(",") + 1 for name, parameters in declared}, {name: len(types) for name, types in j._CALLS.items()})


if __name__ == "__main__":
    result = unittest.main(exit=False).result
    failed = len(result.failures) + len(result.errors)
    print(f"{result.testsRun - failed} passed, {failed} failed")
    sys.exit(not result.wasSuccessful())
