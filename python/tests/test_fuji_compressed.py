"""The Python module against samples whose pictures the original Rust decoded (expected.json), and against itself where two ways must agree.

Run by `rust/check`, or by hand: PYTHONPATH=python python3 -m unittest discover -s python/tests"""

import hashlib
import json
import pathlib
import unittest

import fuji_compressed
from fuji_compressed import Refusal

ROOT = pathlib.Path(__file__).resolve().parents[2]
EXPECTED = json.loads((pathlib.Path(__file__).parent / "expected.json").read_text())


def sample(name):
    return (ROOT / "samples" / name).read_bytes()


def digest(picture):
    return hashlib.sha256(bytes(memoryview(picture).cast("B"))).hexdigest()


class Decoding(unittest.TestCase):
    def test_pictures_are_those_of_the_original(self):
        self.assertTrue(EXPECTED)
        for name, wanted in EXPECTED.items():
            stream = fuji_compressed.open(sample(name))
            self.assertEqual([stream.header.width, stream.header.height], wanted["size"])
            self.assertEqual(digest(stream.decode()), wanted["sha256"], name)

    def test_a_region_is_a_part_of_the_picture(self):
        stream = fuji_compressed.open(sample("bayer.fcs"))
        whole = memoryview(stream.decode()).cast("B").cast("H")
        width = stream.header.width
        part = memoryview(stream.region(5, 7, 30, 20)).cast("B").cast("H")
        for row in range(20):
            start = (7 + row) * width + 5
            self.assertEqual(list(part[row * 30 : row * 30 + 30]), list(whole[start : start + 30]))

    def test_any_bytes_like_object_is_taken(self):
        data = sample("escape.fcs")
        wanted = digest(fuji_compressed.open(data).decode())
        for form in (bytearray(data), memoryview(data), memoryview(bytearray(data))):
            self.assertEqual(digest(fuji_compressed.open(form).decode()), wanted)

    def test_an_empty_region_is_accepted(self):
        stream = fuji_compressed.open(sample("bayer.fcs"))
        self.assertEqual(memoryview(stream.region(0, 0, 0, 5)).nbytes, 0)


class Refusals(unittest.TestCase):
    def refused(self, number, call):
        with self.assertRaises(Refusal) as got:
            call()
        self.assertEqual(got.exception.number, number)
        return got.exception

    def test_numbers(self):
        data = sample("bayer.fcs")
        self.refused(1, lambda: fuji_compressed.open(b""))
        self.refused(1, lambda: fuji_compressed.open(data[:15]))
        self.refused(2, lambda: fuji_compressed.parse(b"\0" * 16))
        self.refused(3, lambda: fuji_compressed.open(data[:17]))
        stream = fuji_compressed.open(data)
        self.refused(7, lambda: stream.region(0, 0, stream.header.width + 1, 1))
        self.refused(7, lambda: stream.region(-1, 0, 1, 1))
        self.refused(5, lambda: stream.colour_lines(stream.header.blocks))
        self.refused(17, lambda: stream.lossy_copy(b"\1"))
        self.refused(24, lambda: fuji_compressed.short_codes(13, 0, 1))
        cut = fuji_compressed.open(data[: len(data) // 2])
        self.assertEqual(self.refused(14, cut.decode).block, 0)
        self.refused(14, cut.tighten)

    def test_a_tile_has_36_colours(self):
        with self.assertRaises(ValueError):
            fuji_compressed.open(sample("bayer.fcs")).decode(tile=[0] * 35)


class Making(unittest.TestCase):
    def test_tightening_keeps_the_picture_and_is_idempotent(self):
        for name in EXPECTED:
            made = fuji_compressed.open(sample(name)).tighten()
            master = fuji_compressed.open(made)
            self.assertTrue(all(b.tight for b in master.check()))
            self.assertEqual(digest(master.decode()), EXPECTED[name]["sha256"])
            self.assertEqual(master.tighten(), made)

    def test_a_lossy_copy_stays_within_its_base(self):
        stream = fuji_compressed.open(sample("bayer.fcs"))
        copy = fuji_compressed.open(stream.lossy_copy(3))
        self.assertFalse(copy.header.lossless)
        far = max(abs(a - b) for a, b in zip(memoryview(stream.decode()).cast("B").cast("H"), memoryview(copy.decode()).cast("B").cast("H")))
        self.assertLessEqual(far, 3)
        self.assertGreater(far, 0)

    def test_a_loose_block_is_found(self):
        report = fuji_compressed.open(sample("escape.fcs")).check()[0]
        self.assertFalse(report.tight)
        self.assertEqual((report.fault.line, report.fault.pass_, report.fault.colour, report.fault.reason), (0, 1, 2, "escape"))
        self.assertGreater(report.totals.bits, 0)

    def test_short_codes(self):
        self.assertEqual(fuji_compressed.short_codes(14, 8, 9)[0], 9 * 65536 + 256)


if __name__ == "__main__":
    unittest.main()
