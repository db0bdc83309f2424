#!/usr/bin/env python3
"""Tests of the converter, of the sample, and of the built program against rules.py.   python3 samples/test.py

Run by hand; the gate does not need it. The program's part asks for crates/scan_match/out/scan_match (./scan-match builds it)
on x86-64, and is skipped without it.
"""
import os
import platform
import random
import struct
import subprocess
import sys
import tempfile
import time
import unittest
from fractions import Fraction

HERE = os.path.dirname(os.path.abspath(__file__))
sys.path.insert(0, HERE)
sys.dont_write_bytecode = True
import rules
import to_scan

TOP = os.path.dirname(HERE)
PROGRAM = os.path.join(TOP, "crates", "scan_match", "out", "scan_match")


def packed(*numbers):
    return struct.pack(f"<{len(numbers)}f", *numbers)


def ply(header, body, form="ascii"):
    return f"ply\nformat {form} 1.0\n{header}\nend_header\n{body}".encode("latin-1")


def nearest_f32(text):
    """By exact fractions, in another way than the converter: the nearest multiple of the unit that f32 has there, ties to even."""
    exact = Fraction(text)
    unit = Fraction(2) ** -149
    while abs(exact) >= unit * 2**24:
        unit *= 2
    return float(round(exact / unit) * unit)


class Good(unittest.TestCase):
    def same(self, data, *points):
        self.assertEqual(to_scan.points(data), [packed(*p) for p in points])

    def test_lines(self):
        self.same(b"1 2 3\n-4.5 +.25 6e1", (1, 2, 3), (-4.5, 0.25, 60))

    def test_comments_blanks_and_further_columns(self):
        self.same(b"# a comment\n//X Y Z\n\n \t\n 1\t2  3 255 0 0\n4 5 6 # the second\n", (1, 2, 3), (4, 5, 6))

    def test_line_ends_and_mark(self):
        self.same(b"\xef\xbb\xbf1 2 3\r\n4 5 6\r\n", (1, 2, 3), (4, 5, 6))

    def test_not_finite(self):
        self.assertEqual(to_scan.points(b"NaN -inf Infinity\n"), [struct.pack("<3I", 0x7FC00000, 0xFF800000, 0x7F800000)])

    def test_zeros_keep_their_sign(self):
        self.assertEqual(to_scan.points(b"-0 0 -1e-400\n"), [struct.pack("<3I", 0x80000000, 0, 0x80000000)])

    def test_ply(self):
        self.same(ply("element vertex 2\nproperty float x\nproperty float y\nproperty float z", "1 2 3\n4 5 6\n"), (1, 2, 3), (4, 5, 6))

    def test_ply_in_another_order(self):
        header = "comment Käfer\nelement camera 1\nproperty float f\nelement vertex 1\nproperty uchar red\nproperty double z\nproperty list uchar int at\nproperty double x\nproperty double y\nelement face 1\nproperty list uchar int vertex_indices"
        self.same(ply(header, "50\n255 3 2 7 7 1 2\n3 0 0 0\n"), (1, 2, 3))

    def test_most(self):
        self.assertEqual(len(to_scan.points(b"1 2 3\n" * 1024)), 1024)

    def test_rounded_once(self):
        # just above the middle of 1 and the next f32: a f64 in between would fall on the middle, and then to 1
        self.assertEqual(to_scan.f32("1.000000059604644775390625000001", 1), struct.pack("<I", 0x3F800001))
        self.assertEqual(to_scan.f32("1.000000059604644775390625", 1), struct.pack("<I", 0x3F800000))
        # just below the middle of the largest f32 and 2^128, which alone would be too large
        self.assertEqual(to_scan.f32("340282356779733661637539395458142568447.9999", 1), struct.pack("<I", 0x7F7FFFFF))

    def test_rounding(self):
        draw = random.Random(1)
        for _ in range(3000):
            bits = draw.randrange(0x7F7FFFFF)
            low, high = (struct.unpack("<f", struct.pack("<I", bits + k))[0] for k in (0, 1))
            middle = (Fraction(low) + Fraction(high)) / 2
            digits = middle + draw.choice((-1, 0, 1)) * middle / 10 ** draw.randrange(7, 60)
            text = "%s%d.%0220d" % (draw.choice(("", "-")), digits, digits % 1 * 10**220)
            self.assertEqual(to_scan.f32(text, 1), packed(nearest_f32(text)), text)


class Bad(unittest.TestCase):
    def bad(self, data, line, words):
        with self.assertRaises(to_scan.Bad) as caught:
            to_scan.points(data)
        self.assertEqual(caught.exception.line, line)
        self.assertIn(words, str(caught.exception))

    def test_lines(self):
        self.bad(b"1 2 3\n4 5\n", 2, "the line has 2")
        self.bad(b"# c\n1 2 x\n", 2, "'x' is none")
        self.bad(b"1,5 2,5 3,5\n", 1, "'1,5' is none")
        self.bad(b"1.0,2.0,3.0\n", 1, "the line has 1")
        self.bad(b"1 2 0x10\n", 1, "'0x10' is none")
        self.bad(b"1 2 1_0\n", 1, "'1_0' is none")
        self.bad(b"1 2 3\n1 2 1e39\n", 2, "too large")
        self.bad(b"1 2 1e999999999999999999999\n", 1, "too large")

    def test_counts(self):
        self.bad(b"", None, "no points")
        self.bad(b"# nothing\n", None, "no points")
        self.bad(b"1 2 3\n" * 1025, None, "1,025 points")
        self.bad(ply("element vertex 0\nproperty float x\nproperty float y\nproperty float z", ""), None, "no points")

    def test_no_text(self):
        self.bad(b"\x01\x00\x00\x00", None, "no text")

    def test_ply(self):
        xyz = "property float x\nproperty float y\nproperty float z"
        self.bad(ply(f"element vertex 1\n{xyz}", "\0\0\x80\x3f", "binary_little_endian"), 2, "binary PLY")
        self.bad(b"ply\nelement vertex 1\nend_header\n", 3, "format ascii")
        self.bad(b"ply\nformat ascii 1.0\n", 2, "end_header")
        self.bad(ply("elment vertex 1", ""), 3, "a line of a PLY header")
        self.bad(ply("element vertex many", ""), 3, "'many' is none")
        self.bad(ply("element face 0", ""), 4, "element vertex")
        self.bad(ply("element vertex 1\nproperty float x\nproperty float y", "1 2\n"), 6, "property z")
        self.bad(ply(f"element vertex 1\n{xyz}\nproperty float x", "1 2 3 4\n"), 8, "property x")
        self.bad(ply(f"element vertex 2\n{xyz}", "1 2 3\n"), 8, "2 vertices")
        self.bad(ply(f"element vertex 1\n{xyz}", "1 2\n"), 8, "3 properties")
        self.bad(ply(f"element vertex 1\n{xyz}", "1 2 3 4\n"), 8, "3 properties")
        self.bad(ply(f"element vertex 2\n{xyz}", "1 2 3\n4 5 z\n"), 9, "'z' is none")

    def test_command(self):
        def status(*words):
            return subprocess.run([sys.executable, os.path.join(HERE, "to_scan.py"), *words], capture_output=True, text=True)

        with tempfile.TemporaryDirectory() as room:
            name = os.path.join(room, "points")
            with open(name, "w") as out:
                out.write("1 2 3\n4 5\n")
            ran = status(name, name)
            self.assertEqual((ran.returncode, ran.stdout), (1, ""))
            self.assertTrue(ran.stderr.startswith(f"to_scan: {name}:2: "), ran.stderr)
            self.assertEqual(status(name).returncode, 2)
            self.assertEqual(status(os.path.join(room, "none"), name).returncode, 2)


class Sample(unittest.TestCase):
    def read(self, name):
        with open(os.path.join(HERE, name), "rb") as file:
            return file.read()

    def test_made_of_its_text(self):
        made = to_scan.scan_bytes(to_scan.points(self.read("scan.ply")), to_scan.points(self.read("reference.xyz")))
        self.assertEqual(made, self.read("flange.scan"))

    def test_made_by_its_script(self):
        with tempfile.TemporaryDirectory() as room:
            with open(os.path.join(room, "flange.py"), "wb") as out:
                out.write(self.read("flange.py"))
            subprocess.run([sys.executable, os.path.join(room, "flange.py")], check=True)
            for name in ("reference.xyz", "scan.ply"):
                with open(os.path.join(room, name), "rb") as file:
                    self.assertEqual(file.read(), self.read(name))


def head(*words):
    return struct.pack("<4I", *words)


def cloud(draw, count, kind):
    """Points that tie, that repeat, that are not finite, tiny, huge, or of any bits."""
    if kind == "grid":
        return [draw.choice((-1.0, -0.0, 0.0, 1.0, 2.0)) for _ in range(3 * count)]
    if kind == "bits":
        return [struct.unpack("<f", struct.pack("<I", draw.getrandbits(32)))[0] for _ in range(3 * count)]
    if kind == "tiny":
        return [draw.randrange(-40, 40) * 2.0**-76 for _ in range(3 * count)]
    return [rules.f32(draw.uniform(-50, 50)) for _ in range(3 * count)]


def run_inputs():
    """The inputs of the program crates/scan_run, in its order."""
    yield from (b"", b"\xff" * 15)
    for words in ((1025, 0, 0, 0), (0, 0, 1025, 0), (2**32 - 1, 16, 1, 28), (1024, 16, 1024, 12304), (0, 0, 1, 0), (1, 0, 0, 0), (0, 16, 0, 16)):
        yield head(*words)
    for source_at, target_at, n in ((17, 28, 40), (16, 29, 40), (16, 28, 39), (16, 28, 41), (16, 28, 40), (28, 16, 40), (16, 28, 16)):
        yield (head(1, source_at, 1, target_at) + bytes(25))[:n]
    none, below, most, near_most = 0x7FC00000, 0xFF800000, 0x7F7FFFFF, 0xDF7FFFFF
    for s, t in ((none, 0), (0, none), (below, below), (most, 0), (near_most, 2**31), (0x1A000000, 0), (0x1A800000, 0)):
        yield head(1, 16, 1, 28) + struct.pack("<6I", s, 0, 0, t, 0, 0)
    whole = head(1024, 16, 1024, 12304)
    number = 1
    while len(whole) < 24592:
        number = (number * 1664525 + 1013904223) % 2**32
        free = number % 2**23 + (120 + number // 2**23 % 16) * 2**23 + number // 2**27 % 2 * 2**31
        whole += struct.pack("<I", {0: none, 1: below}.get(number // 2**16 % 512, free))
    yield from (whole, whole + b"\0")


class Stored(unittest.TestCase):
    """What the gate compares the programs with is what the rules say."""

    def read(self, name):
        with open(os.path.join(TOP, "crates", name), "rb") as file:
            return file.read()

    def test_run(self):
        self.assertEqual("".join(map(rules.answer, run_inputs())).encode(), self.read("scan_run/stdout"))

    def test_match(self):
        self.assertEqual(rules.answer(self.read("scan_match/stdin")).encode(), self.read("scan_match/stdout"))


@unittest.skipUnless(platform.machine() == "x86_64" and os.access(PROGRAM, os.X_OK), "crates/scan_match/out/scan_match is not built, or not for this machine")
class Program(unittest.TestCase):
    def same(self, data):
        wrote = subprocess.run([PROGRAM], input=data, stdout=subprocess.PIPE).stdout.decode()
        self.assertEqual(wrote, rules.answer(data))

    def test_refusals(self):
        draw = random.Random(2)
        right = head(2, 16, 1, 40) + packed(*range(9))
        for n in range(len(right) + 3):
            self.same((right + b"abc")[:n])
        values = (0, 1, 2, 3, 16, 17, 28, 40, 1023, 1024, 1025, 12304, 2**24, 2**31, 2**32 - 1)
        for _ in range(400):
            self.same(head(*(draw.choice(values) for _ in range(4))) + bytes(draw.choice((0, 1, 12, 24, 36, 37))))

    def test_answers(self):
        draw = random.Random(3)
        for kind in ("grid", "bits", "tiny", "free"):
            for _ in range(40):
                s, t = draw.randrange(1, 40), draw.randrange(1, 60)
                self.same(head(s, 16, t, 16 + 12 * s) + packed(*cloud(draw, s, kind), *cloud(draw, t, kind)))

    def test_longest(self):
        draw = random.Random(4)
        whole = head(1024, 16, 1024, 12304) + packed(*cloud(draw, 1024, "free"), *cloud(draw, 1024, "grid"))
        for data in (whole, whole[:-1], whole + b"\0", whole + bytes(1000000)):
            self.same(data)

    def test_short_reads(self):
        with open(os.path.join(HERE, "flange.scan"), "rb") as file:
            data = file.read()
        ran = subprocess.Popen([PROGRAM], stdin=subprocess.PIPE, stdout=subprocess.PIPE)
        for part in (data[:3], data[3:16], data[16:5000], data[5000:]):
            ran.stdin.write(part)
            ran.stdin.flush()
            time.sleep(0.05)
        self.assertEqual(ran.communicate()[0].decode(), rules.answer(data))


if __name__ == "__main__":
    unittest.main()
