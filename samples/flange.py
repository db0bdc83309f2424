#!/usr/bin/env python3
"""Makes the sample: a flange as drawn (reference.xyz) and as scanned (scan.ply), in millimetres, beside this file.

    python3 samples/flange.py && python3 samples/to_scan.py samples/scan.ply samples/reference.xyz > samples/flange.scan

The flange is a ring of radius 20 to 50, 8 thick, with six bolt holes of radius 4.5 on a circle of radius 35. The
scan sees points of the upper face, the edges of the holes and the rim, in another order than the drawing, each off
by up to 0.02 on every axis. A dent on the upper face is 0.6 deep in its middle, and three points were lost (nan).
"""
import math
import os
import random

HOLES = [(35 * math.cos(a), 35 * math.sin(a)) for a in (math.radians(60 * k + 30) for k in range(6))]
DENT = (-28.0, 3.0, 12.0, 0.6)  # x and y of its middle, how wide, how deep
SEEN = 360
LOST = (40, 41, 200)


def circle(x, y, radius, z, count):
    return [(x + radius * math.cos(2 * math.pi * k / count), y + radius * math.sin(2 * math.pi * k / count), z) for k in range(count)]


def drawn():
    """The points of the drawing: first those that the scan can see."""
    face = [p for radius, count in ((22, 28), (26, 32), (30, 40), (35, 44), (40, 50), (44, 56), (48, 60)) for p in circle(0, 0, radius, 8, count)]
    face = [p for p in face if all(5.5 < math.dist(p[:2], hole) for hole in HOLES)]
    edges = [p for x, y in HOLES for p in circle(x, y, 4.5, 8, 8)]
    rim = circle(0, 0, 50, 4, 64)
    bore = circle(0, 0, 20, 2, 26) + circle(0, 0, 20, 6, 26)
    return face + edges + rim, bore


def dented(x, y, z):
    away = math.dist((x, y), DENT[:2]) / DENT[2]
    return (x, y, z - DENT[3] * (1 - away * away)) if z == 8 and away < 1 else (x, y, z)


def line(point):
    """Four digits behind the point, and no -0."""
    return " ".join("%.4f" % (round(c, 4) + 0.0) for c in point) + "\n"


def main():
    draw = random.Random(2)
    visible, hidden = drawn()
    reference = visible + hidden
    order = sorted(range(len(visible)), key=lambda i: draw.random())[:SEEN]
    scan = [tuple(c + 0.04 * draw.random() - 0.02 for c in dented(*visible[i])) for i in order]
    here = os.path.dirname(os.path.abspath(__file__))
    with open(os.path.join(here, "reference.xyz"), "w", newline="\n") as out:
        out.write("# a flange as drawn, millimetres: x y z\n")
        out.writelines(map(line, reference))
    with open(os.path.join(here, "scan.ply"), "w", newline="\n") as out:
        out.write("ply\nformat ascii 1.0\ncomment a flange as scanned, millimetres\n")
        out.write(f"element vertex {len(scan)}\nproperty float x\nproperty float y\nproperty float z\nend_header\n")
        out.writelines("nan nan nan\n" if i in LOST else line(p) for i, p in enumerate(scan))


main()
