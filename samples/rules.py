#!/usr/bin/env python3
"""What the matching program must write, from the rules and without its code: to compare with by running.

    samples/rules.py < FILE

The rules are written out plainly: every node of the tree is visited in near-first order, and none is left out.
"""
import math
import struct
import sys


def f32(x):
    """x rounded to f32. A sum, difference or product of f32 values is right so: taken in f64 first, it is still rounded as if once."""
    try:
        return struct.unpack("<f", struct.pack("<f", x))[0]
    except OverflowError:
        return math.copysign(math.inf, x)


def tree(points, depth=0):
    """Of (index, point): the axis, the median, the part below it and the part above; -0 is below +0, and equals go by index."""
    if not points:
        return None
    axis = depth % 3
    points = sorted(points, key=lambda p: (p[1][axis], math.copysign(1, p[1][axis]), p[0]))
    middle = (len(points) - 1) // 2
    return axis, points[middle], tree(points[:middle], depth + 1), tree(points[middle + 1 :], depth + 1)


def near_first(node, query):
    if node is None:
        return
    axis, point, left, right = node
    yield point
    near, far = (left, right) if f32(query[axis] - point[1][axis]) <= 0 else (right, left)
    yield from near_first(near, query)
    yield from near_first(far, query)


def apart(point, query):
    """The squared distance in f32."""
    x, y, z = (f32(d * d) for d in (f32(p - q) for p, q in zip(point, query)))
    return f32(f32(x + y) + z)


def nearest(root, query):
    """The index of the first point at the least distance below infinity, or None."""
    best, found = math.inf, None
    for index, point in near_first(root, query):
        distance = apart(point, query)
        if distance < best:
            best, found = distance, index
    return found


def mean_squared_error(source, target, found):
    """In f64, by runs of 512 source points; narrowed to f32."""
    total = 0.0
    for start in range(0, len(source), 512):
        run = 0.0
        for i in range(start, min(start + 512, len(source))):
            if found[i] is not None:
                x, y, z = (p - q for p, q in zip(source[i], target[found[i]]))
                run += (x * x + y * y) + z * z
        total += run
    count = sum(m is not None for m in found)
    return f32(total / count) if count else 0.0


def answer(data):
    """The program's output for the bytes of its input."""
    if len(data) < 16:
        return "refused 1\n"
    s, source_at, t, target_at = struct.unpack("<4I", data[:16])
    if 1024 < s or 1024 < t:
        return "refused 2\n"
    if s == 0 or t == 0:
        return "refused 4\n"
    if source_at != 16 or target_at != 16 + 12 * s or len(data) != 16 + 12 * s + 12 * t:
        return "refused 1\n"
    numbers = struct.unpack(f"<{3 * (s + t)}f", data[16:])
    points = [numbers[i : i + 3] for i in range(0, len(numbers), 3)]
    source, target = points[:s], points[s:]
    root = tree([(i, p) for i, p in enumerate(target) if all(map(math.isfinite, p))])
    found = [nearest(root, p) for p in source]
    pairs = [f"{i} {m}\n" for i, m in enumerate(found) if m is not None]
    mse = struct.pack(">f", mean_squared_error(source, target, found)).hex()
    return f"pairs {len(pairs)}\n{''.join(pairs)}mse {mse}\n"


if __name__ == "__main__":
    sys.stdout.write(answer(sys.stdin.buffer.read()))
