#!/usr/bin/env python3
"""Makes the input of the matching program from two point files.

    samples/to_scan.py SCAN REFERENCE > FILE

SCAN holds the scanned points (the program's source), REFERENCE the points of the drawing (its target). Each is
a text of `x y z` lines or an ASCII PLY; which of the two is read off its first line.

- Lines: three numbers, separated by blanks or tabs; further columns are not looked at. Empty lines, and what
  follows `#` or `//`, are passed over. A comma is no separator, since `1,5` may be meant as one number.
- PLY: the properties x, y and z of the element vertex, wherever they stand; other properties and elements are
  passed over. Each vertex stands on a line of its own. Binary PLY is refused.
- Numbers are decimal. `nan` and `inf` are taken, in any case and with a sign: such a point is never matched.
- Each number is rounded once, to the nearest f32, ties to even. (Through a f64 it would be rounded twice: a
  number just above the middle of two f32 values could come out below it.) A number too large for f32 is an error.

Exit status: 0 written; 1 a file is bad, and standard error says where; 2 bad usage or a file that cannot be read.
Needs Python 3, no packages.
"""
import re
import struct
import sys
from decimal import Decimal

MOST = 1024  # points of a cloud, as the program has it
NUMBER = re.compile(r"[+-]?([0-9]+\.?[0-9]*|\.[0-9]+)([eE][+-]?[0-9]+)?")
NOT_FINITE = re.compile(r"([+-]?)(nan|inf|infinity)", re.IGNORECASE)


class Bad(Exception):
    """What is wrong with a file: the number of the line, or None, and a sentence."""

    def __init__(self, line, what):
        super().__init__(what)
        self.line = line


def to_odd(text):
    """The f64 next to a decimal number whose last bit tells that it is not exact, so that the step to f32 rounds as if from the number itself."""
    near = float(text)
    if near == 0 or near - near != 0:
        return near
    exact, held = Decimal(text).copy_abs(), Decimal(near).copy_abs()
    (bits,) = struct.unpack("<Q", struct.pack("<d", near))
    if exact != held and bits % 2 == 0:
        bits += 1 if held < exact else -1
    return struct.unpack("<d", struct.pack("<Q", bits))[0]


def f32(text, line):
    """The four bytes of a number, the lowest first."""
    special = NOT_FINITE.fullmatch(text)
    if special:
        return struct.pack("<I", (0x7FC00000 if special[2].lower() == "nan" else 0x7F800000) + (0x80000000 if special[1] == "-" else 0))
    if not NUMBER.fullmatch(text):
        raise Bad(line, f"a decimal number was expected, and {text[:60]!r} is none")
    number = to_odd(text)
    try:
        if number - number == 0:
            return struct.pack("<f", number)
    except OverflowError:
        pass
    raise Bad(line, f"{text[:60]} is too large for a 32-bit float")


def from_lines(lines):
    """The line's number and the three words of each point, from `x y z` lines."""
    for line, text in enumerate(lines, 1):
        words = re.split(r"#|//", text, maxsplit=1)[0].split()
        if words and len(words) < 3:
            raise Bad(line, f"three numbers `x y z` were expected, and the line has {len(words)}: {text.strip()[:60]!r}")
        if words:
            yield line, words[:3]


def natural(text, line, what):
    if not re.fullmatch(r"[0-9]{1,18}", text):
        raise Bad(line, f"{what} was expected, and {text[:60]!r} is none")
    return int(text)


def ply_header(lines):
    """The elements as (name, count, properties), a property as (name, whether it is a list); and the number of the header's last line."""
    elements = []
    formatted = False
    for line, text in enumerate(lines[1:], 2):
        words = text.split()
        kind = words[0] if words else ""
        if kind in ("", "comment", "obj_info"):
            continue
        if kind == "end_header":
            if not formatted:
                raise Bad(line, "the header has no line `format ascii 1.0`")
            return elements, line
        if kind == "format" and len(words) == 3:
            if words[1] != "ascii":
                raise Bad(line, f"this is a binary PLY ({words[1]}): write it as ASCII PLY, or as lines `x y z`")
            formatted = True
        elif kind == "element" and len(words) == 3:
            elements.append((words[1], natural(words[2], line, "the element's count"), []))
        elif kind == "property" and elements and (len(words) == 5 if words[1:2] == ["list"] else len(words) == 3):
            elements[-1][2].append((words[-1], words[1] == "list"))
        else:
            raise Bad(line, f"a line of a PLY header was expected, and this is none: {text.strip()[:60]!r}")
    raise Bad(len(lines), "the PLY header has no line `end_header`")


def columns(words, properties, line):
    """The words of a vertex by their properties' names."""
    at = 0
    found = {}
    for name, is_list in properties:
        if at < len(words):
            found[name] = words[at]
            at += 1 + (natural(words[at], line, f"the length of the list {name}") if is_list else 0)
        else:
            at += 1
    if at != len(words):
        raise Bad(line, f"a vertex of {len(properties)} properties was expected, and the line has {len(words)} words")
    return found


def from_ply(lines):
    """The same from an ASCII PLY."""
    elements, last = ply_header(lines)
    body = [(line, text.split()) for line, text in enumerate(lines[last:], last + 1) if text.strip()]
    for name, count, properties in elements:
        if name == "vertex":
            break
        body = body[count:]
    else:
        raise Bad(last, "the header has no `element vertex`")
    for axis in "xyz":
        if [is_list for name, is_list in properties if name == axis] != [False]:
            raise Bad(last, f"the element vertex was expected to have one property {axis}, a number")
    if len(body) < count:
        raise Bad(len(lines), f"{count} vertices were announced, and the file has lines for {len(body)}")
    for line, words in body[:count]:
        found = columns(words, properties, line)
        yield line, [found[axis] for axis in "xyz"]


def points(data):
    """The points of a file's bytes, twelve bytes each."""
    if data.startswith(b"\xef\xbb\xbf"):
        data = data[3:]
    if b"\0" in data and not data.startswith(b"ply"):
        raise Bad(None, "this is no text: lines `x y z` or an ASCII PLY were expected")
    lines = data.decode("latin-1").replace("\r\n", "\n").replace("\r", "\n").split("\n")
    if lines[-1] == "":
        lines.pop()
    found = list(from_ply(lines) if lines and lines[0].strip() == "ply" else from_lines(lines))
    if not found:
        raise Bad(None, "it has no points, and the program asks for one at least")
    if MOST < len(found):
        raise Bad(None, f"it has {len(found):,} points, and the program takes at most {MOST:,}")
    return [b"".join(f32(word, line) for word in words) for line, words in found]


def scan_bytes(source, target):
    """The program's input: counts and offsets, then the numbers of both clouds."""
    s, t = len(source), len(target)
    return struct.pack("<4I", s, 16, t, 16 + 12 * s) + b"".join(source) + b"".join(target)


def read(name):
    try:
        with open(name, "rb") as file:
            return points(file.read())
    except Bad as bad:
        where = name if bad.line is None else f"{name}:{bad.line}"
        sys.exit(fail(f"{where}: {bad}", 1))
    except OSError as error:
        sys.exit(fail(f"{name}: {error.strerror}", 2))


def fail(what, status):
    print(f"to_scan: {what}", file=sys.stderr)
    return status


def main(words):
    if len(words) != 2:
        return fail("usage: to_scan.py SCAN REFERENCE > FILE", 2)
    whole = scan_bytes(read(words[0]), read(words[1]))
    sys.stdout.buffer.write(whole)
    return 0


if __name__ == "__main__":
    sys.exit(main(sys.argv[1:]))
