#!/usr/bin/env python3
"""Writes the sample outlines of this folder from the descriptions below, what the C example prints for each, and their
table, README.md. The triangles are worked out by hand.

usage: outlines/make.py
"""

import pathlib
import struct

FOLDER = pathlib.Path(__file__).resolve().parent

# By name: what it shows, its corners, and its triangles by the numbers of their corners, from 0: the corner cut off, its
# successor, its predecessor. None is for an outline that is refused.
OUTLINES = {
    "triangle": (
        "Three corners: nothing is left to cut off but the triangle itself.",
        [(0, 0), (5, 1), (1, 4)],
        [(0, 1, 2)],
    ),
    "square": (
        "The corner that comes first goes first.",
        [(0, 0), (2, 0), (2, 2), (0, 2)],
        [(0, 1, 3), (1, 2, 3)],
    ),
    "corners-in-line": (
        "A square of eight corners, four of them in the middle of a side: those are dropped first, without a triangle.",
        [(0, 0), (1, 0), (2, 0), (2, 1), (2, 2), (1, 2), (0, 2), (0, 1)],
        [(0, 2, 6), (2, 4, 6)],
    ),
    "comes-in-line": (
        "Corner 3 is on the border of the triangles of 0 and 1. When 2 is cut off it is in line with its neighbours.",
        [(0, 0), (4, 0), (5, 5), (2, 2), (0, 4)],
        [(2, 3, 1), (0, 1, 4)],
    ),
    "corner-on-the-border": (
        "Corner 3 is on the line between the neighbours of 0, so 0 is passed over.",
        [(0, 0), (4, 0), (6, 5), (2, 2), (0, 4)],
        [(1, 2, 0), (2, 3, 0), (0, 3, 4)],
    ),
    "notch": (
        "Corner 3 is inside the triangles of 0 and 1, so both are passed over.",
        [(0, 0), (6, 0), (6, 4), (2, 1), (0, 4)],
        [(2, 3, 1), (1, 3, 0), (0, 3, 4)],
    ),
    "slot": (
        "Eight corners and six triangles, about the origin: some coordinates are negative.",
        [(-3, -2), (3, -2), (3, 2), (1, 2), (1, 0), (-1, 0), (-1, 2), (-3, 2)],
        [(2, 3, 1), (3, 4, 1), (1, 4, 0), (4, 5, 0), (0, 5, 7), (5, 6, 7)],
    ),
    "largest": (
        "A square from -127 to 127: no outline has a larger area.",
        [(-127, -127), (127, -127), (127, 127), (-127, 127)],
        [(0, 1, 3), (1, 2, 3)],
    ),
    "refused-bow-tie": ("Two edges cross, though the doubled area is 1.", [(0, 0), (4, 0), (0, 1), (3, 6)], None),
    "refused-doubles-back": ("An edge goes back along the one before it.", [(0, 0), (4, 0), (2, 0), (2, 2)], None),
    "refused-corner-on-edge": (
        "Corner 3 is on the edge from 0 to 1.",
        [(0, 0), (4, 0), (4, 4), (2, 0), (0, 4)],
        None,
    ),
    "refused-clockwise": ("The square in the other direction.", [(0, 0), (0, 2), (2, 2), (2, 0)], None),
    "refused-nine-corners": (
        "Nine corners, of which any eight would do.",
        [(0, 0), (4, -1), (8, 0), (9, 4), (8, 8), (6, 9), (4, 9), (0, 8), (-1, 4)],
        None,
    ),
    "refused-two-corners": ("Two corners.", [(0, 0), (2, 0)], None),
    "refused-least": ("A coordinate of -128.", [(-128, 0), (0, 0), (0, 2)], None),
    "refused-odd-byte": ("The square, with a byte left over.", [(0, 0), (2, 0), (2, 2), (0, 2)], None),
}

# What stands behind the corners of an outline, where something does.
LEFT_OVER = {"refused-odd-byte": b"\x01"}

TOP = """# Sample outlines

Each `NAME.outline` is an outline as the engine takes it: x and y of each corner as signed bytes, anticlockwise, and
nothing else. `NAME.cut` is what the C example prints for it with `--cut`: how many triangles there are, and each on a line
of its own, in the order they are cut off: x and y of the corner cut off, of its successor and of its predecessor.
`make.py` holds the corners and the triangles of each, worked out by hand, and writes the files and this table.
Corners are numbered from 0.

| outline | what it shows | first line of the output |
|---|---|---|
"""


def printed(corners, triangles):
    if triangles is None:
        return "refused 14\n"
    lines = [" ".join(f"{x} {y}" for x, y in (corners[number] for number in triangle)) for triangle in triangles]
    return "".join(f"{line}\n" for line in [f"cut {len(triangles)}", *lines])


def main():
    rows = ""
    for name, (shows, corners, triangles) in OUTLINES.items():
        signed = b"".join(struct.pack("bb", x, y) for x, y in corners)
        (FOLDER / f"{name}.outline").write_bytes(signed + LEFT_OVER.get(name, b""))
        text = printed(corners, triangles)
        (FOLDER / f"{name}.cut").write_text(text)
        rows += f"| `{name}` | {shows} | `{text.splitlines()[0]}` |\n"
    (FOLDER / "README.md").write_text(TOP + rows)


if __name__ == "__main__":
    main()
