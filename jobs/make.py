#!/usr/bin/env python3
"""Writes the sample jobs of this folder from the descriptions below, what some of them are saved to, layouts to begin
some of them from, and their tables, README.md.

usage: jobs/make.py [EXPECT]

EXPECT is the program `expect` of tests/ (the reference, which links nothing of the engine); with it the
expected outputs, NAME.out and NAME.begun, are written too.
"""

import pathlib
import struct
import subprocess
import sys

FOLDER = pathlib.Path(__file__).resolve().parent

SQUARE = [(0, 0), (2, 0), (2, 2), (0, 2)]
LOWER = [(0, 0), (2, 0), (2, 2)]
UPPER = [(0, 0), (2, 2), (0, 2)]
STRIP = [(0, 0), (10, 10), (10, 11), (0, 1)]
STAR = [(0, 10), (-6, -8), (10, 3), (-10, 3), (6, -8)]
# A sheet of 8 by 6 cut slantwise in two. The cut is 10 long, so that distances from it are tenths.
LOWER_HALF = [(0, 0), (8, 0), (0, 6)]
UPPER_HALF = [(8, 0), (8, 6), (0, 6)]


def rectangle(x, y, width, height):
    return [(x, y), (x + width, y), (x + width, y + height), (x, y + height)]


# An angle bracket: a long bar and a short one, two parts that share a corner.
BRACKET = [rectangle(0, 0, 4, 1), rectangle(0, 0, 1, 3)]


def piece(demand, parts, turns=1, classes=0):
    """A type record: the turn mask allows turns, the class mask names classes."""
    record = bytes([demand, turns, classes, len(parts)])
    for part in parts:
        record += bytes([len(part)]) + b"".join(struct.pack("bb", x, y) for x, y in part)
    return record


class Job:
    """A job's content, and how its sections stand in the file."""

    def __init__(self, width, length, step, types, classes=(), order="board classes types", skip=b"", class_offset=None):
        self.board = struct.pack("<HHH", width, length, step)
        self.types, self.classes = types, classes
        self.order, self.skip, self.class_offset = order, skip, class_offset

    def file(self):
        """The job's bytes: the sections in the order given, each after the skipped bytes, then the trailer."""
        contents = {"board": self.board, "classes": b"".join(map(bytes, self.classes)), "types": b"".join(self.types)}
        body, offset = b"", {}
        for name in self.order.split():
            body += self.skip
            offset[name] = len(body)
            body += contents[name]
        if self.class_offset is not None:
            offset["classes"] = self.class_offset
        return body + self.trailer(offset["board"], offset["classes"], offset["types"], len(body))

    def saved(self):
        """The bytes that the job is saved to: nothing of how its sections stand is left, nor of its classes' order."""
        by_id = b"".join(bytes(c) for c in sorted(self.classes, key=lambda c: c[0]))
        body = self.board + by_id + b"".join(self.types)
        return body + self.trailer(0, 6, 6 + len(by_id), len(body))

    def trailer(self, board_at, classes_at, types_at, trailer_at):
        lengths = sum(map(len, self.types)), len(self.classes), len(self.types), trailer_at + 14
        return struct.pack("<HHHHBBH", board_at, classes_at, types_at, *lengths) + b"\x44\x42"


# A class is its id, its rank and its gap byte: the gap, and this added if the class is marked as common cut.
COMMON_CUT = 128

# The bracket of two classes: coating (rank 2, gap 1) comes before packing (rank 7, gap 3).
COATING, PACKING = (4, 2, 1), (1, 7, 3)
TWO_CLASSES = 1 << 4 | 1 << 1


# Coating again, which comes before a common cut.
COATED, CUT = (0, 1, 3), (2, 9, COMMON_CUT + 1)
COATED_AND_CUT = 1 << 0 | 1 << 2


# Two crosses and a rhomb. The class of the crosses, one of gap 63 that no type names, and one of gap 0 for fillers.
CROSS = [rectangle(-2, -1, 4, 3), rectangle(-1, -2, 2, 5)]
RHOMB = [(-3, 0), (0, -2), (3, 0), (0, 2)]
OF_CROSSES, UNNAMED, FILLERS = (2, 9, 1), (7, 0, 63), (5, 4, 0)


def any_order(rhomb_in, classes):
    types = [piece(2, CROSS, turns=3, classes=1 << 2), piece(1, [RHOMB], classes=rhomb_in)]
    return Job(9, 21, 2, types, classes, order="types classes board", skip=b"skipped")


def brackets(classes):
    return Job(5, 14, 1, [piece(3, BRACKET, turns=5, classes=TWO_CLASSES)], classes)


def cut_up(width, length, cuts):
    """A job of all the rectangles, none turned, that a sheet was cut up into; a type for each size."""
    return Job(width, length, 1, [piece(len(dots), [rectangle(0, 0, *size)]) for size, dots in cuts.items()])


def where_cut(cuts):
    """The layout that puts them back: an entry for each, by type, and within a type by column and row."""
    return [(kind, *dot, 0) for kind, dots in enumerate(cuts.values()) for dot in sorted(dots)]


# How sheets were cut up: by size, length and width, the columns and rows of their lower left corners.
WITH_LONG_BARS = {
    (1, 2): [(3, 4), (4, 4)],
    (1, 4): [(8, 4)],
    (2, 1): [(3, 6), (3, 7)],
    (3, 2): [(5, 4), (5, 6)],
    (3, 4): [(0, 4)],
    (9, 2): [(0, 0), (0, 2)],
}
IN_COLUMNS = {
    (1, 1): [(0, 3), (8, 0)],
    (1, 2): [(0, 7)],
    (1, 3): [(0, 0), (0, 4)],
    (1, 8): [(8, 1)],
    (2, 2): [(1, 7)],
    (2, 7): [(1, 0)],
    (2, 9): [(6, 0)],
    (3, 9): [(3, 0)],
}


JOBS = {
    "printed": (
        "Document 01's first board, byte for byte: two squares side by side.",
        Job(2, 4, 1, [piece(2, [SQUARE])], order="board types classes", class_offset=0),
    ),
    "two-squares-gap": (
        "The same squares in a class of gap 1 on a longer board: they stand 1 apart.",
        Job(2, 5, 1, [piece(2, [SQUARE], classes=1)], [(0, 0, 1)]),
    ),
    "clamped-squares": (
        "The same squares, in no class, where clamps have room: with margin 1 they stand at columns 1 and 3, row 1, length 6.",
        Job(4, 6, 1, [piece(2, [SQUARE])]),
    ),
    "classes-one-order": (
        "Three brackets of two parts, each in two classes; the best-ranked one, gap 1, counts.",
        brackets([COATING, PACKING]),
    ),
    "classes-other-order": (
        "The same job with its two class records exchanged: the same output.",
        brackets([PACKING, COATING]),
    ),
    "common-cut": (
        "The squares of `two-squares-gap`, but gap byte 129: gap 1, marked as common cut. They share the class and touch.",
        Job(2, 5, 1, [piece(2, [SQUARE], classes=1)], [(0, 0, COMMON_CUT + 1)]),
    ),
    "common-cut-and-another": (
        "Two squares in a common cut of gap 2 and one in no class: the two touch, the third stands 2 apart.",
        Job(2, 8, 1, [piece(2, [SQUARE], classes=1), piece(1, [SQUARE])], [(0, 5, COMMON_CUT + 2)]),
    ),
    "common-cut-outranked": (
        "Two squares in a common cut of rank 9 and in coating, which has rank 1 and gap 3: the rank counts, they stand 3 apart.",
        Job(2, 7, 1, [piece(2, [SQUARE], classes=COATED_AND_CUT)], [COATED, CUT]),
    ),
    "common-cut-outranked-by-one": (
        "One square in both and two in the common cut alone, of gap 1: the two touch, the coated one stands 3 apart.",
        Job(2, 9, 1, [piece(1, [SQUARE], classes=COATED_AND_CUT), piece(2, [SQUARE], classes=1 << 2)], [COATED, CUT]),
    ),
    "no-class": (
        "Two squares in no class, where packing has gap 3 and coating, which is ranked first, gap 1: the largest counts, they stand 3 apart.",
        Job(2, 7, 1, [piece(2, [SQUARE])], [PACKING, COATING]),
    ),
    "no-class-beside-common-cut": (
        "Two squares in no class, where the largest gap is that of a common cut: they stand 2 apart, and share no cut.",
        Job(2, 6, 1, [piece(2, [SQUARE])], [(0, 5, COMMON_CUT + 2), (3, 1, 1)]),
    ),
    "round-gap": (
        "Two squares with a gap of 5 on a board that leaves 4 between them across: 3 along it are enough, corner to corner.",
        Job(8, 9, 1, [piece(2, [SQUARE], classes=1)], [(0, 0, 5)]),
    ),
    "round-gap-slanting": (
        "Two halves of a sheet cut slantwise, with a gap of 5: moved apart by 3 along the board and 4 across, they keep it.",
        Job(10, 16, 1, [piece(1, [LOWER_HALF], classes=1), piece(1, [UPPER_HALF], classes=1)], [(0, 0, 5)]),
    ),
    "carried-shortened": (
        "Three squares with a gap of 5 on the width of `round-gap`, and as long as the gap as a square needs.",
        Job(8, 16, 1, [piece(3, [SQUARE], classes=1)], [(0, 0, 5)]),
    ),
    "carried-kept": (
        "Two squares on a board with room for them in either of two rows.",
        Job(3, 4, 1, [piece(2, [SQUARE])]),
    ),
    "carried-stopped": (
        "Ten rectangles that fill the sheet: 1,000,000 steps find no layout.",
        cut_up(9, 9, IN_COLUMNS),
    ),
    "carried-at-once": (
        "Ten rectangles that fill a sheet of length 9, on one of length 10: 1,000,000 steps do not find how.",
        cut_up(8, 10, WITH_LONG_BARS),
    ),
    "turned-bar": (
        "A bar of length 3 on a board of length 1: only one quarter turn is allowed, and it fits.",
        Job(3, 1, 1, [piece(1, [rectangle(0, 0, 3, 1)], turns=2)]),
    ),
    "four-turns": (
        "Angle brackets and a bar in all four turns, nested into each other.",
        Job(5, 8, 1, [piece(3, BRACKET, turns=15), piece(1, [rectangle(0, 0, 2, 2)], turns=1)]),
    ),
    "triangles": (
        "Two triangles that share the dot (0, 0) and an edge, without conflict.",
        Job(2, 2, 1, [piece(1, [LOWER]), piece(1, [UPPER])]),
    ),
    "strips": (
        "Two slanting strips in one column, more than their height would allow.",
        Job(12, 20, 1, [piece(2, [STRIP])]),
    ),
    "any-order": (
        "Types, classes, board, in that order, with skipped bytes between; step 2, negative corners, overlapping parts. A rhomb in no class takes gap 63, of a class that no type names: there is no room.",
        any_order(0, [OF_CROSSES, UNNAMED]),
    ),
    "any-order-filler": (
        "The same job with the rhomb as a filler, in a class of gap 0: it nests as `any-order` did before pieces in no class took a gap.",
        any_order(1 << 5, [OF_CROSSES, UNNAMED, FILLERS]),
    ),
    "full-board": (
        "The most that a job may have: 1024 dots, 8 types, 12 pieces, every turn; the first column takes them all.",
        Job(31, 31, 1, [piece(2 if i < 4 else 1, [rectangle(0, 0, 2, 1 + i % 3)], turns=15) for i in range(8)]),
    ),
    "stopped-with-layout": (
        "Eleven pieces with more to try than 1,000,000 steps: the best layout so far is held.",
        Job(8, 20, 1, [piece(6, [rectangle(0, 0, 3, 2)], turns=3), piece(5, BRACKET, turns=5)]),
    ),
    "stopped-with-nothing": (
        "Twelve bars, of which eleven fit; look-ahead does not see it, and the budget is spent first.",
        Job(6, 11, 1, [piece(12, [rectangle(0, 0, 3, 2)], turns=3)]),
    ),
    "none": (
        "Two squares on a board that is 1 too short for them.",
        Job(2, 3, 1, [piece(2, [SQUARE])]),
    ),
    "none-at-once": (
        "A board shorter than the piece: none, without a step.",
        Job(2, 1, 1, [piece(2, [SQUARE])]),
    ),
    "refused-3-shared-byte": (
        "The class list begins on the board record's last byte.",
        Job(2, 4, 1, [piece(2, [SQUARE], classes=1)], [(0, 0, 1)], class_offset=5),
    ),
    "refused-4-dots": (
        "L 512, W 1, step 1: 1026 dots.",
        Job(1, 512, 1, [piece(1, [rectangle(0, 0, 1, 1)])]),
    ),
    "refused-5-gap-byte": (
        "A gap byte of 64: neither a gap nor that of a common cut.",
        Job(2, 4, 1, [piece(2, [SQUARE], classes=1)], [(0, 0, 64)]),
    ),
    "refused-6-absent-class": (
        "A type names the class of id 3, and the job has none of that id.",
        Job(2, 4, 1, [piece(2, [SQUARE], classes=1 << 3)], [(0, 0, 1)]),
    ),
    "refused-7-star": (
        "A five-pointed star: each corner turns left, but the part is not sound.",
        Job(30, 30, 1, [piece(1, [STAR])]),
    ),
}

# The jobs whose saved bytes, NAME.saved, are written too.
SAVED = ["printed", "any-order", "classes-one-order", "classes-other-order", "common-cut"]

# Layouts that runs of some jobs are begun from, NAME.layout: an entry is type, column, row and turn.
TOUCHING = [(0, 0, 0, 0), (0, 2, 0, 0)]
GIVEN = {
    "carried-shortened": (
        "Held by a run that stopped while the gap was a square: 5 apart along the board. The round gap shortens it.",
        [(0, 0, 0, 0), (0, 7, 0, 0), (0, 14, 0, 0)],
    ),
    "carried-kept": (
        "The upper row. Nothing is shorter, so it stands, though the lower row comes first.",
        [(0, 0, 1, 0), (0, 2, 1, 0)],
    ),
    "carried-stopped": (
        "How the sheet was cut up. Nothing shorter is found, and the stopped run holds it.",
        where_cut(IN_COLUMNS),
    ),
    "carried-at-once": (
        "How the sheet was cut up. Two bars are as long as that sheet, so nothing is tried: it is the shortest.",
        where_cut(WITH_LONG_BARS),
    ),
    "two-squares-gap": (
        "Two squares that touch, although their gap is 1.",
        TOUCHING,
    ),
    "common-cut-outranked": (
        "Two squares that touch: held by a run from before coating came first.",
        TOUCHING,
    ),
    "no-class": (
        "Two squares that touch: held by a run from before pieces in no class took a gap.",
        TOUCHING,
    ),
}

TOP = """# Sample jobs

Each `NAME.job` is a job as the engine reads it, `NAME.out` is what the command program prints for it (budget
1,000,000, margin 0). `make.py` holds a readable description of each and writes the jobs and this table; the
expected outputs come from the reference in `tests/`, which was written from documents 01 and 02 alone. A margin
is no part of a job: the C example takes one behind the job's name. Outlines, which no job holds, are in `outlines/`.

Gaps are those of a round cutter. Measured as a square, as document 01 had it, `round-gap` would be 9 long,
`round-gap-slanting` 15 and `carried-shortened` 16; no other job here would have another output. And a common cut is the
best-ranked class of both pieces. If any marked class that they share would do, as before request 8/13 of document 02,
`common-cut-outranked` would be 4 long and `common-cut-outranked-by-one` 6; no other would have another output. A piece
in no class takes the largest gap in the class list. If it had none, as before request 9/13, `any-order` would be 12 long,
`no-class` 4 and `no-class-beside-common-cut` 4; no other would have another output.

`NAME.saved`, for five of them, is the job as the engine saves it: board, classes by rising id, types, trailer.
`make.py` puts it together from the job's description alone. `classes-one-order` and `classes-other-order` are saved
to equal bytes, since the order of the classes is no content; no other two of the five are, since their contents
differ. `classes-other-order` and `common-cut` are saved to their own bytes: they are in the written order already.
`printed` changes in the offset of its empty class list alone, from 0 to 6, and `any-order` loses its skipped bytes.

| job | what it shows | first line of the output |
|---|---|---|
"""

BEGUN = """
## Begun from a layout

`NAME.layout` is a layout's bytes, as the C example keeps them with `--keep` and takes them with `--from`; `NAME.begun`
is what it prints for a run of the job that begins from that layout, with no margin. The command program gives none.

| job | the layout that it is begun from | first line of the output |
|---|---|---|
"""


def expect(target, *files):
    """Writes what the reference expects of these files, if it is there to be asked."""
    if len(sys.argv) > 1:
        target.write_bytes(subprocess.run([sys.argv[1], *files], check=True, capture_output=True).stdout)


def table(entries, ending):
    """A row for each entry: its name, its line, and the first line of its output, in the file of this ending."""

    def first_line(name):
        path = FOLDER / f"{name}{ending}"
        return path.read_text().splitlines()[0] if path.exists() else ""

    return "".join(f"| `{name}` | {line} | `{first_line(name)}` |\n" for name, (line, _) in entries.items())


def main():
    for name, (_, job) in JOBS.items():
        path = FOLDER / f"{name}.job"
        path.write_bytes(job.file())
        if name in SAVED:
            (FOLDER / f"{name}.saved").write_bytes(job.saved())
        expect(FOLDER / f"{name}.out", path)
    for name, (_, entries) in GIVEN.items():
        path = FOLDER / f"{name}.layout"
        path.write_bytes(b"".join(struct.pack("<HHHH", *entry) for entry in entries))
        expect(FOLDER / f"{name}.begun", FOLDER / f"{name}.job", path)
    (FOLDER / "README.md").write_text(TOP + table(JOBS, ".out") + BEGUN + table(GIVEN, ".begun"))


if __name__ == "__main__":
    main()
