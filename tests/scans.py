"""Scanner's files in the PLY format, and the frames that they become: what the tests that make such files share. Takes wrong
values too. `python3 tests/scans.py` writes the scanner's files of examples/ anew.
"""
import os
import struct
import sys

sys.dont_write_bytecode = True
import frames

EXAMPLES = os.path.join(os.path.dirname(os.path.dirname(os.path.abspath(__file__))), "examples")
CODES = {"float": "f", "double": "d", "int": "i"}
LIST = "property list uchar int vertex_indices"


def lines(types, vertices, faces):
    """The lines of the header: given the types of x, y and z, and how many vertices and faces it says."""
    return ["ply", "format binary_little_endian 1.0", "element vertex %d" % vertices,
            *("property %s %s" % pair for pair in zip(types, "xyz")), "element face %d" % faces, LIST, "end_header"]


def body(types, vertices, faces):
    """The numbers of the vertices, then the faces: how many corners, and their indices. The lowest byte comes first."""
    layout = "<" + "".join(CODES[name] for name in types)
    return b"".join(struct.pack(layout, *vertex) for vertex in vertices) + b"".join(
        struct.pack("<B%di" % len(face), len(face), *face) for face in faces)


def joined(words, rest=b""):
    """A file of these lines, and the bytes behind them."""
    return "".join(word + "\n" for word in words).encode() + rest


def ply(types, vertices, faces, comments=()):
    """A whole file. The comments stand behind the format's line."""
    words = lines(types, len(vertices), len(faces))
    words[2:2] = ["comment " + comment for comment in comments]
    return joined(words, body(types, vertices, faces))


def rounded(types, vertex):
    """A vertex in whole millimetres: each number as its type holds it, then the nearest, a half to the even one."""
    layout = "<" + "".join(CODES[name] for name in types)
    return [round(value) for value in struct.unpack(layout, struct.pack(layout, *vertex))]


def frame(grid, types, vertices, faces):
    """The frame that such a file becomes: given the grid's seven values."""
    corners = [rounded(types, vertex) for vertex in vertices]
    return frames.frame(grid[:3], grid[3], grid[4:], [(0, [corners[n] for n in face]) for face in faces])


GRID = 4, 4, 2, 10, -20, -20, 0

# The files of examples/, all with this grid: types, vertices, faces and comments.
SCANS = {
    # A plate of two triangles. Many of its numbers are halves.
    "scan_float": (["float"] * 3,
                   [(-19.5, -1.5, 4.5), (18.5, -2.5, 5.5), (18.75, 12.25, 6.5), (-0.5, 11.125, 7.5)],
                   [(0, 1, 2), (0, 2, 3)],
                   ["A plate of two triangles, measured in millimetres"]),
    # Numbers beside a half, which no float holds, and the least and the greatest that are taken.
    "scan_double": (["double"] * 3,
                    [(0.49999999999999994, -0.5000000000000001, 2.5), (15.500000000000002, -14.499999999999998, 3.5),
                     (-1.5, 8191.499999999999, -8192.5)],
                    [(0, 1, 2)],
                    []),
    # A pyramid of four triangles.
    "scan_int": (["int"] * 3,
                 [(-15, -15, 1), (15, -15, 1), (0, 15, 1), (0, 0, 18)],
                 [(0, 1, 2), (0, 1, 3), (1, 2, 3), (2, 0, 3)],
                 []),
}


def main():
    for name, parts in SCANS.items():
        with open(os.path.join(EXAMPLES, name + ".ply"), "wb") as file:
            file.write(ply(*parts))


if __name__ == "__main__":
    main()
