"""Frame files, packed bit by bit: what the tests that make such files share. Takes wrong values too."""


def packed(fields):
    """Fields (value, bits) one behind the other, the most significant bit first; signed values in two's complement."""
    number = width = 0
    for value, bits in fields:
        number = number << bits | value & (1 << bits) - 1
        width += bits
    return number.to_bytes(width // 8, "big")


def header(cells, edge, origin, count):
    """12 bytes: version, cells less one, cell edge, origin, triangle count, zero bits."""
    fields = [(1, 4)] + [(n - 1, 6) for n in cells] + [(edge, 8)] + [(v, 14) for v in origin]
    return packed(fields + [(count, 12), (0, 12)])


def record(kind, corners):
    """16 bytes: the kind, then x, y, z of three corners."""
    return packed([(kind, 2)] + [(v, 14) for corner in corners for v in corner])


def frame(cells, edge, origin, triangles):
    """A whole file."""
    return header(cells, edge, origin, len(triangles)) + b"".join(record(k, t) for k, t in triangles)
