"""Result numbers in rows and in byte planes: document 02, R-9, worked out in Python.

A block is 1 to 512 rows of 8 bytes, each a result number with its lowest byte first. In planes "the lowest bytes of all" stand first, "then the second
bytes, up to the eighth". Both functions answer the number and what the second buffer holds after the call.
"""

ROW = 8
MOST_ROWS = 512
REFUSED = 13


def to_planes(rows, block, planes):
    if not is_sized(rows, block, planes):
        return REFUSED, planes
    return 0, b"".join(block[byte::ROW] for byte in range(ROW))


def from_planes(rows, planes, block):
    if not is_sized(rows, planes, block):
        return REFUSED, block
    return 0, b"".join(planes[row::rows] for row in range(rows))


def is_sized(rows, *buffers):
    return 1 <= rows <= MOST_ROWS and all(len(buffer) == ROW * rows for buffer in buffers)
