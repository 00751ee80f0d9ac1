"""What `demo` prints of the rooms that it makes; it touches no file."""

from rows.table import Row
from rows.worlds import summary

# how many rooms, their number, and the counts; the same twice
ROOMS = [
    (1, 0, (6, 0, 12, 12, 13, 1, 6, 0, 1)),
    (2, 0, (8, 0, 16, 16, 17, 3, 6, 2, 9)),
    (8, 7, (21, 0, 30, 58, 59, 24, 6, 29, 236)),
    (8, 7, (21, 0, 30, 58, 59, 24, 6, 29, 236)),
    (64, 123456789012345, (154, 0, 142, 898, 899, 444, 6, 631, 5650)),
]


def rows():
    for rooms, number, counts in ROOMS:
        yield Row(f"demo {rooms} {number}", 0, summary("sealed", *counts))
