"""Marks: which theorem rests on which axiom, a bit for each pair."""

from collections.abc import Iterable, Sequence
from itertools import compress

# For each bit of a byte the table that makes 1 of the bytes that have it, and 0 of the others.
HAS = [bytes(1 if byte & (0x80 >> bit) else 0 for byte in range(256)) for bit in range(8)]
# Makes bits of the digits of a number in base 2.
BITS = bytes.maketrans(b"01", b"\0\1")
MOST_SINGLY_TAKEN = 16  # bits of a row that are taken one by one
BLOCK = 4096  # rows that are counted at once, so that the processor's caches hold them


class Marks:
    """The marks of `rows` theorems and `columns` axioms, both counted from 0.

    A row is `width` bytes, its first column the highest bit of the first byte.
    """

    def __init__(self, rows: int, columns: int, data: bytes) -> None:
        self.rows = rows
        self.columns = columns
        self.width = width_of(columns)
        self.data = data
        self._eight = (-1, b"")  # the byte of each row that was wanted last, and which it is

    def row(self, number: int) -> int:
        """The bits of a row; `bit(columns, c)` is that of column `c`."""
        return int.from_bytes(self.data[number * self.width : (number + 1) * self.width], "big")

    def is_marked(self, row: int, column: int) -> bool:
        """Whether the theorem rests on the axiom."""
        return bool(self.data[row * self.width + (column >> 3)] & (0x80 >> (column & 7)))

    def column(self, number: int) -> bytes:
        """For each row a byte, 1 where it is marked in the column, otherwise 0. Eight columns have
        the same byte of each row, so it is quickest to ask for columns in order."""
        if self._eight[0] != number >> 3:
            self._eight = (number >> 3, self.data[number >> 3 :: self.width])
        return self._eight[1].translate(HAS[number & 7])

    def users(self, column: int) -> list[int]:
        """The rows that are marked in a column, rising."""
        marked = self.column(column)
        left = marked.count(1)
        if left * 16 > self.rows:
            return list(compress(range(self.rows), marked))
        rows = []
        row = -1
        for _ in range(left):
            row = marked.index(1, row + 1)
            rows.append(row)
        return rows

    def sizes(self) -> list[int]:
        """For each column how many rows are marked."""
        found = [0] * (8 * self.width)
        for start in range(0, self.rows, BLOCK):
            block = self.data[start * self.width : (start + BLOCK) * self.width]
            count = len(block) // self.width
            masks = [int.from_bytes(bytes([0x80 >> bit]) * count, "big") for bit in range(8)]
            for place in range(self.width):
                eight = int.from_bytes(block[place :: self.width], "big")
                for bit, each in enumerate(masks):
                    found[8 * place + bit] += (eight & each).bit_count()
        return found[: self.columns]


def width_of(columns: int) -> int:
    """How many bytes a row has."""
    return max(1, (columns + 7) // 8)


def bit(columns: int, number: int) -> int:
    """The bit of a column in a row."""
    return 1 << (8 * width_of(columns) - 1 - number)


def mask(columns: int, numbers: Iterable[int]) -> int:
    """The bits of several columns in a row."""
    row = bytearray(width_of(columns))
    for number in numbers:
        row[number >> 3] |= 0x80 >> (number & 7)
    return int.from_bytes(row, "big")


def columns_of(row: int, columns: int) -> list[int]:
    """The columns whose bits a row has, rising."""
    last = 8 * width_of(columns) - 1
    if row.bit_count() <= MOST_SINGLY_TAKEN:
        found = []
        while row:
            found.append(last - row.bit_length() + 1)
            row ^= 1 << (row.bit_length() - 1)
        return found
    signs = f"{row:0{last + 1}b}".encode().translate(BITS)
    return list(compress(range(columns), signs))


def marks_of_rows(rows: Sequence[int], columns: int) -> Marks:
    """The marks of rows given as bits."""
    width = width_of(columns)
    return Marks(len(rows), columns, b"".join(row.to_bytes(width, "big") for row in rows))
