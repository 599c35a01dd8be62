"""Files compressed by gzip, bzip2 or xz, of which no more is unpacked than their size allows.

A few bytes can be made to unpack to gigabytes. And what stands behind a stream can be read by one
program and passed over by another. So a file is one stream or several, without anything between
them or behind the last one, and its text is at most so many times as long.
"""

from __future__ import annotations

from typing import Any

from query.answers.errors import NoAnswer

MOST_TIMES = 100
"""How many times as long as the file its text may be, besides `FREE_TEXT`. set.mm is 4 times."""
FREE_TEXT = 1 << 24
"""Bytes that the text of any file may have: few bytes may be made of many more, and cost little."""
MOST_MEMORY = 1 << 27
"""Bytes that xz may take, twice as many as its largest setting needs."""
AT_ONCE = 1 << 22
"""Bytes that are unpacked at once."""
LEAST_GIVEN = 1 << 9
"""Bytes that a stream is given first. There may be very many short ones in a file."""
GZIP, BZIP2, XZ = b"\x1f\x8b", b"BZh", b"\xfd7zXZ\0"
NAMES = {GZIP: "gzip", BZIP2: "bzip2", XZ: "xz"}


def packer_of(data: bytes) -> str | None:
    """By which program a file was compressed; None where it is plain."""
    return next((name for start, name in NAMES.items() if data.startswith(start)), None)


def unpacked(name: str, data: bytes, most: int) -> bytes:
    """The bytes, or those that they were compressed from; where these are more than `most`, only
    some more. NoAnswer where they are damaged, or too many for the size of the file."""
    packer = packer_of(data)
    if packer is None:
        return data
    allowed = min(most, MOST_TIMES * len(data) + FREE_TEXT)
    text = bytearray()
    place = 0
    while place < len(data) and len(text) <= allowed:
        if packer_of(data[place : place + 6]) != packer:
            raise NoAnswer(f"{name}: something stands behind what {packer} compressed")
        try:
            place = unpack_stream(data, place, text, allowed)
        except (OSError, EOFError, ValueError):
            raise NoAnswer(f"{name}: the compressed file is damaged") from None
    if allowed < len(text) <= most:
        raise NoAnswer(
            f"{name}: what {packer} compressed is more than {MOST_TIMES} times as long as the file;"
            " unpack it first"
        )
    return bytes(text)


def unpack_stream(data: bytes, place: int, text: bytearray, allowed: int) -> int:
    """Unpacks the stream that begins at a place to the end of a text, unless that gets longer than
    is allowed. Returns where the stream ends. OSError, EOFError or ValueError where it is
    damaged."""
    stream = stream_of(data[place : place + 6])
    size = LEAST_GIVEN
    while not stream.eof and len(text) <= allowed:
        given = b""
        if stream.needs_input:
            given = data[place : place + size]
            place += len(given)
            size = min(2 * size, AT_ONCE)
        piece = stream.decompress(given, AT_ONCE)
        text += piece
        if not piece and not given and not stream.eof:
            raise EOFError
    return place - len(stream.unused_data)


def stream_of(start: bytes) -> Any:
    """What unpacks a stream that begins so, in the form of `bz2.BZ2Decompressor`."""
    if start.startswith(GZIP):
        return Gzip()
    if start.startswith(BZIP2):
        # Few databases are compressed, and some systems lack bz2 and lzma.
        import bz2

        return bz2.BZ2Decompressor()
    return Xz()


class Gzip:
    """A stream of gzip."""

    def __init__(self) -> None:
        # See bz2.
        import zlib

        self.stream = zlib.decompressobj(wbits=31)
        self.error = zlib.error

    @property
    def eof(self) -> bool:
        """Whether it has ended."""
        return self.stream.eof

    @property
    def needs_input(self) -> bool:
        """Whether all that it was given was taken."""
        return not self.stream.unconsumed_tail

    @property
    def unused_data(self) -> bytes:
        """What stands behind it."""
        return self.stream.unused_data

    def decompress(self, data: bytes, most: int) -> bytes:
        """Takes more bytes, and gives so many of its text at most."""
        try:
            return self.stream.decompress(data or self.stream.unconsumed_tail, most)
        except self.error:
            raise EOFError from None


class Xz:
    """A stream of xz."""

    def __init__(self) -> None:
        # See bz2.
        import lzma

        self.stream = lzma.LZMADecompressor(lzma.FORMAT_XZ, memlimit=MOST_MEMORY)
        self.error = lzma.LZMAError

    @property
    def eof(self) -> bool:
        """Whether it has ended."""
        return self.stream.eof

    @property
    def needs_input(self) -> bool:
        """Whether all that it was given was taken."""
        return self.stream.needs_input

    @property
    def unused_data(self) -> bytes:
        """What stands behind it."""
        return self.stream.unused_data

    def decompress(self, data: bytes, most: int) -> bytes:
        """Takes more bytes, and gives so many of its text at most."""
        try:
            return self.stream.decompress(data, most)
        except self.error:
            raise EOFError from None
