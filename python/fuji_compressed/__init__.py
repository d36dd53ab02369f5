"""Fuji compressed raw streams: decode, check, tighten, and write lossy copies.

The work is done by the proved library `libfuji_compressed`, which is loaded with ctypes; there is no build step. A stream is any bytes-like object
and is not copied. Pictures are NumPy arrays of shape (height, width) if NumPy is installed, and two-dimensional memoryviews of 16-bit samples if not.

    import fuji_compressed

    stream = fuji_compressed.open(pathlib.Path("sheet.fcs").read_bytes())
    picture = stream.decode()
    master = stream.tighten()

A call that is refused raises `Refusal`, whose `number` is that of docs/FORMAT.md. Each call stands alone, so that any number of threads may call at the
same time; ctypes releases the interpreter's lock while the library works."""

from __future__ import annotations

import ctypes
from array import array
from typing import Any, List, NamedTuple, Optional, Sequence, Union

from ._library import Record, library, version

try:
    import numpy
except ImportError:  # NumPy is optional
    numpy = None  # type: ignore[assignment]

__all__ = ["BAYER_TILE", "XTRANS_TILE", "BlockReport", "Fault", "Header", "Refusal", "Stream", "Totals", "open", "parse", "short_codes", "version"]

BytesLike = Union[bytes, bytearray, memoryview]

#: Red, green and blue are 0, 1 and 2, six rows of six. The tile of every Bayer camera that writes compressed streams.
BAYER_TILE = bytes([0, 1, 0, 1, 0, 1, 1, 2, 1, 2, 1, 2] * 3)

#: The tile of every camera that writes compressed X-Trans streams.
XTRANS_TILE = bytes(int(c) for c in "110112" "112110" "201021" "112110" "110112" "021201")

_REASONS = {1: "large", 2: "escape", 3: "zeros", 4: "tail"}

_WORDS = {
    1: "fewer than 16 bytes of header",
    2: "a header rule is broken",
    3: "the block sizes are cut short",
    4: "a lossy base row is not whole",
    5: "there is no such block",
    6: "the size is not the picture's",
    7: "the region passes the picture's edge, or the image is too short for it",
    8: "the stream is lossy",
    9: "the number of samples is not the block's",
    10: "the scratch is too short",
    11: "a sample is above the largest",
    12: "an interpolated sample is not its prediction",
    13: "the output is too short",
    14: "a line is truncated",
    15: "the block is not tight",
    16: "the header is lossless",
    17: "the number of base bytes is not that of the lines",
    18: "the plan's record is malformed, runs backwards, passes the last line or has a base above 255",
    19: "two records of the plan hold the line",
    20: "no record of the plan holds the line",
    21: "the line to store after is not there, or the stored state is malformed",
    22: "the stored state is of another header or block",
    23: "the line's depth and base have no entry, and all 16 are held",
    24: "the depth is not 12, 14 or 16, k is above 15, or the length is not 1 to 16",
    25: "there is not one length for each block",
    26: "the block has 2^32 bytes or more",
}


class Refusal(ValueError):
    """Why a call was refused: the number of docs/FORMAT.md, and the block, the line and the index that it names (0 where it names none)."""

    def __init__(self, number: int, block: int, line: int, index: int) -> None:
        self.number, self.block, self.line, self.index = number, block, line, index
        named = {4: f"block {block}: ", 11: f"sample {index}: ", 12: f"sample {index}: ", 14: f"block {block}, line {line}: "}
        named.update({15: f"line {line}: ", 18: f"record {index}: ", 19: f"line {line}: ", 20: f"line {line}: ", 26: f"block {block}: "})
        super().__init__(f"refusal {number}: {named.get(number, '')}{_WORDS.get(number, 'refused')}")


class Header(NamedTuple):
    """The header of a stream, in the order of its fields."""

    lossless: bool
    xtrans: bool
    bits: int
    height: int
    rounded_width: int
    width: int
    block_size: int
    blocks: int
    lines: int

    @property
    def set_size(self) -> int:
        """How many samples the set of colour lines of one block has."""
        return self.lines * 12 * (512 if self.xtrans else 384)

    @property
    def length_bound(self) -> int:
        """A length in bytes that no block written under this header exceeds."""
        return self.lines * 2304 * self.bits


class Totals(NamedTuple):
    """What was counted of a block: the bits of its codes, and how many of them are long."""

    bits: int
    long_codes: int


class Fault(NamedTuple):
    """Where a block is not tight: its first bad code, or its tail (`reason` is then "tail", and pass, colour and position are 0)."""

    line: int
    pass_: int
    colour: int
    position: int
    bit: int
    reason: str


class BlockReport(NamedTuple):
    """One block of `Stream.check`: `refusal` is None for a block that is tight, or lossy and whole; `fault` says where a block is not tight."""

    block: int
    tight: bool
    totals: Totals
    refusal: Optional[Refusal]
    fault: Optional[Fault]


def _raise(words: Any) -> None:
    if words[0]:
        raise Refusal(*(int(w) for w in words))


def _lend(data: BytesLike) -> Any:
    """The bytes as a pointer and a length, with what keeps them alive."""
    view = memoryview(data).cast("B")
    if view.nbytes == 0:
        return (None, 0, view)
    if view.readonly:
        # ctypes takes the address of writable buffers only; bytes have their own way
        if isinstance(data, bytes):
            return (ctypes.cast(ctypes.c_char_p(data), ctypes.POINTER(ctypes.c_uint8)), view.nbytes, data)
        copy = (ctypes.c_uint8 * view.nbytes).from_buffer_copy(view)
        return (copy, view.nbytes, copy)
    held = (ctypes.c_uint8 * view.nbytes).from_buffer(view)
    return (held, view.nbytes, held)


class _Scratch:
    def __init__(self) -> None:
        self.samples = (ctypes.c_uint16 * 9252)()
        self.records = (Record * 336)()

    def lent(self) -> Any:
        return (self.samples, 9252, self.records, 336)


def _words(n: int) -> Any:
    return (ctypes.c_size_t * n)()


def _tile(tile: Optional[Sequence[int]], xtrans: bool) -> Any:
    if tile is None:
        tile = XTRANS_TILE if xtrans else BAYER_TILE
    if len(tile) != 36:
        raise ValueError(f"a tile has 36 colours, six rows of six; {len(tile)} were given")
    return (ctypes.c_uint8 * 36)(*tile)


def _picture(samples: Any, width: int, height: int) -> Any:
    if numpy is not None:
        return numpy.frombuffer(samples, dtype=numpy.uint16, count=width * height).reshape(height, width)
    view = memoryview(samples).cast("B")[: 2 * width * height]
    return view.cast("H", shape=[height, width]) if width and height else view.cast("H")


def parse(header: BytesLike) -> Header:
    """The header of a stream, from its first 16 bytes. Refusals 1 and 2."""
    pointer, length, _ = _lend(header)
    fields, refusal = _words(9), _words(4)
    library.fuji_parse(pointer, length, fields, refusal)
    _raise(refusal)
    return _header(fields)


def _header(fields: Any) -> Header:
    return Header(bool(fields[0]), bool(fields[1]), *(int(f) for f in fields[2:]))


def open(data: BytesLike) -> Stream:  # pylint: disable=redefined-builtin
    """Opens a stream: its header, sizes and base rows are there. Refusals 1 to 4."""
    return Stream(data)


class Stream:
    """A stream that opens. It keeps the caller's bytes and copies nothing."""

    def __init__(self, data: BytesLike) -> None:
        self._pointer, self._length, self._held = _lend(data)
        fields, refusal = _words(9), _words(4)
        library.fuji_open(self._pointer, self._length, fields, refusal)
        _raise(refusal)
        #: The header.
        self.header: Header = _header(fields)

    def decode(self, tile: Optional[Sequence[int]] = None) -> Any:
        """The whole picture. A truncated line is refusal 14; use `region` for the rows before it."""
        return self.region(0, 0, self.header.width, self.header.height, tile)

    def region(self, x: int, y: int, width: int, height: int, tile: Optional[Sequence[int]] = None) -> Any:
        """The samples of a region. Refusal 7 if it passes the picture's edge, 14 if a line that it needs is truncated."""
        if min(x, y, width, height) < 0:
            raise Refusal(7, 0, 0, 0)
        if x + width > self.header.width or y + height > self.header.height:
            raise Refusal(7, 0, 0, 0)
        samples = (ctypes.c_uint16 * max(1, width * height))()
        refusal = _words(4)
        library.fuji_decode_region(
            self._pointer, self._length, x, y, width, height, _tile(tile, self.header.xtrans), samples, width * height, *_Scratch().lent(), refusal
        )
        _raise(refusal)
        return _picture(samples, width, height)

    def check(self) -> List[BlockReport]:
        """Each block: whether it is tight, its bits and long codes, and where it is not tight. A lossy block is read and is never tight."""
        return [self._check(b) for b in range(self.header.blocks)]

    def _check(self, block: int) -> BlockReport:
        totals, refusal = _words(2), _words(4)
        scratch = _Scratch()
        library.fuji_read_block(self._pointer, self._length, block, *scratch.lent(), totals, refusal)
        counted = Totals(int(totals[0]), int(totals[1]))
        if refusal[0]:
            return BlockReport(block, False, counted, Refusal(*(int(w) for w in refusal)), None)
        if not self.header.lossless:
            return BlockReport(block, False, counted, None, None)
        spot = _words(6)
        library.fuji_bad_code(self._pointer, self._length, block, spot, refusal)
        if not refusal[0]:
            return BlockReport(block, True, counted, None, None)
        line, pass_, colour, position, bit, reason = (int(s) for s in spot)
        fault = Fault(line, pass_, colour, position, bit, _REASONS[reason])
        return BlockReport(block, False, counted, Refusal(*(int(w) for w in refusal)), fault)

    def colour_lines(self, block: int) -> array:
        """The set of colour lines of a block: what the writer takes. For each line of six rows red 2 to 4, green 7 to 12, blue 15 to 17."""
        samples = array("H", bytes(2 * self.header.set_size))
        lent = (ctypes.c_uint16 * len(samples)).from_buffer(samples)
        refusal = _words(4)
        library.fuji_read_set(self._pointer, self._length, block, lent, len(samples), *_Scratch().lent(), _words(2), refusal)
        _raise(refusal)
        return samples

    def tighten(self) -> bytes:
        """The tight stream of the same picture: lossless, the same samples, only tight blocks. Tightening it again changes nothing."""
        room = self._front() + self.header.blocks * self.header.length_bound
        return self._made(room, library.fuji_tighten)

    def lossy_copy(self, bases: Union[int, BytesLike]) -> bytes:
        """A lossy working copy. `bases` is one base for all lines, or a byte for each line of each block, block after block. Each sample that has a
        code reads back within the base of its line."""
        count = self.header.blocks * self.header.lines
        row = bytes([bases]) * count if isinstance(bases, int) else bytes(bases)
        room = self._front() + self.header.blocks * (-(-self.header.lines // 16) * 16 + self.header.length_bound)
        pointer, length, held = _lend(row)
        made = self._made(room, lambda p, n, *rest: library.fuji_lossy_copy(p, n, pointer, length, *rest))
        del held
        return made

    def _front(self) -> int:
        return 16 + -(-4 * self.header.blocks // 16) * 16

    def _made(self, room: int, call: Any) -> bytes:
        out = (ctypes.c_uint8 * room)()
        work = (ctypes.c_uint16 * self.header.set_size)()
        length, refusal = _words(1), _words(4)
        call(self._pointer, self._length, out, room, work, self.header.set_size, *_Scratch().lent(), length, refusal)
        _raise(refusal)
        return bytes(memoryview(out)[: length[0]])


def short_codes(depth: int, k: int, length: int) -> List[int]:
    """Every bit string of at most `length` bits that is one tight lossless code, as 65536 * bits + value. Refusal 24."""
    if min(depth, k, length) < 0 or max(depth, k, length) >= 2**32:
        raise Refusal(24, 0, 0, 0)
    codes = (ctypes.c_uint32 * 32768)()
    count, refusal = _words(1), _words(4)
    library.fuji_short_codes(depth, k, length, codes, 32768, count, refusal)
    _raise(refusal)
    return list(codes[: count[0]])
