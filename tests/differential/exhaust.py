"""Cases without a gap: every unit of at most 3 bytes, every 12 bits where a field of many headers starts, every bit of the clips' headers."""
import itertools
import pathlib
import random

from codes import escaped, packed
from rules import sets_in, table_of, units
from headers import slice_pieces
from sets import drawn_table

CLIPS = pathlib.Path(__file__).resolve().parent.parent / "clips"
AT_ONCE = 500_000
STARTS = 300
WINDOW = 12
FIRST = 24  # bytes of a clip's unit

# Tables for two bytes of body: narrow fields, and the seven picture sets that three bits or five reach, each with other fields.
PICTURES = (
    "pps:0:0:0:0:0:0:0:0:0:0:0:0:0 pps:1:0:1:0:0:0:0:0:0:0:0:0:0 pps:2:0:0:0:0:0:1:1:0:0:0:0:0 pps:3:0:0:0:0:0:0:0:25:25:1:0:0"
    " pps:4:0:0:1:0:0:0:0:0:0:0:1:0 pps:5:0:0:0:0:0:0:2:-26:-26:0:0:3 pps:6:1:0:0:0:0:0:0:0:0:0:0:0"
)
SHORT_TABLES = [
    "sps:0:1:0:0:4:2:0:0:1:1 " + PICTURES,
    "sps:0:3:1:0:4:2:0:0:0:3 " + PICTURES,
    "sps:0:0:0:6:4:1:0:0:1:4 " + PICTURES,
]


def batched(lines):
    lines = iter(lines)
    while batch := list(itertools.islice(lines, AT_ONCE)):
        yield batch


def short():
    """Every unit of at most 3 bytes under no table, then those of types 1 and 5 under each of the tables."""
    ends = [f"{i:02x}" for i in range(256)]
    pairs = [a + b for a in ends for b in ends]

    def units(firsts):
        for first in firsts:
            yield from (first + end for end in itertools.chain([""], ends, pairs))

    yield from batched(itertools.chain(["-"], units(ends)))
    slices = [f"{ref_idc << 5 | kind:02x}" for kind in (1, 5) for ref_idc in range(4)]
    for words in SHORT_TABLES:
        yield from batched(f"{words} {unit}" for unit in units(slices))


def starts():
    """Words, first bytes and the bits before a field, for each field of headers that are drawn once and for all."""
    r = random.Random(0)
    while True:
        words = drawn_table(r)
        kind, ref_idc = r.choice((1, 5, 20, 21)), r.randrange(4)
        extension = bytes([r.getrandbits(7), r.getrandbits(8), r.getrandbits(8)]) if kind >= 20 else b""
        pieces = slice_pieces(r, table_of(words), kind, ref_idc, extension, None)
        if len(pieces) > 40:
            continue
        for i in range(3, len(pieces) + 1):
            yield " ".join(words), bytes([ref_idc << 5 | kind]) + extension, "".join(pieces[:i])


def deep():
    """Behind each start, every value of the next 12 bits, and then a few bits that end a header."""

    def lines():
        for words, front, bits in itertools.islice(starts(), STARTS):
            for value in range(2**WINDOW):
                body = packed(f"{bits}{value:0{WINDOW}b}1011011101")
                yield f"{words} {(front + escaped(body)).hex()}"

    yield from batched(lines())


def clips():
    """The units of tests/clips, whole, cut after each of their first bytes, and with each bit of these flipped."""

    def lines():
        for clip in sorted(CLIPS.glob("*.264")):
            words = " ".join(sets_in(clip.read_bytes()))
            for _, unit in units(clip.read_bytes()):
                yield f"{words} {unit.hex()}"
                start = unit[:FIRST]
                for n in range(1, len(start)):
                    yield f"{words} {start[:n].hex()}"
                for i in range(8 * len(start)):
                    flipped = int.from_bytes(start, "big") ^ 1 << i
                    yield f"{words} {flipped.to_bytes(len(start), 'big').hex()}"

    yield from batched(lines())
