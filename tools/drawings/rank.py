"""Rank by block and byte: the ones below a vertex, from the super count of its block and the bytes of that block."""

from canvas import FILL, PALE, SOFT, WARN, Canvas
from model import compact_vertices, first_seed, vertex_count

COUNT, VERTEX, BLOCK = 1_000, 700, 512


def occupancy():
    """The occupancy of a compact index of the keys 1 to 1,000."""
    m = -(-vertex_count(COUNT) // 3) * 3
    _, _, order = first_seed(list(range(1, COUNT + 1)), m, compact_vertices)
    bits = [0] * m
    for _, v in order:
        bits[v] = 1
    return bits


def blocks(canvas, bits, supers):
    canvas.words(20, 66, "super counts: the ones before each block of 512 bits, and last the ones below m", 13, PALE)
    for i, count in enumerate(supers):
        own = i == VERTEX // BLOCK
        canvas.cell(20 + 205 * i, 80, 120, 30, count, SOFT if own else FILL)
        last = i == len(supers) - 1
        said = f"below m = {len(bits):,}" if last else f"below {BLOCK * i:,}"
        canvas.words(20 + 205 * i, 128, said, 12, PALE, mono=True)


def bytes_of_block(canvas, bits):
    """The whole bytes up to the vertex, and the part of its own byte."""
    first, own = VERTEX // BLOCK * BLOCK // 8, VERTEX // 8
    canvas.words(20, 172, f"bytes {first} to {own} of the occupancy: the ones of each, counted with the language's own count", 13, PALE)
    for at, number in enumerate(range(first, own + 1)):
        ones = sum(bits[8 * number : min(8 * number + 8, VERTEX)])
        canvas.cell(20 + 33 * at, 184, 31, 28, ones, WARN if number == own else FILL, size=12)
    canvas.words(20 + 33 * (own - first) - 6, 230, f"byte {own}", 12, PALE, mono=True)


def masked_byte(canvas, bits):
    own, take = VERTEX // 8, VERTEX % 8
    canvas.words(20, 280, f"vertex {VERTEX} is bit {take} of byte {own}: the bits below it are kept by the mask {(1 << take) - 1:#04x}", 13, PALE)
    for bit in range(8):
        fill = WARN if bit < take else FILL
        canvas.cell(20 + 40 * bit, 292, 38, 30, bits[8 * own + bit], fill)
        canvas.words(39 + 40 * bit, 340, bit, 11, PALE, "middle", mono=True)


def main():
    bits = occupancy()
    count = -(-len(bits) // BLOCK) + 1
    supers = [sum(bits[: BLOCK * i]) for i in range(count)]
    block = VERTEX // BLOCK
    whole = sum(bits[BLOCK * block : VERTEX // 8 * 8])
    part = sum(bits[VERTEX // 8 * 8 : VERTEX])
    rank = supers[block] + whole + part
    assert rank == sum(bits[:VERTEX]) and supers[-1] == COUNT
    canvas = Canvas(880, 420, "Rank by block and byte")
    canvas.words(20, 34, f"Rank of vertex {VERTEX} in a compact index of {COUNT:,} keys", 16, bold=True)
    blocks(canvas, bits, supers)
    bytes_of_block(canvas, bits)
    masked_byte(canvas, bits)
    canvas.words(20, 392, f"{supers[block]} before the block + {whole} in its whole bytes + {part} in the last = rank {rank}", 15, bold=True)
    canvas.show()


main()
