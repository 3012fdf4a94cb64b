"""A key's way from id to slot, in an assigned index and in a compact one of the same five keys."""

from canvas import FILL, PALE, SOFT, WARN, Canvas
from model import MASK, assign, assigned_vertices, compact_vertices, first_seed, hash_of, vertex_count

KEYS, VALUES, MODULUS, ASKED = [10, 20, 30, 40, 50], [3, 0, 4, 1, 2], 5, 2
NAMES = "abc"


def head(canvas, x, seed):
    """From the id to the mixed word, of which each vertex takes a turn."""
    key = KEYS[ASKED]
    steps = [("id", key), ("+ seed", key + seed & MASK), ("mix64", hash_of(key, seed))]
    for at, (name, value) in enumerate(steps):
        y = 60 + 46 * at
        canvas.words(x + 68, y + 19, name, anchor="end", colour=PALE)
        canvas.cell(x + 78, y, 190, 28, f"{value:016x}", size=13)
        if at:
            canvas.arrow(x + 173, y - 18, x + 173, y)
    for i, turn in enumerate((0, 21, 42)):
        top = x + 28 + 104 * i
        canvas.arrow(x + 173, 180, top + 46, 218)
        canvas.words(top + 46, 234, "h" if turn == 0 else f"h turned {turn}", 12, PALE, "middle")


def vertices_row(canvas, x, edge, table, says):
    """The vertices, and the word of each."""
    for i, v in enumerate(edge):
        left = x + 28 + 104 * i
        canvas.arrow(left + 46, 240, left + 46, 262)
        canvas.cell(left, 262, 92, 28, f"{NAMES[i]} = {v}")
        canvas.arrow(left + 46, 290, left + 46, 318)
        canvas.cell(left, 318, 92, 28, f"word {table[v]}", SOFT)
        canvas.arrow(left + 46, 346, x + 173, 376)
    canvas.words(x + 345, 281, says, 12, PALE)
    canvas.words(x + 345, 337, "from the image's pages", 12, PALE)


def assigned(canvas, x):
    m = vertex_count(len(KEYS))
    seed, edges, order = first_seed(KEYS, m, assigned_vertices)
    table, _ = assign(edges, order, m, MODULUS, lambda number, v: VALUES[number])
    canvas.words(x + 28, 34, "Assigned (BDZ2): the slot is the key's value", 16, bold=True)
    head(canvas, x, seed)
    edge = edges[ASKED]
    vertices_row(canvas, x, edge, table, f"high half times m = {m}")
    total = sum(table[v] for v in edge)
    canvas.cell(x + 78, 376, 190, 28, f"sum {total}")
    canvas.arrow(x + 173, 404, x + 173, 432)
    canvas.cell(x + 78, 432, 190, 34, f"{total} mod {MODULUS} = slot {total % MODULUS}", WARN)
    assert total % MODULUS == VALUES[ASKED]


def compact(canvas, x):
    m = -(-vertex_count(len(KEYS)) // 3) * 3
    seed, edges, order = first_seed(KEYS, m, compact_vertices)
    table, _ = assign(edges, order, m, 3, lambda number, v: v // (m // 3))
    canvas.words(x + 28, 34, "Compact (BDZ3): the slot is a rank", 16, bold=True)
    head(canvas, x, seed)
    edge = edges[ASKED]
    vertices_row(canvas, x, edge, table, f"one in each third of m = {m}")
    total = sum(table[v] for v in edge)
    own = edge[total % 3]
    occupied = sorted(v for _, v in order)
    assert own in occupied
    canvas.cell(x + 78, 376, 190, 28, f"{total} mod 3: {NAMES[total % 3]} = {own}")
    canvas.arrow(x + 173, 404, x + 173, 432)
    slot = sum(v < own for v in occupied)
    canvas.cell(x + 78, 432, 190, 34, f"ones below {own}: slot {slot}", WARN)
    for v in range(m):
        canvas.cell(x + 28 + 32 * v, 486, 30, 24, int(v in occupied), SOFT if v == own else FILL, size=12)
        canvas.words(x + 43 + 32 * v, 526, v, 11, PALE, "middle", mono=True)
    canvas.words(x + 28, 548, "occupancy: one bit a vertex", 12, PALE)


def main():
    canvas = Canvas(1060, 566, "A key's way from id to slot")
    assigned(canvas, 0)
    canvas.line(530, 20, 530, 546, dashed=True)
    compact(canvas, 540)
    canvas.show()


main()
