"""An index as document 01 tells it, in a few lines: the drawings take their numbers from here, and none is typed by hand."""

MASK = 2**64 - 1
FIRST_STATE = 0x9E3779B97F4A7C15


def splitmix64(state):
    """The next state, and the seed that it gives."""
    state = (state + 0x9E3779B97F4A7C15) & MASK
    z = (state ^ state >> 30) * 0xBF58476D1CE4E5B9 & MASK
    z = (z ^ z >> 27) * 0x94D049BB133111EB & MASK
    return state, z ^ z >> 31


def mix64(k):
    k = (k ^ k >> 33) * 0xFF51AFD7ED558CCD & MASK
    k = (k ^ k >> 33) * 0xC4CEB9FE1A85EC53 & MASK
    return k ^ k >> 33


def rotated(x, count):
    return (x << count | x >> 64 - count) & MASK


def highs(h, p):
    """The high 64 bits of h, h rotated left 21 and h rotated left 42, each times p."""
    return [x * p >> 64 for x in (h, rotated(h, 21), rotated(h, 42))]


def assigned_from(h, m):
    a, b, c = highs(h, m)
    if b == a:
        b = (b + 1) % m
    for _ in range(2):
        if c in (a, b):
            c = (c + 1) % m
    return [a, b, c]


def compact_from(h, m):
    p = m // 3
    a, b, c = highs(h, p)
    return [a, p + b, 2 * p + c]


# document 01's rows of vertices
assert [assigned_from(h, 5) for h in (0, 2**63, MASK)] == [[0, 1, 2], [2, 0, 1], [4, 0, 1]]
assert [compact_from(h, 6) for h in (0, MASK)] == [[0, 2, 4], [1, 3, 5]]


def hash_of(key, seed):
    return mix64(key + seed & MASK)


def assigned_vertices(key, seed, m):
    return assigned_from(hash_of(key, seed), m)


def compact_vertices(key, seed, m):
    return compact_from(hash_of(key, seed), m)


def vertex_count(n):
    return max(-(-123 * n // 100), n + 3)


def peeled(edges, m):
    """The order of removal as (key number, vertex), or None where keys are left."""
    touching = [{number for number, edge in enumerate(edges) if v in edge} for v in range(m)]
    queue = [v for v in range(m) if len(touching[v]) == 1]
    order = []
    for v in queue:
        if len(touching[v]) != 1:
            continue
        (number,) = touching[v]
        order.append((number, v))
        for w in edges[number]:
            touching[w].discard(number)
            if len(touching[w]) == 1:
                queue.append(w)
    return order if len(order) == len(edges) else None


def first_seed(keys, m, vertices):
    """The first seed that works, with the vertices of each key and the order."""
    state = FIRST_STATE
    for _ in range(256):
        state, seed = splitmix64(state)
        edges = [vertices(key, seed, m) for key in keys]
        order = peeled(edges, m)
        if order:
            return seed, edges, order
    raise SystemExit("no seed works")


def assign(edges, order, m, modulus, wanted):
    """The table; and for each turn the key's number, its vertex, the sum of the other words and the word. `wanted` gives what a key
    and its vertex come to."""
    table, turns = [0] * m, []
    for number, v in reversed(order):
        others = sum(table[w] for w in edges[number])
        table[v] = (wanted(number, v) - others) % modulus
        turns.append((number, v, others, table[v]))
    return table, turns
