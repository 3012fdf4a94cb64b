"""Lists and images as document 01 tells them, made here and not by the programs."""
import functools
import os
import sys

from room import TOP

sys.path.insert(0, os.path.join(TOP, "examples"))
sys.path.insert(0, os.path.join(TOP, "tools", "drawings"))
from make_list import assigned, compact  # noqa: E402,F401
import model  # noqa: E402

# document 01's list of key 7
ONE = bytes.fromhex("4B4D060000004B56070000000000000005000000")


def vertices(n):
    return n if n < 2 else model.vertex_count(n)


def raised(m):
    return -(-m // 3) * 3


def width(modulus):
    return max(1, (modulus - 1).bit_length()) if modulus else 1


def lines(magic, n, m, bits, keys, same):
    return f"image {magic} n={n} m={m} bits={bits}\nkeys={keys} same={same} other={keys - same}\n"


def header(magic, version, n, m, seed, modulus, bits):
    fields = ((version, 4), (n, 4), (m, 4), (seed, 8), (modulus, 4), (bits, 4))
    return magic + b"".join(value.to_bytes(size, "little") for value, size in fields)


def packed(table, bits):
    """The table, low bits first, each word masked to the width, the last byte padded with zeros."""
    eights = [table[at:at + 8] for at in range(0, len(table), 8)]
    numbers = [sum((word % 2**bits) << (bits * i) for i, word in enumerate(words)) for words in eights]
    return b"".join(number.to_bytes(-(-len(words) * bits // 8), "little") for words, number in zip(eights, numbers))


def keys_of(n):
    return [(i * 0x9E3779B97F4A7C15 + 12345) % 2**64 for i in range(n)]


def pairs_of(n, modulus):
    return [(key, (i * 7 + 3) % modulus) for i, key in enumerate(keys_of(n))]


@functools.lru_cache(maxsize=None)
def assigned_table(pairs, modulus):
    """The seed of an assigned build, the vertices of each key, and the table."""
    keys, values = [key for key, _ in pairs], [value for _, value in pairs]
    if len(keys) == 1:
        return 1, [[0]], values
    m = vertices(len(keys))
    seed, edges, order = model.first_seed(keys, m, model.assigned_vertices)
    return seed, edges, model.assign(edges, order, m, modulus, lambda number, _: values[number])[0]


def assigned_image(pairs, modulus, bits):
    """The image of an assigned build at a width, and how many keys it answers their value."""
    n = len(pairs)
    seed, edges, table = assigned_table(tuple(pairs), modulus)
    sums = [sum(table[v] % 2**bits for v in edge) % 2**32 for edge in edges]
    answers = sums if n == 1 else [total % modulus for total in sums]
    image = header(b"BDZ2", 1, n, vertices(n), seed, modulus, bits) + packed(table, bits)
    return image, sum(answer == value for answer, (_, value) in zip(answers, pairs))
