"""Peeling and the reverse assign on five keys: rows are keys, columns are vertices."""

from canvas import FILL, LINE, MARK, PALE, SOFT, Canvas
from model import assign, assigned_vertices, first_seed, vertex_count

KEYS, VALUES, MODULUS = [10, 20, 30, 40, 50], [3, 0, 4, 1, 2], 5
LEFT, STEP, ROW = 150, 52, 38


def column(v):
    return LEFT + STEP * v + STEP / 2


def row(canvas, y, key, edge, own):
    """The three vertices of a key, that which it is removed by in colour."""
    canvas.words(LEFT - 14, y + 5, f"key {key}", anchor="end", mono=True)
    canvas.line(column(min(edge)), y, column(max(edge)), y, LINE, 2)
    for v in edge:
        canvas.dot(column(v), y, 9, MARK if v == own else "white")


def peeling(canvas, edges, order, m):
    canvas.words(20, 34, "Peeling: a vertex that one key alone touches removes that key", 16, bold=True)
    for v in range(m):
        canvas.words(column(v), 64, v, anchor="middle", mono=True, colour=PALE)
        canvas.line(column(v), 72, column(v), 84 + ROW * len(order), "#e3e8ee")
    canvas.words(LEFT - 14, 64, "vertex", anchor="end", colour=PALE)
    for turn, (number, own) in enumerate(order):
        y = 96 + ROW * turn
        row(canvas, y, KEYS[number], edges[number], own)
        canvas.words(column(m) - 10, y + 5, f"{turn + 1}. by vertex {own}", colour=PALE)
    canvas.words(20, 100 + ROW * len(order), "Below a row no key touches its coloured vertex: that is the order document 01 asks for.", 13, PALE)


def assigning(canvas, top, turns, table, m):
    canvas.words(20, top, "Assigning in reverse: the coloured word is what the key still needs", 16, bold=True)
    words = [0] * m
    for turn, (number, own, others, word) in enumerate(turns):
        y = top + 18 + ROW * turn
        words[own] = word
        canvas.words(LEFT - 14, y + 21, f"key {KEYS[number]}", anchor="end", mono=True)
        for v in range(m):
            canvas.cell(LEFT + STEP * v + 4, y, STEP - 8, 30, words[v], SOFT if v == own else FILL)
        canvas.words(column(m) - 10, y + 20, f"value {VALUES[number]}: {others} + {word} = {VALUES[number]} mod {MODULUS}", mono=True, size=12)
    assert words == table
    canvas.words(20, top + 40 + ROW * len(turns), f"The last row is the table. Each key's three words sum to its value modulo {MODULUS}.", 13, PALE)


def main():
    m = vertex_count(len(KEYS))
    seed, edges, order = first_seed(KEYS, m, assigned_vertices)
    table, turns = assign(edges, order, m, MODULUS, lambda number, v: VALUES[number])
    for value, edge in zip(VALUES, edges):
        assert sum(table[v] for v in edge) % MODULUS == value
    canvas = Canvas(860, 590, "Peeling and the reverse assign on five keys")
    peeling(canvas, edges, order, m)
    assigning(canvas, 340, turns, table, m)
    canvas.show()


main()
