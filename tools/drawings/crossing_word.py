"""A word that crosses two pages: width 3, vertex 10922, of document 01; and its slot as the pages come, in either order."""

from canvas import FILL, LINE, MARK, PALE, SOFT, WARN, Canvas

WIDTH, VERTEX, PAGE, WORD = 3, 10_922, 4_096, 0b101
START = WIDTH * VERTEX
BITS = [START + at for at in range(WIDTH)]
assert START // 8 == 4_095 and START % 8 == 6 and BITS[-1] // 8 == PAGE


def byte(canvas, x, number):
    """The bits of a byte, lowest first."""
    canvas.words(x + 108, 78, f"byte {number}", 13, PALE, "middle", mono=True)
    for bit in range(8):
        place = 8 * number + bit
        mine = place in BITS
        said = WORD >> BITS.index(place) & 1 if mine else "·"
        canvas.cell(x + 27 * bit, 88, 25, 30, said, SOFT if mine else FILL)
        canvas.words(x + 27 * bit + 12, 134, bit, 11, PALE, "middle", mono=True)


def slot(canvas, x, y, name, came):
    """The word so far and the bits still missing."""
    missing = sum(1 << at for at, bit in enumerate(BITS) if bit // 8 // PAGE not in came)
    word = WORD & ~missing
    canvas.words(x, y - 10, name, 13)
    canvas.words(x, y + 20, "missing", 12, PALE)
    canvas.words(x + 122, y + 20, "word", 12, PALE)
    for at in range(WIDTH):
        left = 26 * (WIDTH - 1 - at)
        gone = missing >> at & 1
        canvas.cell(x + 52 + left / 1.3, y, 20, 30, gone, WARN if gone else FILL, size=13)
        canvas.cell(x + 158 + left / 1.3, y, 20, 30, "" if gone else word >> at & 1, FILL if gone else SOFT, size=13)
    canvas.words(x, y + 52, "answered" if missing == 0 else "asked now: 18, waiting", 12, MARK if missing == 0 else PALE)


def main():
    canvas = Canvas(860, 420, "A word that crosses two pages")
    canvas.words(20, 34, f"Width {WIDTH}, vertex {VERTEX:,}: bit {START:,} on, the last two bits of page 0 and the first of page 1", 16, bold=True)
    byte(canvas, 190, PAGE - 1)
    byte(canvas, 450, PAGE)
    canvas.line(428, 56, 428, 146, LINE, 2, dashed=True)
    canvas.words(420, 62, "page 0", 13, anchor="end")
    canvas.words(436, 62, "page 1", 13)
    slot(canvas, 20, 260, "nothing has come", set())
    slot(canvas, 320, 200, "page 0 came first", {0})
    slot(canvas, 320, 330, "page 1 came first", {1})
    slot(canvas, 620, 260, "both have come", {0, 1})
    for y1, y2 in ((260, 210), (290, 340)):
        canvas.arrow(236, y1, 306, y2)
        canvas.arrow(536, y2, 606, y1)
    canvas.show()


main()
