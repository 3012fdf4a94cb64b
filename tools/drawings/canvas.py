"""A sheet that lines, boxes and words are put on, and that prints itself as SVG."""

from html import escape

INK, PALE, LINE = "#1f2933", "#5f6c7b", "#9aa5b1"
FILL, MARK, SOFT, WARN = "#eef2f6", "#2f6fb0", "#cfe1f3", "#f6d8b8"


class Canvas:
    def __init__(self, width, height, title):
        self.parts = [
            f'<svg xmlns="http://www.w3.org/2000/svg" viewBox="0 0 {width} {height}" width="{width}" height="{height}" '
            f'font-family="Helvetica, Arial, sans-serif" font-size="14" fill="{INK}">',
            f"<title>{escape(title)}</title>",
            '<defs><marker id="tip" viewBox="0 0 8 8" refX="7" refY="4" markerWidth="7" markerHeight="7" orient="auto">'
            f'<path d="M0 0L8 4L0 8z" fill="{PALE}"/></marker></defs>',
            f'<rect width="{width}" height="{height}" fill="white"/>',
        ]

    def words(self, x, y, said, size=14, colour=INK, anchor="start", mono=False, bold=False):
        family = ' font-family="DejaVu Sans Mono, Menlo, monospace"' if mono else ""
        weight = ' font-weight="bold"' if bold else ""
        self.parts.append(
            f'<text x="{x}" y="{y}" font-size="{size}" fill="{colour}" text-anchor="{anchor}"{family}{weight}>{escape(str(said))}</text>'
        )

    def box(self, x, y, width, height, fill=FILL, line=LINE):
        self.parts.append(f'<rect x="{x}" y="{y}" width="{width}" height="{height}" rx="3" fill="{fill}" stroke="{line}"/>')

    def cell(self, x, y, width, height, said, fill=FILL, colour=INK, size=14):
        """A box with words in its middle."""
        self.box(x, y, width, height, fill)
        self.words(x + width / 2, y + height / 2 + size * 0.36, said, size, colour, "middle", mono=True)

    def arrow(self, x1, y1, x2, y2):
        self.parts.append(f'<path d="M{x1} {y1}L{x2} {y2}" stroke="{PALE}" stroke-width="1.3" fill="none" marker-end="url(#tip)"/>')

    def line(self, x1, y1, x2, y2, colour=LINE, width=1, dashed=False):
        dash = ' stroke-dasharray="5 4"' if dashed else ""
        self.parts.append(f'<path d="M{x1} {y1}L{x2} {y2}" stroke="{colour}" stroke-width="{width}"{dash}/>')

    def dot(self, x, y, radius, fill, line=INK):
        self.parts.append(f'<circle cx="{x}" cy="{y}" r="{radius}" fill="{fill}" stroke="{line}"/>')

    def show(self):
        print("\n".join(self.parts + ["</svg>"]))
