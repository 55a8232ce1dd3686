"""The picture of a release: for each block its bytes and its atoms before and after, drawn as bars in the page itself."""
import html

ROW, WIDTH, LABEL, BAR = 30, 680, 170, 190


def bar(x, y, part, whole, most, colour):
    """Two bars, one over the other: before in grey, after in colour, with their numbers."""
    scale = BAR / max(most, 1)
    numbers = '<text x="%d" y="%d" class="number">%d → %d</text>' % (x + BAR + 6, y + 17, whole, part)
    return (
        '<rect x="%d" y="%d" width="%.1f" height="9" class="before"/>' % (x, y + 4, max(whole * scale, 0.5))
        + '<rect x="%d" y="%d" width="%.1f" height="9" class="%s"/>' % (x, y + 14, max(part * scale, 0.5), colour)
        + numbers
    )


def picture(rows):
    """Rows of (name, bytes before, bytes after, atoms before, atoms after)."""
    most_bytes = max((row[1] for row in rows), default=1)
    most_atoms = max((row[3] for row in rows), default=1)
    height = 34 + ROW * len(rows)
    second = LABEL + BAR + 80
    parts = ['<svg viewBox="0 0 %d %d" role="img" aria-label="Bytes and atoms of each block before and after">' % (WIDTH + 60, height)]
    parts.append('<text x="%d" y="16" class="head">bytes before → after</text><text x="%d" y="16" class="head">atoms before → after</text>' % (LABEL, second))
    for i, (name, before, after, atoms_before, atoms_after) in enumerate(rows):
        y = 26 + ROW * i
        shown = name if len(name) <= 24 else name[:23] + "…"
        parts.append('<text x="0" y="%d" class="name">%s</text>' % (y + 17, html.escape(shown)))
        parts.append(bar(LABEL, y, after, before, most_bytes, "bytes"))
        parts.append(bar(second, y, atoms_after, atoms_before, most_atoms, "atoms"))
    parts.append("</svg>")
    return "".join(parts)
