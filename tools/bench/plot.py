"""A plot of time over size as SVG, both axes logarithmic: ours beside the original's."""
import math

WIDTH, HEIGHT = 640, 400
LEFT, RIGHT, TOP, BOTTOM = 70, 130, 40, 50
# The name of each line, its colour, and whether it is dashed.
LINES = (("here", "#1f6f8b", ""), ("Rust crate", "#b5532a", ' stroke-dasharray="6 4"'))


def decades(values):
    """The powers of ten from below the least value to above the largest."""
    first, last = math.floor(math.log10(min(values))), math.ceil(math.log10(max(values)))
    return [10.0 ** power for power in range(first, max(last, first + 1) + 1)]


def scale(marks, start, end):
    """Where a value is between two ends, of which the marks are the first and the last."""
    low, high = math.log10(marks[0]), math.log10(marks[-1])
    return lambda value: start + (end - start) * (math.log10(value) - low) / (high - low)


def text(x, y, words, anchor="middle", more=""):
    return f'<text x="{x:.1f}" y="{y:.1f}" text-anchor="{anchor}"{more}>{words}</text>'


def grid(x_marks, y_marks, x_of, y_of):
    for mark in x_marks:
        yield f'<path d="M{x_of(mark):.1f} {TOP}V{HEIGHT - BOTTOM}" stroke="#ccc"/>'
        yield text(x_of(mark), HEIGHT - BOTTOM + 18, f"{mark:,.0f}")
    for mark in y_marks:
        yield f'<path d="M{LEFT} {y_of(mark):.1f}H{WIDTH - RIGHT}" stroke="#ccc"/>'
        yield text(LEFT - 8, y_of(mark) + 4, f"{mark:,g} ms", "end")


def line(points, name, colour, dashes):
    """A line through points, with its name at the end."""
    corners = " ".join(f"{x:.1f},{y:.1f}" for x, y in points)
    yield f'<polyline points="{corners}" fill="none" stroke="{colour}" stroke-width="2"{dashes}/>'
    for x, y in points:
        yield f'<circle cx="{x:.1f}" cy="{y:.1f}" r="3.5" fill="{colour}"/>'
    x, y = points[-1]
    yield text(x + 10, y + 4, name, "start", f' fill="{colour}"')


def svg(title, unit, rows):
    """Rows are a size, our time and the original's, in milliseconds."""
    sizes = [size for size, *_ in rows]
    x_marks, y_marks = decades(sizes), decades([time for _, *times in rows for time in times])
    x_of, y_of = scale(x_marks, LEFT, WIDTH - RIGHT), scale(y_marks, HEIGHT - BOTTOM, TOP)
    parts = [f'<svg xmlns="http://www.w3.org/2000/svg" viewBox="0 0 {WIDTH} {HEIGHT}" font-family="sans-serif" font-size="13">',
             f'<rect width="{WIDTH}" height="{HEIGHT}" fill="#fff"/>',
             text((LEFT + WIDTH - RIGHT) / 2, 22, title), text((LEFT + WIDTH - RIGHT) / 2, HEIGHT - 10, unit)]
    parts += grid(x_marks, y_marks, x_of, y_of)
    for column, one in enumerate(LINES):
        parts += line([(x_of(row[0]), y_of(row[1 + column])) for row in rows], *one)
    return "\n".join([*parts, "</svg>"]) + "\n"
