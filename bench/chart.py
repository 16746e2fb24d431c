"""Draws times against sizes, as SVG."""

WIDTH, HEIGHT = 460, 300
LEFT, RIGHT, TOP, BOTTOM = 52, 48, 40, 46
PER_ROW = 2
TICKS = 5
OMF, CAT, INK, GRID = "#1f5f99", "#b3541e", "#222", "#ddd"


def rounded_up(most):
    """The least number of one digit, or two that end in 5, that isn't below another."""
    power = 10.0 ** -6
    while 10 * power < most:
        power *= 10
    return next(step * power for step in [1, 1.5, 2, 2.5, 3, 4, 5, 6, 8, 10] if step * power >= most * 0.999999)


def text(x, y, words, anchor="middle", color=INK, size=12):
    return f'<text x="{x:.1f}" y="{y:.1f}" text-anchor="{anchor}" font-size="{size}" fill="{color}">{words}</text>'


def line(x1, y1, x2, y2, color=GRID):
    return f'<line x1="{x1:.1f}" y1="{y1:.1f}" x2="{x2:.1f}" y2="{y2:.1f}" stroke="{color}"/>'


class Panel:
    """One drawing: milliseconds, by a count."""

    def __init__(self, title, points):
        self.title = title
        self.points = [(count, 1000 * omf, 1000 * cat) for count, omf, cat in points]
        self.most_count = points[-1][0]
        self.most_time = rounded_up(max(max(point[1:]) for point in self.points))

    def x(self, count):
        return LEFT + (WIDTH - LEFT - RIGHT) * count / self.most_count

    def y(self, time):
        return HEIGHT - BOTTOM - (HEIGHT - TOP - BOTTOM) * time / self.most_time

    def grid(self):
        """The title, the axes and their numbers."""
        yield text(LEFT, TOP - 16, f"{self.title}: milliseconds", "start", size=14)
        for tick in range(TICKS + 1):
            time = self.most_time * tick / TICKS
            yield line(LEFT, self.y(time), WIDTH - RIGHT, self.y(time))
            yield text(LEFT - 6, self.y(time) + 4, f"{time:.3g}", "end")
        for count, _, _ in self.points:
            yield text(self.x(count), HEIGHT - BOTTOM + 18, f"{count:,}")

    def curve(self, column, name, color):
        """The times of a program: a line from point to point, and its name at the end."""
        places = [(self.x(point[0]), self.y(point[column])) for point in self.points]
        path = " ".join(f"{x:.1f},{y:.1f}" for x, y in places)
        yield f'<polyline points="{path}" fill="none" stroke="{color}" stroke-width="2"/>'
        for x, y in places:
            yield f'<circle cx="{x:.1f}" cy="{y:.1f}" r="3" fill="{color}"/>'
        yield text(places[-1][0] + 8, places[-1][1] + self.shift(column), name, "start", color, 13)

    def shift(self, column):
        """How far below its line's end a name stands, so that two names don't stand on one another."""
        ends = [self.y(time) for time in self.points[-1][1:]]
        if abs(ends[0] - ends[1]) >= 16:
            return 4
        is_lower = ends[column - 1] > ends[2 - column] or (ends[0] == ends[1] and column == 2)
        return 12 if is_lower else -4

    def draw(self):
        return [*self.grid(), *self.curve(2, "cat", CAT), *self.curve(1, "omf", OMF)]


def draw(panels):
    """Panels side by side; each has a title and points of a count, the seconds of omf and those of cat."""
    rows = -(-len(panels) // PER_ROW)
    size = f'width="{PER_ROW * WIDTH}" height="{rows * HEIGHT}"'
    lines = [f'<svg xmlns="http://www.w3.org/2000/svg" {size} font-family="sans-serif">']
    lines.append('<rect width="100%" height="100%" fill="#fff"/>')
    for number, (title, points) in enumerate(panels):
        lines.append(f'<g transform="translate({number % PER_ROW * WIDTH} {number // PER_ROW * HEIGHT})">')
        lines += Panel(title, points).draw()
        lines.append("</g>")
    return "\n".join([*lines, "</svg>"]) + "\n"
