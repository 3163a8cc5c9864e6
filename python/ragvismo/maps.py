"""The map of a batch on two underlyings: what is kept, as shades over both prices, and the states
of the measure."""

from __future__ import annotations

from collections.abc import Iterator
from typing import Any, NamedTuple

from ragvismo.cleared import Cleared, State
from ragvismo.tables import Layout, traded

Point = tuple[float, float]
Limits = tuple[float, float]
MOST_LINES = 48
GRID = 301
LEAST_SIZE, SIZE_OF_MASS = 20.0, 160.0  # of a circle, in square points
RAY_SIZE = 60.0
TICK_PAD = 4.5  # so that no circle on an axis meets its labels


class Bend(NamedTuple):
    """The line a + b x + c y = 0 of prices at which a leg begins to pay."""

    a: float
    b: float
    c: float

    def at(self, point: Point) -> float:
        return self.a + self.b * point[0] + self.c * point[1]


class Box(NamedTuple):
    """A part of the picture, in inches from the map's lower left corner."""

    left: float
    bottom: float
    right: float
    top: float

    def meets(self, other: Box) -> bool:
        return (
            self.left < other.right
            and other.left < self.right
            and self.bottom < other.top
            and other.bottom < self.top
        )


def draw(axes: Any, cleared: Cleared, limits: Limits | None) -> Any:
    """Draws the map into axes; what its shades are told by, or None where all is the same."""
    bends = [Bend(*map(float, form)) for form in _forms(cleared)]
    start, end = limits or (0.0, _edge(cleared))
    shades = _show_shades(axes, cleared, bends, end)
    for number, bend in enumerate(bends if len(bends) <= MOST_LINES else [], 1):
        _show_bend(axes, bend, end, f"breakpoint-{number}")
    for number, it in enumerate(cleared.certificate.measure, 1):
        x, y = _point(it, end)
        marker = "o" if not it.is_ray else ">" if it.entries[1] >= it.entries[2] else "^"
        look: dict[str, Any] = {"mfc": "k" if it.is_ray else "w", "mec": "k", "zorder": 3}
        about = {"ms": _size(it) ** 0.5, "marker": marker, "gid": f"state-{number}"}
        axes.plot([x], [y], clip_on=bool(limits), **about, **look)
    axes.tick_params(pad=TICK_PAD)
    axes.set(xlim=(start, end), ylim=(start, end))
    axes.set(xlabel="price of the first underlying (ticks)")
    axes.set(ylabel="price of the second underlying (ticks)")
    return shades


def _point(state: State, end: float) -> Point:
    """Where a state stands: a ray at the edge that it leaves by."""
    if state.is_ray:
        x, y = (end * entry / max(state.entries) for entry in state.entries[1:])
    else:
        x, y = map(float, state.prices)
    return x, y


def _size(state: State) -> float:
    return RAY_SIZE if state.is_ray else LEAST_SIZE + SIZE_OF_MASS * float(state.mass)


def legend(cleared: Cleared, shaded: bool) -> Iterator[Any]:
    """What lines, circles and triangles stand for."""
    from matplotlib.lines import Line2D

    if shaded:
        yield Line2D([], [], color="k", lw=0.6, label="equal amounts")
        for name, _, look in _levels(cleared):
            yield Line2D([], [], color="k", ls=look, lw=1.2, label=f"{name}, in the bar")
    if 0 < len(_forms(cleared)) <= MOST_LINES:
        yield Line2D([], [], color="k", ls=":", lw=0.8, label="a payoff bends")
    circle: dict[str, Any] = {"ls": "", "marker": "o", "mfc": "w", "mec": "k"}
    if any(not it.is_ray for it in cleared.certificate.measure):
        for mass in (0.1, 0.5):
            size = (LEAST_SIZE + SIZE_OF_MASS * mass) ** 0.5
            yield Line2D([], [], ms=size, label=f"state of mass {mass:g}", **circle)
    if any(it.is_ray for it in cleared.certificate.measure):
        ray = {**circle, "marker": "^", "mfc": "k", "ms": RAY_SIZE**0.5}
        yield Line2D([], [], label="ray", **ray)


def _forms(cleared: Cleared) -> list[tuple[int, ...]]:
    """The different options that filled orders hold."""
    return sorted({leg.option.form for order in traded(cleared) for leg in order.legs})


def _edge(cleared: Cleared) -> float:
    """The greatest price of the map: a quarter above all prices at which something happens on an
    axis or in the measure."""
    places = [abs(form[0] / weight) for form in _forms(cleared) for weight in form[1:] if weight]
    states = [it for it in cleared.certificate.measure if not it.is_ray]
    places += [float(price) for it in states for price in it.prices]
    return 1.25 * max(places, default=0.0) or 1.0


def _show_shades(axes: Any, cleared: Cleared, bends: list[Bend], end: float) -> Any:
    """What is kept as shades with lines of equal amounts, from the least on the map to the most."""
    from matplotlib.ticker import MaxNLocator

    triangles = _triangles(bends, end) if len(bends) <= MOST_LINES else _fine_grid(end)
    kept = _kept_at(cleared, triangles.x, triangles.y)
    low, high = float(kept.min()), float(kept.max())
    if high - low <= 1e-9 * max(1.0, abs(high)):
        text = f"the same at all prices: {high:g} ticks"
        axes.text(0.5, 0.5, text, ha="center", transform=axes.transAxes)
        return None
    levels = MaxNLocator(12).tick_values(low, high + 1e-6 * (high - low))
    shades = axes.tricontourf(triangles, kept, levels=levels, cmap="Greys", alpha=0.7)
    axes.tricontour(triangles, kept, levels=levels[1:-1], colors="k", linewidths=0.4)
    return shades


def _kept_at(cleared: Cleared, x: Any, y: Any) -> Any:
    """What is kept at many prices, in floats that are close enough to draw."""
    import numpy

    kept = numpy.full(len(x), float(cleared.premium))
    for order in traded(cleared):
        for leg in order.legs:
            strike, first, second = leg.option.form
            pays = numpy.maximum(0, strike + first * x + second * y)
            kept -= order.sign * float(order.fill) * leg.count * pays
    return kept.round(6)


def _triangles(bends: list[Bend], end: float) -> Any:
    """Triangles on none of which anything bends: the square of the map, cut along all bends."""
    from matplotlib.tri import Triangulation

    cells: list[list[Point]] = [[(0.0, 0.0), (end, 0.0), (end, end), (0.0, end)]]
    for bend in bends:
        cells = [part for cell in cells for part in _cut(cell, bend, end)]
    numbers: dict[Point, int] = {}
    triangles = []
    for cell in cells:
        corners = [
            numbers.setdefault((round(x / end, 9), round(y / end, 9)), len(numbers))
            for x, y in cell
        ]
        corners = [it for it, after in zip(corners, corners[1:] + corners[:1]) if it != after]
        triangles += [[corners[0], *pair] for pair in zip(corners[1:], corners[2:])]
    places = ([end * point[axis] for point in numbers] for axis in (0, 1))
    return Triangulation(*places, triangles)


def _cut(cell: list[Point], bend: Bend, end: float) -> list[list[Point]]:
    """A convex cell cut along a line: one or two cells."""
    near = 1e-9 * end * max(abs(bend.b), abs(bend.c))
    heights = [0.0 if abs(bend.at(corner)) <= near else bend.at(corner) for corner in cell]
    if min(heights) >= 0 or max(heights) <= 0:
        return [cell]
    parts: tuple[list[Point], list[Point]] = [], []
    for place, (corner, height) in enumerate(zip(cell, heights)):
        for part, sign in zip(parts, (1, -1)):
            if sign * height >= 0:
                part.append(corner)
        before, other = cell[place - 1], heights[place - 1]
        if height * other < 0:
            share = other / (other - height)
            across, along = corner[0] - before[0], corner[1] - before[1]
            crossing = before[0] + share * across, before[1] + share * along
            for part, sign in zip(parts, (1, -1)):
                part.insert(len(part) - (sign * height >= 0), crossing)
    return list(parts)


def _fine_grid(end: float) -> Any:
    """Triangles of a fine grid, for more bends than a reader could follow."""
    import numpy
    from matplotlib.tri import Triangulation

    first, second = numpy.meshgrid(numpy.linspace(0, end, GRID), numpy.linspace(0, end, GRID))
    corner = numpy.arange(GRID * GRID).reshape(GRID, GRID)
    low, right = corner[:-1, :-1].ravel(), corner[:-1, 1:].ravel()
    up, both = corner[1:, :-1].ravel(), corner[1:, 1:].ravel()
    halves = numpy.stack([low, right, both], 1), numpy.stack([low, both, up], 1)
    return Triangulation(first.ravel(), second.ravel(), numpy.concatenate(halves))


def _show_bend(axes: Any, bend: Bend, end: float, gid: str) -> None:
    look: dict[str, Any] = {"color": "k", "ls": ":", "lw": 0.6, "gid": gid}
    if bend.c:
        ends = [-bend.a / bend.c, -(bend.a + bend.b * end) / bend.c]
        axes.plot([0, end], ends, **look)
    elif -bend.a / bend.b > 0:
        axes.axvline(-bend.a / bend.b, **look)


class Mark(NamedTuple):
    """A state on the map: its number in the measure, its prices, and its place and radius in
    inches from the map's lower left corner."""

    number: int
    prices: Point
    at: Point
    radius: float

    @property
    def box(self) -> Box:
        (x, y), by = self.at, self.radius
        return Box(x - by, y - by, x + by, y + by)

    def far(self, x: float, y: float) -> float:
        """How far a place is from the circle."""
        return float(((self.at[0] - x) ** 2 + (self.at[1] - y) ** 2) ** 0.5 - self.radius)


def number_states(axes: Any, cleared: Cleared, layout: Layout) -> None:
    """Gives each state its number in the measure, where no other circle and no other number is; the
    place of the axes in the figure must stand."""
    start, end = axes.get_xlim()
    extent = axes.get_window_extent()
    ends = extent.width / axes.figure.dpi, extent.height / axes.figure.dpi
    marks = []
    for number, it in enumerate(cleared.certificate.measure, 1):
        x, y = point = _point(it, end)
        if start <= min(x, y) <= max(x, y) <= end:
            at = ends[0] * (x - start) / (end - start), ends[1] * (y - start) / (end - start)
            marks.append(Mark(number, point, at, _size(it) ** 0.5 / 144))
    box = {"boxstyle": "round,pad=0.1", "fc": "w", "ec": "none", "alpha": 0.8}
    text: dict[str, Any] = {"ha": "center", "va": "center", "fontsize": layout.letters - 1}
    about = {"textcoords": "offset points", "zorder": 4, "bbox": box, "annotation_clip": False}
    numbers: list[Box] = []
    for mark in marks:
        others = [it for it in marks if it is not mark]
        place = _free_place(mark, others, numbers, ends, layout)
        numbers.append(place)
        offset = [36 * (low + high) for low, high in (place[::2], place[1::2])]
        offset = [to - 72 * of for to, of in zip(offset, mark.at)]
        named = axes.annotate(str(mark.number), mark.prices, offset, **about, **text)
        named.set_in_layout(False)


def _free_place(
    mark: Mark, others: list[Mark], numbers: list[Box], ends: Point, layout: Layout
) -> Box:
    """The place of a number beside its circle: of eight the first that is free, on the map, and
    nearer to no other circle, else the one that is least at fault."""
    taken = [*(it.box for it in others), *numbers]
    wide, high = layout.inches(str(mark.number)) / 2 + 0.03, layout.letter / 2
    best: tuple[float, Box] | None = None
    for across, along in ((1, 1), (-1, 1), (1, -1), (-1, -1), (1, 0), (-1, 0), (0, 1), (0, -1)):
        radius = mark.radius * (0.75 if across and along else 1.0)
        x = mark.at[0] + across * (radius + wide)
        y = mark.at[1] + along * (radius + high)
        box = Box(x - wide, y - high, x + wide, y + high)
        cost = float(sum(map(box.meets, taken)))
        cost += 0.5 * (x - wide < 0 or y - high < 0 or x + wide > ends[0] or y + high > ends[1])
        cost += 0.6 * any(it.far(x, y) < mark.far(x, y) for it in others)
        if best is None or cost < best[0]:
            best = cost, box
    assert best
    return best[1]


def show_scale(figure: Any, axes: Any, shades: Any, cleared: Cleared) -> None:
    """The bar of the shades, with the surplus and the bound marked on it."""
    label = "premium less net payoff (ticks)"
    scale = figure.colorbar(shades, ax=axes, label=label, format="%.6g", pad=0.02).ax
    low, high = scale.get_ylim()
    for name, amount, look in _levels(cleared):
        if low <= amount <= high:
            # It begins beside the bar, since it may lie on the bar's end.
            line = scale.axhline(amount, -0.35, color="k", ls=look, lw=1.2, gid=name)
            line.set_clip_on(False)


def _levels(cleared: Cleared) -> Iterator[tuple[str, float, Any]]:
    """The surplus, and the bound where it is another: name, amount and kind of line, of pieces that
    are short beside the bar's width."""
    yield "surplus", float(cleared.surplus), (0, (2.5, 1))
    if cleared.bound not in (None, cleared.surplus):
        yield "bound", float(cleared.bound or 0), (0, (2.5, 1, 0.7, 1))
