"""Pictures of a cleared batch, or of a depth, for a page or a column of a paper.

On one underlying: what the house keeps of the premium after the net payoff, over the price at
settlement, with the surplus below it, the bound where there is one, and the measure. On two: the
same as a map over both prices, with the states of the measure by number. On more the states alone,
and always below it the orders that traded. Of a depth: what would be filled, over the limit.
"""

from __future__ import annotations

import pathlib
from collections.abc import Sequence
from fractions import Fraction
from typing import Any, Literal

from ragvismo import depths, maps, tables
from ragvismo.cleared import Cleared
from ragvismo.exchange import Depth
from ragvismo.maps import Limits
from ragvismo.program import Path
from ragvismo.tables import Layout, brief, traded

Size = Literal["page", "column"]
ENDINGS = (".svg", ".png", ".pdf")
LOOK: dict[str, Any] = {
    "svg.fonttype": "none",
    "svg.hashsalt": "exchange",
    "pdf.fonttype": 42,
    "ps.fonttype": 42,
    "savefig.dpi": 300,
    "figure.dpi": 100,
}
BARS = 60  # so many bars would fill an axis of prices
FARTHEST = 1e15  # no price that is shown is farther from 0
LAYOUTS: dict[Size, Layout] = {"page": Layout(7.0, 8, 14), "column": Layout(3.4, 6.5, 8)}


def picture(
    of: Cleared | Depth,
    size: Size = "page",
    *,
    axes: Any = None,
    title: str | None = None,
    limits: Limits | None = None,
) -> Any:
    """Draws a batch, or a depth, as a figure of matplotlib, 7 inches wide for a page or 3.4 for a
    column. `save` writes it, with its text as text, into a file.

    With `axes` only the curve (of one underlying, or of a depth) or the map (of two) is drawn, into
    these, without a legend, and their figure is answered; more underlyings have neither, which is a
    ValueError. `title` takes the place of what is told, nothing where it is empty. `limits` are the
    least and the greatest price that are shown, in ticks, of each underlying.
    """
    import matplotlib
    from matplotlib import pyplot

    layout = LAYOUTS[size]
    if limits and not -FARTHEST <= limits[0] < limits[1] <= FARTHEST:
        raise ValueError(f"the limits {limits} do not rise, or are beyond all prices")
    with matplotlib.rc_context({**LOOK, "font.size": layout.letters}):
        if axes is not None:
            return _into(axes, of, layout, title, limits)
        if isinstance(of, Depth):
            figure = depths.figure(of, layout, title, limits)
        else:
            draw = {1: _draw_line, 2: _draw_map}.get(of.underlyings, _draw_states)
            figure = draw(of, layout, title, limits)
    pyplot.close(figure)  # else a notebook shows it twice, and pyplot keeps it
    return figure


def save(
    of: Cleared | Depth,
    path: Path,
    size: Size = "page",
    *,
    title: str | None = None,
    limits: Limits | None = None,
) -> None:
    """Draws a batch or a depth into a file: svg or pdf with its text as text, or png at 300 dots an
    inch.

    Raises ValueError at another ending, and OSError where the file cannot be written."""
    import matplotlib

    ending = pathlib.Path(path).suffix
    if ending not in ENDINGS:
        raise ValueError(f"{path} does not end with one of {', '.join(ENDINGS)}")
    figure = picture(of, size, title=title, limits=limits)
    with matplotlib.rc_context({**LOOK, "font.size": LAYOUTS[size].letters}):
        about = {".svg": {"Date": None}, ".pdf": {"CreationDate": None}}.get(ending)
        figure.savefig(path, metadata=about)


def title_of(cleared: Cleared) -> str:
    """What is told of a batch above its picture."""
    ticks = "" if cleared.surplus == 1 else "s"
    told = f"market {cleared.market}, batch {cleared.number}, mark {cleared.mark}"
    told += f", surplus {brief(cleared.surplus, 12)} tick{ticks}"
    if cleared.bound is None or cleared.bound == cleared.surplus:
        return told
    surplus, bound = brief(cleared.surplus, 12), brief(cleared.bound, 12)
    assert cleared.gap is not None
    return told + (
        f", bound {bound}" if bound != surplus else f", bound {float(cleared.gap):.1g} more"
    )


def _into(
    axes: Any, of: Cleared | Depth, layout: Layout, title: str | None, limits: Limits | None
) -> Any:
    if isinstance(of, Depth):
        depths.draw(axes, of, limits)
    else:
        _batch_into(axes, of, layout, limits)
    if title:
        axes.set_title(title)
    return axes.figure.figure


def _batch_into(axes: Any, cleared: Cleared, layout: Layout, limits: Limits | None) -> None:
    if cleared.underlyings == 1:
        _show_kept(axes, cleared, *(limits or _ends(cleared)))
        axes.set(xlabel="price at settlement (ticks)")
    elif cleared.underlyings == 2:
        maps.draw(axes, cleared, limits)
        axes.figure.figure.draw_without_rendering()
        maps.number_states(axes, cleared, layout)
    else:
        raise ValueError("a batch on more than two underlyings has no curve and no map")
    if not traded(cleared):
        told = {"ha": "center", "va": "top", "transform": axes.transAxes}
        axes.text(0.5, 0.96, tables.of_orders(cleared).below, **told)


def _parts(cleared: Cleared, layout: Layout, heights: Sequence[float], title: str | None) -> Any:
    """A figure with parts of so many inches, one below the other, and above them what is told."""
    from matplotlib import pyplot

    told = title_of(cleared) if title is None else title
    if title is None and layout.inches(told, 0) > layout.width:
        told = told.replace(", surplus", ",\nsurplus")
    room = 1.6 * layout.letter * (1 + told.count("\n")) + 0.1
    size = layout.width, sum(heights) + room
    figure = pyplot.figure(figsize=size, layout="constrained")
    if told:
        figure.suptitle(told, fontsize="medium")
    parts = figure.subfigures(len(heights), 1, squeeze=False, height_ratios=heights)
    return figure, parts[:, 0]


def _legend(part: Any, handles: Sequence[Any], columns: int) -> None:
    axes = part.subplots()
    axes.axis("off")
    if handles:
        look: dict[str, Any] = {"fontsize": "small", "frameon": False, "labelspacing": 1.2}
        axes.legend(handles=handles, loc="center", ncols=columns, **look)


def _legend_height(most: int, layout: Layout, columns: int) -> float:
    return (0.4 + 2.0 * -(-most // columns)) * layout.letter


# One underlying.


def _bends(cleared: Cleared) -> list[Fraction]:
    """The prices of one underlying at which the payoffs of filled orders bend."""
    forms = {leg.option.form for order in traded(cleared) for leg in order.legs}
    return sorted({Fraction(-form[0], form[1]) for form in forms if -form[0] * form[1] > 0})


def _places(cleared: Cleared) -> list[Fraction]:
    """The prices at which something happens: bends, and states of the measure."""
    states = [it.prices[0] for it in cleared.certificate.measure if not it.is_ray]
    return [*_bends(cleared), *states]


def _ends(cleared: Cleared) -> Limits:
    """The prices that are shown: all at which something happens and a quarter more, from 0 on, or
    from nearer where nothing happens below."""
    places = sorted(_places(cleared)) or [Fraction(0)]
    low, high = float(places[0]), float(places[-1])
    if low > (high - low) > 0:
        return low - (high - low) / 4, high + (high - low) / 4
    return 0.0, 1.25 * high or 1.0


def _draw_line(cleared: Cleared, layout: Layout, title: str | None, limits: Limits | None) -> Any:
    """The curve where something traded, the measure where there is one, and the orders."""
    table, widths = tables.of_orders(cleared).fitted(layout, 2)
    measure = cleared.certificate.measure
    charts = [0.4 * layout.width] * bool(traded(cleared))
    charts += [0.24 * layout.width + 0.5] * bool(measure)
    columns = 4 if layout.width > 5 else 2
    told = 4 if traded(cleared) else 0
    heights = [_legend_height(told, layout, columns), sum(charts)] * bool(charts)
    if not charts:
        table = table._replace(below=f"{table.below}; {_no_measure(cleared)}")
    heights.append(table.height(layout) + 0.1)
    figure, parts = _parts(cleared, layout, heights, title)
    tables.show(parts[-1].subplots(), table, layout, widths, "orders")
    if not charts:
        return figure
    start, end = limits or _ends(cleared)
    has_rays = any(it.is_ray for it in measure)
    grid = parts[1].add_gridspec(len(charts), 2, height_ratios=charts, width_ratios=[10, 1])
    shown = slice(0, 1) if has_rays else slice(0, 2)
    upper = parts[1].add_subplot(grid[0, shown])
    lower = upper if len(charts) == 1 else parts[1].add_subplot(grid[1, shown], sharex=upper)
    if traded(cleared):
        _show_kept(upper, cleared, start, end)
        _legend(parts[0], upper.get_legend_handles_labels()[0], columns)
    if measure:
        _show_masses(lower, cleared, start, end)
    else:
        lower.text(
            0.5, 0.96, _no_measure(cleared), ha="center", va="top", transform=lower.transAxes
        )
    if has_rays:
        _show_rays(parts[1].add_subplot(grid[-1, 1]), cleared)
    upper.tick_params(labelbottom=upper is lower)
    lower.set(xlabel="price at settlement (ticks)", xlim=(_left(start, end), end))
    _label_prices(lower, [Fraction(0), *_places(cleared)], start, end, layout)
    figure.draw_without_rendering()
    _label_masses(lower, cleared, layout)
    return figure


def _no_measure(cleared: Cleared) -> str:
    return f"no measure: the line has none (mark {cleared.mark})"


def _show_kept(axes: Any, cleared: Cleared, start: float, end: float) -> None:
    """The curve of what is kept, the surplus below it, the bound, and where the curve may bend."""
    bends = [it for it in _bends(cleared) if start < it < end]
    prices = [Fraction(start), *bends, Fraction(end)]
    kept = [float(cleared.kept((1, price))) for price in prices]
    curve: dict[str, Any] = {"color": "0.55", "lw": 2.0, "label": "kept", "gid": "curve"}
    axes.plot(list(map(float, prices)), kept, **curve)
    levels = [float(cleared.surplus)]
    look: dict[str, Any] = {"color": "k", "lw": 0.9, "zorder": 3}  # seen where the curve is at it
    proved = "surplus, the greatest" if cleared.bound == cleared.surplus else "surplus"
    axes.axhline(levels[0], ls="--", label=proved, gid="surplus", **look)
    if cleared.bound is not None and cleared.bound != cleared.surplus:
        levels.append(float(cleared.bound))
        axes.axhline(levels[1], ls="-.", label="bound of any surplus", gid="bound", **look)
    for number, price in enumerate(bends, 1):
        label = "a payoff bends" if number == 1 else None
        gid = f"breakpoint-{number}"
        axes.axvline(float(price), color="0.6", ls=":", lw=0.8, label=label, gid=gid)
    axes.set(ylabel="premium less\nnet payoff (ticks)", ylim=_range([*kept, *levels]))
    axes.set_xlim(_left(start, end), end)


def _left(start: float, end: float) -> float:
    """Where the axis of prices begins: with room for a bar at 0."""
    return start if start else -end / 40


def _range(values: Sequence[float]) -> tuple[float, float]:
    """The ends of an axis with some room; from 0 on where that leaves little of it empty."""
    low, high = min(values), max(values)
    if 0 < low <= 0.25 * high:
        low = 0.0
    room = 0.08 * (high - low) or 0.5 * abs(high) or 1.0
    return low - room * (low != 0), high + room


def _label_prices(
    axes: Any, places: list[Fraction], start: float, end: float, layout: Layout
) -> None:
    """Labels the prices at which something happens where they stand far enough apart, and evenly
    else."""
    shown = sorted({it for it in places if start <= it <= end})
    far = (end - start) / layout.labels
    if shown and all(after - before >= far for before, after in zip(shown, shown[1:])):
        axes.set_xticks([float(price) for price in shown], [brief(price, 7) for price in shown])


def _show_masses(axes: Any, cleared: Cleared, start: float, end: float) -> None:
    """The masses of the settlements as bars over their prices."""
    states = [it for it in enumerate(cleared.certificate.measure, 1) if not it[1].is_ray]
    heaviest = max((float(it.mass) for _, it in states), default=1.0)
    top = 1.2 * heaviest
    axes.set(ylabel="mass (sums to 1)", ylim=(0, top))
    axes.set_yticks([it for it in axes.get_yticks() if it <= min(top, 1)])
    look: dict[str, Any] = {"color": "0.75", "edgecolor": "k", "linewidth": 0.6}
    for number, it in sorted(states, key=lambda it: -it[1].mass):  # the lighter ones in front
        at = float(it.prices[0]), float(it.mass)
        axes.bar(*at, width=(end - start) / BARS, gid=f"state-{number}", **look)


def _label_masses(axes: Any, cleared: Cleared, layout: Layout) -> None:
    """The amounts above the bars, of the heaviest first, where no other bar or amount is; the place
    of the axes in the figure must stand."""
    (left, right), (_, top) = axes.get_xlim(), axes.get_ylim()
    extent = axes.get_window_extent()
    wide, high = extent.width / axes.figure.dpi, extent.height / axes.figure.dpi
    states = [it for it in cleared.certificate.measure if not it.is_ray]
    states.sort(key=lambda it: -it.mass)
    ends = [
        (wide * (float(it.prices[0]) - left) / (right - left), high * float(it.mass) / top)
        for it in states
    ]
    bar = wide * (right - max(left, 0)) / (right - left) / BARS / 2
    taken = [maps.Box(x - bar, 0, x + bar, y) for x, y in ends]
    for it, (x, y) in zip(states, ends):
        text = brief(it.mass, 7)
        half = layout.inches(text, 0) / 2 + 0.02
        middle = min(max(x, half), wide - half)
        box = maps.Box(middle - half, y, middle + half, y + layout.letter)
        if 0 <= x <= wide and not any(map(box.meets, taken)):
            taken.append(box)
            _above(axes, left + middle * (right - left) / wide, float(it.mass), text)


def _above(axes: Any, x: float, height: float, text: str) -> None:
    """A text just above the end of a bar."""
    look: dict[str, Any] = {"ha": "center", "va": "bottom", "fontsize": "small"}
    axes.annotate(text, (x, height), (0, 1), textcoords="offset points", **look).set_in_layout(
        False
    )


def _show_rays(axes: Any, cleared: Cleared) -> None:
    """The weight of the slope, on a scale of its own."""
    rays = [it for it in enumerate(cleared.certificate.measure, 1) if it[1].is_ray]
    axes.set(xlim=(-1, 1), ylabel="weight of the slope")
    axes.yaxis.set_label_position("right")
    axes.yaxis.tick_right()
    axes.set_xticks([0], ["beyond"])
    look: dict[str, Any] = {"color": "0.75", "edgecolor": "k", "linewidth": 0.6}
    for number, it in rays:
        axes.bar(0, float(it.weight), width=0.8, gid=f"state-{number}", **look)
        _above(axes, 0, float(it.weight), brief(it.weight, 7))
    axes.margins(y=0.25)


# Two underlyings, and more.


def _draw_map(cleared: Cleared, layout: Layout, title: str | None, limits: Limits | None) -> Any:
    """The map where something traded or there is a measure, and the tables."""
    if not traded(cleared) and not cleared.certificate.measure:
        return _draw_states(cleared, layout, title, limits)
    states, state_widths = tables.of_states(cleared).fitted(layout, 1)
    orders, widths = tables.of_orders(cleared).fitted(layout, 2)
    columns = 4 if layout.width > 5 else 3
    told = len(list(maps.legend(cleared, bool(traded(cleared)))))
    heights = [_legend_height(told, layout, columns), layout.width - 0.9]
    heights += [states.height(layout) + 0.1, orders.height(layout) + 0.1]
    figure, parts = _parts(cleared, layout, heights, title)
    axes = parts[1].subplots()
    shades = maps.draw(axes, cleared, limits)
    _legend(parts[0], list(maps.legend(cleared, shades is not None)), columns)
    if shades is not None:
        maps.show_scale(parts[1], axes, shades, cleared)
    tables.show(parts[2].subplots(), states, layout, state_widths, "measure")
    tables.show(parts[3].subplots(), orders, layout, widths, "orders")
    figure.draw_without_rendering()
    maps.number_states(axes, cleared, layout)
    return figure


def _draw_states(cleared: Cleared, layout: Layout, title: str | None, limits: Limits | None) -> Any:
    states, state_widths = tables.of_states(cleared).fitted(layout, 1)
    orders, widths = tables.of_orders(cleared).fitted(layout, 2)
    heights = [states.height(layout) + 0.1, orders.height(layout) + 0.1]
    figure, parts = _parts(cleared, layout, heights, title)
    shown = tables.show(parts[0].subplots(), states, layout, state_widths, "measure")
    for row, cells in enumerate(states.rows[1:], 1):
        shown[row, 0].set_gid(f"state-{cells[0]}")
    tables.show(parts[1].subplots(), orders, layout, widths, "orders")
    return figure
