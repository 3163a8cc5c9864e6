"""The picture of a depth: what would be filled of one order more, over its price."""

from __future__ import annotations

from collections.abc import Sequence
from typing import Any, NamedTuple

from ragvismo.exchange import Depth, Level
from ragvismo.tables import Layout

Limits = tuple[float, float]
ROOM = 0.06  # of an axis, beyond its ends


class Look(NamedTuple):
    """How a side is drawn, and what is said of it."""

    label: str
    line: str
    marker: str


ASKS = Look("bought at this limit", "-", "o")
BIDS = Look("sold at this limit", "--", "s")


def title_of(depth: Depth) -> str:
    """What is told of a depth above its picture."""
    more = "" if depth.quantity == 1 else f", {depth.quantity} options tried"
    return f"market {depth.market}, {depth.option}{more}"


def draw(axes: Any, depth: Depth, limits: Limits | None) -> None:
    """Draws both sides into axes."""
    axes.set(xlabel="limit of a further order (ticks)", ylabel="filled (options)")
    prices = [float(it.price) for it in (*depth.bids, *depth.asks)]
    if not prices:
        told = {"ha": "center", "va": "center", "transform": axes.transAxes}
        axes.text(0.5, 0.5, "no price was asked for", **told)
        axes.set(xticks=[], yticks=[])
        return
    for levels, look, gid in ((depth.asks, ASKS, "asks"), (depth.bids, BIDS, "bids")):
        _show_side(axes, levels, look, gid)
    low, high = limits or (min(prices), max(prices))
    room = ROOM * (high - low) or 1.0
    most = max(float(it.fill) for it in (*depth.bids, *depth.asks)) or 1.0
    axes.set(xlim=limits or (low - room, high + room), ylim=(-ROOM * most, (1 + ROOM) * most))


def _show_side(axes: Any, levels: Sequence[Level], look: Look, gid: str) -> None:
    """The fills of a side, hollow where they are not proved the greatest surplus's."""
    at = [(float(it.price), float(it.fill)) for it in levels]
    about: dict[str, Any] = {"color": "k", "lw": 1.2, "ls": look.line, "gid": gid}
    axes.plot(*zip(*at), **about)
    for proved in (True, False):
        shown = [it for it, of in zip(at, levels) if (of.mark == "optimal") == proved]
        if shown:
            face = {"ls": "", "marker": look.marker, "ms": 4, "mec": "k", "clip_on": False}
            face["mfc"] = "k" if proved else "w"
            axes.plot(*zip(*shown), gid=f"{gid}-{'proved' if proved else 'unproved'}", **face)


def legend(depth: Depth) -> list[Any]:
    """What the lines and the marks stand for."""
    from matplotlib.lines import Line2D

    handles = [
        Line2D([], [], color="k", lw=1.2, ls=it.line, marker=it.marker, ms=4, label=it.label)
        for it in (ASKS, BIDS)
    ]
    if any(it.mark != "optimal" for it in (*depth.bids, *depth.asks)):
        face = {"ls": "", "marker": "o", "ms": 4, "mec": "k", "mfc": "w"}
        handles.append(Line2D([], [], label="not proved", **face))
    return handles


def figure(depth: Depth, layout: Layout, title: str | None, limits: Limits | None) -> Any:
    """A figure of a depth alone."""
    from matplotlib import pyplot

    figure, axes = pyplot.subplots(
        figsize=(layout.width, 0.62 * layout.width), layout="constrained"
    )
    draw(axes, depth, limits)
    if depth.bids or depth.asks:
        above: dict[str, Any] = {"loc": "lower center", "bbox_to_anchor": (0.5, 1)}
        axes.legend(handles=legend(depth), ncols=3, frameon=False, fontsize="small", **above)
    told = title_of(depth) if title is None else title
    if told:
        figure.suptitle(told, fontsize="medium")
    return figure
