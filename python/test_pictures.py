"""Tests pictures: each kind beside a kept one, by its SVG. `test_pictures.py --keep` keeps them
anew, to be looked at before they are handed in."""

from __future__ import annotations

import json
import pathlib
import random
import re
import sys
import tempfile
import unittest
from collections.abc import Callable
from fractions import Fraction
from typing import Any

sys.path.append(str(pathlib.Path(__file__).resolve().parent))
import ragvismo
from ragvismo import Cleared, Depth, Level, call, cleared, maps, picture, pictures, tables
from test_ragvismo import TOP, example, wants

KEPT = TOP / "python/pictures"
NUMBER, CLIP = re.compile(r"(-?\d+(?:\.\d+)?(?:e-?\d+)?)"), re.compile(r"p[0-9a-f]{10}\b")


def changed(name: str, **parts: Any) -> Cleared:
    """A cleared line of the examples with other parts; its certificate may not hold."""
    return cleared.read({**json.loads(example(name).text), **parts})


def empty() -> Cleared:
    return changed("butterfly", orders=[], fills=[], surplus="0")


def untraded() -> Cleared:
    return changed("butterfly", fills=["0", "0", "0"], surplus="0")


def long_legs() -> Cleared:
    """Bundles whose words are wider than a column."""
    reply = json.loads(example("hundred").text)
    for it in reply["orders"]:
        form = [-123_456_789, 100, -1_000, 77]
        it["legs"] = [*it["legs"], {"count": -999, "form": form}]
    return cleared.read(reply)


def untraded_map() -> Cleared:
    """Two underlyings, with a measure though nothing traded."""
    orders = json.loads(example("basket").text)["orders"]
    return changed("basket", fills=["0"] * len(orders), surplus="0", liability="0")


def bounded_map() -> Cleared:
    """Two underlyings, with a bound above the surplus."""
    reply = json.loads(example("demo", 3).text)
    return cleared.read({**reply, "mark": "bounded", "bound": "6000", "run": "budget"})


def close_together() -> Cleared:
    """A measure of many states, some of them side by side."""
    reply = json.loads(example("butterfly").text)
    states = [{"state": ["1", str(at)], "weight": f"{at}/200"} for at in (1, 2, 3, 50, 60, 84)]
    return cleared.read({**reply, "certificate": {"cover": "line", "measure": states}})


def depth() -> Depth:
    """Bids below asks, one of which is not proved."""
    bids = [Level(at, Fraction(max(12 - at, 0), 2), "optimal") for at in range(4, 21, 2)]
    asks = [Level(at, Fraction(max(at - 14, 0)) * 3 / 2, "optimal") for at in range(4, 21, 2)]
    return Depth(1, call(100), 50, tuple(bids), (*asks[:-1], asks[-1]._replace(mark="budget")))


KINDS: dict[str, Callable[[], Any]] = {
    "line-page": lambda: picture(example("butterfly")),
    "line-column": lambda: picture(example("spread"), "column"),
    "line-bounded": lambda: picture(example("proposals"), "column"),
    "line-crowded": lambda: picture(close_together(), "column"),
    "line-limits": lambda: picture(example("butterfly"), "column", limits=(4, 14), title=""),
    "map-page": lambda: picture(example("demo", 3)),
    "map-column": lambda: picture(example("basket"), "column"),
    "map-bounded": lambda: picture(bounded_map(), "column"),
    "map-untraded": lambda: picture(untraded_map(), "column"),
    "states-page": lambda: picture(example("basket_of_three")),
    "states-column": lambda: picture(long_legs(), "column"),
    "untraded": lambda: picture(untraded(), "column"),
    "unmarked": lambda: picture(example("joint"), "column"),
    "empty": lambda: picture(empty(), "column"),
    "axes": lambda: in_axes(),
    "depth-column": lambda: picture(depth(), "column"),
    "depth-empty": lambda: picture(Depth(1, call(100), 1, (), ()), "column"),
}


def in_axes() -> Any:
    """A curve and a map in axes of another figure."""
    from matplotlib import pyplot

    figure, (left, right) = pyplot.subplots(1, 2, figsize=(7, 3), layout="constrained")
    picture(example("butterfly"), axes=left, title="one underlying")
    picture(example("demo", 3), axes=right, title="two", limits=(400, 1700))
    pyplot.close(figure)
    return figure


def draw(kind: str, path: pathlib.Path) -> str:
    import matplotlib

    matplotlib.use("Agg")
    with matplotlib.rc_context(pictures.LOOK):
        KINDS[kind]().savefig(path, metadata={"Date": None} if path.suffix == ".svg" else None)
    return path.read_text() if path.suffix == ".svg" else ""


@wants("matplotlib")
class Figures(unittest.TestCase):
    def test_each_kind_beside_a_kept_one(self) -> None:
        import matplotlib

        for kind in KINDS:
            kept = (KEPT / f"{kind}.svg").read_text()
            if f"Matplotlib v{matplotlib.__version__}," not in kept:
                self.skipTest("the kept pictures are of another matplotlib")
            with self.subTest(kind), tempfile.TemporaryDirectory() as folder:
                self.same(draw(kind, pathlib.Path(folder) / "drawn.svg"), kept)
        self.assertEqual({it.stem for it in KEPT.glob("*.svg")}, set(KINDS))

    def same(self, drawn: str, kept: str) -> None:
        """The same text, and numbers that are less than a hundredth of a point apart; the layout's
        solver may end in other last digits, of which matplotlib makes names of clip paths."""
        parts = [NUMBER.split(CLIP.sub("clip", it)) for it in (drawn, kept)]
        self.assertEqual(*([it.strip() for it in of[::2]] for of in parts))
        for one, other in zip(parts[0][1::2], parts[1][1::2], strict=True):
            self.assertTrue(one == other or abs(float(one) - float(other)) < 0.01, (one, other))

    def text_of(self, kind: str) -> str:
        return (KEPT / f"{kind}.svg").read_text()

    def test_what_a_picture_tells(self) -> None:
        """The bound, what each kind of line is, the heaviest states, and that a batch is empty."""
        for kind, parts in (
            (
                "line-bounded",
                ('id="bound"', "bound of any surplus", "surplus 3/7 ticks, bound 6/7"),
            ),
            ("line-page", ("surplus, the greatest", "a payoff bends", "4/7", "3/7")),
            ("line-crowded", (">21/50<", ">3/10<")),
            ("map-page", ("equal amounts", "state of mass 0.1", "ray", "579/1000")),
            ("map-bounded", ('id="bound"', "bound, in the bar")),
            ("states-column", ("≈ 0.467925", "62 of 100 orders did not trade")),
            ("untraded", ("none of the 3 orders traded", "mass (sums to 1)")),
            ("unmarked", ("none of the 3 orders traded; no measure",)),
            ("empty", ("the batch has no orders",)),
            ("depth-column", ("bought at this limit", "not proved", "50 options tried")),
            ("depth-empty", ("no price was asked for",)),
        ):
            for part in parts:
                self.assertIn(part, self.text_of(kind), kind)
        for kind in KINDS:
            self.assertNotIn(">1.2<", self.text_of(kind) if kind != "line-bounded" else "")

    def test_cells_on_which_nothing_bends(self) -> None:
        """Cut along random lines, the triangles fill the square, and each lies on one side of each
        line."""
        draw = random.Random(1)
        lines = [maps.Bend(*(draw.randint(-9, 9) for _ in range(3))) for _ in range(12)]
        bends = [it for it in lines if it.b or it.c]
        found = maps._triangles(bends, 2.0)
        corners = list(zip(found.x, found.y))
        whole = 0.0
        for triangle in found.triangles:
            (a, b), (c, d), (e, f) = points = [corners[it] for it in triangle]
            whole += abs((c - a) * (f - b) - (e - a) * (d - b)) / 2
            for bend in bends:
                heights = [bend.at(point) for point in points]
                self.assertTrue(min(heights) > -1e-6 or max(heights) < 1e-6)
        self.assertAlmostEqual(whole, 4.0, 6)

    def test_tables(self) -> None:
        """The orders that are shown, the heaviest states first, no cell wider than its column."""
        table = tables.of_orders(example("demo", 2))
        self.assertEqual((len(table.rows), table.below), (7, "14 of 20 orders did not trade"))
        masses = [it[2] for it in tables.of_states(example("demo", 3)).rows[1:]]
        self.assertEqual((masses[0], masses[-1]), ("579/1000", "weight 235/4"))
        for layout in pictures.LAYOUTS.values():
            for it in (long_legs(), example("demo", 3)):
                shown, widths = tables.of_orders(it).fitted(layout, 2)
                for row in shown.rows:
                    for cell, width in zip(row, widths):
                        wide = max(map(layout.inches, cell.split("\n")))
                        self.assertLess(wide, width * 0.99 * layout.width)

    def test_no_number_stands_on_a_circle(self) -> None:
        """On maps each number is nearest to its own circle, off it, and within the map; rays, which
        stand at its edges, are within the picture."""
        from matplotlib import pyplot

        for found in (example("demo", 3), example("basket"), untraded_map()):
            figure = picture(found, "column")
            figure.draw_without_rendering()
            axes = next(it for it in figure.findobj(pyplot.Axes) if "first" in it.get_xlabel())
            drawn = [it for it in axes.lines if str(it.get_gid()).startswith("state")]
            ends = axes.get_xlim()[1]
            states = found.certificate.measure
            points = [axes.transData.transform(maps._point(it, ends)) for it in states]
            radii = [it.get_markersize() / 144 * figure.dpi for it in drawn]
            for number, text in enumerate(axes.texts[-len(states) :]):
                box = text.get_window_extent()
                middle = (box.x0 + box.x1) / 2, (box.y0 + box.y1) / 2
                far = [
                    ((middle[0] - x) ** 2 + (middle[1] - y) ** 2) ** 0.5 - radius
                    for (x, y), radius in zip(points, radii)
                ]
                self.assertEqual(far.index(min(far)), number)
                self.assertGreater(far[number], 0)
                self.assertTrue(axes.bbox.contains(*middle))
            for it in drawn:
                box = it.get_window_extent()
                self.assertTrue(figure.bbox.contains(box.x0, box.y0), it)
                self.assertTrue(figure.bbox.contains(box.x1, box.y1), it)

    def test_an_empty_batch_in_given_axes_says_so(self) -> None:
        from matplotlib import pyplot

        figure, axes = pyplot.subplots()
        picture(empty(), axes=axes)
        self.assertEqual([it.get_text() for it in axes.texts], ["the batch has no orders"])
        pyplot.close(figure)

    def test_limits_are_the_ends_of_the_axes(self) -> None:
        from matplotlib import pyplot

        figure, axes = pyplot.subplots()
        for limits, ends in (((4, 14), (4, 14)), ((0, 40), (-1, 40))):
            picture(example("butterfly"), axes=axes, limits=limits)
            self.assertEqual(axes.get_xlim(), ends)
        pyplot.close(figure)

    def test_no_amount_stands_on_a_bar(self) -> None:
        """Of two bars at one place the lighter one is in front, and has no amount on the other."""
        from matplotlib import pyplot

        reply = json.loads(example("butterfly").text)
        states = [("1", "3/10"), ("2", "7/10"), ("900", "0"), ("1000", "0")]
        measure = [{"state": ["1", at], "weight": weight} for at, weight in states]
        found = cleared.read({**reply, "certificate": {"cover": "line", "measure": measure}})
        figure = picture(found, "column")
        axes = next(it for it in figure.findobj(pyplot.Axes) if "mass" in it.get_ylabel())
        told = [it.get_text() for it in axes.texts]
        self.assertEqual((told[0], "3/10" in told), ("7/10", False))
        self.assertEqual([it.get_gid() for it in axes.patches][:2], ["state-2", "state-1"])

    def test_every_size_and_kind_of_file(self) -> None:
        with tempfile.TemporaryDirectory() as folder:
            for ending in pictures.ENDINGS:
                ragvismo.save(example("spread"), pathlib.Path(folder) / f"drawn{ending}", "column")
            self.assertIn("-1 of call 12", (pathlib.Path(folder) / "drawn.svg").read_text())
            self.assertIn(b"/Type0", (pathlib.Path(folder) / "drawn.pdf").read_bytes())
            with self.assertRaises(ValueError):
                ragvismo.save(example("spread"), "drawn.txt")
        for limits in ((5, 5), (0, float("inf")), (float("-inf"), 5), (0, 1e308)):
            with self.assertRaises(ValueError):
                picture(example("spread"), limits=limits)
        with self.assertRaises(ValueError):
            picture(example("basket_of_three"), axes=in_axes().axes[0])

    def test_examples_are_drawn_anew(self) -> None:
        """The pictures of README.md are those of their lines."""
        import matplotlib

        for name in ("butterfly", "basket", "basket_of_three"):
            kept = (TOP / f"examples/{name}.svg").read_text()
            if f"Matplotlib v{matplotlib.__version__}," not in kept:
                self.skipTest("the kept pictures are of another matplotlib")
            with tempfile.TemporaryDirectory() as folder:
                drawn = pathlib.Path(folder) / "drawn.svg"
                ragvismo.save(example(name), drawn)
                self.same(drawn.read_text(), kept)


if __name__ == "__main__":
    if sys.argv[1:2] == ["--keep"]:
        KEPT.mkdir(exist_ok=True)
        for each in sys.argv[2:] or KINDS:
            draw(each, KEPT / f"{each}.svg")
    else:
        unittest.main()
