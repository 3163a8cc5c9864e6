"""Proposals, as lines of `serve` have them: tools/bench and tools/hostile make their inputs with
these."""
import json
from typing import Any

Proposal = dict[str, Any]
Node = dict[str, Any]


def spelled(value: Any) -> str:
    """A value as the program prints it."""
    return json.dumps(value, separators=(",", ":"), sort_keys=True)


def line_of(market: int, proposal: Proposal) -> str:
    """The line that proposes it for a market."""
    return f"propose,{market},{spelled(proposal)}"


def of_optimal(reply: dict[str, Any]) -> Proposal:
    """What a cleared line marked optimal proves, for its orders: its bound is its surplus."""
    parts = {key: reply[key] for key in ("certificate", "fills", "liability", "surplus")}
    return {**parts, "orders": [each["order"] for each in reply["orders"]]}


def unfilled(orders: list[int], underlyings: int, cover: Any = None) -> Proposal:
    """No fills, and the measure of the price 0; the cover is the line or one leaf, where none is
    given."""
    least = "line" if underlyings == 1 else [{"leaf": []}]
    measure = [{"state": ["1"] + ["0"] * underlyings, "weight": "1"}]
    certificate = {"cover": least if cover is None else cover, "measure": measure}
    return {
        "certificate": certificate,
        "fills": ["0"] * len(orders),
        "liability": "0",
        "orders": orders,
        "surplus": "0",
    }


def full_tree(depth: int, leaf: Node, place: int = 1) -> list[Node]:
    """The nodes in preorder of the tree that splits at the places from one on, each path at all of
    them."""
    if depth == 0:
        return [leaf]
    below = full_tree(depth - 1, leaf, place + 1)
    return [{"split": place}, *below, *below]


def chain(depth: int, leaf: Node) -> list[Node]:
    """The nodes in preorder of the tree that splits on its plus side alone."""
    return [{"split": place} for place in range(1, depth + 1)] + [leaf] * (depth + 1)


def covered_by_tree(depth: int, each: int) -> tuple[list[str], Proposal]:
    """The lines of a market on two underlyings with so many buys and as many sells, and the
    proposal that all are filled: the sells cover the buys, by a full tree."""
    orders = ["buy,1,1,call,10,0,1,1,1"] * each + ["sell,2,1,call,0,0,1,2,2"] * each
    leaf = {"leaf": [{"at": each + it, "by": "1"} for it in range(1, each + 1)]}
    proposal = unfilled(list(range(1, 2 * each + 1)), 2, full_tree(depth, leaf))
    return ["open,1", "open,2", "market,1,2", *orders], {**proposal, "fills": ["1"] * (2 * each)}


def deep_tree(orders: int) -> tuple[list[str], Proposal]:
    """The lines of a market on two underlyings with so many bundles of four bought options, and a
    proposal of no fills whose tree splits at all of these."""
    bundle = "bundle,1,1,buy,0,1,4,1,call,10,1,1,1,call,20,1,2,1,put,10,1,1,1,put,20,1,2"
    cover = chain(4 * orders, {"leaf": []})
    return ["open,1", "market,1,2", *[bundle] * orders], unfilled(
        list(range(1, orders + 1)), 2, cover
    )
