"""A second check of journals, written apart from the program and far slower: tools/plain-check
check < JOURNAL

It writes the report of `exchange check`, or with the word audit that of `exchange audit`, and ends
with its status, and shares no code with it, so that the one can be held against the other
(tools/hostile does). Fractions have no limit here, so it never says Wide. Other words, and an input
that cannot be read, get one line on standard error and status 2.
"""

from __future__ import annotations

from collections.abc import Callable, Mapping, Sequence
from typing import Any, NoReturn
import json
import math
import sys
from fractions import Fraction
from itertools import pairwise

from ragvismo import cells
from ragvismo.faults import Unproved
from ragvismo_tools.ending import ended
from ragvismo_tools.kinds import (
    Either,
    Fault,
    InTurn,
    Keys,
    Kind,
    Many,
    Number,
    Text,
    Told,
    Truth,
    Value,
    Word,
    demand,
)

# The most nodes times legs of a tree in a line marked bounded.
MOST_WALKED = 2_000_000
REASONS = (
    "Syntax",
    "NoAccount",
    "AccountExists",
    "NoMarket",
    "MarketExists",
    "Settled",
    "WeightCount",
    "Range",
    "Funds",
    "BookFull",
    "NoOrder",
    "NotOwner",
    "TooMany",
)
BESIDE = {
    14: "Margin",
    20: "Stale",
    21: "Unproved",
    23: "Closed",
    24: "Open",
    25: "NotAllowed",
    26: "NotAsked",
    27: "Quota",
}
GATE = {15: "Malformed", 16: "Old", 17: "Ahead", 18: "Changed", 19: "Sessions"}
Kinds = Mapping[str, Kind]
# What a reply of a kind has besides its line and its name.
Shapes = Callable[[Value], Kinds]
# A bundle's counts and forms; an order's signed fill and its bundle; a leg's fill, its form, and
# whether it is long; which legs are taken to pay.
Bundle = Sequence[tuple[int, Sequence[int]]]
Signed = tuple[Fraction, Bundle]
Leg = tuple[Fraction, Sequence[int], bool]
Signs = Mapping[int, bool]


def is_option(form: Sequence[int]) -> bool:
    return (
        abs(form[0]) <= 10**9
        and all(abs(weight) <= 1000 for weight in form[1:])
        and any(form[1:])
    )


def does_rise(classes: Sequence[int]) -> bool:
    return all(one < after for one, after in pairwise(classes))


def has_few_options(order: Value) -> bool:
    options: int = order["quantity"] * sum(abs(leg["count"]) for leg in order["legs"])
    return options <= 10**6


def do_rise(orders: Sequence[Value]) -> bool:
    """Whether the numbers of a book's orders rise."""
    return all(order["order"] < after["order"] for order, after in pairwise(orders))


def is_in_order(proposed: Value) -> bool:
    """Whether what is told of a proposal does not fall from 0 to its bound."""
    names = ("surplus", "best_surplus", "least_bound", "bound")
    told = [Fraction(0), *(Fraction(proposed[name]) for name in names)]
    return all(one <= after for one, after in pairwise(told))


ANY = Number(-(2**63), 2**64)
LINE, MARKET, ORDER, BATCH = (
    Number(1, 2**24),
    Number(1, 999_999_999),
    Number(1, 10**6),
    Number(1, 2_000_000),
)
ACCOUNT, UNDERLYINGS, PLACE = Number(1, 999_999_999), Number(1, 8), Number(1, 1024)
AMOUNT, BALANCE, FRACTIONS = Text(False, size=8_001 * 10**15), Text(False), Text(True)
FORM = Many(ANY, 2, 9, test=is_option)
ABOUT: dict[str, Any] = {
    "account": ACCOUNT,
    "order": ORDER,
    "price": Number(0, 10**12),
    "quantity": Number(1, 10**6),
    "side": Word("buy", "sell"),
}
LEG = Keys(count=Number(-1000, 1000), form=FORM, test=lambda leg: bool(leg["count"]))
BUNDLE = Keys(legs=Many(LEG, 1, 4), test=has_few_options, **ABOUT)
ORDERS = {
    1: Many(Keys(form=FORM, **ABOUT), range_most=256),
    2: Many(BUNDLE, range_most=256),
}
BOOK = Many(BUNDLE, range_most=256, test=do_rise)
LEAF = Keys(leaf=Many(Keys(at=PLACE, by=FRACTIONS)))
NODE = Either(lambda value: LEAF if type(value) is dict and "leaf" in value else Keys(split=PLACE))
LINE_COVER, MATCH_COVER, TREE_COVER = Word("line"), Word("match"), Many(NODE)


def cover_of(value: Any) -> Kind:
    kinds: dict[bool, Kind] = {True: LINE_COVER, False: TREE_COVER}
    return kinds[type(value) is str]


COVER = Either(cover_of)
# Covers that proposals and lines marked bounded have beside.
CLASS = Number(1, 1024)
FLAT = InTurn(CLASS, FRACTIONS, test=does_rise)
CELL_KINDS = {
    "bound": Keys(bound=CLASS, minus=FLAT, plus=FLAT),
    "full": Keys(full=Many(CLASS, test=lambda full: bool(full) and does_rise(full)), leaf=FLAT),
    "leaf": Keys(leaf=FLAT),
    "split": Keys(split=CLASS),
}


def cell_of(value: Any) -> Kind:
    keys = value if type(value) is dict else ()
    return CELL_KINDS[next((key for key in CELL_KINDS if key in keys), "split")]


def are_few_cells(cover: Value) -> bool:
    """Whether there are not too many nodes, and not too many classes in their lists."""
    lists = [each for node in cover["cells"] for each in node.values() if type(each) is list]
    fractions = sum(type(it) is str for each in lists for it in each)
    return len(cover["cells"]) <= 100_000 and sum(map(len, lists)) - fractions <= 1_000_000


CELLS = Keys(cells=Many(Either(cell_of)), test=are_few_cells)
SHORT_TREE = Many(NODE, range_most=20_000)


def proposed_cover_of(value: Any) -> Kind:
    if type(value) is dict:
        return CELLS
    if type(value) is str:
        return MATCH_COVER if value == "match" else LINE_COVER
    return SHORT_TREE


PROPOSED_COVER = Either(proposed_cover_of)
STATE = Many(Text(False, least=0), 2, 9, test=lambda state: any(entry != "0" for entry in state))
POINT = Keys(state=STATE, weight=FRACTIONS)
MEASURE, SHORT_MEASURE = Many(POINT), Many(POINT, range_most=1024)
CERTIFICATE = Keys(cover=COVER, measure=MEASURE)
PROOF = Keys(cover=PROPOSED_COVER, measure=SHORT_MEASURE)
WIDE = Keys(left=FRACTIONS, operator=Word("add", "mul", "div", "whole"), right=FRACTIONS)
PAYOUT = Keys(account=ACCOUNT, amount=AMOUNT, batch=BATCH, order=ORDER)


POSITION = Keys(
    batch=BATCH,
    fill=FRACTIONS,
    legs=Many(LEG, 1, 4),
    order=ORDER,
    side=Word("buy", "sell"),
    test=lambda held: Fraction(held["fill"]) > 0,
)
PRICE = Told(Text(False, least=0, size=10**12), "never", "unmarked")
PART = Text(True, least=0)
NEED = Told(Text(False, least=0), "positions", "unbounded", "wide", "budget", "sum")
SESSION, MESSAGE = Number(1, 999_999_999), Number(1, 10**6)


def bounded(value: Any) -> Kinds:
    """The keys of a cleared line of version 3."""
    return {
        "batch": BATCH,
        "bound": FRACTIONS,
        "certificate": PROOF,
        "fills": Many(FRACTIONS),
        "liability": FRACTIONS,
        "mark": Word("bounded"),
        "market": MARKET,
        "orders": ORDERS[2],
        "run": Word("wide", "budget"),
        "surplus": FRACTIONS,
        "underlyings": UNDERLYINGS,
        "units": Number(0, 20_000),
        "version": Word(3),
    }


def margin(value: Any) -> Kinds:
    told = value.get("margin")
    at = {} if told in ("wide", "budget") else {"at": STATE}
    return {
        "account": ACCOUNT,
        "margin": Told(FRACTIONS, "unbounded", "wide", "budget"),
        "market": MARKET,
        **at,
    }


def cleared(value: Any) -> Kinds:
    """The keys of a cleared line, by its mark and version."""
    more: dict[str, Kinds] = {
        "optimal": {"certificate": CERTIFICATE},
        "wide": {"wide": WIDE},
        "budget": {},
    }
    mark, version = value.get("mark"), value.get("version")
    demand(
        type(mark) is str and mark in more and type(version) is int and version in ORDERS, "Shape"
    )
    return {
        "batch": BATCH,
        "fills": Many(FRACTIONS),
        "liability": FRACTIONS,
        "mark": Word(mark),
        "market": MARKET,
        "orders": ORDERS[version],
        "surplus": FRACTIONS,
        "underlyings": UNDERLYINGS,
        "units": Number(0, 20_000),
        "version": Word(version),
        **more[mark],
    }


def beside(value: Any) -> Kinds:
    """The keys of a refusal that no line of a run has."""
    number = value["number"]
    more: dict[int, Kinds] = {
        14: {"need": NEED},
        21: {"failed": Word("BatchShape", "Fill", "Cover", "Measure", "Wide")},
    }
    return {"number": Word(number), "reason": Word(BESIDE[number]), **more.get(number, {})}


def gate(value: Any) -> Kinds:
    number = value.get("number")
    demand(type(number) is int and number in GATE, "Shape")
    session = {} if number == 15 else {"session": SESSION}
    expected = {} if number in (15, 19) else {"expected": Number(1, 10**6 + 1)}
    return {"number": Word(number), "reason": Word(GATE[number]), **session, **expected}


def refused(value: Any) -> Kinds:
    number = value.get("number")
    demand(type(number) is int and 1 <= number <= len(REASONS), "Shape")
    field = {"field": Number(2, 51)} if number == 8 else {}
    return {"number": Word(number), "reason": Word(REASONS[number - 1]), **field}


REPLIES: dict[str, Shapes] = {
    "opened": lambda _: {"account": ACCOUNT},
    "deposited": lambda _: {"account": ACCOUNT, "balance": BALANCE},
    "withdrawn": lambda _: {"account": ACCOUNT, "balance": BALANCE},
    "listed": lambda _: {"market": MARKET, "underlyings": UNDERLYINGS},
    "placed": lambda _: {"order": ORDER},
    "cancelled": lambda _: {"order": ORDER},
    "cleared": cleared,
    "settled": lambda _: {"lapsed": Number(0, 256), "market": MARKET, "payouts": Many(PAYOUT)},
    "balance": lambda _: {
        "account": Number(0, 999_999_999),
        "balance": BALANCE,
        "reserved": Text(False, least=0),
    },
    "refused": refused,
}

SERVED: dict[str, Shapes] = {
    "book": lambda _: {"market": MARKET, "orders": BOOK, "underlyings": UNDERLYINGS},
    "positions": lambda _: {"account": ACCOUNT, "market": MARKET, "positions": Many(POSITION)},
    "proposed": lambda _: {
        "best_surplus": FRACTIONS,
        "bound": FRACTIONS,
        "least_bound": FRACTIONS,
        "market": MARKET,
        "surplus": FRACTIONS,
    },
    "closed": lambda _: {"market": MARKET, "orders": Number(0, 256)},
    "reopened": lambda _: {"market": MARKET},
    "secured": lambda _: {"account": ACCOUNT, "need": Text(False, least=0)},
    "need": lambda _: {
        "account": ACCOUNT,
        "balance": BALANCE,
        "need": NEED,
        "secured": Truth(),
    },
    "tried": lambda _: {
        "fill": PART,
        "mark": Word("optimal", "wide", "budget"),
        "market": MARKET,
        "surplus": PART,
    },
    "cleared": lambda value: (
        bounded(value) if is_number(value.get("version"), 3) else cleared(value)
    ),
    "refused": lambda value: (
        beside(value)
        if type(value.get("number")) is int and value["number"] in BESIDE
        else refused(value)
    ),
    "quoted": lambda _: {"ask": PRICE, "bid": PRICE, "market": MARKET},
    "priced": lambda _: {
        "ask": PRICE,
        "bid": PRICE,
        "market": MARKET,
        "quantity": Number(1, 10**6),
    },
    "margin": margin,
}


def is_number(value: Any, number: int) -> bool:
    return type(value) is int and value == number


# Reading a line


def whole(text: str) -> int | float:
    """A number of JSON without a point: -0 is none of 64 bits, and what has no double is none at
    all."""
    if math.isinf(real(text)) or text == "-0":
        return 0.0
    return int(text)


def real(text: str) -> float:
    value = float(text)
    if math.isinf(value):
        raise ValueError("no number")
    return value


def constant(text: str) -> NoReturn:
    raise ValueError(text)


def depth(value: Any) -> int:
    """Levels of nesting, and a fault where a text has half of a pair of surrogates."""
    if type(value) is str:
        value.encode()
    inner = (
        [*value.keys(), *value.values()]
        if type(value) is dict
        else value
        if type(value) is list
        else ()
    )
    return (1 if type(value) in (dict, list) else 0) + max(map(depth, inner), default=0)


def value_of(line: bytes) -> Any:
    """The JSON value of a line."""
    try:
        value = json.loads(
            line.decode(), parse_int=whole, parse_float=real, parse_constant=constant
        )
        demand(depth(value) <= 127, "NotJson")
    except (ValueError, RecursionError):
        raise Fault("NotJson") from None
    return value


def read(line: bytes, value: Any, replies: Mapping[str, Shapes]) -> Value:
    """The reply of a line, of these kinds."""
    demand(
        type(value) is dict and type(value.get("reply")) is str and value["reply"] in replies,
        "Shape",
    )
    word = value["reply"]
    told: dict[str, Any] = {**replies[word](value)}
    test = is_in_order if word == "proposed" else None
    kind = Keys(test, line=LINE, reply=Word(word), **told)
    kind.shape(value)
    kind.grammar(value)
    kind.ranges(value)
    demand(json.dumps(value, separators=(",", ":"), sort_keys=True).encode() == line, "Spelling")
    if is_number(value.get("version"), 2):
        plain = [
            len(order["legs"]) == 1 and order["legs"][0]["count"] == 1 for order in value["orders"]
        ]
        demand(not all(plain), "Spelling")
    reply: Value = value
    return reply


def read_run(line: bytes) -> Value:
    """The reply of a line of a run."""
    return read(line, value_of(line), REPLIES)


def has_inside(value: Any, *keys: str) -> bool:
    """Whether it is an object with a reply inside, and these keys."""
    return type(value) is dict and set(value) == {"of", *keys} and type(value["of"]) is dict


def inside(line: bytes, head: bytes, tail: bytes) -> tuple[bytes, Any]:
    """The reply inside a line, and its value."""
    demand(line.startswith(head) and line.endswith(tail), "Spelling")
    line = line[len(head) : -len(tail)]
    demand(line.startswith(b"{") and line.endswith(b"}"), "Spelling")
    try:
        return line, value_of(line)
    except Fault:
        raise Fault("Spelling") from None


def read_served(line: bytes) -> Value | None:
    """The reply of a line of serve or of serve sessions, or None where it is a line of the gate."""
    value = value_of(line)
    if has_inside(value, "number", "session"):
        for key in ("number", "session"):
            ANY.shape(value[key])
        MESSAGE.ranges(value["number"])
        SESSION.ranges(value["session"])
        head, tail = b'{"number":%d,"of":' % value["number"], b',"session":%d}' % value["session"]
        line, value = inside(line, head, tail)
    elif has_inside(value, "reply", "session") and value["reply"] == "asked":
        ANY.shape(value["session"])
        SESSION.ranges(value["session"])
        line, value = inside(line, b'{"of":', b',"reply":"asked","session":%d}' % value["session"])
    elif type(value) is dict and value.get("reply") == "gate":
        read(line, value, {"gate": gate})
        return None
    return read(line, value, {**REPLIES, **SERVED})


# Judging a cleared line


def pays(bundle: Bundle, state: Sequence[int]) -> int:
    return sum(count * max(0, sum(a * b for a, b in zip(form, state))) for count, form in bundle)


def net(orders: Sequence[Signed], state: Sequence[int]) -> Fraction:
    """What the house owes at a state; an order is its signed fill, and its bundle."""
    return sum((signed * pays(bundle, state) for signed, bundle in orders), Fraction(0))


def sign(order: Value) -> int:
    return 1 if order["side"] == "buy" else -1


def line_holds(orders: Sequence[Signed], liability: Fraction) -> bool:
    bends = {
        Fraction(-form[0], form[1])
        for _, bundle in orders
        for _, form in bundle
        if form[0] * form[1] < 0
    }
    states = [(1, 0), *((bend.denominator, bend.numerator) for bend in bends), (0, 1)]
    return all(net(orders, state) <= liability * state[0] for state in states)


def tree_holds(
    legs: Sequence[Leg], liability: Fraction, nodes: Sequence[Value], entries: int
) -> bool:
    """Whether the nodes in preorder are one whole tree, and each leaf is closed; a leg has what is
    filled of it, its form, and whether it is long."""
    rest = iter(nodes)

    def closed(signs: Signs) -> bool:
        node = next(rest, None)
        if node is None:
            return False
        if "leaf" in node:
            return leaf_holds(legs, signs, node["leaf"], liability, entries)
        place = node["split"] - 1
        if not (place < len(legs) and legs[place][2]) or place in signs:
            return False
        return closed({**signs, place: True}) and closed({**signs, place: False})

    return closed({}) and next(rest, None) is None


def leaf_holds(
    legs: Sequence[Leg],
    signs: Signs,
    multipliers: Sequence[Value],
    liability: Fraction,
    entries: int,
) -> bool:
    places = [each["at"] - 1 for each in multipliers]
    factors = {place: Fraction(each["by"]) for place, each in zip(places, multipliers)}
    if places != sorted(set(places)) or any(place >= len(legs) for place in places):
        return False
    for place, factor in factors.items():
        fill, _, long = legs[place]
        if factor < 0 or (long and place not in signs) or (not long and factor > fill):
            return False
    sums = [-liability] + [Fraction(0)] * (entries - 1)
    for place, (fill, form, long) in enumerate(legs):
        factor = factors.get(place, Fraction(0))
        for at, entry in enumerate(form):
            if long and place not in signs:
                sums[at] += fill * max(entry, 0)
            elif long and signs[place]:
                sums[at] += (fill + factor) * entry
            else:
                sums[at] -= factor * entry
    return all(each <= 0 for each in sums)


def balanced(orders: Sequence[Signed]) -> bool:
    sums: dict[tuple[tuple[int, tuple[int, ...]], ...], Fraction] = {}
    for signed, bundle in orders:
        key = tuple((count, tuple(form)) for count, form in bundle)
        sums[key] = sums.get(key, 0) + signed
    return not any(sums.values())


def fits(cover: Any, bundles: Sequence[Bundle], entries: int, is_proposed: bool) -> bool:
    """Whether the cover is one of the batch."""
    if type(cover) is dict:
        classes = cells.classes_of(form for bundle in bundles for _, form in bundle)
        return not refuted(lambda: cells.check_shape(cover["cells"], len(classes)))
    if type(cover) is str:
        return cover == "match" or entries == 2
    return entries > 2 and (not is_proposed or len(cover) * sum(map(len, bundles)) <= MOST_WALKED)


def holds(
    cover: Any,
    listed: Sequence[Value],
    orders: Sequence[Signed],
    liability: Fraction,
    entries: int,
) -> bool:
    """Whether the cover shows that the liability is enough."""
    if cover == "line":
        return line_holds(orders, liability)
    if cover == "match":
        return liability == 0 and balanced(orders)
    if type(cover) is dict:
        owed = [
            (tuple(form), signed * count) for signed, bundle in orders for count, form in bundle
        ]
        return not refuted(lambda: cells.check_cells(cover["cells"], owed, liability, entries))
    legs = [
        (abs(signed * count), form, sign(each) * count > 0)
        for each, (signed, bundle) in zip(listed, orders)
        for count, form in bundle
    ]
    return tree_holds(legs, liability, cover, entries)


def refuted(check: Callable[[], None]) -> bool:
    try:
        check()
    except Unproved:
        return True
    return False


def judge(reply: Value) -> None:
    """Raises the first condition of the verdict that does not hold."""
    listed, fills = reply["orders"], [Fraction(each) for each in reply["fills"]]
    entries, optimal = reply["underlyings"] + 1, reply["mark"] in ("optimal", "bounded")
    bundles = [
        [
            (leg["count"], leg["form"])
            for leg in each.get("legs", [{"count": 1, "form": each.get("form")}])
        ]
        for each in listed
    ]
    cover = reply["certificate"]["cover"] if optimal else None
    points = (
        [
            ([int(it) for it in each["state"]], Fraction(each["weight"]))
            for each in reply["certificate"]["measure"]
        ]
        if optimal
        else []
    )
    demand(len(fills) == len(listed), "BatchShape")
    demand(not optimal or fits(cover, bundles, entries, reply["mark"] == "bounded"), "BatchShape")
    demand(all(len(form) == entries for bundle in bundles for _, form in bundle), "BatchShape")
    demand(all(len(state) == entries for state, _ in points), "BatchShape")
    demand(all(0 <= fill <= each["quantity"] for fill, each in zip(fills, listed)), "Fill")

    orders = [(fill * sign(each), bundle) for fill, each, bundle in zip(fills, listed, bundles)]
    liability, surplus = Fraction(reply["liability"]), Fraction(reply["surplus"])
    premium = sum(signed * each["price"] for (signed, _), each in zip(orders, listed))
    demand(premium - liability == surplus >= 0, "Cover")
    if not optimal:
        demand(liability == 0 and balanced(orders), "Cover")
        return
    demand(holds(cover, listed, orders, liability, entries), "Cover")
    demand(
        all(weight >= 0 for _, weight in points)
        and sum(weight * state[0] for state, weight in points) == 1,
        "Measure",
    )
    bound = Fraction(0)
    for each, bundle in zip(listed, bundles):
        price = sum(weight * pays(bundle, state) for state, weight in points)
        bound += each["quantity"] * max(0, sign(each) * (each["price"] - price))
    demand(bound == Fraction(reply.get("bound", surplus)), "Bound")


def report(journal: bytes, word: str) -> dict[str, Any]:
    lines = journal.split(b"\n")
    if lines[-1] == b"":
        lines.pop()
    counts: dict[str, Any] = {
        "batches": 0,
        "bounded": 0,
        "lines": len(lines),
        "optimal": 0,
        "verdict": "yes",
    }
    for number, line in enumerate(lines, 1):
        try:
            reply = (read_served if word == "audit" else read_run)(line)
            if reply and reply["reply"] == "cleared":
                judge(reply)
                counts["batches"] += 1
                counts["optimal"] += reply["mark"] == "optimal"
                counts["bounded"] += reply["mark"] == "bounded"
        except Fault as fault:
            return {"line": number, "reason": str(fault), "verdict": "no"}
    if word == "check":
        del counts["bounded"]
    return counts


def main() -> int:
    if sys.argv[1:] == ["--help"]:
        print(__doc__)
        return 0
    if sys.argv[1:] not in (["check"], ["audit"]):
        print("usage: plain-check check < JOURNAL, or plain-check audit < JOURNAL", file=sys.stderr)
        return 2
    try:
        said = report(sys.stdin.buffer.read(), sys.argv[1])
    except OSError as fault:
        print(f"plain-check: the input cannot be read: {fault.strerror}", file=sys.stderr)
        return 2
    print(json.dumps(said, separators=(",", ":"), sort_keys=True))
    if said["verdict"] == "no":
        print("check failed", file=sys.stderr)
        return 6
    return 0


def run() -> int:
    sys.setrecursionlimit(20_000)
    return ended(main)
