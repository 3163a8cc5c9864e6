"""Clearing batches by themselves: jointly, or each bundle alone."""

from __future__ import annotations

import json
from collections import defaultdict, deque
from collections.abc import Callable, Iterable, Iterator, Sequence
from concurrent.futures import Future, ProcessPoolExecutor
from functools import partial
from itertools import islice
from typing import Literal, get_args

from ragvismo import cleared, program
from ragvismo.cleared import Cleared
from ragvismo.exchange import BUDGET, GREATEST_DEPOSIT, book_line, command_of, refused
from ragvismo.faults import RagvismoError
from ragvismo.orders import Batch, Leg, Order
from ragvismo.proposals import Proposal

Mechanism = Literal["joint", "each"]
# What answers a batch by a proposal: the program's own word propose, or a function.
Solver = Literal["exchange"] | Callable[[Batch], Proposal | None]


def clear(
    batch: Batch,
    mechanism: Mechanism = "joint",
    *,
    solver: Solver | None = None,
    budget: int = BUDGET,
    timeout: float | None = None,
    path: program.Path | None = None,
) -> Cleared:
    """Clears a batch in an exchange of its own, in which each account has what its buys need.
    Orders are numbered from 1.

    `joint` lets options of all strikes, kinds and weights cover one another, within a budget of 1
    to 20,000 units. Where that run gives up, the clear takes what a `solver` proposes, or the match
    of equal bundles where that leaves as much; the mark is then `bounded`, by the proposed measure.
    `exchange` is the program's own solver, a function is given the batch and answers with a
    `Proposal` or None (`solvers.highs` is one). A solver is asked of every batch, before the run.

    `each` matches the orders of equal bundles alone, by a double auction: the exchange does so
    where its budget of one unit is too small for the joint run. Where that run ends within one
    unit, the auction is computed here; its line, in which the exchange stands for the cover alone,
    has the mark `budget` too.

    `timeout` is in seconds, for all that the program does; a function keeps its own time. `path`
    names the program, as in `program.find`. Raises `Refused` where an order is none of the
    exchange's, or a proposal does not hold, `NoProgram`, `Ended` and `TimedOut`.
    """
    if mechanism not in get_args(Mechanism):
        raise ValueError(f"a mechanism is joint or each, not {mechanism!r}")
    if solver is not None and mechanism == "each":
        raise ValueError("a solver is asked where a batch is cleared jointly")
    if solver not in (None, "exchange") and not callable(solver):
        raise ValueError(f"a solver is exchange or a function, not {solver!r}")
    proposed = _proposed(batch, solver) if callable(solver) else ""
    deadline = program.Deadline(timeout)
    if solver == "exchange":
        book = book_line(batch) + "\n"
        proposed = program.run(book, "propose", path, deadline.left()).rstrip("\n")
    commands = list(commands_of(batch, budget if mechanism == "joint" else 1))
    if proposed:
        commands.insert(-1, proposed)
    text = "".join(f"{line}\n" for line in commands)
    lines = program.run(text, "serve", path, deadline.left()).splitlines()
    for command, line in zip(commands, lines, strict=True):
        if '"reply":"refused"' in line:
            raise refused(command, json.loads(line))
    found = cleared.read(json.loads(lines[-1]), lines[-1], path)
    return _alone(found) if mechanism == "each" and found.mark == "optimal" else found


def clear_many(
    batches: Iterable[Batch],
    mechanism: Mechanism = "joint",
    *,
    solver: Solver | None = None,
    budget: int = BUDGET,
    workers: int = 1,
    timeout: float | None = None,
    path: program.Path | None = None,
) -> Iterator[Cleared]:
    """Clears batches one by one, each as `clear` does and with its time, in the order in which
    they come; no more are held at once than are being cleared.

    With several `workers` so many processes clear at once, and the answers are the same; a solver
    that is a function must then be one of a module, not a lambda. What a batch raises ends the
    iterator and names the batch: `fault.batch` is its place, from 0.
    """
    words = {"solver": solver, "budget": budget, "timeout": timeout, "path": path}
    one = partial(clear, mechanism=mechanism, **words)
    if workers < 1:
        raise ValueError("there is at least one worker")
    return _named(map(one, batches) if workers == 1 else _by_workers(one, batches, workers))


def _named(found: Iterator[Cleared]) -> Iterator[Cleared]:
    """The answers; a fault says of which batch it is."""
    place = 0
    try:
        for place, it in enumerate(found, 1):
            yield it
    except RagvismoError as fault:
        fault.batch = place
        raise
    except Exception as fault:
        fault.add_note(f"batch {place}")
        raise


def _by_workers(
    one: Callable[[Batch], Cleared], batches: Iterable[Batch], workers: int
) -> Iterator[Cleared]:
    with ProcessPoolExecutor(workers) as pool:
        ahead = _asked(pool, one, batches)
        waiting: deque[Future[Cleared]] = deque()
        try:
            waiting.extend(islice(ahead, 2 * workers))
            while waiting:
                yield waiting.popleft().result()
                waiting.extend(islice(ahead, 1))
        finally:
            for each in waiting:
                each.cancel()


def _asked(
    pool: ProcessPoolExecutor, one: Callable[[Batch], Cleared], batches: Iterable[Batch]
) -> Iterator[Future[Cleared]]:
    """The answers that come; what the batches themselves raise comes in the place of its batch,
    behind the answers before it."""
    try:
        for it in batches:
            yield pool.submit(one, it)
    except Exception as fault:
        failed: Future[Cleared] = Future()
        failed.set_exception(fault)
        yield failed


def commands_of(batch: Batch, budget: int = BUDGET) -> Iterator[str]:
    """The command lines by which a batch is cleared: the market, its accounts, what their buys need
    in ticks, the orders, and the clear."""
    yield f"market,1,{batch.underlyings}"
    for account, need in _needs(batch).items():
        yield f"open,{account}"
        for start in range(0, need, GREATEST_DEPOSIT):
            yield f"deposit,{account},{min(GREATEST_DEPOSIT, need - start)}"
    for order in batch.orders:
        yield command_of(order, 1)
    yield f"clear,1,{budget}"


def _needs(batch: Batch) -> dict[int, int]:
    """What the buys of each account need, in ticks; 0 of one that sells alone."""
    needs: dict[int, int] = defaultdict(int)
    for order in batch.orders:
        needs[order.account] += order.price * order.quantity if order.side == "buy" else 0
    return needs


def _proposed(batch: Batch, solver: Callable[[Batch], Proposal | None]) -> str:
    """The line that proposes what a function found, empty where it found nothing."""
    proposal = solver(batch)
    return proposal.line(1, batch, range(1, len(batch.orders) + 1)) if proposal else ""


def double_auction(orders: Sequence[Order]) -> list[int]:
    """The fill of each order where the orders of each bundle are matched alone, in bundles.

    The buys of a bundle stand by falling, the sells by rising price, at one price by their places.
    While the first buy's price is above the first sell's, the smaller of what is left of the two is
    filled in both.
    """
    queues: dict[tuple[Leg, ...], dict[str, list[int]]] = defaultdict(
        lambda: {"buy": [], "sell": []}
    )
    for place, order in enumerate(orders):
        queues[order.legs][order.side].append(place)
    fills = [0] * len(orders)
    for queue in queues.values():
        buys = sorted(queue["buy"], key=lambda place: -orders[place].price)
        sells = sorted(queue["sell"], key=lambda place: orders[place].price)
        while buys and sells and orders[buys[0]].price > orders[sells[0]].price:
            amount = min(orders[first].quantity - fills[first] for first in (buys[0], sells[0]))
            for side in (buys, sells):
                fills[side[0]] += amount
                if fills[side[0]] == orders[side[0]].quantity:
                    side.pop(0)
    return fills


def _alone(joint: Cleared) -> Cleared:
    """The batch of a joint clear, each bundle matched alone."""
    fills = double_auction(joint.orders)
    surplus = sum(it.sign * fill * it.price for it, fill in zip(joint.orders, fills))
    reply = json.loads(joint.text)
    del reply["certificate"]
    told = {"fills": list(map(str, fills)), "liability": "0", "surplus": str(surplus)}
    return cleared.read(
        {**reply, **told, "mark": "budget", "units": 1}, path=joint.certificate.path
    )
