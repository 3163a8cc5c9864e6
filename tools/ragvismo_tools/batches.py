"""Batches of random orders, as command lines: tools/bench and tools/basket make their inputs with
these."""
import math
from random import Random


def opened(accounts: int, markets: int, underlyings: int = 1) -> list[str]:
    """The lines that open and fund accounts and list markets."""
    lines = [f"open,{it}" for it in range(1, accounts + 1)]
    lines += [f"deposit,{it},1000000000000000" for it in range(1, accounts + 1)]
    return lines + [f"market,{it},{underlyings}" for it in range(1, markets + 1)]


def pays(kind: str, strike: int, worth: int) -> int:
    """What an option pays where the weighted prices sum to this."""
    return max(worth - strike if kind == "call" else strike - worth, 0)


def weights_of(draw: Random, underlyings: int) -> list[int]:
    weights = [draw.choice((0, 1, 1, 2)) for _ in range(underlyings)] if underlyings > 1 else [1]
    return weights if any(weights) else [1] * underlyings


def batch(draw: Random, orders: int, strikes: int, underlyings: int = 1) -> list[str]:
    """Orders around what their options pay at one settlement in the middle."""
    prices = [draw.randint(strikes // 4, 3 * strikes // 4) for _ in range(underlyings)]
    lines = []
    for _ in range(orders):
        weights = weights_of(draw, underlyings)
        worth = sum(w * p for w, p in zip(weights, prices))
        kind = draw.choice(("call", "put"))
        strike = draw.randint(1, strikes) * (sum(weights) if underlyings > 1 else 1)
        price = max(0, pays(kind, strike, worth) + draw.randint(-strikes // 10, strikes // 10))
        side, account = draw.choice(("buy", "sell")), draw.randint(1, 40)
        quantity, form = draw.randint(1, 10), ",".join(map(str, weights))
        lines.append(f"{side},{account},1,{kind},{strike},{price},{quantity},{form}")
    return lines


def bundles(draw: Random, orders: int, underlyings: int) -> list[str]:
    """Bundles of one to four legs, around what they pay at one settlement in the middle."""
    prices = [draw.randint(25, 75) for _ in range(underlyings)]
    lines = []
    for _ in range(orders):
        worth, legs, count = 0, [], draw.randint(1, 4)
        for _ in range(count):
            weights = weights_of(draw, underlyings)
            kind, strike = draw.choice(("call", "put")), draw.randint(1, 100) * sum(weights)
            counts = draw.choice((-2, -1, 1, 1, 2, 3))
            worth += counts * pays(kind, strike, sum(w * p for w, p in zip(weights, prices)))
            legs += [str(counts), kind, str(strike), *map(str, weights)]
        side, price = draw.choice(("buy", "sell")), max(0, worth + draw.randint(-10, 10))
        about = draw.randint(1, 40), 1, side, price, draw.randint(1, 10), count
        lines.append(",".join(["bundle", *map(str, about), *legs]))
    return lines


def wild(draw: Random, orders: int, underlyings: int) -> list[str]:
    """Orders over the whole limits: weights of both signs to 1,000, and quantities of every size to
    1,000,000."""
    prices = [draw.randint(1, 1_000_000) for _ in range(underlyings)]
    lines = []
    for _ in range(orders):
        weights = [draw.randint(-1000, 1000) for _ in range(underlyings)]
        weights = weights if any(weights) else [1] * underlyings
        kind, strike = draw.choice(("call", "put")), draw.randint(1, 1_000_000)
        worth = pays(kind, strike, sum(w * p for w, p in zip(weights, prices)))
        price = min(1_000_000, max(0, worth + draw.randint(-100_000, 100_000)))
        side, account = draw.choice(("buy", "sell")), draw.randint(1, 40)
        quantity, form = round(10 ** draw.uniform(0, 6)), ",".join(map(str, weights))
        lines.append(f"{side},{account},1,{kind},{strike},{price},{quantity},{form}")
    return lines


def paths_of(draw: Random, forwards: list[int]) -> list[list[float]]:
    """Settlements in half a year, lognormal about the forwards, with one factor in common."""
    sizes = [draw.uniform(0.13, 0.32) for _ in forwards]
    paths = []
    for _ in range(1000):
        common = draw.gauss(0, 0.7)
        moves = [size * (common + draw.gauss(0, 0.7)) - size * size / 2 for size in sizes]
        paths.append([forward * math.exp(move) for forward, move in zip(forwards, moves)])
    return paths


def asked_weights(draw: Random, forwards: list[int], index: list[int]) -> list[int]:
    """Weights as traders ask for them: one name (half of all), a pair of about equal worth, the
    index, a basket of some of its names, or others."""
    names = range(len(forwards))
    weights = [0] * len(forwards)
    kind = draw.choices(("name", "pair", "index", "basket", "others"), (50, 25, 10, 10, 5))[0]
    if kind == "name":
        weights[draw.choice(names)] = 1
    elif kind == "pair":
        dear, cheap = sorted(draw.sample(names, 2), key=lambda it: -forwards[it])
        weights[dear], weights[cheap] = 1, -max(1, round(forwards[dear] / forwards[cheap]))
    elif kind == "others":
        for it in draw.sample(names, draw.randint(2, min(len(forwards), 4))):
            weights[it] = draw.choice((-2, -1, 1, 2, 3))
    else:
        few = draw.randint(2, max(2, len(forwards) // 2))
        for it in names if kind == "index" else draw.sample(names, few):
            weights[it] = index[it]
    return weights


def round_strike(draw: Random, size: float, near: float, spread: float) -> int:
    """A round strike: a multiple of 1, 2 or 5 with zeros, at most a fortieth of the size."""
    unit: int = 10 ** math.floor(math.log10(size / 40)) if size >= 40 else 1
    step = max(it for it in (unit, 2 * unit, 5 * unit) if it <= max(size / 40, unit))
    strike: int = round(draw.gauss(near, 0.6 * spread) / step) * step
    return strike


def realistic(draw: Random, orders: int, underlyings: int, noise: float) -> list[str]:
    """Orders on two or more underlyings as traders send them: single names, pairs, an index and
    baskets of it, at round strikes, at prices by so much noise about what a model says."""
    forwards = [10 * round(40 * 10 ** draw.random()) for _ in range(underlyings)]
    index = [max(1, round(draw.uniform(0.5, 1.5) * 1500 / it)) for it in forwards]
    paths = paths_of(draw, forwards)
    lines: list[str] = []
    while len(lines) < orders:
        weights = asked_weights(draw, forwards, index)
        worths = [sum(w * p for w, p in zip(weights, path)) for path in paths]
        near = sum(worths) / len(worths)
        spread = math.sqrt(sum((it - near) ** 2 for it in worths) / len(worths))
        size = sum(abs(w) * it for w, it in zip(weights, forwards))
        strike = round_strike(draw, size, near, spread)
        kind = "call" if (strike >= near) == (draw.random() < 0.8) else "put"
        turn = 1 if kind == "call" else -1
        model = sum(max(0.0, turn * (it - strike)) for it in worths) / len(worths)
        side = draw.choice(("buy", "sell"))
        price = round(model * math.exp(draw.gauss(0, noise)) * (0.96 if side == "buy" else 1.04))
        if strike > 0 and price > 0:
            quantity = draw.choice((1, 2, 5, 10, 20, 50, 100))
            about = side, draw.randint(1, 40), 1, kind, strike, price, quantity
            lines.append(",".join(map(str, (*about, *weights))))
    return lines
