"""Explains the command lines that the exchange would refuse with Syntax or Range.

    tools/explain [FILE] [--word run|quotes|guarded|serve]

FILE, or standard input where it is a minus or missing, is what `exchange run` would read, or the
word that is given. For each line that would be refused so, one line tells the reason, the first
field at fault, what stands there, and what may stand there; good lines are passed over in silence.
Of a line of `serve` that asks, what stands behind its `?` is told; lines are counted as they stand.
What depends on the lines before, such as whether an account is open, is not looked at. The status
is 0 where no line is refused so, 1 where some are, and 2 for bad use, with one line on standard
error.
"""
from __future__ import annotations

import argparse
import difflib
import itertools
import json
import re
import sys
from collections.abc import Sequence
from typing import NamedTuple

from ragvismo_tools import proposal_faults
from ragvismo_tools.ending import BadUse, Words, ended

MISTAKES = """
common mistakes:
  written                         why it is refused                      write
  Open,1                          a word has small letters               open,1
  open, 1                         blanks belong to the field             open,1
  deposit,1,10.50                 all numbers are whole                  deposit,1,1050
  deposit,1,1,000                 a comma ends the field                 deposit,1,1000
  deposit,01,5 and deposit,1,+5   no zeros and no plus before a number   deposit,1,5
  deposit,1,0                     an amount is at least 1                no line at all
  open,1 # the buyer              there are no comments                  open,1
  open,'1'                        only "1" is in quotation marks         open,1
  buy,1,1,C,10,6,1,1              a kind is call or put                  buy,1,1,call,10,6,1,1
  buy,1,1,call,10,6,1             an order has a weight per underlying   buy,1,1,call,10,6,1,1
  market,1                        a market tells its underlyings         market,1,1
  clear,1                         a clear has a work budget              clear,1,2000
  quote,.. and margin,..          other words answer them                --word quotes or guarded
"""
MARK = b"\xef\xbb\xbf"
NUMBER = re.compile(r"0|-?[1-9][0-9]*")
# What a text that is no number looks like: the first that fits is told.
LOOKS: tuple[tuple[str, str], ...] = (
    (r"", "is empty"),
    (r"\s.*|.*\s", "has blanks, which belong to the field"),
    (
        r".*(#|//|;).*",
        "has more than a number (there are no comments, and only commas part fields)",
    ),
    (r"\+.*", "has a plus"),
    (r"-0+", "has a minus before 0"),
    (r"-?0[0-9]+", "has zeros before it"),
    (r"[-0-9]*\.[0-9]*", "has a decimal point, and all numbers are whole"),
    (r"-?[0-9]+[_' ][0-9_' ]+", "has its digits parted, and they stand together"),
    (r"-?[0-9.]+[eE][-+0-9]+", "is written with a power of ten, and all digits are written out"),
    (r"-?[0-9]+/[0-9]+", "is a fraction, and all numbers are whole"),
    (r".*[^\x00-\x7f].*", "has signs that are not ASCII, which may look like digits or a minus"),
    (r".*", "is no number"),
)


class Fault(NamedTuple):
    """Why a line is refused: the first field at fault, what it is, and what is to be said of it."""

    reason: str
    field: int
    name: str
    said: str


class Number(NamedTuple):
    """A field that is a number of a range."""

    name: str
    least: int
    greatest: int
    but_zero: bool = False

    def may(self) -> str:
        return (
            f"a whole number from {self.least} to"
            f" {self.greatest}{', but not 0,' if self.but_zero else ''} may stand there"
        )

    def misread(self, text: str) -> str | None:
        """What is wrong with the text's form, if anything."""
        if NUMBER.fullmatch(text):
            return None
        look = next(told for pattern, told in LOOKS if re.fullmatch(pattern, text, re.DOTALL))
        return f"{shown(text)} {look}; {self.may()}"

    def outside(self, text: str) -> str | None:
        """What is wrong with the value of a number text, if anything."""
        if value(text) < self.least:
            return f"{cut(text)} is below {self.least}; {self.may()}"
        if value(text) > self.greatest:
            return f"{cut(text)} is above {self.greatest}; {self.may()}"
        return f"0 counts nothing; {self.may()}" if self.but_zero and text == "0" else None


class Choice(NamedTuple):
    """A field that is one of a few words."""

    name: str
    words: tuple[str, ...]

    def misread(self, text: str) -> str | None:
        return (
            None
            if text in self.words
            else f"{unlike(text, self.words)}; {' or '.join(self.words)} may stand there"
        )

    def outside(self, text: str) -> str | None:
        return None


Field = Number | Choice


class Layout(NamedTuple):
    """The fields behind a word: some that are always there, and from 1 to 8 of one kind."""

    fixed: tuple[Field, ...]
    many: Number | None = None

    def form(self) -> str:
        names = [field.name.split()[-1].upper() for field in self.fixed]
        if self.many:
            letter = self.many.name.split()[-1][0].upper()
            names += [f"{letter}1", "..", f"{letter}n"]
        return ",".join(names)


ACCOUNT, MARKET = Number("the account", 1, 999_999_999), Number("the market", 1, 999_999_999)
HOLDER = Number("the account", 0, 999_999_999)
AMOUNT, BUDGET = Number("the amount", 1, 10**15), Number("the budget", 1, 20_000)
UNDERLYINGS, ORDER = Number("the number of underlyings", 1, 8), Number("the order", 1, 10**6)
KIND, SIDE = Choice("the kind", ("call", "put")), Choice("the side", ("buy", "sell"))
STRIKE, LIMIT, QUANTITY = (
    Number("the strike", -(10**9), 10**9),
    Number("the limit price", 0, 10**12),
    Number("the quantity", 1, 10**6),
)
LEGS, COUNT = Number("the number of legs", 1, 4), Number(
    "a leg's count", -1000, 1000, but_zero=True
)
WEIGHT, SETTLED = Number("a weight", -1000, 1000), Number("a price", 0, 10**9)
BUNDLE_HEAD: tuple[Field, ...] = (ACCOUNT, MARKET, SIDE, LIMIT, QUANTITY, LEGS)
ORDER_LAYOUT = Layout((ACCOUNT, MARKET, KIND, STRIKE, LIMIT, QUANTITY), WEIGHT)
LAYOUTS = {
    "open": Layout((ACCOUNT,)),
    "deposit": Layout((ACCOUNT, AMOUNT)),
    "withdraw": Layout((ACCOUNT, AMOUNT)),
    "market": Layout((MARKET, UNDERLYINGS)),
    "buy": ORDER_LAYOUT,
    "sell": ORDER_LAYOUT,
    "cancel": Layout((ACCOUNT, ORDER)),
    "clear": Layout((MARKET, BUDGET)),
    "settle": Layout((MARKET,), SETTLED),
    "balance": Layout((HOLDER,)),
    "quote": Layout((MARKET, BUDGET, KIND, STRIKE), WEIGHT),
    "price": Layout((MARKET, BUDGET, QUANTITY, KIND, STRIKE), WEIGHT),
    "try": Layout((MARKET, BUDGET, SIDE, LIMIT, QUANTITY, KIND, STRIKE), WEIGHT),
    "margin": Layout((ACCOUNT, MARKET, BUDGET)),
    "book": Layout((MARKET,)),
    "positions": Layout((ACCOUNT, MARKET)),
    "close": Layout((MARKET,)),
    "reopen": Layout((MARKET,)),
    "secure": Layout((ACCOUNT,)),
    "need": Layout((ACCOUNT,)),
}
OF_RUN = (
    "open",
    "deposit",
    "withdraw",
    "market",
    "buy",
    "sell",
    "bundle",
    "cancel",
    "clear",
    "settle",
    "balance",
)
KNOWN = {
    "run": OF_RUN,
    "quotes": (*OF_RUN, "quote"),
    "guarded": (*OF_RUN, "margin"),
    "serve": (
        *OF_RUN,
        "quote",
        "price",
        "try",
        "margin",
        "book",
        "positions",
        "close",
        "reopen",
        "secure",
        "need",
        "propose",
    ),
}
# A line of serve that begins so is a proposal, and is not parted at its other commas.
PROPOSES = b"propose,"
# And one that begins so asks what stands behind it.
ASKS = b"?"


def value(text: str) -> int:
    """The value of a number text; of a long one, some number of its sign that is outside of all
    ranges."""
    return int(text) if len(text) < 30 else int(text[:30])


def cut(text: str) -> str:
    return text if len(text) <= 40 else f"{text[:37]}.."


def shown(text: str) -> str:
    """A text between quotation marks, cut where it is long, its odd signs as JSON writes them."""
    return json.dumps(cut(text))


def unlike(text: str, words: Sequence[str]) -> str:
    """What is wrong with a text that is none of these words."""
    if text == "":
        return '"" is empty'
    if text.strip() in words:
        return f"{shown(text)} has blanks, which belong to the field"
    if text.strip().lower() in words:
        return f"{shown(text)} has capital letters, and words have small ones"
    near = difflib.get_close_matches(text.strip().lower()[:40], words, 1)
    return f"{shown(text)} is no such word" + (f" (the nearest is {near[0]})" if near else "")


def of_the_word(text: str, word: str) -> str:
    """What is wrong with a first field that is none of the words."""
    known = KNOWN[word]
    others = [other for other, words in KNOWN.items() if text in words]
    if others:
        return f"{shown(text)} is answered by {' and '.join(others)}, and not by {word}"
    if re.match(r"\s*(#|//|;|--)", text):
        return (
            f"{shown(text)} begins like a comment, and there are none; only an empty line is passed"
            " over"
        )
    parted = re.match(r"([A-Za-z]+)[;\t ]+\S", text)
    if parted and parted.group(1).lower() in known:
        return f"{shown(text)} is one field: only commas part fields"
    return f"{unlike(text, known)}; one of these may stand there: {', '.join(known)}"


def fields_of(line: bytes) -> list[str] | Fault:
    """The fields of a line, or why it has none."""
    if line.startswith(MARK):
        return Fault(
            "Syntax",
            1,
            "the word",
            "the bytes EF BB BF stand before it; they may stand at the start of the input alone",
        )
    if b"\r" in line:
        at = line.index(b"\r")
        said = f"a carriage return is byte {at + 1} of the line; one may stand at its end alone"
        return Fault("Syntax", line.count(b",", 0, at) + 1, "", said)
    try:
        text = line.decode()
    except UnicodeDecodeError as fault:
        said = (
            f"byte {fault.start + 1} of the line is {line[fault.start]:02X}, which is not UTF-8"
            " there; plain ASCII may stand there"
        )
        return Fault("Syntax", line.count(b",", 0, fault.start) + 1, "", said)
    fields = []
    for place, piece in enumerate(text.split(","), 1):
        inner = piece[1:-1] if len(piece) > 1 and piece[0] == piece[-1] == '"' else piece
        if '"' in inner:
            written = shown(piece)[1:-1].replace('\\"', '"')
            may = "two may stand around a whole field, with no comma and no mark between"
            return Fault("Syntax", place, "", f"{written} has a quotation mark out of place; {may}")
        fields.append(inner)
    return fields


def miscounted(form: str, fields: Sequence[str], least: int, most: int, missing: str) -> Fault:
    """The fault of a line with another number of fields."""
    count = str(least) if least == most else f"{least} to {most}"
    if len(fields) < least:
        return Fault(
            "Syntax",
            len(fields) + 1,
            missing,
            f"it is missing: {form} has {count} fields, and here are {len(fields)}",
        )
    over = fields[most]
    parted = re.fullmatch(r"[0-9]{3}", over) and NUMBER.fullmatch(fields[most - 1])
    hint = " (a comma ends a field, also within a number)" if parted else ""
    return Fault(
        "Syntax",
        most + 1,
        "",
        f"{shown(over)} is over: {form} has {count} fields, and here are {len(fields)}{hint}",
    )


def bundle_fields(fields: Sequence[str]) -> list[Field] | Fault:
    """What the fields behind the word bundle are."""
    form = (
        "bundle,ACCOUNT,MARKET,SIDE,PRICE,QUANTITY,LEGS, and COUNT,KIND,STRIKE,W1,..,Wn for"
        " each leg"
    )
    if len(fields) < 7:
        said = f"it is missing: {form} has at least 7 fields, and here are {len(fields)}"
        return Fault("Syntax", len(fields) + 1, BUNDLE_HEAD[len(fields) - 1].name, said)
    if not re.fullmatch("[1-4]", fields[6]):
        return list(BUNDLE_HEAD)
    legs = int(fields[6])
    weights, over = divmod(len(fields) - 7 - 3 * legs, legs)
    if over or not 1 <= weights <= 8:
        said = (
            f"{legs} does not fit the {len(fields) - 7} fields behind it: each leg has"
            " COUNT,KIND,STRIKE,W1,..,Wn with one n from 1 to 8"
        )
        return Fault("Syntax", 7, LEGS.name, said)
    leg: list[Field] = [COUNT, KIND, STRIKE, *[WEIGHT] * weights]
    return [*BUNDLE_HEAD, *leg * legs]


def fields_behind(fields: Sequence[str]) -> list[Field] | Fault:
    """What the fields behind a known word are, or that they are too few or too many."""
    if fields[0] == "bundle":
        return bundle_fields(fields)
    layout = LAYOUTS[fields[0]]
    least = 1 + len(layout.fixed) + (layout.many is not None)
    most = least + 7 * (layout.many is not None)
    if not least <= len(fields) <= most:
        names = [field.name for field in layout.fixed] + [layout.many.name if layout.many else ""]
        return miscounted(
            f"{fields[0]},{layout.form()}",
            fields,
            least,
            most,
            names[min(len(fields), len(names)) - 1],
        )
    return [*layout.fixed, *([layout.many] * (len(fields) - least + 1) if layout.many else [])]


def without_weight(fields: Sequence[str], kinds: Sequence[Field]) -> Fault | None:
    """The first option all of whose weights are 0, where all numbers are in range."""
    for of_weights, group in itertools.groupby(enumerate(kinds, 2), lambda each: each[1] is WEIGHT):
        places = [place for place, _ in group]
        if of_weights and all(fields[place - 1] == "0" for place in places):
            said = "all weights of the option are 0; each may be 0, but not all of them"
            return Fault("Range", places[0], WEIGHT.name, said)
    return None


def fault_in_proposal(text: bytes) -> Fault | None:
    """Why a proposal is refused with Syntax or Range, if it is, by what stands behind its word."""
    market, comma, proposal = (
        part.decode(errors="backslashreplace") for part in text.partition(b",")
    )
    if not comma:
        return Fault(
            "Syntax",
            3,
            "the proposal",
            "it is missing: propose,MARKET,PROPOSAL has a comma behind MARKET",
        )
    said = MARKET.misread(market)
    if said:
        return Fault("Syntax", 2, MARKET.name, said)
    said = proposal_faults.fault_in(proposal)
    if said:
        return Fault("Syntax", 3, "the proposal", said)
    said = MARKET.outside(market)
    return Fault("Range", 2, MARKET.name, said) if said else None


def fault_of(line: bytes, word: str) -> Fault | None:
    """Why a line that is not empty is refused with Syntax or Range, if it is; of one that asks, by
    what stands behind its `?`."""
    return fault_in(line.removeprefix(ASKS) if word == "serve" else line, word)


def fault_in(line: bytes, word: str) -> Fault | None:
    if line.startswith(PROPOSES):
        return (
            fault_in_proposal(line.removeprefix(PROPOSES))
            if word == "serve"
            else Fault("Syntax", 1, "the word", of_the_word("propose", word))
        )
    fields = fields_of(line)
    if isinstance(fields, Fault):
        return fields
    if fields[0] not in KNOWN[word]:
        return Fault("Syntax", 1, "the word", of_the_word(fields[0], word))
    if fields[0] == "propose":
        return Fault(
            "Syntax",
            1,
            "the word",
            "a proposal begins with the eight bytes propose, and without quotation marks",
        )
    kinds = fields_behind(fields)
    if isinstance(kinds, Fault):
        return kinds
    told = list(enumerate(zip(kinds, fields[1:]), 2))
    for place, (kind, text) in told:
        said = kind.misread(text)
        if said:
            return Fault("Syntax", place, kind.name, said)
    for place, (kind, text) in told:
        said = kind.outside(text)
        if said:
            return Fault("Range", place, kind.name, said)
    bare = without_weight(fields, kinds)
    if bare or fields[0] != "bundle":
        return bare
    options = int(fields[5]) * sum(
        abs(int(text)) for kind, text in zip(kinds, fields[1:]) if kind is COUNT
    )
    if options > 10**6:
        return Fault(
            "Range",
            6,
            QUANTITY.name,
            f"{fields[5]} bundles have {options} options; they may have at most 1000000",
        )
    return None


def explained(text: bytes, word: str) -> int:
    """Writes what is wrong with each line of an input; how many lines there were such."""
    found = 0
    for number, line in enumerate(text.removeprefix(MARK).split(b"\n"), 1):
        line = line.removesuffix(b"\r")
        fault = fault_of(line, word) if line else None
        if fault:
            found += 1
            name = f" ({fault.name})" if fault.name else ""
            print(f"line {number}: {fault.reason}, field {fault.field}{name}: {fault.said}")
    return found


def main() -> int:
    words = Words(
        description=__doc__, epilog=MISTAKES, formatter_class=argparse.RawDescriptionHelpFormatter
    )
    words.add_argument(
        "file",
        metavar="FILE",
        nargs="?",
        default="-",
        help="command lines; a minus, or none, is standard input",
    )
    words.add_argument(
        "--word",
        choices=sorted(KNOWN),
        default="run",
        help="the word of the program that would read them",
    )
    given = words.parse_args()
    try:
        if given.file == "-":
            if sys.stdin is None:
                raise BadUse("there is no standard input")
            text = sys.stdin.buffer.read()
        else:
            with open(given.file, "rb") as opened:
                text = opened.read()
    except OSError as fault:
        name = "standard input" if given.file == "-" else given.file
        raise BadUse(f"{name} cannot be read: {fault.strerror}") from None
    found = explained(text, given.word)
    return 1 if found else 0


def run() -> int:
    return ended(main, closed=1)
