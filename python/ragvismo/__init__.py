"""An options exchange with certified clearing, for notebooks.

Numbers are `int` and `fractions.Fraction`; floats come where they are asked for, to plot.
"""

from ragvismo import solvers
from ragvismo.chains import Chain, import_chain
from ragvismo.cleared import Certificate, Cleared, State
from ragvismo.clearing import clear, clear_many, commands_of, double_auction
from ragvismo.exchange import (
    Balance,
    Book,
    Depth,
    Exchange,
    Level,
    Margin,
    Need,
    Payout,
    Position,
    Price,
    Proposed,
    Settled,
    Trial,
)
from ragvismo.faults import (
    BadChain,
    BadFrame,
    BadJournal,
    CheckFailed,
    Ended,
    NoCover,
    NoMeasure,
    NoProgram,
    RagvismoError,
    Refused,
    TimedOut,
    Unproved,
)
from ragvismo.frames import JournalFrames, read_journal
from ragvismo.journals import read_batch
from ragvismo.orders import (
    Batch,
    FilledOrder,
    Leg,
    Option,
    Order,
    PlacedOrder,
    bundle,
    buy,
    call,
    put,
    sell,
)
from ragvismo.pictures import picture, save
from ragvismo.prices import (
    Distribution,
    PriceBounds,
    implied_distribution,
    price_bounds,
    state_prices,
)
from ragvismo.proposals import Proposal
from ragvismo.version import __version__

__all__ = ["__version__", "solvers"]
__all__ += ["Certificate", "Cleared", "State", "clear", "clear_many", "commands_of"]
__all__ += ["Balance", "Book", "Exchange", "Margin", "Need", "Payout", "Position"]
__all__ += ["Depth", "Level", "Price", "Proposed", "Trial"]
__all__ += ["BadChain", "BadFrame", "BadJournal", "CheckFailed", "Ended", "NoCover", "NoMeasure"]
__all__ += ["NoProgram", "RagvismoError", "Refused", "Settled", "TimedOut", "Unproved"]
__all__ += ["Chain", "Distribution", "JournalFrames", "PriceBounds", "Proposal", "import_chain"]
__all__ += ["implied_distribution", "price_bounds", "read_batch", "read_journal", "state_prices"]
__all__ += ["double_auction", "picture", "save"]
__all__ += ["Batch", "FilledOrder", "Leg", "Option", "Order", "PlacedOrder"]
__all__ += ["bundle", "buy", "call", "put", "sell"]
