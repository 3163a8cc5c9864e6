"""Answers the log of an exchange with another program, and compares with what was answered.

    service/rehearse PROGRAM [--at PLACE] [--sessions] [--switch]

It publishes nothing, and checks the chain of sums. Where all answers are the same it says how many;
at the first that is not it prints both. With --switch and no difference the exchange is then
answered by PROGRAM: sequencers of any other end with status 6, and those that are started with
PROGRAM go on. That step is taken only where the last answer is one that was compared.

It ends with 0, or with status
"""

from __future__ import annotations

from ragvismo_service.history import History
from ragvismo_service.program import Program, Replay
from ragvismo_service.statuses import Status, table
from ragvismo_service.store import Store
from ragvismo_service.words import Words, runnable, status_of, store_of

OTHERS = (
    Status.DONE,
    Status.DIFFERS,
    Status.OTHER_PROGRAM,
    Status.HELD,
    Status.LAGS,
    Status.FILE_FAULT,
)
STATUSES = [status for status in Status if status not in OTHERS]
# KEYS: program; ARGV: the stream of answers, the id of the last answer that was compared, or
# nothing, and the sum of the program.
SWITCH = b"""
local last = redis.call('XREVRANGE', ARGV[1], '+', '-', 'COUNT', 1)
if (last[1] and last[1][1] or '0-0') ~= ARGV[2] then return 0 end
redis.call('SET', KEYS[1], ARGV[3])
return 1
"""


class Rehearsal:
    """Compares what a program answers with what was answered."""

    def __init__(self, store: Store, program: Program) -> None:
        self.history, self.replay, self.count = History(store), Replay(program), 0

    def difference(self) -> str:
        """The first answer of those that are left which the program answers otherwise; nothing
        where there is none."""
        for page in self.history.pages():
            stands = iter(page)
            for group in self.replay.answers([it.entry for it in page]):
                for computed, told in zip(group, stands):
                    if computed.answer != told.answer:
                        id = told.entry.id.decode()
                        return f"{id}: {told.answer!r}, and PROGRAM answers {computed.answer!r}"
                    self.count += 1
        return ""

    def switch(self, digest: str) -> bool:
        """Hands the exchange over, where no answer came since the last one that was compared."""
        keys, since = self.history.keys, self.history.since
        words = b"EVAL", SWITCH, b"1", keys.program, keys.answers, since, digest.encode()
        told = self.history.store.say(*words, kept=True)
        return bool(told == 1)


def run() -> Status:
    words = Words(f"{__doc__}{table(*STATUSES)}")
    words.add_argument("program", metavar="PROGRAM", type=runnable)
    words.add_argument("--switch", action="store_true")
    words.add_rule()
    given = words.parse_args()
    program = Program(given.program, given.patience, given.rule)
    rehearsal = Rehearsal(store_of(given), program)
    rehearsal.history.begin()
    other = rehearsal.difference()
    while given.switch and not other and not rehearsal.switch(program.digest):
        other = rehearsal.difference()
    print(f"{rehearsal.count} answers are the same")
    if other:
        print(other)
    elif given.switch:
        print("the exchange is answered by this program now", flush=True)
    program.end()
    return Status.NO if other else Status.DONE


def main() -> int:
    return status_of(run)
