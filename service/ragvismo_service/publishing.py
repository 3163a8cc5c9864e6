"""Publishing answers: nothing that is wrong, and each once, however many publish."""

from __future__ import annotations

from ragvismo_service.chain import Answered
from ragvismo_service.messages import START_ID
from ragvismo_service.places import Keys
from ragvismo_service.statuses import Ended, Status
from ragvismo_service.store import Command

# KEYS: out, program; ARGV: the stream of messages, the sum of the program, how many answers come
# before, the id of the last of them, then ids, answers and heads in turn. Another sequencer may
# have appended the first of them; the script appends the rest, all or nothing, and nothing where
# the log has lost the last of the entries. The stream of messages is none of the keys, since who
# runs a script has to have the right to write to each of these.
SCRIPT = b"""
local stream, before, since = ARGV[1], ARGV[3], ARGV[4]
if redis.call('GET', KEYS[2]) ~= ARGV[2] then return {'program', ''} end
local last, many = ARGV[#ARGV - 2], (#ARGV - 4) / 3
if #redis.call('XRANGE', stream, last, last) == 0 then return {'lost', last} end
local there = redis.call('XRANGE', KEYS[1], '(' .. since, '+', 'COUNT', many)
for at, found in ipairs(there) do
    local id, of = ARGV[3 * at + 2], found[2]
    if found[1] ~= id or #of ~= 4 or of[1] ~= 'answer' or of[3] ~= 'chain' then
        return {'forged', found[1]}
    end
    if of[2] ~= ARGV[3 * at + 3] then return {'differs', id} end
    if of[4] ~= ARGV[3 * at + 4] then return {'changed', id} end
end
if #there == many then return {'published', last} end
if redis.call('XLEN', KEYS[1]) ~= before + #there then return {'cut', last} end
for at = 3 * #there + 5, #ARGV, 3 do
    redis.call('XADD', KEYS[1], ARGV[at], 'answer', ARGV[at + 1], 'chain', ARGV[at + 2])
end
return {'published', last}
"""
FAULTS = {
    b"program": (Status.OTHER_PROGRAM, "the exchange was handed over to another program"),
    b"forged": (Status.FORGED, "NO SEQUENCER WROTE what stands under {id} among the answers"),
    b"differs": (
        Status.DIFFERS,
        "ANOTHER ANSWER than this machine's stands under {id}: one machine is broken",
    ),
    b"changed": (Status.CHANGED, "THE LOG WAS CHANGED at {id}, or the sum beside its answer"),
}
MISSING = {
    b"lost": "entry {id}, which was answered",
    b"cut": "all answers before that to {id}",
}


class Publisher:
    """Publishes the answers of one program, from the first on."""

    def __init__(self, keys: Keys, digest: str) -> None:
        self.keys, self.digest = keys, digest.encode()
        self.count, self.last = 0, START_ID

    def command(self, group: list[Answered]) -> Command:
        """What publishes answers, as often as it is said."""
        words = [word for entry, answer, head in group for word in (entry.id, answer, head)]
        taken, answers, program = self.keys.taken, self.keys.answers, self.keys.program
        state = self.digest, b"%d" % self.count, self.last
        return [b"EVAL", SCRIPT, b"2", answers, program, taken, *state, *words]

    def take(self, group: list[Answered], told: list[bytes]) -> str:
        """Takes what Redis said to the command, and tells what is missing in the log, if anything;
        else it is Ended."""
        kind, id = told[0], told[1].decode()
        if kind in FAULTS:
            status, said = FAULTS[kind]
            raise Ended(status, said.format(id=id))
        if kind in MISSING:
            return MISSING[kind].format(id=id)
        self.count += len(group)
        self.last = group[-1].entry.id
        return ""
