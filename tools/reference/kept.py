"""The bytes of kept states, and the order in which they are refused: quenched_states/specs/KeptBytes.antt and KeptTests.antt."""
from collections import namedtuple
from hashlib import sha256

from reference.words import big_bytes, table
from reference.quenched import time_at

kept_kind = b"GLASSKS1"
longest_kept = 544943596


def kept_header(count):
    return kept_kind + big_bytes(4, count)


def kept_body(states):
    return kept_header(len(states)) + b"".join(states)


def kept_encoding(states):
    """Of the states' checkpoints at one epoch each, in the order of their times."""
    return kept_body(states) + sha256(kept_body(states)).digest()


def kept_length(count, level):
    return 44 + count * level


# ---------------------------------------------------------------- reading

# How one state's checkpoint is read: its length, its first refusal (None where it has none), its epoch.
LevelTests = namedtuple("LevelTests", "len refuses epoch")
# What is told by each refusal of the frame and of the times.
KeptRefusals = namedtuple("KeptRefusals", "short states other_length damaged other_time")


def are_kept(stored):
    return stored[:8] == kept_kind


def kept_count(stored):
    return int.from_bytes(stored[8:12], "big")


def state_bytes(length, stored, j):
    return stored[12 + length * j:12 + length * (j + 1)]


def states_in(length, stored):
    """The checkpoints of the states: other bytes than kept states are that of one."""
    return table(lambda j: state_bytes(length, stored, j), kept_count(stored)) if are_kept(stored) else (stored,)


def short_frame(tell, stored):
    return tell.short(len(stored)) if len(stored) < 44 else None


def wrong_count(tell, most, stored):
    return None if 1 <= kept_count(stored) <= most else tell.states(kept_count(stored), most)


def wrong_length(tell, length, stored):
    wanted = kept_length(kept_count(stored), length)
    return None if len(stored) == wanted else tell.other_length(len(stored), wanted)


def wrong_digest(tell, stored):
    computed = sha256(stored[:-32]).digest()
    return None if stored[-32:] == computed else tell.damaged(stored[-32:], computed)


def frame_refusal(tell, length, most, stored):
    return (short_frame(tell, stored) or wrong_count(tell, most, stored) or wrong_length(tell, length, stored)
            or wrong_digest(tell, stored))


def state_refusal(level, states):
    return next(filter(None, map(level.refuses, states)), None)


def times_refusal(tell, level, times, states):
    return next((tell.other_time(j, level.epoch(state), time_at(times, j)) for j, state in enumerate(states)
                 if level.epoch(state) != time_at(times, j)), None)


def kept_refusal(tell, level, times, stored):
    """The first refusal of bytes from which a quench of these times is to go on."""
    frame = frame_refusal(tell, level.len, len(times), stored) if are_kept(stored) else None
    if frame is not None:
        return frame
    states = states_in(level.len, stored)
    return state_refusal(level, states) or times_refusal(tell, level, times, states)
