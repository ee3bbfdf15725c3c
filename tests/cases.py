"""The stream of cases of docs/CASES.md, for values as the models have them."""
from typing import NamedTuple

from image_model import numbers

(READ, WRITE, TICK, ENGINE_TICK, PINS, TRANSLATE, TICK_TABLE, TICK_SHEET, SHOW_TABLE, SHOW_SHEET,
 TABLE_VERDICT, SHEET_VERDICT, START, FOR_C_START, FOR_C_TICK_TABLE, FOR_C_TICK_SHEET, FOR_C_SHOW_TABLE,
 FOR_C_SHOW_SHEET) = range(1, 19)
LONGEST_PART = 4096

# The widths in bytes of what is a list of numbers in the models.
VERDICT = (1, 2)
GROUP = (1, 1, 1, 1, 2, 1, 1, 1, 1, 2, 2, 1, 1)
CHANNEL = (1, 1, 1, 2, 1, 2, 2)
STATE = (1, 1, 2, 2, 2)


class Case(NamedTuple):
    name: str
    kind: int
    given: bytes
    lent: bytes
    expected: bytes


def joined(widths, values):
    return b"".join(value.to_bytes(width, "little") for width, value in zip(widths, values, strict=True))


def word_bytes(word):
    return joined((2,), (word,))


def verdict_bytes(verdict):
    return joined(VERDICT, verdict)


def settings_bytes(settings):
    return b"".join(joined(GROUP, numbers(group)) for group in settings)


def bank_bytes(bank):
    return b"".join(joined(CHANNEL, channel) for channel in bank)


def state_bytes(state):
    """Number of the step or cell, held, elapsed, ticks, two zero bytes; held and ticks are 0."""
    at, elapsed = state
    return joined(STATE, (at, 0, elapsed, 0, 0))


def ticked_bytes(ticked):
    """The answer of the engine: number, place, at, elapsed, outputs, step."""
    number, place, at, elapsed, outputs, step = ticked
    return verdict_bytes((number, place)) + state_bytes((at, elapsed)) + joined((2, 1), (outputs, step))


def pattern(length):
    """A buffer to lend: no byte is zero, in an order that no width of records repeats."""
    return bytes(255 - i % 251 for i in range(length))


def case_bytes(case):
    parts = case.given, case.lent, case.expected
    assert max(map(len, parts)) <= LONGEST_PART, case.name
    return bytes([case.kind]) + b"".join(word_bytes(len(part)) for part in parts) + b"".join(parts)


def distinct(cases):
    """The cases without those that make a call which an earlier one makes. No two have the same name."""
    calls, names = set(), set()
    for case in cases:
        call = (case.kind, case.given, case.lent)
        if call in calls:
            continue
        assert case.name not in names, case.name
        calls.add(call)
        names.add(case.name)
        yield case
