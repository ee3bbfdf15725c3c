"""Cases of the calls for C on an engine's state, as include/wrackbasket.h explains them: the state is eight lent bytes, the answer
one number."""
from cases import FOR_C_SHOW_SHEET, FOR_C_SHOW_TABLE, FOR_C_START, FOR_C_TICK_SHEET, FOR_C_TICK_TABLE, Case, joined, pattern
from cases import state_bytes, word_bytes
from sheet_model import START, tick_sheet, tick_table, translation
from sheet_vectors import PAPER, ROOM

STATE = 8
ZEROS = (1, 4, 5, 6, 7)
# The kind of a tick, that of a show, and the call.
ON_TABLE = ("table", FOR_C_TICK_TABLE, FOR_C_SHOW_TABLE, tick_table)
ON_SHEET = ("sheet", FOR_C_TICK_SHEET, FOR_C_SHOW_SHEET, tick_sheet)


def bytes_refusal(state):
    """Another length is 1 at 0, a byte that must be 0 and is not 8 at 0."""
    if len(state) != STATE:
        return 1
    return 8 if any(state[at] for at in ZEROS) else 0


def on_state(call, data, state, word):
    """The answer, and the state's bytes afterwards."""
    refusal = bytes_refusal(state)
    if refusal:
        return refusal, state
    number, place, *after, outputs, step = call(data, (state[0], int.from_bytes(state[2:4], "little")), word)
    return number | step << 8 | outputs << 16 | place << 32, state if number else state_bytes(after)


def case(on, name, data, state, word=None):
    on_name, tick_kind, show_kind, call = on
    kind, given = (show_kind, data) if word is None else (tick_kind, word_bytes(word) + data)
    answer, after = on_state(call, data, state, word)
    what = "show" if word is None else "tick"
    return Case(f"for-c-{what}-{on_name}-{name}", kind, given, state, joined((8,), (answer,)) + after)


def both(on, name, data, state, word=0):
    yield case(on, name, data, state, word)
    yield case(on, name, data, state)


def start_cases():
    for length in (0, 1, 7, STATE, 9, 16):
        lent = pattern(length)
        right = length == STATE
        after = state_bytes(START) if right else lent
        yield Case(f"for-c-start-{length}", FOR_C_START, b"", lent, joined((4,), (int(not right),)) + after)


def form_cases(on, data):
    for at in range(4):
        for elapsed in (0, 1, 999, 1000, 3999, 4000):
            yield from both(on, f"at-{at}-{elapsed}", data, state_bytes((at, elapsed)))
    for word in (1, 1023, 1024, 65535):
        yield case(on, f"word-{word}", data, state_bytes((1, 0)), word)
    for length in (0, 7, 9):
        yield from both(on, f"length-{length}", data, bytes(length))
    for at in ZEROS:
        for value in (1, 255):
            state = bytearray(state_bytes(START))
            state[at] = value
            yield from both(on, f"byte-{at}-{value}", data, bytes(state))
            yield from both(on, f"byte-{at}-{value}-no-data", b"", bytes(state))
    yield from both(on, "no-data", b"", state_bytes(START))
    yield from both(on, "no-data-no-state", b"", b"")


def chosen_cases():
    yield from start_cases()
    yield from form_cases(ON_SHEET, PAPER)
    yield from form_cases(ON_TABLE, translation(PAPER, ROOM)[1])


def all_cases():
    return chosen_cases()
