"""Cases of the engine on tables and on sheets: the chosen ticks and runs; and every word and level on every channel, and many
ticks and runs by chance.

A run goes from the start of a sheet and beside it of its table, over stretches of ticks with the same word. Where both only
wait the ticks are left out, and the next states given are those at the end of the wait. Of a chosen run over many steps or by
chance a part is taken."""
import itertools
import random
from typing import Callable, NamedTuple

from cases import SHOW_SHEET, SHOW_TABLE, TICK_SHEET, TICK_TABLE, Case, state_bytes, ticked_bytes, word_bytes
from sheet_model import ACCEPTED, CELL, CELL_FIELDS, EXITS, MOST, START, WORDS, cells_of, exit_taken
from sheet_model import record_bytes, sheet_verdict, steps_of, tick_sheet, tick_table, translated_cells, translation
from sheet_vectors import EXAMPLES, PAPER, ROOM, chance_sheet, filled, plain, room_for, sheet_cases, sheet_of
from sheet_vectors import sheet_verdict_case, step, table_verdict_case, waits, words


class Engine(NamedTuple):
    name: str
    tick_kind: int
    show_kind: int
    tick: Callable


ON_TABLE = Engine("table", TICK_TABLE, SHOW_TABLE, tick_table)
ON_SHEET = Engine("sheet", TICK_SHEET, SHOW_SHEET, tick_sheet)
FOREVER = 65536


def tick_case(engine, name, data, state, word):
    given = state_bytes(state) + word_bytes(word) + data
    return Case(f"tick-{engine.name}-{name}", engine.tick_kind, given, b"", ticked_bytes(engine.tick(data, state, word)))


def show_case(engine, name, data, state):
    return Case(f"show-{engine.name}-{name}", engine.show_kind, state_bytes(state) + data, b"", ticked_bytes(engine.tick(data, state)))


def cell(*pairs):
    return filled(CELL_FIELDS, pairs)


def table_of(cells):
    return b"".join(record_bytes(CELL_FIELDS, one) for one in cells)


def table_cases(name, cells, state, word):
    """A tick, what shows before it, and the verdicts on the whole table and on the current cell."""
    table = cells if isinstance(cells, bytes) else table_of(cells)
    yield tick_case(ON_TABLE, name, table, state, word)
    yield show_case(ON_TABLE, name, table, state)
    yield table_verdict_case(name, table, state[0])


def sheet_tick_cases(name, steps, state, word):
    """A tick, what shows before it, and the verdict on the sheet."""
    sheet = steps if isinstance(steps, bytes) else sheet_of(steps)
    yield tick_case(ON_SHEET, name, sheet, state, word)
    yield show_case(ON_SHEET, name, sheet, state)
    yield sheet_verdict_case(name, sheet)


def waiting_ticks(record, elapsed, word):
    """How many ticks of the word take no exit, at most."""
    if word >= WORDS or exit_taken(record, elapsed, word):
        return 0
    return record["timeout"] - 1 - elapsed if record["timeout"] else FOREVER


def waited(record, state, ticks):
    return (state[0], state[1] + ticks if record["timeout"] else 0)


def run_ticks(sheet, table, stretches):
    """The number, the sheet's state, the table's state and the word of the first tick of each stretch and of each tick that
    takes an exit, if they have not been met before. The ticks between them only wait."""
    steps, cells = steps_of(sheet), cells_of(table)
    one, other, tick, end, met = START, START, 0, 0, set()
    for word, count in stretches:
        end += count
        while tick < end:
            if (one, other, word) not in met:
                met.add((one, other, word))
                yield tick, one, other, word
            one, other = tick_sheet(sheet, one, word)[2:4], tick_table(table, other, word)[2:4]
            here, there = steps[one[0]], cells[other[0]]
            skipped = min(waiting_ticks(here, one[1], word), waiting_ticks(there, other[1], word), end - tick - 1)
            one, other, tick = waited(here, one, skipped), waited(there, other, skipped), tick + 1 + skipped


def run_cases(name, sheet, stretches, first=0, last=None):
    """The translation, the starts, and the run's ticks first to last of the sheet and of its table by turns."""
    name = f"run-{name}"
    table = translation(sheet, ROOM)[1]
    yield from sheet_cases(name, sheet, room_for(sheet))
    yield show_case(ON_SHEET, name, sheet, START)
    yield show_case(ON_TABLE, name, table, START)
    for tick, one, other, word in itertools.islice(run_ticks(sheet, table, stretches), first, last):
        assert tick_sheet(sheet, one, word)[4:] == tick_table(table, other, word)[4:]
        yield tick_case(ON_SHEET, f"{name}-tick-{tick}", sheet, one, word)
        yield tick_case(ON_TABLE, f"{name}-tick-{tick}", table, other, word)


def three_exits(tag, outputs, ticks, fault, sequence, timeout):
    """A step that bit 0 leaves by fault, bit 1 by sequence, and that many ticks by timeout."""
    return step(tag, "outputs", outputs, "mask", 1, "fault jump", fault, "channel", 2, "level", 1, "sequence jump", sequence,
                "timeout", ticks, "timeout jump", timeout)


# Where each exit leads: step or cell 1, 2 and 3 by fault, sequence and timeout, from 0.
LATER_CELLS = [cell("outputs", 1, "step", 11), cell("outputs", 2, "step", 22), cell("outputs", 1023, "step", 62)]
LATER_STEPS = [step(11, "outputs", 1), step(22, "outputs", 2), step(62, "outputs", 1023)]


def four_cells(*pairs):
    exits = [(f"{exit} next", k + 1) for k, (exit, part) in enumerate(EXITS.items()) if part in pairs]
    return [cell("outputs", 0x155, "step", 9, *pairs, *sum(exits, ())), *LATER_CELLS]


def four_steps(*pairs):
    jumps = [(f"{exit} jump", LATER_STEPS[k]["tag"]) for k, (exit, part) in enumerate(EXITS.items()) if part in pairs]
    return [step(9, "outputs", 0x155, *pairs, *sum(jumps, ())), *LATER_STEPS]


def exit_ticks():
    """The fields of the first step or cell, what has elapsed, and the word."""
    for word in (0, 1, 2, 3, 4, 5, 6, 7, 1023):
        for level in (0, 1):
            yield ("mask", 1, "channel", 2, "level", level, "timeout", 3), 2, word
    for word in (0, 512, 511, 1023):
        yield ("mask", 512), 0, word
        yield ("mask", 1023), 0, word
        yield ("mask", 0x1FF), 0, word
        yield ("channel", 10), 0, word
        yield ("channel", 10, "level", 1), 0, word
    for word in (0, 1, 2, 1022, 1023):
        yield ("channel", 1), 0, word
        yield ("channel", 1, "level", 1), 0, word
        yield (), 0, word
        yield ("timeout", 2), 0, word
        yield ("timeout", 2), 1, word
        yield ("mask", 1, "channel", 1, "level", 1), 0, word
    for timeout in (1, 2, 3, 255, 256, 257, 3999, 4000):
        for elapsed in sorted({0, 1, timeout - 2, timeout - 1, timeout, timeout + 1, 255, 256, 65535} - {-1}):
            yield ("timeout", timeout), elapsed, 0
    for elapsed in (0, 1, 2, 4000, 65535):
        yield (), elapsed, 0
        yield ("mask", 2), elapsed, 2
    for word in (1023, 1024, 1025, 2048, 32768, 65535):
        yield ("mask", 1, "timeout", 5), 0, word
        yield ("mask", 1, "timeout", 5), 5, word
    for channel in range(1, 11):
        for level in (0, 1):
            for word in (1 << (channel - 1), 1023 - (1 << (channel - 1))):
                yield ("channel", channel, "level", level), 0, word


def exit_cases():
    for pairs, elapsed, word in exit_ticks():
        name = words((*pairs, "elapsed", elapsed, "word", word))
        yield from table_cases(name, four_cells(*pairs), (0, elapsed), word)
        yield from sheet_tick_cases(name, four_steps(*pairs), (0, elapsed), word)


def long_wait_cases():
    """Elapsed on a sheet goes up to 39,999."""
    for timeout in (4001, 8000, 40000):
        for elapsed in (0, 3998, 3999, 4000, 4001, timeout - 2, timeout - 1, timeout):
            yield from sheet_tick_cases(f"wait-{timeout}-elapsed-{elapsed}", waits([timeout, 1]), (0, elapsed), 0)


def itself_cases():
    """A jump to itself sets elapsed to 0; from the second cell of a wait it leads to the first."""
    wait = [three_exits(5, 7, 9000, 5, 5, 5)]
    table = translation(sheet_of([step(1, "mask", 1, "fault jump", 5), *wait]), ROOM)[1]
    for word in (0, 1, 2, 3):
        for elapsed in (0, 1, 8999):
            yield from sheet_tick_cases(f"itself-elapsed-{elapsed}-word-{word}", wait, (0, elapsed), word)
        for at in (1, 2, 3):
            for elapsed in (0, 5, 999, 3999):
                yield from table_cases(f"itself-cell-{at}-elapsed-{elapsed}-word-{word}", table, (at, elapsed), word)


BAD_CELLS = [
    ("outputs", 1024), ("outputs", 65535), ("mask", 1024), ("channel", 11), ("channel", 255), ("level", 1), ("level", 2),
    ("channel", 1, "level", 2), ("timeout", 4001), ("timeout", 65535), ("step", 63), ("step", 255),
    ("fault next", 1), ("sequence next", 1), ("timeout next", 1), ("mask", 1, "fault next", 3), ("mask", 1, "fault next", 255),
    ("channel", 1, "sequence next", 3), ("timeout", 1, "timeout next", 3), ("timeout", 1, "timeout next", 4),
]
GOOD_CELLS = [
    ("outputs", 1023), ("mask", 1023, "fault next", 2), ("mask", 1), ("channel", 10, "level", 1, "sequence next", 2), ("channel", 1),
    ("timeout", 4000, "timeout next", 2), ("timeout", 1), ("step", 62),
]


def cell_cases():
    """Every edge of every field of a cell: met as the current cell, entered, and passed by."""
    for pairs in GOOD_CELLS + BAD_CELLS:
        name = words(pairs)
        into = cell("mask", 1, "fault next", 1, "outputs", 3)
        yield from table_cases(f"at-{name}", [into, cell(*pairs), cell()], (1, 0), 0)
        yield from table_cases(f"into-{name}", [into, cell(*pairs), cell()], (0, 0), 1)
        yield from table_cases(f"past-{name}", [into, cell(), cell(*pairs)], (0, 0), 1)


def order_cases():
    """8 for the cell's number, 4 for the cell, 8 for elapsed, 9 for the word, in that order."""
    bad = [cell("outputs", 1024)]
    good = [cell("timeout", 2)]
    for at in (0, 1, 2, 62, 63, 255):
        for elapsed in (0, 2, 65535):
            for word in (0, 1024):
                yield from table_cases(f"bad-at-{at}-elapsed-{elapsed}-word-{word}", bad, (at, elapsed), word)
                yield from table_cases(f"good-at-{at}-elapsed-{elapsed}-word-{word}", good, (at, elapsed), word)
                yield from sheet_tick_cases(f"good-at-{at}-elapsed-{elapsed}-word-{word}", waits([2]), (at, elapsed), word)
    yield from table_cases("bad-in-the-middle", [cell(), *bad, cell()], (1, 9), 1024)
    yield from table_cases("bad-last-of-63", [cell()] * 62 + bad, (62, 0), 0)
    yield from table_cases("good-last-of-63", [cell()] * 62 + [cell("step", 62, "outputs", 5)], (62, 0), 0)
    yield from sheet_tick_cases("tags-A-B-B-A", [step(5), step(6), step(6), step(5)], START, 0)
    for name, bad in {"4": step(8, "level", 1), "5": step(1), "6": step(8, "mask", 1, "fault jump", 99)}.items():
        for at, elapsed, word in ((0, 0, 0), (200, 0, 0), (0, 9, 0), (0, 0, 1024), (1, 65535, 65535)):
            yield from sheet_tick_cases(f"refused-{name}-at-{at}-{elapsed}-{word}", [*waits([2]), bad], (at, elapsed), word)


def length_cases():
    for length in (0, 1, 11, 12, 13, 23, 24, 25, 744, 755, 756, 757, 767, 768):
        yield from table_cases(f"length-{length}", bytes(length), (0, 0), 0)
        yield from table_cases(f"length-{length}-state-beyond", bytes(length), (64, 9), 1024)
    long = sheet_of(plain(65))
    for length in (0, 1, 15, 16, 17, 32, 1007, 1008, 1009, 1024, 1040):
        yield from sheet_tick_cases(f"length-{length}", long[:length], (0, 0), 0)
        yield from sheet_tick_cases(f"length-{length}-state-beyond", long[:length], (64, 9), 1024)
    yield from sheet_tick_cases("last-of-63", long[:1008], (62, 0), 0)
    yield from sheet_tick_cases("beyond-63", long[:1008], (63, 0), 0)


def many_cell_cases():
    """A sheet that needs more than 63 cells still runs."""
    many = waits([40000] * 63)
    for at, elapsed in ((0, 0), (0, 39999), (62, 39999), (62, 40000), (30, 20000)):
        yield from sheet_tick_cases(f"630-cells-at-{at}-elapsed-{elapsed}", many, (at, elapsed), 0)


def tag_cases():
    """Jumps among tags 1, 10 and 257."""
    steps = [three_exits(257, 1, 1, 1, 10, 257), three_exits(10, 2, 1, 257, 1, 10), three_exits(1, 4, 1, 10, 257, 1)]
    for at in range(3):
        for word in (0, 1, 2):
            yield from sheet_tick_cases(f"tags-at-{at}-word-{word}", steps, (at, 0), word)


def stretches_by_chance(chance, sheet, ticks):
    """Words that the sheet's own masks and channels give a meaning, most for few ticks and some past its waits."""
    steps = steps_of(sheet)
    stretches = []
    while ticks > 0 and len(stretches) < 250:
        one = chance.choice(steps)
        word = chance.choice((0, 0, 1023, one["mask"], 1023 ^ one["mask"], (1 << one["channel"]) >> 1, chance.randrange(WORDS)))
        count = chance.choice((1, 1, 2, 3, chance.randint(1, 50), one["timeout"] or 1, one["timeout"] + 1))
        stretches.append((word, min(count, ticks)))
        ticks -= count
    return stretches


RECORDER = (EXAMPLES / "recorder.sheet").read_bytes()
OFF, NO_RAILS, RADIO, DOOR = 0b0000010111, 0b0000000111, 0b0000001000, 0b0001000000

# A night of the recorder, which enters every cell of its table.
NIGHT = [
    (OFF, 50), (NO_RAILS, 3000), (OFF, 1), (NO_RAILS, 6001), (NO_RAILS, 150), (0b110, 60), (0b100, 30), (0, 1), (0, 500), (0, 20000),
    (RADIO, 1), (0, 12000), (0, 150), (0, 200), (DOOR, 5000), (0, 5), (DOOR, 40000), (DOOR, 12000), (0, 10), (0b010, 1), (0, 30), (OFF, 21),
    (NO_RAILS, 6100), (NO_RAILS, 300), (NO_RAILS, 10000), (OFF, 3), (NO_RAILS, 30000), (NO_RAILS, 10),
]


def chance_run_cases(count, seed, ticks, longest, last=None):
    """A sheet by chance and its table side by side."""
    chance = random.Random(seed)
    made = 0
    while made < count:
        sheet = chance_sheet(chance, longest)
        if sheet_verdict(sheet) == ACCEPTED and len(translated_cells(sheet)) <= MOST:
            yield from run_cases(f"chance-{seed}-{made}", sheet, stretches_by_chance(chance, sheet, ticks), last=last)
            made += 1


def chosen_run_cases():
    yield from run_cases("paper", PAPER, [(0, 4999), (0, 1), (0, 3), (1, 1), (0, 4000), (1, 1000), (0, 5)])
    yield from run_cases("recorder", RECORDER, NIGHT)
    yield from run_cases("waits", sheet_of(waits([4000, 4001, 3999, 8000, 8001, 1, 2, 12000])), [(0, 41000)])
    yield from run_cases("40000", sheet_of(waits([1, 40000])), [(0, 40003)])
    wait = three_exits(5, 7, 9000, 5, 6, 5)
    back = step(6, "outputs", 8, "channel", 2, "sequence jump", 5)
    yield from run_cases("itself", sheet_of([wait, back]), [
        (0, 4100), (1, 1), (0, 8500), (1, 2), (0, 9000), (0, 4005), (2, 1), (0, 1), (0, 9001), (1, 1)])
    for word in (1, 2):
        yield from run_cases(f"second-cell-word-{word}", sheet_of([wait, back]), [(0, 4005), (word, 1), (0, 3)])
    yield from run_cases("no-exit", sheet_of(plain(3)), [(0, 5), (1023, 5)])
    yield from run_cases("63-steps", sheet_of(waits([1] * 62 + [3])), [(0, 200)], first=60)
    yield from run_cases("no-words", RECORDER, [])
    yield from run_cases("a-bad-word", RECORDER, [(0, 3), (1024, 2), (0, 3)])


def chosen_cases():
    return [*exit_cases(), *long_wait_cases(), *itself_cases(), *cell_cases(), *order_cases(), *length_cases(), *many_cell_cases(),
            *tag_cases(), *chosen_run_cases(), *chance_run_cases(12, 1, 6000, 9, last=30)]


def chance_table(chance):
    count = chance.choice((1, 2, 3, 8, 63))
    cells = []
    for _ in range(count):
        one = cell("outputs", chance.randrange(1024), "step", chance.randrange(63))
        if chance.random() < 0.6:
            one["mask"], one["fault next"] = chance.choice((1, 512, chance.randint(1, 1023))), chance.randrange(count)
        if chance.random() < 0.6:
            one["channel"], one["level"], one["sequence next"] = chance.randint(1, 10), chance.randint(0, 1), chance.randrange(count)
        if chance.random() < 0.6:
            one["timeout"], one["timeout next"] = chance.choice((1, 2, 3, 4000, chance.randint(1, 4000))), chance.randrange(count)
        cells.append(one)
    table = bytearray(table_of(cells))
    if chance.random() < 0.3:
        table[chance.randrange(len(table))] = chance.randrange(256)
    return bytes(table), count


def all_cases():
    for channel in range(11):
        for level in (0, 1) if channel else (0,):
            fields = ("mask", 0x0A5, *(("channel", channel, "level", level) if channel else ()), "timeout", 2)
            for word in range(0, 1024):
                name = f"every-{channel}-{level}-{word}"
                yield from table_cases(name, four_cells(*fields), (0, word % 2), word)
                yield from sheet_tick_cases(name, four_steps(*fields), (0, word % 2), word)
    chance = random.Random(3)
    for turn in range(20000):
        table, count = chance_table(chance)
        state = (chance.choice((chance.randrange(count), count - 1, count, 0)), chance.choice((0, 0, 1, chance.randrange(4001))))
        yield from table_cases(f"chance-{turn}", table, state, chance.choice((chance.randrange(1024), chance.randrange(1024), 1024)))
    yield from chance_run_cases(300, 4, 20000, 30)
