"""Cases of the translator, and of the verdicts on a sheet and on its table: the chosen sheets; and every pair of bad fields,
every timeout, and many sheets by chance."""
import itertools
import pathlib
import random

from cases import SHEET_VERDICT, TABLE_VERDICT, TRANSLATE, Case, pattern, verdict_bytes
from sheet_model import ACCEPTED, CELL, MOST, STEP_FIELDS, WRONG_LENGTH, cell_verdict, pieces
from sheet_model import record_bytes, sheet_verdict, steps_of, table_verdict, translated_cells, translation

ROOM = CELL * MOST
SPARE = CELL + 5
EXAMPLES = pathlib.Path(__file__).parent.parent / "examples"
PAPER = bytes.fromhex("0A 00 01 00 00 00 00 00 00 00 00 00 88 13 01 00 01 00 03 00 01 00 0A 00 00 00 00 00 00 00 00 00")

# Timeouts on each side of each number of cells.
TIMEOUTS = [0, 1, 3999, 4000, 4001, 7999, 8000, 8001, 12000, 12001, 36000, 36001, 39999, 40000]

# Fields of a step, tag 2 of three, that are accepted, and that are refused 4.
GOOD = [
    ("tag", 1), ("tag", 255), ("tag", 256), ("tag", 65535), ("outputs", 1), ("outputs", 255), ("outputs", 256), ("outputs", 1023),
    ("mask", 1, "fault jump", 2), ("mask", 256, "fault jump", 2), ("mask", 1023, "fault jump", 2),
    ("channel", 1, "sequence jump", 2), ("channel", 10, "sequence jump", 2),
    ("channel", 1, "level", 1, "sequence jump", 2), ("channel", 10, "level", 1, "sequence jump", 2),
    ("timeout", 1, "timeout jump", 2), ("timeout", 40000, "timeout jump", 2), ("timeout", 256, "timeout jump", 2),
]
BAD = [
    ("tag", 0), ("outputs", 1024), ("outputs", 65535), ("outputs", 2048),
    ("mask", 1024, "fault jump", 2), ("mask", 65535, "fault jump", 2), ("mask", 1), ("mask", 256), ("fault jump", 2), ("fault jump", 256),
    ("channel", 11, "sequence jump", 2), ("channel", 255, "sequence jump", 2), ("channel", 11), ("channel", 1), ("sequence jump", 2),
    ("channel", 1, "level", 2, "sequence jump", 2), ("channel", 1, "level", 255, "sequence jump", 2), ("level", 1), ("level", 2),
    ("level", 1, "sequence jump", 2), ("sequence jump", 512),
    ("timeout", 40001, "timeout jump", 2), ("timeout", 65535, "timeout jump", 2), ("timeout", 1), ("timeout", 256), ("timeout jump", 2),
    ("timeout jump", 768),
]


def filled(fields, pairs):
    """Zero in every field but those of the pairs, a name and a value by turns."""
    return {**dict.fromkeys(fields, 0), **dict(zip(pairs[::2], pairs[1::2]))}


def step(tag, *pairs):
    return filled(STEP_FIELDS, ("tag", tag, *pairs))


def sheet_of(steps):
    return b"".join(record_bytes(STEP_FIELDS, one) for one in steps)


def plain(count):
    return [step(tag) for tag in range(1, count + 1)]


def waits(timeouts):
    """A step for each timeout, which leads on to the next and from the last to the first."""
    return [step(k + 1, *(("timeout", timeout, "timeout jump", (k + 1) % len(timeouts) + 1) if timeout else ()))
            for k, timeout in enumerate(timeouts)]


def room_for(sheet):
    """Room for the cells of the steps, where a table can have so many, and beyond them bytes that stay."""
    steps = [] if sheet_verdict(sheet) == (WRONG_LENGTH, 0) else steps_of(sheet)
    cells = sum(len(pieces(one["timeout"])) for one in steps)
    return SPARE + (CELL * cells if cells <= MOST else 0)


def row(name, sheet, room=None):
    """A name, a sheet, and the length of the table lent for it."""
    sheet = sheet if isinstance(sheet, bytes) else sheet_of(sheet)
    return (name, sheet, room_for(sheet) if room is None else room)


def translate_case(name, sheet, room):
    verdict, table = translation(sheet, room)
    lent = pattern(room)
    answer = verdict_bytes(verdict) + bytes([len(table) // CELL])
    return Case(f"translate-{name}", TRANSLATE, sheet, lent, answer + table + lent[len(table):])


def sheet_verdict_case(name, sheet):
    return Case(f"sheet-verdict-{name}", SHEET_VERDICT, sheet, b"", verdict_bytes(sheet_verdict(sheet)))


def table_verdict_case(name, table, k):
    verdicts = verdict_bytes(table_verdict(table)) + verdict_bytes(cell_verdict(table, k))
    return Case(f"table-verdict-{name}-cell-{k}", TABLE_VERDICT, bytes([k]) + table, b"", verdicts)


def sheet_cases(name, sheet, room):
    """The translation, the verdict on the sheet, and where it was accepted that on its table and on the last cell."""
    yield translate_case(name, sheet, room)
    yield sheet_verdict_case(name, sheet)
    table = translation(sheet, room)[1]
    if table:
        yield table_verdict_case(name, table, len(table) // CELL - 1)


def words(pairs):
    return "-".join(str(part).replace(" ", "-") for part in pairs)


def length_rows():
    long = sheet_of(plain(65))
    for length in (0, 1, 15, 16, 17, 31, 32, 33, 992, 1007, 1008, 1009, 1023, 1024, 1040):
        yield row(f"length-{length}", long[:length])
    yield row("length-1024-all-zero", bytes(1024))
    yield row("length-17-bad-fields-no-room", bytes(17), 0)
    yield row("zero-step", bytes(16))


def field_rows(every):
    """Each edge of each field, in the first, the middle and the last of three steps."""
    for place in range(3):
        for pairs in GOOD + BAD:
            if not every and place != 1 and pairs in GOOD[1:-2:3]:
                continue
            steps = [step(3), step(4), step(5)]
            steps[place] = step(2, *pairs)
            yield row(f"step-{place}-{words(pairs)}", steps)


def level_rows():
    for level in (0, 1, 2):
        yield row(f"level-{level}-channel-0", [step(1, "level", level)])
        yield row(f"level-{level}-channel-10", [step(1, "channel", 10, "level", level, "sequence jump", 1)])


def lowest_rows():
    """Two steps that the same test refuses: the lower is named."""
    for first, second in itertools.combinations(range(4), 2):
        for name, bad in (("fields", step(7, "outputs", 1024)), ("unknown", step(7, "mask", 1, "fault jump", 8))):
            steps = [step(20 + k) for k in range(4)]
            steps[first], steps[second] = dict(bad, tag=30), dict(bad, tag=31)
            yield row(f"two-{name}-at-{first}-{second}", steps)


def tag_rows():
    """Repeated tags: the lowest later step is named. Tags are whole numbers of sixteen bits."""
    for name, tags in {
        "A-B-B-A": (5, 6, 6, 5), "A-B-A-B": (5, 6, 5, 6), "A-A-B-B": (5, 5, 6, 6), "A-B-C-A": (5, 6, 7, 5), "A-B-C-C": (5, 6, 7, 7),
        "A-A-A-A": (5, 5, 5, 5), "low-byte-alike": (1, 257, 513, 65281), "high-byte-alike": (256, 257, 258, 511),
        "bytes-exchanged": (258, 513, 1, 256), "1-10-257": (1, 10, 257), "257-257": (257, 1, 257), "1-10-100-1000": (1, 10, 100, 1000),
        "65535-65535": (65535, 255, 65280, 65535),
    }.items():
        yield row(f"tags-{name}", [step(tag) for tag in tags])
    for order in itertools.permutations((1, 10, 257)):
        yield row(f"tags-{words(order)}-jumps", [
            step(order[0], "timeout", 4001, "timeout jump", 257, "mask", 1, "fault jump", 10),
            step(order[1], "timeout", 8001, "timeout jump", 1, "mask", 2, "fault jump", 257),
            step(order[2], "timeout", 5, "timeout jump", 10, "channel", 3, "sequence jump", 1)])
    yield row("last-of-63-repeats-first", plain(62) + [step(1)])
    yield row("last-of-63-repeats-the-one-before", plain(62) + [step(62)])


def unknown_rows():
    jumps = {"fault": ("mask", 1), "sequence": ("channel", 1), "timeout": ("timeout", 1)}
    for place in range(3):
        for exit, pair in jumps.items():
            steps = [step(1), step(10), step(257)]
            steps[place] = step(steps[place]["tag"], *pair, f"{exit} jump", 2)
            yield row(f"unknown-{exit}-at-{place}", steps)
    for tag, known in ((257, 1), (1, 257), (10, 1), (1, 10), (256, 1), (65535, 255), (255, 65535)):
        yield row(f"unknown-{tag}-known-{known}", [step(known, "mask", 1, "fault jump", tag)])
    all_three = sum((pair for pair in jumps.values()), ("fault jump", 2, "sequence jump", 3, "timeout jump", 4))
    yield row("unknown-all-three", [step(1, *all_three)])
    yield row("known-fault-unknown-timeout", [step(1, "mask", 1, "fault jump", 1, "timeout", 1, "timeout jump", 4)])
    yield row("known-timeout-unknown-sequence", [step(1, "channel", 1, "sequence jump", 2, "timeout", 1, "timeout jump", 1)])


def order_rows():
    """Several refusals at once: the first test decides, whatever the steps."""
    parts = {4: step(90, "level", 1), 5: step(1), 6: step(92, "channel", 2, "sequence jump", 99), 7: None, 10: None}
    for size in range(2, 6):
        for numbers in itertools.combinations(parts, size):
            timeouts = [40000] * 6 + [1] * 4 if 7 in numbers else [1] * 4
            bad = [parts[number] for number in numbers if parts[number]]
            room = 0 if 10 in numbers else None
            yield row(f"order-{words(numbers)}", waits(timeouts) + bad, room)
            yield row(f"order-{words(numbers)}-from-the-end", waits(timeouts) + bad[::-1], room)
            yield row(f"order-1-{words(numbers)}", sheet_of(waits(timeouts) + bad)[:-1], room)


def count_rows():
    """63 cells and 64, and timeouts on each side."""
    six = [40000] * 6
    yield row("six-of-40000-and-three", waits(six + [1, 1, 1]))
    yield row("six-of-40000-and-four", waits(six + [1, 1, 1, 1]), ROOM + CELL)
    yield row("six-of-40000-and-four-no-room", waits(six + [1, 1, 1, 1]), 0)
    yield row("63-steps-of-0", waits([0] * 63))
    yield row("63-steps-of-4000", waits([4000] * 63))
    yield row("63-steps-one-of-4001", waits([0] * 30 + [4001] + [0] * 32))
    yield row("62-steps-one-of-4001", waits([0] * 61 + [4001]))
    yield row("63-steps-of-40000", waits([40000] * 63))
    yield row("259-cells", waits([40000] * 25 + [36000]))
    yield row("31-steps-of-4001-and-one", waits([4001] * 31 + [4000]))
    yield row("32-steps-of-4001", waits([4001] * 32))
    for timeout in TIMEOUTS:
        yield row(f"timeout-{timeout}", [step(8), *waits([timeout])[:1], step(9, "mask", 1, "fault jump", 9)])


def room_rows():
    sheets = {"paper": PAPER, "one-cell": sheet_of(plain(1)), "63-cells": sheet_of(waits([40000] * 6 + [1, 1, 1]))}
    for name, sheet in sheets.items():
        needed = CELL * len(translated_cells(sheet))
        for room in sorted({0, 1, needed - CELL, needed - 1, needed, needed + 1, needed + CELL}):
            yield row(f"{name}-room-{room}", sheet, room)


def jump_rows():
    """Jumps to a step itself, into cut steps and over them, by each exit."""
    all_three = ("mask", 5, "channel", 9, "level", 1)
    for name, targets in {"itself": (2, 2, 2), "first": (1, 1, 1), "last": (3, 3, 3), "apart": (1, 2, 3), "apart-back": (3, 2, 1)}.items():
        for timeout in (1, 4000, 4001, 12345, 40000):
            jumps = ("fault jump", targets[0], "sequence jump", targets[1], "timeout jump", targets[2], "timeout", timeout)
            cut = step(2, *all_three, *jumps, "outputs", 0x2A5)
            ends = [step(1, "timeout", 9000, "timeout jump", 2), step(3, "mask", 1023, "fault jump", 2, "outputs", 1023)]
            yield row(f"jumps-to-{name}-timeout-{timeout}", [ends[0], cut, ends[1]])


def chance_sheet(chance, longest):
    """A sheet by chance that is nearly always accepted."""
    count = chance.choice((1, 2, 3, 5, 8, chance.randint(1, longest)))
    tags = chance.sample(range(1, 65536), count - count // 2) + chance.sample(range(1, 600), count // 2)
    steps = []
    for tag in tags:
        one = step(tag, "outputs", chance.randrange(1024))
        if chance.random() < 0.6:
            one["mask"], one["fault jump"] = chance.choice((1 << chance.randrange(10), chance.randint(1, 1023))), chance.choice(tags)
        if chance.random() < 0.6:
            one["channel"], one["level"], one["sequence jump"] = chance.randint(1, 10), chance.randint(0, 1), chance.choice(tags)
        if chance.random() < 0.6:
            one["timeout"] = chance.choice((1, 2, 3, chance.randint(1, 4000), chance.choice(TIMEOUTS[1:]), chance.randint(4001, 40000)))
            one["timeout jump"] = chance.choice(tags)
        steps.append(one)
    return sheet_of(steps)


def damaged(chance, sheet):
    """One or two bytes changed, or the length."""
    bytes_now = bytearray(sheet)
    for _ in range(chance.randint(1, 2)):
        bytes_now[chance.randrange(len(sheet))] = chance.choice((0, 1, 4, chance.randrange(256)))
    return bytes(bytes_now[:chance.choice((len(sheet), len(sheet), len(sheet), len(sheet) - 1))])


def chance_rows(seed, count, longest):
    chance = random.Random(seed)
    for turn in range(count):
        sheet = chance_sheet(chance, longest)
        if turn % 3 == 2:
            sheet = damaged(chance, sheet)
        needed = CELL * len(translated_cells(sheet)) if sheet_verdict(sheet) == ACCEPTED else room_for(sheet)
        room = chance.choice((needed + SPARE, needed, needed, needed - 1, needed + chance.randrange(20)))
        yield row(f"chance-{seed}-{turn}", sheet, room)


def example_rows():
    yield row("paper", PAPER)
    yield row("recorder", (EXAMPLES / "recorder.sheet").read_bytes())


def cases_of(rows):
    return (case for one in rows for case in sheet_cases(*one))


def chosen_cases():
    return cases_of([*example_rows(), *length_rows(), *field_rows(False), *level_rows(), *lowest_rows(), *tag_rows(), *unknown_rows(),
                     *order_rows(), *count_rows(), *room_rows(), *jump_rows(), *chance_rows(1, 30, 12)])


def many_rows():
    yield from field_rows(True)
    for timeout in range(65536):
        yield row(f"every-timeout-{timeout}", [step(1, "timeout", timeout, "timeout jump", 1)])
    for (i, one), (j, other) in itertools.product(enumerate(GOOD + BAD), repeat=2):
        yield row(f"pair-{i}-{j}", [step(2, *one), step(3, *other)])
    yield from chance_rows(2, 20000, 63)


def all_cases():
    return cases_of(many_rows())
