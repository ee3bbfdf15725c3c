"""The sheet, the table, the translator and the engine by the paper alone. The test vectors are
computed from this file.

A step and a cell are dictionaries of the names in STEP_FIELDS and CELL_FIELDS. A verdict is a number
and a place. A state is the number of a step or cell and the ticks elapsed in it."""
import functools

# Numbers given back.
WRONG_LENGTH, OUT_OF_RANGE, REPEATED_TAG, UNKNOWN_TAG, TOO_MANY_CELLS = 1, 4, 5, 6, 7
UNREACHABLE, BAD_WORD, NO_ROOM = 8, 9, 10
ACCEPTED = (0, 0)

MOST = 63
WORDS = 1024
CHANNELS = 10
LONGEST_WAIT = 40000
LONGEST_CELL = 4000

# Each field with its width in bytes, in order.
STEP_FIELDS = {"tag": 2, "outputs": 2, "mask": 2, "fault jump": 2, "channel": 1, "level": 1,
               "sequence jump": 2, "timeout": 2, "timeout jump": 2}
CELL_FIELDS = {"outputs": 2, "mask": 2, "fault next": 1, "channel": 1, "level": 1, "sequence next": 1,
               "timeout": 2, "timeout next": 1, "step": 1}
STEP, CELL = sum(STEP_FIELDS.values()), sum(CELL_FIELDS.values())

# Each exit with the field that is 0 where the exit is absent.
EXITS = {"fault": "mask", "sequence": "channel", "timeout": "timeout"}


def record_bytes(fields, values):
    return b"".join(values[name].to_bytes(width, "little") for name, width in fields.items())


def record_values(fields, record):
    values, at = {}, 0
    for name, width in fields.items():
        values[name] = int.from_bytes(record[at:at + width], "little")
        at += width
    return values


def records(fields, data):
    width = sum(fields.values())
    return [record_values(fields, data[at:at + width]) for at in range(0, len(data), width)]


@functools.cache
def steps_of(sheet):
    return records(STEP_FIELDS, sheet)


@functools.cache
def cells_of(table):
    return records(CELL_FIELDS, table)


def length_verdict(width, data):
    counts = [width * count for count in range(1, MOST + 1)]
    return ACCEPTED if len(data) in counts else (WRONG_LENGTH, 0)


def first(verdicts):
    """The first refusal, in order."""
    return next((verdict for verdict in verdicts if verdict != ACCEPTED), ACCEPTED)


def is_common_part_in_range(record):
    """What a step and a cell have alike."""
    ranges = (record["outputs"] < WORDS and record["mask"] < WORDS
              and record["channel"] <= CHANNELS and record["level"] <= 1)
    return ranges and (record["channel"] != 0 or record["level"] == 0)


def is_step_in_range(step):
    jumps = all((step[f"{exit} jump"] == 0) == (step[part] == 0) for exit, part in EXITS.items())
    return is_common_part_in_range(step) and step["tag"] >= 1 and step["timeout"] <= LONGEST_WAIT and jumps


def is_cell_in_range(cell, count):
    nexts = all(cell[f"{exit} next"] < count and (cell[part] or cell[f"{exit} next"] == 0) for exit, part in EXITS.items())
    return is_common_part_in_range(cell) and cell["step"] <= MOST - 1 and cell["timeout"] <= LONGEST_CELL and nexts


def lowest(number, is_bad, count):
    return next(((number, k) for k in range(count) if is_bad(k)), ACCEPTED)


@functools.cache
def sheet_verdict(sheet):
    """The sheet's tests without cells and room."""
    if length_verdict(STEP, sheet) != ACCEPTED:
        return (WRONG_LENGTH, 0)
    steps = steps_of(sheet)
    tags = [step["tag"] for step in steps]
    jumps = [[step[f"{exit} jump"] for exit, part in EXITS.items() if step[part]] for step in steps]
    return first([
        lowest(OUT_OF_RANGE, lambda k: not is_step_in_range(steps[k]), len(steps)),
        lowest(REPEATED_TAG, lambda k: tags[k] in tags[:k], len(steps)),
        lowest(UNKNOWN_TAG, lambda k: any(jump not in tags for jump in jumps[k]), len(steps)),
    ])


@functools.cache
def cell_verdict(table, k):
    """The length, the cell's number, that cell."""
    if length_verdict(CELL, table) != ACCEPTED:
        return (WRONG_LENGTH, 0)
    cells = cells_of(table)
    if k >= len(cells):
        return (UNREACHABLE, 0)
    return ACCEPTED if is_cell_in_range(cells[k], len(cells)) else (OUT_OF_RANGE, k)


def table_verdict(table):
    if length_verdict(CELL, table) != ACCEPTED:
        return (WRONG_LENGTH, 0)
    return first(cell_verdict(table, k) for k in range(len(table) // CELL))


def pieces(timeout):
    """The timeouts of a step's cells."""
    cut = []
    while timeout > LONGEST_CELL:
        cut.append(LONGEST_CELL)
        timeout -= LONGEST_CELL
    return cut + [timeout]


def translated_cells(sheet):
    """The cells of a sheet that passes its own tests, however many they are."""
    steps = steps_of(sheet)
    first_cells, count = {0: 0}, 0
    for step in steps:
        first_cells[step["tag"]] = count
        count += len(pieces(step["timeout"]))
    cells = []
    for number, step in enumerate(steps):
        cut = pieces(step["timeout"])
        for piece, timeout in enumerate(cut):
            is_last = piece == len(cut) - 1
            cells.append({
                "outputs": step["outputs"], "mask": step["mask"], "channel": step["channel"],
                "level": step["level"], "timeout": timeout, "step": number,
                "fault next": first_cells[step["fault jump"]],
                "sequence next": first_cells[step["sequence jump"]],
                "timeout next": first_cells[step["timeout jump"]] if is_last else len(cells) + 1,
            })
    return cells


def translation(sheet, room):
    """The verdict, and the table as bytes, empty where it is refused."""
    verdict = sheet_verdict(sheet)
    if verdict != ACCEPTED:
        return verdict, b""
    cells = translated_cells(sheet)
    if len(cells) > MOST:
        return (TOO_MANY_CELLS, 0), b""
    if room < CELL * len(cells):
        return (NO_ROOM, 0), b""
    return ACCEPTED, b"".join(record_bytes(CELL_FIELDS, cell) for cell in cells)


def exit_taken(record, elapsed, word):
    """The name of the exit, or None."""
    channel = record["channel"]
    if word & record["mask"]:
        return "fault"
    if channel and (word >> (channel - 1)) % 2 == record["level"]:
        return "sequence"
    if record["timeout"] and elapsed + 1 >= record["timeout"]:
        return "timeout"
    return None


def next_state(record, state, word, target):
    """The state after a tick; target gives the step or cell that an exit leads to."""
    at, elapsed = state
    exit = exit_taken(record, elapsed, word)
    if exit:
        return (target(exit), 0)
    return (at, elapsed + 1 if record["timeout"] else 0)


def elapsed_verdict(record, elapsed):
    return ACCEPTED if elapsed < max(1, record["timeout"]) else (UNREACHABLE, 0)


def word_verdict(word):
    return ACCEPTED if word is None or word < WORDS else (BAD_WORD, 0)


def refused(verdict, state):
    return (*verdict, *state, 0, 0)


# A tick with no word only shows. An answer is number, place, at, elapsed, outputs, step.

def tick_table(table, state, word=None):
    at, elapsed = state
    verdict = cell_verdict(table, at)
    if verdict != ACCEPTED:
        return refused(verdict, state)
    cells = cells_of(table)
    cell = cells[at]
    verdict = first([elapsed_verdict(cell, elapsed), word_verdict(word)])
    if verdict != ACCEPTED:
        return refused(verdict, state)
    if word is not None:
        state = next_state(cell, state, word, lambda exit: cell[f"{exit} next"])
    shown = cells[state[0]]
    return (*ACCEPTED, *state, shown["outputs"], shown["step"])


def tick_sheet(sheet, state, word=None):
    at, elapsed = state
    if sheet_verdict(sheet) != ACCEPTED:
        return refused(sheet_verdict(sheet), state)
    steps = steps_of(sheet)
    if at >= len(steps):
        return refused((UNREACHABLE, 0), state)
    step = steps[at]
    verdict = first([elapsed_verdict(step, elapsed), word_verdict(word)])
    if verdict != ACCEPTED:
        return refused(verdict, state)
    if word is not None:
        tags = [other["tag"] for other in steps]
        state = next_state(step, state, word, lambda exit: tags.index(step[f"{exit} jump"]))
    return (*ACCEPTED, *state, steps[state[0]]["outputs"], state[0])


START = (0, 0)
