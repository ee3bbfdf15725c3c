#!/usr/bin/env python3
"""Writes a recording for the program play: the recorder's image, its sheet, and the engine ticks of a power-up
that ends in a brown-out of the 1.8 V.

  python3 tests/play_recording.py examples/recorder.play

The board is closed-loop: a supply rises and falls as the pins of the tick before say. The sheet is
examples/recorder.sheet with the waits that the recording sits out cut short, since 2.7 s would be six million bytes."""
import pathlib
import sys

import detector_model
from image_model import CHANNELS, settings_of
from sheet_model import CELL, MOST, START, STEP_FIELDS, record_bytes, steps_of, tick_table, translation

EXAMPLES = pathlib.Path(__file__).resolve().parent.parent / "examples"
TICKS = 60

# The waits of these steps, in ticks.
WAITS = {1: 6, 5: 4, 6: 5, 7: 4}

# The sample of a good supply, and how far a supply moves in one frame of 5 µs.
GOOD = {"VP1": 58, "VP2": 80, "VP3": 200, "VP4": 130, "VH": 190, "VX1": 136}
SLEW = 5

# The supply that each pin switches; the 12 V and the 24 V come from outside.
SWITCHED = {"VP1": "PDO5", "VP2": "PDO1", "VP3": "PDO2", "VP4": "PDO4"}

# Ticks, from and up to: the 12 V and the 24 V are there, the cold room's door and the hood are open, the 1.8 V sags.
POWERED, DOOR, HOOD, SAG = range(2, 58), range(30, 33), range(17, 61), range(35, 38)
SAGGED = 60


def shortened(sheet):
    return b"".join(record_bytes(STEP_FIELDS, step | {"timeout": WAITS.get(k, step["timeout"])})
                    for k, step in enumerate(steps_of(sheet)))


def target(supply, tick, pins):
    """Where a supply moves to in a tick, with the pins that stand before it."""
    powered = tick in POWERED
    if supply in SWITCHED:
        powered &= pins >> (int(SWITCHED[supply].removeprefix("PDO")) - 1) & 1
    if powered and supply == "VP2" and tick in SAG:
        return SAGGED
    return GOOD[supply] if powered else 0


def levels(tick):
    """The contacts of the cold room and the blast chiller are high while shut, that of the hood while open."""
    shut = {"VX2": tick not in DOOR, "VX3": tick in HOOD, "VX4": True}
    return sum(on << (CHANNELS.index(name) - CHANNELS.index("VX1")) for name, on in shut.items())


def moved(value, to):
    return min(value + SLEW, to) if value < to else max(value - SLEW, to)


def frames(samples, tick, pins):
    """The twenty frames of a tick; the samples are moved."""
    for _ in range(detector_model.FRAMES):
        for supply in samples:
            samples[supply] = moved(samples[supply], target(supply, tick, pins))
        yield bytes([*(samples.get(name, 0) for name in CHANNELS), levels(tick)])


def recording(image, sheet):
    settings, table = settings_of(image), translation(sheet, CELL * MOST)[1]
    samples, bank, state = dict.fromkeys(GOOD, 0), detector_model.start(), START
    outputs = tick_table(table, START)[4]
    for tick in range(1, TICKS + 1):
        pins = detector_model.pins(settings, outputs)[2]
        lent = b"".join(frames(samples, tick, pins))
        _, _, bank, faults, _ = detector_model.engine_tick(settings, bank, lent)
        _, _, *state, outputs, _ = tick_table(table, state, faults)
        yield lent


def played(image, sheet):
    return image + len(sheet).to_bytes(2, "little") + sheet + b"".join(recording(image, sheet))


if __name__ == "__main__":
    if len(sys.argv) != 2:
        sys.exit(__doc__)
    sheet = shortened((EXAMPLES / "recorder.sheet").read_bytes())
    pathlib.Path(sys.argv[1]).write_bytes(played((EXAMPLES / "recorder.image").read_bytes(), sheet))
