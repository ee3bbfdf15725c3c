#!/usr/bin/env python3
"""Prints what the program play must print for an image, a sheet and engine ticks, by the paper.

  python3 tests/play_lines.py examples/recorder.play >crates/play/stdout"""
import pathlib
import sys

import detector_model
from image_model import LENGTH, WRONG_LENGTH, image_verdict, settings_of
from sheet_model import ACCEPTED, CELL, MOST, START, tick_table, translation

TICK = detector_model.FRAME_LENGTH * detector_model.FRAMES


def refused(part, verdict):
    return "refused {} {} {}".format(part, *verdict)


def sheet_table(rest):
    """The verdict on the sheet at the start of the rest, its table, and what follows the sheet."""
    length = int.from_bytes(rest[:2], "little")
    sheet = rest[2:2 + length]
    if len(rest) < 2 or len(sheet) < length:
        return (WRONG_LENGTH, 0), b"", b""
    return *translation(sheet, CELL * MOST), rest[2 + length:]


def played(settings, table, ticks):
    *_, at, elapsed, outputs, step = tick_table(table, START)
    yield f"start {step} {outputs:04x} {detector_model.pins(settings, outputs)[2]:04x}"
    bank = detector_model.start()
    for tick, first in enumerate(range(0, len(ticks), TICK), 1):
        number, place, bank, faults, warnings = detector_model.engine_tick(settings, bank, ticks[first:first + TICK])
        if number:
            yield refused("ticks", (number, place))
            return
        *_, at, elapsed, outputs, step = tick_table(table, (at, elapsed), faults)
        pins = detector_model.pins(settings, outputs)[2]
        yield f"{tick} {step} {outputs:04x} {faults:04x} {warnings:04x} {pins:04x}"


def lines(data):
    image = data[:LENGTH]
    verdict = image_verdict(image)
    if verdict != ACCEPTED:
        return [refused("image", verdict)]
    verdict, table, ticks = sheet_table(data[LENGTH:])
    if verdict != ACCEPTED:
        return [refused("sheet", verdict)]
    return list(played(settings_of(image), table, ticks))


if __name__ == "__main__":
    if len(sys.argv) != 2:
        sys.exit(__doc__)
    print("\n".join(lines(pathlib.Path(sys.argv[1]).read_bytes())))
