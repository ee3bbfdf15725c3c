#!/usr/bin/env python3
"""Prints what the program listing must print for a sheet, by the paper.

  python3 tests/listing_lines.py crates/listing/stdin >crates/listing/stdout"""
import pathlib
import sys

from sheet_model import ACCEPTED, CELL, MOST, cells_of, translation

LINE = "{cell} {step} {outputs:04x} {mask:04x} {fault next} {channel} {level} {sequence next} {timeout} {timeout next}"


def lines(sheet):
    verdict, table = translation(sheet, CELL * MOST)
    if verdict != ACCEPTED:
        return ["refused {} {}".format(*verdict)]
    cells = cells_of(table)
    return [f"cells {len(cells)}", *(LINE.format(cell=k, **cell) for k, cell in enumerate(cells))]


if __name__ == "__main__":
    if len(sys.argv) != 2:
        sys.exit(__doc__)
    print("\n".join(lines(pathlib.Path(sys.argv[1]).read_bytes())))
