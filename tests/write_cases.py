#!/usr/bin/env python3
"""Writes the cases that the program replay reads, as docs/CASES.md has them, and the line that it must print.

  python3 tests/write_cases.py                the chosen cases, into crates/replay/stdin and crates/replay/stdout
  python3 tests/write_cases.py --all FOLDER   the many cases, into FOLDER/stdin and FOLDER/stdout
  python3 tests/write_cases.py --names        prints the number and the name of each of the chosen cases
  python3 tests/write_cases.py --all --names  those of the many cases

The chosen cases stand in crates/replay. To try the many:

  python3 tests/write_cases.py --all target/all
  ./wrackbasket replay target/all/stdin | cmp - target/all/stdout"""
import pathlib
import sys

import detector_vectors
import engine_vectors
import for_c_vectors
import image_vectors
import pin_vectors
import sheet_vectors
import writing_vectors
from cases import START, Case, bank_bytes, case_bytes, distinct, state_bytes
from detector_model import start
from image_model import LENGTH
from sheet_model import START as START_STATE

SCRIPTS = (image_vectors, writing_vectors, detector_vectors, pin_vectors, sheet_vectors, engine_vectors, for_c_vectors)
REPLAY = pathlib.Path(__file__).parent.parent / "crates" / "replay"


def start_case():
    return Case("blank-and-starts", START, b"", b"", bytes(LENGTH) + bank_bytes(start()) + state_bytes(START_STATE))


def chosen_cases():
    yield start_case()
    for script in SCRIPTS:
        yield from script.chosen_cases()


def all_cases():
    for script in SCRIPTS:
        yield from script.all_cases()


def write(folder, cases):
    folder.mkdir(parents=True, exist_ok=True)
    count = 0
    with open(folder / "stdin", "wb") as stream:
        for count, case in enumerate(distinct(cases), 1):
            stream.write(case_bytes(case))
    (folder / "stdout").write_text(f"alike {count} different 0\n")


def print_names(cases):
    for number, case in enumerate(distinct(cases)):
        print(number, case.name)


def main(arguments):
    match arguments:
        case []:
            write(REPLAY, chosen_cases())
        case ["--names"]:
            print_names(chosen_cases())
        case ["--all", "--names"]:
            print_names(all_cases())
        case ["--all", folder]:
            write(pathlib.Path(folder), all_cases())
        case _:
            sys.exit(__doc__)


if __name__ == "__main__":
    main(sys.argv[1:])
