#!/usr/bin/env python3
"""Prints what the program settings must print for an image, by the paper.

  python3 tests/settings_lines.py examples/recorder.image >crates/settings/stdout"""
import pathlib
import sys

from image_model import CHANNELS, image_verdict, normal_image, settings_of

LINE = ("{channel} over {over} {over-hysteresis} under {under} {under-hysteresis} delay {delay} faults {faults} input {input} "
        "logic {invert} {edge} {pulse} {logic-delay} output {source} {pull} normal {normal}")


def lines(image):
    number, place = image_verdict(image)
    if number:
        return [f"refused {number} {place}"]
    normal = normal_image(image)
    return [LINE.format(channel=CHANNELS[k], normal=normal[8 * k:8 * k + 8].hex(), **group)
            for k, group in enumerate(settings_of(image))]


if __name__ == "__main__":
    if len(sys.argv) != 2:
        sys.exit(__doc__)
    print("\n".join(lines(pathlib.Path(sys.argv[1]).read_bytes())))
