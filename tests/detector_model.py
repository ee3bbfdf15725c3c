"""The detectors and the pin drives by the paper alone: what a detector tick, an engine tick and a word
of outputs are answered. The test vectors are computed from this file.

Settings are ten dictionaries, as image_model.py has them. A bank is a list of ten channels."""
from typing import NamedTuple

from image_model import CHANNELS, WRONG_LENGTH, family, settings_verdict

UNREACHABLE, BAD_WORD = 8, 9
TICK_TIME = 5
FRAME_LENGTH, FRAMES = 11, 20
LEVELS = 10
OUTPUT_WORDS = 1024


class Channel(NamedTuple):
    over: int = 0
    under: int = 0
    analog_filtered: int = 0
    analog_count: int = 0
    logic_filtered: int = 0
    logic_count: int = 0
    left: int = 0


class Detected(NamedTuple):
    number: int
    place: int
    bank: list
    faults: int
    warnings: int


def start():
    """All state starts false and zero."""
    return [Channel() for _ in CHANNELS]


def ticks(time):
    return time // TICK_TIME


def over_release(group):
    return max(group["over"] - group["over-hysteresis"], 0)


def under_release(group):
    return min(group["under"] + group["under-hysteresis"], 255)


def over_after(over, group, sample):
    return int(sample > (over_release(group) if over else group["over"]))


def under_after(under, group, sample):
    return int(sample < (under_release(group) if under else group["under"]))


def raw_fault(group, over, under):
    return {"over": over, "both": over | under, "under": under, "off": 0}[group["faults"]]


def filter_after(filtered, count, raw, delay):
    if raw == filtered:
        return filtered, 0
    if count >= ticks(delay):
        return raw, 0
    return filtered, count + 1


def logic_after(group, channel, level):
    """What the logic filter, its count and what is left are after a tick, and the output."""
    raw = level ^ group["invert"]
    filtered, count = filter_after(channel.logic_filtered, channel.logic_count, raw, group["logic-delay"])
    if not group["edge"]:
        return filtered, count, 0, filtered
    rise = filtered and not channel.logic_filtered
    n = ticks(group["pulse"]) if rise else channel.left
    return filtered, count, max(n - 1, 0), int(n > 0)


def channel_after(k, group, channel, sample, level):
    """The channel after a tick, its fault bit and its warning bit."""
    over = over_after(channel.over, group, sample)
    under = under_after(channel.under, group, sample)
    raw = raw_fault(group, over, under)
    analog, count = filter_after(channel.analog_filtered, channel.analog_count, raw, group["delay"])
    filtered, logic_count, left, logic = logic_after(group, channel, level)
    after = Channel(over, under, analog, count, filtered, logic_count, left)
    if family(k) != "VX":
        return after, analog, 0
    fault, warning = {"analog": (analog, 0), "logic": (logic, 0), "logic-warn": (logic, analog), "none": (0, 0)}[group["input"]]
    return after, fault, warning


def measured(k, group, frame):
    """The sample that channel k measures and the level of its pin."""
    sister = CHANNELS.index({"VX1": "VP1", "VX2": "VP2", "VX3": "VP3", "VX4": "VP4", "VX5": "VH"}.get(CHANNELS[k], CHANNELS[k]))
    sample = frame[sister] if group["input"] == "logic-warn" else frame[k]
    level = frame[LEVELS] >> (k - CHANNELS.index("VX1")) & 1 if family(k) == "VX" else 0
    return sample, level


def advance(settings, bank, frame):
    """An accepted detector tick: the bank after it, the fault word and the warning word."""
    after, faults, warnings = [], 0, 0
    for k, group in enumerate(settings):
        channel, fault, warning = channel_after(k, group, bank[k], *measured(k, group, frame))
        after.append(channel)
        faults |= fault << k
        warnings |= warning << k
    return after, faults, warnings


def is_reachable(k, group, channel):
    if channel.analog_count > ticks(group["delay"]):
        return False
    if family(k) != "VX":
        return (channel.logic_filtered, channel.logic_count, channel.left) == (0, 0, 0)
    if channel.logic_count > ticks(group["logic-delay"]):
        return False
    return channel.left < ticks(group["pulse"]) if group["edge"] else channel.left == 0


def bank_verdict(settings, bank):
    for k, group in enumerate(settings):
        if not is_reachable(k, group, bank[k]):
            return (UNREACHABLE, k)
    return (0, 0)


def frame_of(lent, i):
    return lent[FRAME_LENGTH * i:FRAME_LENGTH * (i + 1)]


def call_verdict(settings, bank, lent, frames):
    if len(lent) != FRAME_LENGTH * frames:
        return (WRONG_LENGTH, 0)
    for verdict in (settings_verdict(settings), bank_verdict(settings, bank)):
        if verdict != (0, 0):
            return verdict
    if any(frame_of(lent, i)[LEVELS] >= 32 for i in range(frames)):
        return (BAD_WORD, 0)
    return (0, 0)


def detected(settings, bank, lent, frames):
    number, place = call_verdict(settings, bank, lent, frames)
    if number:
        return Detected(number, place, bank, 0, 0)
    for i in range(frames):
        bank, faults, warnings = advance(settings, bank, frame_of(lent, i))
    return Detected(0, 0, bank, faults, warnings)


def tick(settings, bank, lent):
    return detected(settings, bank, lent, 1)


def engine_tick(settings, bank, lent):
    return detected(settings, bank, lent, FRAMES)


def pins(settings, outputs):
    """The number, the place and the word of pins that a word of outputs gives."""
    number, place = settings_verdict(settings)
    if number:
        return (number, place, 0)
    if outputs >= OUTPUT_WORDS:
        return (BAD_WORD, 0, 0)
    word = 0
    for k, group in enumerate(settings):
        word |= {"disabled": 0, "engine": outputs >> k & 1, "low": 0, "high": 1}[group["source"]] << k
    return (0, 0, word)
