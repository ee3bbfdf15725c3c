"""Cases of the pin drives: the chosen sources and words; and every word of sixteen bits as outputs, and every delay of
sixteen bits."""
from cases import PINS, Case, settings_bytes, verdict_bytes, word_bytes
from detector_model import pins
from image_model import CHANNELS, LENGTH, PULLS, SOURCES, settings_of

EACH_SOURCE = {source: [source] * 10 for source in SOURCES}
TURNED = {f"turned-{turn}": [SOURCES[(k + turn) % 4] for k in range(10)] for turn in range(4)}
ARRANGED = {**EACH_SOURCE, **TURNED}
NO_PULLS = ["none"] * 10
MIXES = [0, 1023, 0x155, 0x2AA]
WORDS = [*(1 << k for k in range(10)), *(1023 - (1 << k) for k in range(10))]


def pins_case(sources, outputs, name="", pulls=NO_PULLS, delays=None):
    """Sources by the name of their arrangement, pulls by group, and delays of some groups."""
    settings = settings_of(bytes(LENGTH))
    for k, group in enumerate(settings):
        group["source"], group["pull"] = ARRANGED[sources][k], pulls[k]
        group["delay"] = (delays or {}).get(k, 0)
    number, place, word = pins(settings, outputs)
    expected = verdict_bytes((number, place)) + word_bytes(word)
    return Case(f"pins-{sources}-0x{outputs:04x}{name}", PINS, settings_bytes(settings) + word_bytes(outputs), b"", expected)


def delay_case(sources, outputs, k, delay):
    """A delay of one group, which no code has or the last that one has."""
    return pins_case(sources, outputs, f"-{CHANNELS[k]}-delay-{delay}", delays={k: delay})


def chosen_cases():
    """Every source with every bit; pulls, which change nothing; the first words that are refused; and
    settings, which are refused first."""
    yield from (pins_case(sources, outputs) for sources in ARRANGED for outputs in MIXES)
    yield from (pins_case("engine", outputs) for outputs in WORDS)
    printed = [pull for pull in PULLS if pull]
    yield from (pins_case("turned-2", outputs, f"-pulls-from-{first}", printed[first:first + 10]) for first in (0, 4) for outputs in (0, 1023))
    yield from (pins_case(sources, outputs) for sources in ("engine", "high") for outputs in (1024, 1025, 2047, 0x8000, 65535))
    yield from (delay_case("turned-1", outputs, k, 7) for k in range(10) for outputs in (1023, 1024))
    yield from (delay_case("turned-1", 1024, 9, delay) for delay in (100, 101))


def all_cases():
    for number in range(65536):
        yield pins_case(f"turned-{number % 4}", number)
        yield delay_case("turned-1", 0x155 + number % 2 * 1024, number % 10, number)
