"""Cases of the writer: the chosen settings; and every time of sixteen bits as a delay, a pulse and a logic delay, and
every hysteresis of eight bits in every group."""
import itertools

from cases import WRITE, Case, pattern, settings_bytes, verdict_bytes
from image_model import CHANNELS, DELAYS, KINDS, LENGTH, PULSES, settings_of, settings_verdict, writing

VP1, VP2, VP3, VP4, VH, VX1, VX2, VX3, VX4, VX5 = range(10)

# Settings that are refused, in the order of their addresses.
BAD = [(VP1, "over-hysteresis", 32), (VP1, "delay", 7), (VP1, "input", "vh-low"), (VP4, "edge", 1), (VH, "under-hysteresis", 255),
       (VH, "input", "low"), (VX1, "delay", 1), (VX1, "input", "mid"), (VX1, "pulse", 0), (VX5, "logic-delay", 101)]


def write_case(*changes, length=LENGTH, name=None):
    """Changes of a group's field to a value, of the settings that the blank image means."""
    settings = settings_of(bytes(LENGTH))
    for k, field, value in changes:
        settings[k][field] = value
    if name is None:
        channel = CHANNELS[changes[0][0]]
        name = "-".join([channel, *(f"{field}-{value}" for _, field, value in changes)])
    lent = pattern(length)
    verdict, written = writing(settings, lent)
    verdicts = verdict_bytes(settings_verdict(settings)) + verdict_bytes(verdict)
    return Case(f"write-{name}", WRITE, settings_bytes(settings), lent, verdicts + written)


def one_setting(groups, field, values):
    return (write_case((k, field, value)) for k in groups for value in values)


def number_cases():
    yield write_case(name="blank")
    yield from one_setting((VP3, VX4), "over", (1, 255))
    yield from one_setting((VP3, VX4), "under", (1, 255))
    for field in ("over-hysteresis", "under-hysteresis"):
        yield from one_setting((VP1, VP4, VH, VX1, VX5), field, (31,))
        yield from one_setting(range(10), field, (32,))
        yield from one_setting((VP2, VH, VX2), field, (64, 255))


def time_cases():
    yield from one_setting((VP1, VX5), "delay", DELAYS)
    yield from one_setting(range(10), "delay", (7,))
    yield from one_setting((VH,), "delay", (1, 4, 6, 99, 101, 256, 261, 65535))
    yield from one_setting(range(VX1, 10), "pulse", (0, 10000))
    yield from one_setting((VX4,), "pulse", PULSES[:3])
    yield from one_setting((VX4,), "pulse", (1, 9, 11, 266, 65535))
    yield from one_setting(range(5), "pulse", (10,))
    yield from one_setting((VP1, VH), "pulse", (1, 10000))
    yield from one_setting((VX2,), "logic-delay", DELAYS)
    yield from one_setting(range(VX1, 10), "logic-delay", (7, 261))
    yield from one_setting(range(5), "logic-delay", (5,))
    yield from one_setting((VP4, VH), "logic-delay", (7, 256))


def kind_cases():
    yield from one_setting((VP1, VP4, VH, VX1, VX5), "input", KINDS["input"])
    yield from one_setting(range(10), "invert", (1,))
    yield from one_setting(range(10), "edge", (1,))
    yield from one_setting((VP1, VX5), "faults", KINDS["faults"])
    yield from one_setting((VP1, VX5), "source", KINDS["source"])
    yield from one_setting((VP4, VH), "pull", KINDS["pull"])


def joint_cases():
    """Several settings of one byte, which must not disturb each other."""
    for k in (VH, VX3):
        yield write_case((k, "delay", 100), (k, "faults", "off"))
        yield write_case((k, "delay", 5), (k, "faults", "under"))
        yield write_case((k, "source", "high"), (k, "pull", "push-vddcap"))
        yield write_case((k, "source", "engine"), (k, "pull", "300k"))
    for edge in (0, 1):
        yield write_case((VX3, "edge", edge), (VX3, "pulse", 0))
        yield write_case((VX3, "edge", edge), (VX3, "pulse", 1000), (VX3, "logic-delay", 75))
    yield write_case((VX5, "invert", 1), (VX5, "edge", 1), (VX5, "pulse", 10000), (VX5, "logic-delay", 100), name="VX5-whole-logic-part")
    yield write_case((VX1, "pulse", 11), (VX1, "logic-delay", 7))


def pair_cases():
    """Two refused settings: the lowest address is reported."""
    for one, other in itertools.combinations(BAD, 2):
        yield write_case(one, other, name=f"two-{CHANNELS[one[0]]}-{one[1]}-{CHANNELS[other[0]]}-{other[1]}")


def length_cases():
    """The buffer's length is tested before the settings."""
    for length in (0, 1, 79, 81, 160, 255):
        yield write_case(length=length, name=f"length-{length}")
        yield write_case(BAD[0], BAD[-1], length=length, name=f"length-{length}-bad-settings")
    yield write_case(BAD[0], BAD[-1], length=LENGTH, name="length-80-bad-settings")


def chosen_cases():
    return [*number_cases(), *time_cases(), *kind_cases(), *joint_cases(), *pair_cases(), *length_cases()]


def all_cases():
    for k, field in ((VP1, "delay"), (VX5, "pulse"), (VX5, "logic-delay")):
        yield from one_setting((k,), field, range(65536))
    for field in ("over-hysteresis", "under-hysteresis"):
        yield from one_setting(range(10), field, range(256))
