"""The configuration image by the paper alone: what eighty bytes mean, which bytes are refused, the
normal bytes, and what bytes settings are written as. The test vectors are computed from this file.
Of the library it takes only the order in which named kinds are declared, which gives them numbers.

A group's settings are a dictionary of the thirteen names in FIELDS. Named kinds are words."""

CHANNELS = ["VP1", "VP2", "VP3", "VP4", "VH", "VX1", "VX2", "VX3", "VX4", "VX5"]
LENGTH = 80

# Numbers given back.
WRONG_LENGTH, RESERVED, UNPRINTED, OUT_OF_RANGE = 1, 2, 3, 4
ACCEPTED = (0, 0)

DELAYS = [0, 5, 10, 20, 30, 50, 75, 100]
PULSES = [10, 100, 1000, 10000]
FAULTS = ["over", "both", "under", "off"]
SOURCES = ["disabled", "engine", "low", "high"]

# Byte 5 by code, for each kind of group.
INPUTS = {
    "VP": ["mid", "low", "ultralow", "ultralow"],
    "VH": ["vh-low", "vh-high"],
    "VX": ["analog", "logic", "logic-warn", "none"],
}

# Byte 7, bits 3:0, by code; 12 and 13 are unprinted.
PULLS = ["none", "none", "300k", "300k",
         "weak-vp1", "push-vp1", "weak-vp2", "push-vp2", "weak-vp3", "push-vp3", "weak-vp4", "push-vp4",
         None, None, "weak-vddcap", "push-vddcap"]

# Every word of a kind in the order in which the library declares it, which gives its number.
KINDS = {
    "faults": FAULTS,
    "input": ["mid", "low", "ultralow", "vh-low", "vh-high", "analog", "logic", "logic-warn", "none"],
    "source": SOURCES,
    "pull": ["none", "300k", "weak-vp1", "push-vp1", "weak-vp2", "push-vp2",
             "weak-vp3", "push-vp3", "weak-vp4", "push-vp4", "weak-vddcap", "push-vddcap"],
}

FIELDS = ["over", "over-hysteresis", "under", "under-hysteresis", "delay", "faults", "input",
          "invert", "edge", "pulse", "logic-delay", "source", "pull"]


def family(k):
    return CHANNELS[k][:2]


def reserved_bits(k, j):
    """The bits of byte j of group k that cannot be used; all of them where the byte is unlisted."""
    if j in (0, 2):
        return 0b00000000
    if j in (1, 3, 4):
        return 0b11100000
    if j == 5:
        return 0b11111110 if family(k) == "VH" else 0b11111100
    if j == 6:
        return 0b10000000 if family(k) == "VX" else 0b11111111
    return 0b10000000


def byte_number(k, j, value):
    """0, or the number with which byte j of group k is refused."""
    if value & reserved_bits(k, j):
        return RESERVED
    if j == 7 and ((value >> 4) % 8 > 3 or PULLS[value % 16] is None):
        return UNPRINTED
    return 0


def image_verdict(image):
    if len(image) != LENGTH:
        return (WRONG_LENGTH, 0)
    for address, value in enumerate(image):
        number = byte_number(address // 8, address % 8, value)
        if number:
            return (number, address)
    return ACCEPTED


def group_settings(k, part):
    """What the eight bytes of group k mean, where none is refused."""
    logic = family(k) == "VX"
    return {
        "over": part[0],
        "over-hysteresis": part[1] % 32,
        "under": part[2],
        "under-hysteresis": part[3] % 32,
        "delay": DELAYS[part[4] // 4 % 8],
        "faults": FAULTS[part[4] % 4],
        "input": INPUTS[family(k)][part[5] % len(INPUTS[family(k)])],
        "invert": part[6] // 64 % 2 if logic else 0,
        "edge": part[6] // 32 % 2 if logic else 0,
        "pulse": PULSES[part[6] // 8 % 4] if logic else 0,
        "logic-delay": DELAYS[part[6] % 8] if logic else 0,
        "source": SOURCES[part[7] // 16 % 8],
        "pull": PULLS[part[7] % 16],
    }


def settings_of(image):
    """The ten groups of an accepted image."""
    return [group_settings(k, image[8 * k:8 * k + 8]) for k in range(10)]


def zero_group(k):
    """Zero in every field, code 0 for a named kind."""
    zeros = {name: KINDS[name][0] if name in KINDS else 0 for name in FIELDS}
    return {**zeros, "input": INPUTS[family(k)][0]}


def reading(image):
    """The verdict, and the settings that the reader answers."""
    verdict = image_verdict(image)
    if verdict != ACCEPTED:
        return verdict, [zero_group(k) for k in range(10)]
    return ACCEPTED, settings_of(image)


def normal_byte(k, j, value):
    """The lowest code where two codes mean the same."""
    if j == 5 and family(k) == "VP" and value == 3:
        return 2
    if j == 7 and value % 16 in (1, 3):
        return value - 1
    return value


def normal_image(image):
    return bytes(normal_byte(a // 8, a % 8, value) for a, value in enumerate(image))


def numbers(group):
    """The thirteen settings of a group as numbers, a named kind by its place in its list."""
    return [KINDS[name].index(group[name]) if name in KINDS else group[name] for name in FIELDS]


def setting_faults(k, group):
    """The offsets of the bytes of group k that no byte can give these settings."""
    if group["over-hysteresis"] > 31:
        yield 1
    if group["under-hysteresis"] > 31:
        yield 3
    if group["delay"] not in DELAYS:
        yield 4
    if group["input"] not in INPUTS[family(k)]:
        yield 5
    if family(k) == "VX":
        if group["pulse"] not in PULSES or group["logic-delay"] not in DELAYS:
            yield 6
    elif group["invert"] or group["edge"] or group["pulse"] or group["logic-delay"]:
        yield 6


def settings_verdict(settings):
    bad = [8 * k + offset for k, group in enumerate(settings) for offset in setting_faults(k, group)]
    return (OUT_OF_RANGE, min(bad)) if bad else ACCEPTED


def write_verdict(settings, length):
    """The writer's verdict on a buffer of that length, which is tested before the settings."""
    return (WRONG_LENGTH, 0) if length != LENGTH else settings_verdict(settings)


def group_bytes(k, group):
    """The eight bytes of accepted settings of group k, each by its lowest code."""
    six = 0
    if family(k) == "VX":
        six = 64 * group["invert"] + 32 * group["edge"] + 8 * PULSES.index(group["pulse"])
        six += DELAYS.index(group["logic-delay"])
    return bytes([
        group["over"],
        group["over-hysteresis"],
        group["under"],
        group["under-hysteresis"],
        4 * DELAYS.index(group["delay"]) + FAULTS.index(group["faults"]),
        INPUTS[family(k)].index(group["input"]),
        six,
        16 * SOURCES.index(group["source"]) + PULLS.index(group["pull"]),
    ])


def written_image(settings):
    return b"".join(group_bytes(k, group) for k, group in enumerate(settings))


def writing(settings, lent):
    """The writer's verdict, and the lent buffer after it."""
    verdict = write_verdict(settings, len(lent))
    return verdict, written_image(settings) if verdict == ACCEPTED else lent
