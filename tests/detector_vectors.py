"""Cases of the detectors: the chosen rows of ticks; and every threshold with every hysteresis, on both sides of each edge,
every pulse from its rise to its end, and many rows of settings, states and frames by chance.

Many rows try all channels at once, each with settings and samples of its own, since no channel may disturb another."""
import itertools
import random

from cases import ENGINE_TICK, TICK, Case, bank_bytes, settings_bytes, verdict_bytes, word_bytes
from detector_model import FRAME_LENGTH, FRAMES, LEVELS, engine_tick, start, tick, ticks
from image_model import CHANNELS, DELAYS, FAULTS, INPUTS, LENGTH, PULSES, family, settings_of

ENGINE_LENGTH = FRAME_LENGTH * FRAMES
VP1, VP2, VP3, VP4, VH, VX1, VX2, VX3, VX4, VX5 = range(10)
VP_AND_VH, VX, ALL = range(VP1, VX1), range(VX1, VX5 + 1), range(VP1, VX5 + 1)


class Row:
    """Settings over the blank image's and a state over the start's, both by channel; what the sample of a channel and
    the level byte are in each frame, the last value to the end; and the call, made so many times. Each call is a
    case: its frames begin one frame after the last call's, and the bank that a call gives back is the next one's."""

    def __init__(self, name, settings=None, state=None, samples=None, levels=None, *, engine=False, length=None, times=None):
        self.name = name
        self.settings = settings_of(bytes(LENGTH))
        for k, changes in (settings or {}).items():
            self.settings[k].update(changes)
        self.bank = start()
        for k, changes in (state or {}).items():
            self.bank[k] = self.bank[k]._replace(**changes)
        self.columns = {**(samples or {}), LEVELS: levels or []}
        self.engine = engine
        self.length = length if length is not None else ENGINE_LENGTH if engine else FRAME_LENGTH
        self.times = times or (1 if engine else max(1, *(len(column) for column in self.columns.values())))

    def frames_from(self, i):
        count = -(-self.length // FRAME_LENGTH)
        values = (value_at(self.columns.get(column, []), j) for j in range(i, i + count) for column in range(FRAME_LENGTH))
        return bytes(values)[:self.length]

    def calls(self):
        """The bank and the frames that each call receives, and its answer."""
        bank = self.bank
        for i in range(self.times):
            frames = self.frames_from(i)
            answer = (engine_tick if self.engine else tick)(self.settings, bank, frames)
            yield bank, frames, answer
            bank = answer.bank

    def last_answer(self):
        return list(self.calls())[-1][-1]

    def cases(self):
        kind = ENGINE_TICK if self.engine else TICK
        settings = settings_bytes(self.settings)
        for i, (bank, frames, answer) in enumerate(self.calls()):
            name = self.name if self.times == 1 else f"{self.name}-tick-{i}"
            yield Case(f"detect-{name}", kind, settings + bank_bytes(bank) + frames, b"", detected_bytes(answer))


def detected_bytes(answer):
    words = word_bytes(answer.faults) + word_bytes(answer.warnings)
    return verdict_bytes((answer.number, answer.place)) + bank_bytes(answer.bank) + words


def value_at(column, i):
    return column[min(i, len(column) - 1)] if column else 0


def level_bytes(levels):
    """The level bytes of frames in which VX channels have these levels."""
    frames = max(map(len, levels.values()), default=0)
    return [sum(value_at(column, i) << (k - VX1) for k, column in levels.items()) for i in range(frames)]


def over_rows():
    """On both sides of the threshold and of the release level, up and down."""
    cases = [(200, 10, [200, 201, 191, 190, 191, 200, 201, 0]), (5, 31, [5, 6, 1, 0, 1, 5, 6, 0]), (30, 31, [30, 31, 1, 0]),
             (31, 31, [31, 32, 1, 0]), (32, 31, [32, 33, 2, 1]), (100, 0, [100, 101, 100, 101, 99]), (0, 0, [0, 1, 0]),
             (0, 31, [0, 255, 1, 0]), (254, 31, [254, 255, 224, 223]), (255, 0, [254, 255])]
    for name, order in (("over", cases), ("over-turned", cases[::-1])):
        settings = {k: {"over": over, "over-hysteresis": hysteresis} for k, (over, hysteresis, _) in enumerate(order)}
        yield Row(name, settings, None, {k: samples for k, (_, _, samples) in enumerate(order)})
    true = [(255, 0, [255]), (255, 1, [255, 254]), (255, 31, [255, 225, 224, 255]), (0, 31, [1, 0])]
    yield Row("over-true", {k: {"over": over, "over-hysteresis": hysteresis} for k, (over, hysteresis, _) in enumerate(true)},
              {k: {"over": 1} for k in range(len(true))}, {k: samples for k, (_, _, samples) in enumerate(true)})


def under_rows():
    cases = [(250, 31, [250, 249, 254, 255, 254, 250, 249]), (100, 10, [100, 99, 109, 110, 109, 100, 99]), (100, 0, [100, 99, 100]),
             (224, 31, [224, 223, 254, 255]), (223, 31, [223, 222, 253, 254]), (225, 31, [225, 224, 254, 255]), (1, 31, [1, 0, 31, 32]),
             (0, 31, [0, 1]), (255, 0, [255, 254, 255]), (255, 31, [255, 254, 255])]
    for name, order in (("under", cases), ("under-turned", cases[::-1])):
        settings = {k: {"under": under, "under-hysteresis": hysteresis, "faults": "under"} for k, (under, hysteresis, _) in enumerate(order)}
        yield Row(name, settings, None, {k: samples for k, (_, _, samples) in enumerate(order)})
    true = [(0, 0, [0]), (0, 1, [0, 1]), (0, 31, [30, 31, 0])]
    yield Row("under-true", {k: {"under-hysteresis": hysteresis, "faults": "under"} for k, (_, hysteresis, _) in enumerate(true)},
              {k: {"under": 1} for k in range(len(true))}, {k: samples for k, (_, _, samples) in enumerate(true)})


def fault_type_rows():
    """Below both thresholds, between, above; then thresholds of which both hold at once."""
    types = {k: FAULTS[k % 4] for k in ALL}
    apart = {k: {"over": 200, "under": 100, "faults": types[k]} for k in ALL}
    yield Row("types", apart, None, {k: [150, 50, 150, 250, 50, 250] for k in ALL})
    at_once = {k: {"over": 50, "under": 200, "faults": types[k]} for k in ALL}
    yield Row("types-at-once", at_once, None, {k: [100, 10, 100, 250] for k in ALL})
    yield Row("types-true", at_once, {k: {"over": 1, "under": 1, "analog_filtered": 1} for k in ALL}, {k: [100, 0] for k in ALL})


def delay_rows():
    """A change on differing sample delay/5 + 1 and not before, up and down; a like sample sets the count to 0.
    The analog and the logic filter of a VX have delays of their own."""
    for part, analog, logic, most in (("slow", DELAYS + [5, 50], [20, 30, 50, 75, 100], 22), ("fast", [30, 20, 10, 5, 0] * 2, [0, 5, 10, 20, 30], 8)):
        settings = {k: {"over": 100, "delay": analog[k]} for k in ALL}
        for k in VX:
            settings[k].update({"input": "logic-warn", "logic-delay": logic[k - VX1]})
        low, high = {}, {}
        for k in ALL:
            low[k] = {"analog_count": ticks(analog[k])}
            high[k] = {"over": 1, "analog_filtered": 1, **low[k]}
        for k in VX:
            low[k]["logic_count"] = ticks(logic[k - VX1])
            high[k].update({"logic_filtered": 1, "logic_count": ticks(logic[k - VX1])})
        zero = {k: {**high[k], "analog_count": 0, "logic_count": 0} for k in ALL}
        up, down = {k: [101] for k in ALL}, {k: [0] for k in ALL}
        up_again, down_again = {k: [0, 101] for k in ALL}, {k: [101, 0] for k in ALL}
        yield Row(f"{part}-rise", settings, None, up, [31], times=most)
        yield Row(f"{part}-fall", settings, zero, down, [0], times=most)
        yield Row(f"{part}-rise-interrupted", settings, low, up_again, [0, 31], times=min(most, 8))
        yield Row(f"{part}-fall-interrupted", settings, high, down_again, [31, 0], times=min(most, 8))
    few = {k: {"over": 100, "delay": (0, 5, 10, 20, 30)[k % 5], "logic-delay": (20, 10, 5, 0, 30)[k % 5] if k in VX else 0} for k in ALL}
    yield Row("alternating", few, None, {k: [101, 0, 101, 101, 0, 0, 101, 101, 101] for k in ALL}, [31, 0, 31, 31, 0, 0, 31, 31, 31])


def pulse_rows():
    """The four pulses on VX1 to VX4; VX5 on level beside them."""
    settings = {k: {"input": "logic", "edge": 1, "pulse": pulse} for k, pulse in zip(VX, PULSES)}
    settings[VX5] = {"input": "logic", "pulse": 10000}
    yield Row("pulse-held", settings, None, None, [31] * 22)
    yield Row("pulse-fallen", settings, None, None, [0, 31, 0, 0, 0])
    yield Row("pulse-new-rise", settings, None, None, [31, 0, 31, 31, 0, 0, 31, 0, 0, 0])
    for name, left in (("1", lambda length: 1), ("2", lambda length: min(2, length - 1)), ("last", lambda length: length - 1)):
        state = {k: {"left": left(ticks(pulse))} for k, pulse in zip(VX, PULSES)}
        held = {k: {**state.get(k, {}), "logic_filtered": 1} for k in VX}
        yield Row(f"pulse-left-{name}", settings, state, None, [0, 0, 0])
        yield Row(f"pulse-left-{name}-rise", settings, state, None, [31, 31])
        yield Row(f"pulse-left-{name}-held", settings, held, None, [31, 0])


def logic_rows():
    """Invert before the filter, the filter before the edge."""
    for delay in (0, 10):
        settings = {k: {"input": "logic", "invert": invert, "edge": edge, "logic-delay": delay}
                    for k, (invert, edge) in zip(VX, itertools.product((0, 1), repeat=2))}
        settings[VX5] = {"input": "logic-warn", "invert": 1, "edge": 1, "pulse": 100, "logic-delay": 5}
        yield Row(f"logic-delay-{delay}-from-0", settings, None, None, [0, 0, 0, 0, 31, 31, 31, 31, 0, 0, 0, 0, 0])
        yield Row(f"logic-delay-{delay}-from-1", settings, None, None, [31, 31, 0, 31, 31, 31, 31])
        yield Row(f"logic-delay-{delay}-true", settings, {k: {"logic_filtered": 1} for k in VX}, None, [0, 31, 31, 31, 0, 0, 0, 0])
    yield Row("own-levels", {k: {"input": "logic", "over": 255} for k in VX}, None, None, [1, 2, 4, 8, 16, 0])


def function_rows():
    """Every mix of the own sample, the sister's and the level, for each function of each VX."""
    mixes = list(itertools.product((0, 101), (0, 101), (0, 1)))
    own, sister, level = ([mix[i] for mix in mixes] for i in range(3))
    columns = {**{k: sister for k in VP_AND_VH}, **{k: own for k in VX}}
    quiet = {k: {"over": 255} for k in VP_AND_VH}
    for function in INPUTS["VX"]:
        settings = {**quiet, **{k: {"over": 100, "input": function} for k in VX}}
        yield Row(f"function-{function}", settings, None, columns, level_bytes({k: level for k in VX}))
    in_turn = {k: [101 * (i == k) for i in ALL] for k in ALL}
    yield Row("own-samples", {k: {"over": 100} for k in ALL}, None, in_turn)
    yield Row("sisters", {k: {"over": 100, "input": "logic-warn"} if k in VX else {"over": 255} for k in ALL}, None, in_turn)
    yield Row("sister-under", {VX5: {"under": 100, "faults": "under", "input": "logic-warn"}, VH: {"over": 255}}, None, {VH: [100, 99, 100], VX5: [0, 200, 50]})
    yield Row("sister-of-other-settings", {VH: {"over": 50}, VX5: {"over": 100, "input": "logic-warn"}}, None, {VH: [75, 101, 50, 0]})
    for code in (0, 1, 2):
        settings = {k: {"over": 100, "input": INPUTS[family(k)][code % len(INPUTS[family(k)])]} for k in VP_AND_VH}
        yield Row(f"range-{code}", settings, None, {k: [101, 100] for k in VP_AND_VH}, [31, 31])


def limit_rows():
    """Number 8: each limit, all channels at once; and one beyond it, each by itself."""
    flags = {"over": 1, "under": 1, "analog_filtered": 1}
    yield Row("flags-are-free", None, {k: {**flags, "logic_filtered": 1} if k in VX else flags for k in ALL})
    for delay, logic_delay, pulse in ((20, 30, 10), (100, 100, 10000), (75, 5, 100), (5, 0, 1000)):
        settings = {k: {"delay": delay, "faults": "off"} for k in ALL}
        state = {k: {"analog_count": ticks(delay)} for k in ALL}
        for k in VX:
            settings[k].update({"input": "none", "edge": 1, "pulse": pulse, "logic-delay": logic_delay})
            state[k].update({"logic_count": ticks(logic_delay), "left": ticks(pulse) - 1})
        yield Row(f"limits-{delay}-{logic_delay}-{pulse}", settings, state)
    for k in ALL:
        yield Row(f"count-{CHANNELS[k]}", None, {k: {"analog_count": 1}})
    for k, delay in enumerate(DELAYS[1:]):
        yield Row(f"count-{delay}", {k: {"delay": delay, "faults": "off"}}, {k: {"analog_count": ticks(delay) + 1}})
    for k in VX:
        yield Row(f"logic-count-{CHANNELS[k]}", None, {k: {"logic_count": 1}})
        yield Row(f"left-level-{CHANNELS[k]}", None, {k: {"left": 1}})
    for k, delay in zip(VX, (5, 10, 50, 100)):
        yield Row(f"logic-count-{delay}", {k: {"logic-delay": delay, "input": "none"}}, {k: {"logic_count": ticks(delay) + 1}})
    for k, pulse in zip(VX, PULSES):
        yield Row(f"left-{pulse}", {k: {"edge": 1, "pulse": pulse}}, {k: {"left": ticks(pulse)}})
    yield Row("left-65535", {VX5: {"edge": 1, "pulse": 10000}}, {VX5: {"left": 65535}})
    yield Row("left-on-level", {VX2: {"pulse": 10000}}, {VX2: {"left": 1999}})
    yield Row("counts-65535", None, {VX5: {"analog_count": 65535, "logic_count": 65535}})
    yield Row("logic-count-by-own-delay", {VX1: {"delay": 100}}, {VX1: {"logic_count": 1}})
    yield Row("count-by-own-delay", {VX1: {"logic-delay": 100}}, {VX1: {"analog_count": 1}})
    for k, name in itertools.product(VP_AND_VH, ("logic_filtered", "logic_count", "left")):
        yield Row(f"{CHANNELS[k]}-{name}", None, {k: {name: 1}})


def lowest_rows():
    """The lowest channel is named, whatever is wrong with it."""
    bad = [{"analog_count": 1}, {"logic_count": 1}, {"left": 1}]
    for k in range(9):
        yield Row(f"lowest-{CHANNELS[k]}-{CHANNELS[k + 1]}", None, {k: bad[k % 3], k + 1: bad[(k + 1) % 3]})
    yield Row("lowest-VX1-VX5", None, {VX1: bad[2], VX5: bad[0]})
    yield Row("lowest-of-all", None, {k: {"left": 2} for k in ALL})


def order_rows():
    """Tests run in the order 1, 4, 8, 9: every set of faults at once."""
    for engine, wrong in ((False, 10), (True, 219)):
        for one, four, eight, nine in itertools.product((0, 1), repeat=4):
            yield Row(f"order-{'engine' if engine else 'tick'}-{one}-{four}-{eight}-{nine}", {VX2: {"delay": 7}} if four else None,
                      {VP3: {"analog_count": 1}} if eight else None, {VP1: [1]}, [32] if nine else None,
                      engine=engine, length=wrong if one else None)
    for name, bad in (("lowest-address", {VX1: {"pulse": 0, "delay": 101}, VP4: {"over-hysteresis": 32}}),
                      ("lowest-address-of-group", {VX5: {"pulse": 11, "over-hysteresis": 255}}),
                      ("bad-pulse", {VX5: {"pulse": 0}}), ("logic-part-on-VP1", {VP1: {"pulse": 10}}), ("bad-delay", {VP1: {"delay": 6}})):
        yield Row(name, bad, {VP1: {"analog_count": 1, "left": 1}}, {VP1: [1]})


def frame_rows():
    for length in (0, 1, 10, 12, 22, 220, 255):
        yield Row(f"tick-length-{length}", None, None, {VP1: [1]}, length=length)
    for length in (0, 11, 209, 219, 221, 231, 255):
        yield Row(f"engine-length-{length}", None, None, {VP1: [1]}, engine=True, length=length)
    for levels in (31, 32, 64, 128, 33, 255):
        yield Row(f"levels-{levels}", None, None, {VP1: [1]}, [levels])


def at_frame(i, value, other=0):
    """A column that holds a value in frame i alone."""
    return [other] * i + [value] + [other] * (FRAMES - i)


def engine_rows():
    for i, levels in itertools.product((0, 1, 5, 18, 19), (32, 64, 128)):
        yield Row(f"engine-levels-{levels}-in-{i}", None, {VP1: {"over": 1}}, {VP1: [101]}, at_frame(i, levels, 1), engine=True)
    yield Row("engine-past-the-twenty", None, None, {VP1: [0] * 20 + [101]}, [0] * 20 + [32], engine=True)
    fast = {VX1: {"input": "logic-warn"}, VX5: {"input": "logic-warn"}}
    for i in (0, 5, 19):
        yield Row(f"engine-fault-in-{i}", fast, None, {VP1: at_frame(i, 101), VH: at_frame(i, 101)}, at_frame(i, 17), engine=True)
        yield Row(f"engine-fault-from-{i}", fast, None, {VP1: [0] * i + [101], VH: [0] * i + [101]}, [0] * i + [17], engine=True)
        yield Row(f"engine-no-fault-in-{i}", fast, None, {VP1: at_frame(i, 0, 101), VH: at_frame(i, 0, 101)}, at_frame(i, 0, 17), engine=True)
    slow = {VP3: {"over": 100, "delay": 75}, VP4: {"over": 100, "delay": 100},
            VX1: {"input": "logic", "logic-delay": 75}, VX2: {"input": "logic", "logic-delay": 100}}
    begun = {VP3: {"analog_count": 1}, VP4: {"analog_count": 1}, VX1: {"logic_count": 1}, VX2: {"logic_count": 1}}
    yield Row("engine-delays", slow, None, {VP3: [101], VP4: [101]}, [3], engine=True)
    yield Row("engine-delays-begun", slow, begun, {VP3: [101], VP4: [101]}, [3], engine=True)
    pulses = [(VX1, 10, 17), (VX2, 10, 18), (VX3, 10, 19), (VX4, 100, 0), (VX5, 100, 1)]
    yield Row("engine-pulses", {k: {"input": "logic", "edge": 1, "pulse": pulse} for k, pulse, _ in pulses}, None, None,
              level_bytes({k: [0] * i + [1] for k, _, i in pulses}), engine=True)
    yield Row("engine-left-1999", {VX1: {"edge": 1, "pulse": 10000}}, {VX1: {"left": 1999}}, engine=True)


def chance_settings(chance, k):
    vx = family(k) == "VX"
    return {
        "over": chance.randrange(256), "over-hysteresis": chance.randrange(32),
        "under": chance.randrange(256), "under-hysteresis": chance.randrange(32),
        "delay": chance.choice(DELAYS), "faults": chance.choice(FAULTS), "input": chance.choice(INPUTS[family(k)]),
        "invert": chance.randrange(2) if vx else 0, "edge": chance.randrange(2) if vx else 0,
        "pulse": chance.choice(PULSES) if vx else 0, "logic-delay": chance.choice(DELAYS) if vx else 0,
    }


def chance_state(chance, k, group, beyond):
    """A state within its limits, or now and then one beyond."""
    def below(limit):
        return chance.choice((0, limit, chance.randrange(limit + 1), limit + (chance.random() < beyond)))
    state = {name: chance.randrange(2) for name in ("over", "under", "analog_filtered")}
    state["analog_count"] = below(ticks(group["delay"]))
    if family(k) == "VX":
        state["logic_filtered"] = chance.randrange(2)
        state["logic_count"] = below(ticks(group["logic-delay"]))
        state["left"] = below(ticks(group["pulse"]) - 1) if group["edge"] else 0
    return state


def chance_column(chance, values):
    """Few changes, so that filters move."""
    column = [chance.choice(values)]
    while len(column) < FRAMES:
        column.append(chance.choice(values) if chance.random() < 0.3 else column[-1])
    return column


def chance_rows(rows, beyond):
    """Every channel with settings of its own: an engine tick, and twenty single ticks on the same frames."""
    chance = random.Random(1)
    for i in range(rows):
        settings = {k: chance_settings(chance, k) for k in ALL}
        state = {k: chance_state(chance, k, settings[k], beyond) for k in ALL}
        edges = [[0, 255, group["over"], group["under"], min(group["over"] + 1, 255), max(group["under"] - 1, 0)] for group in settings.values()]
        samples = {k: chance_column(chance, edges[k] + edges[min(k + 5, 9)]) for k in ALL}
        levels = chance_column(chance, range(33 if chance.random() < beyond else 32))
        engine = Row(f"chance-{i}-engine", settings, state, samples, levels, engine=True)
        single = Row(f"chance-{i}-ticks", settings, state, samples, levels, times=FRAMES)
        once = engine.last_answer()
        assert once.number or once == single.last_answer()
        yield from (engine, single)


def cases_of(rows):
    return (case for row in rows for case in row.cases())


def chosen_cases():
    return cases_of([*over_rows(), *under_rows(), *fault_type_rows(), *delay_rows(), *pulse_rows(), *logic_rows(), *function_rows(),
                     *limit_rows(), *lowest_rows(), *order_rows(), *frame_rows(), *engine_rows(), *chance_rows(1, 0)])


def every_threshold():
    """Ten channels to a row, each with a threshold of its own: set, stay, clear, and the extremes."""
    for side, first, hysteresis in itertools.product(("over", "under"), range(0, 256, 10), range(32)):
        settings, samples = {}, {}
        for k, level in enumerate(range(first, min(first + 10, 256))):
            settings[k] = {side: level, f"{side}-hysteresis": hysteresis, "faults": side}
            release, more = (max(level - hysteresis, 0), 1) if side == "over" else (min(level + hysteresis, 255), -1)
            samples[k] = [min(max(value, 0), 255) for value in (level, level + more, release + more, release, release + more, 255, 0, 255)]
        yield Row(f"every-{side}-{first}-{hysteresis}", settings, None, samples)


def every_pulse():
    """From the rise until nothing is left, twenty ticks at a time."""
    for pulse, level in itertools.product(PULSES, (0, 8)):
        settings = {VX4: {"input": "logic", "edge": 1, "pulse": pulse}}
        state, i = {}, 0
        while i == 0 or state[VX4]["left"]:
            levels = [level if i else 8, level]
            row = Row(f"whole-{pulse}-{level}-{i}", settings, state, None, levels, times=FRAMES)
            yield row
            yield Row(f"whole-{pulse}-{level}-{i}-engine", settings, state, None, levels, engine=True)
            state = {VX4: row.last_answer().bank[VX4]._asdict()}
            i += 1


def all_cases():
    return cases_of(itertools.chain(every_threshold(), every_pulse(), chance_rows(2000, 0.03)))
