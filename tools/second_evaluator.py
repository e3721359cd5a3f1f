#!/usr/bin/env python3
"""A second evaluator of settings files and calls, with unbounded integers, written from docs/RULES.md alone.

  second_evaluator.py verdict FILE            the verdict line of a file
  second_evaluator.py files SEED COUNT        files in hexadecimal, each with the line that is expected of it;
                                              crates/trials/stdin and stdout hold those of 7 300
  second_evaluator.py table SEED EACH         short files, EACH of them for each refusal, as entries of crates/cases/specs/Trials.antt
  second_evaluator.py compare SEED COUNT BIN  the same files through the program BIN; prints every disagreement

  second_evaluator.py script SEED CALLS       a script of calls; crates/scripts/stdin is that of 11 3000
  second_evaluator.py answers < SCRIPT        what `commission` has to print for a script, as in crates/scripts/stdout and
                                              crates/commission/stdout; checks on the way that every frame is within
                                              the bound of the exact network and that the trip is right
  second_evaluator.py tally < SCRIPT          how many calls of each sort, and of each answer, a script has
  second_evaluator.py compare-script SEED CALLS BIN
                                              that script through the program BIN; prints every disagreement
"""
import collections
import random
import re
import subprocess
import sys

MOST_ERROR = 1 << 24


class Refused(Exception):
    """A refusal: its number and its further numbers."""


def refuse(*numbers):
    raise Refused(*numbers)


def fits(value, word):
    return -(1 << (word - 1)) <= value <= (1 << (word - 1)) - 1


def is_format(word, fraction):
    return 2 <= word <= 24 and 0 <= fraction <= 20 and 1 <= word - fraction <= 10


def unsigned(data):
    return int.from_bytes(data, "big")


def signed(data):
    return int.from_bytes(data, "big", signed=True)


class Wire:
    def __init__(self, low, high, error):
        self.low, self.high, self.error = low, high, error

    def takes(self, code):
        return self.low <= code <= self.high

    def bits(self):
        return next(word for word in range(1, 33) if fits(self.low, word) and fits(self.high, word))


class Shape:
    def __init__(self, count, word, fraction):
        self.count, self.word, self.fraction = count, word, fraction


class Row:
    """Weights and bias in grains, over the inputs from `start` on."""

    def __init__(self, weights, bias, start):
        self.weights, self.bias, self.start = weights, bias, start


def rows_of(kind, size, numbers, count):
    if kind == 1:
        return [Row(numbers[o * count:(o + 1) * count], numbers[size * count + o], 0) for o in range(size)]
    return [Row(numbers[:size], numbers[size], o) for o in range(count - size + 1)]


class RowStage:
    """Full and taps."""

    def __init__(self, record, accumulator, before):
        kind, size = record[0], record[1]
        limit = 64 if kind == 1 else min(31, before.count)
        if not 1 <= size <= limit:
            refuse(22)
        numbers = size * before.count + size if kind == 1 else size + 1
        if len(record) != 6 + 4 * numbers:
            refuse(23)
        self.fw, self.ww, self.fy, self.wy = record[2:6]
        self.fx = before.fraction
        sound = 4 <= self.fw <= 20 and 2 <= self.ww <= 24 and is_format(self.wy, self.fy)
        if not sound or self.fw + self.fx > 24 or self.fy > self.fw + self.fx:
            refuse(24)
        self.accumulator = accumulator
        values = [signed(record[6 + 4 * j:10 + 4 * j]) for j in range(numbers)]
        self.kind, self.rows = kind, rows_of(kind, size, values, before.count)
        self.after = Shape(len(self.rows), self.wy, self.fy)

    def weight_code(self, weight):
        return weight >> (24 - self.fw)

    def bias_code(self, bias):
        return bias >> (24 - self.fw - self.fx)

    def wire(self, output, row, wires):
        wires = wires[row.start:row.start + len(row.weights)]
        codes = [self.weight_code(weight) for weight in row.weights]
        if not all(fits(code, self.ww) for code in codes):
            refuse(25, output)
        low = high = self.bias_code(row.bias)
        for code, wire in [(0, Wire(0, 0, 0))] + list(zip(codes, wires)):
            products = (code * wire.low, code * wire.high)
            low, high = low + min(products), high + max(products)
            if not (fits(low, self.accumulator) and fits(high, self.accumulator)):
                refuse(26, output)
        dropped = self.fw + self.fx - self.fy
        low, high = low >> dropped, high >> dropped
        if not (fits(low, self.wy) and fits(high, self.wy)):
            refuse(27, output)
        error = self.error(row, codes, wires)
        if error > MOST_ERROR:
            refuse(28, output)
        return Wire(low, high, error)

    def error(self, row, codes, wires):
        unit, bias_unit = 1 << (24 - self.fw), 1 << (24 - self.fw - self.fx)
        total = 0
        for weight, code, wire in zip(row.weights, codes, wires):
            reach = max(abs(wire.low), abs(wire.high)) << (24 - self.fx)
            total += abs(weight) * wire.error + (weight - code * unit) * reach
        rounded_up = -(-total >> 24)
        bias_rest = row.bias - self.bias_code(row.bias) * bias_unit
        return rounded_up + bias_rest + (1 << (24 - self.fy)) - bias_unit

    def wires(self, wires):
        return [self.wire(o, row, wires) for o, row in enumerate(self.rows)]

    def codes(self, codes):
        outputs = []
        for o, row in enumerate(self.rows):
            total = self.bias_code(row.bias)
            terms = [self.weight_code(w) * x for w, x in zip(row.weights, codes[row.start:])]
            for term in [0] + terms:
                total += term
                if not fits(total, self.accumulator):
                    refuse(44, o)
            code = total >> (self.fw + self.fx - self.fy)
            if not fits(code, self.wy):
                refuse(45, o)
            outputs.append(code)
        return outputs

    def exact(self, depth, values):
        scale = 1 << (24 * (depth + 1))
        outputs = [sum(w * x for w, x in zip(row.weights, values[row.start:])) + row.bias * scale for row in self.rows]
        return depth + 1, outputs


class KeepingStage:
    """Largest, rectifier and repeat."""

    def __init__(self, record, accumulator, before):
        self.kind, self.size = record[0], record[1]
        n, p = before.count, self.size
        within = {3: 2 <= p <= 64, 4: p == 0, 5: 2 <= p <= 8 and n * p <= 64}[self.kind]
        if not within:
            refuse(22)
        if len(record) != 2:
            refuse(23)
        count = {3: -(-n // p) if p else 0, 4: n, 5: n * p}[self.kind]
        self.after = Shape(count, before.word, before.fraction)

    def applied(self, values):
        if self.kind == 3:
            return [max(values[i:i + self.size]) for i in range(0, len(values), self.size)]
        if self.kind == 4:
            return [max(0, value) for value in values]
        return [value for value in values for _ in range(self.size)]

    def wires(self, wires):
        lows = self.applied([wire.low for wire in wires])
        highs = self.applied([wire.high for wire in wires])
        errors = [wire.error for wire in wires]
        errors = errors if self.kind == 4 else self.applied(errors)
        return [Wire(low, high, error) for low, high, error in zip(lows, highs, errors)]

    def codes(self, codes):
        return self.applied(codes)

    def exact(self, depth, values):
        return depth, self.applied(values)


class File:
    """An accepted file; making one judges it."""

    def __init__(self, data):
        if not 1 <= len(data) <= 65536:
            refuse(10, 0, 0)
        if data[0] != 1:
            refuse(11, 0, 0)
        self.head(data)
        shape, wires, place = self.shape, self.inputs, 24 + 12 * self.shape.count
        self.stages, self.wires = [], [wires]
        for k in range(1, self.stage_count + 1):
            length = unsigned(data[place:place + 2])
            if len(data) < place + 2 or length < 2 or len(data) < place + 2 + length:
                refuse(20, k, 0)
            stage, wires = self.stage(k, data[place + 2:place + 2 + length], shape, wires)
            self.stages.append(stage)
            self.wires.append(wires)
            shape, place = stage.after, place + 2 + length
        self.close(data, place, shape, wires)

    def head(self, data):
        length = unsigned(data[1:3])
        if len(data) < 3 or len(data) < 3 + length or length < 33 or length != 21 + 12 * data[3]:
            refuse(12, 0, 0)
        count, word, fraction, self.accumulator, self.stage_count = data[3:8]
        self.allowed, self.level = unsigned(data[8:12]), signed(data[12:16])
        self.rise, self.fall, self.delay = unsigned(data[16:18]), unsigned(data[18:20]), unsigned(data[20:24])
        counted = 1 <= count <= 64 and 1 <= self.stage_count <= 16 and 16 <= self.accumulator <= 56
        timed = self.rise >= 1 and 1 <= self.delay <= 1_000_000
        if not (counted and timed and is_format(word, fraction) and self.allowed <= MOST_ERROR):
            refuse(13, 0, 0)
        self.shape, self.inputs = Shape(count, word, fraction), []
        for i in range(count):
            p = 24 + 12 * i
            wire = Wire(signed(data[p:p + 4]), signed(data[p + 4:p + 8]), unsigned(data[p + 8:p + 12]))
            if wire.low > wire.high or not fits(wire.low, word) or not fits(wire.high, word) or wire.error > MOST_ERROR:
                refuse(14, 0, i)
            self.inputs.append(wire)

    def stage(self, k, record, shape, wires):
        if record[0] not in (1, 2, 3, 4, 5):
            refuse(21, k, 0)
        try:
            stage = (RowStage if record[0] <= 2 else KeepingStage)(record, self.accumulator, shape)
            return stage, stage.wires(wires)
        except Refused as refusal:
            number, *output = refusal.args
            refuse(number, k, *(output or [0]))

    def close(self, data, place, shape, wires):
        if place != len(data):
            refuse(30, self.stage_count, 0)
        if shape.count != 1:
            refuse(31, self.stage_count, 0)
        self.bound, self.output = wires[0].error, shape
        if self.bound > self.allowed:
            refuse(32, self.stage_count, 0)

    def output_code(self, codes):
        for stage in self.stages:
            codes = stage.codes(codes)
        return codes[0]

    def picks(self, code):
        return code << (24 - self.output.fraction) >= self.level

    def exact_output(self, values):
        depth = 0
        for stage in self.stages:
            depth, values = stage.exact(depth, values)
        return depth, values[0]


def verdict(data):
    try:
        return "accepted %d" % File(data).bound
    except Refused as refusal:
        return "refused " + " ".join(map(str, refusal.args))


# ---- the relay

class Heaviest:
    """The weight of the heaviest stretch of the frames so far; the empty stretch weighs 0."""

    def __init__(self):
        self.ending = self.weight = 0

    def add(self, weight):
        self.ending = max(0, self.ending) + weight
        self.weight = max(self.weight, self.ending)


class Relay:
    """The six calls. Every taken frame is also held against what is guaranteed of it."""

    def __init__(self):
        self.random = random.Random(0)
        self.file = None
        self.start()

    def start(self):
        """Count 0, no trip, and no frames since."""
        self.count, self.trip = 0, False
        self.sure, self.possible = Heaviest(), Heaviest()

    def loaded(self):
        return self.file or refuse(40)

    def load(self, data):
        self.file = File(data)
        self.code, self.picked = 0, False
        self.start()
        return self.file.bound

    def reset(self):
        self.loaded()
        self.start()

    def state(self):
        return self.loaded().bound, self.code, self.picked, self.count, self.trip

    def certificate(self, k, places):
        file = self.loaded()
        if k > file.stage_count:
            refuse(43)
        wires = file.wires[k]
        if places < len(wires):
            refuse(46)
        return wires

    def bench(self, k, places, codes):
        file = self.loaded()
        if not 1 <= k <= file.stage_count:
            refuse(43)
        if len(codes) != len(file.wires[k - 1]):
            refuse(41)
        if places < len(file.wires[k]):
            refuse(46)
        return file.stages[k - 1].codes(codes)

    def frame(self, codes):
        file = self.loaded()
        if len(codes) != len(file.inputs):
            refuse(41)
        for i, (code, wire) in enumerate(zip(codes, file.inputs)):
            if not wire.takes(code):
                refuse(42, i)
        self.code = self.carried(codes)
        self.picked = file.picks(self.code)
        self.count = min(file.delay, self.count + file.rise) if self.picked else max(0, self.count - file.fall)
        self.trip = self.trip or self.count == file.delay
        self.check(codes)
        return self.code, self.picked, self.count, self.trip

    def carried(self, codes):
        """The output code. No stage may refuse, and no code may leave its wire."""
        for stage, wires in zip(self.file.stages, self.file.wires[1:]):
            try:
                codes = stage.codes(codes)
            except Refused as refusal:
                raise AssertionError("a frame met an overflow") from refusal
            assert len(codes) == len(wires) and all(wire.takes(code) for wire, code in zip(wires, codes))
        return codes[0]

    def true_input(self, code, wire):
        """A value in grains within the wire's error of the code, mostly as far off as it may be."""
        off = self.random.choice([-wire.error, wire.error, self.random.randint(-wire.error, wire.error)])
        return (code << (24 - self.file.shape.fraction)) + off

    def check(self, codes):
        """The exact output is within the bound, a heavy stretch of sure frames trips, a trip has one of possible ones."""
        file, exact = self.file, []
        for _ in range(3):
            depth, value = file.exact_output([self.true_input(c, wire) for c, wire in zip(codes, file.inputs)])
            assert abs(value - (self.code << (24 * (depth + 1) - file.output.fraction))) <= file.bound << (24 * depth)
            exact.append(value)
        sure = max(exact) >= (file.level + file.bound) << (24 * depth)
        possible = min(exact) >= (file.level - file.bound) << (24 * depth)
        assert (self.picked or not sure) and (possible or not self.picked)
        self.sure.add(file.rise if sure else -file.fall)
        self.possible.add(file.rise if possible else -file.fall)
        assert self.trip or self.sure.weight < file.delay
        assert not self.trip or self.possible.weight >= file.delay


# ---- scripts

class Malformed(Exception):
    """A line that is no call."""


def must(well_formed):
    if not well_formed:
        raise Malformed


def unsigned_part(part):
    must(re.fullmatch("[0-9]+", part))
    digits = part.lstrip("0") or "0"
    must(len(digits) <= 10 and int(digits) < 1 << 32)
    return int(digits)


def signed_part(part):
    value = -unsigned_part(part[1:]) if part.startswith("-") else unsigned_part(part)
    must(fits(value, 32))
    return value


def spoken(code, picked, count, trip):
    return "code %d %s count %d %s" % (code, "picked" if picked else "below", count, "tripped" if trip else "clear")


def load_block(relay, parts):
    must(len(parts) <= 1 and all(re.fullmatch("([0-9A-Fa-f]{2})+", part) for part in parts))
    return "accepted %d" % relay.load(bytes.fromhex("".join(parts)))


def frame_block(relay, parts):
    return spoken(*relay.frame([signed_part(part) for part in parts]))


def reset_block(relay, parts):
    must(not parts)
    relay.reset()
    return "reset"


def state_block(relay, parts):
    must(not parts)
    bound, *rest = relay.state()
    return "bound %d %s" % (bound, spoken(*rest))


def certificate_block(relay, parts):
    must(len(parts) == 2)
    k, places = map(unsigned_part, parts)
    wires = relay.certificate(k, places)
    lines = ["  %d: low %d high %d error %d bits %d" % (i, wire.low, wire.high, wire.error, wire.bits())
             for i, wire in enumerate(wires)]
    return "\n".join(["stage %d: %d wires" % (k, len(wires))] + lines)


def bench_block(relay, parts):
    must(len(parts) >= 2)
    k, places = map(unsigned_part, parts[:2])
    codes = relay.bench(k, places, [signed_part(part) for part in parts[2:]])
    return "stage %d: %s" % (k, " ".join(map(str, codes)))


BLOCKS = {"load": load_block, "frame": frame_block, "reset": reset_block, "state": state_block,
          "certificate": certificate_block, "bench": bench_block}


def block(relay, line):
    """What is printed for a line, without the last line feed."""
    word, *parts = line.split(" ")
    try:
        must(word in BLOCKS)
        return BLOCKS[word](relay, parts)
    except Malformed:
        return "malformed"
    except Refused as refusal:
        return "refused " + " ".join(map(str, refusal.args))


def script_lines(data):
    """The lines of a script, each byte as one character."""
    lines = data.decode("latin-1").split("\n")
    return lines if lines[-1] else lines[:-1]


def blocks(lines):
    relay = Relay()
    return [block(relay, line) for line in lines]


def told_blocks(text):
    """What a program printed, parted into blocks: only the further lines of a block begin with a space."""
    return re.split("\n(?! )", text[:-1]) if text.endswith("\n") else [text]


def tally(lines):
    """How often each sort of line got each sort of answer."""
    counts = collections.Counter()
    for line, told in zip(lines, blocks(lines)):
        word = "malformed" if told == "malformed" else line.split(" ")[0]
        counts[word, ""] += 1
        first, *rest = told.split()
        if first == "refused":
            counts[word, "refused " + rest[0]] += 1
        elif word == "frame":
            counts[word, " ".join(rest[1:2] + rest[4:])] += 1
    return counts


# ---- files from a seed

def word32(value):
    return (value & 0xFFFFFFFF).to_bytes(4, "big")


def row_record(random, kind, size, count, fx, tame):
    fw = random.randint(4, min(20, 24 - fx)) if fx <= 20 else 4
    fy = random.randint(max(0, min(fx, 14) - 2), min(20, fw + fx, fx + 2)) if tame else random.randint(0, 20)
    wy, ww = min(24, fy + 10), 24 if tame else random.randint(2, 24)
    numbers = size * count + size if kind == 1 else size + 1
    reach = (1 << 24) // max(1, size if kind == 2 else count)
    body = b"".join(word32(random.randint(-reach, reach)) for _ in range(numbers))
    return bytes([kind, size, fw, ww, fy, wy]) + body, fy


def made_file(random):
    """A file of some stages that is mostly accepted."""
    count = random.choice([1, 2, 3, 4, 8, 16, 64])
    fraction = random.randint(2, 12)
    word = random.randint(fraction + 1, min(24, fraction + 10))
    records, n, fx, tame = [], count, fraction, random.random() < 0.9
    for _ in range(random.randint(0, 7)):
        kind = random.choice([1, 1, 2, 3, 4, 4, 5])
        if kind == 1:
            size = random.choice([1, 2, 3, 5, 8])
            record, fx = row_record(random, 1, size, n, fx, tame)
            n = size
        elif kind == 2:
            size = random.randint(1, min(31, n))
            record, fx = row_record(random, 2, size, n, fx, tame)
            n = n - size + 1
        elif kind == 3:
            size = random.choice([2, 3, 4, 64])
            record, n = bytes([3, size]), -(-n // size)
        elif kind == 4:
            record = bytes([4, 0])
        else:
            size = random.randint(2, 8)
            if n * size > 64:
                continue
            record, n = bytes([5, size]), n * size
        records.append(record)
    one_output = random.random() < 0.96
    if (n != 1 and one_output) or not records or random.random() < 0.2:
        records.append(row_record(random, 1, 1, n, fx, tame)[0])
    top = (1 << (word - 1)) - 1
    inputs = b""
    for _ in range(count):
        low, high = sorted((random.randint(-top, top), random.randint(-top, top)))
        inputs += word32(low) + word32(high) + random.choice([0, 1, 4096, 65536]).to_bytes(4, "big")
    allowed = random.choice([MOST_ERROR, MOST_ERROR, 1 << 20])
    header = bytes([count, word, fraction, random.choice([56, 48, 40, 32, 24]), len(records)]) + word32(allowed)
    header += word32(random.randint(-MOST_ERROR, MOST_ERROR)) + b"\0\2\0\1\0\0\0\6" + inputs
    data = b"\1" + len(header).to_bytes(2, "big") + header
    return data + b"".join(len(record).to_bytes(2, "big") + record for record in records)


def stage_places(data):
    """The places of the stages' kinds and sizes."""
    place, places = 24 + 12 * data[3], []
    while place + 3 < len(data):
        places += [place + 2, place + 3]
        place += 2 + unsigned(data[place:place + 2])
    return places


def damaged(random, data):
    """One byte altered, the end cut off, or bytes added."""
    way = random.random()
    if way < 0.1:
        return data[:random.randrange(len(data) + 1)]
    if way < 0.15:
        return data + bytes(random.randint(1, 3))
    near_head = random.randrange(min(len(data), 48))
    place = random.choice([near_head, random.randrange(len(data)), random.choice(stage_places(data))])
    value = random.choice([0, 1, 2, 6, 16, 24, 31, 64, 65, 127, 128, 255, random.randrange(256)])
    return data[:place] + bytes([value]) + data[place + 1:]


def files(seed, count):
    source = random.Random(seed)
    for _ in range(count):
        data = made_file(source)
        yield data if source.random() < 0.4 else damaged(source, data)


def table(seed, each):
    """Short files, some for each refusal and more that are accepted, as entries of a table of trials."""
    found = {}
    for data in files(seed, 20000):
        line = verdict(data)
        kind = line.split()[1] if line.startswith("refused") else "accepted"
        chosen = found.setdefault(kind, [])
        most, longest = (8 * each, 600) if kind == "accepted" else (each, 200)
        if len(chosen) < most and len(data) <= longest and (data, line) not in chosen:
            chosen.append((data, line))
    for kind in sorted(found):
        for data, line in found[kind]:
            yield '    trial "%s" "%s\\n"' % (data.hex().upper(), line)


# ---- scripts from a seed

REFERENCE = bytes.fromhex("010021010C08200100010000004000000002000100000006FFFFFF00000000FF00000000"
                          "000E0101040808090080000000000000")
FIVE_KINDS = bytes.fromhex("010045040C08200500100000001800000002000100000004" + 4 * "FFFFFF00000000FF00001000"
                           + "001202020408080A00800000FFB3333300001388" + "000204000002030200020502"
                           + "001A01010408080A00400000004000000040000000400000FFFFEC78")
LEAST, MOST = -(1 << 31), (1 << 31) - 1

NO_CALLS = ["", " ", "  ", " state", "state ", "State", "STATE", "states", "stat", "state 1", "state state", "\tstate",
            "state\t", "state\r", "reset ", "reset 0", "Reset", "resets", "load ", "load 0", "load 010", "load 0g",
            "load 01 00", "load  01", "load 01 ", "load 0x01", "load -1", "loads", "load01", "load\t01", "load 01\r",
            "Load 01", "frame ", "frame  1", "frame 1  2", "frame 1 ", " frame 1", "frame +1", "frame -", "frame --1",
            "frame 1-", "frame 1-1", "frame - 1", "frame 1.0", "frame 1,2", "frame 0x10", "frame 1e1", "frame a",
            "frame 1 a", "frame 2147483648", "frame -2147483649", "frame 4294967295", "frame 4294967296",
            "frame 18446744073709551616", "frame -18446744073709551615", "frame 0 1 2 99999999999999999999",
            "frame\t1", "frame1", "frame 1\r", "frame \u0661", "frame \uff11", "frame \u22121", "frames 1",
            "certificate", "certificate ", "certificate 0", "certificate 0 ", "certificate 0 64 ", "certificate 0 64 1",
            "certificate -0 64", "certificate 0 -0", "certificate -1 64", "certificate 0 -1", "certificate +0 64",
            "certificate 4294967296 64", "certificate 0 4294967296", "certificate 0 18446744073709551617",
            "certificate  0 64", "certificate 0  64", "certificate x 64", "certificate 0 x", "certificate 0 64\r",
            "Certificate 0 64", "certificates 0 64", "bench", "bench ", "bench 1", "bench 1 ", "bench 1 1 ",
            "bench 1 1 1 ", "bench 1 1  1", "bench  1 1 1", "bench 1  1 1", "bench -1 1 1", "bench 1 -1 1",
            "bench +1 1 1", "bench 1 +1 1", "bench 1 1 +1", "bench 4294967296 1 1", "bench 1 4294967296 1",
            "bench 1 1 2147483648", "bench 1 1 -2147483649", "bench 1 1 x", "bench x 1 1", "bench 1 x 1",
            "bench 1 1 1\r", "Bench 1 1 1", "benches 1 1 1", "judge", "help", "# state", "st\u00e4te", "0", "-1", "01"]


def file_of(word, fraction, accumulator, inputs, records):
    """A file of these inputs and stage records, with the largest allowed error."""
    header = bytes([len(inputs), word, fraction, accumulator, len(records)]) + word32(MOST_ERROR) + bytes(12)
    header += b"".join(word32(number) for wire in inputs for number in wire)
    data = b"\1" + len(header).to_bytes(2, "big") + header
    return timed(data + b"".join(len(record).to_bytes(2, "big") + record for record in records), 0, 2, 1, 6)


def timed(data, level, rise, fall, delay):
    """The file with this pickup level, rise, fall and delay."""
    return data[:12] + word32(level) + rise.to_bytes(2, "big") + fall.to_bytes(2, "big") + word32(delay) + data[24:]


def heavy_file(random):
    """Weights so large that codes of 32 bits can leave even 56 bits, some only on the way to a sum that fits."""
    weights = [0, 0, 0] + [random.choice([(1 << 27) - 1, -(1 << 27)]) for _ in range(5)]
    record = bytes([1, 2, 20, 24, 14, 24]) + b"".join(map(word32, weights + [-99999, 99999]))
    return file_of(8, 4, random.choice([48, 55, 56]), 4 * [(-2, 3, 16)], [record, bytes([3, 2])])


def square_file(random):
    """64 inputs and a full stage of 64 outputs."""
    inputs = [(-random.randint(0, 999), random.randint(0, 999), 4096) for _ in range(64)]
    first, fraction = row_record(random, 1, 64, 64, 10, True)
    return file_of(14, 10, 48, inputs, [first, bytes([4, 0]), bytes([3, 7]), row_record(random, 1, 1, 10, fraction, True)[0]])


def accepted(data):
    return verdict(data).startswith("accepted")


def accepted_file(make, random, fitting):
    """A file of this make that is accepted and fitting."""
    while True:
        data = make(random)
        if accepted(data) and fitting(data):
            return data


def has(kind, least, most):
    """The files of least to most bytes that have a stage of this kind."""
    return lambda data: least <= len(data) <= most and kind in [stage.kind for stage in File(data).stages]


def refused_files(seed, each):
    """Short files for each refusal. Accepted ones are made to lack one grain of allowed error."""
    found = collections.defaultdict(set)
    for data in files(seed, 4000):
        answer, number = verdict(data).split()[:2]
        if answer == "accepted" and int(number) > 0:
            data, number = data[:8] + word32(int(number) - 1) + data[12:], "32"
        found[number].add(data)
    return [sorted(found[number], key=lambda data: (len(data), data))[:each] for number in sorted(found) if int(number) <= 32]


def some_frame(random, file):
    """Codes inside the ranges, many of them at or beside an end."""
    def code(wire):
        ends = [wire.low, wire.high, min(wire.low + 1, wire.high), max(wire.high - 1, wire.low)]
        return random.choice(ends) if random.random() < ends_wanted else random.randint(wire.low, wire.high)
    ends_wanted = random.choice([0, 0.3, 1])
    return [code(wire) for wire in file.inputs]


def crossing(file, below, above):
    """Two frames that differ by one in one code, the first not picked and the second picked."""
    codes = list(below)
    for i, wanted in enumerate(above):
        off, on = codes[i], wanted
        codes[i] = on
        if file.picks(file.output_code(codes)):
            break
    while abs(on - off) > 1:
        codes[i] = middle = (on + off) // 2
        off, on = (off, middle) if file.picks(file.output_code(codes)) else (middle, on)
    return codes[:i] + [off] + codes[i + 1:], codes[:i] + [on] + codes[i + 1:]


class Trial:
    """Frames for a loaded file: some that are picked, some that are not, and such as stand beside each other."""

    def __init__(self, random, file):
        frames = [some_frame(random, file) for _ in range(40)]
        self.above = [frame for frame in frames if file.picks(file.output_code(frame))]
        self.below = [frame for frame in frames if not file.picks(file.output_code(frame))]
        self.beside = []
        if self.above and self.below:
            for _ in range(4):
                self.beside += crossing(file, random.choice(self.below), random.choice(self.above))


def settled(random, data):
    """The file with a level at or beside some output, and a rise, fall and delay of any size."""
    file = File(data)
    outputs = [file.output_code(some_frame(random, file)) for _ in range(9)]
    output, unit = sorted(outputs)[random.choice([0, 4, 4, 4, 4, 8])], 1 << (24 - file.output.fraction)
    level = output * unit + random.choice([0, 0, 0, 1, -1, unit // 2, 1 - unit])
    if random.random() < 0.06:
        level = random.choice([LEAST, MOST])
    rise = random.choice([1, 2, 3, 7, 1000, 65535])
    fall = random.choice([0, 1, 1, 2, rise, 65535])
    delay = min(1_000_000, random.choice([1, rise, 2 * rise, 3 * rise + 1, 5 * rise - 1, 6 * rise, rise * 3, 1_000_000]))
    return timed(data, level, rise, fall, delay)


class Script:
    """A script in the making: its lines, and the relay as they leave it."""

    def __init__(self, seed):
        self.random, self.relay, self.lines = random.Random(seed), Relay(), []
        self.refused = refused_files(seed, 30)
        self.no_calls = []

    def say(self, word, *parts):
        self.lines.append(" ".join([word] + list(parts)))
        return block(self.relay, self.lines[-1])

    def unsigned(self, value):
        return "0" * self.random.choice([1, 2, 9, 30]) + str(value) if self.random.random() < 0.03 else str(value)

    def signed(self, value):
        if value == 0 and self.random.random() < 0.03:
            return "-0"
        return "-" + self.unsigned(-value) if value < 0 else self.unsigned(value)

    def load(self, data):
        digits = data.hex()
        mixed = "".join(self.random.choice([digit, digit.upper()]) for digit in digits)
        return self.say("load", *filter(None, [self.random.choice([digits, digits.upper(), mixed])]))

    def frame(self, codes):
        return self.say("frame", *map(self.signed, codes))

    def bench(self, k, places, codes):
        return self.say("bench", self.unsigned(k), self.unsigned(places), *map(self.signed, codes))

    def certificate(self, k, places):
        return self.say("certificate", self.unsigned(k), self.unsigned(places))

    # Each of the following adds one or some lines.

    def no_call(self):
        """A line that is no call; all sorts come once before any comes again."""
        if not self.no_calls:
            self.no_calls = self.random.sample(NO_CALLS, len(NO_CALLS))
        self.say(self.no_calls.pop().encode().decode("latin-1"))

    def refused_load(self):
        self.load(self.random.choice(self.random.choice(self.refused)))
        if self.random.random() < 0.4:
            self.say("state")

    def plain_frame(self):
        self.frame(some_frame(self.random, self.relay.file))

    def frame_beside_level(self):
        if self.trial.beside:
            self.frame(self.random.choice(self.trial.beside))

    def rising(self):
        """Picked frames until the count has stopped at the delay, if that is soon."""
        for _ in range(self.random.randint(1, 9)):
            if self.trial.above and self.relay.count < self.relay.file.delay:
                self.frame(self.random.choice(self.trial.above))
        if self.relay.trip and self.trial.above:
            self.frame(self.random.choice(self.trial.above))

    def falling(self):
        """Frames below the level until the count has stopped at 0, if that is soon."""
        for _ in range(self.random.randint(1, 6)):
            if self.trial.below and self.relay.count > 0:
                self.frame(self.random.choice(self.trial.below))
        if self.trial.below:
            self.frame(self.random.choice(self.trial.below))

    def frame_outside(self):
        """One code beside its range or far off, and perhaps a later one."""
        codes, inputs = some_frame(self.random, self.relay.file), self.relay.file.inputs
        for i in self.random.choices(range(len(codes)), k=self.random.choice([1, 1, 2])):
            codes[i] = self.random.choice([inputs[i].low - 1, inputs[i].high + 1, LEAST, MOST])
        self.frame(codes)

    def miscounted(self, codes):
        """More or fewer codes."""
        longer = codes + [self.random.choice([0, 1, LEAST, MOST])] * self.random.choice([1, 1, 1, 65])
        return self.random.choice([codes[1:], codes[:-1], [], longer, longer])

    def frame_miscounted(self):
        self.frame(self.miscounted(some_frame(self.random, self.relay.file)))

    def places(self, needed):
        ample = [needed, needed, needed + 1, 64, 65, 1000, (1 << 32) - 1]
        short = [needed - 1, needed - 1, 0]
        return self.random.choice(ample if self.random.random() < 0.8 else short)

    def every_certificate(self):
        for k, wires in enumerate(self.relay.file.wires):
            self.certificate(k, self.places(len(wires)))

    def one_certificate(self):
        k = self.random.randint(0, self.relay.file.stage_count)
        self.certificate(k, self.places(len(self.relay.file.wires[k])))

    def no_stage(self):
        k = self.random.choice([self.relay.file.stage_count + 1, self.relay.file.stage_count + 1, 17, 255, 256, (1 << 32) - 1])
        self.certificate(k, self.random.choice([0, 64, 64, 99]))

    def bench_no_stage(self):
        count = self.relay.file.stage_count
        k = self.random.choice([0, 0, count + 1, count + 1, 17, 256, 257, (1 << 32) - 1])
        self.bench(k, self.random.choice([0, 64]), some_frame(self.random, self.relay.file))

    def some_stage(self):
        return self.random.randint(1, self.relay.file.stage_count)

    def bench_codes(self, k, codes):
        self.bench(k, self.places(len(self.relay.file.wires[k])), codes)

    def bench_inside(self):
        k = self.some_stage()
        ends = self.random.random() < 0.5
        self.bench_codes(k, [self.random.choice([wire.low, wire.high]) if ends else self.random.randint(wire.low, wire.high)
                             for wire in self.relay.file.wires[k - 1]])

    def bench_any(self):
        """Codes of any size up to 32 bits."""
        k, reach = self.some_stage(), self.random.choice([None, None, 8, 12, 16, 20, 24, 28, 31])
        codes = [self.random.choice([LEAST, MOST, 0, -1, 1]) if reach is None
                 else self.random.randint(-(1 << reach), (1 << reach) - 1) for _ in self.relay.file.wires[k - 1]]
        self.bench_codes(k, codes)

    def bench_edge(self):
        """All codes 0 but one, which takes a row to an end of the accumulator or of the output word, or just beyond."""
        stages = [k for k, stage in enumerate(self.relay.file.stages, 1) if stage.kind <= 2]
        if not stages:
            return
        k = self.random.choice(stages)
        stage, codes = self.relay.file.stages[k - 1], [0] * len(self.relay.file.wires[k - 1])
        row = self.random.choice(stage.rows)
        i = self.random.randrange(len(row.weights))
        end = 1 << self.random.choice([stage.accumulator - 1, stage.wy - 1 + stage.fw + stage.fx - stage.fy])
        end = self.random.choice([end - 1, -end]) - stage.bias_code(row.bias)
        code = end // (stage.weight_code(row.weights[i]) or 1) + self.random.choice([-1, 0, 1])
        codes[row.start + i] = max(LEAST, min(MOST, code))
        self.bench(k, 64, codes)

    def bench_miscounted(self):
        k = self.some_stage()
        self.bench_codes(k, self.miscounted([0] * len(self.relay.file.wires[k - 1])))

    def with_no_file(self):
        """Every call with no file loaded, refused loads and lines that are no calls between them."""
        for _ in range(2):
            self.say("state")
            self.say("frame")
            self.say("frame", "0")
            self.say("reset")
            self.certificate(0, 64)
            self.certificate(17, 0)
            self.bench(1, 64, [0])
            self.bench(0, 0, [])
            self.say("load")
            self.refused_load()
            self.no_call()

    def on_file(self, data, calls):
        """A load and so many further lines, or some more."""
        assert self.load(data).startswith("accepted")
        self.trial = Trial(self.random, self.relay.file)
        ways = {self.plain_frame: 6, self.frame_beside_level: 10, self.rising: 4, self.falling: 4, self.frame_outside: 3,
                self.frame_miscounted: 2, self.one_certificate: 4, self.no_stage: 1, self.bench_inside: 4, self.bench_any: 4,
                self.bench_edge: 5, self.bench_miscounted: 1, self.bench_no_stage: 1, self.refused_load: 4, self.no_call: 4,
                lambda: self.say("reset"): 2, lambda: self.say("state"): 3}
        end = len(self.lines) + calls
        if self.random.random() < 0.3:
            self.every_certificate()
        while len(self.lines) < end:
            self.random.choices(list(ways), list(ways.values()))[0]()


def next_file(random, turn):
    """Small files, each kind of stage in turn; every eighteenth is longer, and one is square."""
    kind = 1 + turn % 5
    if turn <= 2:
        return [FIVE_KINDS, REFERENCE][turn - 1]
    if turn == 20:
        return settled(random, accepted_file(square_file, random, has(1, 0, 65536)))
    if turn % 18 == 0:
        return settled(random, accepted_file(made_file, random, has(kind, 1000, 2000)))
    if turn % 16 == 3:
        return settled(random, heavy_file(random))
    return settled(random, accepted_file(made_file, random, has(kind, 0, random.choice([110, 150, 200, 350]))))


def script(seed, calls):
    """The lines of a script: calls with no file, then one file after another, one of them too long for the relay."""
    made = Script(seed)
    made.with_no_file()
    turn = 0
    while len(made.lines) < calls:
        turn += 1
        data = next_file(made.random, turn)
        made.on_file(data, made.random.randint(5, 10) if len(data) >= 1000 else made.random.randint(10, 45))
        if turn == 30:
            made.load(REFERENCE + bytes(65537 - len(REFERENCE)))
    return made.lines[:calls]


def compared(lines, told):
    """The lines whose blocks differ, with both."""
    expected = blocks(lines)
    if len(told) != len(expected):
        yield "%d blocks, not %d" % (len(told), len(expected))
    for i, (line, here, there) in enumerate(zip(lines, expected, told)):
        if here != there:
            yield "line %d: %s\n told: %s\n  not: %s" % (i + 1, line, there, here)


def main(arguments):
    if arguments[:1] == ["verdict"]:
        with open(arguments[1], "rb") as file:
            print(verdict(file.read()))
    elif arguments[:1] == ["files"]:
        for data in files(int(arguments[1]), int(arguments[2])):
            print(data.hex(), verdict(data))
    elif arguments[:1] == ["table"]:
        print("\n    ∷ ".join(entry.strip() for entry in table(int(arguments[1]), int(arguments[2]))))
    elif arguments[:1] == ["compare"]:
        differ = 0
        for data in files(int(arguments[1]), int(arguments[2])):
            told = subprocess.run([arguments[3]], input=data, capture_output=True, check=True).stdout.decode()
            if told != verdict(data) + "\n":
                differ += 1
                print(data.hex(), repr(told), verdict(data))
        print("%d disagreements" % differ)
    elif arguments[:1] == ["script"]:
        # No line feed after the last line, which a script may do without.
        sys.stdout.buffer.write("\n".join(script(int(arguments[1]), int(arguments[2]))).encode("latin-1"))
    elif arguments[:1] == ["answers"]:
        for told in blocks(script_lines(sys.stdin.buffer.read())):
            print(told)
    elif arguments[:1] == ["tally"]:
        for (word, answer), count in sorted(tally(script_lines(sys.stdin.buffer.read())).items()):
            print("%6d  %s %s" % (count, word, answer))
    elif arguments[:1] == ["compare-script"]:
        lines = script(int(arguments[1]), int(arguments[2]))
        told = subprocess.run([arguments[3]], input="\n".join(lines).encode("latin-1"), capture_output=True, check=True).stdout
        differences = list(compared(lines, told_blocks(told.decode("latin-1"))))
        print("\n".join(differences + ["%d disagreements" % len(differences)]))
    else:
        print(__doc__)


if __name__ == "__main__":
    main(sys.argv[1:])
