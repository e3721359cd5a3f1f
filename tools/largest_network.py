#!/usr/bin/env python3
"""The largest network, for timing: 64 inputs and twelve stages in a file of exactly 65,536 bytes.

  largest_network.py file              the settings file
  largest_network.py script FRAMES     a script for `commission` that loads it and makes so many frames

A relay takes  (time for FRAMES frames − time for 0 frames) / FRAMES  for a frame; tools/plain_frame.c is a yardstick.
"""
import random
import sys

sys.dont_write_bytecode = True  # no folder of compiled modules beside the tools
from second_evaluator import MOST_ERROR, File, file_of, some_frame, timed, word32

RECTIFIER = bytes([4, 0])


def row_record(kind, size, numbers):
    """A record with 12 fraction bits everywhere."""
    return bytes([kind, size, 12, 16, 12, 20]) + b"".join(map(word32, numbers))


def full(source, size, count):
    """Rows whose weights are small enough for the bound and large enough that the output still depends on the inputs."""
    reach = 3 * MOST_ERROR // count
    return row_record(1, size, [source.randint(-reach, reach) for _ in range(size * count + size)])


def stages(source):
    """Three full stages of 64 by 64, then down to 54, 3 and 1; short stages between them fill the file."""
    copy = row_record(2, 1, [1 << 24, 0])
    square = [full(source, 64, 64), RECTIFIER, copy, full(source, 64, 64), RECTIFIER, copy, full(source, 64, 64)]
    return square + [RECTIFIER, copy, full(source, 54, 64), full(source, 3, 54), full(source, 1, 3)]


def largest(seed=1):
    source = random.Random(seed)
    data = file_of(16, 12, 48, [(-4096, 4095, 4096)] * 64, stages(source))
    file = File(data)
    outputs = sorted(file.output_code(some_frame(source, file)) for _ in range(99))
    return timed(data, outputs[49] << (24 - file.output.fraction), 2, 1, 1000)


def script(frames):
    data, source = largest(), random.Random(2)
    file = File(data)
    yield "load " + data.hex()
    for _ in range(frames):
        yield "frame " + " ".join(str(source.randint(wire.low, wire.high)) for wire in file.inputs)


def main(arguments):
    if arguments == ["file"]:
        sys.stdout.buffer.write(largest())
    elif arguments[:1] == ["script"]:
        for line in script(int(arguments[1])):
            print(line)
    else:
        print(__doc__)


if __name__ == "__main__":
    main(sys.argv[1:])
