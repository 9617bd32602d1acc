#!/usr/bin/env python3
# Writes examples/cohort.bin: five subjects, each with four observations of base + slope * individual.
# A record is 48 bytes, little-endian: subject and a reserved 0 (32 bits each), then the floats value,
# additive, proportional, base, slope.
import struct
import sys

SLOPES = [1.0, 2.0, 4.0, 3.0]
VALUES = [
    [1.9, 3.2, 5.5, 4.1],
    [1.4, 2.1, 3.9, 3.0],
    [2.6, 4.4, 7.9, 6.3],
    [1.7, 2.9, 4.6, 4.2],
    [2.1, 3.0, 5.1, 3.8],
]

for subject, values in enumerate(VALUES):
    for slope, value in zip(SLOPES, values):
        sys.stdout.buffer.write(struct.pack("<IIddddd", subject, 0, value, 0.25, 0.1, 0.5, slope))
