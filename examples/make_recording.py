#!/usr/bin/env python3
"""Makes examples/recording.wav: 3 s, 16,000 samples a second, 16 bits, three sounds with silence between.

    examples/make_recording.py [FILE]

Only sums and products of doubles and whole numbers are used, so that the bytes are the same on every machine.
"""
import os
import struct
import sys

RATE = 16000
COUNT = 3 * RATE
# The cosine and the sine of one sample's turn of a tone of 150 Hz.
COS, SIN = 0.9982656101847159, 0.05887080365118903
# First sample, end and loudness of each sound.
SOUNDS = ((4800, 12000, 0.5), (17600, 25600, 0.35), (35200, 43200, 0.25))
RISE = 480  # samples in which a sound comes and goes


def noise(count):
    """Whole numbers from -40 to 40, by a linear congruential generator."""
    state, made = 12345, []
    for _ in range(count):
        state = (state * 1103515245 + 12345) % 2147483648
        made.append((state >> 16) % 81 - 40)
    return made


def tone(count):
    """A tone and its second and third harmonic, by turning a point; at most 1 in size."""
    x, y, made = 1.0, 0.0, []
    for _ in range(count):
        made.append((y + x * y + (3.0 - 4.0 * y * y) * y * 0.5) / 2.0)
        x, y = COS * x - SIN * y, SIN * x + COS * y
    return made


def shape(i, first, end):
    """How much of a sound is there at sample i: it rises and falls in a straight line."""
    return min(1.0, (i - first) / RISE, (end - i) / RISE)


def samples():
    made = noise(COUNT)
    for first, end, loudness in SOUNDS:
        for i, v in zip(range(first, end), tone(end - first)):
            made[i] += int(v * shape(i, first, end) * loudness * 32767.0)
    return made


def wav(values):
    """The bytes of a WAV file."""
    data = struct.pack(f"<{len(values)}h", *values)
    head = struct.pack("<4sI4s4sIHHIIHH4sI", b"RIFF", 36 + len(data), b"WAVE", b"fmt ", 16, 1, 1, RATE, 2 * RATE, 2, 16, b"data", len(data))
    return head + data


def main(arguments):
    path = arguments[0] if arguments else os.path.join(os.path.dirname(os.path.abspath(__file__)), "recording.wav")
    with open(path, "wb") as f:
        f.write(wav(samples()))


if __name__ == "__main__":
    main(sys.argv[1:])
