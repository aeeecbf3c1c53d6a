#!/usr/bin/env python3
"""make_clip.py CLIP SAMPLES: writes an ADPCM clip of a fading 440 Hz note at 32,000 Hz (16 coefficients, a context of zeros, and
frames), and the samples that it must decode to, a frame to a line.

Each frame tries predictors 0 to 2 with every scale and keeps the header whose decoded samples are nearest."""
import math
import struct
import sys

PAIRS = [(0, 0), (2048, 0), (3780, -1820)] + [(0, 0)] * 5
FRAMES = 12
NOTE = [round(9000 * math.exp(-n / 120) * math.sin(2 * math.pi * 440 * n / 32000)) for n in range(14 * FRAMES)]


def clamp(x):
    return max(-32768, min(32767, x))


def decode(nibble, scale, pair, history):
    c, d = pair
    return clamp((nibble * 2 ** (11 + scale) + c * history[0] + d * history[1] + 1024) // 2048)


def frame(samples, history):
    best = None
    for predictor in range(3):
        for scale in range(13):
            h, nibbles, made, error = history, [], [], 0
            for s in samples:
                options = ((abs(decode(v, scale, PAIRS[predictor], h) - s), v) for v in range(-8, 8))
                _, v = min(options)
                x = decode(v, scale, PAIRS[predictor], h)
                nibbles.append(v & 15)
                made.append(x)
                error += (x - s) ** 2
                h = (x, h[0])
            if best is None or error < best[0]:
                best = (error, predictor * 16 + scale, nibbles, made, h)
    _, header, n, made, h = best
    return bytes([header] + [n[k] * 16 + n[k + 1] for k in range(0, 14, 2)]), made, h


def clip(note):
    """Frames of a note, and the samples that each decodes to."""
    data, frames, history = b"", [], (0, 0)
    for k in range(0, len(note), 14):
        block, made, history = frame(note[k:k + 14], history)
        data += block
        frames.append(made)
    return data, frames


if __name__ == "__main__":
    data, frames = clip(NOTE)
    pairs = b"".join(struct.pack("<hh", c, d) for c, d in PAIRS)
    open(sys.argv[1], "wb").write(pairs + struct.pack("<Hhh", 0, 0, 0) + data)
    open(sys.argv[2], "w").write("".join(" ".join(map(str, made)) + "\n" for made in frames))
