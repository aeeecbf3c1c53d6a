#!/usr/bin/env python3
"""make_recording.py: writes a recording, what the program encode_main prints for it, and a DSP file of what it is encoded to; the first
two also as the program's test, crates/encode_main/stdin and stdout.
make_recording.py --check [ENCODE_MAIN [DSP_MAIN]]: fails where a stored file is not the one that is made, where encode_main prints
something else for the recording, for it cut at every length or for others of many kinds, or dsp_main other samples for the DSP file.

phrase.recording   two notes that fade, 61 samples at 8,000 Hz: 16 coefficients, a context of zeros, and the samples, little-endian
phrase.txt         the frames, what they decode to, and the error
phrase.dsp         the DSP file

Frames are made here by trying every nibble of every header."""
import functools
import math
import os
import random
import struct
import subprocess
import sys

sys.dont_write_bytecode = True
HERE = os.path.dirname(os.path.abspath(__file__))
TEST = f"{HERE}/../crates/encode_main"
RATE, COUNT, MOST = 8000, 61, 4096  # samples in a second, samples, bytes that encode_main reads
PAIRS = [0, 0, 2048, 0, 3680, -1664, 3120, -1104, 3780, -1820, 1024, 0, 1600, 280, 4000, -1990]


def note(hertz, since):
    """A note that fades, with its octave, so many samples after it began."""
    if since < 0:
        return 0
    turn = 2 * math.pi * hertz * since / RATE
    return 7000 * math.exp(-since / 40) * (math.sin(turn) + math.sin(2 * turn) / 3)


PHRASE = [round(note(440, k) + note(660, k - 24)) for k in range(COUNT)]


def made(nibble, header, pairs, history):
    """The sample that a nibble decodes to, by the public description of DSP-ADPCM."""
    c, d = pairs[header // 16 * 2:][:2]
    return max(-32768, min(32767, (nibble * 2 ** (11 + header % 16) + c * history[0] + d * history[1] + 1024) // 2048))


def trial(samples, header, pairs, history):
    """Nibbles and decoded samples of a frame with a header: each nibble the nearest, the lowest of several."""
    nibbles, decoded = [], []
    for sample in samples:
        x, nibble = min(((made(v, header, pairs, history), v) for v in range(-8, 8)), key=lambda a: (abs(a[0] - sample), a[1]))
        nibbles.append(nibble)
        decoded.append(x)
        history = (x, history[0])
    return nibbles, decoded


@functools.lru_cache(maxsize=None)
def frame(samples, pairs, history):
    """The bytes of a frame, its samples decoded and its error: the least of all headers, the lowest of several."""
    tried = []
    for header in range(128):
        nibbles, decoded = trial(samples, header, pairs, history)
        tried.append((sum((x - s) ** 2 for x, s in zip(decoded, samples)), header, nibbles, decoded))
    error, header, nibbles, decoded = min(tried)
    nibbles = [v & 15 for v in nibbles] + [0] * (len(nibbles) % 2)
    return bytes([header] + [16 * a + b for a, b in zip(nibbles[::2], nibbles[1::2])]), decoded, error


def encode(samples, pairs, history):
    """The frames of a recording: a list of their bytes, one of their samples decoded, and the error."""
    frames, decoded, error = [], [], 0
    for k in range(0, len(samples), 14):
        block, now, off = frame(tuple(samples[k:k + 14]), tuple(pairs), history)
        history = tuple(now[::-1] + list(history))[:2]
        frames.append(block)
        decoded.append(now)
        error += off
    return frames, decoded, error


def parts(recording):
    """The samples of a recording, its coefficients, and the two samples before. A number that is not whole is none, and 0 in the head."""
    numbers = struct.unpack(f"<{len(recording) // 2}h", recording[:len(recording) // 2 * 2])
    head = numbers[:19] + (0,) * (19 - len(numbers))
    return numbers[19:], head[:16], head[17:]


def lines(recording):
    """What encode_main prints."""
    frames, decoded, error = encode(*parts(recording))
    said = [f"predictor {f[0] >> 4} scale {f[0] & 15}: {f.hex(' ')}\n" for f in frames]
    said += [" ".join(map(str, d)) + (" \n" if len(d) < 14 else "\n") for d in decoded]
    return "".join(said) + f"error {error}\n"


def dsp(recording):
    """The DSP file of a recording."""
    samples, pairs, history = parts(recording)
    data = b"".join(encode(samples, pairs, history)[0])
    nibbles = 16 * (len(samples) // 14) + (len(samples) % 14 + 2 if len(samples) % 14 else 0)
    first = (data[0] if data else 0, *history)
    return struct.pack(">IIIHHIII16hHHhhHhh22s", len(samples), nibbles, RATE, 0, 0, 0, 0, 2, *pairs, 0, *first, 0, 0, 0, b"") + data


def others():
    """Recordings of many kinds: any pairs and histories, any samples, silence, ends of 16 bits, and as many samples as are read."""
    r = random.Random(1)
    ends, word = [-32768, 32767], range(-2 ** 15, 2 ** 15)
    kinds = [lambda n: r.choices(word, k=n), lambda n: [0] * n, lambda n: r.choices(ends, k=n), lambda n: r.choices(range(-9, 10), k=n)]
    counts = [*range(0, 30), (MOST - 38) // 2]
    for k, n in enumerate(counts):
        pairs = [PAIRS, r.choices(word, k=16), r.choices(ends, k=16), [2048, -1024] * 8][k % 4]
        samples = kinds[1 if n > 100 else k // 4 % 4](n)
        yield f"any of {n} samples", struct.pack(f"<16hHhh{n}h", *pairs, r.choice(range(2 ** 16)), *r.choices(word, k=2), *samples)


def main():
    recording = struct.pack(f"<16hHhh{COUNT}h", *PAIRS, 0, 0, 0, *PHRASE)
    text = lines(recording).encode()
    stored = {f"{HERE}/phrase.recording": recording, f"{HERE}/phrase.txt": text, f"{HERE}/phrase.dsp": dsp(recording)}
    stored.update({f"{TEST}/stdin": recording, f"{TEST}/stdout": text})
    if sys.argv[1:2] != ["--check"]:
        for path, content in stored.items():
            open(path, "wb").write(content)
        return
    for path, content in stored.items():
        if open(path, "rb").read() != content:
            sys.exit(f"make_recording.py: {os.path.relpath(path, HERE)} is out of date")
    for program in sys.argv[2:3]:
        tried = [(f"{n} bytes of the phrase", recording[:n]) for n in range(len(recording) + 1)] + list(others())
        for name, given in tried:
            said = subprocess.run([program], input=given, capture_output=True, check=True).stdout
            if said != lines(given).encode():
                sys.exit(f"make_recording.py: {program} prints something else for {name}: {said[:2000]}")
        print(f"{len(tried)} recordings as {os.path.basename(program)} prints them")
    for program in sys.argv[3:4]:
        said = subprocess.run([program], input=stored[f"{HERE}/phrase.dsp"], capture_output=True, check=True).stdout.decode()
        samples = [[int(x) for x in line.split()] for line in said.splitlines()[-5:]]
        if samples != encode(*parts(recording))[1]:
            sys.exit(f"make_recording.py: {program} prints other samples for phrase.dsp: {said}")
        print(f"phrase.dsp as {os.path.basename(program)} prints it")


main()
