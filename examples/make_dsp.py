#!/usr/bin/env python3
"""make_dsp.py: writes DSP files, and beside each what the program dsp_main prints for it.
make_dsp.py --check [PROGRAM]: fails where a stored file is not the one that is made, or where the program prints something else.

note.dsp         a fading 440 Hz note of 101 samples at 32,000 Hz; the last frame is cut short, and its last nibble is no sample
looped.dsp       80 samples of it that loop from sample 45 on, with the loop's context, and 5 bytes beyond the samples
damaged.dsp      note.dsp with a byte of its padding set

Header and samples of the texts are read back from the file's bytes here, by Python's struct and the public description of DSP-ADPCM."""
import os
import random
import struct
import subprocess
import sys

sys.dont_write_bytecode = True
from make_clip import NOTE, PAIRS, clip

HERE = os.path.dirname(os.path.abspath(__file__))
# Big-endian: counts, rate, loop flag, format, loop start and end, address, coefficients, gain, two contexts, padding.
HEADER = ">IIIHHIII16hHHhhHhh22s"
NAMES = ["samples", "nibbles", "rate", "loop_flag", "format", "loop_start", "loop_end", "address"]
MOST = 524288  # bytes that dsp_main takes


def size(samples):
    """The bytes of so many samples: a frame of 8 for each 14, and of the rest a byte for its header and one for each two."""
    rest = samples % 14
    return samples // 14 * 8 + (1 + (rest + 1) // 2 if rest else 0)


def nibble(sample):
    """Where a sample stands among the nibbles, two of which are each frame's header."""
    return sample // 14 * 16 + sample % 14 + 2


def decode(data, count, coefficients, context):
    """So many samples by the public description, and for each the context with which a decode from it on starts."""
    header, last, before = context
    samples, contexts = [], []
    for k in range(count):
        at = k // 14 * 8
        if k % 14 == 0:
            header = data[at]
        byte = data[at + 1 + k % 14 // 2]
        contexts.append((header, last, before))
        value = byte & 15 if k % 2 else byte >> 4
        value -= 16 if value > 7 else 0
        c, d = coefficients[2 * (header >> 4 & 7):][:2]
        made = (value * 2 ** (11 + (header & 15)) + c * last + d * before + 1024) >> 11
        last, before = max(-32768, min(32767, made)), last
        samples.append(last)
    return samples, contexts


def dsp(samples, beyond=b"", loop=None):
    """The DSP file of the note's first samples, with bytes beyond them, and a loop from a sample on."""
    data = clip(NOTE[:samples + -samples % 14])[0][:size(samples)]
    pairs = [number for pair in PAIRS for number in pair]
    first = (data[0], 0, 0)
    loops, context = (0, 0, 0), (0, 0, 0)
    if loop is not None:
        loops, context = (1, nibble(loop), nibble(samples - 1)), decode(data, samples, pairs, first)[1][loop]
    flag, start, end = loops
    nibbles = nibble(samples - 1) + 1
    head = struct.pack(HEADER, samples, nibbles, 32000, flag, 0, start, end, 2, *pairs, 0, *first, *context, b"")
    return head + data + beyond


def lines(file):
    """What dsp_main prints for a file."""
    if len(file) > MOST:
        return f"too long: the most bytes are {MOST}\n"
    if len(file) < 96:
        return "refused 11\n"
    *numbers, padding = struct.unpack(HEADER, file[:96])
    first, pairs, gain, contexts = numbers[:8], numbers[8:24], numbers[24], (numbers[25:28], numbers[28:31])
    data = file[96:]
    if first[4] or gain or any(padding):
        return "refused 11\n"
    used = size(first[0])
    if len(data) < used:
        return "refused 12\n"
    said = [f"{name} {value}" for name, value in zip(NAMES, first)]
    said += ["coefficients " + " ".join(map(str, pairs)), f"gain {gain}"]
    said += [name + " ".join(map(str, context)) for name, context in zip(["start_context ", "loop_context "], contexts)]
    said += [f"data {len(data)}", f"holding samples {used}", f"beyond {len(data) - used}"]
    samples = decode(data, first[0], pairs, contexts[0])[0]
    text = "".join(str(s) + ("\n" if k % 14 == 13 else " ") for k, s in enumerate(samples))
    return "\n".join(said) + "\n" + text


def any_files():
    """Files with values of any kind, some too short: few samples, and counts around those that dsp_main decodes at once."""
    r = random.Random(1)
    for samples in [*range(60), 3583, 3584, 3585, 7167, 7168, 7169, held(MOST - 96)]:
        word, signed, long = (range(2 ** 16), range(-2 ** 15, 2 ** 15), range(2 ** 32))
        pairs = [r.choice([-32768, -1, 0, 1, 2048, 32767, r.choice(signed)]) for _ in range(16)]
        contexts = [r.choice(kind) for kind in (word, signed, signed) * 2]
        first = [samples, r.choice(long), r.choice(long), r.choice(word), 0, *r.choices(long, k=3)]
        head, data = struct.pack(HEADER, *first, *pairs, 0, *contexts, b""), r.randbytes(size(samples))
        yield f"any of {samples} samples", head + data
        yield f"any of {samples} samples, a byte more", head + data + b"\xff"
        yield f"any of {samples} samples, a byte less", head + data[:-1]


def held(size):
    """How many samples so many bytes hold."""
    return size // 8 * 14 + max(0, size % 8 - 1) * 2


def main():
    note = dsp(101)
    files = {"note": note, "looped": dsp(80, beyond=b"\x12\x34\x56\x78\x9a", loop=45), "damaged": note[:0x50] + b"\1" + note[0x51:]}
    made = {name + ".dsp": file for name, file in files.items()}
    made.update({name + ".txt": lines(file).encode() for name, file in files.items()})
    if sys.argv[1:2] != ["--check"]:
        for name, content in made.items():
            open(f"{HERE}/{name}", "wb").write(content)
        return
    for name, content in made.items():
        if open(f"{HERE}/{name}", "rb").read() != content:
            sys.exit(f"make_dsp.py: {name} is out of date")
    tried = list(files.items())
    # Cut at every length, so that each refusal comes.
    tried += [(f"{name} cut to {n} bytes", file[:n]) for name, file in files.items() for n in range(len(file))]
    tried += any_files()
    for program in sys.argv[2:]:
        for name, file in tried:
            said = subprocess.run([program], input=file, capture_output=True, check=True).stdout
            if said != lines(file).encode():
                sys.exit(f"make_dsp.py: {program} prints something else for {name}: {said[:2000]}")
        print(f"{len(tried)} files as {os.path.basename(program)} prints them")


main()
