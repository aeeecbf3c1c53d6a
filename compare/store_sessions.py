#!/usr/bin/env python3
"""store_sessions.py DRIVER ORACLE: packs sessions, each after its 32-bit length, and what the oracle's session program prints for them, as
the stored input and output of the program sessions_main. First come sessions that are refused by 1, 2 and 6 and have calls after the
refusal; ORACLE, the oracle's session program, answers them. Of the sessions that DRIVER makes, each with the oracle's answer, it takes
three that are refused, and then short ones that are heard, as many as the program has room for. Last come a session with empty updates and
one with held notes, which ORACLE answers too. It fails if 1, 2, 6 or 10 is not among the answers, if the empty updates don't tell the
positions that their session is made for, or if the held notes don't sound as document 02 has them."""
import glob
import os
import struct
import subprocess
import sys
import tempfile

ROOM, SHORT, REFUSED, MADE = 196608, 24000, 3, 3000
REVISION = 0x35564552
RENDER = b"\1"


def update(expected, given=b""):
    """An update, without input if none is given."""
    return struct.pack("<BII", 0, expected, len(given)) + given


def session(calls, samples=2, sinks=1, effects=0, memory=b"", voices=1):
    """A session of two mix buffers, and by default of one voice, without sample memory."""
    parameters = struct.pack("<7I20xI", 48000, samples, 2, 0, voices, sinks, effects, REVISION)
    blocks = struct.pack("<I", len(parameters)) + parameters + struct.pack("<I", len(memory)) + memory
    return blocks + struct.pack("<I", len(calls)) + b"".join(calls)


# Samples 0; samples 0 and a sink too many; a sink too many; an effect too many; a reply of more than 16,384 bytes, as first and as third call.
CALLS = [RENDER, update(272), RENDER]
REFUSALS = [
    session(CALLS, samples=0),
    session(CALLS, samples=0, sinks=9),
    session(CALLS, sinks=9),
    session(CALLS, effects=65),
    session([update(0x8000), *CALLS], effects=1),
    session([RENDER, update(400), update(0x8000), *CALLS], effects=1),
]


def record(size, *fields):
    """A record of so many bytes, with fields (offset, format, values..)."""
    r = bytearray(size)
    for at, form, *values in fields:
        struct.pack_into("<" + form, r, at, *values)
    return bytes(r)


def voice(queued, *buffers, new=1, pitch=1.0):
    """A started voice, by default a new one, of one channel of 16-bit PCM, that goes to mix 0; a buffer is its place in memory and its
    samples."""
    waves = [record(0x38, (0, "QQII", 0x10000 + at, 2 * n, 0, n)) for at, n in buffers]
    sent = record(0x38, (0x1A, "B", 1))
    head = record(0x60, (8, "4BI", new, 1, 0, 2, 48000), (0x18, "Iff", 1, pitch, 1.0), (0x3C, "I", queued), (0x58, "II", 0, 0xFFFFFFFF))
    return head + b"".join(waves + [sent] * (4 - len(waves))) + bytes(0x30)


def sections(voices, gains=b"", mix=b"", sink=b""):
    """The bytes of an update with these sections."""
    head = record(0x40, (0x0C, "2I", len(voices), len(gains)), (0x18, "2I", len(mix), len(sink)))
    return head + gains + voices + mix + sink


# Voice 0 plays 20 samples and then 8 more; voice 1 has none queued, so that it stays fresh; both go to the sink.
VOICES = voice(2, (0, 20), (40, 8)) + voice(0)
GAINS = 2 * record(0x70, (4, "2f", 1.0, 0.5))
MIX = record(0x930, (0, "f", 1.0), (8, "IB", 2, 1), (0x924, "II", 0x7FFFFFFF, 0xFFFFFFFF))
SINK = record(0x140, (0, "2B", 1, 1), (0x120, "I2B", 2, 0, 1))
TITLE, EMPTY = sections(VOICES, GAINS, MIX, SINK), update(0)
CLIP = struct.pack("<28h", *range(1000, 29000, 1000))
# Both voices are fresh; voice 0 plays on between empty updates; a title's 63 bytes put it out of use.
ASKED = [update(0, TITLE), EMPTY, RENDER, EMPTY, RENDER, EMPTY, EMPTY, RENDER, EMPTY, update(0, TITLE[:63]), EMPTY, RENDER]
ASKING = session(ASKED, samples=8, memory=CLIP, voices=2)
# Played and consumed of voice 0 in the replies to these calls, and whether the frames of the renders are heard.
TOLD = [(0, 0), (0, 0), True, (8, 0), True, (16, 0), (16, 0), True, (24, 1), (0, 0), (0, 0), False]

# A voice that is heard with gain 1 on both sides, three samples a render: at pitch 0.5; at pitch 0, where a render needs no new sample; at
# pitch 0.5 again.
NORMAL = update(0, sections(voice(1, (0, 4), pitch=0.5), record(0x70, (4, "2f", 1.0, 1.0)), MIX, SINK))
SLOW, ON = (update(0, sections(voice(1, new=0, pitch=pitch))) for pitch in (0.0, 0.5))
SLOWED = [NORMAL, RENDER, EMPTY, SLOW, RENDER, EMPTY, RENDER, EMPTY, ON, RENDER, EMPTY]
SLOWING = session(SLOWED, samples=3, memory=struct.pack("<4h", 100, 200, 300, 400))
# Played and consumed of the voice in the replies, and the sides of the frames, times 32,768. The first render plays the sample 100 and ends
# halfway to the next. At pitch 0 the points are 0, 0, 100 and 2 × 100 - 0, and each frame lies halfway between the second and the third.
HELD = [43.75] * 6
AFTER = [43.75, 43.75, 100, 100, 150, 150]
SAID = [(0, 0), [0, 0, -6.25, -6.25, 0, 0], (1, 0), (1, 0), HELD, (1, 0), HELD, (1, 0), (1, 0), AFTER, (3, 0)]


def position(line, voices):
    """Played and consumed of the first of so many voices in a reply's line."""
    words = dict(w.split(b":") for w in line.split()[2:])
    return tuple(int(words.get(b"%04x" % (0x40 + 0x40 * voices + at), b"0"), 16) for at in (0, 8))


def sides(line):
    """Left and right of the frames in a line, times 32,768."""
    return [struct.unpack(">f", bytes.fromhex(word.decode()))[0] * 32768 for word in line.split()[2:]]


def heard(printed):
    """Some frame is not silent."""
    return any(set(line.split()[2:]) - {b"00000000"} for line in printed.split(b"\n") if line.startswith(b"frames"))


def cases(driver, oracle, folder):
    """The sessions to choose from, with the oracle's answers."""
    for each in REFUSALS:
        answer = subprocess.run([oracle], input=each, stdout=subprocess.PIPE, check=True).stdout
        assert answer.split(b"\n")[-2].startswith(b"refused"), answer
        yield each, answer, True
    subprocess.run([driver, "program", "1", str(MADE), folder], check=True)
    refused = 0
    for path in sorted(glob.glob(folder + "/*.in"), key=lambda p: int(os.path.basename(p)[:-3])):
        made, answer = open(path, "rb").read(), open(path[:-3] + ".out", "rb").read()
        wanted = heard(answer) or (answer.startswith(b"refused") and refused < REFUSED)
        yield made, answer, wanted and len(made) <= SHORT
        refused += wanted and len(made) <= SHORT and answer.startswith(b"refused")


def answered(oracle, each, voices, of_frames, due):
    """What the oracle says to a session with so many voices, which must be what it is made for."""
    answer = subprocess.run([oracle], input=each, stdout=subprocess.PIPE, check=True).stdout
    said = [position(line, voices) if line.startswith(b"reply") else of_frames(line) for line in answer.splitlines()]
    if said != due:
        sys.exit(f"store_sessions.py: the oracle says {said}, not {due}")
    return answer


packed, printed, count = b"", b"", 0
with tempfile.TemporaryDirectory() as folder:
    for each, answer, wanted in cases(sys.argv[1], sys.argv[2], folder):
        if wanted and len(packed) + 4 + len(each) <= ROOM - 8 - len(ASKING + SLOWING):
            packed += struct.pack("<I", len(each)) + each
            printed += answer
            count += 1
for each, voices, of_frames, due in [(ASKING, 2, heard, TOLD), (SLOWING, 1, sides, SAID)]:
    packed += struct.pack("<I", len(each)) + each
    printed += answered(sys.argv[2], each, voices, of_frames, due)
    count += 1
missing = {b"refused 1", b"refused 2", b"refused 6", b"refused 10"} - set(printed.split(b"\n"))
if missing:
    sys.exit(f"store_sessions.py: no stored answer is {sorted(missing)}")
top = os.path.join(os.path.dirname(os.path.abspath(__file__)), "..", "crates", "sessions_main")
open(os.path.join(top, "stdin"), "wb").write(packed)
open(os.path.join(top, "stdout"), "wb").write(printed)
print(f"{count} sessions, {len(packed)} bytes; {len(printed)} bytes printed")
