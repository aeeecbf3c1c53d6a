#!/usr/bin/env python3
"""make_sessions.py: writes the example sessions examples/*.session, each with what the session program prints for it (*.txt), and says what
they show. Run it at the top of the repository after `tools/build session_main`; a session is run by hand as

    target/bin/session_main < examples/tone.session

make_sessions.py --check PROGRAM..: writes nothing; fails where a stored session is not the one that is made, or a program prints another
text than the stored one. The text of `positions` is worked out here and not taken from a program.

tone              One voice plays a looped sine of 16 samples (16-bit PCM) through mix 0 to the device sink. A loop without end: `played` grows by
                  16 with each render and `consumed`, the number of buffers that have ended, stays 0.
one_shot          One voice plays an ADPCM buffer of 28 samples and ends: after the second render `played` stands at 28, `consumed` at 1, and
                  the rest is silence.
unrouted          Voice 0 goes by splitter 0 to sub-mix 1, and from there to mix 0 and the sink. Voice 1 plays as well, but is routed nowhere.
unrouted_changed  The same with other samples for voice 1. Every line is the same: what is not routed is not heard, and no sample moves a
                  position.
positions         One voice plays a clip of 56 samples in two buffers. Updates without input tell how far it is, zeros while it is fresh,
                  and change nothing: they may come twice, and the frames go on. An input of one byte puts the voice out of use: the
                  positions are zeros, and the frames silent."""
import math
import os
import struct
import subprocess
import sys

SAMPLES = 16
RATE = 48000
REVISION = 0x38564552  # "REV8"
BASE = 0x10000
NO_MIX, NO_SPLITTER = 0x7FFFFFFF, 0xFFFFFFFF
PCM16, ADPCM = 2, 6


def record(size, *fields):
    """A record of so many bytes, with fields (offset, format, values..)."""
    r = bytearray(size)
    for at, form, *values in fields:
        struct.pack_into("<" + form, r, at, *values)
    return bytes(r)


def parameters(voices, sub_mixes, mix_buffers, splitters, destinations):
    return record(0x34, (0x00, "7I", RATE, SAMPLES, mix_buffers, sub_mixes, voices, 1, 0), (0x24, "2I", splitters, destinations), (0x30, "I", REVISION))


def wave(address, size, end, looping=False, context=0):
    """A wave buffer with all its samples; a loop has no end."""
    return record(0x38, (0x00, "QQ", address, size), (0x14, "I", end), (0x18, "B", looping), (0x1C, "i", -1), (0x20, "Q", context))


SENT = record(0x38, (0x1A, "B", 1))  # a wave record that was sent before, or holds nothing


def voice(number, form, buffers, new, mix=NO_MIX, splitter=NO_SPLITTER, data_source=0):
    """A voice in use, started, with one channel, these buffers, one behind the other, and the channel resource of its number."""
    head = record(
        0x60,
        (0x00, "I", number),
        (0x08, "4B", new, 1, 0, form),
        (0x0C, "I", RATE),
        (0x18, "Iff", 1, 1.0, 1.0),
        (0x3C, "I", 1),
        (0x48, "Q", data_source),
        (0x58, "II", mix, splitter),
    )
    waves = buffers if new else b""
    return head + waves + (4 - len(waves) // len(SENT)) * SENT + record(0x30, (0x00, "I", number))


def resource(*gains):
    """A channel's gain into each buffer of its mix."""
    return record(0x70, (0x04, f"{len(gains)}f", *gains))


def mix(number, buffers, destination=NO_MIX):
    """A mix in use; its buffers go to those of its destination one to one."""
    sends = [(0x24 + (k * 24 + k) * 4, "f", 1.0) for k in range(buffers)]
    return record(0x930, (0x00, "f", 1.0), (0x08, "I", buffers), (0x0C, "B", 1), (0x10, "I", number), (0x924, "II", destination, NO_SPLITTER), *sends)


def mixes(*records):
    return record(0x20, (0x04, "I", len(records))) + b"".join(records)


def sink(*inputs):
    """The device sink, fed by these buffers of mix 0."""
    return record(0x140, (0x00, "2B", 1, 1), (0x120, "I", len(inputs)), (0x124, f"{len(inputs)}B", *inputs))


def splitter_section(mix_number, *volumes):
    """Splitter 0 with one destination, a mix with a volume for each of its buffers."""
    head = record(0x20, (0x00, "4s", b"SNDH"), (0x04, "2I", 1, 1))
    splitter = record(0x14, (0x00, "4s", b"SNDI"), (0x0C, "I", 1))
    destination = record(0x70, (0x00, "4s", b"SNDD"), (0x08, f"{len(volumes)}f", *volumes), (0x68, "IB", mix_number, 1))
    section = head + splitter + destination
    return section + bytes(-len(section) % 16)


def update(voices, resources, desk=b"", splitters=b"", sinks=b""):
    """An update that expects the reply's own size."""
    voice_bytes, resource_bytes = b"".join(voices), b"".join(resources)
    head = record(0x40, (0x0C, "2I", len(voice_bytes), len(resource_bytes)), (0x18, "2I", len(desk), len(sinks)))
    body = head + resource_bytes + voice_bytes + splitters + desk + sinks
    return sent(body, 0x40 + len(voices) * 5 * 0x10 + 0x20 + 0x10 + 0xB0 + 0x10)


def sent(body, expected=0):
    """An update with this input; a reply has at least its own size, whatever is expected."""
    return b"\0" + struct.pack("<II", expected, len(body)) + body


ASK = sent(b"")
RENDER = b"\1"


def session(parameter_bytes, memory, calls):
    sections = [(len(parameter_bytes), parameter_bytes), (len(memory), memory), (len(calls), b"".join(calls))]
    return b"".join(struct.pack("<I", count) + data for count, data in sections)


def sine(amplitude):
    return struct.pack("<16h", *(round(amplitude * math.sin(2 * math.pi * k / 16)) for k in range(16)))


def tone():
    def voices(new):
        return [voice(0, PCM16, wave(BASE, 32, 16, looping=True), new, mix=0)]

    gains = [resource(1.0, 0.5)]  # the right side at half the gain
    calls = [update(voices(True), gains, mixes(mix(0, 2)), sinks=sink(0, 1)), RENDER, RENDER, update(voices(False), gains), RENDER, update(voices(False), gains)]
    return session(parameters(1, 0, 2, 0, 0), sine(16000), calls)


def one_shot():
    # the coefficients (pair 0 is 0, 0), the context, and two frames: header with scale 11, then 14 nibbles
    nibbles = [0, 1, 2, 3, 4, 5, 6, 7, 6, 5, 4, 3, 2, 1]
    frame = bytes([11] + [nibbles[k] * 16 + nibbles[k + 1] for k in range(0, 14, 2)])
    memory = bytes(32) + struct.pack("<3h", 11, 0, 0) + bytes(10) + frame + frame

    def voices(new):
        return [voice(0, ADPCM, wave(BASE + 0x30, 16, 28, context=BASE + 0x20), new, mix=0, data_source=BASE)]

    gains, calls = [resource(1.0)], []
    calls.append(update(voices(True), gains, mixes(mix(0, 1)), sinks=sink(0)))
    for _ in range(3):
        calls += [RENDER, update(voices(False), gains)]
    return session(parameters(1, 0, 1, 0, 0), memory, calls)


def unrouted(amplitude):
    def voices(new):
        heard = voice(0, PCM16, wave(BASE, 32, 16, looping=True), new, splitter=0)
        return [heard, voice(1, PCM16, wave(BASE + 32, 32, 16), new)]

    gains = [resource(1.0), resource(1.0)]
    desk = mixes(mix(0, 2), mix(1, 2, destination=0))
    calls = [update(voices(True), gains, desk, splitter_section(1, 1.0, 0.25), sink(0, 1)), RENDER, RENDER, update(voices(False), gains, splitters=splitter_section(1, 1.0, 0.25))]
    return session(parameters(2, 1, 4, 1, 1), sine(16000) + sine(amplitude), calls)


def reply_line(played, consumed, renders):
    """What is printed for a reply of one voice and one sink without effects, after so many renders."""
    header = {0x00: REVISION, 0x04: 0xB0, 0x08: 4 * 0x10, 0x0C: 0x10, 0x1C: 0x20, 0x20: 0x10, 0x28: 0x10, 0x3C: 384}
    words = {**header, 0x80: played, 0x88: consumed, 0x170: renders}
    return " ".join(["reply 384"] + [f"{at:04x}:{value:08x}" for at, value in words.items() if value])


def frames_line(samples):
    """What is printed for a render that makes these samples of the left side; the right side has half the gain."""
    sides = [side for s in samples for side in (s / 32768, s / 65536)]
    return " ".join([f"frames {SAMPLES}"] + [struct.pack(">f", side).hex() for side in sides])


def positions():
    """The session and its text. At ratio 1 a render takes 16 samples, and what is heard stands two samples behind."""
    clip, first, gains = [600 * k - 15000 for k in range(56)], 24, [resource(1.0, 0.5)]
    waves = wave(BASE, 2 * first, first) + wave(BASE + 2 * first, 2 * (len(clip) - first), len(clip) - first)
    heard = [0, 0] + clip
    calls = [update([voice(0, PCM16, waves, True, mix=0)], gains, mixes(mix(0, 2)), sinks=sink(0, 1)), ASK]
    lines = [reply_line(0, 0, 0)] * 2
    for k in range(3):
        calls += [RENDER] + [ASK] * (k % 2 + 1)
        played = SAMPLES * (k + 1)
        lines += [frames_line(heard[SAMPLES * k : played])] + [reply_line(played, int(played >= first), k + 1)] * (k % 2 + 1)
    calls += [sent(b"\0"), ASK, RENDER, ASK]
    lines += [reply_line(0, 0, 3)] * 2 + [frames_line([0] * SAMPLES), reply_line(0, 0, 4)]
    memory = struct.pack(f"<{len(clip)}h", *clip)
    return session(parameters(1, 0, 2, 0, 0), memory, calls), "\n".join(lines) + "\n"


def told(line, voices):
    """`played` and `consumed` of each voice in a reply's line."""
    words = dict((int(at, 16), int(value, 16)) for at, value in (w.split(":") for w in line.split()[2:]))
    first = 0x40 + voices * 4 * 0x10
    return "; ".join(f"voice {k}: played {words.get(first + k * 16, 0)}, consumed {words.get(first + k * 16 + 8, 0)}" for k in range(voices))


def floats(line):
    """The left side of a frames' line."""
    return " ".join(f"{struct.unpack('<f', bytes.fromhex(w)[::-1])[0]:.3f}" for w in line.split()[2::2])


def show(name, printed, voices):
    print(f"\n{name}:")
    for line in printed.splitlines():
        kind = line.split()[0]
        print("  " + ("left " + floats(line) if kind == "frames" else told(line, voices) if kind == "reply" else line))


FOLDER = os.path.dirname(os.path.abspath(__file__))
PROGRAM = os.path.join(FOLDER, "..", "target", "bin", "session_main")
# Each session, the number of its voices, and its text where that is worked out here.
SESSIONS = {
    "tone": (tone(), 1, None),
    "one_shot": (one_shot(), 1, None),
    "unrouted": (unrouted(16000), 2, None),
    "unrouted_changed": (unrouted(-9000), 2, None),
    "positions": (positions()[0], 1, positions()[1]),
}


def stored(name):
    with open(os.path.join(FOLDER, name), "rb") as f:
        return f.read()


def printed_by(program, name):
    """What a program prints for a session; fails where a text that is worked out is another."""
    made, _, text = SESSIONS[name]
    printed = subprocess.run([program], input=made, stdout=subprocess.PIPE, check=True).stdout.decode()
    if text not in (None, printed):
        sys.exit(f"make_sessions.py: {program} prints for {name} something else than what is worked out")
    return printed


def check(programs):
    for name, (made, _, _) in SESSIONS.items():
        if stored(name + ".session") != made:
            sys.exit(f"make_sessions.py: {name}.session is out of date")
        for program in programs:
            if printed_by(program, name) != stored(name + ".txt").decode():
                sys.exit(f"make_sessions.py: {program} prints for {name} something else than {name}.txt")
    lines = sum(stored(name + ".txt").count(b"\n") for name in SESSIONS)
    print(f"{len(SESSIONS)} sessions, {lines} lines, as {' and '.join(map(os.path.basename, programs))} prints them")


def write():
    print(__doc__.split("\n\n", 3)[3])
    for name, (made, voices, _) in SESSIONS.items():
        with open(os.path.join(FOLDER, name + ".session"), "wb") as f:
            f.write(made)
        if not os.path.exists(PROGRAM):
            print(f"\n{name}: written; not run, since there is no target/bin/session_main")
            continue
        printed = printed_by(PROGRAM, name)
        with open(os.path.join(FOLDER, name + ".txt"), "w") as f:
            f.write(printed)
        show(name, printed, voices)


if sys.argv[1:2] == ["--check"] and sys.argv[2:]:
    check(sys.argv[2:])
elif not sys.argv[1:]:
    write()
else:
    sys.exit(__doc__)
