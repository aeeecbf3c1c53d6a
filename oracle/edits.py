#!/usr/bin/env python3
"""edits.py FROM TO [rules]: copies kirikae's audio sources from FROM to TO with document 01's edits, and with `rules` also with document
02's rules; docs/DIFFERENCES.md has their reasons. An edit whose text does not stand in its file exactly once stops the build, so that the
oracle is never something else unnoticed."""
import os
import sys

EDITS = {
    "dsp.rs": [
        # Three samples (needed is 0): the Rust reads past them and panics. Here it counts that it has no answer and runs on, so that it can
        # be asked for all that doesn't depend on the point.
        ("let p3 = input[i + 3];", "let p3 = input.get(i + 3).copied().unwrap_or_else(crate::no_answer);"),
    ],
    "mod.rs": [
        # The reply does not depend on the process, which is only warned.
        ("fn update(&self, p: &Process, input: &[u8], out_size: usize)", "fn update(&self, input: &[u8], out_size: usize)"),
        (
            """        if out.len() != out_size {
            p.warn_once(format!("audren: update output is {:#x} bytes, the game expects {out_size:#x}", out.len()));
        }
""",
            "",
        ),
    ],
    "mixer.rs": [
        # Rounds are counted where a round gets past its first test.
        ("let wb = self.buffers[self.index];", "crate::count_round();\n            let wb = self.buffers[self.index];"),
    ],
}
# Document 02's rules, which come after these edits.
RULES = {
    "dsp.rs": [
        # L4: where there is no fourth point, 2 × third - second, the product first. Resamples with such a point are counted.
        (".unwrap_or_else(crate::no_answer)", ".unwrap_or(2.0 * p2 - p1)"),
        (
            "    let end = fraction + ratio * out.len() as f32;\n",
            "    if input.len() == HISTORY && !out.is_empty() {\n        crate::count_fourth();\n    }\n"
            "    let end = fraction + ratio * out.len() as f32;\n",
        ),
    ],
    "mixer.rs": [
        # Voices that come to L4's rule are counted by format and channels.
        (
            "        voice.fetch(mem, needed, &mut self.src, buffers_v2);\n",
            "        if needed == 0 {\n            crate::count_still(voice.format, channels);\n        }\n"
            "        voice.fetch(mem, needed, &mut self.src, buffers_v2);\n",
        ),
    ],
    "mod.rs": [
        # L2: an empty input skips the five updates and tells the positions.
        (
            "            state.update_channel_resources(part(resources_at, u(0x10)));\n",
            "            if input.is_empty() {\n                state.positions(&mut voice_status);\n            } else {\n"
            "            state.update_channel_resources(part(resources_at, u(0x10)));\n",
        ),
        (
            "            state.update_sinks(part(mixes_at + u(0x18), u(0x1c)));\n",
            "            state.update_sinks(part(mixes_at + u(0x18), u(0x1c)));\n            }\n",
        ),
    ],
}
# What is appended to a file: probes, to read and write what is private in it; and what the rules need of it.
APPENDED = {"mixer.rs": "mixer_probe.rs", "mod.rs": "renderer_probe.rs"}
APPENDED_RULES = {"mixer.rs": "mixer_rules.rs"}
# Of mod.rs, the rest of which is the service around the renderer, only these parts are taken, each from one line up to another.
PARTS = {
    "mod.rs": (
        "renderer.rs",
        [("const HEADER_SIZE: usize", "pub struct AudioRendererManager;"), ("impl Renderer {", "impl Service for Renderer {")],
    )
}


def cut(name, text, first, end):
    if text.count(first) != 1 or text.count(end) != 1:
        sys.exit(f"edits.py: {name}: {first!r} or {end!r} does not stand there just once")
    return text[text.index(first) : text.index(end)]


def beside(name):
    return open(f"{os.path.dirname(os.path.abspath(__file__))}/{name}").read()


source, target = sys.argv[1:3]
rules = sys.argv[3:] == ["rules"]
if (sys.argv[3:] and not rules) or RULES.keys() - EDITS.keys():
    sys.exit(f"edits.py: no {sys.argv[3:]}, or a rule for a file that isn't copied")
for name, edits in EDITS.items():
    text = open(f"{source}/{name}").read()
    written, parts = PARTS.get(name, (name, []))
    if parts:
        text = "\n".join(cut(name, text, first, end) for first, end in parts)
    for old, new in edits + (RULES.get(name, []) if rules else []):
        found = text.count(old)
        if found != 1:
            sys.exit(f"edits.py: {name}: {old!r} stands there {found} times, not once")
        text = text.replace(old, new)
    for appended in [APPENDED, APPENDED_RULES] if rules else [APPENDED]:
        if name in appended:
            text += beside(appended[name])
    open(f"{target}/{written}", "w").write(text)
