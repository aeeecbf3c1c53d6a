"""For compare/mutants: wrong edits of what the oracle has of its own, each with its name, its file, the text there and what it becomes; and
right ones, which change no answer, with the group that they belong to."""

# Memory in ranges: reads, and the questions.
READ = "(0..length).map(|k| self.byte(address.wrapping_add(k))).collect()"
FIND = "self.ranges.iter().find(|r| r.has(address))?;"
ASKED = "    asked.into_iter().filter("
FAR = "ranges.iter().any(|r| r.end() > 1 << 63)"
BELOW = "u128::from(pair[1].base) < pair[0].end()"
PART = "r.part_end() > bytes as u128"


def bytewise(byte):
    """A read of which byte k is so."""
    return f"(0..length).map(|k| {{ {byte} }}).collect()"


def moved(how):
    """The questions in another sequence."""
    return f"    let mut asked = asked;\n    asked.{how};\n{ASKED}"


RANGES = [
    ("a range that touches is a gap", "ranges.rs", READ,
     bytewise("let at = address.wrapping_add(k); self.byte(at).filter(|_| self.ranges.iter().any(|r| r.has(address) && r.has(at)))")),
    ("a gap reads as zeros", "ranges.rs", READ, bytewise("self.byte(address.wrapping_add(k)).or((k > 0).then_some(0))")),
    ("what is outside reads as zeros", "ranges.rs", READ, bytewise("self.byte(address.wrapping_add(k)).or(Some(0))")),
    ("straight on in the slice", "ranges.rs", READ,
     bytewise("self.byte(address.wrapping_add(k))?; let r = self.ranges.iter().find(|r| r.has(address))?; "
              "self.bytes.get((r.start + (address - r.base) + k) as usize).copied()")),
    ("a read up to the gap", "ranges.rs", READ,
     "Some((0..length).map_while(|k| self.byte(address.wrapping_add(k))).collect())"),
    ("start ignored", "ranges.rs", "(range.start + (address - range.base)) as usize", "(address - range.base) as usize"),
    ("an empty range stops the walk", "ranges.rs", FIND, FIND.replace(".find(", ".take_while(|r| r.length > 0).find(")),
    ("the first 15 ranges alone are read", "ranges.rs", FIND, FIND.replace(".find(", ".take(15).find(")),
    ("a byte behind the range", "ranges.rs", "address - self.base < self.length", "address - self.base <= self.length"),
    ("numbers left over are a range", "ranges.rs", "numbers.chunks_exact(3).map(|n| Range::new(n[0], n[1], n[2]))",
     "numbers.chunks(3).map(|n| Range::new(n[0], *n.get(1).unwrap_or(&0), *n.get(2).unwrap_or(&0)))"),
    ("17 ranges", "ranges.rs", "ranges.len() > 16", "ranges.len() > 17"),
    ("15 ranges at most", "ranges.rs", "ranges.len() > 16", "ranges.len() > 15"),
    ("no range is refused", "ranges.rs", "ranges.len() > 16", "ranges.is_empty() || ranges.len() > 16"),
    ("an end that wraps", "ranges.rs", "u128::from(self.base) + u128::from(self.length)",
     "u128::from(self.base.wrapping_add(self.length))"),
    ("a part's end that wraps", "ranges.rs", "u128::from(self.start) + u128::from(self.length)",
     "u128::from(self.start.wrapping_add(self.length))"),
    ("a part tested by its start alone", "ranges.rs", PART, "u128::from(r.start) > bytes as u128"),
    ("a part tested by its length alone", "ranges.rs", PART, "u128::from(r.length) > bytes as u128"),
    ("a part one byte too long", "ranges.rs", PART, "r.part_end() > bytes as u128 + 1"),
    ("no empty part at the slice's end", "ranges.rs", PART, f"{PART} || r.start as usize >= bytes"),
    ("an empty part anywhere", "ranges.rs", PART, f"r.length > 0 && {PART}"),
    ("ranges that touch refused", "ranges.rs", BELOW, BELOW.replace("<", "<=")),
    ("ranges that overlap by one", "ranges.rs", BELOW, BELOW.replace("<", "+ 1 <")),
    ("bases alone ascend", "ranges.rs", BELOW, "pair[1].base < pair[0].base"),
    ("parts may not overlap", "ranges.rs", BELOW,
     f"{BELOW} || pair[1].start < pair[0].start + pair[0].length && pair[0].start < pair[1].start"),
    ("5 asked of the first range only", "ranges.rs", FAR, FAR.replace(".any(", ".take(1).any(")),
    ("5 asked of bases alone", "ranges.rs", FAR, "ranges.iter().any(|r| r.base > 1 << 63)"),
    ("5 before 13", "ranges.rs", ASKED, moved("swap(0, 3)")),
    ("7 before 5", "ranges.rs", ASKED, moved("swap(3, 5)")),
    ("7 before 13", "ranges.rs", ASKED, moved("rotate_right(1)")),
]
# Many renders in one call: what they do, and the questions.
RENDERED = "let (frames, rounds) = self.rendered(numbers, memory);"
EACH = "for _ in 0..count {"
FLOATS = "count as usize * 2 * self.samples"
SECTIONS = [
    ("the rounds of the last render alone", "sections.rs", "section.rounds += rounds;", "section.rounds = rounds;"),
    ("every render to the front of the frames", "sections.rs", "section.frames.extend(&frames);",
     "section.frames.resize(count as usize * frames.len(), 0.0);\n            section.frames[..frames.len()].copy_from_slice(&frames);"),
    ("each render from the first's state", "sections.rs", f"let mut section = Section::default();\n        {EACH}",
     f"let (mut section, first) = (Section::default(), self.slices());\n        {EACH}\n"
     "            self.renderer = crate::renderer::Probe::restore(&first);"),
    ("later renders have no memory", "sections.rs", RENDERED,
     RENDERED.replace("numbers", "if section.frames.is_empty() { numbers } else { &[] }")),
    ("a section of 0 renders once", "sections.rs", EACH,
     "if count == 0 {\n            self.rendered(numbers, memory);\n        }\n        " + EACH),
    ("a section of 0 is asked nothing", "sections.rs", ".first() {", ".first().filter(|_| count > 0) {"),
    ("a section of 0 needs a float", "ranges.rs", "room < floats", "room < floats.max(1)"),
    ("1,024 renders refused", "ranges.rs", "count > 1024", "count >= 1024"),
    ("1,025 renders taken", "ranges.rs", "count > 1024", "count > 1025"),
    ("2^32 - 1 renders taken", "ranges.rs", "count > 1024", "count > 1024 && count < u32::MAX"),
    ("7 before 14", "ranges.rs", ASKED, moved("swap(4, 5)")),
    ("14 before 5", "ranges.rs", ASKED, moved("swap(3, 4)")),
    ("14 before 13", "ranges.rs", ASKED, moved("swap(0, 4)")),
    ("a section's frames one float short", "ranges.rs", "room < floats", "room + usize::from(count > 1) < floats"),
    ("7 asks for one render's floats", "session.rs", FLOATS, "2 * self.samples"),
]
RIGHT_OWN = [
    ("ranges", "5 asked of the last range only", "ranges.rs", FAR, FAR.replace(".any(", ".rev().take(1).any(")),
    ("ranges", "the last range that has an address", "ranges.rs", FIND, FIND.replace(".find(", ".rev().find(")),
    ("sections", "floats that go round at 2^32, where 14 has refused", "session.rs", FLOATS,
     "count.wrapping_mul(2 * self.samples as u32) as usize"),
]
