//! A merge in plain Rust for the driver `merge`, with copies of slices wherever it can.

const HEADER: usize = 0x40;
const RESOURCE: usize = 0x70;
const VOICE: usize = 0x170;
const COUNTS: [(usize, u32); 7] = [(0x08, 96), (0x0c, 31), (0x10, 64), (0x14, 8), (0x18, 64), (0x24, 32), (0x28, 128)];

fn number(d: &[u8], at: usize) -> u32 {
    d.get(at..at + 4).map_or(0, |b| u32::from_le_bytes(b.try_into().expect("four bytes")))
}

/// Resources and voices of a block, and where its effects begin.
fn sections(d: &[u8]) -> (&[u8], &[u8], usize) {
    let size = |at| number(d, at) as usize;
    let resources = HEADER + size(0x04) + size(0x08);
    let voices = resources + size(0x10);
    let effects = voices + size(0x0c);
    (d.get(resources..voices).unwrap_or_default(), d.get(voices..effects).unwrap_or_default(), effects)
}

fn used(voices: &[u8], k: usize) -> Option<&[u8]> {
    voices.get(k * VOICE..(k + 1) * VOICE).filter(|e| e[9] != 0)
}

/// The channels that n voices name, a bit for each.
fn named(voices: &[u8], n: usize) -> u64 {
    let ids = |e: &[u8]| {
        let count = number(e, 0x18).clamp(1, 6) as usize;
        (0..count).fold(0, |all, c| all | 1u64 << (number(e, 0x140 + 4 * c) as i32).clamp(0, n as i32 - 1))
    };
    (0..n).filter_map(|k| used(voices, k)).fold(0, |all, e| all | ids(e))
}

/// Copies bytes from a place on to the front of `to`, fills it with zeros, and gives what is behind it.
fn copied<'a>(to: &'a mut [u8], count: usize, from: &[u8], at: usize) -> &'a mut [u8] {
    let (to, behind) = to.split_at_mut(count);
    let from = from.get(at..).unwrap_or_default();
    let there = from.len().min(count);
    to[..there].copy_from_slice(&from[..there]);
    to[there..].fill(0);
    behind
}

/// One block of two, to the front of the output; its size, or the refusal's number.
pub fn merge(parameters: &[u8], title: &[u8], click: &[u8], output: &mut [u8]) -> Result<usize, u32> {
    if COUNTS.iter().any(|&(at, most)| number(parameters, at) > most) {
        return Err(2);
    }
    let n = number(parameters, 0x10) as usize;
    let ((resources, voices, effects), (their_resources, their_voices, _)) = (sections(title), sections(click));
    if (0..n).any(|k| used(voices, k).is_some() && used(their_voices, k).is_some()) {
        return Err(16);
    }
    let theirs = named(their_voices, n);
    if named(voices, n) & theirs != 0 {
        return Err(17);
    }
    let mut header = [0; HEADER];
    copied(&mut header, HEADER, title, 0);
    header[0x0c..0x10].copy_from_slice(&((n * VOICE) as u32).to_le_bytes());
    header[0x10..0x14].copy_from_slice(&((n * RESOURCE) as u32).to_le_bytes());
    let middle = number(&header, 0x04) as usize + number(&header, 0x08) as usize;
    let rest = title.get(effects..).unwrap_or_default();
    let size = HEADER + middle + n * (RESOURCE + VOICE) + rest.len();
    if size > output.len() {
        return Err(18);
    }
    let to = copied(output, HEADER, &header, 0);
    let mut to = copied(to, middle, title, HEADER);
    for j in 0..n {
        to = copied(to, RESOURCE, if theirs >> j & 1 != 0 { their_resources } else { resources }, j * RESOURCE);
    }
    for k in 0..n {
        to = copied(to, VOICE, used(voices, k).or(used(their_voices, k)).unwrap_or_default(), 0);
    }
    copied(to, rest.len(), rest, 0);
    Ok(size)
}
